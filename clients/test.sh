#!/usr/bin/env bash
# The long tests of the clients: hundreds of kills and of crashes of the machine, and SQLite's own programs.
#
#   clients/test.sh [WHAT..]      rounds, device, python, speedtest1, mptest, sqlite, memory; all of them if none is named
#
# The archive is made first, by `rt lib` in crates/envy_library. speedtest1, mptest and sqlite need SQLite's
# source (Debian: apt-get source sqlite3), whose folder SQLITE_SOURCE names; sqlite needs a testfixture made of it too, with
# tcl-dev. ROUNDS (200) is how many rounds of each kind are made, JOBS (1) how many test files run at a time.
set -eu
cd "$(dirname "$0")"
rounds=${ROUNDS:-200}
source=${SQLITE_SOURCE:-}
make -s all tests python
work=$(mktemp -d "${TMPDIR:-/tmp}/envy-clients.XXXXXX")
trap 'rm -rf "$work"' EXIT
export EXTENSION=$PWD/out/envyvfs.so

uri() { echo "file:$work/$1.envy?vfs=envy&size=8M$2"; }

rounds() {
    tests/rounds.py kill "$rounds" "$(uri kill "")"
    tests/rounds.py machine "$rounds" "$(uri machine "")" --seed 2
    tests/rounds.py machine "$((rounds / 2))" "$(uri small "")" --seed 3 --pragma page_size=1024
    tests/rounds.py bytewise "$rounds" "$(uri bytewise "&bytewise=1")" --seed 4
    tests/rounds.py machine "$((rounds / 4))" "$(uri files "&journal=file")" --seed 5
    tests/rounds.py failing "$((rounds / 2))" "$(uri failing "")" --seed 6
    tests/rounds.py kill "$((rounds / 2))" "$(uri mapped "&mapped=1")" --seed 7
}

device() {
    tests/nbd_rounds.py kill "$((rounds / 2))"
    tests/nbd_rounds.py machine "$((rounds / 2))" --seed 2
    tests/nbd_rounds.py bytewise "$((rounds / 2))" --seed 3 bytewise=true
    tests/nbd_rounds.py kill "$((rounds / 4))" --seed 4 --mapped
    tests/fs_rounds.py "$((rounds / 2))" || [ $? = 77 ]
}

python() { ENVY_KILLS=$rounds tests/python.sh "$work"; }

has_source() {
    [ -n "$source" ] && [ -e "$source/test/speedtest1.c" ] && return
    echo "test: SQLITE_SOURCE names no source of SQLite, so $1 wasn't run" >&2
    return 1
}

speedtest1() {
    has_source speedtest1 || return 0
    gcc -O2 -w -o "$work/speedtest1" "$source/test/speedtest1.c" -lsqlite3
    "$work/speedtest1" --size 20 --verify "$work/speed.db" >"$work/wanted"
    ENVYVFS="size=128M" LD_PRELOAD=$PWD/out/tests/preloaded_vfs.so "$work/speedtest1" --vfs envy --size 20 --verify "$work/speed.envy" >"$work/found"
    # the same lines but for the times
    diff <(sed 's/[0-9.]*s$//' "$work/wanted") <(sed 's/[0-9.]*s$//' "$work/found")
    tail -2 "$work/wanted" "$work/found"
}

# mptest's clients as threads. (Its other scripts end clients in the middle, and no client but all would end.)
mptest() {
    has_source mptest || return 0
    gcc -O2 -w -rdynamic -o "$work/one_process" tests/one_process.c -lsqlite3 -lpthread -ldl
    gcc -O2 -w -shared -fPIC -Dmain=mptest_main -Dsystem=mptest_system -Dexit=mptest_exit -o "$work/mptest.so" "$source/mptest/mptest.c" -lsqlite3
    ENVYVFS="size=32M" "$work/one_process" "$work" "$work/mptest.so" "$work/mptest.envy" --vfs envy --sync --repeat 2 \
        "$source/mptest/multiwrite01.test" >"$work/told" 2>&1 || { tail -5 "$work/told" >&2; return 1; }
    grep 'Summary: 0 errors' "$work/told"
}

# SQLite's own test files: tests/sqlite_tests.py has the list, and tests/sqlite_differences what ends otherwise, and why
sqlite() {
    has_source "SQLite's tests" || return 0
    tests/sqlite_tests.py --jobs "${JOBS:-1}" "$source"
}

# accesses of memory, by valgrind
memory() {
    valgrind --version >/dev/null 2>&1 || { echo "test: valgrind isn't here" >&2; return 0; }
    valgrind -q --error-exitcode=9 --leak-check=full --errors-for-leak-kinds=definite out/tests/threads "$(uri threads "")"
    SHIM_DELAY=0 LD_PRELOAD=$PWD/out/tests/shim.so valgrind -q --error-exitcode=9 out/tests/speed insert100 30 5 "$(uri speed "")" synchronous=full
}

for what in "${@:-rounds device python speedtest1 mptest sqlite memory}"; do
    for it in $what; do $it; done
done
