#!/usr/bin/env bash
# The clients, a VFS of SQLite, a plugin of nbdkit and a package for Python, as their users meet them and as they are
# stopped: some rounds of each, in a few minutes. clients/test.sh makes many. It needs gcc and the programs below, and skips
# what isn't here.
set -eu
cd "$(dirname "$0")"
# (where a system keeps tools that a user's path may lack)
export PATH=$PATH:/usr/local/sbin:/usr/sbin:/sbin
if ! gcc --version >/dev/null 2>&1; then
    echo "clients: SKIPPED: nothing was tried, for want of gcc" >&2
    exit 0
fi
library/build.py envy_library
cd ../clients
make -s all tests python
tests=tests
# package PROGRAM-OR-FILE: what gives it, of Debian's packages
package() {
    case $1 in
    *envyvfs*.so) echo "libsqlite3-dev" ;;
    *envy.so) echo "nbdkit-plugin-dev" ;;
    nbdinfo | nbdcopy) echo "libnbd-bin" ;;
    *) echo "${1##*/}" ;;
    esac
}
# has TEXT PROGRAM-OR-FILE..: whether they are here; else TEXT wasn't tried
has() {
    local what=$1 missing='' it
    shift
    for it in "$@"; do
        command -v "$it" >/dev/null 2>&1 || [ -e "$it" ] || missing+=", $it ($(package "$it"))"
    done
    [ -n "$missing" ] || return 0
    echo "clients: SKIPPED: $what wasn't tried, for want of ${missing#, }" >&2
    return 1
}
work=$(mktemp -d "${TMPDIR:-/tmp}/envy-clients.XXXXXX")
trap 'rm -rf "$work"' EXIT

if has "the VFS" out/envyvfs.so sqlite3 python3; then
    $tests/sqlite.sh "$work"
    # (a ledger begins with each of the next lines, so each has a database of its own)
    database() { echo "file:$work/$1.envy?vfs=envy&size=8M"; }
    files="file:$work/files.envy?vfs=envy&size=8M&journal=file"
    export EXTENSION=$PWD/out/envyvfs.so
    $tests/rounds.py kill 10 "$(database kill)"
    $tests/rounds.py machine 20 "$(database machine)"
    $tests/rounds.py failing 10 "$(database failing)"
    $tests/rounds.py bytewise 15 "file:$work/bytewise.envy?vfs=envy&size=8M&bytewise=1" --pragma page_size=1024
    $tests/rounds.py machine 8 "$files"
    $tests/rounds.py kill 8 "$(database mapped)&mapped=1"
fi
if has "an installed VFS" out/envyvfs.so sqlite3; then
    make -s DESTDIR="$work/installed" PREFIX=/usr install
    { echo ".load $work/installed/usr/lib/envy/envyvfs" && echo ".open 'file:$work/installed.envy?vfs=envy'" &&
        echo "create table t(a); insert into t values(7); select a from t;"; } | sqlite3 | grep -qx 7
    make -s DESTDIR="$work/installed" PREFIX=/usr uninstall
    [ -z "$(find "$work/installed" ! -type d)" ]
    echo "clients: what is installed works, and goes again"
fi
# SQLite's own tests, if its source is here: SQLITE_SOURCE names its folder
if [ -n "${SQLITE_SOURCE:-}" ]; then
    ./test.sh mptest
    $tests/sqlite_tests.py --quick "$SQLITE_SOURCE"
else
    echo "clients: SKIPPED: SQLite's own tests weren't run: SQLITE_SOURCE names no source" >&2
fi
if has "the device" out/envy.so nbdkit nbdinfo nbdcopy python3; then
    $tests/nbd.sh "$work"
    $tests/nbd_rounds.py kill 6
    $tests/nbd_rounds.py machine 12
    $tests/nbd_rounds.py bytewise 8 bytewise=true
    $tests/nbd.sh "$work" mapped=true
    $tests/nbd_rounds.py kill 5 --mapped
    $tests/fs_rounds.py 3 || [ $? = 77 ]
fi
if has "the package for Python" python3 ../c/out/libenvy.so.0; then
    $tests/python.sh "$work"
    # (it says itself what it lacks)
    ../examples/failing_disk.sh "$PWD/$tests/kept_lines.py" 6
fi
