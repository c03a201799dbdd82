#!/usr/bin/env bash
# How fast the clients are, beside SQLite's own journals and nbdkit's own file, on one disk in turn.
#
#   clients/speed.sh [WHAT..]      transactions, instructions, device; all of them if none is named
#
# ROUNDS (3) rounds are made, and each line is one of a round; FOLDER names the disk (a temporary folder).
set -eu
cd "$(dirname "$0")"
make -s all tests
out=$PWD/out
rounds=${ROUNDS:-3}
work=$(mktemp -d "${FOLDER:-${TMPDIR:-/tmp}}/envy-speed.XXXXXX")
trap 'rm -rf "$work"' EXIT
systems="delete wal envy bytewise bytewise-1k"

# load SYSTEM LOAD COUNT WARM [WORD..]: a load of speed.c, after the words that run it
load() {
    local system=$1 what=$2 count=$3 warm=$4 uri="file:$work/x.db" extension="" pragmas="synchronous=full"
    shift 4
    local envy="file:$work/x.envy?vfs=envy&size=64M"
    case $system in
    delete) pragmas="journal_mode=delete $pragmas" ;;
    wal) pragmas="journal_mode=wal $pragmas" ;;
    *) extension=$out/envyvfs.so ;;
    esac
    case $system in
    envy) uri=$envy ;;
    bytewise) uri="$envy&bytewise=1" ;;
    bytewise-1k) uri="$envy&bytewise=1" pragmas="page_size=1024 $pragmas" ;;
    esac
    rm -f "$work"/x.*
    # shellcheck disable=SC2086
    EXTENSION=$extension LD_PRELOAD=$out/tests/shim.so "$@" "$out/tests/speed" "$what" "$count" "$warm" "$uri" $pragmas
}

transactions() {
    for _ in $(seq "$rounds"); do
        for system in $systems; do
            for what in "bank 3000 500" "insert 3000 300" "insert100 500 50"; do
                # shellcheck disable=SC2086
                printf '%-12s %s\n' "$system" "$(load $system $what)"
            done
        done
    done
}

# what a transaction takes by callgrind: a run of 700 less one of 200
instructions() {
    valgrind --version >/dev/null 2>&1 || { echo "speed: valgrind isn't here" >&2; return 0; }
    export SHIM_DELAY=0
    for what in bank insert insert100; do
        for system in $systems; do
            for count in 200 700; do
                load "$system" "$what" "$count" 50 valgrind --tool=callgrind --callgrind-out-file=/dev/null >/dev/null 2>"$work/told"
                eval "of_$count=$(sed -n 's/.*Collected : \([0-9]*\).*/\1/p' "$work/told" | head -1)"
            done
            # shellcheck disable=SC2154
            printf '%-12s %-9s %s instructions a transaction\n' "$system" "$what" $(((of_700 - of_200) / 500))
        done
    done
}

# fio's words, and of its answer the operations a second
ask() {
    local name=$1
    shift
    fio --name="$name" --ioengine=nbd --uri="nbd+unix:///?socket=$work/socket" --size=48m --output-format=json "$@" >"$work/told" 2>&1
    python3 - "$work/told" <<'PROGRAM'
import json, sys
text = open(sys.argv[1]).read()
job = json.loads(text[text.index("{") : text.rindex("}") + 1])["jobs"][0]
for kind in ("read", "write"):
    if job[kind]["total_ios"]:
        print(f"{kind} {job[kind]['iops']:.0f} a second, mean {job[kind]['clat_ns']['mean'] / 1e3:.0f} us")
PROGRAM
}

device() {
    for _ in $(seq "$rounds"); do
        for system in file envy bytewise; do
            rm -f "$work"/disk* "$work/socket"
            case $system in
            file) truncate -s 64M "$work/disk" && set -- file "$work/disk" ;;
            envy) set -- "$out/envy.so" "file=$work/disk.envy" size=64M ;;
            bytewise) set -- "$out/envy.so" "file=$work/disk.envy" size=64M bytewise=true ;;
            esac
            nbdkit -f -U "$work/socket" "$@" &
            server=$!
            for _ in $(seq 200); do [ -S "$work/socket" ] && break || sleep 0.05; done
            ask fill --rw=write --bs=64k >/dev/null
            printf '%-10s 4 KiB, drawn, a flush each: %s\n' "$system" "$(ask write --rw=randwrite --bs=4k --io_size=8m --fsync=1)"
            printf '%-10s 4 KiB, drawn: %s\n' "$system" "$(ask read --rw=randread --bs=4k --io_size=32m)"
            kill "$server"
            wait "$server" || true
        done
    done
}

for what in "${@:-transactions instructions device}"; do
    for it in $what; do $it; done
done
