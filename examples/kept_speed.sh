#!/usr/bin/env bash
# How fast the memory in a file is, beside SQLite and LMDB on the same disk: a bank's transfers with a sync for each 1, 10,
# 100 and 1,000, in one run and in turn; what each writes and how often it syncs; how long opening takes, and a compaction.
# Words: a folder on the disk that is measured (that of temporary files), and a program (the proved one). It needs gcc;
# SQLite and LMDB are left out where their headers aren't (Debian: libsqlite3-dev, liblmdb-dev). ROUNDS is how often each is
# measured (9); the best and the middle one are told. file/kept_speed.c says what is done. The library's row wants its
# archive (cd crates/envy_library && rt lib).
set -eu
cd "$(dirname "$0")"
program=${2-$(../envy --program counted)} || exit 1
rounds=${ROUNDS-9}
work=$(mktemp -d "${1-${TMPDIR:-/tmp}}/envy-kept-speed.XXXXXX")
memory=$(mktemp -d "$([ -w /dev/shm ] && echo /dev/shm || echo "${TMPDIR:-/tmp}")/envy-kept-speed.XXXXXX")
trap 'rm -rf "$work" "$memory"' EXIT

# compiles WORDS..: whether a program with these words is made
compiles() { echo 'int main(void) { return 0; }' | gcc -x c -o "$work/none" - "$@" 2>/dev/null; }

engines='disk keep keep-bytewise'
with=
if [ -e ../crates/envy_library/out/libenvy_library.a ]; then
    make -s out/lib/libenvy.a
    engines="$engines kept kept-bytewise" with="$with -DWITH_ENVY out/lib/libenvy.a"
fi
if compiles -include sqlite3.h -lsqlite3; then
    engines="$engines sqlite-full sqlite-full-each sqlite-normal" with="$with -DWITH_SQLITE -lsqlite3"
fi
if compiles -include lmdb.h -llmdb; then
    engines="$engines lmdb lmdb-nometasync" with="$with -DWITH_LMDB -llmdb"
fi
# shellcheck disable=SC2086
gcc -O2 -g -std=gnu11 -Wall -Wextra -o "$work/speed" file/kept_speed.c $with
gcc -O2 -shared -fPIC -o "$work/calls.so" file/file_calls.c

# transfers EVERY: how many are timed where syncs wait
transfers() {
    case $1 in
    1) echo 300 ;;
    10) echo 2000 ;;
    100) echo 10000 ;;
    *) echo 50000 ;;
    esac
}

# a_round FOLDER [TRANSFERS]: microseconds for each transfer, of each engine with each number of transfers for a sync
a_round() {
    for every in 1 10 100 1000; do
        for engine in $engines; do
            rm -f "$1"/file*
            echo "$engine $every $("$work/speed" "$engine" "$1/file" "${2-$(transfers "$every")}" "$every" "$program")"
        done
    done
    rm -f "$1"/file*
}

# table TITLE: the best and the middle of the rounds, as transfers a second
table() {
    echo "| $1 | 1 | 10 | 100 | 1,000 |"
    echo '|---|---|---|---|---|'
    awk -v engines="$engines" '
        { at = $1 " " $2; all[at, ++n[at]] = $3 }
        function number(x,    s) { s = sprintf("%.0f", x); while (s ~ /^[0-9]+[0-9][0-9][0-9]/ && sub(/[0-9][0-9][0-9](,|$)/, ",&", s)); return s }
        function sorted(at,    i, j, x) {
            for (i = 2; i <= n[at]; i++) for (j = i; j > 1 && all[at, j - 1] > all[at, j]; j--) { x = all[at, j]; all[at, j] = all[at, j - 1]; all[at, j - 1] = x }
        }
        END {
            count = split(engines, names)
            for (e = 1; e <= count; e++) {
                row = "| `" names[e] "` |"
                for (every = 1; every <= 1000; every *= 10) {
                    at = names[e] " " every
                    sorted(at)
                    row = row " " number(1e6 / all[at, 1]) " (" number(1e6 / all[at, int((n[at] + 1) / 2)]) ") |"
                }
                print row
            }
        }' "$2"
}

for ((round = 0; round < rounds; round++)); do a_round "$work"; done >"$work/disk"
table "Transfers a second, on the disk: the best of $rounds runs (the middle one)" "$work/disk"
echo
# as many transfers in each column, so that each has as many compactions, and as much cleaning
for ((round = 0; round < rounds; round++)); do a_round "$memory" 50000; done >"$work/memory"
table "The same in $memory, where a sync waits for nothing, 50,000 transfers each" "$work/memory" | sed "s|$memory|${memory%/*}|"
echo
for ((round = 0; round < 3; round++)); do
    FILE_CALLS_WAIT=1000 LD_PRELOAD=$work/calls.so a_round "$memory"
done >"$work/waiting"
table "The same, where each sync waits for 1 ms: the best of 3 runs (the middle one)" "$work/waiting"

# counted ENGINE TRANSFERS EVERY: bytes that were written to the files, and syncs
counted() {
    rm -f "$memory"/file*
    head -c 64 /dev/zero >"$memory/counts"
    FILE_CALLS_PATH=$memory/file FILE_CALLS_COUNTS=$memory/counts LD_PRELOAD=$work/calls.so \
        "$work/speed" "$1" "$memory/file" "$2" "$3" "$program" >/dev/null
    od -A n -t u8 -w64 "$memory/counts" | awk '{ print $4, $5 }'
}

echo
echo '| Bytes written and syncs for each transfer | 1 | 10 | 100 | 1,000 |'
echo '|---|---|---|---|---|'
for engine in $engines; do
    row="| \`$engine\` |"
    for every in 1 10 100 1000; do
        number=20000
        row="$row $(echo "$(counted "$engine" 0 "$every") $(counted "$engine" $number "$every")" |
            awk -v n=$number '{ printf "%.0f, %.4g", ($3 - $1) / n, ($4 - $2) / n }') |"
    done
    echo "$row"
done

# a file of 64 MiB: the pages of a board of 131,072 rows are stored, one after another, until the file is so long
big=$work/big
sizes="--segments=256 --rows=512 --pages=126000 --shadows=64 --frames=256 --entries=4096"
# shellcheck disable=SC2086
keeps() { "$program" keep --file "$big" $sizes "$@" >/dev/null; }
seconds() { local began=$EPOCHREALTIME; "$@"; echo "$began $EPOCHREALTIME" | awk '{ printf "%.2f\n", $2 - $1 }'; }
least() { sort -n | head -n 1; }
: >"$big"
for ((turn = 0; turn < 200; turn++)); do
    [ "$(stat -c %s "$big")" -lt $((64 << 20)) ] || break
    awk -v n=$((turn * 3000)) 'BEGIN { for (i = n; i < n + 3000; i++) print "store", 32 * (i % 126000), i + 1 }' | keeps
done
echo
size=$(stat -c %s "$big")
opened=$(for _ in 1 2 3; do seconds keeps </dev/null; done | least)
echo "A file of $((size / 1048576)) MiB is opened, and closed again, in $opened s."
if cp "$big" "$work/copy" && keeps --compact=1 </dev/null 2>"$work/said"; then
    left=$(stat -c %s "$big")
    compacted=$(for _ in 1 2 3; do cp "$work/copy" "$big"; sync; seconds keeps --compact=1 </dev/null; done | least)
    echo "A compaction of it at the start leaves $((left / 1048576)) MiB; with it the same takes $compacted s."
fi

# counted_instructions ENGINE TRANSFERS EVERY: of the process that has the file, by callgrind
counted_instructions() {
    rm -f "$memory"/file*
    set -- "$@" valgrind --tool=callgrind --callgrind-out-file=/dev/null
    case $1 in
    keep*)
        local bytewise=0
        [ "$1" = keep ] || bytewise=1
        "$work/speed" trace - "$2" "$3" >"$memory/trace"
        "${@:4}" "$program" keep --file "$memory/file" --bytewise=$bytewise --segments=64 --rows=512 --shadows=64 \
            --frames=256 --entries=4096 --pages=17675 <"$memory/trace" 2>"$work/said" >/dev/null
        ;;
    *) "${@:4}" "$work/speed" "$1" "$memory/file" "$2" "$3" 2>"$work/said" >/dev/null ;;
    esac
    awk '/Collected/ { print $NF }' "$work/said"
}

# which takes the longest, so it comes last
if command -v valgrind >/dev/null; then
    echo
    echo '| Instructions for each transfer | 1 | 10 | 100 | 1,000 |'
    echo '|---|---|---|---|---|'
    for engine in $engines; do
        case $engine in disk | sqlite-full-each | sqlite-normal | lmdb-nometasync) continue ;; esac
        none=$(counted_instructions "$engine" 0 1)
        row="| \`$engine\` |"
        for every in 1 10 100 1000; do
            row="$row $((($(counted_instructions "$engine" 20000 "$every") - none) / 20000)) |"
        done
        echo "$row"
    done
fi
