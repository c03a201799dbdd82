#!/usr/bin/env bash
# A map of this library beside LMDB and SQLite: microseconds and instructions for each pair, in a file, each change a
# transaction of its own, and 100 in one, none waiting for the disk. Words: how many pairs (100000), and a folder for the files (that of
# temporary files; a file system in memory leaves the disk out). It needs gcc, the libraries lmdb and sqlite3 with their
# headers, and the library (cd crates/envy_library && rt lib); for instructions valgrind.
set -eu
cd "$(dirname "$0")"
pairs=${1-100000}
work=$(mktemp -d "${2-${TMPDIR:-/tmp}}/envy-ordered.XXXXXX")
trap 'rm -rf "$work"' EXIT
make -s out/lib/libenvy.a
gcc -O2 -g -std=gnu11 -o "$work/speed" library/ordered_speed.c out/lib/libenvy.a -llmdb -lsqlite3
engines='envy lmdb sqlite'

for together in 1 100; do
    for engine in $engines; do
        for turn in 1 2 3; do
            rm -f "$work"/file*
            "$work/speed" $engine "$work/file" "$pairs" 5 $together
        done
    done | awk -v together=$together '{ at = $1 " " $2; if (!(at in best) || $3 < best[at]) best[at] = $3 }
        END {
            print "| Microseconds for each pair, by " together " | insert | get | scan | remove | load |\n|---|---|---|---|---|---|"
            split("envy lmdb sqlite", names); split("insert get scan remove load", phases)
            for (i = 1; i <= 3; i++) {
                printf "| `%s` |", names[i]
                for (j = 1; j <= 5; j++) printf " %.2f |", best[names[i] " " phases[j]]
                print ""
            }
            print ""
        }'
done

command -v valgrind >/dev/null || exit 0
few=10000
for together in 1 100; do
    echo "| Instructions for each of $few pairs, by $together | insert | get | scan | remove | load |"
    echo '|---|---|---|---|---|---|'
    for engine in $engines; do
        before=0
        row="| \`$engine\` |"
        for phases in 0 1 2 3 4 5; do
            rm -f "$work"/file*
            valgrind --tool=callgrind --callgrind-out-file=/dev/null "$work/speed" $engine "$work/file" $few $phases $together >/dev/null 2>"$work/said"
            count=$(awk '/Collected/ { print $NF }' "$work/said")
            [ $phases = 0 ] || row="$row $(((count - before) / few)) |"
            before=$count
        done
        echo "$row"
    done
    echo
done
