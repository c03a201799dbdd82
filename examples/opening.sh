#!/usr/bin/env bash
# How long a memory in a file takes to open, beside reading and copying its file: a memory of 4,096 segments of 1,024 rows,
# of which each page was stored once, in a file of some 1.1 GB. Opening reads the file, does again what it says on a board
# in memory, audits that, and writes anew what was read. The copy is made by cat, and synced. Tells both, the least of
# three, and the status is 1 if opening takes more than twice as long.
#
#   examples/opening.sh [--rows N] [FOLDER]
#
# --rows: rows of a segment (1024). The folder (that of temporary files) needs three times the file's room, and the program
# 2.3 GB of memory. Takes some minutes. Without a proof the times are those of a trial's program, which checks as it runs;
# ENVY names another program.
set -eu
top=$(cd "$(dirname "$0")/.." && pwd)
rows=1024
case ${1-} in
--rows) rows=$2 && shift 2 ;;
--*) sed -n '2,11s/^# \{0,1\}//p' "$0" >&2 && exit 2 ;;
esac
program=${ENVY-}
[ -n "$program" ] || program=$("$top/envy" --program counted)
work=$(mktemp -d "${1-${TMPDIR:-/tmp}}/envy-opening.XXXXXX")
trap 'rm -rf "$work"' EXIT
segments=4096
pages=$((segments * rows * 4 / 5))
file=$work/kept
keep() { "$program" keep --file "$file" --segments $segments --rows "$rows" --pages $pages --shadows 16 --frames 64 --entries 64; }
copy() { cat "$file" >"$work/copy" && sync "$work/copy"; }

# milliseconds WORDS..: how long a call takes, of an empty input
milliseconds() {
    local began
    began=$(date +%s%N)
    "$@" </dev/null
    echo $((($(date +%s%N) - began) / 1000000))
}

awk -v pages=$pages 'BEGIN { for (p = 0; p < pages; p++) print "store", 32 * p, p + 1 }' | keep >/dev/null
best_open="" best_copy=""
for _ in 1 2 3; do
    opened=$(milliseconds keep)
    copied=$(milliseconds copy)
    [ -n "$best_open" ] && [ "$best_open" -le "$opened" ] || best_open=$opened
    [ -n "$best_copy" ] && [ "$best_copy" -le "$copied" ] || best_copy=$copied
done
echo "opening: a file of $(stat -c %s "$file") bytes opens in $best_open ms; it is read and copied in $best_copy ms"
[ "$best_open" -le $((2 * best_copy)) ]
