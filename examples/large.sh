#!/usr/bin/env bash
# The largest board: 4,096 segments of 4,096 rows, 4 GiB of flash, filled to four fifths. Each page is stored once, and
# then others are until the last row of the flash is programmed. The board is saved, audited, mapped, and resumed
# with the words that were stored: each time through a pipe, since the image has 4.5 GB.
#
#   examples/large.sh [--rows N] [--alone 1]
#
# --rows: rows of a segment (4096, which makes 16,777,216); with --alone 1 no image is made, and `run` loads the words. It
# needs 4.9 GB of memory for each of two processes, or for one with --alone; with less it is skipped. No file is written. It
# takes some minutes for each image. Without a proof the answers are those of a trial's program; ENVY names another program.
set -eu
top=$(cd "$(dirname "$0")/.." && pwd)
rows=4096 alone=0
while [ $# -gt 0 ]; do
    case $1 in
    --rows) rows=$2 ;;
    --alone) alone=$2 ;;
    *) sed -n '2,10s/^# \{0,1\}//p' "$0" >&2 && exit 2 ;;
    esac
    shift 2
done
segments=4096 frames=64
pages=$((segments * rows * 4 / 5))
# a row has 256 bytes, and SRAM and the program's own lists some 32 more
needed=$((segments * rows * 288 * (2 - alone) / 1024))
available=$(awk '$1 == "MemAvailable:" { print $2 }' /proc/meminfo)
echo "large: it needs $((needed / 1024)) MiB of memory, and $((available / 1024)) are available"
[ "$available" -ge "$needed" ] || { echo "large: skipped"; exit 0; }
program=${ENVY-}
[ -n "$program" ] || program=$("$top/envy" --program counted)
shape="--segments $segments --rows $rows --pages $pages --shadows 16 --frames $frames --entries $frames"

# trace: each page once; stores on, two segments more than there are rows left; the last word of the array; and what is
# left to do
trace() {
    awk -v pages=$pages -v rest=$(((segments + 1) * rows + 2 * frames - pages)) 'BEGIN {
        for (p = 0; p < pages; p++) print "store", 32 * p, p + 1
        for (i = 0; i < rest; i++) { p = (p + 7919) % pages; print "store", 32 * p + 1, i }
        print "store", 32 * pages - 1, 7
        for (i = 0; i < 1000; i++) print "tick"
    }'
}

# loads: the last word, and words of a thousand pages, the last one among them; answers: what they must be
loads() { words 'print "load", a'; }
answers() { words 'print w'; }
words() {
    awk -v pages=$pages "function told(a, w) { $1 } BEGIN {
        told(32 * pages - 1, 7)
        for (i = 1; i <= 1000; i++) { p = int(pages * i / 1000) - 1; told(32 * p, p + 1) }
    }"
}

failures=0
# said TEXT: says it, with the seconds since the last one
said() {
    echo "large: $1 ($((SECONDS - before)) s)"
    before=$SECONDS
}
before=$SECONDS
# compared NAME: whether what is read are the answers
compared() {
    if cmp -s - <(answers); then said "$1: the words are there"; else echo "large: $1: other words" >&2 && return 1; fi
}

if [ "$alone" = 1 ]; then
    # shellcheck disable=SC2086
    (trace && loads) | "$program" run --large 1 $shape | grep '^[0-9]' | compared run || failures=1
    exit $failures
fi

# shellcheck disable=SC2086
saved() { trace | "$program" save --large 1 $shape; }

verdict=$(saved | "$program" audit --large 1)
said "audit: $verdict"
[ "$verdict" = sound ] || failures=1
full=$(saved | "$program" map --large 1 | awk -F, -v last=$((segments - 1)) '$1 == last { print $4 }')
said "map: $full of $rows rows of the last segment are programmed"
[ "$full" = "$rows" ] || failures=1
(saved && loads) | "$program" resume --large 1 | compared resume || failures=1
exit $failures
