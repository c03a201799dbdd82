#!/usr/bin/env bash
# What a memory of flash would do under a real program: the loads and stores that Valgrind's lackey prints become a
# trace, which runs under each policy. The replies must be those of the plain machine. Prints for each policy the
# accesses, how many of a hundred hit the cache of the page table, and the cleaning cost.
#
#   examples/real_memory.sh [--skip N] [--accesses N] [--transaction N] [--frames N] PROGRAM..
#
# Of the words that the program loads and stores the first N (--skip, 0) are passed over and then so many taken
# (--accesses, 1000000). With --transaction N each N stores are one transaction. Pages are numbered as they are met,
# and the array has as many; the board is filled to four fifths. Frames of SRAM (--frames) are an eighth of the pages.
# Without a proof the answers are those of a trial's program.
set -eu
top=$(cd "$(dirname "$0")/.." && pwd)
skip=0 accesses=1000000 transaction=0 frames=0
while [ $# -gt 0 ]; do
    case $1 in
    --skip) skip=$2 && shift 2 ;;
    --accesses) accesses=$2 && shift 2 ;;
    --transaction) transaction=$2 && shift 2 ;;
    --frames) frames=$2 && shift 2 ;;
    *) break ;;
    esac
done
if [ $# -eq 0 ]; then
    sed -n '2,11s/^# \{0,1\}//p' "$0" >&2
    exit 2
fi
program=$("$top/envy" --program) || exit 1
if ! command -v valgrind >/dev/null; then
    echo "real_memory: valgrind is not there, so no program can be traced" >&2
    exit 1
fi
work=$(mktemp -d)
trap 'rm -rf "$work"' EXIT

# ` L address,size`, ` S ..` and ` M ..` (a load and a store) name the bytes; a word has 8 of them, a page 256.
# With --transaction a page that a transaction owns can't be stored into from outside, so loads alone stand between.
mkfifo "$work/accesses"
awk -v skip="$skip" -v most="$accesses" -v size="$transaction" -v pages="$work/pages" '
    function hex(digits,    value, i) {
        value = 0
        for (i = 1; i <= length(digits); i++) value = 16 * value + index("0123456789abcdef", substr(digits, i, 1)) - 1
        return value
    }
    function close_transaction() { if (open) { print "commit 0"; open = 0; stores = 0 } }
    function access(kind, word,    page, at) {
        if (++seen <= skip) return
        count++
        page = int(word / 32)
        if (!(page in number)) number[page] = met++
        at = number[page] * 32 + word % 32
        if (kind == "L") { print "load", at; return }
        if (size == 0) { print "store", at, count; return }
        if (!open) { print "begin"; open = 1 }
        print "put 0", at, count
        if (++stores == size) close_transaction()
    }
    /^ [LSM] / {
        if (count >= most) next
        split($2, part, ",")
        start = hex(part[1])
        first = int(start / 8)
        last = int((start + part[2] - 1) / 8)
        for (word = first; word <= last; word++) {
            if ($1 != "S") access("L", word)
            if ($1 != "L") access("S", word)
        }
    }
    END { close_transaction(); print met + 0 > pages }
' "$work/accesses" > "$work/trace" &
valgrind --tool=lackey --trace-mem=yes --log-file="$work/accesses" "$@" >/dev/null
wait

pages=$(cat "$work/pages")
if [ "$pages" -eq 0 ]; then
    echo "real_memory: no word was loaded or stored" >&2
    exit 1
fi
shadows=$((transaction > 16 ? transaction : 16))
rows=64
segments=$(((pages + shadows) * 5 / (4 * rows) + 4))
[ "$frames" -gt 0 ] || frames=$((pages / 8 > 8 ? pages / 8 : 8))
shape=(--segments "$segments" --rows "$rows" --pages "$pages" --shadows "$shadows" --frames "$frames" --entries 64)
echo "$*: $(wc -l < "$work/trace") lines, $pages pages; a board of $segments segments of $rows rows, $frames frames, 64 entries"
"$program" plain "${shape[@]}" < "$work/trace" > "$work/plain"
echo stat >> "$work/trace"
printf '%-10s %10s %8s %8s %8s\n' policy accesses hits% flushes cost
for policy in greedy fifo locality hybrid lifetime; do
    "$program" run "${shape[@]}" --policy "$policy" < "$work/trace" > "$work/replies"
    if ! head -n -1 "$work/replies" | cmp -s - "$work/plain"; then
        echo "real_memory: under $policy the replies are not those of the plain machine" >&2
        exit 1
    fi
    tail -n 1 "$work/replies" | awk -v policy="$policy" '{
        all = $3 + $5
        printf "%-10s %10d %8.1f %8d %8.2f\n", policy, all, all ? 100 * $3 / all : 0, $7, $17 / 100 }'
done
