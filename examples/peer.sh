#!/usr/bin/env bash
# The program beside a native peer in C, which makes the same device operations (peer/). Sees that replies, counters and
# images are the same on traces of each kind, and that puts and flash operations come in the same lines: a planned cut of
# the K-th operation is lost, and a bad K-th flash operation fails, in the line in which the peer makes it. Then tells the
# instructions of both by valgrind's callgrind, less those of the same trace without the calls. Takes the program, or else
# the proved one or a trial's; needs gcc; some minutes.
set -eu
cd "$(dirname "$0")/.."
program=${1-$(./envy --program counted)} || exit 1
command -v valgrind >/dev/null || { echo "peer: valgrind is not on the path" >&2; exit 1; }
work=$(mktemp -d "${TMPDIR:-/tmp}/envy-peer.XXXXXX")
trap 'rm -rf "$work"' EXIT
for build in peer counted merged; do
    gcc -O2 -std=c11 -Wall -Wextra "-D${build^^}" -o "$work/$build" examples/peer/*.c
done

# trace KIND CALLS PAGES: every page is stored once, then come so many calls of the kind, on drawn pages
trace() {
    awk -v kind="$1" -v calls="$2" -v pages="$3" '
        function drawn(most) { x = (x * 1103515245 + 12345) % 2147483648; return int(x / 8) % most }
        function transaction(end,    k, first) {
            print "begin"
            first = drawn(pages - 8)
            for (k = 0; k < 8; k++) print "put 0", 32 * (first + k) + k, k
            print end, 0
        }
        BEGIN {
            x = 12345
            for (p = 0; p < pages; p++) print "store", 32 * p, p + 1
            for (i = 0; i < calls; i++) {
                call = kind == "mixed" ? (drawn(3) ? "store" : drawn(2) ? "commit" : "abort") : kind
                if (call == "store" || call == "tick") print "store", 32 * drawn(pages) + i % 32, i
                else transaction(call)
                if (kind == "tick" || kind == "mixed") for (k = drawn(6); k; k--) print "tick"
                if (kind == "mixed") { a = drawn(32 * pages + 8); print "load", a; print "look", a }
            }
        }'
}

# line_of TEXT: the number of the first line that is it, or nothing
line_of() { awk -v text="$1" '$0 == text && !n { n = NR } END { if (n) print n }'; }

# reached COLUMNS K: the number of the first line of the counts in which the sum of the columns comes to K, or nothing
reached() { awk -v columns="$1" -v k="$2" '{ n = columns == 2 ? $1 + $2 : $2 } n >= k { print NR; exit }' "$work/counts"; }

# struck WORD TEXT COLUMNS OPTIONS..: whether a plan at some twenty places strikes in the line in which the peer gets there
struck() {
    local word=$1 text=$2 columns=$3 most k there
    shift 3
    most=$(tail -n 1 "$work/counts" | awk -v columns="$columns" '{ print columns == 2 ? $1 + $2 : $2 }')
    for k in 1 2 3 $(seq $((most / 19 + 1)) $((most / 19 + 1)) $((most - 1))) "$most" $((most + 1)); do
        there=$({ echo "$word $k 0"; cat "$work/trace"; } | "$program" run "$@" | tail -n +2 | line_of "$text")
        [ "$there" = "$(reached "$columns" "$k")" ] || { echo "peer: $word $k strikes in line $there ($*)" >&2; exit 1; }
    done
}

# same WHAT OPTIONS..: the peer answers $work/trace as the program does, and leaves the same board behind the same operations
same() {
    local what=$1
    shift
    for word in run save; do
        "$program" $word "$@" <"$work/trace" >"$work/theirs"
        "$work/peer" $word "$@" <"$work/trace" | cmp - "$work/theirs" || { echo "peer: $word differs: $what ($*)" >&2; exit 1; }
    done
    "$work/counted" count "$@" <"$work/trace" >"$work/counts"
    struck cut lost 2 "$@"
    struck bad fault 1 "$@"
    echo "$what, $*: $(grep -c . "$work/trace") lines, puts and flash operations $(tail -n 1 "$work/counts")" >&2
    "$work/peer" run "$@" < <(cat "$work/trace"; echo stat) | tail -n 1 >&2
}

# same_load OPTIONS..: and the same of a bank's load
same_load() {
    "$work/peer" tpca "$@" | diff - <("$program" tpca "$@") >&2 || { echo "peer: tpca differs ($*)" >&2; exit 1; }
    echo "tpca $*: the same report" >&2
}

# checks: traces of each kind under both policies, on boards that are cleaned and whose segments change places
checks() {
    local policy sizes
    for policy in greedy fifo; do
        sizes="--segments 16 --rows 32 --pages 400 --shadows 16 --frames 16 --entries 16 --policy $policy"
        for kind in store tick mixed; do
            trace $kind 3000 400 >"$work/trace"
            # shellcheck disable=SC2086
            same $kind $sizes
        done
        trace mixed 5000 51 >"$work/trace"
        same swaps --segments 7 --rows 12 --pages 51 --shadows 9 --frames 5 --entries 3 --limit 2 --mark 2 --policy $policy
        "$program" gen --lines 30000 --pages 64 >"$work/trace"
        same drawn --policy $policy
        same_load --policy $policy
        same_load --segments 64 --rows 128 --pages 6553 --frames 64 --transfers 5000 --accounts 50000 --start 7 --policy $policy
    done
}

# counted ANSWERER TRACE WORDS..: the instructions of a run
counted() {
    local answerer=$1 trace=$2
    shift 2
    valgrind --tool=callgrind --callgrind-out-file=/dev/null "$answerer" "$@" <"$trace" 2>"$work/said" >/dev/null
    awk '/Collected/ { print $NF }' "$work/said"
}

# row NAME CALLS WORDS..: a line of the table, of the traces none and all, which differ by so many calls; where the words
# have CALLS it is their number
row() {
    local name=$1 calls=$2 answerer each=
    shift 2
    for answerer in "$work/peer" "$work/merged" "$program"; do
        each="$each $((($(counted "$answerer" "$work/all" "${@/CALLS/$calls}") - $(counted "$answerer" "$work/none" "${@/CALLS/0}")) / calls))"
    done
    echo "$each" | awk -v name="$name" '{ printf "| %s | %d | %d | %d | %.2f | %.2f |\n", name, $3, $1, $2, $3 / $1, $3 / $2 }'
}

# calls NAME KIND CALLS SHAPE: a line of calls on a board of so many segments x rows at 80 % use
calls() {
    local name=$1 kind=$2 calls=$3 segments=${4%x*} rows=${4#*x} pages
    pages=$((segments * rows * 8 / 10))
    trace "$kind" 0 $pages >"$work/none"
    trace "$kind" "$calls" $pages >"$work/all"
    row "$name, $segments x $rows" "$calls" run --segments "$segments" --rows "$rows" --pages $pages --shadows 16 --frames 64 --entries 64
}

# transfers CALLS SHAPE: a line of transfers of a bank of eight accounts a page, on a new board of so many segments x rows
transfers() {
    local segments=${2%x*} rows=${2#*x} pages
    pages=$((segments * rows * 8 / 10))
    cp /dev/null "$work/none"
    cp /dev/null "$work/all"
    row "transfer, of $1, $segments x $rows" "$1" tpca --segments "$segments" --rows "$rows" --pages $pages --shadows 16 --frames 64 --entries 64 \
        --accounts $((pages * 8)) --transfers CALLS
}

checks
echo '| Instructions, greedy | program | peer | peer, puts merged | program / peer | program / merged |'
echo '|---|---|---|---|---|---|'
for shape in 64x128 512x256 4096x256; do
    calls store store 20000 $shape
done
transfers 20000 64x128
transfers 20000 256x128
for shape in 64x128 512x256; do
    calls 'abort of 8 pages' abort 500 $shape
    calls 'commit of 8 pages' commit 500 $shape
done
