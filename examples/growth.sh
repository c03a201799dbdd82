#!/usr/bin/env bash
# How the cost of a call grows with the board, its frames and what other transactions own: instructions by valgrind's
# callgrind, which don't depend on how busy the machine is. Takes the program, or else the proved one or a trial's, and
# writes tables. It takes half an hour, most of it for the largest board, which needs 5 GB of memory and is left out with
# less. On that board a store and a transfer may take at most 1.1 times the instructions on one of a sixteenth of its rows,
# and an empty trace a second of the processor and 700 MiB: else the status is 1. With --to FOLDER the first table is drawn
# too, if gnuplot is there (growth.png, growth.svg), and its numbers are in growth.txt. SHAPES names other boards.
set -eu
cd "$(dirname "$0")/.."
to=
[ "${1-}" = --to ] && { to=$2; shift 2; }
program=${1-$(./envy --program counted)} || exit 1
command -v valgrind >/dev/null || { echo "growth: valgrind is not on the path" >&2; exit 1; }
work=$(mktemp -d "${TMPDIR:-/tmp}/envy-growth.XXXXXX")
trap 'rm -rf "$work"' EXIT
shapes=${SHAPES-8x16 64x128 512x256 4096x256 4096x4096}
largest=4096x4096 most_percent=110 most_seconds=1 most_kib=716800 needed_kib=5000000
most_accounts=838856

# await N: waits until the program has answered the N-th line `stat`
await() {
    until [ "$(wc -l <"$work/stats")" -ge "$1" ]; do
        kill -0 $! 2>/dev/null || { cat "$work/said" >&2; exit 1; }
        sleep 0.1
    done
}

# counted_between KIND CALLS PAGES OWNED WORDS..: the instructions of that many calls: those between the replies to two
# lines `stat`, one after what fills the board and one after the calls
counted_between() {
    local kind=$1 calls=$2 pages=$3 owned=$4 pid
    shift 4
    rm -f "$work/in" "$work/stats"
    mkfifo "$work/in"
    : >"$work/stats"
    valgrind --tool=callgrind --instr-atstart=no --callgrind-out-file=/dev/null "$program" "$@" <"$work/in" 2>"$work/said" |
        grep --line-buffered '^stat' >"$work/stats" &
    exec 3>"$work/in"
    filling "$kind" "$pages" "$owned" >&3
    await 1
    pid=$(awk -F== '{ print $2; exit }' "$work/said")
    vgdb --pid="$pid" instrumentation on >/dev/null 2>&1
    calling "$kind" "$calls" "$pages" "$owned" >&3
    await 2
    vgdb --pid="$pid" instrumentation off >/dev/null 2>&1
    exec 3>&-
    wait $!
    awk '/Collected/ { print $NF }' "$work/said"
}

# counted WORDS..: the instructions of a run over an empty trace
counted() {
    valgrind --tool=callgrind --callgrind-out-file=/dev/null "$program" "$@" </dev/null 2>"$work/said" >/dev/null
    awk '/Collected/ { print $NF }' "$work/said"
}

# filling KIND PAGES OWNED: every page is stored once, so that the board is at 80 % use; a transaction puts OWNED pages and
# stays open; for ticks, background steps go on until nothing is left to do
filling() {
    awk -v kind="$1" -v pages="$2" -v owned="$3" 'BEGIN {
        for (p = 0; p < pages; p++) print "store", 32 * p, p + 1
        if (owned) { print "begin"; for (p = 0; p < owned; p++) print "put", 0, 32 * p, p }
        if (kind == "tick") for (i = 0; i < 4000; i++) print "tick"
        print "stat"
    }'
}

# calling KIND CALLS PAGES OWNED: that many calls of the kind, on drawn pages
calling() {
    awk -v kind="$1" -v calls="$2" -v pages="$3" -v owned="$4" '
        function drawn(most) { x = (x * 1103515245 + 12345) % 2147483648; return int(x / 8) % most }
        function transaction(end,    k, first) {
            print "begin"
            first = owned + drawn(pages - owned - 8)
            for (k = 0; k < 8; k++) print "put", (owned > 0), 32 * (first + k) + k, k
            print end, (owned > 0)
        }
        BEGIN {
            x = 12345
            for (i = 0; i < calls; i++) {
                if (kind == "store") print "store", 32 * drawn(pages) + i % 32, i
                else if (kind == "tick") print "tick"
                else transaction(kind)
            }
            print "stat"
        }'
}

# cost KIND CALLS PAGES OWNED OPTIONS..: instructions a call
cost() {
    local kind=$1 calls=$2 pages=$3 owned=$4 all
    shift 4
    all=$(counted_between "$kind" "$calls" "$pages" "$owned" run --pages "$pages" "$@")
    echo $((all / calls))
}

# transfer PAGES OPTIONS..: instructions a transfer of the bank, over eight accounts a page, but no more accounts than the
# board of 512 x 256 has, since all are added up at the end
transfer() {
    local pages=$1 accounts=$(($1 * 8)) none all
    shift
    [ $accounts -le $most_accounts ] || accounts=$most_accounts
    set -- --pages "$pages" --accounts $accounts "$@"
    none=$(counted tpca --transfers 0 "$@")
    all=$(counted tpca --transfers 200 "$@")
    echo $(((all - none) / 200))
}

# pages_of SEGMENTS ROWS SHADOWS: at most 80 % of the rows, and what the rules of a shape leave
pages_of() {
    local pages=$(($1 * $2 * 8 / 10)) most=$((($1 - 2) * $2 - $3))
    echo $((pages < most ? pages : most))
}

echo "# Rows: store-greedy store-hybrid store-lifetime transfer idle-tick abort-of-8-pages commit-of-8-pages" >"$work/growth.txt"
echo '| Segments x rows | store, greedy | hybrid | lifetime | transfer | idle tick | abort of 8 pages | commit of 8 pages |'
echo '|---|---|---|---|---|---|---|---|'
for shape in $shapes; do
    segments=${shape%x*} rows=${shape#*x}
    if [ "$shape" = $largest ] && [ "$(awk '$1 == "MemAvailable:" { print $2 }' /proc/meminfo)" -lt $needed_kib ]; then
        echo "growth: $largest is left out: it needs $needed_kib KiB of memory" >&2
        continue
    fi
    pages=$(pages_of "$segments" "$rows" 16)
    sizes="--segments $segments --rows $rows --shadows 16 --frames 64 --entries 64 --mark 64 --large 1"
    # shellcheck disable=SC2086
    {
        cells=
        for policy in greedy hybrid lifetime; do
            cells="$cells $(cost store 20000 "$pages" 0 $sizes --policy $policy)"
        done
        cells="$cells $(transfer "$pages" $sizes) $(cost tick 2000 "$pages" 0 $sizes)"
        cells="$cells $(cost abort 500 "$pages" 0 $sizes) $(cost commit 500 "$pages" 0 $sizes)"
    }
    # shellcheck disable=SC2086
    printf '| %s | %d | %d | %d | %d | %d | %d | %d |\n' "$shape" $cells
    echo "$((segments * rows))$cells" >>"$work/growth.txt"
done

# the bounds of the largest board: stores and transfers beside those of the smaller one, and an empty trace: processor time,
# the system's too, of the quickest of three runs
failures=0
at_most() {
    [ "$2" -le "$3" ] || { echo "growth: $1: $2, and $3 at most" >&2; failures=1; }
}
if grep -q '^16777216 ' "$work/growth.txt" && grep -q '^1048576 ' "$work/growth.txt"; then
    for cell in 2:greedy 3:hybrid 4:lifetime 5:transfer; do
        of_small=$(awk -v i="${cell%:*}" '$1 == 1048576 { print $i }' "$work/growth.txt")
        of_largest=$(awk -v i="${cell%:*}" '$1 == 16777216 { print $i }' "$work/growth.txt")
        at_most "$largest, ${cell#*:}, instructions" "$of_largest" $((of_small * most_percent / 100))
    done
fi
# shellcheck disable=SC2046
set -- $(python3 - "$program" run --large 1 --segments 4096 --rows 4096 --pages "$(pages_of 4096 4096 16)" <<'PY'
import resource, subprocess, sys
def used():
    it = resource.getrusage(resource.RUSAGE_CHILDREN)
    return it.ru_utime + it.ru_stime
def seconds():
    began = used()
    subprocess.run(sys.argv[1:], stdin=subprocess.DEVNULL, check=True)
    return used() - began
print(int(1000 * min(seconds() for _ in range(3))), resource.getrusage(resource.RUSAGE_CHILDREN).ru_maxrss)
PY
)
echo
echo "An empty trace on $largest: $1 ms of the processor, $2 KiB"
at_most "$largest, an empty trace, ms" "$1" $((1000 * most_seconds))
at_most "$largest, an empty trace, KiB" "$2" $most_kib

echo
# each page that is owned takes a row more, its shadow: as many rows are in use in each of these
echo '| 1,024 x 256, frames | pages that another transaction owns | abort of 8 pages | commit of 8 pages |'
echo '|---|---|---|---|'
for frames in 64 65536; do
    for owned in 10 50000; do
        sizes="--segments 1024 --rows 256 --shadows 50064 --frames $frames --entries 64 --mark $frames"
        pages=$(($(pages_of 1024 256 50064) - owned))
        # shellcheck disable=SC2086
        printf '| %d | %d | %d | %d |\n' $frames $owned "$(cost abort 500 "$pages" $owned $sizes)" "$(cost commit 500 "$pages" $owned $sizes)"
    done
done

[ -n "$to" ] || exit $failures
cp "$work/growth.txt" "$to/growth.txt"
examples/pictures.sh growth "$to" '80 in 100 rows in use; 64 frames\n20,000 drawn stores, 200 transfers, 500 commits or aborts'
exit $failures
