#!/usr/bin/env bash
# The board of the paper that eNVy comes from: 128 segments of 65,536 rows, 2 GiB of flash, and the spare; 65,536 frames,
# 16 MiB; 80 in a hundred rows in use. Each page is stored once, then the load comes in intervals. The board is warm once
# four times its rows were programmed, and the last interval is counted. docs/PAPER.md has what it found.
#
#   examples/paper.sh [--scale N] [--times N] [--policies LIST] [--loads LIST] [--wear 0|1] [--to FOLDER]
#       [--compare FOLDER]
#
# --scale: segments and frames are a N-th of that (1), so 64 ends in minutes; --times: intervals (8), each as many stores
# as the board has rows, or an eighth as many transfers of `bank`, or a quarter as many of `stores`. --loads: 5/95 is 95 in a
# hundred stores to 5 in a hundred pages, and so on; even; bank, whose transfers are those of tpca, each a transaction and
# four ticks; stores, the same words as plain stores. --policies: greedy fifo locality hybrid-2 hybrid-16 lifetime, the
# number being --part. --wear 0 leaves out wear, which takes a second run.
# It prints tables. --to has the numbers as CSV too: paper.csv, and paper_by_interval.csv; with --compare the first must be
# the one in the folder. The whole board needs 2.4 GB of memory, and twice that for wear; a load under a policy takes
# minutes, and twice that for wear. Without a proof the answers are those of a trial's program; ENVY names another program.
set -eu
top=$(cd "$(dirname "$0")/.." && pwd)
scale=1 times=8 wear=1 to='' compare=''
policies='greedy fifo locality hybrid-2 hybrid-16 lifetime'
loads='5/95 10/90 20/80 30/70 40/60 50/50 even bank stores'
while [ $# -gt 0 ]; do
    case $1 in
    --scale) scale=$2 ;;
    --times) times=$2 ;;
    --policies) policies=$2 ;;
    --loads) loads=$2 ;;
    --wear) wear=$2 ;;
    --to) to=$2 ;;
    --compare) compare=$2 ;;
    *) sed -n '2,18s/^# \{0,1\}//p' "$0" >&2 && exit 2 ;;
    esac
    shift 2
done
program=${ENVY-}
[ -n "$program" ] || program=$("$top/envy" --program counted)

# the paper's: flash pages, cycles of a segment, flushes and transactions a second
paper_pages=8388608 cycles=1000000 flushes_a_second=10376 transactions_a_second=10000
rows=$((65536 / scale)) frames=$((65536 / scale))
in_all=$((128 * rows))
pages=$((in_all * 80 / 100))
shape="--segments 129 --rows $rows --pages $pages --shadows 64 --frames $frames --entries $frames --large 1"
work=$(mktemp -d "${TMPDIR:-/tmp}/envy-paper.XXXXXX")
trap 'rm -rf "$work"' EXIT
echo 'load,policy,done,flushes,copies,moves,erases,cost' >"$work/paper_by_interval.csv"
echo 'load,policy,cost,flushes_each,erases,wear_least,wear_middle,wear_greatest,life_days' >"$work/paper.csv"

# a row has 256 bytes, and SRAM and the program's own lists some 32 more; wear goes through a pipe from one board to a second
needed=$((129 * rows * 288 * (1 + wear) / 1024))
available=$(awk '$1 == "MemAvailable:" { print $2 }' /proc/meminfo)
if [ "$available" -lt "$needed" ]; then
    echo "paper: skipped: it needs $((needed / 1024)) MiB of memory, and $((available / 1024)) are available" >&2
    exit 0
fi

# each_of LOAD: how much of the load an interval has: stores, or transfers
each_of() {
    case $1 in
    bank) echo $((in_all / 8)) ;;
    stores) echo $((in_all / 4)) ;;
    *) echo $in_all ;;
    esac
}

# transfers WAY EACH: the bank's transfers over seven tenths of the words, 100,000 accounts to a branch; the history goes
# round the rest
transfers() {
    awk -v way="$1" -v each="$2" -v times="$times" -v words=$((pages * 32)) '
        function drawn(most) { seed = seed * 16807 % 2147483647; return int(seed / 2147483647 * most) }
        function put(address, word) { print put_word, address, word }
        BEGIN {
            seed = 7
            put_word = way == "bank" ? "put 0" : "store"
            branches = int(words * 7 / 10 / 100000)
            if (!branches) branches = 1
            accounts = branches * 100000
            if (accounts > words * 7 / 10) accounts = int(words * 7 / 10)
            first = 1 + 11 * branches + accounts
            history = int((first + 3) / 4) * 4
            room = int((words - history) / 4)
            for (i = 0; i < times * each; i++) {
                if (way == "bank") print "begin"
                account = drawn(accounts)
                teller = drawn(10 * branches)
                put(1 + 11 * branches + account, i)
                put(1 + branches + teller, i)
                put(1 + int(teller / 10), i)
                for (k = 0; k < 4; k++) put(history + 4 * (i % room) + k, i)
                put(0, i + 1)
                if (way == "bank") print "commit 0\ntick\ntick\ntick\ntick"
                if ((i + 1) % each == 0) print "stat"
            }
        }'
}

# stores LOAD EACH: drawn stores; 95 in a hundred go to the 5 in a hundred lowest pages under 5/95, and so on
stores() {
    awk -v skew="$1" -v each="$2" -v times="$times" -v pages=$pages '
        function drawn(most) { seed = seed * 16807 % 2147483647; return int(seed / 2147483647 * most) }
        BEGIN {
            seed = 7
            split(skew == "even" ? "100/100" : skew, part, "/")
            hot = int(pages * part[1] / 100)
            for (i = 0; i < times * each; i++) {
                page = drawn(100) < part[2] ? drawn(hot) : hot + drawn(pages - hot)
                print "store", 32 * page + i % 32, i
                if ((i + 1) % each == 0) print "stat"
            }
        }'
}

# trace LOAD: each page once, and then the intervals, with the counters after each
trace() {
    awk -v pages=$pages 'BEGIN { for (i = 0; i < pages; i++) print "store", 32 * i, i; print "stat" }'
    case $1 in
    bank | stores) transfers "$1" "$(each_of "$1")" ;;
    *) stores "$1" "$(each_of "$1")" ;;
    esac
}

# counted LOAD POLICY: cost, flushes of each store or transfer, and erases of the last interval; a row of CSV for each
counted() {
    # shellcheck disable=SC2086
    trace "$1" | "$program" run $shape $cleaner | grep '^stat' |
        awk -v warm=$((4 * in_all)) -v start="$1,$2" -v each="$(each_of "$1")" -v csv="$work/paper_by_interval.csv" '
            n++ {
                flushes = $7 - before[7]; copies = $9 - before[9]; moves = $11 - before[11]; erases = $13 - before[13]
                cost = flushes ? (copies + moves) / flushes : 0
                is_warm = before[7] + before[9] + before[11] >= warm
                printf "%s,%d,%d,%d,%d,%d,%.4f\n", start, (n - 1) * each, flushes, copies, moves, erases, cost >> csv
            }
            { for (i = 7; i <= 13; i += 2) before[i] = $i }
            END {
                if (!is_warm) { print "paper: " start ": too few intervals: the board is not warm before the last" > "/dev/stderr"; exit 1 }
                printf "%.2f %.3f %d", cost, flushes / each, erases
            }'
}

# worn LOAD: the least, the middle and the greatest number of erases of a segment since formatting, which erases each once
worn() {
    [ "$wear" = 1 ] || { echo '- - -' && return; }
    # shellcheck disable=SC2086
    trace "$1" | "$program" save $shape $cleaner | "$program" map --large 1 | awk -F, 'NR > 1 { print $3 - 1 }' | sort -n |
        awk '{ at[NR] = $1 } END { print at[1], at[int((NR + 1) / 2)], at[NR] }'
}

# life LOAD COST FLUSHES: days until each segment of the whole board was erased as often as it may be, by the paper's sum
life() {
    awk -v load="$1" -v cost="$2" -v each="$3" -v pages=$paper_pages -v cycles=$cycles -v flushes=$flushes_a_second \
        -v transactions=$transactions_a_second 'BEGIN {
            if (load == "bank" || load == "stores") flushes = transactions * each
            printf "%d", cycles * pages / (flushes * (1 + cost)) / 86400 + 0.5
        }'
}

# by_load COLUMN..: a table of these columns of paper.csv, a row for each load and a column for each policy
by_load() {
    echo
    echo "| $1 | ${policies// / | } |"
    echo "|---$(for policy in $policies; do printf '|---'; done)|"
    shift
    awk -F, -v columns="$*" '
        NR == 1 { n = split(columns, at, " "); next }
        $1 != load { if (load != "") print row " |"; load = $1; row = "| " $1 }
        { row = row " | " $at[1]; for (i = 2; i <= n; i++) row = row " " $at[i] }
        END { print row " |" }' "$work/paper.csv"
}

echo "# 129 segments of $rows rows, $pages pages, $frames frames"
for load in $loads; do
    for policy in $policies; do
        cleaner="--policy ${policy%-*}"
        [ "${policy#hybrid-}" = "$policy" ] || cleaner="$cleaner --part ${policy#hybrid-}"
        numbers=$(counted "$load" "$policy")
        # shellcheck disable=SC2046,SC2086
        set -- $numbers $(worn "$load")
        row=$load,$policy,$1,$2,$3,$4,$5,$6,$(life "$load" "$1" "$2")
        echo "$row" | tee -a "$work/paper.csv"
        [ -z "$to" ] || { mkdir -p "$to" && cp "$work"/*.csv "$to/"; }
    done
done
by_load 'Cost of cleaning' 3
by_load 'Flushes of each store, or transfer' 4
by_load 'Erases' 5
by_load 'Wear: least, middle, greatest' 6 7 8
by_load 'Days' 9
[ -z "$compare" ] || diff "$compare/paper.csv" "$work/paper.csv"
