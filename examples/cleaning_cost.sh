#!/usr/bin/env bash
# The steady cost of cleaning under each policy: programs by the cleaner for each page that was flushed, over drawn stores
# to a board of 64 segments and the spare, of 256 rows each, with 64 frames. Each page is stored once; then the stores are
# counted in intervals. The board is warm once four times its rows were programmed, and the cost of the last interval is
# printed: first by the share of rows in use, if nine tenths of the stores go to a tenth of the pages; then by skew, if
# eight rows in ten are in use. hybrid is tried with partitions of 2 and of 16 segments.
#
#   examples/cleaning_cost.sh [--stores N] [--interval N] [--to FOLDER] [--compare FOLDER] [--policies LIST] [--loads LIST]
#
# --stores: how many (400000); --interval: stores of an interval (50000). With --to the numbers go to that folder too:
# two tables, the cost of each interval as CSV (cost_by_interval.csv), and pictures as PNG and SVG if gnuplot is on the
# path. With --compare the tables must be those in the folder. --policies and --loads take some of the columns and of the
# second table's rows, as 'greedy lifetime' and 'uniform 95/5', for trying a policy. Takes some minutes. Without a proof the
# answers are those of a trial's program; ENVY names another program.
set -eu
top=$(cd "$(dirname "$0")/.." && pwd)
stores=400000 interval=50000 to='' compare='' loads=''
policies='greedy fifo locality hybrid-2 hybrid-16 lifetime'
while [ $# -gt 0 ]; do
    case $1 in
    --stores) stores=$2 ;;
    --interval) interval=$2 ;;
    --to) to=$2 ;;
    --compare) compare=$2 ;;
    --policies) policies=$2 ;;
    --loads) loads=$2 ;;
    *) sed -n '2,15s/^# \{0,1\}//p' "$0" >&2 && exit 2 ;;
    esac
    shift 2
done
program=${ENVY-}
[ -n "$program" ] || program=$("$top/envy" --program)
segments=65 rows=256 shadows=64
work=$(mktemp -d "${TMPDIR:-/tmp}/envy-cost.XXXXXX")
trap 'rm -rf "$work"' EXIT
echo 'load,share,policy,part,stores,flushes,copies,moves,erases,cost' >"$work/cost_by_interval.csv"

# trace SKEW PAGES: each page once, and the stores of this skew, with the counters after each interval. `80/20` and the
# like: 80 in a hundred stores go to 20 in a hundred pages, the lowest. `moves`: 90/10, and the hot part goes through the
# array once. `zipf`: the page of rank r is stored by 1 / r ^ 0.99.
trace() {
    awk -v skew="$1" -v pages="$2" -v stores="$stores" -v interval="$interval" '
        # a generator of Lehmer, whose products are exact in a double
        function drawn(most) { seed = seed * 16807 % 2147483647; return int(seed / 2147483647 * most) }
        function ranked(    low, high, middle, at) {
            at = drawn(2147483646) / 2147483646 * sum[pages]
            low = 1
            high = pages
            while (low < high) { middle = int((low + high) / 2); if (sum[middle] > at) high = middle; else low = middle + 1 }
            return low - 1
        }
        function page_of(i) {
            if (skew == "uniform") return drawn(pages)
            # ranks lie anywhere in the array: 7919 is a prime that divides no number of pages here
            if (skew == "zipf") return ranked() * 7919 % pages
            if (drawn(100) >= share) return (first + hot + drawn(pages - hot)) % pages
            if (skew == "moves") first = int(i / stores * pages)
            return (first + drawn(hot)) % pages
        }
        BEGIN {
            seed = 7
            share = skew == "moves" ? 90 : skew + 0
            hot = int(pages * (100 - share) / 100)
            if (skew == "zipf") for (i = 1; i <= pages; i++) sum[i] = sum[i - 1] + exp(-0.99 * log(i))
            for (i = 0; i < pages; i++) print "store", 32 * i, i
            print "stat"
            for (i = 0; i < stores; i++) {
                print "store", 32 * page_of(i) + drawn(32), i
                if ((i + 1) % interval == 0) print "stat"
            }
        }'
}

# cost TRACE PAGES POLICY LOAD SHARE: the cost of the last interval; a row of CSV for each interval. An interval counts
# only if four times the rows were programmed before it began.
cost() {
    local part=2
    [ "${3#hybrid-}" = "$3" ] || part=${3#hybrid-}
    "$program" run --segments $segments --rows $rows --pages "$2" --shadows $shadows --frames 64 --entries 64 \
        --policy "${3%-*}" --part "$part" <"$1" |
        awk -v warm=$((4 * segments * rows)) -v start="$4,$5,${3%-*},$part" -v each="$interval" -v csv="$work/cost_by_interval.csv" '
            $1 != "stat" { next }
            n++ {
                flushes = $7 - before[7]; copies = $9 - before[9]; moves = $11 - before[11]
                last = flushes ? (copies + moves) / flushes : 0
                is_warm = before[7] + before[9] + before[11] >= warm
                printf "%s,%d,%d,%d,%d,%d,%.4f\n", start, (n - 1) * each, flushes, copies, moves, $13 - before[13], last >> csv
            }
            { for (i = 7; i <= 13; i += 2) before[i] = $i }
            END {
                if (!is_warm) { print "cleaning_cost: too few stores: the board is not warm before the last interval" > "/dev/stderr"; exit 1 }
                printf "%.2f", last
            }'
}

# table FILE HEAD CAPTION: reads a name, a skew and a share of rows in use from each line; prints a table, and leaves its
# numbers in the file
table() {
    local file=$1 head=$2 caption=$3 name skew share pages line policy
    echo "# $head: $policies" >"$work/$file.txt"
    echo "| $head | ${policies// / | } |"
    echo "|---$(for policy in $policies; do printf '|---'; done)|"
    while read -r name skew share; do
        case " ${loads:-$name} " in *" $name "*) ;; *) continue ;; esac
        pages=$((segments * rows * share / 100))
        trace "$skew" $pages >"$work/trace"
        line=$name
        for policy in $policies; do line="$line $(cost "$work/trace" $pages "$policy" "$skew" "$share")"; done
        echo "$line" >>"$work/$file.txt"
        echo "| ${line// / | } |"
    done
    echo
    [ -z "$to" ] || picture "$file" "$caption"
    [ -z "$compare" ] || [ ! -e "$compare/$file.txt" ] || diff "$compare/$file.txt" "$work/$file.txt"
}

# picture FILE CAPTION: the numbers and their pictures, in the folder: lines over the share of rows, which is a scale, and
# bars over the skews, which are none
picture() {
    mkdir -p "$to"
    cp "$work/$1.txt" "$to/$1.txt"
    "$top/examples/pictures.sh" "$1" "$to" "$2, $stores stores, the last $interval counted"
}

board='64 segments and the spare, of 256 rows; 64 frames'
[ -n "$loads" ] || table cost_by_share 'Share of rows in use' "$board\\n90 in 100 stores to 10 in 100 pages" <<'ROWS'
40 90/10 40
50 90/10 50
60 90/10 60
70 90/10 70
80 90/10 80
90 90/10 90
ROWS
table cost_by_skew 'Skew of the stores' "$board, 80 in 100 rows in use\\nstores in a hundred to pages in a hundred" <<'ROWS'
uniform uniform 80
80/20 80/20 80
90/10 90/10 80
95/5 95/5 80
zipf zipf 80
moves moves 80
ROWS
[ -z "$to" ] || cp "$work/cost_by_interval.csv" "$to/cost_by_interval.csv"
