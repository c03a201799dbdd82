#!/usr/bin/env bash
# What a transaction costs in flash: programs for a flush and copies of the cleaner for each of a bank's transfers, which
# changes the balances of an account, of a teller and of a branch and writes four words of history. The transfers are done
# as transactions, as plain stores, with the words of a transfer on fewer pages, and several to a transaction. The board
# is warm first: four times its rows are programmed before anything is counted.
#
#   examples/transaction_cost.sh [--transfers N]
#
# --transfers: how many are counted (50000). Writes a table. Takes a minute or two. Without a proof the answers are those
# of a trial's program; ENVY names another program.
set -eu
top=$(cd "$(dirname "$0")/.." && pwd)
transfers=50000
case ${1-} in
'') ;;
--transfers) transfers=$2 ;;
*) sed -n '2,10s/^# \{0,1\}//p' "$0" >&2 && exit 2 ;;
esac
program=${ENVY-}
[ -n "$program" ] || program=$("$top/envy" --program)
segments=65 rows=128 frames=64 pages=6656
work=$(mktemp -d "${TMPDIR:-/tmp}/envy-transactions.XXXXXX")
trap 'rm -rf "$work"' EXIT

# trace WAY GROUP WARM: each page once, so many transfers to warm up, the counters, the transfers, the counters. WAY is
# `stores`, `apart` (the balances and the history each in an area of their own) or `together` (an account has a page with its
# balance and its latest history; count, branches and tellers share one page). GROUP transfers make a transaction.
trace() {
    awk -v way="$1" -v group="$2" -v warm="$3" -v transfers="$transfers" -v pages=$pages '
        function drawn(most) { seed = seed * 16807 % 2147483647; return int(seed / 2147483647 * most) }
        function put(address, word) { if (way == "stores") print "store", address, word; else print "put 0", address, word }
        function apart(i,    account, teller, k) {
            account = drawn(160000)
            teller = drawn(640)
            put(0, i)
            put(32 + int(teller / 10), i)
            put(128 + teller, i)
            put(1024 + account, i)
            for (k = 0; k < 4; k++) put(32 * 5100 + (4 * i + k) % (32 * 1500), i + k)
        }
        function together(i,    account, teller, k) {
            account = drawn(6600)
            teller = drawn(20)
            put(0, i)
            put(1 + int(teller / 10), i)
            put(4 + teller, i)
            put(32 * (1 + account), i)
            for (k = 0; k < 4; k++) put(32 * (1 + account) + 4 + (4 * i + k) % 28, i + k)
        }
        function transfer(i) {
            if (way != "stores" && i % group == 0) print "begin"
            if (way == "together") together(i); else apart(i)
            if (way != "stores" && i % group == group - 1) print "commit 0"
        }
        BEGIN {
            seed = 7
            for (i = 0; i < pages; i++) print "store", 32 * i, i
            for (i = 0; i < warm; i++) transfer(i)
            print "stat"
            for (; i < warm + transfers; i++) transfer(i)
            print "stat"
        }'
}

# counted TRACE SHADOWS POLICY: programs for flushes, programs by the cleaner and erases, of each transfer that is counted
counted() {
    "$program" run --segments $segments --rows $rows --pages $pages --shadows "$2" --frames $frames --entries 64 \
        --policy "$3" <"$1" | awk -v n="$transfers" -v warm=$((4 * segments * rows)) '
            $1 != "stat" { next }
            !seen++ {
                if ($7 + $9 + $11 < warm) { print "transaction_cost: the board is not warm" > "/dev/stderr"; exit 1 }
                for (i = 7; i <= 13; i += 2) before[i] = $i
                next
            }
            { printf "%.2f %.2f %.3f", ($7 - before[7]) / n, ($9 + $11 - before[9] - before[11]) / n, ($13 - before[13]) / n }'
}

# row NAME WAY GROUP WARM SHADOWS: a line of the table
row() {
    local greedy lifetime
    trace "$2" "$3" "$4" >"$work/trace"
    greedy=$(counted "$work/trace" "$5" greedy)
    lifetime=$(counted "$work/trace" "$5" lifetime)
    echo "| $1 | ${greedy// / | } | ${lifetime// / | } |"
}

echo '| A transfer | greedy: flushes | copies | erases | lifetime: flushes | copies | erases |'
echo '|---|---|---|---|---|---|---|'
row 'its words as plain stores' stores 1 50000 16
row 'a transaction of its own' apart 1 50000 16
row '10 transfers to a transaction' apart 10 50000 64
row '100 transfers to a transaction' apart 100 50000 256
row 'a transaction of its own, its words on two pages' together 1 50000 16
row '10 to a transaction, their words on two pages each' together 10 50000 64
