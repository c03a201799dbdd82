#!/usr/bin/env bash
# What README and docs/ show: their text (examples/page_text.sh), calls with what they print, the demonstration, the
# converters, the files that are named. Without a proof the program is a trial's; ENVY names another one.
set -u
cd "$(dirname "$0")/.."
examples/page_text.sh >&2
text=$?
program=${ENVY-$(./envy --program)} || exit 1
work=$(mktemp -d "${TMPDIR:-/tmp}/envy-pages.XXXXXX") || exit 1
trap 'rm -rf "$work"' EXIT
failures=$text

fail() {
    echo "pages: $*" >&2
    failures=$((failures + 1))
}

[ "$(wc -l <README.md)" -le 150 ] || fail "README has more than 150 lines"
for page in README.md docs/*.md; do
    for named in $(grep -o -h -e 'docs/[A-Z]*\.md' -e 'examples/[a-z_]*\.\(sh\|awk\|trace\|h\)' -e 'pictures/[a-z_]*\.svg' "$page" | sort -u); do
        [ -e "$named" ] || [ -e "docs/$named" ] || fail "$page names $named, which isn't there"
    done
done
for kind in png svg; do
    for picture in docs/pictures/*.txt; do [ -s "${picture%.txt}.$kind" ] || fail "no ${picture%.txt}.$kind"; done
done

# a call behind `$`, and what it prints up to the next blank line; in the place of ./envy the program that is asked for
shown() {
    awk -v out="$work/shown" '
        /^    \$ / { at++; print substr($0, 7) > (out "." at ".call"); inside = 1; next }
        inside && /^    / { print substr($0, 5) > (out "." at ".text"); next }
        { inside = 0 }' "$1"
}
shown docs/COMMANDS.md
for call in "$work"/shown.*.call; do
    [ -e "$call" ] || fail "docs/COMMANDS.md shows no call"
    sed "s#\./envy run |#\"$program\" run |#" "$call" >"$work/call"
    bash "$work/call" 2>&1 </dev/null | grep -v '^envy: this answer is of an unproved' | diff "${call%.call}.text" - >&2 || fail "$(cat "$call"): prints something else"
done

# the demonstration of README, whose remarks stand behind the replies
ENVY=$program examples/demo.sh >"$work/demo"
sed -n 's/^    \([a-z]* [0-9 ]*=> \(lost, restarted\|[a-z0-9]*\)\).*/\1/p' README.md >"$work/lines"
[ "$(wc -l <"$work/lines")" -ge 7 ] || fail "README shows no demonstration"
while IFS= read -r line; do
    grep -q -x -F -- "$line" "$work/demo" || fail "README shows $line, which the demonstration doesn't print"
done <"$work/lines"

# the line of counters of docs/COMMANDS.md
line=$("$program" tpca | tail -n 1)
grep -q -x -F "    $line" docs/COMMANDS.md || fail "docs/COMMANDS.md has another line of counters than $line"

# traces of blocks: all samples tell the same requests, and the memory answers as the array does
for kind in msr spc blkparse fio; do
    examples/block_trace.sh --sample $kind >"$work/sample.$kind"
    examples/block_trace.sh $kind <"$work/sample.$kind" >"$work/$kind.trace" 2>"$work/said" || fail "$kind: status $?"
    grep -q -x 'block_trace: 544 pages' "$work/said" || fail "$kind: $(cat "$work/said")"
    cmp "$work/msr.trace" "$work/$kind.trace" || fail "the samples msr and $kind are two traces"
    # in units of 4 KiB there are as many pages as blocks; a tick for each half of the millisecond between two requests
    examples/block_trace.sh $kind --unit 4096 --ticks 500 <"$work/sample.$kind" >"$work/$kind.ticks" 2>"$work/said"
    grep -q -x 'block_trace: 34 pages' "$work/said" || fail "$kind, 4096: $(cat "$work/said")"
    [ "$(grep -c -x tick "$work/$kind.ticks")" = 398 ] || fail "$kind: $(grep -c -x tick "$work/$kind.ticks") ticks"
    examples/block_trace.sh $kind <README.md >/dev/null 2>"$work/said" && fail "$kind: README is taken for such a trace"
done
printf 'fio version 2 iolog\na add\na open\na write 0 512\na wait 1000\na read 256 256\na close\n' >"$work/iolog"
[ "$(examples/block_trace.sh fio --ticks 500 <"$work/iolog" 2>/dev/null | paste -s -d ',')" = 'store 0 1,store 32 2,tick,tick,load 32' ] ||
    fail "an iolog of version 2 is read otherwise"
shape=(--segments 24 --rows 32 --pages 544)
"$program" plain "${shape[@]}" <"$work/msr.trace" >"$work/plain"
"$program" run "${shape[@]}" <"$work/msr.trace" | cmp - "$work/plain" || fail "a trace of blocks is answered otherwise than by the array"
examples/block_trace.sh msr --words <"$work/sample.msr" 2>/dev/null | awk 'END { exit NR != 32 * '"$(wc -l <"$work/msr.trace")"' }' ||
    fail "with --words there are not 32 lines for each"

# counters over intervals: 20 rows, which add up to the counters at the end
"$program" gen --start 7 --lines 20000 | awk '{ print } NR % 1000 == 0 { print "stat" }' | "$program" run >"$work/replies"
awk -f examples/to_csv.awk "$work/replies" >"$work/whole.csv"
awk -v change=1 -v program=1 -v erase=0 -v read=0 -f examples/to_csv.awk "$work/replies" >"$work/parts.csv"
[ "$(wc -l <"$work/parts.csv")" = 21 ] || fail "not 20 intervals"
sums=$(awk -F, 'NR > 1 { for (i = 2; i <= 8; i++) sum[i] += $i; work += $10 } END { for (i = 2; i <= 8; i++) printf "%d,", sum[i]; print work == sum[4] + sum[5] + sum[6] }' "$work/parts.csv")
[ "$sums" = "$(tail -n 1 "$work/whole.csv" | cut -d, -f 2-8),1" ] || fail "the intervals don't add up: $sums"

[ "$failures" = 0 ] && echo "pages: all is as it must be"
[ "$failures" = 0 ]
