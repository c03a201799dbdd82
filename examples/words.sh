#!/usr/bin/env bash
# The words and options: the table that help and checks are made from (words/table) against the program, each word with
# each option; mistakes and what is told of them, at once; the program's own text and status behind it; and the examples
# of --help, as they stand there. Without a proof the program is a trial's; ENVY names another one.
set -u
cd "$(dirname "$0")/.."
top=$PWD
program=${ENVY-$(./envy --program)} || exit 1
work=$(mktemp -d "${TMPDIR:-/tmp}/envy-words.XXXXXX") || exit 1
trap 'rm -rf "$work"' EXIT
failures=0

fail() {
    echo "words: $*" >&2
    failures=$((failures + 1))
}

told() { awk -f words/words.awk -- words/table "$@"; }

# understood WORDS..: whether the program understands the words; a transfer takes long in a trial's program
understood() {
    timeout 60 "$program" "$@" </dev/null >/dev/null 2>"$work/said"
    ! grep -qx 'envy: words not understood' "$work/said"
}

# value OPTION: one that is in every range
value() { case $1 in policy) echo fifo ;; file) echo "$work/kept" ;; segments) echo 40 ;; rows) echo 40 ;; mark | branches | bytewise | compact | large) echo 1 ;; *) echo 32 ;; esac; }

pairs=0
options=$(sed -n 's/^option | \([a-z]*\) .*/\1/p' words/table)
while IFS='|' read -r word takes; do
    for option in $options; do
        quick=()
        case "$word $option" in
        "tpca transfers" | "keep file") ;;
        tpca*) quick=(--transfers=0) ;;
        keep*) quick=("--file=$work/kept") ;;
        esac
        given=("$word" "${quick[@]}" "--$option" "$(value "$option")")
        case " $takes " in *" $option "*) wanted=0 ;; *) wanted=1 ;; esac
        understood "${given[@]}"
        [ $? = $wanted ] || fail "${given[*]}: the program thinks otherwise than the table"
        # (2: the words are in the form, and break a rule)
        told check "${given[@]}" >/dev/null
        [ $(($? == 1)) = $wanted ] || fail "${given[*]}: the check thinks otherwise than the table"
        pairs=$((pairs + 1))
    done
done < <(told list)
echo "words: $pairs pairs of a word and an option are as in the table"

# Mistakes, what is told of them before the program is called, and the nearest name that exists.
mistakes=0
while IFS='|' read -r given wanted; do
    read -r -a given <<<"$given"
    mistakes=$((mistakes + 1))
    # the best of three, since a machine may be busy
    for _ in 1 2 3; do
        began=$(date +%s%N)
        ./envy "${given[@]}" <<<'load 0' >"$work/out" 2>"$work/text"
        status=$?
        took=$(($(date +%s%N) - began))
        [ "$took" -gt 1000000000 ] || break
    done
    [ $status = 2 ] || fail "${given[*]}: status $status"
    printf 'envy: %s\nenvy: words not understood\n' "$wanted" | diff - "$work/text" >&2 || fail "${given[*]}: another text"
    [ -s "$work/out" ] && fail "${given[*]}: something was written"
    [ "$took" -le 1000000000 ] || fail "${given[*]}: told after more than a second"
    understood "${given[@]}" && fail "${given[*]}: the program understands them"
done <<'TEXT'
|no word (run plain gen save audit map resume index mirror keep tpca)
rum|rum is no word (is it run?)
Run|Run is no word (is it run?)
--frob|--frob is no word (is it --prove?)
run --page 3|--page is no option (is it --pages?)
run -pages 3|-pages is no option (is it --pages?)
run rows 3|rows is no option (is it --rows?)
run --polcy fifo|--polcy is no option (is it --policy?)
run --ROWS 3|--ROWS is no option (is it --rows?)
run 16|16 is no option
audit 16|16 is no option
map --rows 16|map takes no --rows
gen --hott 5|--hott is no option (is it --hot?)
run --pages ten|--pages: ten is no number
run --pages=|--pages: nothing is no number
run --pages +3|--pages: +3 is no number
run --pages 3e4|--pages: 3e4 is no number
run --pages --rows|--pages: --rows is no number
run --pages 4294967296|--pages: 4294967296 is above 4294967295
run --limit 18446744073709551616|--limit: 18446744073709551616 is above 18446744073709551615
run --policy lru|--policy: lru (greedy, fifo, locality, hybrid, lifetime)
run --policy Greedy|--policy: Greedy (greedy, fifo, locality, hybrid, lifetime)
run --rows 3 --rows 3|--rows twice
run --rows=3 --rows 4|--rows twice
run --rows|--rows has no value
gen --rows 3|gen takes no --rows
plain --lives 3|plain takes no --lives
resume --pages 3|resume takes no --pages
run --lines 3|run takes no --lines
run --file a|run takes no --file
keep|keep needs --file
keep --file|--file has no value
keep --file=|--file: nothing is no path
keep --file -a|--file: -a is no path
keep --file a --file b|--file twice
keep --file a --lives 3|keep takes no --lives
keep --file a --compact 2|--compact: 2 is above 1
keep --file a --bytewise 2|--bytewise: 2 is above 1
run -- --rows 3|behind -- stands --rows
run examples/first.trace|examples/first.trace is no option, but a file (< examples/first.trace)
run --rows 3 README.md|README.md is no option, but a file (< README.md)
examples/first.trace|examples/first.trace is no word, but a file (./envy run < examples/first.trace)
TEXT
echo "words: $mistakes mistakes are told, and the program refuses each"

# Numbers that the program refuses: what is told names them, the program's status is 2, and no trial is begun for them.
while IFS='|' read -r given wanted; do
    read -r -a given <<<"$given"
    [ "$(told check "${given[@]}")" = "envy: $wanted" ] || fail "${given[*]}: another text: $(told check "${given[@]}")"
    timeout 60 "$program" "${given[@]}" </dev/null >/dev/null 2>"$work/said"
    [ $? = 2 ] || fail "${given[*]}: the program's status isn't 2"
done <<'TEXT'
run --segments 3|--segments: 3 (4 to 4096)
run --segments 4097|--segments: 4097 (4 to 4096)
plain --rows 1|--rows: 1 (2 to 65536)
save --rows 65537|--rows: 65537 (2 to 65536)
mirror --pages 0|--pages: 0 (1 to 16777216)
run --pages 16777217|--pages: 16777217 (1 to 16777216)
gen --pages 1048577|--pages: 1048577 (1 to 1048576 under gen)
run --frames 1|--frames: 1 (2 to 65536)
run --entries 0|--entries: 0 (1 to 65536)
run --limit 0|--limit: 0 (1 to 18446744073709551615)
run --mark 0|--mark: 0 (1 to 65536)
gen --hot 0 --share 5|--hot: 0 (1 to 99)
gen --stores 100|--stores: 100 (1 to 99)
run --pages 81|--pages 81 and --shadows 16 are 97 rows, above 96, those of 8 segments of 16 less two segments
index --rows 2|--pages 384 and --shadows 32 are 416 rows, above 28, those of 16 segments of 2 less two segments
run --segments 4096 --rows 257|--segments 4096 of --rows 257 are 1052672 rows, above 1048576 (--large 1 takes them)
plain --segments 4096 --rows 257|--segments 4096 of --rows 257 are 1052672 rows, above 1048576
index --segments 17 --rows 65536|--segments 17 of --rows 65536 are 1114112 rows, above 1048576
mirror --segments 257 --rows 65536 --large 0|--segments 257 of --rows 65536 are 16842752 rows, above 1048576
save --segments 4096 --rows 4097 --large 1|--segments 4096 of --rows 4097 are 16781312 rows, above 16777216
keep --segments 257 --rows 65536 --file never|--segments 257 of --rows 65536 are 16842752 rows, above 16777216
run --policy hybrid --part 8|--part: 8 (1 to 7, the segments less one)
run --policy=hybrid --part=0|--part: 0 (1 to 7, the segments less one)
tpca --mark 17|--mark: 17 (1 to 16, the frames)
gen --hot 3|--hot and --share are given together, or neither is
tpca --transfers 1070|--branches 1 of --accounts 8000 and --transfers 1070 take 12292 words, above 12288, those of --pages 384
tpca --shadows 4|--shadows: 4 (5 and more under tpca)
index --shadows 31|--shadows: 31 (32 and more under index)
index --pages 19|--pages: 19 (20 and more under index)
TEXT
rm -f never
# and the largest numbers that it takes
while read -r -a given; do
    told check "${given[@]}" || fail "${given[*]}: refused"
    timeout 60 "$program" "${given[@]}" </dev/null >/dev/null || fail "${given[*]}: the program refuses them"
done <<'TEXT'
run --pages 80
run --segments 4096 --rows 256
run --segments 17 --rows 65536 --large 1
run --policy hybrid --part 7
run --mark 8
tpca --transfers 1069 --every 0
index --shadows 32 --pages 20
TEXT

# calls of the script itself that have a word too many, and help about help
for given in '--prove now' '--stands now' '--note now' 'help run now' '--program slow' '--program fast now'; do
    read -r -a words <<<"$given"
    timeout 10 ./envy "${words[@]}" >"$work/out" 2>"$work/text" </dev/null
    [ $? = 2 ] && [ ! -s "$work/out" ] && [ "$(wc -l <"$work/text")" = 1 ] || fail "$given: not refused"
done
./envy help help | cmp - <(./envy help) || fail "help help isn't the page of all words"

# a line of an unknown word is named, and of which words such lines are, if the trace is a file
while IFS='|' read -r word line wanted; do
    printf '# a comment\n\n%s\nload 0\n' "$line" >"$work/trace"
    [ "$word" != keep ] || word="keep --file $work/unknown"
    read -r -a words <<<"$word"
    ./envy "${words[@]}" <"$work/trace" >"$work/out" 2>"$work/text"
    [ $? = 5 ] || fail "$word, $line: another status than 5"
    grep -v 'unproved' "$work/text" | diff <(printf 'envy: line 3: unknown word\nenvy: %s\n' "$wanted") - >&2 || fail "$word, $line: another text"
done <<'TEXT'
run|fly 3|fly is no line under run (is it put?)
run|insert 3 4|insert is no line under run, but one under index
index|store 3 4|store is no line under index, but one under run, plain, save, resume, mirror, keep
keep|cut 1 1|cut is no line under keep, but one under run, plain, save, resume, index, mirror
plain|sync|sync is no line under plain, but one under keep
TEXT
# each line of the table is known to the words that it names, and to no other
while IFS='|' read -r word _; do
    case $word in gen | audit | map | tpca | resume) continue ;; esac
    quick=()
    [ "$word" != keep ] || quick=("--file=$work/lines-kept")
    sed -n 's/^line | \([a-z]*\) .*/\1/p' words/table | while read -r line; do
        timeout 60 "$program" "$word" "${quick[@]}" <<<"$line" >/dev/null 2>"$work/said"
        grep -q 'unknown word' "$work/said" && unknown=1 || unknown=0
        told line "$word" "$line" >/dev/null
        [ $? = $unknown ] || echo "$line under $word"
    done
done < <(told list) >"$work/lines"
[ -s "$work/lines" ] && fail "the program thinks otherwise than the table: $(paste -s -d ',' "$work/lines")"

# a file that is no journal is named
echo 'a text' >"$work/text.kept"
echo 'load 0' | ./envy keep --file "$work/text.kept" >"$work/out" 2>"$work/text"
[ $? = 10 ] && grep -q -x -F "envy: $work/text.kept doesn't begin as a journal does" "$work/text" || fail "no journal: the path isn't named"
echo 'load 0' | ./envy keep --file="$work/fresh.kept" >"$work/out" 2>"$work/text"
echo 'load 0' | ./envy keep "--file=$work/fresh.kept" >"$work/out" 2>>"$work/text"
grep -q 'journal' "$work/text" && fail "a journal is named as none"

# the script is found through a link
ln -s "$top/envy" "$work/linked"
"$work/linked" --version </dev/null | head -n 1 | grep -q -x "envy $(cat VERSION)" || fail "a link to the script isn't followed"

# the demonstration says why it ends, and shows a trace that names no words
[ -n "$(examples/demo.sh "$work/none" 2>&1)" ] || fail "demo.sh ends silently"
printf 'store 5 7\nload 5\n' >"$work/own.trace"
[ "$(cd "$work" && ENVY=$program "$top/examples/demo.sh" own.trace | wc -l)" = 2 ] || fail "demo.sh shows no trace without words"

# Words that are in the form, though a rule may be broken: nothing is told of the form.
while read -r -a given; do
    told check "${given[@]}" >/dev/null
    [ $? != 1 ] || fail "${given[*]}: refused, though they are in the form"
    understood "${given[@]}" || fail "${given[*]}: the program doesn't understand them"
done <<'TEXT'
run
run --
run --rows=016 --
run --pages 0
run --segments 3
run --policy=hybrid --part 9
run --limit 18446744073709551615
plain --mark 8
gen --start 18446744073709551615 --lines 0
tpca --transfers 0 --shadows 4
resume --mark 4294967295
index --pages 19
TEXT

# Help is answered wherever it is asked for; it fits 80 columns and has each word and option.
for given in --help -h 'run -h' 'run --rows 3 --help' '--version' 'help' 'help run' 'gen --version'; do
    read -r -a words <<<"$given"
    ./envy "${words[@]}" >"$work/page" 2>"$work/text" </dev/null || fail "$given: status $?"
    [ -s "$work/page" ] && [ ! -s "$work/text" ] || fail "$given: nothing is told"
    awk 'length($0) > 80 { exit 1 }' "$work/page" || fail "$given: wider than 80 columns"
done
./envy --help >"$work/page"
for option in $options; do
    grep -q -e "^  --$option " "$work/page" || fail "--help has no --$option"
    grep -q -e "^| \`--$option\`" docs/COMMANDS.md || fail "docs/COMMANDS.md has no --$option"
done
[ "$(./envy --version </dev/null | head -n 1)" = "envy $(cat VERSION)" ] || fail "another version"
[ "$(./envy </dev/null | wc -l)" = 2 ] || fail "a call with no word and no input isn't answered"

# The examples, in order, in a folder that has the samples and a call of this program.
ln -s "$top/examples" "$work/examples"
printf '#!/bin/sh\nexec "%s" "$@"\n' "$program" >"$work/envy"
chmod +x "$work/envy"
while IFS= read -r line; do
    (cd "$work" && bash -c "set -o pipefail; $line") >"$work/out" 2>&1 || fail "$line: $(tail -n 1 "$work/out")"
done < <(sed -n 's/^            \(.*\)/\1/p' "$work/page" | grep -F ./envy)

[ "$failures" = 0 ] && echo "words: all is as it must be"
[ "$failures" = 0 ]
