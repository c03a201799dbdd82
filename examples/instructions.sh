#!/usr/bin/env bash
# Instructions of the program per line, by valgrind's callgrind, less those of an empty trace. Repeatable, also on a
# busy machine. Takes the program, or else the proved one or a trial's; it writes a table.
set -eu
cd "$(dirname "$0")/.."
program=${1-$(./envy --program counted)} || exit 1
lines=50000
command -v valgrind >/dev/null || { echo "instructions: valgrind is not on the path" >&2; exit 1; }
work=$(mktemp -d "${TMPDIR:-/tmp}/envy-instructions.XXXXXX")
trap 'rm -rf "$work"' EXIT

# counted INPUT WORDS..: the instructions of a run, whose output goes to $work/out
counted() {
    local input=$1
    shift
    valgrind --tool=callgrind --callgrind-out-file=/dev/null "$program" "$@" <"$input" 2>"$work/said" >"$work/out"
    awk '/Collected/ { print $NF }' "$work/said"
}

# row NAME INPUT WORDS..: a line of the table; the empty run has the words with --lines=0, and no input
row() {
    local name=$1 input=$2 all none
    shift 2
    none=$(counted /dev/null "${@/--lines=$lines/--lines=0}")
    all=$(counted "$input" "$@")
    printf '| %s | %d |\n' "$name" $(((all - none) / lines))
}

echo '| Word | Instructions per line |'
echo '|---|---|'
row '`gen`' /dev/null gen --lines=$lines
cp "$work/out" "$work/generated"
row '`plain`, over generated lines' "$work/generated" plain
# stores and loads of 8 pages, which are in SRAM
awk -v lines=$lines 'BEGIN { for (i = 0; i < lines; i++) { if (i % 2) print "load", i * 37 % 256; else print "store", i * 37 % 256, i } }' >"$work/hits"
row '`run`, loads and stores of pages in SRAM' "$work/hits" run --pages=8
row '`run`, over generated lines' "$work/generated" run
