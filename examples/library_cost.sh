#!/usr/bin/env bash
# Instructions of a load, a store and a transfer of the library over each board, by valgrind's callgrind. Repeatable, also on a
# busy machine. It needs gcc, valgrind and the library (cd crates/envy_library && rt lib).
set -eu
cd "$(dirname "$0")"
command -v valgrind >/dev/null || { echo "library_cost: valgrind isn't here" >&2; exit 1; }
make -s out/cost
work=$(mktemp -d "${TMPDIR:-/tmp}/envy-cost.XXXXXX")
trap 'rm -rf "$work"' EXIT

# counted FUNCTION BOARD CALLS: the instructions of a call of a function, with all that it calls
counted() {
    valgrind --tool=callgrind --callgrind-out-file=/dev/null --toggle-collect="$1" out/cost "$2" "$work/file" 2>"$work/said" >&2
    echo $(($(awk '/Collected/ { print $NF }' "$work/said") / $3))
}

echo '| Instructions | load | store | transfer |'
echo '|---|---|---|---|'
for board in file mapped regions simulation; do
    echo "| $board | $(counted envy_load $board 140000) | $(counted envy_store $board 100200) | $(counted transfer $board 20000) |"
done
