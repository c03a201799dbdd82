#!/usr/bin/env bash
# Carries a memory from one run to the next: a trace is saved as an image, the image is audited, and a second trace is
# answered over it. What was stored is there, and what an open transaction put isn't.
set -eu
cd "$(dirname "$0")/.."
program=$(./envy --program) || exit 1
work=$(mktemp -d "${TMPDIR:-/tmp}/envy-carry.XXXXXX")
trap 'rm -rf "$work"' EXIT

# says WANTED: what is on standard input, against what is wanted
says() {
    cat > "$work/said"
    printf '%b' "$1" | diff - "$work/said" || { echo "carry_over: another answer than is wanted (<)" >&2; exit 1; }
}

printf 'store 5 1\nstore 40 7\nbegin\nput 0 5 2\n' > "$work/a.trace"
printf 'load 5\nload 40\nlook 5\nbegin\nput 0 5 3\ncommit 0\n' > "$work/b.trace"

"$program" save < "$work/a.trace" > "$work/board.image"
"$program" audit < "$work/board.image" | says 'sound\n'
cat "$work/board.image" "$work/b.trace" | "$program" resume --policy fifo | says '1\n7\n1\ntx 0\nok\nok\n'

# an image that stops within its last word is refused, and nothing is written
status=0
head -c 37271 "$work/board.image" > "$work/short.image"
"$program" resume < "$work/short.image" > "$work/replies" 2> "$work/text" || status=$?
[ "$status" = 10 ] && [ ! -s "$work/replies" ]
printf 'envy: image ends early\n' | diff - "$work/text"
