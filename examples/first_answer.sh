#!/usr/bin/env bash
# The first answers of a clean clone, before any proof: they are right, they come in time, and they leave the clone
# as it was but for what git ignores. Takes the seconds that the first may need: 60, for an idle machine.
set -u
cd "$(dirname "$0")/.."
most=${1-60}
work=$(mktemp -d "${TMPDIR:-/tmp}/envy-first.XXXXXX") || exit 1
trap 'rm -rf "$work"' EXIT
failures=0

fail() {
    echo "first answer: $*" >&2
    failures=$((failures + 1))
}

# answers WORDS..: the replies to the first sample trace, and the seconds that they took
answers() {
    local began
    began=$(date +%s)
    "$work/clone/envy" "$@" <examples/first.trace >"$work/out" 2>"$work/err" || fail "$*: status $?"
    seconds=$(($(date +%s) - began))
    cmp -s examples/first.replies "$work/out" || fail "$*: other replies than those of examples/first.replies"
    grep -q -- '--prove' "$work/err" || fail "$*: nothing is said of the proof"
    echo "$*: $seconds seconds"
}

git clone -q . "$work/clone" || exit 1
answers run
[ "$seconds" -le "$most" ] || fail "the first answer took more than $most seconds"
answers run --policy fifo
[ "$seconds" -le 1 ] || fail "the program of a trial was not kept: the second answer took $seconds seconds"
[ -z "$(git -C "$work/clone" status --porcelain)" ] || fail "the clone was changed"
[ "$failures" = 0 ]
