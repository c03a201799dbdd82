#!/usr/bin/env bash
# A memory in a file: a process is killed between a commit and a sync, and behind it, and the next call tells what is there.
set -eu
cd "$(dirname "$0")/.."
program=$(./envy --program)
work=$(mktemp -d "${TMPDIR:-/tmp}/envy-keep.XXXXXX")
trap 'rm -rf "$work"' EXIT

# killed N LINES: a process that answered N lines is killed before its input ends
killed() {
    coproc KEPT { exec "$program" keep --file "$work/memory"; }
    local pid=$KEPT_PID
    printf "$2" >&"${KEPT[1]}"
    for _ in $(seq "$1"); do read -r -t 20 reply <&"${KEPT[0]}" && echo "  $reply"; done
    kill -9 "$pid"
    wait "$pid" 2>/dev/null || true
}

# found WORD: what the next call finds at address 5
found() {
    local word
    word=$(echo 'load 5' | "$program" keep --file "$work/memory")
    echo "opened: load 5 => $word"
    [ "$word" = "$1" ]
}

echo "store 5 1, sync, begin, put 0 5 2, commit 0, killed:" && killed 5 'store 5 1\nsync\nbegin\nput 0 5 2\ncommit 0\n'
found 1
echo "begin, put 0 5 2, commit 0, sync, killed:" && killed 4 'begin\nput 0 5 2\ncommit 0\nsync\n'
found 2
