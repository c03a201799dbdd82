#!/usr/bin/env bash
# What no contract can say of the program's streams: each reply comes before the next line is waited for, every
# exit leaves the replies of the lines before it, a reader that closes early gives status 4, what stands behind an
# image is left to the next reader, and the system is asked seldom. Takes the program, or else the proved one or a trial's. Each step has a limit of time.
set -u
cd "$(dirname "$0")/.."
program=${1-$(./envy --program)} || exit 1
work=$(mktemp -d "${TMPDIR:-/tmp}/envy-streams.XXXXXX") || exit 1
trap 'rm -rf "$work"' EXIT
failures=0

fail() {
    echo "streams: $*" >&2
    failures=$((failures + 1))
}

# ends NAME STATUS OUTPUT: the last run's status and output, against those that are wanted
ends() {
    [ "$status" = "$2" ] || fail "$1: status $status, and not $2"
    printf '%b' "$3" | cmp -s - "$work/out" || fail "$1: another output: $(head -c 200 "$work/out")"
}

# runs WORDS..: a run of what is on standard input, within a minute
runs() {
    timeout 60 "$program" "$@" >"$work/out" 2>"$work/err"
    status=$?
}

# One line at a time through two pipes: the next line is sent only once the reply is there.
converse() {
    local reply line word
    coproc ENVY { exec timeout 60 "$program" run --pages 8; }
    local pid=$ENVY_PID to=${ENVY[1]} from=${ENVY[0]}
    for line in $(seq 0 99); do
        word=$((line * 7919))
        printf 'store %d %d\n' "$line" "$word" >&"$to"
        IFS= read -r -t 20 reply <&"$from" || { fail "no reply to a store before the next line"; break; }
        [ "$reply" = ok ] || fail "a store was answered by $reply"
        printf 'load %d\n' "$line" >&"$to"
        IFS= read -r -t 20 reply <&"$from" || { fail "no reply to a load before the next line"; break; }
        [ "$reply" = "$word" ] || fail "a load was answered by $reply, and not $word"
    done
    eval "exec $to>&-"
    wait "$pid"
    status=$?
    [ "$status" = 0 ] || fail "a conversation ended with status $status"
}

converse

runs run --pages 8 < <(printf 'store 0 7\nload 0\n')
ends "a trace to its end" 0 'ok\n7\n'
runs run --segments 1 < <(printf 'store 0 7\n')
ends "refused words" 2 ''
runs run --pages 8 < <(printf 'store 0 7\nload 0\nfly 1\nload 0\n')
ends "a refused line" 5 'ok\n7\n'
runs plain --pages 8 < <(printf 'store 0 7\nload 0\nload %0120d\n' 0)
ends "a line that is too long" 5 'ok\n7\n'
runs run --pages 8 --lives 0 < <(printf 'store 0 7\nload 0\npower\nload 0\n')
ends "power that does not return" 6 'ok\n7\n'
runs run --pages 8 < /
ends "a source that can't be read" 3 ''
if command -v python3 >/dev/null; then
    # the controlling side of a terminal gives its bytes, and fails once the other side is closed
    timeout 60 python3 - "$program" >"$work/out" 2>"$work/err" <<'PY'
import os, subprocess, sys, time, tty
ours, theirs = os.openpty()
tty.setraw(theirs)
child = subprocess.Popen([sys.argv[1], "run", "--pages", "8"], stdin=ours, stdout=sys.stdout)
os.write(theirs, b"store 0 7\nload 0\n")
time.sleep(1)
os.close(theirs)
sys.exit(child.wait())
PY
    status=$?
    ends "a source that fails after two lines" 3 'ok\n7\n'
fi

# leaves NAME SKIPPED WORDS..: the program stops within or behind the image, and the next reader finds what it didn't
# need, all but the first bytes, whether the bytes stand in a file or come through a pipe
leaves() {
    local name=$1 skipped=$2
    shift 2
    tail -c "+$((skipped + 1))" "$work/joined" >"$work/wanted"
    { timeout 60 "$program" "$@" >"$work/out" 2>"$work/err"; cat >"$work/left"; } <"$work/joined"
    cmp -s "$work/wanted" "$work/left" || fail "$name: the next reader of a file finds $(stat -c %s "$work/left") bytes"
    cat "$work/joined" | { timeout 60 "$program" "$@" >"$work/out" 2>"$work/err"; cat >"$work/left"; }
    cmp -s "$work/wanted" "$work/left" || fail "$name: the next reader of a pipe finds $(stat -c %s "$work/left") bytes"
}
runs save --pages 8 < <(printf 'store 0 7\n')
cp "$work/out" "$work/image"
{ cat "$work/image"; seq 100000; } >"$work/joined"
leaves "an audit" "$(stat -c %s "$work/image")" audit
[ "$(cat "$work/out")" = sound ] || fail "an audit with bytes behind the image: $(cat "$work/out")"
leaves "options that don't fit an image" 32 resume --mark 65536

timeout 60 "$program" gen --lines 100000 >/dev/full 2>"$work/err"
[ $? = 4 ] || fail "a full device: another status than 4"
timeout 60 "$program" gen --lines 2000000 2>"$work/err" | head -n 1 >"$work/out"
[ "${PIPESTATUS[0]}" = 4 ] || fail "gen and a reader that closes early: another status than 4"
(trap '' PIPE; for _ in $(seq 200000); do echo load 0; done 2>/dev/null) | {
    timeout 60 "$program" run --pages 8 2>"$work/err"
    echo $? >"$work/status"
} | head -n 1 >"$work/out"
[ "$(cat "$work/status")" = 4 ] || fail "run and a reader that closes early: status $(cat "$work/status")"
[ "$(cat "$work/out")" = 0 ] || fail "a reader that closes early read $(cat "$work/out")"

# seldom WORD INPUT OUTPUT: at most one read and one write for each 64 KiB that comes or goes, and 300 calls besides
seldom() {
    local calls bound
    calls=$(awk '$NF == "total" { print $(NF - 1) == "" ? 0 : $4 }' "$work/calls")
    bound=$((($(stat -c %s "$2") + $(stat -c %s "$3")) / 65536 * 2 + 300))
    [ -n "$calls" ] && [ "$calls" -le "$bound" ] || fail "$1: $calls system calls, and not at most $bound"
    echo "streams: $1: $calls system calls for $(stat -c %s "$2") bytes in and $(stat -c %s "$3") out"
}
if command -v strace >/dev/null && strace -c -o "$work/calls" true 2>/dev/null; then
    : >"$work/none"
    strace -c -o "$work/calls" "$program" gen --lines 2000000 >"$work/lines"
    seldom gen "$work/none" "$work/lines"
    strace -c -o "$work/calls" "$program" plain <"$work/lines" >"$work/replies"
    seldom plain "$work/lines" "$work/replies"
fi

[ "$failures" = 0 ] && echo "streams: all is as it must be"
[ "$failures" = 0 ]
