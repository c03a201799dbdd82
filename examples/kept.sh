#!/usr/bin/env bash
# What no contract can say of the memory in a file: the same trace has the same replies under run and under keep; a process
# that is killed at any moment leaves all that a `synced` line told, whole; a second process is refused; and a file of which
# a byte was changed, or that was cut or made longer, is served or refused, and never ends otherwise. Takes the program, or
# else the proved one or a trial's; KILLS and FILES are how many of each.
set -u
cd "$(dirname "$0")/.."
program=${1-$(./envy --program)} || exit 1
kills=${KILLS-60}
files=${FILES-150}
work=$(mktemp -d "${TMPDIR:-/tmp}/envy-kept.XXXXXX") || exit 1
trap 'rm -rf "$work"' EXIT
failures=0

fail() {
    echo "kept: $*" >&2
    failures=$((failures + 1))
}

# keeps FILE OPTIONS..: what is on standard input over a file, within a minute
keeps() {
    timeout 60 "$program" keep --file "$@" >"$work/out" 2>"$work/err"
    status=$?
}

# ends NAME STATUS OUTPUT TEXT: the last call's status, output and text, against those that are wanted
ends() {
    [ "$status" = "$2" ] || fail "$1: status $status, and not $2"
    printf '%b' "$3" | cmp -s - "$work/out" || fail "$1: another output: $(head -c 200 "$work/out")"
    [ "$(cat "$work/err")" = "$4" ] || fail "$1: another text: $(cat "$work/err")"
}

# The same replies, for drawn traces under each policy; and the next call finds the last word of each address.
for policy in greedy fifo locality hybrid lifetime; do
    "$program" gen --start 7 --lines 3000 --pages 12 >"$work/trace"
    timeout 60 "$program" run --policy $policy <"$work/trace" >"$work/wanted"
    keeps "$work/$policy" --policy $policy <"$work/trace"
    [ $status = 0 ] && cmp -s "$work/wanted" "$work/out" || fail "$policy: other replies than those of run"
    seq 0 383 | sed 's/^/look /' >"$work/looks"
    cat "$work/trace" "$work/looks" | timeout 60 "$program" plain | tail -n 384 >"$work/wanted"
    keeps "$work/$policy" <"$work/looks"
    cmp -s "$work/wanted" "$work/out" || fail "$policy: the next call finds other words"
done

# What each kind of file is told.
keeps "$work/a" < <(printf 'store 5 7\nsync\nload 5\nbegin\nput 0 5 8\n')
ends "a new file" 0 'ok\nsynced\n7\ntx 0\nok\n' ''
keeps "$work/a" --rows 16 < <(printf 'load 5\nlook 5\n')
ends "the next call" 0 '7\n7\n' ''
keeps "$work/a" --rows 17 < <(printf 'load 5\n')
ends "other sizes" 10 '' 'envy: the journal has other sizes'
keeps "$work/a" --mark 9 < <(printf 'load 5\n')
ends "a mark above the frames" 10 '' 'envy: the options break a rule with the journal'
keeps "$work/new" --segments 3 < <(printf 'load 5\n')
ends "a rule of a new file" 2 '' 'envy: segments must be 4 to 4096'
[ -s "$work/new" ] && fail "a refused file was made"
printf 'a text of another kind, which is long enough\n' >"$work/text"
keeps "$work/text" < <(printf 'load 5\n')
ends "another file" 10 '' 'envy: no journal'
[ "$(cat "$work/text")" = 'a text of another kind, which is long enough' ] || fail "another file was written"
printf 'abc' >"$work/text"
keeps "$work/text" < <(printf 'load 5\n')
ends "a small file of another kind" 10 '' 'envy: no journal'
[ "$(cat "$work/text")" = abc ] || fail "a small file was written"
{ head -c 8 "$work/a"; printf '\003'; tail -c +10 "$work/a"; } >"$work/version"
keeps "$work/version" < <(printf 'load 5\n')
ends "another version" 10 '' 'envy: a journal of another version'
# a journal in which nothing was done: its head alone, a closed gate, a batch without operations
for rest in '' '\000' '\004\005\000'; do
    { head -c 33 "$work/a"; printf "$rest"; } >"$work/undone"
    keeps "$work/undone" < <(printf 'load 5\nstore 5 7\n')
    ends "a journal without operations" 0 '0\nok\n' ''
done
{ head -c 33 "$work/a"; printf '\004\001\000\000\000\000\011\000\000\000\000\000\000\000\005\000'; } >"$work/undone"
keeps "$work/undone" < <(printf 'load 5\n')
ends "a journal of no memory" 10 '' 'envy: no journal'
keeps "$work" < <(printf 'load 5\n')
ends "a folder" 11 '' "envy: the journal can't be read"
keeps "$work/none/a" < <(printf 'load 5\n')
ends "a file in no folder" 11 '' "envy: the journal can't be read"
keeps "$work/a" < <(printf 'load 5\nfly\nload 5\n')
ends "a refused line" 5 '7\n' 'envy: line 2: unknown word'
keeps "$work/a" < <(printf 'cut 1 1\n')
ends "a cut" 5 '' 'envy: line 1: unknown word'
keeps --pages 3 </dev/null
[ $status = 2 ] || fail "words without a path: status $status"

# A file that grew long is compacted by a sync, and by the option; the words stay, and somebody's file under the first name of
# a second one is no hindrance, and stays too.
"$program" gen --start 3 --lines 60000 --pages 64 >"$work/trace"
seq 0 2047 | sed 's/^/look /' >"$work/looks"
cat "$work/trace" "$work/looks" | timeout 60 "$program" plain | tail -n 2048 >"$work/wanted"
echo left >"$work/long.envy-new"
awk '{ print } NR % 1000 == 0 { print "sync" }' "$work/trace" >"$work/synced"
keeps "$work/long" <"$work/synced"
[ $status = 0 ] || fail "a long trace: status $status"
long=$(stat -c %s "$work/long")
# the log has 1 MiB at most, and behind it zeros are written ahead, 256 KiB at a time
[ "$long" -le $((1048578 + 262144)) ] || fail "a long trace: the file has $long bytes"
for compact in 0 1; do
    keeps "$work/long" --compact $compact <"$work/looks"
    cmp -s "$work/wanted" "$work/out" || fail "--compact $compact: other words"
done
short=$(stat -c %s "$work/long")
[ "$short" -lt 100000 ] || fail "a compacted file has $short bytes"
keeps "$work/long" <"$work/looks"
cmp -s "$work/wanted" "$work/out" || fail "a compacted file opens as other words"
[ "$(cat "$work/long.envy-new")" = left ] || fail "somebody's file beside a compacted one was changed"
[ -e "$work/long.envy-new1" ] && fail "a second file is there after a compaction"
echo "kept: a file of $long bytes was compacted to $short"

# A second process is refused, and the first goes on.
coproc FIRST { exec "$program" keep --file "$work/a" 2>/dev/null; }
first=$FIRST_PID to=${FIRST[1]} from=${FIRST[0]}
echo 'load 5' >&"$to"
read -r -t 20 reply <&"$from"
keeps "$work/a" < <(printf 'load 5\n')
ends "a second process" 11 '' 'envy: the journal is in use'
echo 'store 5 9' >&"$to"
read -r -t 20 reply <&"$from" && [ "$reply" = ok ] || fail "the first process doesn't go on"
eval "exec $to>&-"
wait "$first" || fail "the first process ended with status $?"

# Killed at any moment: two words of two pages are stored and synced, one number after another; the two that are found are
# the same, no smaller than the last that was told to be synced, and no larger than the last that was sent. Every other
# process takes the file as one that is written byte by byte.
synced=0
for ((kill = 0; kill < kills; kill++)); do
    coproc KILLED { exec "$program" keep --file "$work/killed" --bytewise $((kill % 2)) 2>/dev/null; }
    pid=$KILLED_PID
    exec {to}>&"${KILLED[1]}" {replies}<&"${KILLED[0]}"
    (for ((n = synced + 1; n < synced + 100000; n++)); do printf 'store 0 %d\nstore 900 %d\nsync\n' $n $n; done >&"$to" 2>/dev/null) &
    feeder=$!
    at=$synced
    goal=$((at + RANDOM % 30))
    while read -r -t 20 reply <&"$replies"; do
        [ "$reply" = synced ] && at=$((at + 1))
        [ $at -ge $goal ] && kill -9 "$pid" 2>/dev/null
    done
    # (a machine that is too busy may not have come to the goal)
    kill -9 "$feeder" "$pid" 2>/dev/null
    wait "$feeder" "$pid" 2>/dev/null
    exec {to}>&- {replies}<&-
    keeps "$work/killed" < <(printf 'load 0\nload 900\n')
    mapfile -t words <"$work/out"
    [ $status = 0 ] && [ "${words[0]}" = "${words[1]}" ] && [ "${words[0]}" -ge $at ] || fail "kill $kill: synced $at, found ${words[*]}, status $status"
    synced=${words[0]}
done
echo "kept: $kills processes were killed, $synced syncs"

# Changed, cut and lengthened files: no end but 0, 5 or 10, and a change behind the last gate does nothing.
keeps "$work/small" --segments 4 --rows 2 --pages 3 --shadows 1 --frames 2 --entries 1 < <(printf 'store 5 7\nstore 40 8\nsync\nstore 70 9\n')
cp "$work/small" "$work/whole"
# (zeros are written ahead of the log: what is changed lies before them)
size=$(($(od -An -v -tx1 -w1 "$work/whole" | grep -vn ' 00' | tail -n 1 | cut -d: -f1) + 2))
served=0
for ((file = 0; file < files; file++)); do
    cp "$work/whole" "$work/small"
    at=$(((RANDOM * 32768 + RANDOM) % size))
    case $((file % 3)) in
    0) printf "\\x$(printf %02x $((RANDOM % 256)))" | dd of="$work/small" bs=1 seek=$at conv=notrunc status=none ;;
    1) truncate -s $at "$work/small" ;;
    2) head -c $((RANDOM % 400)) /dev/urandom >>"$work/small" ;;
    esac
    keeps "$work/small" < <(printf 'load 5\nload 40\nload 70\n')
    case $status in
    0) served=$((served + 1)) ;;
    5 | 10) ;;
    *) fail "file $file: status $status at $at" ;;
    esac
    [ $((file % 3)) = 2 ] && [ "$(tr '\n' ' ' <"$work/out")" != '7 8 9 ' ] && fail "file $file: lengthened, and found $(tr '\n' ' ' <"$work/out")"
done
echo "kept: of $files changed files $served were served, and the others refused"

[ "$failures" = 0 ] && echo "kept: all is as it must be"
[ "$failures" = 0 ]
