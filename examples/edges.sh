#!/usr/bin/env bash
# What no contract can say of the memory in a file, at the edge between the program and the system: standard streams that are closed, a
# write that fails and a process that follows, a read that ends early, names that others have, a file that is moved, a limit
# of length, and a folder in which nothing may be made. Takes the program, or the proved one. What a machine lacks for a
# step is said on standard error, and the step left out.
set -u
cd "$(dirname "$0")/.."
program=${1-$(./envy --program)}
[ -x "$program" ] || { echo "edges: no program at $program" >&2; exit 1; }
work=$(mktemp -d "${TMPDIR:-/tmp}/envy-edges.XXXXXX") || exit 1
loop=
tidy() {
    mountpoint -q "$work/disk" 2>/dev/null && umount "$work/disk"
    [ -n "$loop" ] && losetup -d "$loop"
    mountpoint -q "$work/thin" 2>/dev/null && umount "$work/thin"
    chmod -R u+rwx "$work" 2>/dev/null
    rm -rf "$work"
}
trap tidy EXIT
failures=0

fail() {
    echo "edges: $*" >&2
    failures=$((failures + 1))
}

skip() { echo "edges: left out: $*" >&2; }

# keeps FILE OPTIONS..: what is on standard input over a file, within a minute
keeps() {
    timeout 60 "$program" keep --file "$@" >"$work/out" 2>"$work/err"
    status=$?
}

# ends NAME STATUS OUTPUT TEXT: the last call's status, output and text, against those that are wanted
ends() {
    [ "$status" = "$2" ] || fail "$1: status $status, and not $2: $(cat "$work/err")"
    printf '%b' "$3" | cmp -s - "$work/out" || fail "$1: another output: $(head -c 200 "$work/out")"
    [ "$(cat "$work/err")" = "$4" ] || fail "$1: another text: $(cat "$work/err")"
}

# grows NAME: the text of a file that couldn't be compacted, once
grows() {
    [ "$(cat "$work/err")" = "envy: no second file took the place of $(realpath "$work")/$1, so it is appended to and grows" ] ||
        fail "$1: another text: $(cat "$work/err")"
}

# Each combination of closed standard streams: no reply and no text comes into the file, and a stream that is closed fails
# as ever.
printf 'store 5 7\nsync\n' >"$work/trace"
for closed in 0 1 2 3 4 5 6 7; do
    keeps "$work/streams$closed" <"$work/trace"
    ends "a new file" 0 'ok\nsynced\n' ''
    printf 'store 5 %d\nsync\nfly\n' $((closed + 100)) >"$work/lines"
    (
        exec <"$work/lines" >"$work/out" 2>"$work/err"
        [ $((closed & 1)) = 0 ] || exec <&-
        [ $((closed & 2)) = 0 ] || exec >&-
        [ $((closed & 4)) = 0 ] || exec 2>&-
        exec timeout 60 "$program" keep --file "$work/streams$closed"
    )
    status=$?
    found=7
    [ $((closed & 3)) = 0 ] && found=$((closed + 100))
    [ $((closed & 3)) = 2 ] && found="$((closed + 100)) or 7"
    [ "$status" = 0 ] && fail "closed $closed: status 0"
    [ "$status" -lt 16 ] || fail "closed $closed: status $status"
    keeps "$work/streams$closed" < <(echo 'load 5')
    case " $found " in
    *" $(cat "$work/out") "*) ;;
    *) fail "closed $closed: found '$(cat "$work/out")' $(cat "$work/err"), and not $found" ;;
    esac
done

# Names that others have: a file, a link to nothing, a folder. What a process that was killed left is removed.
printf 'store 5 7\nsync\n' | timeout 60 "$program" keep --file "$work/names" >/dev/null
printf "somebody's" >"$work/names.envy-new"
ln -s "$work/nowhere" "$work/names.envy-new1"
mkdir "$work/names.envy-new2"
printf 'left by a process' >"$work/names.envy-new3"
chmod 1600 "$work/names.envy-new3"
keeps "$work/names" --compact 1 < <(printf 'load 5\nstore 6 8\n')
ends "a compaction beside names that others have" 0 '7\nok\n' ''
[ "$(cat "$work/names.envy-new")" = "somebody's" ] || fail "somebody's file was changed"
[ -L "$work/names.envy-new1" ] && [ ! -e "$work/nowhere" ] || fail "a link was followed"
[ -e "$work/names.envy-new3" ] && fail "what a process left is there still"
[ "$(stat -c %a "$work/names")" = "$(printf %o $((0666 & ~0$(umask))))" ] || fail "access rights $(stat -c %a "$work/names")"

# A name to which nothing can be added, and a folder in which nothing may be made, are told before the first line.
long=$(printf 'n%.0s' $(seq 250))
keeps "$work/$long" < <(echo 'load 5')
[ $status = 11 ] && [ ! -e "$work/$long" ] || fail "a long name: status $status: $(cat "$work/err")"
mkdir "$work/bare"
cp "$work/names" "$work/bare/memory"
chmod 666 "$work/bare/memory"
if [ "$(id -u)" != 0 ]; then
    chmod 555 "$work/bare"
    keeps "$work/bare/memory" < <(echo 'load 5')
    [ $status = 11 ] || fail "a folder without rights: status $status: $(cat "$work/err")"
elif unshare -m true 2>/dev/null; then
    # (root may make files in any folder but one that is mounted to be read; the file in it may be written)
    unshare -m sh -c 'mount --bind "$1/bare" "$1/bare" && mount --bind "$1/bare/memory" "$1/bare/memory" &&
        mount -o remount,bind,ro "$1/bare" && echo "load 5" | timeout 60 "$2" keep --file "$1/bare/memory"' \
        - "$work" "$program" >"$work/out" 2>"$work/err"
    status=$?
    [ $status = 11 ] || fail "a folder that is only read: status $status: $(cat "$work/err")"
else
    skip "a folder in which nothing may be made: root, and unshare doesn't run here"
fi
cmp -s "$work/names" "$work/bare/memory" || fail "a refused file was changed"

# A file whose name no second file can take, as that of a bind mount, goes on by appending, and says so once.
printf 'store 5 7\nsync\n' | timeout 60 "$program" keep --file "$work/mounted" >/dev/null
"$program" gen --start 3 --lines 20000 --pages 64 | awk '/^store/ { print } NR % 500 == 0 { print "sync" }' >"$work/lines"
if unshare -m true 2>/dev/null; then
    unshare -m sh -c 'mount --bind "$1/mounted" "$1/mounted" && timeout 240 "$2" keep --file "$1/mounted" <"$1/lines"' \
        - "$work" "$program" >"$work/out" 2>"$work/err"
    status=$?
    [ $status = 0 ] && [ "$(wc -l <"$work/out")" = "$(wc -l <"$work/lines")" ] || fail "a bind mount: status $status"
    grows mounted
    [ "$(stat -c %s "$work/mounted")" -gt $((2 << 20)) ] || fail "a bind mount: $(stat -c %s "$work/mounted") bytes"
    last=$(awk '/^store/ { a = $2; w = $3 } END { print a, w }' "$work/lines")
    keeps "$work/mounted" < <(echo "load ${last% *}")
    ends "a file that was a bind mount" 0 "${last#* }\n" ''
else
    skip "a file that is a bind mount: unshare doesn't run here"
fi

# A trace without a sync leaves a short file: what isn't synced is written anew once the file has more than 1 MiB of it.
awk 'BEGIN { for (i = 0; i < 200000; i++) print "store", i * 7919 % 500, i }' </dev/null >"$work/lines"
keeps "$work/unsynced" <"$work/lines"
[ $status = 0 ] || fail "a trace without a sync: status $status: $(cat "$work/err")"
timeout 60 "$program" keep --file "$work/killed" <"$work/lines" >/dev/null 2>&1 &
pid=$!
longest=0
while kill -0 $pid 2>/dev/null; do
    size=$(stat -c %s "$work/killed" 2>/dev/null || echo 0)
    [ "$size" -gt $longest ] && longest=$size
    sleep 0.02
done
wait $pid || fail "a trace without a sync: status $?"
[ $longest -gt 0 ] && [ $longest -lt $((4 << 20)) ] || fail "a trace without a sync: a file of $longest bytes"
keeps "$work/unsynced" < <(printf 'load %d\n' $((199999 * 7919 % 500)))
ends "the end of a trace without a sync" 0 '199999\n' ''

# Of a long file of another kind only the head is read, and nothing is made beside it.
mkdir "$work/foreign"
printf 'a text of another kind' >"$work/foreign/file"
# (so long that no memory holds it)
truncate -s 1T "$work/foreign/file"
keeps "$work/foreign/file" < <(echo 'load 5')
ends "a long file of another kind" 10 '' 'envy: no journal'
[ "$(ls -A "$work/foreign")" = file ] || fail "beside a long file of another kind: $(ls -A "$work/foreign")"

# A file that is refused isn't copied, though what an opening would cut off looks like a sync.
mkdir "$work/refused"
printf 'store 5 7\nsync\nstore 6 8\nsync\n' | timeout 60 "$program" keep --file "$work/refused/file" >/dev/null
printf '\0' | dd of="$work/refused/file" bs=1 seek=33 conv=notrunc 2>/dev/null
cp "$work/refused/file" "$work/turned"
keeps "$work/refused/file" --rows 17 < <(echo 'load 5')
ends "other sizes over a turned gate" 10 '' 'envy: the journal has other sizes'
[ "$(ls -A "$work/refused")" = file ] && cmp -s "$work/refused/file" "$work/turned" ||
    fail "a refused file: $(ls -A "$work/refused")"
keeps "$work/refused/file" < <(echo 'load 5')
[ $status = 0 ] && [ -s "$work/refused/file.envy-cut" ] || fail "a turned gate: status $status, no copy"

# A file that is moved while it is open goes on where it is, and another one at its old path stays as it is.
coproc MOVED { exec timeout 240 "$program" keep --file "$work/moved" 2>"$work/err"; }
pid=$MOVED_PID
# (of its own, since a subshell has not those of a coprocess; that one's end is closed, so that the input can end)
exec {to}>&"${MOVED[1]}" {from}<&"${MOVED[0]}"
eval "exec ${MOVED[1]}>&-"
says() {
    (echo "$1" >&"$to") 2>/dev/null
    read -r -t 60 reply <&"$from" && [ "$reply" = "$2" ] || fail "$1: $reply, and not $2"
}
says 'store 5 1' ok
says sync synced
mv "$work/moved" "$work/away"
printf 'another file' >"$work/moved"
"$program" gen --start 3 --lines 9000 --pages 64 | awk '/^store/ { print } NR % 500 == 0 { print "sync" }' >"$work/lines"
wc -l <"$work/lines" >"$work/count"
cat "$work/lines" >&"$to" 2>/dev/null &
feeder=$!
for ((n = $(cat "$work/count"); n; n--)); do read -r -t 60 reply <&"$from" || { fail "no reply after the move"; break; }; done
kill $feeder 2>/dev/null
wait $feeder 2>/dev/null
says 'store 5 9' ok
says sync synced
exec {to}>&-
wait "$pid" || fail "a moved file: status $?: $(cat "$work/err")"
grows moved
[ "$(cat "$work/moved")" = "another file" ] || fail "another file at the path of a moved one was changed"
keeps "$work/away" < <(echo 'load 5')
ends "a file that was moved" 0 '9\n' ''

# Copies of a file that is at work open whole: two words that are synced together are the same in each.
mkfifo "$work/pipe"
timeout 120 "$program" keep --file "$work/copied" <"$work/pipe" >/dev/null 2>"$work/err" &
pid=$!
(for ((n = 1; n < 200000; n++)); do printf 'store 0 %d\nstore 900 %d\nsync\n' $n $n; done >"$work/pipe" 2>/dev/null) &
feeder=$!
until [ -s "$work/copied" ]; do sleep 0.01; done
last=0
for ((copy = 0; copy < 40; copy++)); do
    cp "$work/copied" "$work/copy"
    keeps "$work/copy" < <(printf 'load 0\nload 900\n')
    mapfile -t words <"$work/out"
    [ $status = 0 ] && [ "${words[0]}" = "${words[1]}" ] && [ "${words[0]}" -ge $last ] || fail "copy $copy: status $status, words ${words[*]} after $last"
    last=${words[0]:-0}
done
kill $feeder $pid 2>/dev/null
wait $feeder $pid 2>/dev/null
[ "$last" -gt 0 ] || fail "no copy has a word that was synced"

# A limit of length is a failure of the file, and not a signal that ends the program without a text, if the signal is ignored
# as ./envy does.
grep -q "^trap '' XFSZ" envy || fail "./envy doesn't ignore the signal of a limit of length"
printf 'store 5 7\nsync\n' | timeout 60 "$program" keep --file "$work/limited" >/dev/null
"$program" gen --start 3 --lines 20000 --pages 64 | grep '^store' >"$work/lines"
(
    trap '' XFSZ
    ulimit -f 64
    { cat "$work/lines"; echo sync; } | timeout 60 "$program" keep --file "$work/limited" >"$work/out" 2>"$work/err"
)
status=$?
[ $status = 6 ] && [ "$(tail -n 1 "$work/out")" = lost ] || fail "a limit of length: status $status: $(cat "$work/err")"
keeps "$work/limited" < <(echo 'load 5')
[ $status = 0 ] || fail "after a limit of length: status $status: $(cat "$work/err")"

# So it is of standard output, if that is a file: the replies that don't fit are told as lost.
(
    trap '' XFSZ
    ulimit -f 1
    head -n 500 "$work/lines" | timeout 60 "$program" run >"$work/out" 2>"$work/err"
)
status=$?
[ $status = 4 ] || fail "a limit of length of standard output: status $status: $(cat "$work/err")"

# What follows has the system fail. A library stands for it (file/file_calls.c), and then a real device.
if gcc --version >/dev/null 2>&1; then
    gcc -O2 -shared -fPIC -o "$work/file_calls.so" examples/file/file_calls.c || exit 1
    mkdir "$work/calls"
    file=$work/calls/memory
    # shimmed HOW CALL OPTIONS..: a call whose CALL-th call of the file is this
    shimmed() {
        local how=$1 call=$2
        shift 2
        head -c 64 /dev/zero >"$work/counts"
        LD_PRELOAD=$work/file_calls.so FILE_CALLS_PATH=$file FILE_CALLS_COUNTS=$work/counts FILE_CALLS_ERROR=5 \
            FILE_CALLS_HOW=$how FILE_CALLS_FAIL=$call timeout 60 "$program" keep --file "$file" "$@" >"$work/out" 2>"$work/err"
        status=$?
    }
    # A read that ends early is no end of the file.
    printf 'store 5 7\nsync\n' | timeout 60 "$program" keep --file "$file" >/dev/null
    cp "$file" "$work/whole"
    for read in 1 2; do
        shimmed early $read < <(echo 'load 5')
        [ $status = 11 ] || [ "$(cat "$work/out")" = 7 ] || fail "read $read ends early: status $status: $(cat "$work/out" "$work/err")"
        cmp -s "$file" "$work/whole" || [ $status = 0 ] || fail "read $read ends early, and the file is changed"
    done
    # A sync waits for the disk twice, or once if the file is written byte by byte, and changes no length: zeros are there
    # already. Where nothing is held a sync makes no call, and so does the end of the input.
    # called NUMBER: a number that file_calls.c counted (1: calls; 4: bytes; 5: syncs)
    called() { od -A n -t u8 -w64 "$work/counts" | awk -v n="$1" '{ print $n }'; }
    for options in '--bytewise 0' '--bytewise 1'; do
        waits=$((2 - ${options#* }))
        shimmed none 0 $options < <(printf 'store 5 8\nsync\n')
        syncs=$(called 5) calls=$(called 1) size=$(stat -c %s "$file")
        shimmed none 0 $options < <(printf 'store 5 8\n')
        [ "$(called 1)" = "$calls" ] || fail "$options: the end of the input makes $(called 1) calls, and a sync before it $calls"
        shimmed none 0 $options < <(printf 'store 5 8\nsync\nload 5\nsync\nsync\n')
        [ "$(called 1)" = "$calls" ] || fail "$options: idle syncs make $(called 1) calls, and none $calls"
        shimmed none 0 $options < <(for ((n = 1; n <= 201; n++)); do printf 'store 5 %d\nsync\n' $n; done)
        [ $(($(called 5) - syncs)) = $((200 * waits)) ] || fail "$options: 200 syncs wait for the disk $(($(called 5) - syncs)) times"
        [ "$(stat -c %s "$file")" = "$size" ] || fail "$options: 200 syncs make a file of $size bytes one of $(stat -c %s "$file")"
        cp "$work/whole" "$file"
    done
    # Each call fails in turn, and what wasn't synced isn't on the disk, while the system gives it to whoever reads. The next
    # process syncs a word; then the machine stops, and what is on the disk is what is found.
    for options in '--bytewise 0' '--bytewise 1'; do
        stale=0
        for ((call = 1; call < 60; call++)); do
            cp "$work/whole" "$file"
            shimmed stale $call $options < <(printf 'store 5 8\nstore 700 8\nsync\nstore 5 9\nstore 900 9\nsync\n')
            [ $status = 0 ] && break
            [ -e "$file.disk" ] && stale=$((stale + 1))
            shimmed stale 0 $options < <(printf 'load 5\nstore 40 1\nsync\nload 5\nstore 41 2\nsync\n')
            read -r word <"$work/out"
            [ $status = 0 ] || fail "after call $call failed: status $status: $(cat "$work/err")"
            [ -e "$file.disk" ] && mv "$file.disk" "$file"
            keeps "$file" < <(printf 'load 5\nload 40\nload 41\n')
            ends "a stop of the machine after call $call failed, $options" 0 "$word\n1\n2\n" ''
        done
        [ $status = 0 ] && [ $stale -gt 0 ] && [ $call -gt 2 ] && [ $call -lt 60 ] || fail "$options: $call calls, $stale of them left another file on the disk"
    done
else
    skip "calls that fail: gcc doesn't run here"
fi

# A real device that fails: a file system on a disk whose room isn't there yet, which fills up.
thin() {
    local filled
    mkdir -p "$work/thin" "$work/disk"
    mount -t tmpfs -o size=24m none "$work/thin" 2>/dev/null || return 1
    truncate -s 64M "$work/thin/image"
    loop=$(losetup -f --show "$work/thin/image" 2>/dev/null) || { loop=; return 1; }
    mkfs.ext4 -q -E lazy_itable_init=0,lazy_journal_init=0 "$loop" 2>/dev/null && mount "$loop" "$work/disk" 2>/dev/null
}
if [ "$(id -u)" = 0 ] && thin; then
    file=$work/disk/memory
    printf 'store 5 7\nsync\n' | timeout 60 "$program" keep --file "$file" --bytewise 1 >/dev/null || fail "a file on a thin disk"
    sync -f "$work/disk"
    cat /dev/zero >"$work/thin/filler" 2>/dev/null
    keeps "$file" --bytewise 1 < <(head -n 700 "$work/lines"; echo sync)
    case $status in
    6) ;;
    0) skip "a full thin disk: it took all that was written" ;;
    *) fail "a full thin disk: status $status: $(cat "$work/err")" ;;
    esac
    rm "$work/thin/filler"
    keeps "$file" --bytewise 1 < <(printf 'store 40 1\nsync\nload 5\nload 40\n')
    cp "$work/out" "$work/told"
    if [ $status = 0 ]; then
        tail -n 2 "$work/out" >"$work/told"
        # what the system holds goes with the mount, as with a stop of the machine: all was told to be on the disk
        umount "$work/disk" && mount "$loop" "$work/disk" || fail "the thin disk isn't mounted again"
        keeps "$file" < <(printf 'load 5\nload 40\n')
        cmp -s "$work/told" "$work/out" || fail "a stop after a full thin disk: found $(tr '\n' ' ' <"$work/out"), and not $(tr '\n' ' ' <"$work/told"): $(cat "$work/err")"
    else
        skip "what follows a full thin disk: the file system is only read then"
    fi
else
    skip "a disk that fails: it takes root, loop devices, tmpfs and mkfs.ext4"
fi

# A real device that fails for a while, again and again, and works between.
examples/failing_disk.sh "$program" 6 || fail "a disk that fails for a while"

[ "$failures" = 0 ] && echo "edges: all is as it must be"
[ "$failures" = 0 ]
