#!/usr/bin/env bash
# A disk that fails for a while, by tools of others: ext4 on a loop device over nbdfuse and nbdkit, whose filter `error` answers
# each write with EIO while a file is there. A memory's file lies on it. The disk fails before the file is opened, or behind a
# sync, or at a drawn moment between many; then it works again, and the next process reads, stores and syncs. At that
# `synced` the disk is copied, as a stop of the machine would leave it. From the copy each word that was told as synced is
# read, and what the second process had read before its sync. A plain file beside it, written and synced in the same way,
# shows that the disk does lose such words.
#
#   examples/failing_disk.sh [PROGRAM [ROUNDS]]        clients/tests/kept_lines.py is a program over the C library
#
# It needs root, loop devices, fuse, and of Debian nbdkit, libnbd-bin and e2fsprogs; without these it is left out.
set -u
cd "$(dirname "$0")/.."
export PATH=$PATH:/usr/sbin:/sbin
rounds=${2-12}
work=$(mktemp -d "${TMPDIR:-/tmp}/envy-disk.XXXXXX") || exit 1
loop='' server='' fuse='' failures=0 lost=0 plainly=0
tidy() {
    mountpoint -q "$work/disk" && umount "$work/disk"
    [ -z "$loop" ] || losetup -d "$loop"
    [ -z "$fuse" ] || { kill "$fuse" && wait "$fuse"; }
    [ -z "$server" ] || { kill "$server" && wait "$server"; }
    rm -rf "$work"
}
trap tidy EXIT

fail() {
    echo "failing_disk: $*" >&2
    failures=$((failures + 1))
}

left_out() { echo "failing_disk: left out: $*" >&2 && exit 0; }

for tool in nbdkit nbdfuse losetup mkfs.ext4 e2fsck debugfs; do
    command -v $tool >/dev/null || left_out "$tool isn't here (Debian: nbdkit, libnbd-bin, e2fsprogs)"
done
[ "$(id -u)" = 0 ] && [ -w /dev/fuse ] && [ -e /dev/loop-control ] || left_out "it takes root, /dev/fuse and loop devices"
program=${1-$(./envy --program)}
[ -x "$program" ] || { fail "no program at $program"; exit 1; }

# waits TEST WORD: until it is so, 10 seconds at most
waits() {
    local _
    for _ in $(seq 100); do test "$@" && return || sleep 0.1; done
    return 1
}

# made: makes the disk, and mounts it. (A journal would end at the first write that fails, and the file system with it.)
made() {
    mkdir "$work/fuse" "$work/disk" && truncate -s 48M "$work/image" || return
    nbdkit -f -U "$work/socket" --filter=error file "$work/image" error=EIO error-pwrite-rate=100% error-file="$work/fails" 2>"$work/log" &
    server=$!
    waits -S "$work/socket" || return
    nbdfuse "$work/fuse/disk" "nbd+unix:///?socket=$work/socket" 2>>"$work/log" &
    fuse=$!
    waits -f "$work/fuse/disk" && loop=$(losetup -f --show "$work/fuse/disk" 2>>"$work/log") || return
    mkfs.ext4 -q -O ^has_journal -E lazy_itable_init=0 "$loop" 2>>"$work/log" && mount "$loop" "$work/disk" 2>>"$work/log"
}

# kept LINES: what a process answers to them
kept() { printf "$1" | timeout 60 "$program" keep --file "$work/disk/memory" --bytewise "$bytewise" 2>"$work/err"; }

# disk_has NAME: a file as the disk has it now
disk_has() {
    cp "$work/image" "$work/copy"
    e2fsck -fy "$work/copy" >"$work/fsck" 2>&1
    debugfs -R "dump /$1 $work/found" "$work/copy" 2>>"$work/fsck"
}

# session HOW: a process whose disk fails, with lines until it ends. Its replies are in the file `said`.
session() {
    [ "$1" = before ] && touch "$work/fails"
    for ((n = 1; n <= 50000; n++)); do
        # (more than a page of the file: a page that is lost isn't written again because of what comes behind)
        { printf 'store %d %d\n' $(seq -f "%.0f $((100000 * round + n))" 6 705) && echo sync; } || break
        [ $n = 1 ] && [ "$1" = behind ] && sleep 0.5 && touch "$work/fails"
    done 2>/dev/null | timeout 60 "$program" keep --file "$work/disk/memory" --bytewise "$bytewise" >"$work/said" 2>"$work/err" &
    [ "$1" != between ] || { sleep 0.$((2 + RANDOM % 8)) && touch "$work/fails"; }
    wait $!
    status=$?
    rm -f "$work/fails"
}

# plain: a file of others, in the same way. Whether the disk lost what is read again and synced
plain() {
    head -c 4096 /dev/zero >"$work/disk/plain" && sync "$work/disk/plain"
    touch "$work/fails"
    printf %d "$round" | dd of="$work/disk/plain" conv=notrunc,fsync 2>/dev/null && fail "the disk didn't fail"
    rm -f "$work/fails"
    sync "$work/disk/plain"
    disk_has plain
    ! cmp -s "$work/disk/plain" "$work/found"
}

made || left_out "a disk that fails isn't made: $(tail -n 1 "$work/log")"
bytewise=0
kept 'store 5 1\nsync\n' >/dev/null || fail "a new file: $(cat "$work/err")"
last=0
for ((round = 1; round <= rounds; round++)); do
    bytewise=$((round / 3 % 2))
    session "$(echo before behind between | cut -d ' ' -f $((round % 3 + 1)))"
    synced=$(grep -c synced "$work/said")
    [ "$synced" = 0 ] || last=$((100000 * round + synced))
    case $status in
    6 | 11) lost=$((lost + 1)) ;;
    *) fail "round $round: status $status after $synced syncs: $(cat "$work/err")" ;;
    esac
    kept "load 6\nload 705\nstore 1500 $round\nsync\n" >"$work/said" || fail "round $round, the next process: $(cat "$work/err")"
    disk_has memory
    { read -r next && read -r same; } <"$work/said"
    [ "$next" = "$same" ] || fail "round $round: $next and $same were stored together"
    [ "$next" = $last ] || [ "$next" = $((last + 1)) ] || [ $synced = 0 -a "$next" = $((100000 * round + 1)) ] ||
        fail "round $round: $next was read, and $last was synced"
    last=$next
    "$program" keep --file "$work/found" < <(printf 'load %d\n' 5 6 705 1500) >"$work/words" 2>&1
    printf '%s\n' 1 "$next" "$next" "$round" | cmp -s - "$work/words" ||
        fail "round $round: the disk has $(tr '\n' ' ' <"$work/words"), and not 1 $next $next $round"
    plain && plainly=$((plainly + 1))
done
[ $plainly -gt 0 ] || fail "no plain file lost what it was told to have, so nothing was shown"
echo "failing_disk: of $rounds failures of a disk $lost ended a process, and the next one lost nothing; a plain file lost words in $plainly"
[ $failures = 0 ]
