#!/usr/bin/env bash
# What stock tools do with the device: nbdcopy, fio with its checksums, qemu-img, and a file system by mke2fs and debugfs over
# nbdfuse, looked at by e2fsck. What isn't here is left out, and named on standard error.
#
#   nbd.sh [FOLDER [PARAMETER]]     a folder to work in, else a temporary one; a parameter of each device, as mapped=true
set -eu
here=$(cd "$(dirname "$0")" && pwd)
out=${OUT:-$here/../out}
plugin=$out/envy.so
kind=${2-mapped=false}
work=$(mktemp -d "${1:-${TMPDIR:-/tmp}}/envy-nbd.XXXXXX")
export PATH=$PATH:/usr/sbin:/sbin
uri="nbd+unix:///?socket=$work/socket"
server=
fuse=
end() {
    [ -z "$fuse" ] || kill "$fuse" 2>/dev/null || true
    [ -z "$server" ] || kill "$server" 2>/dev/null || true
    wait
    rm -rf "$work"
}
trap end EXIT
cd "$work"

fail() {
    echo "nbd: $*" >&2
    exit 1
}

has() {
    for tool in "$@"; do
        command -v "$tool" >/dev/null 2>&1 || { echo "nbd: $tool isn't here, so what needs it wasn't tried" >&2; return 1; }
    done
}

# serve FILE PARAMETER..
serve() {
    local file=$1
    shift
    rm -f socket
    nbdkit -f -U socket "$plugin" "file=$file" "$kind" "$@" 2>log &
    server=$!
    for _ in $(seq 300); do
        nbdinfo --size "$uri" >/dev/null 2>&1 && return
        kill -0 "$server" 2>/dev/null || break
        sleep 0.1
    done
    fail "no server: $(cat log)"
}

stop() {
    kill "$server"
    wait "$server" || fail "the server ended badly: $(cat log)"
    server=
}

# refuses TEXT WORD..: that nbdkit ends with a line that has this
refuses() {
    local text=$1 found
    shift
    if found=$(nbdkit -U - "$plugin" "$kind" "$@" --run true 2>&1); then fail "$* was taken"; fi
    grep -q -- "$text" <<<"$found" || fail "$*: wanted '$text', found '$found'"
}

refuses "has room for 1 to" file=big size=4G
refuses "no parameter is called shape" file=big shape=round
refuses "file=PATH says" size=1M
echo "no device" >other
refuses "holds no memory" file=other
[ ! -e big ] && [ "$(cat other)" = "no device" ] || fail "a refused file was made or changed"

serve disk size=8M
[ "$(nbdinfo --size "$uri")" = 8388608 ] || fail "another size"
head -c 8M /dev/urandom >drawn
nbdcopy --flush drawn "$uri"
nbdcopy "$uri" back && cmp drawn back || fail "a copy there and back differs"
stop
refuses "which size= doesn't change" file=disk size=4M
cp disk before
if [ "$kind" = mapped=true ]; then
    refuses "the file is a mapped one, which mapped=1 opens" file=disk mapped=false
    refuses "bytewise=true is for a durable file" file=disk bytewise=true
else
    refuses "the file is a durable one, which mapped=0 opens" file=disk mapped=true
fi
cmp disk before || fail "a file that was refused as the other kind was changed"
serve disk
nbdcopy "$uri" back && cmp drawn back || fail "after a restart the device differs"
PYTHONDONTWRITEBYTECODE=1 python3 - "$here" <<'PROGRAM'
import sys
sys.path.insert(0, sys.argv[1])
import nbd_client
h, there = nbd_client.Client("socket"), open("drawn", "rb").read(1 << 20)
h.write(12345, b"x" * 5000)
assert h.read(0, 20000) == there[:12345] + b"x" * 5000 + there[17345:20000]
h.trim(4096, 40960)
h.zero(100001, 999)
assert h.read(4096, 40960) == bytes(40960) and h.read(100000, 1001) == there[100000:100001] + bytes(999) + there[101000:101001]
h.write(7, b"fua", fua=True)
h.flush()
assert h.read(7, 3) == b"fua" and h.read(0, 7) == there[:7]
h.write(h.size - 3, b"end")
assert h.read(h.size - 3, 3) == b"end"
try:
    h.write(h.size - 256, b"x" * 512)
    raise SystemExit("a write past the end was taken")
except OSError:
    pass
h.close()
PROGRAM
echo "nbd: copies, a restart, places that aren't aligned, trim, zeros and FUA are as they should be"

if has fio; then
    for load in "--rw=randwrite --bs=4k --fsync=8" "--rw=randrw --bsrange=512-64k --bs_unaligned --iodepth=16" "--rw=randtrimwrite --bs=4k"; do
        # shellcheck disable=SC2086
        fio --name=verify --ioengine=nbd --uri="$uri" --size=6m --io_size=4m $load --verify=crc32c --randseed=5 >fio.out 2>&1 ||
            fail "fio $load: $(tail -5 fio.out)"
    done
    echo "nbd: what fio wrote verifies"
fi
if has qemu-img; then
    qemu-img convert -n -f raw -O raw drawn "$uri"
    qemu-img compare -q -f raw -F raw drawn "$uri" || fail "qemu-img finds a difference"
    echo "nbd: qemu-img finds what it wrote"
fi
if has mke2fs debugfs e2fsck nbdfuse && [ -w /dev/fuse ]; then
    mkdir mounted
    nbdfuse mounted/disk "$uri" 2>fuse.log &
    fuse=$!
    for _ in $(seq 50); do [ -f mounted/disk ] || sleep 0.1; done
    if [ -f mounted/disk ]; then
        mke2fs -q -t ext4 -F mounted/disk
        for i in 1 2 3; do
            head -c 1M /dev/urandom >"file$i"
            echo "write file$i name$i"
        done >words
        debugfs -w -f words mounted/disk >/dev/null 2>&1
        e2fsck -fn mounted/disk >fsck.out 2>&1 || fail "e2fsck: $(tail -3 fsck.out)"
        debugfs -R "dump name2 name2" mounted/disk 2>/dev/null
        cmp file2 name2 || fail "a file differs"
        echo "nbd: a file system over nbdfuse is clean, and its files are there"
    else
        echo "nbd: nbdfuse doesn't run here, so no file system was made over it: $(head -1 fuse.log)" >&2
    fi
    kill "$fuse" 2>/dev/null || true
    wait "$fuse" || true
    fuse=
fi
stop
