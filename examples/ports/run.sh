#!/usr/bin/env bash
# Tries the drivers of CFI parts on the parts that qemu emulates: Intel's command set on bare metal (virt), and AMD's
# over qemu's test socket (musicpal). Says so where qemu or the compiler isn't there.
set -eu
cd "$(dirname "$0")"
for tool in qemu-system-aarch64 qemu-system-arm aarch64-linux-gnu-gcc gcc; do
    if ! command -v "$tool" >/dev/null; then
        echo "the drivers of flash parts were not tried: $tool isn't here" >&2
        exit 0
    fi
done
work=$(mktemp -d)
emulator=
trap '[ -z "$emulator" ] || kill "$emulator" 2>/dev/null || true; rm -rf "$work"' EXIT
port=../../c

aarch64-linux-gnu-gcc -O2 -std=c11 -Wall -Wextra -ffreestanding -fno-builtin -fno-tree-loop-distribute-patterns \
    -nostdlib -static -fno-stack-protector -fno-pic -no-pie -mcpu=cortex-a53 -mno-outline-atomics -mstrict-align \
    -Wl,--build-id=none,-z,noexecstack,--no-warn-rwx-segments,-T,link.ld \
    boot.S intel.c $port/envy_part.c $port/ports/cfi_intel.c -o "$work/intel.elf"
gcc -O2 -std=gnu11 -Wall -Wextra -DCFI_BUS amd.c $port/envy_part.c $port/ports/cfi_amd.c -o "$work/amd"

virt() { # IMAGE-OPTIONS IS-READ-ONLY
    timeout 120 qemu-system-aarch64 -M virt -cpu cortex-a53 -m 256M -display none -monitor none -serial stdio -no-reboot \
        -nodefaults -semihosting-config enable=on,target=native -kernel "$work/intel.elf" \
        -drive "if=pflash,index=1,format=raw,file=$work/intel.img$1" -device "loader,addr=0x44000000,data=$2,data-len=8"
}
head -c 67108864 /dev/zero >"$work/intel.img"
echo "Intel's command set, two chips of 16 bits:"
virt "" 0
echo "the same, read-only:"
virt ",readonly=on" 1

head -c 8388608 /dev/zero | tr '\0' '\377' >"$work/amd.img"
echo "AMD's command set, one chip of 16 bits:"
qemu-system-arm -M musicpal -qtest "unix:$work/socket,server=on,wait=off" -qtest-log /dev/null -display none \
    -serial none -monitor none -drive "if=pflash,format=raw,file=$work/amd.img" >/dev/null 2>&1 &
emulator=$!
for _ in $(seq 100); do
    [ -S "$work/socket" ] && break
    sleep 0.1
done
timeout 300 "$work/amd" "$work/socket"
echo "the drivers of flash parts do what was ordered"
