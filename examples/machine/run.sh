#!/usr/bin/env bash
# eNVy in an emulated machine, and over parts that fail. On the host: orders that go wrong, over whole calls (failing.c),
# and barriers between stores (stores.c), which qemu's user mode runs for 64-bit ARM too.
# Then it builds the library for aarch64 and a bare-metal program over it for qemu's `virt`, kills the machine at drawn
# moments and compares every word after each kill, and takes up on x86-64 what it left, which audits it. Words: how many
# kills (50), and the number that all is drawn from (1). It needs gcc; where qemu or the compiler for aarch64 isn't there, it
# says so and leaves the machine out. The crates below the library are to stand proved (.ci/run, or rt lib in
# crates/envy_parted).
#
# The archive for aarch64 is what `rattle build --crate-type staticlib --target aarch64-unknown-linux-gnu` makes of the
# crate, with the words for its libraries that rt passes: ../library/build.py has the call.
set -eu
cd "$(dirname "$0")"
lacks() {
    for tool; do
        if ! command -v "$tool" >/dev/null; then
            echo "$tool isn't here"
            return
        fi
    done
}
why=$(lacks gcc objcopy)
if [ -n "$why" ]; then
    echo "machine: nothing was tried: $why" >&2
    exit 0
fi
why=$(lacks aarch64-linux-gnu-gcc aarch64-linux-gnu-objcopy aarch64-linux-gnu-objdump)
../library/build.py envy_parted $([ -n "$why" ] || echo --also=aarch64)
work=$(mktemp -d "${TMPDIR:-/tmp}/envy-machine.XXXXXX")
trap 'rm -rf "$work"' EXIT
library=../../crates/envy_parted/out
# the two functions that orders come through, under names that meet none of a C library
names="--redefine-sym write=envy_part_order --redefine-sym read=envy_part_work"
# shellcheck disable=SC2086
objcopy $names $library/libenvy_parted.a "$work/x86-64.a"
gcc -O2 -g -std=gnu11 -Wall -Wextra -Wpedantic -fsanitize=address,undefined -fno-sanitize-recover=all \
    -DCFI_BUS failing.c ../../c/envy_part.c ../../c/envy_text.c ../../c/ports/cfi_intel.c ../../c/ports/cfi_amd.c \
    "$work/x86-64.a" -o "$work/failing"
"$work/failing" "${2-1}"

# no store of the library's code is one that the processor may keep back
unordered() { # OBJDUMP ARCHIVE PATTERN
    "$1" -d "$2" >"$work/code"
    if grep -Eq "$3" "$work/code"; then
        echo "machine: $2 has stores that no barrier of this kind orders" >&2
        exit 1
    fi
}
unordered objdump "$work/x86-64.a" '[[:space:]]v?(movnt|maskmov)'
stores() { # COMPILER NAME
    "$1" -O2 -g -std=gnu11 -Wall -Wextra -static stores.c ../../c/envy_part.c ../../c/heap.c "$work/$2.a" \
        -Wl,--wrap=envy_part_order -o "$work/stores-$2"
}
stores gcc x86-64
"$work/stores-x86-64"
if [ -n "$why" ]; then
    echo "machine: nothing was tried on 64-bit ARM: $why" >&2
    exit 0
fi

# shellcheck disable=SC2086
aarch64-linux-gnu-objcopy $names $library/aarch64/libenvy_parted.a "$work/aarch64.a"
unordered aarch64-linux-gnu-objdump "$work/aarch64.a" '[[:space:]]stnp'
aarch64-linux-gnu-gcc -O2 -std=gnu11 -c ../../c/envy_part.c -o "$work/part.o"
if ! aarch64-linux-gnu-objdump -d --disassemble=envy_part_order "$work/part.o" | grep -Eq '[[:space:]]dmb[[:space:]]+oshst'; then
    echo "machine: the barrier between two stores isn't dmb oshst" >&2
    exit 1
fi
why=$(lacks qemu-aarch64)
if [ -n "$why" ]; then
    echo "machine: the barriers were not tried on 64-bit ARM: $why" >&2
else
    stores aarch64-linux-gnu-gcc aarch64
    qemu-aarch64 "$work/stores-aarch64"
fi
why=$(lacks qemu-system-aarch64)
if [ -n "$why" ]; then
    echo "machine: the emulated machine was not run: $why" >&2
    exit 0
fi
aarch64-linux-gnu-gcc -O2 -std=c11 -Wall -Wextra -ffreestanding -fno-builtin -fno-tree-loop-distribute-patterns \
    -nostdlib -static -fno-stack-protector -fno-pic -no-pie -mcpu=cortex-a53 -mno-outline-atomics -mstrict-align \
    -Wl,--build-id=none,--gc-sections,-z,noexecstack,--no-warn-rwx-segments,-T,link.ld \
    boot.S bare.c accounts.c ../../c/envy_part.c ../../c/ports/cfi_intel.c "$work/aarch64.a" -o "$work/machine.elf"
gcc -O2 -std=gnu11 -Wall -Wextra carried.c ../../c/envy_part.c ../../c/heap.c "$work/x86-64.a" -o "$work/carried"

head -c 67108864 /dev/zero >"$work/flash.img"
./kills.py "$work" "${1-50}" "${2-1}"
"$work/carried" "$work/flash.img" "$work/ram.img" | cmp - "$work/words"
echo "carried to x86-64: sound, and every word is the same"
