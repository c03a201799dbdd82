#!/usr/bin/env bash
# The library that C and Rust programs link, tried by such programs: the same work over each board, the answers of `envy run`,
# every number, images, kills at drawn moments, an ordered map, files that are kept, the account book in both languages, the
# Rust package, the earlier names, and what is installed. It needs gcc and rustc, and a program that `envy` starts at once (./envy --prove, or .ci/run). Where a compiler for 64-bit ARM and its
# emulator are (Debian: gcc-aarch64-linux-gnu libc6-dev-arm64-cross qemu-user), the same is tried of the library for that
# processor. A word is the number that the kills are drawn from.
set -eu
cd "$(dirname "$0")"
../envy --stands || exit 1
for tool in gcc rustc; do
    if ! $tool --version >/dev/null 2>&1; then
        echo "library: $tool doesn't run here, so nothing was tried" >&2
        exit 2
    fi
done
arm=
if aarch64-linux-gnu-gcc --version >/dev/null 2>&1 && qemu-aarch64 --version >/dev/null 2>&1; then arm=aarch64; fi
library/build.py envy_library ${arm:+--also=$arm}
make -s all tests
work=$(mktemp -d "${TMPDIR:-/tmp}/envy-library.XXXXXX")
trap 'rm -rf "$work"' EXIT

# what is installed links by its own words, by pkg-config's where that is, and moves
make -s -C ../c install PREFIX="$work/installed"
config=$work/installed/bin/envy-config
[ "$($config --version)" = "$(cat ../VERSION)" ]
# linked NAME FILE WORDS..: a program over what is installed
linked() {
    local name=$1 file=$2
    shift 2
    # shellcheck disable=SC2046
    gcc -Wall -Wextra $($config --cflags) -o "$work/$name" "$work/$file" "$@"
}
# counted NAME [VARIABLE=VALUE]: a program that counts how often it was run, in a folder of its own
counted() {
    mkdir "$work/$1.runs"
    (cd "$work/$1.runs" && env "${2-_=}" "../$1" && env "${2-_=}" "../$1") >"$work/told"
    [ "$(cat "$work/told")" = "$(printf 'run 1: done\nrun 2: done')" ]
}
# the lines of C that docs/LIBRARY.md shows, as they are there
{
    printf '#include "envy.h"\nint main(void) {\n'
    sed -n '/^    envy_setup setup/,/^    envy_load/p' ../docs/LIBRARY.md
    printf '    return word == 7 ? 0 : 1;\n}\n'
} >"$work/lines.c"
# shellcheck disable=SC2046
linked lines lines.c $($config --libs)
"$work/lines"
echo "library: the lines of C do what the page says"
# the programs of README and of the page for those who link it
sed -n 's/^    //; /^#include "envy.h"/,/^}/p' ../README.md >"$work/readme.c"
sed -n 's/^    //; /^#include "envy.h"/,/^}/p' ../c/LINKING.md >"$work/runs.c"
# shellcheck disable=SC2046
linked readme readme.c $($config --libs) && linked runs runs.c $($config --libs)
counted readme && counted runs
if pkg-config --version >/dev/null 2>&1; then
    export PKG_CONFIG_PATH=$work/installed/lib/pkgconfig
    # shellcheck disable=SC2046
    gcc $(pkg-config --cflags envy) -o "$work/packaged" "$work/runs.c" $(pkg-config --libs envy)
    counted packaged
fi
# shellcheck disable=SC2046
sed 's|"../c/|"|' book.c >"$work/book.c" && linked book book.c $($config --libs)
"$work/book" "$work/installed.book" new
[ "$("$work/book" "$work/installed.book" sum)" = "0 transfers, 100000 in all" ]
echo "library: what is installed links and runs"

# the shared object shows each function of its headers and nothing else, and a program that is linked with it runs
printf '#include "%s"\n' envy.h envy_disk.h envy_setup.h envy_text.h >"$work/all.c"
# shellcheck disable=SC2046
gcc $($config --cflags) -fsyntax-only -aux-info "$work/functions" "$work/all.c"
grep -o 'envy_[a-z0-9_]* (' "$work/functions" | tr -d ' (' | sort -u >"$work/wanted"
nm -D --defined-only "$work/installed/lib/libenvy.so.0" | sed 's/.* //' | sort >"$work/shown"
cmp "$work/wanted" "$work/shown"
# shellcheck disable=SC2046
linked loads runs.c $($config --libs-shared)
counted loads LD_LIBRARY_PATH="$work/installed/lib"
readelf -d "$work/loads" | grep -q 'NEEDED.*libenvy\.so\.0'
echo "library: the shared object shows the $(wc -l <"$work/shown") functions of its headers, and runs"

# what is installed goes again
make -s -C ../c uninstall PREFIX="$work/installed"
[ -z "$(find "$work/installed" ! -type d)" ]

# the same work over each board, and a program in the earlier names
mkdir "$work/one" "$work/one-asan" "$work/old"
out/one "$work/one"
out/one-asan "$work/one-asan"
echo "library: the same work is answered the same over files, regions and a simulation"
out/old_names "$work/old"
mkdir "$work/copies" "$work/copies-asan" "$work/arm-copies"
out/copies "$work/copies"
out/copies-asan "$work/copies-asan"

# 10,000 commands that are drawn, some loads made looks, and a failure of power before every thousandth
../envy gen --start 20 --lines 10000 |
    awk 'NR % 1000 == 0 { print "power" } NR % 7 == 0 { sub(/^load/, "look") } { print }' >"$work/trace"
../envy run <"$work/trace" >"$work/wanted"
for program in replay replay-asan; do
    out/$program "$work/$program.file" <"$work/trace" >"$work/$program.replies"
    cmp "$work/wanted" "$work/$program.replies"
done
echo "library: $(wc -l <"$work/wanted") replies are those of envy run"

# the same with a failure of power or of flash planned before every fiftieth
awk '{ print } NR % 50 == 0 { if (NR % 100) print "cut", 1 + NR * 7 % 40, NR; else print "bad", 1 + NR * 3 % 5, NR }' \
    "$work/trace" >"$work/failing"
../envy run <"$work/failing" >"$work/wanted"
out/replay-memory <"$work/failing" >"$work/memory.replies"
cmp "$work/wanted" "$work/memory.replies"
echo "library: $(wc -l <"$work/wanted") replies are those of envy run, $(grep -c lost "$work/wanted") of them lost," \
    "$(grep -c fault "$work/wanted") faults"

# the image that `envy save` writes of a memory holds its words, and what is written of them is sound
../envy save <"$work/trace" >"$work/image"
{ cat "$work/trace"; seq -f "look %.0f" 0 2047; } | ../envy run | tail -n 2048 >"$work/wanted"
out/images "$work/image" "$work/second.image" >"$work/words"
cmp "$work/wanted" "$work/words"
[ "$(../envy audit <"$work/second.image")" = sound ]
echo "library: the $(wc -l <"$work/words") words of an image are those of envy run"

# segments in reserve stand in for those of which an erase is bad
out/worn

# kept files: kills, failures, and the words of 10,000 drawn commands, which `envy keep` and the library find in one file
out/kept_killed "$work/kept.file" 200 "${1-1}"
out/kept_failing-asan "${1-1}"
mkdir "$work/kept" "$work/edges" "$work/edges-asan" "$work/arm-kept" && out/kept_files "$work/kept"
out/kept_edges "$work/edges"
out/kept_edges-asan "$work/edges-asan"
grep -v '^power' "$work/trace" | awk '{ print } NR % 100 == 0 { print "sync" }' >"$work/syncing"
../envy keep --file "$work/word.kept" <"$work/syncing" >"$work/wanted"
out/kept_words "$work/library.kept" <"$work/syncing" >"$work/kept.replies"
cmp "$work/wanted" "$work/kept.replies"
seq -f "look %.0f" 0 2047 >"$work/looks"
../envy keep --file "$work/library.kept" <"$work/looks" >"$work/kept.words"
out/kept_words "$work/word.kept" <"$work/looks" >"$work/kept.replies"
cmp "$work/kept.words" "$work/kept.replies"
echo "library: $(wc -l <"$work/syncing") replies of a kept file are those of envy keep, and each opens the other's file"

out/refused-asan "$work/refused.file"
out/sized "$work/sized.file"
out/killed "$work/killed.file" 200 "${1-1}"
out/ordered-asan "$work/ordered-asan.file" 50000 "${1-1}"
out/ordered "$work/ordered.file" 1000000 "${1-1}"
out/maps-asan "$work/maps-asan.file" 50000 "${1-1}"
out/maps "$work/maps.file" 1000000 "${1-1}"
out/broken_maps-asan "$work/broken-asan.file" 20000 "${1-1}"
out/broken_maps "$work/broken.file" 200000 "${1-1}"
out/loads-asan "${1-1}" >/dev/null
out/loads "${1-1}"
out/kept_ordered "$work/kept-ordered.file" 32000 "${1-1}"
# (10,000,000 pairs, in an array of more pages than the tree once took, take some minutes: out/large_map FILE 10000000)
out/large_map "$work/large-map.file" 100000
out/files-asan "$work/files.file"
for test in ../rust/tests/*.rs; do TMPDIR=$work "out/rust-$(basename "$test" .rs)" --quiet; done

[ "$(out/threads-rust "$work/threads.kept")" = "8000 in all" ]

for program in book book-asan book-rust; do
    book() { out/$program "$work/$program.book" "$@"; }
    book new
    for i in 1 2 3 4 5 6 7 8 9; do book move "$i" "$((i * 11 % 100))" "$((i * 50))"; done
    if book move 3 4 5000 2>"$work/errors"; then exit 1; fi
    [ "$(book sum)" = "9 transfers, 100000 in all" ]
    [ "$(book show 9)" = 550 ]
    [ "$(book show 99)" = 1450 ]
done
# each opens what the other wrote
[ "$(out/book "$work/book-rust.book" sum)" = "$(out/book-rust "$work/book.book" sum)" ]
echo "library: the account book is the same in C and in Rust"

for program in prices prices-asan prices-rust; do
    prices() { out/$program "$work/$program.prices" "$@"; }
    for i in 1 2 3 4 5 6 7 8 9; do prices set "$i" "$((i * 7 % 10))"; done
    prices set 3 7 && prices drop 5
    if prices drop 5 2>"$work/errors"; then exit 1; fi
    [ "$(prices show 3)" = 7 ]
    [ "$(prices from 5 8 | tr '\n' ,)" = "8 6,1 7,3 7,4 8," ]
    [ "$(prices count)" = "8 articles, 8 prices, 11 changes" ]
done
[ "$(out/prices "$work/prices-rust.prices" from 0 9)" = "$(out/prices-rust "$work/prices.prices" from 0 9)" ]
echo "library: an index of prices is kept in step with its table in C and in Rust"

if [ -z "$arm" ]; then
    echo "library: for 64-bit ARM nothing was tried: aarch64-linux-gnu-gcc or qemu-aarch64 doesn't run here"
    exit 0
fi
make -s CC=aarch64-linux-gnu-gcc CFLAGS="-O2 -std=gnu11 -Wall -Wextra -Wpedantic -static" OUT=out/$arm \
    LIBRARY=../crates/envy_library/out/$arm/libenvy_library.a OBJCOPY=aarch64-linux-gnu-objcopy programs
emulated() { program=$1 && shift && qemu-aarch64 "out/$arm/$program" "$@"; }
../envy run <"$work/trace" >"$work/wanted"
mkdir "$work/arm-one"
emulated one "$work/arm-one"
emulated copies "$work/arm-copies"
emulated replay "$work/arm.file" <"$work/trace" >"$work/arm.replies"
cmp "$work/wanted" "$work/arm.replies"
emulated refused "$work/arm-refused.file"
emulated sized "$work/arm-sized.file"
emulated killed "$work/arm-killed.file" 50 "${1-1}"
emulated kept_killed "$work/arm-kept.file" 50 "${1-1}"
emulated kept_failing "${1-1}"
emulated kept_files "$work/arm-kept"
emulated kept_words "$work/word.kept" <"$work/looks" >"$work/kept.replies"
cmp "$work/kept.words" "$work/kept.replies"
emulated files "$work/arm-files.file" >"$work/told"
emulated book "$work/arm.book" new
emulated book "$work/arm.book" move 3 4 250
[ "$(out/book "$work/arm.book" sum)" = "1 transfers, 100000 in all" ]
out/book "$work/arm.book" move 4 5 100
[ "$(emulated book "$work/arm.book" sum)" = "2 transfers, 100000 in all" ]
[ "$(emulated book "$work/book.book" sum)" = "$(out/book "$work/book.book" sum)" ]
echo "library: the same for 64-bit ARM under the emulator, and each processor opens what the other wrote"
