#!/usr/bin/env bash
# A file that fails: of the memory in a file each call that makes, writes, cuts, renames or syncs the file, or a second one
# that takes its place, fails once, in several ways (file/failing.py, file/file_calls.c). Takes the program, or else the
# proved one or a trial's. It needs gcc and python3.
set -eu
cd "$(dirname "$0")"
program=${1-$(../envy --program)} || exit 1
# in memory, where that can be: no sync need reach a disk here
place=/dev/shm
[ -w $place ] || place=${TMPDIR:-/tmp}
work=$(mktemp -d "$place/envy-failing.XXXXXX")
trap 'rm -rf "$work"' EXIT
gcc -O2 -Wall -Wextra -shared -fPIC -o "$work/file_calls.so" file/file_calls.c
mkdir "$work/files"
python3 -I file/failing.py "$program" "$work/file_calls.so" "$work/files"
