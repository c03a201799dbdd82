#!/usr/bin/env bash
# What a kept file sees of damage. A journal of 50 syncs is damaged in many ways, one at a time: one bit turned, one sector
# of 512 bytes zeroed, the first gate turned. Each file is opened, and counted: refused as damaged (the file stays byte for
# byte); opened with all syncs; opened as of an older sync, with a copy beside it and a message; opened as of an older sync
# without a word. A sync is told by the word that it stored, and any other word is an error here.
set -eu
cd "$(dirname "$0")/.."
if ! python3 -I -c '' >/dev/null 2>&1; then
    echo "no journal was damaged: python3 doesn't run here" >&2
    exit 0
fi
program=$(./envy --program)
work=$(mktemp -d "${TMPDIR:-/tmp}/envy-damaged.XXXXXX")
trap 'rm -rf "$work"' EXIT
python3 -I - "$program" "$work" <<'END'
import collections
import os
import subprocess
import sys

program, work = sys.argv[1:]
path = os.path.join(work, "memory")
copy = path + ".envy-cut"
SYNCS = 50
PLACE = 5
COUNTED = ("refused", "all", "copied", "silent", "other data")


def keep(trace, *options):
    done = subprocess.run([program, "keep", "--file", path, *options], input=trace.encode(), capture_output=True, timeout=60)
    return done.returncode, done.stdout.decode().split(), done.stderr.decode()


# the bytes of a journal in which sync k stored k, and 1000 + k in a page of its own
def journal(options):
    if os.path.exists(path):
        os.remove(path)
    lines = "".join(f"store {PLACE} {k}\nstore {32 * k} {1000 + k}\nsync\n" for k in range(1, SYNCS + 1))
    assert keep(lines, *options)[0] == 0
    with open(path, "rb") as file:
        return file.read()


# what a file that was damaged so is opened as
def outcome(damaged, options):
    for name in os.listdir(work):
        os.remove(os.path.join(work, name))
    with open(path, "wb") as file:
        file.write(damaged)
    lines = f"load {PLACE}\n" + "".join(f"load {32 * k}\n" for k in range(1, SYNCS + 1))
    status, words, said = keep(lines, *options)
    if status == 10:
        with open(path, "rb") as file:
            assert file.read() == damaged, "a refused file was changed"
        if os.path.exists(copy):
            with open(copy, "rb") as file:
                assert file.read() == damaged, "a copy differs"
        return "refused"
    assert status == 0, (status, said)
    sync, words = int(words[0]), [int(word) for word in words[1:]]
    if not (0 <= sync <= SYNCS and words == [1000 + k if k <= sync else 0 for k in range(1, SYNCS + 1)]):
        return "other data"
    if os.path.exists(copy):
        with open(copy, "rb") as file:
            assert file.read() == damaged, "the copy isn't the file"
        assert "look like a sync" in said, said
        return "copied" if sync < SYNCS else "all"
    return "all" if sync == SYNCS else "silent"


def turned(whole, at, bit):
    return whole[:at] + bytes([whole[at] ^ 1 << bit]) + whole[at + 1:]


def zeroed(whole, at):
    return whole[:at] + bytes(len(whole[at:at + 512])) + whole[at + 512:]


def tell(name, outcomes):
    counts = collections.Counter(outcomes)
    print(f"{name}: {sum(counts.values())} files: " + ", ".join(f"{counts[kind]} {kind}" for kind in COUNTED))


for options in ([], ["--bytewise", "1"]):
    whole = journal(options)
    used = len(whole.rstrip(b"\0")) + 1
    mode = "bytewise" if options else "any bytes"
    step = max(1, used // 300)
    tell(f"{mode}, one bit turned", [outcome(turned(whole, at, at % 8), options) for at in range(0, used, step)])
    tell(f"{mode}, one sector zeroed", [outcome(zeroed(whole, at), options) for at in range(0, used, 512)])
    tell(f"{mode}, first gate turned", [outcome(turned(whole, 33, bit), options) for bit in range(8)])
END
