#!/usr/bin/env bash
# Images of many boards. The state after each of 200 drawn traces, with open transactions and jobs of every kind, is
# saved, audited (`sound`, each time) and taken up again: every word that a restart would leave before is there behind.
# Then 2,000 images with one to three bytes changed: each has a verdict, and where it is sound a trace is served.
set -eu
cd "$(dirname "$0")/.."
PROGRAM=$(./envy --program) || exit 1
export PROGRAM
exec python3 - "$@" <<'TEXT'
import os
import random
import subprocess
import sys

PROGRAM = os.environ["PROGRAM"]
SHAPE = "--segments 4 --rows 4 --pages 7 --shadows 1 --frames 2 --entries 2".split()
KEEPS = "--mark 1 --limit 2 --policy".split()
POLICIES = ["greedy", "fifo", "locality", "hybrid"]
WORDS = 7 * 32


def envy(words, given, wanted=0):
    """Returns what the program writes, which has to end with this status."""
    ran = subprocess.run([PROGRAM, *words], input=given, stdout=subprocess.PIPE, stderr=subprocess.PIPE)
    if ran.returncode != wanted:
        sys.exit(f"images: envy {' '.join(words)} ended with {ran.returncode}: {ran.stderr.decode()}")
    return ran.stdout


def trace_of(draw):
    """Returns a trace that puts within transactions, leaves some open, and steps in the background."""
    lines = envy(["gen", "--start", str(draw.randrange(1 << 60)), "--lines", str(draw.randrange(20, 200)), "--pages", "7"], b"")
    steps = b"".join(b"tick\n" if draw.random() < 0.4 else b"" for _ in range(20))
    open_one = b"begin\nput 0 %d 7\n" % draw.randrange(WORDS) if draw.random() < 0.5 else b""
    return lines + steps + open_one + b"tick\n" * draw.randrange(6)


def carried(draw, number):
    """Saves, audits and takes up the state after a drawn trace, and returns the image."""
    options = [*KEEPS, POLICIES[number % 4]]
    trace = trace_of(draw)
    looks = b"".join(b"look %d\n" % a for a in range(WORDS))
    before = envy(["run", *SHAPE, *options], trace + looks).split(b"\n")[-WORDS - 1 :]
    image = envy(["save", *SHAPE, *options], trace)
    if envy(["audit"], image) != b"sound\n":
        sys.exit(f"images: the board after trace {number} isn't sound")
    loads = looks.replace(b"look", b"load")
    if envy(["resume", *options], image + loads).split(b"\n") != before:
        sys.exit(f"images: other words than before after trace {number}")
    return image


def changed(draw, image):
    """Returns the image with one to three bytes of its board changed."""
    other = bytearray(image)
    for _ in range(draw.randrange(1, 4)):
        # half of them in SRAM, which the last 8 * 175 bytes are
        first = draw.choice([32, len(image) - 8 * 175])
        other[draw.randrange(first, len(image))] = draw.randrange(256)
    return bytes(other)


seed = int(sys.argv[1]) if len(sys.argv) > 1 else 1
draw = random.Random(seed)
images = [carried(draw, number) for number in range(200)]
print("images: 200 boards were saved, found sound, and taken up with the words of before")
verdicts = {}
for number in range(2000):
    image = changed(draw, images[number % 200])
    verdict = envy(["audit"], image).decode().strip()
    verdicts[verdict] = verdicts.get(verdict, 0) + 1
    if verdict == "sound":
        if envy(["resume"], image + b"store 5 1\nload 5\n") != b"ok\n1\n":
            sys.exit(f"images: image {number} is sound, and no trace is served over it")
    else:
        envy(["resume"], image + b"load 5\n", 10)
print("images: 2000 changed images, each with its verdict:", ", ".join(f"{n} {it}" for it, n in sorted(verdicts.items())))

def head(segments, rows):
    """Returns what an image of a board of these sizes begins with."""
    return b"eNVyIMG1" + b"".join(n.to_bytes(4, "little") for n in (segments, rows, 64, 16, 8, 4))


# A board of more rows than the words allow is refused by its head alone; any other image of a head alone ends early.
EARLY, SHAPED = b"envy: image ends early\n", b"envy: image has a bad shape\n"
for word in ("audit", "map", "resume"):
    for segments, rows, large, text in (
        (16, 65536, [], EARLY),
        (17, 61681, [], SHAPED),
        (17, 61681, ["--large", "0"], SHAPED),
        (257, 65281, ["--large", "1"], SHAPED),
    ):
        ran = subprocess.run([PROGRAM, word, *large], input=head(segments, rows), stdout=subprocess.PIPE, stderr=subprocess.PIPE)
        if (ran.returncode, ran.stdout, ran.stderr) != (10, b"", text):
            sys.exit(f"images: {word} of {segments} x {rows} {large}: {ran.returncode} {ran.stderr.decode()}")
print("images: a board of too many rows is refused by its head")

TEXT
