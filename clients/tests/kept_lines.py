#!/usr/bin/env python3
"""Answers the lines load, store and sync over a kept file by the package for Python, with the words and statuses of `envy keep`,
for tests that take a program: the library for C meets there what the program meets.

  kept_lines.py keep --file FILE [--bytewise 1]"""

import argparse
import os
import sys

sys.path.insert(0, f"{os.path.dirname(os.path.abspath(__file__))}/../python")
import envy

WORDS = 2048
LOST, UNOPENED = 6, 11


def main():
    words = argparse.ArgumentParser(usage=__doc__)
    words.add_argument("keep")
    words.add_argument("--file", required=True)
    words.add_argument("--bytewise", type=int, default=0)
    given = words.parse_args()
    try:
        memory = envy.open(given.file, words=WORDS, bytewise=bool(given.bytewise))
    except envy.FileError as why:
        print(f"envy: {why}", file=sys.stderr)
        return UNOPENED
    try:
        for line in sys.stdin:
            word, *numbers = line.split()
            if word == "load":
                print(memory[int(numbers[0])], flush=True)
            elif word == "store":
                memory[int(numbers[0])] = int(numbers[1])
                print("ok", flush=True)
            else:
                memory.sync()
                print("synced", flush=True)
        memory.close()
    except envy.FileError as why:
        print("lost", flush=True)
        print(f"envy: {why}", file=sys.stderr)
        return LOST
    return 0


if __name__ == "__main__":
    sys.exit(main())
