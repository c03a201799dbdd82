#!/usr/bin/env python3
"""Stops `transactions work` at drawn moments, and has `transactions check` look at what is left.

  rounds.py HOW ROUNDS URI [--seed N] [--pragma TEXT].. [--out FOLDER]

HOW: kill (the process dies), machine (what wasn't synced is lost, torn, or any bytes), bytewise (each byte is the old one or the
new one), failing (calls on files fail from one on: the process must end by itself). The environment's EXTENSION goes on."""

import argparse
import os
import random
import re
import subprocess
import sys
import tempfile
import time

MOST_SECONDS = 120


def read_words():
    words = argparse.ArgumentParser(usage=__doc__)
    words.add_argument("how", choices=["kill", "machine", "bytewise", "failing"])
    words.add_argument("rounds", type=int)
    words.add_argument("uri")
    words.add_argument("--seed", type=int, default=1)
    words.add_argument("--pragma", action="append", default=[])
    words.add_argument("--out", default=f"{os.path.dirname(os.path.abspath(__file__))}/../out")
    return words.parse_args()


def begin_work(given, ledger, chance):
    """Starts the process that is to be stopped."""
    env = dict(os.environ)
    if given.how != "kill":
        moment = chance.choice([chance.randrange(1, 60), chance.randrange(1, 1500)])
        env["LD_PRELOAD"] = f"{given.out}/tests/shim.so"
        env["SHIM_FAIL" if given.how == "failing" else "SHIM_CRASH"] = str(moment)
        env["SHIM_SEED"] = str(chance.randrange(1 << 40))
        env["SHIM_BYTEWISE"] = str(int(given.how == "bytewise"))
    words = [f"{given.out}/tests/transactions", "work", given.uri, ledger, str(chance.randrange(1 << 40)), *given.pragma]
    return subprocess.Popen(words, env=env, stderr=subprocess.PIPE)


def number_of(ledger):
    try:
        with open(ledger, "rb") as it:
            return it.read()
    except FileNotFoundError:
        return b""


def end_work(given, process, ledger, chance):
    """Waits for its end, and answers what is wrong with that. A kill comes at once, or some time after a transaction."""
    if given.how == "kill":
        first, began = number_of(ledger), time.time()
        is_late = chance.random() < 0.8
        while is_late and number_of(ledger) == first and time.time() - began < MOST_SECONDS / 4:
            time.sleep(0.01)
        time.sleep(chance.uniform(0.01, 0.8))
        process.kill()
    try:
        error = process.communicate(timeout=MOST_SECONDS)[1].decode(errors="replace")
    except subprocess.TimeoutExpired:
        process.kill()
        process.communicate()
        return "it didn't end"
    if given.how == "failing":
        told = ("disk I/O error", "unable to open database file")
        return "" if process.returncode == 2 and any(it in error for it in told) else f"ended with {process.returncode}: {error[-300:]}"
    return "" if process.returncode == -9 else f"ended by itself with {process.returncode}: {error[-300:]}"


def main():
    given = read_words()
    chance = random.Random(given.seed)
    bad, done = 0, 0
    with tempfile.TemporaryDirectory(prefix="envy-ledger.") as folder:
        ledger = f"{folder}/ledger"
        for i in range(given.rounds):
            wrong = end_work(given, begin_work(given, ledger, chance), ledger, chance)
            words = [f"{given.out}/tests/transactions", "check", given.uri, ledger, *given.pragma]
            ran = subprocess.run(words, stdout=subprocess.PIPE, stderr=subprocess.STDOUT, text=True, timeout=MOST_SECONDS)
            found = ran.stdout.strip()
            if ran.returncode or wrong:
                bad += 1
                print(f"round {i}: {wrong} {found}", file=sys.stderr)
            last = re.search(r"last (\d+)", found)
            done = int(last.group(1)) if last else done
            if bad > 5:
                break
    print(f"{given.how}: {i + 1} rounds, {bad} bad, {done} transactions; {given.uri.split('?')[-1]} {' '.join(given.pragma)}")
    return 1 if bad else 0


if __name__ == "__main__":
    sys.exit(main())
