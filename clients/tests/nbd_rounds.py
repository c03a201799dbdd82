#!/usr/bin/env python3
"""Stops the server of a device at drawn moments, and looks at what is left.

  nbd_rounds.py HOW ROUNDS [--mapped] [--seed N] [--out FOLDER] [PARAMETER=VALUE..]

HOW: kill (the server dies), machine (what wasn't synced is lost, torn, or any bytes), bytewise (each byte is the old one or the
new one). A writer changes blocks, and flushes now and then. The device must then have the state of the last flush that was
answered, or of one that was under way; over a mapped file, which outlives the process, every write that was answered."""

import argparse
import os
import random
import subprocess
import sys
import tempfile
import threading
import time

import nbd_client

BLOCK, BLOCKS = 4096, 400
SIZE = "size=4M"


def read_words():
    words = argparse.ArgumentParser(usage=__doc__)
    words.add_argument("how", choices=["kill", "machine", "bytewise"])
    words.add_argument("rounds", type=int)
    words.add_argument("parameters", nargs="*")
    words.add_argument("--mapped", action="store_true")
    words.add_argument("--seed", type=int, default=1)
    words.add_argument("--out", default=f"{os.path.dirname(os.path.abspath(__file__))}/../out")
    return words.parse_args()


class Device:
    """The server, and what a client knows of the blocks."""

    def __init__(self, given, folder, chance):
        self.given, self.folder, self.chance = given, folder, chance
        self.socket = f"{folder}/socket"
        self.known = {}
        self.asked = 0, bytes(BLOCK)
        self.writes = self.flushes = 0

    def start(self, is_stopped):
        """Starts it; if it is to be stopped, at a drawn moment. Answers the process and a client, or None for one that died."""
        if os.path.exists(self.socket):
            os.unlink(self.socket)
        env = dict(os.environ)
        if is_stopped and self.given.how != "kill":
            env["LD_PRELOAD"] = f"{self.given.out}/tests/shim.so"
            env["SHIM_CRASH"] = str(self.chance.randrange(3, 400))
            env["SHIM_SEED"] = str(self.chance.randrange(1 << 40))
            env["SHIM_BYTEWISE"] = str(int(self.given.how == "bytewise"))
        words = ["nbdkit", "-f", "-U", self.socket, f"{self.given.out}/envy.so", f"file={self.folder}/disk.envy", SIZE]
        words += ["mapped=true"] * self.given.mapped + self.given.parameters
        with open(f"{self.folder}/log", "w", encoding="utf-8") as log:
            process = subprocess.Popen(words, env=env, stderr=log)
        for _ in range(400):
            if process.poll() is not None:
                return process, None
            try:
                return process, nbd_client.Client(self.socket)
            except OSError:
                time.sleep(0.05)
        raise SystemExit("the server doesn't serve")

    def block(self, number):
        return self.known.get(number, bytes(BLOCK))

    def write_until_stopped(self, client):
        """Answers the states that may be left: that of the last flush, and of the one under way."""
        flushed, asked = dict(self.known), None
        try:
            while True:
                number = self.chance.randrange(BLOCKS)
                self.writes += 1
                data = (b"%d %d " % (self.writes, number) * 500)[: self.chance.choice([512, 1500, BLOCK])]
                self.asked = number, data + self.block(number)[len(data) :]
                client.write(number * BLOCK, data)
                self.known[number] = self.asked[1]
                if self.chance.random() < 0.1:
                    asked = dict(self.known)
                    client.flush()
                    flushed, asked = asked, None
                    self.flushes += 1
                if self.chance.random() < 0.02:
                    number = self.chance.randrange(BLOCKS)
                    self.asked = number, bytes(BLOCK)
                    client.trim(number * BLOCK, BLOCK)
                    self.known[number] = bytes(BLOCK)
        except OSError:
            pass
        return [flushed] + [asked] * (asked is not None)

    def is_right(self, states, found):
        if not self.given.mapped:
            return any(all(found[i] == it.get(i, bytes(BLOCK)) for i in range(BLOCKS)) for it in states)
        number, last = self.asked
        others = all(found[i] == self.block(i) for i in range(BLOCKS) if i != number)
        old = self.block(number)
        return others and all(found[number][j : j + 8] in (old[j : j + 8], last[j : j + 8]) for j in range(0, BLOCK, 8))

    def round(self):
        process, client = self.start(True)
        states = [dict(self.known)]
        if client:
            if self.given.how == "kill":
                threading.Timer(self.chance.uniform(0.05, 1.0), process.kill).start()
            states = self.write_until_stopped(client)
            client.socket.close()
        process.wait()
        process, client = self.start(False)
        if not client:
            with open(f"{self.folder}/log", encoding="utf-8") as log:
                return f"it doesn't open: {log.read()[-300:]}"
        found = {i: client.read(i * BLOCK, BLOCK) for i in range(BLOCKS)}
        wrong = "" if self.is_right(states, found) else "the blocks are of no state that may be left"
        self.known = found
        client.close()
        process.terminate()
        process.wait(60)
        return wrong


def main():
    given = read_words()
    bad = 0
    with tempfile.TemporaryDirectory(prefix="envy-device.") as folder:
        device = Device(given, folder, random.Random(given.seed))
        for i in range(given.rounds):
            wrong = device.round()
            if wrong:
                bad += 1
                print(f"round {i}: {wrong}", file=sys.stderr)
            if bad > 5:
                break
    kind = "mapped" if given.mapped else "durable"
    print(f"device, {kind}, {given.how}: {i + 1} rounds, {bad} bad, {device.writes} writes, {device.flushes} flushes {' '.join(given.parameters)}")
    return 1 if bad else 0


if __name__ == "__main__":
    sys.exit(main())
