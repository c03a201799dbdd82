"""Processes that are killed at drawn moments: what was synced is there, or what the sync under way would leave."""

import os
import random
import subprocess
import sys
import tempfile
import time
import unittest

import envy
from tests import pieces

ROUNDS = int(os.environ.get("ENVY_KILLS", "15"))
HERE = os.path.dirname(os.path.abspath(__file__))


class KilledTest(unittest.TestCase):
    def kill_one(self, path, kind, seed, first, chance):
        """Returns the last sync that was begun, and the last that was done, by the pieces before them."""
        words = [sys.executable, f"{HERE}/pieces.py", path, kind, str(seed), str(first)]
        env = {**os.environ, "PYTHONPATH": os.path.dirname(os.path.dirname(os.path.abspath(envy.__file__)))}
        process = subprocess.Popen(words, stdout=subprocess.PIPE, text=True, env=env)
        head = "".join(process.stdout.readline() for _ in range(chance.choice((1, 2, 3, 10, 40))))
        time.sleep(chance.choice((0, 0.001, 0.02)) * chance.random())
        process.kill()
        told = [line.split() for line in (head + process.stdout.read()).splitlines() if line.count(" ") == 1]
        process.stdout.close()
        self.assertEqual(process.wait(), -9)
        begun = [int(n) for what, n in told if what == "b"]
        done = [int(n) for what, n in told if what == "d"]
        return begun[-1] if begun else None, done[-1] if done else None

    def follow(self, kind):
        chance, seed = random.Random(7), 1
        with tempfile.TemporaryDirectory() as folder:
            path, work, first, syncs = os.path.join(folder, "killed.envy"), pieces.KINDS[kind](seed), 0, 0
            with envy.open(path, pieces.WORDS):
                pass
            for _ in range(ROUNDS):
                begun, done = self.kill_one(path, kind, seed, first, chance)
                self.assertIsNotNone(begun)
                if done is not None:
                    for n in range(first, done + 1):
                        work.follow(n)
                    first, syncs = done + 1, syncs + 1
                with envy.open(path) as m:
                    found = work.found(m)
                if found != work.state():
                    for n in range(first, begun + 1):
                        work.follow(n)
                    first = begun + 1
                    self.assertEqual(found, work.state(), f"after piece {begun}")
        self.assertGreaterEqual(syncs, ROUNDS // 5)

    def test_words(self):
        self.follow("words")

    def test_a_map(self):
        self.follow("map")


if __name__ == "__main__":
    unittest.main()
