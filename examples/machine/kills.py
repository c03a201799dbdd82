#!/usr/bin/env python3
"""Kills the emulated machine at drawn moments, starts it again, and compares every word of its memory.

  kills.py FOLDER KILLS SEED

FOLDER has machine.elf, flash.img (64 MiB) and what the machine leaves: ram.img, the file behind its RAM, and words, every
word at the end. A piece of work that was answered must be there whole, the one in progress whole or not at all. Half-way
the flash is read-only for a run: every order is bad then, and nothing is lost."""

import mmap
import os
import random
import signal
import subprocess
import sys
import time

MASK = (1 << 64) - 1
PAGES, WORDS = 1800, 32 * 1800
ACCOUNTS = WORDS // 2
RAM_BYTES, RAM_AT = 256 << 20, 0x40000000
GIVEN_AT, ORDER_AT, WORDS_AT = 0x44000000, 0x45000000, 0x46000000
WORK, TELL, PROBE = 0, 1, 2


def draw(state):
    """Returns the next state and number of the generator in accounts.c."""
    state = (state + 0x9E3779B97F4A7C15) & MASK
    z = state
    z = ((z ^ (z >> 30)) * 0xBF58476D1CE4E5B9) & MASK
    z = ((z ^ (z >> 27)) * 0x94D049BB133111EB) & MASK
    return state, z ^ (z >> 31)


def done(words, seed, n):
    """Does piece of work n, which accounts.c does too."""
    state = seed ^ ((n * 0xD1B54A32D192ED03) & MASK)
    state, first = draw(state)
    state, second = draw(state)
    if n % 7 == 3:
        return
    if n % 5 == 2:
        words[ACCOUNTS + first % (WORDS - ACCOUNTS)] = second
        return
    amount = draw(state)[1] % 1000
    origin, goal = 1 + first % (ACCOUNTS - 1), 1 + second % (ACCOUNTS - 1)
    words[origin] = (words[origin] - amount) & MASK
    words[goal] = (words[goal] + amount) & MASK
    words[0] = n


class Machine:
    """The emulator, with its flash, and RAM that a file keeps."""

    def __init__(self, folder, seed):
        self.folder, self.seed = folder, seed
        with open(f"{folder}/ram.img", "wb") as it:
            it.truncate(RAM_BYTES)

    def start(self, what, policy, options=""):
        """Starts it with a task."""
        self.uart = f"{self.folder}/uart"
        open(self.uart, "w").close()
        given = []
        for i, word in enumerate((what, self.seed, policy)):
            given += ["-device", f"loader,addr={GIVEN_AT + 8 * i:#x},data={word:#x},data-len=8"]
        self.process = subprocess.Popen(
            ["qemu-system-aarch64", "-M", "virt,memory-backend=ram", "-cpu", "cortex-a53", "-m", "256M"]
            + ["-object", f"memory-backend-file,id=ram,size=256M,mem-path={self.folder}/ram.img,share=on"]
            + ["-display", "none", "-monitor", "none", "-serial", f"file:{self.uart}", "-no-reboot", "-nodefaults"]
            + ["-semihosting-config", "enable=on,target=native", "-kernel", f"{self.folder}/machine.elf"]
            + ["-drive", f"if=pflash,index=1,format=raw,file={self.folder}/flash.img{options}", *given]
        )

    def said(self):
        """Returns the lines that it wrote, but for one that it hasn't ended, and stops where one tells of a failure."""
        with open(self.uart, encoding="ascii") as it:
            lines = it.read().split("\n")[:-1]
        for line in lines:
            if line.startswith("FAILED"):
                self.process.kill()
                sys.exit(f"machine: {line}")
        return lines

    def wait_for(self, line):
        """Waits until it wrote a line."""
        end = time.time() + 60
        while line not in self.said():
            if self.process.poll() is not None or time.time() > end:
                sys.exit(f"machine: it ended or hung before '{line}': {self.said()[-3:]}")
            time.sleep(0.01)

    def kill(self):
        """Kills it, as a failure of power does."""
        if self.process.poll() is not None:
            sys.exit(f"machine: it ended by itself: {self.said()[-3:]}")
        os.kill(self.process.pid, signal.SIGKILL)
        self.process.wait()
        return self.said()

    def run(self, what, options=""):
        """Runs a task that ends by itself."""
        self.start(what, 0, options)
        if self.process.wait(120):
            sys.exit(f"machine: it ended with {self.process.returncode}: {self.said()[-3:]}")
        return self.said()

    def in_ram(self, address, count):
        """Returns so many words of its RAM."""
        with open(f"{self.folder}/ram.img", "rb") as it, mmap.mmap(it.fileno(), 0, prot=mmap.PROT_READ) as ram:
            found = ram[address - RAM_AT : address - RAM_AT + 8 * count]
        return [int.from_bytes(found[i : i + 8], "little") for i in range(0, 8 * count, 8)]

    def words(self):
        """Returns every word that it laid down."""
        return self.in_ram(WORDS_AT, WORDS)

    def order(self):
        """Returns what it was ordering of the flash: 1 the program of a row, 2 an erase, 0 neither."""
        return self.in_ram(ORDER_AT, 1)[0]


class Model:
    """What the words must be, after the pieces that were answered and those that may have been done."""

    def __init__(self, seed):
        self.seed, self.words, self.last, self.in_flight = seed, [0] * WORDS, 0, 0

    def answered(self, lines):
        """Does the pieces that were answered. A start begins behind the last transfer, so some come again."""
        numbers = [int(line[2:]) for line in lines if line.startswith("D ")]
        for n in numbers:
            if n == self.last + 1:
                done(self.words, self.seed, n)
                self.last = n
            elif n > self.last or n < self.last - 2:
                sys.exit(f"machine: piece {n} was answered behind piece {self.last}")
        return len(numbers)

    def compare(self, found):
        """Compares every word: of the piece in progress all are there or none."""
        if found == self.words:
            return
        after = list(self.words)
        done(after, self.seed, self.last + 1)
        if found != after:
            sys.exit(f"machine: the words are neither those of piece {self.last} nor of the next one")
        self.words, self.last, self.in_flight = after, self.last + 1, self.in_flight + 1


def probed(machine, model):
    """A run over flash that is read-only: what was answered as done is there, and nothing else changed."""
    lines = machine.run(PROBE, ",readonly=on")
    state, stores = machine.seed, {}
    for i in range(200):
        state, address = draw(state)
        state, word = draw(state)
        stores[i] = (ACCOUNTS + address % (WORDS - ACCOUNTS), word >> 1)
    kept = [int(line.split()[-1]) for line in lines if line.startswith("stored ")]
    for i in kept:
        model.words[stores[i][0]] = stores[i][1]
    model.compare(machine.words())
    told = {line.rsplit(" ", 1)[0]: int(line.rsplit(" ", 1)[1]) for line in lines if line.startswith("answered")}
    if not told["answered bad"]:
        sys.exit("machine: no order was bad on flash that is read-only")
    print(f"flash read-only: {told['answered bad']} stores answered bad, {told['answered done']} done, every word right")


def note(used, lines):
    """Notes the most bytes of heap and stack that it told."""
    for line in lines:
        name, _, number = line.rpartition(" ")
        if name in ("heap", "stack", "stack of calls"):
            used[name] = max(used.get(name, 0), int(number))


def main(folder, kills, seed):
    random.seed(seed)
    machine, model = Machine(folder, seed), Model(seed)
    early = compared = 0
    orders_cut = [0, 0, 0]
    used = {}
    for k in range(kills):
        if k == kills // 2:
            machine.run(TELL)
            model.compare(machine.words())
            probed(machine, model)
        machine.start(WORK, random.randrange(5))
        if k % 5 == 4:
            time.sleep(random.random() * 0.6)
        else:
            machine.wait_for("working")
            time.sleep(random.random() * 0.8)
        lines = machine.kill()
        orders_cut[machine.order()] += 1
        if f"words {WORDS}" in lines:
            model.compare(machine.words())
            compared += 1
        else:
            early += 1
        count = model.answered(lines)
        note(used, lines)
        orders = [line for line in lines if line.startswith("attach")]
        print(f"kill {k + 1}: {' '.join(orders) or 'before it attached'}, {count} pieces answered, the last is {model.last}", flush=True)
    machine.run(TELL)
    model.compare(machine.words())
    with open(f"{folder}/words", "w", encoding="ascii") as it:
        it.writelines(f"{word}\n" for word in model.words)
    total = sum(model.words[1:ACCOUNTS]) & MASK
    if total:
        sys.exit(f"machine: the accounts add up to {total}")
    print(f"bytes used at most: {', '.join(f'{name} {number}' for name, number in used.items())}")
    print(
        f"{kills} kills, {model.last} pieces of work, {compared + 1} times every one of {WORDS} words compared, {model.in_flight}"
        f" times the piece in progress was done; {orders_cut[1]} kills inside the program of a row, {orders_cut[2]} inside an erase,"
        f" {early} before all words were said; the accounts add up to 0"
    )


if __name__ == "__main__":
    main(sys.argv[1], int(sys.argv[2]), int(sys.argv[3]))
