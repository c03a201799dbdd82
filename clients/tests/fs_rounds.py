#!/usr/bin/env python3
"""Kills the server of a device on which this machine's kernel has an ext4, and looks at the file system that is left.

  fs_rounds.py ROUNDS [--seed N] [--out FOLDER] [PARAMETER=VALUE..]

Files are written one by one, each synced and then noted. After a kill at a drawn moment e2fsck replays the file system's own
journal, then finds nothing wrong, and each noted file is there, whole. It mounts by a loop over nbdfuse, so it needs the rights to
mount; exit status 77 says that something for it isn't here."""

import argparse
import contextlib
import hashlib
import os
import random
import shutil
import signal
import subprocess
import sys
import tempfile
import threading
import time

import nbd_client

SIZE = "size=24M"
TOOLS = ("nbdkit", "nbdfuse", "nbdcopy", "mke2fs", "e2fsck", "debugfs", "mount", "umount")


def run(*words, fine=(0,)):
    ran = subprocess.run(words, stdout=subprocess.PIPE, stderr=subprocess.STDOUT, text=True, timeout=120)
    if ran.returncode not in fine:
        raise RuntimeError(f"{' '.join(words)}: {ran.returncode}: {ran.stdout[:300]}")
    return ran.stdout


class Machine:
    """A server, and the file system on its device."""

    def __init__(self, given, folder):
        self.given, self.folder = given, folder
        self.socket, self.disk, self.mounted = (f"{folder}/{it}" for it in ("socket", "fuse/disk", "mounted"))
        self.uri = f"nbd+unix:///?socket={self.socket}"
        for it in ("fuse", "mounted"):
            os.mkdir(f"{folder}/{it}")

    def serve(self):
        with contextlib.suppress(FileNotFoundError):
            os.unlink(self.socket)
        words = ["nbdkit", "-f", "-U", self.socket, f"{self.given.out}/envy.so", f"file={self.folder}/disk.envy", SIZE]
        self.server = subprocess.Popen([*words, *self.given.parameters], stderr=subprocess.DEVNULL)
        for _ in range(400):
            with contextlib.suppress(OSError):
                nbd_client.Client(self.socket).close()
                return
            time.sleep(0.05)
        raise RuntimeError("no server")

    @contextlib.contextmanager
    def fused(self):
        fuse = subprocess.Popen(["nbdfuse", self.disk, self.uri], stderr=subprocess.DEVNULL)
        try:
            for _ in range(100):
                if os.path.exists(self.disk):
                    break
                time.sleep(0.05)
            yield
        finally:
            fuse.send_signal(signal.SIGTERM)
            fuse.wait(60)
            run("umount", "-l", os.path.dirname(self.disk), fine=(0, 1, 32))

    def stop(self):
        self.server.terminate()
        self.server.wait(60)


def content(name):
    return hashlib.sha256(name.encode()).digest() * (1 + int(hashlib.sha256(name.encode()).hexdigest(), 16) % 900)


def write_files(folder, first, noted):
    """Writes files until the device is gone. Some are removed again, so that there is room."""
    with contextlib.suppress(OSError):
        for i in range(first, first + 100000):
            with open(f"{folder}/f{i}", "wb") as it:
                it.write(content(f"f{i}"))
                it.flush()
                os.fsync(it.fileno())
            noted.append(i)
            # (one that a kill cut short wasn't noted, and may not be there)
            if i - 200 in noted:
                noted.remove(i - 200)
            with contextlib.suppress(FileNotFoundError):
                os.unlink(f"{folder}/f{i - 200}")


def is_there(image, folder, number):
    out = f"{folder}/dumped"
    with contextlib.suppress(FileNotFoundError):
        os.unlink(out)
    run("debugfs", "-R", f"dump f{number} {out}", image)
    with contextlib.suppress(FileNotFoundError), open(out, "rb") as it:
        return it.read() == content(f"f{number}")
    return False


def play(machine, first, noted, chance):
    """Writes files until the server is killed. The first noted one of those that were removed since may be there or not."""
    machine.serve()
    with machine.fused():
        if first == 0:
            run("mke2fs", "-q", "-t", "ext4", "-F", machine.disk)
            run("sync", machine.disk)
        run("mount", "-o", "loop", machine.disk, machine.mounted)
        try:
            threading.Timer(chance.uniform(0.3, 2.5), machine.server.kill).start()
            write_files(machine.mounted, first, noted)
        finally:
            machine.server.kill()
            machine.server.wait()
            run("umount", machine.mounted, fine=(0, 32))


def look(machine, noted):
    """Answers what is wrong with the file system that is left."""
    machine.serve()
    image = f"{machine.folder}/image"
    with machine.fused():
        run("e2fsck", "-fy", machine.disk, fine=(0, 1))
    run("nbdcopy", machine.uri, image)
    machine.stop()
    run("e2fsck", "-fn", image)
    lost = [i for i in noted if not is_there(image, machine.folder, i)]
    return f"lost: {lost}" if lost else ""


def main():
    words = argparse.ArgumentParser(usage=__doc__)
    words.add_argument("rounds", type=int)
    words.add_argument("parameters", nargs="*")
    words.add_argument("--seed", type=int, default=1)
    words.add_argument("--out", default=f"{os.path.dirname(os.path.abspath(__file__))}/../out")
    given = words.parse_args()
    os.environ["PATH"] += ":/usr/sbin:/sbin"
    lacks = [it for it in TOOLS if not shutil.which(it)]
    if lacks or os.geteuid() or not os.path.exists("/dev/loop-control") or not os.access("/dev/fuse", os.W_OK):
        print(f"fs_rounds: no file system was mounted: {' '.join(lacks) or 'the rights, loops or fuse'} are missing", file=sys.stderr)
        return 77
    chance, noted, bad, first = random.Random(given.seed), [], 0, 0
    with tempfile.TemporaryDirectory(prefix="envy-fs.") as folder:
        machine = Machine(given, folder)
        for i in range(given.rounds):
            play(machine, first, noted, chance)
            wrong = look(machine, noted)
            if wrong:
                bad += 1
                print(f"round {i}: {wrong}", file=sys.stderr)
            first = max(noted, default=first) + 2
    print(f"file system: {given.rounds} rounds, {bad} bad, {first} files {' '.join(given.parameters)}")
    return 1 if bad else 0


if __name__ == "__main__":
    sys.exit(main())
