"""A memory in a file, of which each call that makes, writes, cuts, renames or syncs it fails once.

    failing.py PROGRAM LIBRARY FOLDER

A session is a list of lines. It is run over and over, and each time another call of the file fails, until none is left to
fail (file_calls.c says how). Then no reply is wrong, none but `lost` comes after the failure, the status tells it, and the
next call, which fails in nothing, finds the words of the last line that was answered `synced`, or of the next such line. If
what failed was a call of the second file, or a rename that wasn't done, the session goes on to its end as if nothing had."""

import errno
import mmap
import os
import shutil
import signal
import struct
import subprocess
import sys

BOARD = ["--segments=4", "--rows=3", "--pages=4", "--shadows=2", "--frames=2", "--entries=1"]
WORDS = 128
LOOKS = [f"look {a}" for a in range(WORDS)]
FILE_FAILED, UNOPENED = 6, 11
UNOPENED_TEXTS = ("envy: the journal can't be read\n", "envy: no file can be made beside the journal\n")
# What a call does before it fails, and the error that it tells.
FAILURES = [("none", errno.EIO), ("half", errno.ENOSPC), ("done", errno.EIO), ("lost", errno.EIO)]
# A call that is interrupted, or writes a part, is no failure.
NO_FAILURES = [("short", 0), ("interrupted", errno.EINTR)]


def plain(program, lines):
    """What the plain machine answers, which has no file and knows no sync."""
    text = "".join(f"{line}\n" for line in lines if line != "sync")
    ran = subprocess.run([program, "plain", *BOARD], input=text, capture_output=True, text=True, timeout=60, check=True)
    return ran.stdout.split("\n")[:-1]


class Session:
    """Lines, so many of which are given at once; the reply that each must have; and the words that the next call finds:
    before the lines, behind each sync, and behind them all."""

    def __init__(self, program, name, lines, before=None, options=(), at_once=1):
        self.name, self.lines, self.before, self.options, self.at_once = name, lines, before, list(options), at_once
        # what is open is undone where a file is opened again
        done = [*before.lines, "power"] if before else []
        replies = iter(plain(program, done + lines)[len(plain(program, done)) :])
        self.replies = ["synced" if line == "sync" else next(replies) for line in lines]
        ends = [0, *(i for i, line in enumerate(lines) if line == "sync"), len(lines)]
        self.states = [plain(program, [*done, *lines[:end], "power", *LOOKS])[-WORDS:] for end in ends]


class Ran:
    """How a session ended: its replies, how many had come where the failure was first seen, and the rest."""

    def __init__(self, replies, failed_at, more, status, errors, is_beside):
        self.replies, self.failed_at, self.more, self.status, self.errors = replies, failed_at, more, status, errors
        self.is_beside = is_beside
        self.synced = replies.count("synced")

    def wrong(self, session, is_failure):
        """What is wrong with it, or nothing."""
        told, was_lost = self.replies, self.replies[-1:] == ["lost"]
        good = told[:-1] if was_lost else told
        if good != session.replies[: len(good)] or self.more:
            return f"another reply: {told[-2:]} {self.more[:80]}"
        if self.failed_at is None or (self.status == 0 and (self.is_beside or not is_failure)):
            is_right = self.status == 0 and len(good) == len(session.lines)
            return None if is_right else f"status {self.status} behind {len(good)} replies: {self.errors}"
        if self.status == UNOPENED:
            is_right = not told and self.errors.endswith(UNOPENED_TEXTS)
            return None if is_right else f"status {self.status} behind {len(told)} replies: {self.errors}"
        if self.status != FILE_FAILED or self.is_beside:
            return f"status {self.status}: {self.errors}"
        # nothing was answered where the file failed before the first line, and all where it failed behind the last
        if not was_lost and 0 < len(told) < len(session.lines):
            return "the failure isn't told"
        if len(told) > self.failed_at + was_lost:
            return f"{told[self.failed_at :]} behind the failure"
        return None


class Trial:
    def __init__(self, program, library, folder):
        self.program, self.library, self.folder = program, library, folder
        self.file, counts = f"{folder}/memory", f"{folder}/counts"
        self.environment = {"LD_PRELOAD": library, "FILE_CALLS_PATH": self.file, "FILE_CALLS_COUNTS": counts}
        with open(counts, "w+b") as file:
            file.write(bytes(64))
            file.flush()
            self.counts = mmap.mmap(file.fileno(), 64)

    def has_failed(self):
        """Whether a call was made to fail."""
        return struct.unpack("8Q", self.counts)[1] > 0

    def is_beside(self):
        """Whether that was a call of the second file."""
        return struct.unpack("8Q", self.counts)[7] > 0

    def keep(self, options=(), environment=None):
        words = [self.program, "keep", "--file", self.file, *BOARD, *options]
        how = {"stdin": subprocess.PIPE, "stdout": subprocess.PIPE, "stderr": subprocess.PIPE, "text": True}
        return subprocess.Popen(words, env={**os.environ, **(environment or {})}, **how)

    def found(self, options=()):
        """The words that a call finds which fails in nothing, or how it ended."""
        process = self.keep(options)
        said, errors = process.communicate("".join(f"{line}\n" for line in LOOKS), timeout=60)
        return said.split("\n")[:-1] if process.returncode == 0 else f"status {process.returncode}: {errors}"

    def place(self, kept):
        """Leaves no file, or a copy of this one."""
        for name in os.listdir(self.folder):
            if name.startswith("memory"):
                os.remove(f"{self.folder}/{name}")
        if kept:
            shutil.copyfile(kept, self.file)

    def run(self, session, fails_at, how, error):
        """Runs a session of which one call of the file fails."""
        self.counts[:] = bytes(64)
        said = {"FILE_CALLS_FAIL": str(fails_at), "FILE_CALLS_ERROR": str(error), "FILE_CALLS_HOW": how}
        process = self.keep(session.options, {**self.environment, **said})
        signal.alarm(60)
        replies, failed_at, given = [], None, 0
        while given == len(replies) < len(session.lines):
            lines = session.lines[given : given + session.at_once]
            try:
                process.stdin.write("".join(f"{line}\n" for line in lines))
                process.stdin.flush()
            except BrokenPipeError:
                break
            for _ in lines:
                reply = process.stdout.readline()
                if reply:
                    replies.append(reply[:-1])
            # of lines that are given together some may have been answered before the failure
            if failed_at is None and self.has_failed():
                failed_at = given if session.at_once == 1 else len(replies) - (replies[-1:] == ["lost"])
            given += len(lines)
        more, errors = process.communicate()
        signal.alarm(0)
        if failed_at is None and self.has_failed():
            failed_at = len(replies)
        return Ran(replies, failed_at, more, process.returncode, errors, self.is_beside())

    def tried(self, session, kept, fails_at, how, error):
        """Runs a session of which one call fails, and the calls behind it. Returns whether there was such a call, the status,
        and whether the words of the next sync were found; None where something is wrong."""
        self.place(kept)
        ran = self.run(session, fails_at, how, error)
        wrong = ran.wrong(session, how in dict(FAILURES))
        words = self.found(session.options)
        allowed = session.states[-1:] if ran.status == 0 else session.states[ran.synced : ran.synced + 2]
        if not wrong and words not in allowed:
            wrong = f"behind {ran.synced} syncs other words are found: {words[:300]}"
        if not wrong and self.found() != words:
            wrong = "a second call finds other words"
        if wrong:
            print(f"failing: {session.name}, {how}, call {fails_at}: {wrong}", file=sys.stderr)
            return None
        return ran.failed_at is not None, ran.status, words != allowed[0]

    def all_tried(self, session, kept):
        """Lets each call fail in each way, and tells how that went. Whether all was right."""
        calls, went_on, found, statuses = 0, 0, [0, 0], {FILE_FAILED: 0, UNOPENED: 0}
        for how, error in FAILURES + NO_FAILURES:
            fails_at, has_failed = 1, True
            while has_failed:
                tried = self.tried(session, kept, fails_at, how, error)
                if tried is None:
                    return False
                has_failed, status, is_next = tried
                if has_failed and status:
                    statuses[status] += 1
                    found[is_next] += 1
                else:
                    went_on += has_failed
                calls, fails_at = max(calls, fails_at - 1), fails_at + 1
        ended = " and ".join(f"{times} with {status}" for status, times in statuses.items())
        print(
            f"failing: {session.name}, {calls} calls: ended {ended}, {went_on} went on; {found[0]} left the last sync's words, {found[1]} the next's"
        )
        return True


def mixed(rounds, first):
    """Lines of every kind. Each round ends with a sync, at which a transaction is open."""
    lines = []
    for r in range(rounds):
        v, page = first + 100 * r, [32 * ((r + k) % 4) for k in range(4)]
        lines += [f"store {page[0] + 1} {v}", f"store {page[1] + 2} {v + 1}", "begin"]
        lines += [f"put 0 {page[2] + 3} {v + 2}", f"put 0 {page[3]} {v + 3}", "abort 0" if r % 2 else "commit 0"]
        lines += [f"load {page[2] + 3}", f"store {page[0] + 9} {v + 4}", "begin", f"put 0 {page[0] + 5} {v + 5}", "sync"]
        lines += [f"look {page[0] + 5}", "commit 0"]
    return lines


def many(syncs, stores):
    """Lines that write much between two syncs, so that the file is written before it is synced, and grows long."""
    lines = []
    for n in range(syncs * stores):
        lines += [f"store {37 * n % WORDS} {n + 1}"] + (["sync"] if n % stores == stores - 1 else [])
    return lines


def main():
    program, library, folder = (os.path.realpath(word) for word in sys.argv[1:])
    signal.signal(signal.SIGALRM, lambda *_: sys.exit("failing: a call took more than a minute"))
    trial = Trial(program, library, folder)
    new = Session(program, "a new file", mixed(3, 1000))
    sessions = [
        new,
        Session(program, "a file that is opened again", mixed(2, 2000), before=new),
        Session(program, "a file that grows long", many(5, 400), at_once=401),
    ]
    process = trial.keep(["--compact=1"])
    process.communicate("")
    if process.returncode != 2:
        sessions.append(Session(program, "a file that is compacted", mixed(2, 3000), before=new, options=["--compact=1"]))
    kept = {}
    for session in sessions:
        if not trial.all_tried(session, kept.get(session.before)):
            return 1
        kept[session] = f"{folder}/kept{len(kept)}"
        shutil.copyfile(trial.file, kept[session])
    return 0


if __name__ == "__main__":
    sys.exit(main())
