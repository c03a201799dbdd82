#!/usr/bin/env python3
"""Runs test files of SQLite's source over its own VFS and over eNVy's as the default one, and compares how each test ends.

  sqlite_tests.py SOURCE [--jobs N] [--quick] [FILE..]

SOURCE has a `testfixture` at its top or in `build/` (configure, make testfixture; Debian: tcl-dev), or TESTFIXTURE names one.
A test that ends otherwise over eNVy has to be in sqlite_differences, with what it finds and the line of its text that asks
for it; each line there has to be met by a test. --quick takes files that take few seconds. Syncs ask the disk for nothing."""

import argparse
import os
import re
import subprocess
import sys
import tempfile
from concurrent.futures import ThreadPoolExecutor

HERE = os.path.dirname(os.path.abspath(__file__))
OUT = os.path.abspath(f"{HERE}/../out")
MOST_SECONDS = 1800
# the names under which a file is looked at that ends before its end, or makes fewer tests
END, FEWER = "end", "fewer"
QUICK = """aggnested autoinc check conflict count delete2 distinct func index insert main null pragma2 rollback rowid
savepoint2 select1 table trigger1 view""".split()
# files that test what a database does, by its rows and answers; then those of files, locks and journals
FILES = """aggnested alter auth autoinc avtrans between bigrow boundary1 capi2 cast check collate1 conflict count cse date
delete delete2 descidx1 distinct e_insert e_select enc expr fkey1 func in index index2 insert insert2 intpkey join
lastinsert laststmtchanges like limit main minmax misc1 misc2 null orderby1 pragma printf quote reindex rowid savepoint
schema select1 select2 select3 select4 select5 select6 select7 sort subquery subselect table tempdb trans trans2 trigger1
trigger2 types unique update vacuum view vtab1 where where2 with1 without_rowid1

alter2 alter3 analyze attach attach2 attach3 autovacuum backup blob boundary2 busy cache collate2 conflict2 createtab
default diskfull e_createtable e_delete e_update exclusive exists hook incrblob incrvacuum io join2 jrnlmode lock
memjournal misc3 pager1 pragma2 rollback savepoint2 shared temptable tkt3457 vacuum2 window1 zeroblob""".split()
PROBE = """set testdir {source}/test
source $testdir/tester.tcl
do_test probe {{ execsql {{create table t(a)}}; set f [open test.db rb]; set x [read $f 8]; close $f; string range $x 1 end }} {{eNVyJNL}}
finish_test
"""


def differences():
    """Returns the lines of the list: file, tests, what is found, the text that asks for it, why."""
    with open(f"{HERE}/sqlite_differences", encoding="utf-8") as it:
        lines = [line.rstrip("\n").split(" | ") for line in it if line.strip() and not line.startswith("#")]
    for line in lines:
        if len(line) != 5:
            raise SystemExit(f"sqlite_differences: {line}: five parts are wanted")
    return [tuple(part.strip() for part in line) for line in lines]


def ends(text, status=0):
    """Returns how many tests were made, and of each that failed what was found. A status below 0 is of a signal."""
    found, name = {}, ""
    for line in text.split("\n"):
        if begun := re.match(r"(\S+)\.\.\.", line):
            name = begun.group(1)
        elif line.startswith("Error: "):
            found[name] = line
        elif got := re.match(r"! (\S+) got: +(.*)", line):
            found[got.group(1)] = got.group(2)
    counted = re.search(r"(\d+) errors out of (\d+) tests", text)
    if not counted:
        said = re.findall(r"testfixture: (.*)|(\*\*\*\* .* \*\*\*\*)|(it didn't end)", text)
        found[END] = f"signal {-status} in {name}" if status < 0 else "".join(said[-1]) if said else text[-200:].replace("\n", " ")
        return 0, found
    named = re.search(r"!Failures on these tests: (.*)", text)
    return int(counted.group(2)), {it: found.get(it, "") for it in named.group(1).split()} if named else {}


def run(fixture, file, is_ours):
    """Runs a test file, and returns how it ended."""
    env = dict(os.environ, SHIM_DELAY="0", LD_PRELOAD=f"{OUT}/tests/shim.so")
    if is_ours:
        env.update(EXTENSION=f"{OUT}/envyvfs.so", ENVYVFS_DEFAULT="1")
        env.setdefault("ENVYVFS", "size=16M")
    words = [fixture, *[f"{HERE}/default_vfs.tcl"] * is_ours, file]
    with tempfile.TemporaryDirectory(prefix="envy-sqlite-tests.") as folder:
        try:
            ran = subprocess.run(words, cwd=folder, env=env, stdout=subprocess.PIPE, stderr=subprocess.STDOUT, timeout=MOST_SECONDS)
        except subprocess.TimeoutExpired:
            return ends("it didn't end")
    return ends(ran.stdout.decode(errors="replace"), ran.returncode)


def probe(fixture, source):
    """Makes sure that test files meet eNVy's VFS: a database begins as an array's file does."""
    with tempfile.TemporaryDirectory(prefix="envy-sqlite-tests.") as folder:
        with open(f"{folder}/probe.test", "w", encoding="utf-8") as it:
            it.write(PROBE.format(source=source))
        _, failed = run(fixture, f"{folder}/probe.test", True)
    if failed:
        raise SystemExit(f"sqlite_tests: eNVy's VFS isn't the default one: {failed}")


class Differences:
    """The list, and which of its lines were met."""

    def __init__(self, names):
        self.lines = [it for it in differences() if it[0] in names]
        self.met = set()

    def has(self, name, text, test, found):
        for line in self.lines:
            file, tests, wanted, asks, _ = line
            if file == name and re.fullmatch(tests, test) and re.search(wanted, found) and re.search(asks, text):
                self.met.add(line)
                return True
        return False


def main():
    words = argparse.ArgumentParser(usage=__doc__)
    words.add_argument("source")
    words.add_argument("--jobs", type=int, default=1)
    words.add_argument("--quick", action="store_true")
    words.add_argument("files", nargs="*")
    given = words.parse_args()
    source = os.path.abspath(given.source)
    found = [it for it in (os.environ.get("TESTFIXTURE", ""), f"{source}/testfixture", f"{source}/build/testfixture") if os.path.exists(it)]
    if not found:
        raise SystemExit("sqlite_tests: there is no testfixture; TESTFIXTURE names one elsewhere")
    probe(found[0], source)
    names = given.files or (QUICK if given.quick else FILES)
    listed = Differences(names)
    made = failed = equal = 0
    wrong = []
    with ThreadPoolExecutor(given.jobs) as pool:
        jobs = [(it, *[pool.submit(run, found[0], f"{source}/test/{it}.test", is_ours) for is_ours in (False, True)]) for it in names]
        for name, own, ours in jobs:
            (all_tests, plain), (tests, more) = own.result(), ours.result()
            if tests < all_tests and END not in more:
                more[FEWER] = f"{tests} of {all_tests}"
            with open(f"{source}/test/{name}.test", encoding="utf-8", errors="replace") as it:
                text = it.read()
            more = {test: what for test, what in more.items() if test not in plain}
            new = [f"{name}: {test}: {what[:120]}" for test, what in more.items() if not listed.has(name, text, test, what)]
            made, failed, equal, wrong = made + tests, failed + len(more), equal + (not more), wrong + new
            print(f"{name}: {tests} tests, {len(more)} end otherwise, {len(new)} aren't in the list", flush=True)
    wrong += [f"no test is as the list says: {' | '.join(it)}" for it in listed.lines if it not in listed.met and not given.files]
    for it in wrong:
        print(it, file=sys.stderr)
    print(f"{len(names)} files, {made} tests: {equal} files end as over SQLite's own VFS; {failed} tests of the others are in the list" if not wrong else f"{len(wrong)} are wrong")
    return bool(wrong)


if __name__ == "__main__":
    sys.exit(main())
