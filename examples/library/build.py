#!/usr/bin/env python3
"""Builds the libraries that C and Rust programs link: crates/NAME/out/libNAME.a, and for a further processor
crates/NAME/out/PROCESSOR/libNAME.a.

`rt ci` leaves each crate below them proved and built in its out/, but without the mark by which `rt lib` knows its own
work, so a plain `rt lib` would prove all of them a second time. Where they stand so, and no source is newer, this takes
them as they are and proves the libraries alone. Everywhere else, and where the kit's modules answer something that isn't
expected, it calls `rt lib`, and says so.

  build.py NAME.. [--also=aarch64]"""

import os
import subprocess
import sys
from concurrent.futures import ThreadPoolExecutor

TARGETS = {"aarch64": "aarch64-unknown-linux-gnu"}
ROOT = os.path.dirname(os.path.dirname(os.path.dirname(os.path.realpath(__file__))))


def kit_library():
    """Returns the library of the command `rt`, which reads crates.txt and knows the compiler's words."""
    ran = subprocess.run(["rt", "doc"], stdout=subprocess.PIPE, text=True, check=True)
    sys.dont_write_bytecode = True
    sys.path.insert(0, f"{os.path.dirname(ran.stdout.strip())}/bin")
    import rtlib

    return rtlib


def newest(folder):
    """Returns when a source of the crate was changed last."""
    times = [os.stat(f"{ROOT}/crates.txt").st_mtime]
    for part in ("src", "specs", "proofs"):
        for at, _, names in os.walk(f"{folder}/{part}"):
            times += [os.stat(it).st_mtime for it in [at, *[f"{at}/{name}" for name in names]]]
    return max(times)


def stands(crate):
    """Returns whether `rt ci` left the crate built, and nothing of it was changed since."""
    is_marked = os.path.exists(f"{os.path.dirname(crate.rlib)}/stamp")
    return os.path.isdir(crate.rlib) and not is_marked and newest(crate.folder) <= os.stat(crate.rlib).st_mtime


def build(rtlib, crate, processor=None):
    """Proves and builds a library over the crates below it as they stand, for this machine or for another processor."""
    folder = f"out/{processor}" if processor else "out"
    os.makedirs(f"{crate.folder}/{folder}", exist_ok=True)
    log = f"{crate.folder}/{folder}/lib{crate.name}.log"
    with open(log, "w", encoding="utf-8") as crate.out:
        words = [*crate.words([], keeps=False), "--toolchain", f"{rtlib.KIT}/toolchain", "--backend", "llvm"]
        words += ["--target", TARGETS[processor]] if processor else []
        status = crate.call(rtlib.RATTLE, "build", *words, "-o", f"{folder}/lib{crate.name}.a")
    if status:
        with open(log, encoding="utf-8", errors="replace") as it:
            print(it.read()[-4000:], file=sys.stderr)
    return status


def build_all(rtlib, names, processors):
    """Builds each library for each processor, side by side."""
    jobs = [(rtlib.Crate(f"{ROOT}/crates/{name}", ROOT, {}), it) for it in processors for name in names]
    # (its first call sets a handler, which only the main thread may)
    rtlib.guarded()
    with ThreadPoolExecutor(len(jobs)) as pool:
        return any(list(pool.map(lambda job: build(rtlib, *job), jobs)))


def by_kit(names, others):
    """Has `rt lib` prove and build each library, and builds it for other processors over what that left."""
    status = any([subprocess.run(["rt", "lib"], cwd=f"{ROOT}/crates/{name}").returncode for name in names])
    return status or bool(others) and build_all(kit_library(), names, others)


def taken(names, others):
    """Builds the libraries over the crates below as they stand, or returns None where they don't stand so."""
    rtlib = kit_library()
    crates = [rtlib.Crate(f"{ROOT}/crates/{name}", ROOT, {}) for name in names]
    if not all(stands(it) for crate in crates for it in crate.below()):
        return None
    return build_all(rtlib, names, [None, *others])


def main(names):
    others = [it[len("--also=") :] for it in names if it.startswith("--also=")]
    names = [it for it in names if not it.startswith("--also=")]
    why = "the crates below don't stand as rt ci leaves them"
    try:
        status = taken(names, others)
    except Exception as error:  # the kit's own modules promise nothing, and another kit's may be others
        status, why = None, f"the kit's modules answer {type(error).__name__}: {error}"
    if status is None:
        print(f"build.py: {why}, so rt lib proves what it needs", flush=True)
        status = by_kit(names, others)
    return status


if __name__ == "__main__":
    sys.exit(main(sys.argv[1:]))
