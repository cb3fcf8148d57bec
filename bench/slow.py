#!/usr/bin/env python3
"""Prints the seconds that a check of a crate takes, by function: where a proof can be made cheaper.

usage: bench/slow.py [--tests] [--most N] NAME

It runs `rt check` with one job in a copy of the repository, without what earlier checks kept, so it takes as long as a first
check. If the libraries below are not up to date, they are built first. The prover writes a file when it is done with a part of
a function. The time from one file to the next is counted for the second one. Printed are the seconds of a function and of its
slowest parts: `Lts` goes through the body, statement by statement; `Proof` searches for proofs of the goals that no file
answers; `Answers` and `Invariants` check those that a file answers. --tests checks the tests too. --most says how many functions
are printed, 30 if not said. Stop what else runs first.
"""
import argparse
import collections
import os
import re
import shutil
import subprocess
import sys
import tempfile
import time

TOP = os.path.dirname(os.path.dirname(os.path.abspath(__file__)))
PARTS = "Lts", "Proof", "Answers", "Invariants", "Tie", "Mir", "Kinds", "Reads", "Layout", "Goals"


def place_of(name):
    """The function or file that a file of the prover belongs to, and the part of it."""
    words = re.sub(r"(\.decls)?\.oantt$", "", name).split(".")
    words[0] = re.sub(r"^Rattle-\w+-", "", words[0])
    for at, word in enumerate(words):
        part = word.partition("-")[0]
        if part in PARTS and at > 0:
            return "::".join(words[1:at]), part
    return "::".join(words), "rest"


def seconds_by_place(folder, began):
    """The seconds of each part of each function, by the times of the files that were written from this moment on."""
    paths = [os.path.join(at, name) for at, _, names in os.walk(folder) for name in names if name.endswith(".oantt")]
    sums = collections.defaultdict(collections.Counter)
    for moment, path in sorted((os.stat(path).st_mtime, path) for path in paths):
        place, part = place_of(os.path.basename(path))
        sums[place][part] += max(0, moment - began)
        began = max(began, moment)
    return sums


def copy_to_check(room, name):
    """The folder of the crate in a copy of the repository. `rt` takes what another checkout kept if the text is the same, or if it has nothing
    here; so the copy has one more comment, and an empty folder."""
    copy = os.path.join(room, "aries")
    shutil.copytree(TOP, copy, symlinks=True, ignore=shutil.ignore_patterns(".git", "incremental"))
    crate = os.path.join(copy, "crates", name)
    os.makedirs(os.path.join(crate, "out", "incremental"))
    for root in ("lib.rt", "main.rt"):
        path = os.path.join(crate, "src", root)
        if os.path.exists(path):
            with open(path, "a") as file:
                file.write("// measured\n")
    return crate


def main():
    parser = argparse.ArgumentParser(description=__doc__, formatter_class=argparse.RawDescriptionHelpFormatter)
    parser.add_argument("--tests", action="store_true")
    parser.add_argument("--most", type=int, default=30, metavar="N")
    parser.add_argument("name", metavar="NAME")
    chosen = parser.parse_args()
    if not os.path.isdir(os.path.join(TOP, "crates", chosen.name)):
        parser.error(f"there is no crate {chosen.name}")
    with tempfile.TemporaryDirectory(prefix="aries-slow-") as room:
        crate = copy_to_check(room, chosen.name)
        began = time.time()
        run = subprocess.run(["rt", "check", "--jobs", "1"] + ["--test"] * chosen.tests, cwd=crate, stdout=subprocess.DEVNULL)
        sums = seconds_by_place(os.path.join(crate, "out", "incremental"), began)
    for place in sorted(sums, key=lambda it: -sums[it].total())[: chosen.most]:
        parts = ", ".join(f"{part} {seconds:.1f}" for part, seconds in sums[place].most_common(3) if seconds >= 0.5)
        print(f"{sums[place].total():8.1f} {place:60} {parts}")
    print(f"{sum(it.total() for it in sums.values()):8.1f} in all")
    return run.returncode


if __name__ == "__main__":
    sys.exit(main())
