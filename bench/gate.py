#!/usr/bin/env python3
"""Prints the processor seconds that each crate takes in `rt ci`: its proof, its tests, its must-fail edits.

usage: bench/gate.py [--anew] [--log FILE] [--table FILE] [NAME..]

It runs `rt ci` in the checkout in which it is called, for all crates or for these, and looks at the processes of that run ten times a second.
A check that ends between two looks keeps the seconds that were seen last, so up to a tenth of a second of each is lost;
the line `not seen` has their sum. `seed` is the check of a crate as it stands, from which its edits begin if there are
two or more; `again` is what a change of the crate takes, with all crates that stand on it. With --anew nothing that an
earlier run kept is used, as on a new machine. --log takes what `rt ci` prints, and --table a copy of the table.
"""

import argparse
import collections
import os
import subprocess
import sys
import time

TICKS = os.sysconf("SC_CLK_TCK")
LOOKS = 0.1
KINDS = "proof", "tests", "seed", "edits", "other"


def processes():
    """Yields the number, parent, moment of start and processor seconds of each process."""
    for name in os.listdir("/proc"):
        if not name.isdigit():
            continue
        try:
            with open(f"/proc/{name}/stat") as file:
                fields = file.read().rpartition(")")[2].split()
        except OSError:
            continue
        yield int(name), int(fields[1]), int(fields[19]), (int(fields[11]) + int(fields[12])) / TICKS


def what_of(number):
    """Returns the crate and the kind of work of a process of the prover, or None if it is something else."""
    try:
        with open(f"/proc/{number}/cmdline", "rb") as file:
            words = [it.decode(errors="replace") for it in file.read().split(b"\0")]
        folder = os.readlink(f"/proc/{number}/cwd")
    except OSError:
        return None
    if not words or os.path.basename(words[0]) != "rattle":
        return None
    crate = words[words.index("--crate-name") + 1] if "--crate-name" in words[:-1] else None
    if "rt-edit" in folder:
        return crate, "seed" if any(it.endswith("/seed") for it in words) else "edits"
    return crate, "tests" if "--test" in words else "proof"


class Meter:
    """What was seen of the processes below one process."""

    def __init__(self, root):
        self.root = root
        self.seen = {}
        self.owner = {}

    def look(self):
        """Notes the processor seconds of each process below the root, and to what work it belongs."""
        found = {number: (parent, start, used) for number, parent, start, used in processes()}
        for number in found:
            if self.is_below(number, found):
                key = number, found[number][1]
                if not self.owner.get(key):
                    self.owner[key] = self.work_of(number, found)
                self.seen[key] = found[number][2]

    def is_below(self, number, found):
        while number in found and number > 1:
            if number == self.root:
                return True
            number = found[number][0]
        return False

    def work_of(self, number, found):
        """Returns the work of the nearest process above that is one of the prover."""
        while number in found and number != self.root:
            what = what_of(number)
            if what:
                return what
            number = found[number][0]
        return None

    def table(self):
        """Returns the processor seconds by crate and kind."""
        sums = collections.defaultdict(lambda: collections.defaultdict(float))
        for key, used in self.seen.items():
            crate, kind = self.owner.get(key) or ("-", "other")
            sums[crate or "-"][kind] += used
        return sums


def crates_above():
    """Returns for each crate of crates.txt the crates that stand on it, and itself."""
    with open("crates.txt", encoding="utf-8") as file:
        lines = [line.partition(":") for line in file if not line.startswith("#")]
    above = {head.split()[0]: {head.split()[0]} for head, _, _ in lines if head.strip()}
    uses = {head.split()[0]: below.split() for head, _, below in lines if head.strip()}
    for _ in uses:
        for name, below in uses.items():
            for it in set(below) & set(above):
                above[it] |= above[name]
    return above


def lines_of(sums, whole, elapsed):
    """Yields the lines of the table."""
    above = crates_above()
    yield f"{'crate':18}" + "".join(f"{it:>9}" for it in (*KINDS, "all", "again"))
    used = {crate: sum(row.values()) for crate, row in sums.items()}
    for crate in sorted(sums, key=lambda it: -used[it]):
        row = [*(sums[crate][it] for it in KINDS), used[crate], sum(used.get(it, 0) for it in above.get(crate, ()))]
        yield f"{crate:18}" + "".join(f"{it:9.0f}" for it in row)
    every = [sum(sums[crate][it] for crate in sums) for it in KINDS]
    yield f"{'all':18}" + "".join(f"{it:9.0f}" for it in [*every, sum(every)])
    yield f"not seen {whole - sum(every):.0f}"
    yield f"{whole:.0f} processor seconds, {elapsed / 60:.1f} minutes"


def main():
    parser = argparse.ArgumentParser(description=__doc__, formatter_class=argparse.RawDescriptionHelpFormatter)
    parser.add_argument("--anew", action="store_true")
    parser.add_argument("--log", default=os.devnull)
    parser.add_argument("--table", default=os.devnull)
    parser.add_argument("names", nargs="*", metavar="NAME")
    chosen = parser.parse_args()
    began, before = time.monotonic(), os.times()
    with open(chosen.log, "w") as log:
        words = ["rt", "ci"] + ["--anew"] * chosen.anew + chosen.names
        run = subprocess.Popen(words, stdout=log, stderr=subprocess.STDOUT, stdin=subprocess.DEVNULL)
        meter = Meter(run.pid)
        while run.poll() is None:
            meter.look()
            time.sleep(LOOKS)
    after = os.times()
    whole = after.children_user + after.children_system - before.children_user - before.children_system
    lines = "\n".join(lines_of(meter.table(), whole, time.monotonic() - began))
    print(lines)
    with open(chosen.table, "w") as table:
        print(lines, file=table)
    return run.returncode


if __name__ == "__main__":
    sys.exit(main())
