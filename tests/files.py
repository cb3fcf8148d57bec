#!/usr/bin/env python3
"""Runs bindings/c/aries_files.c on real files, to see what its calls refuse; and on a disk in memory: makes crash states
of engines, opens each, and checks what was opened; and plants mistakes, which it has to find.

usage: tests/files.py --library FOLDER [--states N] [--seed N] [--plants quick|all|none] [--jobs N]

FOLDER has libaries_c.a. --states: so many crash states for each way to run, and for each way to look for a mistake that
is not found quickly. The full run: --states 300000 --plants all. `tests/run.py c-files` calls check_files with what is quick.
Takes python3 and cc.
"""
import argparse
import os
import re
import sys
import tempfile
from concurrent.futures import ThreadPoolExecutor

sys.dont_write_bytecode = True  # no folder of it beside the tests
from program import TOP, Tally, run, text_of
sys.path.append(os.path.join(TOP, "tests/files"))
from plants import AGAIN, ANOTHER, NEVER, PLANTS, QUICK

PARTS = ("bindings/c/aries_files.c", "bindings/c/aries_files_disk.h")
CALLS = """mkdir open openat close flock fchmod fstat fstatat posix_fadvise pread pwrite ftruncate fsync fdatasync renameat unlinkat
fdopendir readdir closedir""".split()
# Small sizes, so that a few pages and records fill a batch, the buffer and the ring.
SMALL = (("RING = 1 << 20", "RING = 6000"), ("BUFFER = 1 << 16", "BUFFER = 2000"), ("BATCH = 64", "BATCH = 3"))
QUICK_STATES = 2000
# The tests of calls.c.
REFUSALS = {
    "arguments": "wrong arguments make nothing",
    "locks": "the log is locked while the folder is open",
    "replaced-log": "the name of the log is that of another file when it is locked",
    "masters": "a master that is no complete checkpoint",
    "older-images": "a page older than that in the store",
    "other-flags": "no sums-N after a crash with one sync",
    "interrupted-recovery": "a recovery in place that was interrupted",
    "another-two-syncs": "a folder that another program has recovered, two syncs",
    "another-one-sync": "a folder that another program has recovered, one sync",
    "another-torn-page": "a folder that another program has recovered after a page was torn",
}
WAYS = {
    "two syncs": ("--flags", "0", "--errors"),
    "one sync": ("--flags", "4", "--errors"),
    "either": ("--flags", "8", "--errors"),
    "the same bytes again, two syncs": ("--again", "--every", "3", "--flags", "0"),
    "the same bytes again, one sync": AGAIN[0],
    "another program recovers in place, two syncs": ANOTHER[0],
    "another program recovers in place, one sync": ANOTHER[1],
    "all choices of short runs": ("--exhaust", "--small", "--steps", "12", "--every", "8"),
}


def edited(texts, edits):
    """The texts of the parts, each old text of an edit replaced by its new one. It must occur exactly once."""
    for old, new in edits:
        found = [part for part in texts if old in texts[part]]
        if len(found) != 1 or texts[found[0]].count(old) != 1:
            raise ValueError(f"not exactly once: {old!r}")
        texts = {**texts, found[0]: texts[found[0]].replace(old, new)}
    return texts


class Checker:
    """Builds check.c over the parts, as they are or with a mistake."""

    def __init__(self, room, archive):
        self.room, self.archive = room, archive
        self.includes = [f"-I{os.path.join(TOP, name)}" for name in ("include", "bindings/c", "tests/files")]
        sources = [os.path.join(TOP, "tests/files", name) for name in ("check.c", "engine.c", "disk.c")]
        self.objects = [self.compiled(source, "-std=gnu11") for source in [*sources, os.path.join(TOP, "bindings/c/heap.c")]]

    def compiled(self, source, *flags):
        made = os.path.join(self.room, os.path.basename(source) + ".o")
        run(["cc", "-O1", "-w", *flags, *self.includes, "-c", source, "-o", made], check=True)
        return made

    def built(self, name, edits=()):
        """The program, with these edits."""
        folder = os.path.join(self.room, name)
        os.mkdir(folder)
        texts = edited({part: text_of(part) for part in PARTS}, [*SMALL, *edits])
        for part, text in texts.items():
            with open(os.path.join(folder, os.path.basename(part)), "w") as file:
                file.write(text)
        made, source = os.path.join(folder, "check"), os.path.join(folder, os.path.basename(PARTS[0]))
        wraps = [f"-Wl,--wrap={call}" for call in CALLS]
        words = ["cc", "-O1", "-w", "-std=c99", *self.includes, source, *self.objects, self.archive, *wraps, "-o", made]
        run(words, check=True)
        return made


def check_calls(tally, checker):
    """What the calls refuse on real files, each test in a folder of its own."""
    made, sources = os.path.join(checker.room, "calls"), ("tests/files/calls.c", "bindings/c/aries_files.c", "bindings/c/heap.c")
    words = ["cc", "-O1", "-w", *checker.includes, *(os.path.join(TOP, source) for source in sources)]
    run([*words, checker.archive, "-Wl,--wrap=flock", "-o", made], check=True)
    for name, what in REFUSALS.items():
        folder = os.path.join(checker.room, name)
        os.mkdir(folder)
        ran = run([made, name, folder], text=True)
        tally.say(f"files, {what}", ran.returncode == 0, ran.stdout + ran.stderr)


def states_of(ran):
    """How many crash states a run has made."""
    found = re.search(r"crash state[s ]+(\d+)", ran.stdout)
    return int(found.group(1)) if found else 0


def found_at(program, runs, states, seed):
    """At which crash state a mistake was found, or None; how many there were; and what was printed."""
    before = 0
    for options in runs:
        ran = run([program, "--stop", "--states", str(states), "--seed", str(seed), *options], text=True)
        before += states_of(ran)
        if ran.returncode != 0:
            return before, before, ran.stdout + ran.stderr
    return None, before, ""


def check_states(tally, checker, states, seed, pool):
    program = checker.built("as-it-is")
    job = lambda options: run([program, "--states", str(states), "--seed", str(seed), *options], text=True)
    for (name, options), ran in zip(WAYS.items(), pool.map(job, WAYS.values())):
        is_well = ran.returncode == 0 and ran.stdout.endswith("\nwrong 0\n")
        tally.say(f"files, {name}: {states_of(ran)} crash states", is_well, ran.stdout + ran.stderr)


def check_plants(tally, checker, asked, states, seed, pool):
    plants = [plant for plant in PLANTS if asked == "all" or plant[3] == QUICK]

    def job(plant):
        name, _, edits, found, runs = plant
        program = checker.built(name, edits)
        tried = found_at(program, runs, QUICK_STATES if found == QUICK and asked != "all" else states, seed)
        os.remove(program)
        return tried

    for (name, what, _, expected, _), (at, count, printed) in zip(plants, pool.map(job, plants)):
        where = f"found at crash state {at}" if at is not None else f"not found in {count} crash states"
        tally.say(f"files, planted: {what} ({name}): {where}", (at is None) == (expected == NEVER), printed)


def check_files(tally, room, archive, states=4000, seed=1, plants="quick", jobs=1):
    """The crash states, and the planted mistakes that are asked for."""
    folder = os.path.join(room, "files")
    os.mkdir(folder)
    checker = Checker(folder, archive)
    check_calls(tally, checker)
    with ThreadPoolExecutor(jobs) as pool:
        check_states(tally, checker, states, seed, pool)
        if plants != "none":
            check_plants(tally, checker, plants, states, seed, pool)


def main():
    parser = argparse.ArgumentParser(description="crash states of aries_files.c on a disk in memory")
    parser.add_argument("--library", required=True, help="the folder of libaries_c.a")
    parser.add_argument("--states", type=int, default=4000)
    parser.add_argument("--seed", type=int, default=1)
    parser.add_argument("--plants", choices=("quick", "all", "none"), default="quick")
    parser.add_argument("--jobs", type=int, default=1)
    asked, tally = parser.parse_args(), Tally()
    with tempfile.TemporaryDirectory(prefix="aries-files-") as room:
        archive = os.path.join(os.path.abspath(asked.library), "libaries_c.a")
        check_files(tally, room, archive, asked.states, asked.seed, asked.plants, asked.jobs)
    print(f"{tally.passed} passed, {tally.failed} failed")
    sys.exit(1 if tally.failed else 0)


if __name__ == "__main__":
    main()
