#!/usr/bin/env python3
"""Counts the clauses of contracts (`requires` and `ensures`) that are longer than 100 columns, white space reduced to single blanks.

usage: tests/clauses.py [CRATE..]           at the top of the repository: each long clause of these crates, or of those that are counted
       tests/clauses.py --table [CRATE..]   a line for each crate: clauses, their mean length, how many are long, and lines of code,
                                            definitions and proofs
       tests/run.py                         fails if a crate has more long clauses than are kept here

The numbers kept may only fall. Each crate of crates.txt is counted, except those of tests; one that has no number here may have no long clause. What is left in
`recovery` are the public calls over four or five devices: a clause that names both sinks before and after the call is longer than that by their names alone. So it
is in `aries_c` with the calls of a journal, over four arrays.
"""
import glob
import os
import re
import sys

sys.dont_write_bytecode = True  # no folder of it beside the tests
from program import TOP, text_of
from sizes import TESTS

LONGEST = 100
KEPT = {"analysis": 37, "aries_c": 13, "audit": 48, "board": 13, "changes": 21, "command": 6, "device": 14, "dump": 26, "dump_command": 5, "journal": 23,
        "journal_recovery": 2, "page": 9, "passes": 12, "pieces": 2, "recovery": 24, "redo": 66, "wal": 12, "words": 1}


def crates():
    """The crates of the product."""
    return [name for name in re.findall(r"^(\w+)[^:\n]*:", text_of("crates.txt"), re.M) if name not in TESTS]


def end_of(text, at):
    """Where the braces close that were opened before this place."""
    depth = 1
    while depth:
        depth += {"{": 1, "}": -1}.get(text[at], 0)
        at += 1
    return at


def clauses(crate):
    """The clauses of a crate, each with its file and line."""
    for path in sorted(glob.glob(f"crates/{crate}/src/**/*.rt", root_dir=TOP, recursive=True)):
        text = text_of(path)
        for found in re.finditer(r"^\s*(?:requires|ensures)\s+(?:[a-z_0-9]+\s+)?\{", text, re.M):
            clause = " ".join(text[found.start():end_of(text, found.end())].split())
            yield f"{path}:{text.count(chr(10), 0, found.start()) + 1}", clause


def long_ones(crate):
    return [(place, clause) for place, clause in clauses(crate) if len(clause) > LONGEST]


def check_clauses(tally):
    counts = {crate: len(long_ones(crate)) for crate in crates()}
    above = [f"{crate}: {count}, kept {KEPT.get(crate, 0)}" for crate, count in counts.items() if count > KEPT.get(crate, 0)]
    tally.say(f"no more clauses than before are longer than {LONGEST} columns", not above, "; ".join(above))
    below = [crate for crate in KEPT if counts.get(crate, 0) < KEPT[crate]]
    tally.asked += [f"tests/clauses.py: KEEP {counts.get(crate, 0)} for {crate}" for crate in below]


def lines_of(crate, folder):
    paths = glob.glob(f"crates/{crate}/{folder}/**/*.*t*", root_dir=TOP, recursive=True)
    return sum(text_of(path).count("\n") for path in paths)


def print_table(names):
    print("crate             clauses  mean  long  lines: src specs proofs")
    for crate in names:
        sizes = [len(clause) for _, clause in clauses(crate)]
        mean = round(sum(sizes) / len(sizes)) if sizes else 0
        lines = [lines_of(crate, folder) for folder in ("src", "specs", "proofs")]
        print(f"{crate:18} {len(sizes):6} {mean:5} {sum(size > LONGEST for size in sizes):5} {lines[0]:11} {lines[1]:5} {lines[2]:6}")


if __name__ == "__main__":
    if sys.argv[1:2] == ["--table"]:
        print_table(sys.argv[2:] or crates())
        sys.exit()
    for name in sys.argv[1:] or crates():
        for where, clause in long_ones(name):
            print(f"{where} {len(clause)}: {clause}")
