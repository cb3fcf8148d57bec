#!/usr/bin/env python3
"""Runs the checks of the programs, of the library for C, and of the documents: all of them, or those that are named.

usage: tests/run.py [--list] [--program FILE] [--dump FILE] [--library FOLDER] [--backend llvm|rattle|both] [--kills N] [NAME ..]
       at the top of the repository

Without options this runs each check, after `rt ci`, which builds what they need. `--list` prints their names and what each looks for. With a program, a dump
or a library of your own, proved or not, the checks that need something else are left out. A name picks one check, or all whose names begin with it and a
hyphen, such as `c`. Prints a line for each thing that was looked at, and at last `N passed, N failed`, and how many were skipped; the status is 1 if one
failed. Takes python3 and cc. What needs valgrind, groff, pkg-config, cmake, cargo or rt is skipped if that is missing.
"""
import argparse
import importlib
import os
import sys
import tempfile
import time
from collections import namedtuple

sys.dont_write_bytecode = True  # no folder of it beside the tests

# What a check is called, where its function is, what that takes besides the tally, what has to be built for it, and what it looks for.
Check = namedtuple("Check", "name module function takes needs looks_for")

NOTHING, ROOM, C = "nothing", "a folder", "the library for C"
CHECKS = [Check(*row) for row in (
    ("documents", "documents", "check_documents", NOTHING, "", "links, README's code, tables of faults and rows"),
    ("contracts", "contracts", "check_contracts", NOTHING, "", "what docs/PROOFS.md cites, and lemmas that nothing names"),
    ("clauses", "clauses", "check_clauses", NOTHING, "", "clauses that are too long"),
    ("sizes", "sizes", "check_sizes", NOTHING, "", "numbers in place of the names of sizes"),
    ("pages", "pages", "check_pages", NOTHING, "", "the man pages and --help"),
    ("edits", "edits", "check_edits", NOTHING, "", "whether each edit can be applied"),
    ("other-edits", "edits", "check_other_edits", NOTHING, "", "the edits in edits/ of the crates that changed"),
    ("prose", "prose", "check_prose", NOTHING, "", "what readers stumble over"),
    ("ways", "documents", "check_ways", NOTHING, "", "how many functions a job goes through"),
    ("profile", "documents", "check_profile", NOTHING, "page", "the limits of another profile"),
    ("instructions", "documents", "check_instructions", NOTHING, "aries_cli aries_dump workloads", "instructions of the workloads"),
    ("large-rows", "recoveries", "check_large_rows", ROOM, "aries_cli", "rows of real size"),
    ("long-logs", "long_logs", "check_long_logs", ROOM, "aries_cli", "logs that are read in two parts"),
    ("stretches", "stretches", "check_stretches", ROOM, "aries_cli", "logs that the workers share"),
    ("version-2", "recoveries", "check_version_2", ROOM, "aries_cli", "the small rows as logs of version 2"),
    ("threads", "recoveries", "check_threads", ROOM, "aries_cli", "how many threads are started"),
    ("files", "recoveries", "check_files", ROOM, "aries_cli", "new files that are there already"),
    ("other-profile", "recoveries", "check_files_of_another_profile", ROOM, "aries_cli", "files of another profile"),
    ("missing-files", "recoveries", "check_missing_files", ROOM, "aries_cli", "files that are missing"),
    ("words", "recoveries", "check_words", ROOM, "aries_cli", "command lines, right and wrong"),
    ("operation", "operate", "check_operation", ROOM, "aries_cli", "--verbose, modes, syncs, limits"),
    ("in-place", "in_place", "check_in_place", ROOM, "aries_cli", "in place: rows, kills, power cuts"),
    ("found", "found", "check_found", ROOM, "aries_cli aries_dump", "in place: names, locks, what earlier runs left"),
    ("engine", "engine", "check_engine", ROOM, "aries_cli engine", "an engine that is killed"),
    ("pieces", "pieces", "check_pieces", ROOM, "aries_cli", "logs in memory and in pieces"),
    ("order", "pieces", "check_order", ROOM, "aries_cli", "the order of faults"),
    ("nothing-out", "pieces", "check_nothing_out", ROOM, "aries_cli", "what is left if a call fails"),
    ("spoiled", "spoiled", "check_spoiled", ROOM, "aries_cli", "rows with another byte"),
    ("borrow", "borrow", "check_borrow", ROOM, "wal", "views of a log that live too long"),
    ("chosen", "chosen", "check_chosen", ROOM, "aries_cli", "audits of chosen numbers"),
    ("prints", "recoveries", "check_prints", ROOM, "aries_cli", "prints that fail"),
    ("refusals", "recoveries", "check_refusals", ROOM, "aries_cli row_files", "growths of memory that are refused"),
    ("dump", "dump", "check_dump", ROOM, "aries_dump", "aries_dump"),
    ("c-names", "embed", "names_of_c", C, "", "the header in each language"),
    ("c-header", "embed", "header", C, "library", "every call of the header"),
    ("c-refusals", "embed", "refusals", C, "library", "growths of memory that are refused"),
    ("c-journal", "embed", "journal", C, "library", "a journal that crashes"),
    ("c-marks", "embed", "marks", C, "library", "logs record by record"),
    ("c-rows", "embed", "rows", C, "library", "the worked rows"),
    ("c-files", "embed", "files", C, "library", "files that survive a power cut"),
    ("c-bank", "embed", "bank", C, "library", "a bank that is killed"),
    ("c-own-log", "embed", "own_log", C, "library", "a store with a log of its own"),
    ("c-installed", "embed", "installed", C, "library", "what install.sh installs"),
    ("c-rust", "embed", "wrapper", C, "library", "the wrapper in Rust"),
)]
TOP = os.path.dirname(os.path.dirname(os.path.abspath(__file__)))


def asked_for():
    parser = argparse.ArgumentParser(description="runs the checks of the programs, of the library for C, and of the documents")
    parser.add_argument("--list", action="store_true", help="print the names of the checks")
    parser.add_argument("--program", metavar="FILE", help="the program `aries`, in place of the proved one")
    parser.add_argument("--dump", metavar="FILE", help="the program `aries_dump`, in place of the proved one")
    parser.add_argument("--library", metavar="FOLDER", help="the folder of libaries_c.a, in place of building it")
    parser.add_argument("--backend", choices=("llvm", "rattle", "both"), default="both", help="what builds the library")
    parser.add_argument("--kills", type=int, default=30, metavar="N", help="how often the bank is killed")
    parser.add_argument("names", nargs="*", metavar="NAME", help="checks, or what their names begin with")
    return parser.parse_args()


def chosen(names):
    """The checks of these names, or all."""
    wrong = [name for name in names if not any(is_named(check, name) for check in CHECKS)]
    if wrong:
        sys.exit(f"no check is called {', '.join(wrong)}: see tests/run.py --list")
    return [check for check in CHECKS if not names or any(is_named(check, name) for name in names)]


def is_named(check, name):
    return check.name == name or check.name.startswith(f"{name}-")


def missing_of(check, asked):
    """What is not built that the check needs."""
    given = {"aries_cli": asked.program, "aries_dump": asked.dump, "library": asked.library}
    return [need for need in check.needs.split() if not (given.get(need) or is_built(need))]


def is_built(need):
    """Whether a program or a library of Rattle is there. That for C is built of those that its crate names."""
    crate = {"library": "recovery"}.get(need, need)
    out = os.path.join(TOP, "crates", crate, "out")
    return any(os.path.exists(os.path.join(out, made)) for made in (crate, f"rlib/{crate}.rlib"))


def make(check, tally, room, embedded):
    """Makes a check, and says how long it took. One that ends with an exception has failed."""
    begin, before = time.monotonic(), tally.passed + tally.failed
    try:
        function = getattr(importlib.import_module(check.module), check.function)
        more = {NOTHING: (), ROOM: (room,), C: (embedded,)}[check.takes]
        function(tally, *more)
    except Exception as error:  # the other checks are still made
        tally.say(check.name, False, repr(error))
    print(f"-- {check.name}: {tally.passed + tally.failed - before} in {time.monotonic() - begin:.1f} s", flush=True)


def run_all(checks, asked, tally, room):
    from embed import Embedded
    is_own = asked.program or asked.dump or asked.library or asked.names
    embedded = Embedded(os.path.join(room, "c"), asked.library, asked.backend, asked.kills) if any(check.takes == C for check in checks) else None
    for check in checks:
        missing = missing_of(check, asked)
        if missing and not is_own:
            sys.exit(f"{', '.join(missing)} is missing, which {check.name} needs: rt ci builds it")
        if missing:
            tally.skip(check.name, f"since {', '.join(missing)} is not built")
        else:
            make(check, tally, room, embedded)


def main():
    asked = asked_for()
    checks = chosen(asked.names)
    if asked.list:
        for check in checks:
            print(f"{check.name:14} {check.looks_for}")
        return
    # The modules take the programs' paths when they are imported.
    for crate, path in (("aries_cli", asked.program), ("aries_dump", asked.dump)):
        if path:
            os.environ[f"PROGRAM_OF_{crate}"] = os.path.abspath(path)
    from program import Tally
    tally = Tally()
    with tempfile.TemporaryDirectory(prefix="aries-tests-") as room:
        run_all(checks, asked, tally, room)
    print(*tally.asked, tally, sep="\n")
    sys.exit(1 if tally.failed else 0)


if __name__ == "__main__":
    main()
