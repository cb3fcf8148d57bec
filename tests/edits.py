#!/usr/bin/env python3
"""Tries the wrong bodies that the prover must refuse: those that the gate tries, crates/NAME/must-fail/*.edit, and the others, edits/NAME/*.edit.

usage: tests/edits.py NAME..            at the top of the repository: tries both kinds of these crates
       tests/edits.py --others NAME..   tries only those that the gate does not try, and keeps in edits/tried.txt that each was refused
       tests/edits.py --all             does that for all crates
       tests/edits.py --keep NAME..     writes the lines of these crates without trying; only after all of them were refused
       tests/run.py edits               sees that each edit can be applied
       tests/run.py other-edits         tries those that the gate does not try, of the crates that differ from their lines in edits/tried.txt

An edit counts as refused only if a contract refuses it. One that the prover refuses for a name or a form says nothing of a contract and counts as bad: a proof
file names what the edit took away, a function has no proof for its form, the text cannot be read, or the prover stopped at a limit. Edits of different
functions are tried together (tests/at_once.py). Prints a line for each edit and one for each crate; the status is 1 if one edit is bad or not refused. Trying
takes a check of the crate, unless the crate was checked on this machine before, and 5 to 15 seconds for each edit.
"""
import argparse
import glob
import os
import re
import sys
import tempfile

sys.dont_write_bytecode = True  # no folder of it beside the tests
import at_once
import tried
from at_once import changes_of
from program import TOP

GATE, OTHERS = "crates/*/must-fail", "edits/*"


def cannot_be_applied(crate, edit):
    """Why an edit of a crate cannot be applied, if it cannot."""
    texts = {}
    for path, old, new in changes_of(edit):
        if path not in texts:
            with open(os.path.join(TOP, "crates", crate, path), encoding="utf-8") as file:
                texts[path] = file.read()
        if texts[path].count(old) != 1:
            return f"{old!r} stands in {path} {texts[path].count(old)} times"
        texts[path] = texts[path].replace(old, new)
    return None if texts else "it changes nothing"


def edits_in(pattern):
    """The edits of each crate in folders of this pattern, with the crate's name."""
    parts = pattern.split("/")
    for edit in sorted(glob.glob(os.path.join(TOP, pattern, "*.edit"))):
        yield os.path.relpath(edit, TOP).split(os.sep)[parts.index("*")], edit


# The wrong bodies that a promise names, by the crate whose contract must refuse them; a body with several forms has an edit for each.
PROMISED = {
    "analysis": ["checkpoint-ignored", "prepared-abort-kept"],
    "audit": ["audit-always-ok", "audit-always-refuses", "audit-without-strictness"],
    "board": [
        "guarded-board", "invented-number", "invented-number-first", "private-count", "split-forgets", "split-forgets-places",
        "stop-never-said", "stop-without-cause", "swallowed-number", "swallowed-number-next",
    ],
    "device": ["failure-ignored", "innocent-device"],
    "page": ["cells-swapped", "empty-value-wrong-place"],
    "recovery": ["failure-ignored", "innocent-device", "log-left", "store-first", "torn-tail-kept", "version-1-written"],
    "redo": ["redo-at-page-lsn", "redo-from-begin", "redo-of-winners-only", "winners-clrs-skipped"],
    "restart": ["page-ahead-accepted", "winners-without-images"],
    "undo": [
        "bad-hop-accepted", "compensated-twice", "compensated-twice-at-clr", "ends-last", "owner-unseen", "prepared-undone", "prev-trusted",
        "undo-by-transaction", "undo-next-own-lsn",
    ],
    "wal": ["lsns-counted-from-1", "short-frame", "short-frame-dropped"],
}

# Those that no contract refuses, and the tests that fail with them.
TESTED = {
    "always-no-resource": [("row_files", "run_line")],
    "no-flush": [("recovery_tests", "one_loser_over_devices"), ("base_tests", "flush_fails")],
    "stop-own-notes": [("base_tests", "stop_seen")],
    "workers-in-turn": [("redo_tests", "the_gate_hears_who_draws_what"), ("recovery_tests", "the_gate_hears_who_draws_what")],
}


def check_promised(tally):
    """Sees that the gate tries each wrong body that a promise names, and that the tests are there that catch the others."""
    wanted = {(crate, f"{name}.edit") for crate, names in PROMISED.items() for name in names}
    there = {(crate, os.path.basename(edit)) for crate, edit in edits_in(GATE)}
    tally.say("each wrong body that a promise names is tried", wanted <= there, sorted(wanted - there))
    for name, tests in TESTED.items():
        missing = [f"{crate}::{test}" for crate, test in tests if not has_function(crate, test)]
        tally.say(f"the wrong body {name} has its tests", not missing, missing)


def has_function(crate, name):
    """Whether a crate's sources have a function of this name."""
    for path in glob.glob(os.path.join(TOP, "crates", crate, "src", "**", "*.rt"), recursive=True):
        with open(path, encoding="utf-8") as file:
            if re.search(rf"fn {name}\b", file.read()):
                return True
    return False


def check_edits(tally):
    """Sees that each edit can be applied, and that none has the name of another of its crate."""
    check_promised(tally)
    of_gate, others = list(edits_in(GATE)), list(edits_in(OTHERS))
    faults = [f"{os.path.relpath(edit, TOP)}: {why}" for crate, edit in of_gate + others if (why := cannot_be_applied(crate, edit))]
    tally.say("each wrong body can be applied", of_gate and others and not faults, "; ".join(faults))
    names = [(crate, os.path.basename(edit)) for crate, edit in of_gate + others]
    tally.say("each wrong body has its own name", len(names) == len(set(names)))


def try_edits(crate, kinds):
    """Tries edits of a crate in a copy of the repository; whether a contract refused each."""
    edits = [edit for pattern in kinds for name, edit in edits_in(pattern) if name == crate]
    with tempfile.TemporaryDirectory(prefix="aries-edits-") as room:
        copy = at_once.Crate(room, crate)
        if said := copy.begin():
            print(f"{crate} is not proved as it stands; the last lines:", *said[-5:], sep="\n")
            return False
        bad = 0
        for together in copy.rounds(edits):
            for edit, why in copy.verdicts(together):
                bad += why is not None
                print(f"{os.path.relpath(edit, TOP)}: {why or 'refused by a contract'}", flush=True)
    print(f"{crate}: {len(edits)} edits, {len(edits) - bad} refused by a contract, {bad} not", flush=True)
    return not bad


def try_others(crate):
    """Tries the edits of a crate that the gate does not try; whether each was refused. If so, that is kept of the sources as they were before."""
    line = tried.line_of(crate)
    is_refused = try_edits(crate, [OTHERS])
    if is_refused:
        tried.keep(line)
    return is_refused


def check_other_edits(tally):
    """Tries the edits that the gate does not try, of each crate that differs from its line in edits/tried.txt. A test does not change that list."""
    for crate in tried.never_tried():
        tally.skip(f"the other edits of {crate}", f"since {tried.KEPT} has no line of it: tests/edits.py --others {crate} tries them")
    reasons, refused = dict(tried.to_try()), []
    if not reasons:
        tally.say(f"{tried.KEPT}: nothing differs", True)
        return
    print(f"{sum(len(tried.others_of(crate)) for crate in reasons)} edits are to be tried, each for 5 to 15 seconds after a check of its crate:", flush=True)
    for crate, why in reasons.items():
        print(f"  {len(tried.others_of(crate))} of {crate}: {why}", flush=True)
    for crate in reasons:
        what = f"the other edits of {crate} are refused"
        if tally.has_tool("rt", what):
            is_refused = try_edits(crate, [OTHERS])
            tally.say(what, is_refused)
            refused += [crate] if is_refused else []
    if refused:
        tally.asked.append(f"KEEP that these were refused: python3 tests/edits.py --keep {' '.join(refused)}")


def asked_for():
    parser = argparse.ArgumentParser(description="tries the wrong bodies that the prover must refuse")
    ways = parser.add_mutually_exclusive_group()
    ways.add_argument("--others", action="store_true", help="try only those that the gate does not try, and keep that each was refused")
    ways.add_argument("--all", action="store_true", help="do that for all crates")
    ways.add_argument("--keep", action="store_true", help="write the lines of these crates without trying; only after all of them were refused")
    parser.add_argument("names", nargs="*", metavar="NAME", help="crates")
    asked = parser.parse_args()
    known = sorted({name for kind in ([OTHERS] if asked.others or asked.keep else [GATE, OTHERS]) for name, _ in edits_in(kind)})
    if bool(asked.names) == asked.all or not set(asked.names) <= set(known):
        parser.error(f"name crates, or --all alone; crates with such edits: {' '.join(known)}")
    return asked


def main():
    asked = asked_for()
    if asked.keep:
        tried.keep(*map(tried.line_of, asked.names))
        return 0
    if asked.all or asked.others:
        return 0 if all([try_others(name) for name in asked.names or tried.crates_with_others()]) else 1
    return 0 if all([try_edits(name, [GATE, OTHERS]) for name in asked.names]) else 1


if __name__ == "__main__":
    sys.exit(main())
