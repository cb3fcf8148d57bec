#!/usr/bin/env python3
"""Looks for sizes that stand as numbers where their names belong. The sizes of the files are in `crates/page/src/profile.rt`; what follows
from them is in the files `sizes.rt`, and what they are is said in `specs/Numbers.antt` of `page` and `wal`. A number of these in other code, contracts, definitions or proofs is wrong in another profile.

usage: tests/sizes.py    at the top of the repository: each such number
       tests/run.py      fails if there is one

A number that means something else stands in `OTHER`, with what it means. Comments, the crates of tests and the worked examples are not read.
"""
import glob
import os
import re
import sys

sys.dont_write_bytecode = True  # no folder of it beside the tests
from program import TOP, text_of

TESTS = {"base_tests", "log_tests", "worked_rows", "redo_tests", "restart_tests", "recovery_tests", "journal_tests", "crash_tests",
         "times", "engine", "row_files", "workloads", "checks", "seeded"}

# The sizes of the default profile, what is made of them, and their neighbours.
NUMBERS = {4095, 4096, 4097, 1023, 1024, 1025, 15, 16, 17, 47, 48, 49, 64, 80, 255, 848, 944, 70681, 70685, 70697, 70701, 262144, 262160}

OTHER = {
    "aries/src/files.rt": {16: "MiB of a short log"},
    "aries/src/in_pieces.rt": {16: "MiB of a store that is not large"},
    "aries/src/new_tail.rt": {16: "an offset in a head"},
    "aries_c/specs/Fault.antt": {64: "the number of a fault"},
    "aries_c/specs/Journaling.antt": {80: "the number of a refusal"},
    "aries_c/src/fault.rt": {64: "the number of a fault"},
    "aries_c/src/refusal.rt": {80: "the number of a refusal"},
    "aries_c/src/text.rt": {15: "the number of a fault", 16: "the same", 17: "the same"},
    "audit/src/finish_table.rt": {16: "transactions of a block"},
    "audit/src/unfinished_table.rt": {1024: "places of the table"},
    "command/specs/Line.antt": {16: "parts by default"},
    "command/src/job.rt": {16: "parts by default", 64: "workers at most", 4096: "parts at most"},
    "device/src/transfer.rt": {64: "KiB of a read", 1024: "bytes of a KiB"},
    "dump/proofs/Escapes.antt": {48: "the code of the digit 0"},
    "dump/proofs/Writes.antt": {48: "the code of the digit 0"},
    "dump/specs/Values.antt": {48: "the code of the digit 0"},
    "dump/src/log_lines.rt": {80: "bytes of a line"},
    "dump/src/record.rt": {16: "bytes of a name"},
    "dump_command/proofs/job/lsn_of/Answers.antt": {64: "bits of an LSN"},
    "held_store/src/held.rt": {64: "images of a piece"},
    "journal/src/owned.rt": {1024: "pending updates that there is room for at first"},
    "journal/src/table.rt": {4096: "pending updates that are looked at together"},
    "page/proofs/BigEndian.antt": {16: "bytes of three numbers"},
    "page/specs/Fault.antt": {15: "the number of a fault", 16: "the same", 17: "the same"},
    "page/src/fault.rt": {15: "the number of a fault", 16: "the same", 17: "the same"},
    "page/src/numbers.rt": {16: "bytes of three numbers"},
    "recovery/proofs/TailFiles.antt": {16: "an offset in a head", 48: "bytes of a head"},
    "recovery/proofs/TailLength.antt": {17: "bytes of an update without images"},
    "recovery/src/store_pieces.rt": {64: "images of a piece"},
    "recovery/src/tail_file.rt": {16: "an offset in a head", 48: "bytes of the head", 4096: "bytes of the end of a log"},
}

# What a number is not: bits, an exponent, a part of a name, of a shift or of a decimal.
BITS = re.compile(r"2 \^ \d+|\b[uw]\d+\b|<< \d+")
NUMBER = re.compile(r"(?<![\w.])\d[\d_]*(?![\w.]*\w)")
COMMENT = {".rt": re.compile(r"(?<![:\"])//.*"), ".antt": re.compile(r"--.*")}


def paths():
    for pattern in ("src/**/*.rt", "specs/**/*.antt", "proofs/**/*.antt"):
        for path in sorted(glob.glob(f"crates/*/{pattern}", root_dir=TOP, recursive=True)):
            crate, name = path.split("/")[1], path.split("/")[-1]
            if crate not in TESTS and name not in ("profile.rt", "sizes.rt", "Numbers.antt"):
                yield path


def numbers_of(line, ending):
    code = BITS.sub("", COMMENT[ending].sub("", line))
    return {int(found.replace("_", "")) for found in NUMBER.findall(code)}


def found_sizes():
    """Each size that stands as a number, with its place."""
    for path in paths():
        other = OTHER.get(path.removeprefix("crates/"), {})
        for at, line in enumerate(text_of(path).split("\n"), 1):
            for number in sorted(numbers_of(line, os.path.splitext(path)[1]) & NUMBERS - set(other)):
                yield f"{path}:{at}: {number}: {line.strip()[:100]}"


def check_sizes(tally):
    found = list(found_sizes())
    tally.say("sizes stand by their names, outside the profile and what follows from it", not found, "; ".join(found[:5]))


if __name__ == "__main__":
    for place in found_sizes():
        print(place)
