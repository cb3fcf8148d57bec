#!/usr/bin/env python3
"""Measures how a program of the wide profile recovers a store that is far larger than what its log touches.

usage: large.py [--before PROGRAM] PROGRAM [--folder DIR] [--pages N] [--touched N] [--size N] [--runs N]

PROGRAM    `aries`, built with the wide profile
--before   another one to set beside it; the two run in turn, and have to write the same bytes
--folder   where the files stand while it runs (else in memory, in /dev/shm); a folder of its own is made there and
           removed at the end; it takes three times the store
--pages    how many pages the store has, 262,144 if not said: 1 GiB
--touched  how many of them the log touches, 2,000 if not said; they are spread over the store
--size     how many bytes the log has, 10 million if not said
--runs     how often each case is run, 3 if not said; each number is the least of its runs

Each page of the store that is not touched has a value in its first slot. Prints for each case the seconds and the peak
of resident memory, beside a copy of both files with a sync.
"""
import argparse
import filecmp
import os
import shutil
import struct
import subprocess
import sys
import tempfile
from collections import namedtuple

sys.dont_write_bytecode = True  # no folder of it beside the scripts
from runs import Failure, copy_run, least, removed, run

LOGS = os.path.join(os.path.dirname(os.path.abspath(__file__)), "logs.py")
SLOTS, PAGE_BYTES, CELLS_AT = 16, 4096, 80
LOG_MAGIC, STORE_MAGIC = b"ARIESLW1", b"ARIESPW1"
UPDATE, PAGE_FIELD = 1, 25  # where an update's frame has its page
Pair = namedtuple("Pair", "log store")


def spread(path, new, step):
    """The log with the wide magic, and each page's number times `step`."""
    with open(path, "rb") as file:
        text = bytearray(file.read())
    text[:8] = LOG_MAGIC
    at = 8
    while at < len(text):
        (length,) = struct.unpack_from(">I", text, at)
        if text[at + 4] == UPDATE:
            (page,) = struct.unpack_from(">I", text, at + PAGE_FIELD)
            struct.pack_into(">I", text, at + PAGE_FIELD, page * step)
        at += 4 + length
    with open(new, "wb") as file:
        file.write(text)


def page_image(number, is_touched):
    """A page that no record was applied to."""
    value = b"" if is_touched else b"page %d" % number
    entry = struct.pack(">HH", CELLS_AT, len(value)) if value else b"\0" * 4
    head = struct.pack(">IIQ", number, 0, 0) + entry + b"\0" * (4 * SLOTS - 4)
    return (head + value).ljust(PAGE_BYTES, b"\0")


def write_store(path, pages, step, touched):
    with open(path, "wb", buffering=1 << 20) as store:
        store.write(STORE_MAGIC + struct.pack(">IIQ", pages, 0, 0))
        for number in range(pages):
            store.write(page_image(number, number % step == 0 and number // step < touched))


def make(folder, options):
    small = Pair(os.path.join(folder, "small.log"), os.path.join(folder, "small.store"))
    old = Pair(os.path.join(folder, "log"), os.path.join(folder, "store"))
    step = options.pages // options.touched
    words = [sys.executable, LOGS, "fresh", str(options.size), *small, "--pages", str(options.touched)]
    subprocess.run(words, check=True, stdout=subprocess.DEVNULL)
    spread(small.log, old.log, step)
    write_store(old.store, options.pages, step, options.touched)
    removed(small)
    return old


def copied(program, old, new):
    return run([program, "recover", "--log", old.log, "--store", old.store, "--out-log", new.log, "--out-store", new.store])


def in_place(program, old, new):
    shutil.copyfile(old.log, new.log)
    return run([program, "recover", "--in-place", "--log", new.log, "--store", old.store, "--out-store", new.store])


def measure(options, folder):
    old, new = make(folder, options), Pair(os.path.join(folder, "new.log"), os.path.join(folder, "new.store"))
    wanted = Pair(os.path.join(folder, "wanted.log"), os.path.join(folder, "wanted.store"))
    cases = [(name, way, program) for name, way in (("copied", copied), ("in place", in_place)) for program in options.programs]
    runs = {case: [] for case in cases}
    copies = []
    for _ in range(options.runs):
        copies.append(copy_run(old, new))
        removed(new)
        for case in cases:
            runs[case].append(case[1](case[2], old, new))
            if not os.path.exists(wanted.log):
                os.rename(new.log, wanted.log)
                os.rename(new.store, wanted.store)
            elif not (filecmp.cmp(new.log, wanted.log, False) and filecmp.cmp(new.store, wanted.store, False)):
                raise Failure(f"{case[0]}: `{case[2]}` wrote other bytes")
            removed(new)
    print(f"copy of both files: {least(copies).wall:.2f} s")
    for case in cases:
        best = least(runs[case])
        print(f"{case[0]}, {case[2]}: {best.wall:.2f} s, user {best.user:.2f}, system {best.system:.2f}, peak {best.peak / 2**20:.1f} MiB")


def main():
    parser = argparse.ArgumentParser(description=__doc__, formatter_class=argparse.RawDescriptionHelpFormatter)
    parser.add_argument("program")
    parser.add_argument("--before")
    parser.add_argument("--folder", default="/dev/shm" if os.path.isdir("/dev/shm") else None)
    parser.add_argument("--pages", type=int, default=262144)
    parser.add_argument("--touched", type=int, default=2000)
    parser.add_argument("--size", type=int, default=10**7)
    parser.add_argument("--runs", type=int, default=3)
    options = parser.parse_args()
    options.programs = [os.path.abspath(path) for path in (options.before, options.program) if path]
    try:
        with tempfile.TemporaryDirectory(dir=options.folder) as folder:
            measure(options, folder)
    except Failure as failure:
        sys.exit(str(failure))


if __name__ == "__main__":
    main()
