"""Single runs, of a program and of a copy, and what they took."""
import os
import resource
import subprocess
import sys
import tempfile
import time
from collections import namedtuple

PIECE = 1 << 20
STARTER_MARK = b"\nstarter "
# Starts a program and prints what it took. A process of its own, since the peak of a program that was just started
# counts as at least its starter's: this one is small.
STARTER = """
import os, sys, time
begin = time.perf_counter()
child = os.posix_spawn(sys.argv[1], sys.argv[1:], os.environ)
_, status, used = os.wait4(child, 0)
wall = time.perf_counter() - begin
numbers = os.waitstatus_to_exitcode(status), wall, used.ru_utime, used.ru_stime, used.ru_minflt, used.ru_maxrss
print("\\nstarter", *numbers)
"""
# Seconds of wall clock and of the processor, minor page faults, and the peak of resident memory in bytes.
Run = namedtuple("Run", "wall user system faults peak")


class Failure(Exception):
    """A program that did not do what it has to."""


def run(words, wanted=b""):
    """Runs a program to its end; it has to answer 0 and to print this among its text."""
    with tempfile.TemporaryFile() as out, tempfile.TemporaryFile() as errors:
        starter = [sys.executable, "-I", "-S", "-c", STARTER, *words]
        subprocess.run(starter, stdin=subprocess.DEVNULL, stdout=out, stderr=errors)
        out.seek(0)
        errors.seek(0)
        text, _, last = out.read().rpartition(STARTER_MARK)
        said = errors.read().decode(errors="replace").strip().splitlines()
    numbers = last.split()
    if not numbers or numbers[0] != b"0" or wanted not in text:
        said = said or [f"no message; wanted are status 0 and the text `{wanted.decode()}`"]
        raise Failure(f"status {numbers[0].decode() if numbers else 'unknown'} of `{' '.join(words)}`: {said[-1]}")
    wall, user, system = map(float, numbers[1:4])
    return Run(wall, user, system, int(numbers[4]), 1024 * int(numbers[5]))


def copied(path, new):
    piece = bytearray(PIECE)
    with open(path, "rb", buffering=0) as old, open(new, "wb", buffering=0) as file:
        while count := old.readinto(piece):
            file.write(memoryview(piece)[:count])
        os.fsync(file.fileno())


def copy_run(pair, new):
    """What it takes to read the pair, to write it anew, and to sync both files."""
    begin, before = time.perf_counter(), resource.getrusage(resource.RUSAGE_SELF)
    copied(pair.log, new.log)
    copied(pair.store, new.store)
    wall, used = time.perf_counter() - begin, resource.getrusage(resource.RUSAGE_SELF)
    return Run(wall, used.ru_utime - before.ru_utime, used.ru_stime - before.ru_stime, 0, 0)


def least(runs):
    """Each number of these runs at its least."""
    return Run(*map(min, zip(*runs)))


def removed(pair):
    for path in (pair.log, pair.store):
        if os.path.exists(path):
            os.remove(path)
