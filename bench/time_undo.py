#!/usr/bin/env python3
"""Times the undo of a million records with 1,000, 10,000 and 50,000 losers of ten updates each, on 4,096 pages.

usage: time_undo.py PROGRAM

Each line has the seconds of processor time, of all threads, that `aries recover` takes on a log with losers and on the same
log where they commit, each the least of three runs; their difference; and the difference for each update undone.
"""
import os
import resource
import subprocess
import sys
import tempfile

MAKER = os.path.join(os.path.dirname(os.path.abspath(__file__)), "make_undo_log.py")
RECORDS, PAGES, UPDATES, SEED = 1_000_000, 4_096, 10, 7


def spent():
    """The seconds of processor time of all processes that have ended."""
    return resource.getrusage(resource.RUSAGE_CHILDREN).ru_utime


def seconds_of(program, folder):
    """The seconds of one recovery of the folder's files, and the count of CLRs that it reports."""
    new = [os.path.join(folder, name) for name in ("new-log", "new-store")]
    files = ["--log", folder + "/log", "--store", folder + "/store", "--out-log", new[0], "--out-store", new[1]]
    begin = spent()
    done = subprocess.run([program, "recover", *files], capture_output=True, check=True, text=True)
    seconds = spent() - begin
    for path in new:
        os.remove(path)
    return seconds, int(dict(line.split() for line in done.stdout.splitlines())["compensated"])


def best_of(program, losers, more):
    """The least seconds of three recoveries, and the count of CLRs."""
    with tempfile.TemporaryDirectory() as folder:
        numbers = [str(number) for number in (RECORDS, PAGES, losers, UPDATES, SEED)]
        subprocess.run([sys.executable, MAKER, *numbers, folder + "/log", folder + "/store", *more], check=True)
        return min(seconds_of(program, folder) for _ in range(3))


def main():
    print("losers  undone  with-losers  all-commit  difference  us-per-update")
    for losers in (1_000, 10_000, 50_000):
        undoing, undone = best_of(sys.argv[1], losers, [])
        committed, _ = best_of(sys.argv[1], losers, ["--commit"])
        apart = undoing - committed
        print(f"{losers:6} {undone:7} {undoing:12.3f} {committed:11.3f} {apart:11.3f} {apart / undone * 1e6:14.2f}")


main()
