#!/usr/bin/env python3
"""Times the journal: what an update takes with its share of a commit, with few pending updates and with many.

usage: bench/journal.py [--program FILE] [--turns N]

--program  the program that works, crates/times/out/times if not said; `rt run` in crates/times builds it
--turns    how often each run is done, 7 if not said

The program has 64 transactions which update cells of 4,096 pages in turn, 16 times each with values of 32 bytes, and commit. Before
that, one more transaction made 1,024 updates, or 65,536, and stays open: these are pending throughout. Each turn runs the program
with 2,000,000 updates and with 4,000,000. The difference of the two times, divided by 2,000,000, is the time for an update; what a
run does before its updates and after them is in both. Stop what else runs first.
"""
import argparse
import os
import statistics
import sys

sys.dont_write_bytecode = True  # no folder of it beside the scripts
from runs import Failure, run

PROGRAM = os.path.join(os.path.dirname(os.path.dirname(os.path.abspath(__file__))), "crates/times/out/times")
FEW, MANY = 2_000_000, 4_000_000
PENDING = (1_024, 65_536)


def seconds_of(program, updates, pending):
    """The seconds of a run, which has to say what it did."""
    return run([program, "journal", str(updates), str(pending)], f"journal {updates} {pending}: ".encode()).wall


def timed(program, turns):
    """The seconds of each run, by how many updates are pending and by size. All take turns."""
    times = {pending: {FEW: [], MANY: []} for pending in PENDING}
    for _ in range(turns):
        for pending, of_pending in times.items():
            for updates, of_size in of_pending.items():
                of_size.append(seconds_of(program, updates, pending))
    return times


def nanoseconds(times, chosen):
    """What an update takes, if this is chosen of the times of each size."""
    return (chosen(times[MANY]) - chosen(times[FEW])) / (MANY - FEW) * 1e9


def options_of_the_line():
    parser = argparse.ArgumentParser(description=__doc__, formatter_class=argparse.RawDescriptionHelpFormatter)
    parser.add_argument("--program", default=PROGRAM, metavar="FILE")
    parser.add_argument("--turns", type=int, default=7, metavar="N")
    options = parser.parse_args()
    if options.turns < 1:
        parser.error("--turns: at least 1")
    if not os.path.exists(options.program):
        parser.error(f"{options.program} is missing: `rt run` in crates/times builds it")
    return options


def main():
    options = options_of_the_line()
    try:
        times = timed(os.path.abspath(options.program), options.turns)
    except Failure as failure:
        sys.exit(f"journal.py: {failure}")
    print("| pending updates | best ns | median ns |")
    print("| ---: | ---: | ---: |")
    for pending, of_pending in times.items():
        print(f"| {pending:,} | {nanoseconds(of_pending, min):.0f} | {nanoseconds(of_pending, statistics.median):.0f} |")


if __name__ == "__main__":
    main()
