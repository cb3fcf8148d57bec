#!/usr/bin/env python3
"""Times audits of logs of short transactions, by the numbers that the transactions have.

usage: bench/audit.py [--program FILE] [--other FILE] [--turns N]

--program  the program that audits, crates/times/out/times if not said; `rt run` in crates/times builds it
--other    the same program of another commit, by which the times are divided
--turns    how often each run is done, 7 if not said

A log has 200,000 transactions or 2,000,000, each with an update and a commit, 64 at a time. Their numbers are in order, multiples
of one number, or at random. Each run makes the log and audits it once, or three times; half of the difference is the time for an
audit, with the reading of the log. All take turns. Printed are the least of the times and the median, in ms; and with another
program how many times as long as its audit this one takes, by the least times and as the median of neighbours. Stop what else runs
first.
"""
import argparse
import os
import statistics
import sys

sys.dont_write_bytecode = True  # no folder of it beside the scripts
from runs import Failure, run

PROGRAM = os.path.join(os.path.dirname(os.path.dirname(os.path.abspath(__file__))), "crates/times/out/times")
SIZES = (200_000, 2_000_000)
NUMBERINGS = {"in order": 0, "multiples": 1, "at random": 2}
ONCE, OFTEN = 1, 3


def seconds_of(program, transactions, numbering):
    """The seconds of an audit."""
    walls = []
    for audits in (ONCE, OFTEN):
        said = f"audit {transactions} {numbering} {audits}: ".encode()
        walls.append(run([program, "audit", str(transactions), str(numbering), str(audits)], said).wall)
    return (walls[1] - walls[0]) / (OFTEN - ONCE)


def timed(programs, turns):
    """The seconds of each audit, by size, numbering and program."""
    times = {(size, name): {program: [] for program in programs} for size in SIZES for name in NUMBERINGS}
    for _ in range(turns):
        for (size, name), by_program in times.items():
            for program, seconds in by_program.items():
                seconds.append(seconds_of(program, size, NUMBERINGS[name]))
    return times


def line_of(size, name, by_program):
    own, *others = by_program.values()
    line = f"{size:>9} {name:<10} {min(own) * 1e3:8.1f} {statistics.median(own) * 1e3:8.1f}"
    for other in others:
        ratios = [mine / its for mine, its in zip(own, other)]
        line += f" {min(own) / min(other):6.2f} {statistics.median(ratios):6.2f}"
    return line


def options_of_the_line():
    parser = argparse.ArgumentParser(description=__doc__, formatter_class=argparse.RawDescriptionHelpFormatter)
    parser.add_argument("--program", default=PROGRAM, metavar="FILE")
    parser.add_argument("--other", metavar="FILE")
    parser.add_argument("--turns", type=int, default=7, metavar="N")
    options = parser.parse_args()
    if options.turns < 1:
        parser.error("--turns: at least 1")
    for program in filter(None, (options.program, options.other)):
        if not os.path.exists(program):
            parser.error(f"{program} is missing: `rt run` in crates/times builds it")
    return options


def main():
    options = options_of_the_line()
    programs = [os.path.abspath(program) for program in (options.program, options.other) if program]
    try:
        times = timed(programs, options.turns)
    except Failure as failure:
        sys.exit(f"audit.py: {failure}")
    for (size, name), by_program in times.items():
        print(line_of(size, name, by_program))


if __name__ == "__main__":
    main()
