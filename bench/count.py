#!/usr/bin/env python3
"""Counts the instructions that runs of the workloads take, and compares them with those kept in instructions.txt.

usage: bench/count.py [--keep] [--program FILE] [--aries FILE] [JOB..]

The runs are the small ones of crates/workloads/stdout, the LARGER ones below, and the recoveries of FILES by `aries`;
or those of each JOB. Each is run under `valgrind --tool=callgrind`. What the program's own functions take counts; what
the C library takes does not, since its copies differ from processor to processor. So a request for memory, which the
library serves, counts as much as it takes there, about. A run fails that takes more than 3 % above what is kept, and
prints the ten functions that grew most. One that takes more than 3 % below asks for its count to be kept: --keep does
that, for the runs that are counted. The status is 1 where a run fails. Where valgrind is missing nothing is counted,
which fails where CI is set in the environment.
"""
import argparse
import concurrent.futures
import os
import re
import shutil
import subprocess
import sys
import tempfile

HERE = os.path.dirname(os.path.abspath(__file__))
CRATE = os.path.join(os.path.dirname(HERE), "crates/workloads")
KEPT = os.path.join(HERE, "instructions.txt")
LOGS = os.path.join(HERE, "logs.py")
ALLOWED = 0.03  # what a count may differ from the one kept
SHARE = 0.01  # a function with a smaller share of its run is not kept
AT_ONCE = 4
REQUEST = 200  # the instructions that count for a request for memory, and what is asked through
ASKED_THROUGH = ("rattle_alloc", "rattle_realloc")
# Of a small run the pages of its stores take most, so that little is seen of what a record takes. These are the longest
# first, so that no processor waits for them at the end.
LARGER = {"mixed": 500_000, "rollback": 20_000, "recover": 1_000_000, "dump": 1_000_000, "audit": 1_000_000, "write": 200_000}

# A recovery of files: the shape and the size of the log that logs.py makes, where the new log goes, and how many workers there are if more than one.
FILES = ["files fresh 1M in-place", "files fresh 10M in-place", "files ckpt90 10M in-place", "files fresh 10M copied", "files fresh 10M in-place-by-4"]
HOW = {
    "in-place": ["--in-place", "--replace", "--workers", "1"],
    "copied": ["--out-log", "new-log", "--out-store", "new-store", "--workers", "1"],
    "in-place-by-4": ["--in-place", "--replace", "--workers", "4"],
}


def lines_of(path):
    with open(path, encoding="utf-8") as file:
        return file.read().splitlines()


def small_runs():
    """The lines that the program's `all` prints: a job, its size and its digest."""
    return dict(line.split(": ") for line in lines_of(os.path.join(CRATE, "stdout")))


def runs():
    """The runs, each a job and its size, or a recovery of files."""
    return [f"{job} {size}" for job, size in LARGER.items()] + FILES + list(small_runs())


def seed():
    return lines_of(os.path.join(CRATE, "args"))[1]


# What callgrind writes: https://valgrind.org/docs/manual/cl-format.html

class Names:
    """Names, each of which stands with its number where it first occurs, and by the number alone from then on."""

    def __init__(self):
        self.by_number = {}

    def name(self, text):
        number, _, name = text.partition(" ")
        if name:
            self.by_number[number] = name
        return self.by_number[number]


def own_costs(path, program):
    """What each function of the program takes by itself. Instances of one function count together: what is in `<#..>` changes with any of their types."""
    objects, functions, costs = Names(), Names(), {}

    def add(name, cost):
        costs[name] = costs.get(name, 0) + cost

    is_own, function, called, is_call = False, None, None, False
    for line in lines_of(path):
        key, equals, text = line.partition("=")
        if key == "ob":
            is_own = objects.name(text) == program
        elif key == "cob":
            objects.name(text)
        elif key == "fn":
            function = re.sub(r"(::)?<#\w+>", "", functions.name(text))
        elif key == "cfn":
            called = functions.name(text)
        elif key == "calls":
            is_call = True
            if called in ASKED_THROUGH:
                add("requests for memory", REQUEST * int(text.split()[0]))
        elif not equals and line[:1] in "0123456789+-*" and line:
            if is_own and not is_call:
                add(function, int(line.split()[1]))
            is_call = False
    return costs


def counted(program, run):
    """What the program's functions take in a run, and what is wrong with it: a small one prints what `all` prints of it."""
    with tempfile.TemporaryDirectory(prefix="aries-count-") as room:
        out = os.path.join(room, "out")
        words = ["valgrind", "--tool=callgrind", f"--callgrind-out-file={out}", program, *run.split(), seed()]
        ran = subprocess.run(words, capture_output=True, text=True, cwd=room)
        printed, _, digest = ran.stdout.strip().partition(": ")
        if ran.returncode != 0 or printed != run or digest != small_runs().get(run, digest):
            return {}, f"status {ran.returncode}, {ran.stdout!r}, {ran.stderr[-1000:]}"
        return own_costs(out, program), None


def counted_on_files(program, run):
    """What the program's functions take in a recovery of files, and what is wrong with it."""
    _, shape, size, how = run.split()
    with tempfile.TemporaryDirectory(prefix="aries-count-") as room:
        subprocess.run([sys.executable, LOGS, shape, size, "log", "store"], check=True, stdout=subprocess.DEVNULL, cwd=room)
        out = os.path.join(room, "out")
        words = ["valgrind", "--tool=callgrind", f"--callgrind-out-file={out}", program]
        words += ["recover", "--log", "log", "--store", "store", *HOW[how]]
        ran = subprocess.run(words, capture_output=True, text=True, cwd=room)
        if ran.returncode != 0 or not ran.stdout.startswith("records "):
            return {}, f"status {ran.returncode}, {ran.stdout!r}, {ran.stderr[-1000:]}"
        return own_costs(out, program), None


# What is kept: a line for each run, and below it one for each of its functions that takes much of it.

def kept_counts():
    kept, run = {}, None
    for line in lines_of(KEPT) if os.path.exists(KEPT) else []:
        name, count = line.strip().rsplit(" ", 1)
        if line.startswith(" "):
            kept[run][1][name] = int(count)
        else:
            run = name
            kept[run] = (int(count), {})
    return kept


def keep(kept):
    with open(KEPT, "w", encoding="utf-8") as file:
        for run, (total, costs) in kept.items():
            file.write(f"{run} {total}\n")
            for name, cost in sorted(costs.items(), key=lambda entry: (-entry[1], entry[0])):
                if cost >= SHARE * total:
                    file.write(f"  {name} {cost}\n")


def print_grown(total, kept, costs):
    """Prints the ten functions that grew most. Of one that is not kept it is known that it took less than a share of its run."""
    most = int(SHARE * total)
    grown = sorted(((cost - kept.get(name, most), name) for name, cost in costs.items()), reverse=True)
    for more, name in [entry for entry in grown[:10] if entry[0] > 0]:
        before = kept.get(name, f"below {most}")
        print(f"  {name}: {before} kept, {costs[name]} now, {more:+}")


def compare(run, costs, kept):
    """Prints how a run compares with what is kept. Returns whether that is well."""
    total = sum(costs.values())
    if run not in kept:
        print(f"{run}: {total}, and none is kept: FAILED, `bench/count.py --keep` keeps it")
        return False
    before, functions = kept[run]
    ratio = total / before
    is_well = ratio <= 1 + ALLOWED
    asks = ": KEEP this lower count by `bench/count.py --keep`" if ratio < 1 - ALLOWED else ""
    print(f"{run}: {before} kept, {total} now, {ratio - 1:+.2%}{asks}{'' if is_well else ': FAILED'}")
    if not is_well:
        print_grown(before, functions, costs)
    return is_well


def count_all(asked):
    """What each of these runs takes. They run side by side, since their counts do not depend on one another."""
    def count(run):
        return counted_on_files(os.path.realpath(asked.aries), run) if run in FILES else counted(os.path.realpath(asked.program), run)

    with concurrent.futures.ThreadPoolExecutor(AT_ONCE) as pool:
        return dict(zip(asked.runs, pool.map(count, asked.runs)))


def options():
    parser = argparse.ArgumentParser(usage=__doc__.split("usage: ")[1].splitlines()[0], add_help=False)
    parser.add_argument("--keep", action="store_true")
    parser.add_argument("--program", default=os.path.join(CRATE, "out/workloads"))
    parser.add_argument("--aries", default=os.path.join(os.path.dirname(HERE), "crates/aries_cli/out/aries_cli"))
    parser.add_argument("jobs", nargs="*")
    asked = parser.parse_args()
    asked.runs = [run for run in runs() if not asked.jobs or run.split()[0] in asked.jobs]
    return asked


def main():
    asked = options()
    if not shutil.which("valgrind"):
        print("skipped: valgrind is missing, so no instruction is counted")
        sys.exit(1 if os.environ.get("CI") else 0)
    for program in (asked.program, asked.aries):
        if not os.path.exists(program):
            sys.exit(f"{program} is missing: `rt ci` builds it, or `rt run` in the folder of its crate")
    kept, is_well = kept_counts(), True
    for run, (costs, wrong) in count_all(asked).items():
        if wrong:
            print(f"{run}: FAILED ({wrong})")
            is_well = False
        elif asked.keep:
            kept[run] = (sum(costs.values()), costs)
            print(f"{run}: {kept[run][0]} kept")
        else:
            is_well = compare(run, costs, kept) and is_well
    if asked.keep and is_well:
        keep({run: kept[run] for run in runs() if run in kept})
    sys.exit(0 if is_well else 1)


if __name__ == "__main__":
    main()
