#!/usr/bin/env python3
"""Measures how fast `aries` recovers and audits, what memory that takes, and how both grow with the log.

usage: speed.py [--before PROGRAM] PROGRAM [--folder DIR] [--runs N] [--quick]

PROGRAM    the program to measure
--before   another one to set beside it; the two run in turn, and have to write the same bytes
--folder   where the files stand while it runs (else in memory, in /dev/shm, where there is that, so that no disk is
           measured); a folder of its own is made there and removed at the end; some 3 GB, with --quick 350 MB
--runs     how often each case is run, 5 if not said; at 1 GB three times at most; each number is the least of its runs
--quick    leave out the logs of 1 GB

Each log is audited once with its store, and once more as recovered; the first run of each program and count of workers
has to write the same bytes. Where that is not so, or a program fails, a line says so and the status is 1.
"""
import argparse
import filecmp
import os
import platform
import subprocess
import sys
import tempfile
import time
from collections import namedtuple

sys.dont_write_bytecode = True  # no folder of it beside the scripts
from runs import Failure, copy_run, least, removed, run

LOGS = os.path.join(os.path.dirname(os.path.abspath(__file__)), "logs.py")
LENGTHS, LONGEST = ["1M", "10M", "100M"], "1G"
SHAPES, WORKERS = ["fresh", "ckpt90"], [1, 4]
SHORT, PENDING, LOSERS = "2M", "500K", [1, 4]
PAPER, TRUE = 10**9, "/bin/true"
# Has the C library ask for huge pages, for the programs that it starts.
HUGE = ["/usr/bin/env", "GLIBC_TUNABLES=glibc.malloc.hugetlb=1"]
# A log and its store; `size` is the word that the log was made by.
Pair = namedtuple("Pair", "shape size log store records bytes")
# What was measured of a pair: runs by name, of the programs and of the copy.
Case = namedtuple("Case", "pair workers runs")


def say(text):
    print(f"{time.strftime('%H:%M:%S')} {text}", file=sys.stderr, flush=True)


class Bench:
    """The programs by name, each the words that start it; how often each case is run; and a folder for the files."""

    def __init__(self, programs, runs, folder):
        self.programs, self.runs, self.folder = programs, runs, folder

    def at(self, name):
        return os.path.join(self.folder, name)

    def made(self, shape, size, losers=1):
        """A new log and its store, which the last program finds lawful."""
        log, store = self.at("log"), self.at("store")
        say(f"{shape} {size}: makes the log")
        words = [sys.executable, LOGS, shape, size, log, store, "--losers", str(losers)]
        done = subprocess.run(words, stdout=subprocess.PIPE, text=True, check=True).stdout.split()
        pair = Pair(shape, size, log, store, int(done[1]), int(done[3]))
        self.audit(pair)
        return pair

    def audit(self, pair, name="after"):
        return run([*self.programs[name], "audit", "--log", pair.log, "--store", pair.store], b"lawful")

    def recover(self, name, pair, new, workers):
        words = [*self.programs[name], "recover", "--log", pair.log, "--store", pair.store]
        return run(words + ["--out-log", new.log, "--out-store", new.store, "--workers", str(workers)])

    def keep(self, name, new, whole):
        """Takes the first recovered pair, which has to be lawful, as what all others have to be."""
        if not os.path.exists(whole.log):
            os.rename(new.log, whole.log)
            os.rename(new.store, whole.store)
            self.audit(whole)
        elif not all(filecmp.cmp(*paths, shallow=False) for paths in ((new.log, whole.log), (new.store, whole.store))):
            raise Failure(f"{self.programs[name][-1]} recovers {new.shape} {new.size} to other bytes than the run before")

    def recoveries(self, pair, workers):
        """The least of the runs of each program, and of the copy, in turn; and the pair recovered."""
        runs = {name: [] for name in ("copy", *self.programs)}
        new = pair._replace(log=self.at("new-log"), store=self.at("new-store"))
        whole = pair._replace(log=self.at("whole-log"), store=self.at("whole-store"))
        for turn in range(self.turns(pair)):
            say(f"{pair.shape} {pair.size}: recovers, {workers} workers, run {turn + 1}")
            for name, of_name in runs.items():
                removed(new)
                of_name.append(copy_run(pair, new) if name == "copy" else self.recover(name, pair, new, workers))
                if turn == 0 and name != "copy":
                    self.keep(name, new, whole)
        removed(new)
        return Case(pair, workers, {name: least(of_name) for name, of_name in runs.items()}), whole

    def audits(self, pair):
        runs = {name: [] for name in self.programs}
        for turn in range(self.turns(pair)):
            say(f"{pair.shape} {pair.size}: audits what was recovered, run {turn + 1}")
            for name, of_name in runs.items():
                of_name.append(self.audit(pair, name))
        pair = pair._replace(bytes=os.path.getsize(pair.log))
        return Case(pair, 1, {name: least(of_name) for name, of_name in runs.items()})

    def turns(self, pair):
        return min(self.runs, 3) if pair.size == LONGEST else self.runs


# What is measured.

def measured(bench, sizes):
    """The recoveries of the two shapes, and the audits."""
    recoveries, audits = [], []
    for size in sizes:
        for shape in SHAPES:
            pair = bench.made(shape, size)
            for workers in WORKERS if size in LENGTHS else WORKERS[-1:]:
                case, whole = bench.recoveries(pair, workers)
                recoveries.append(case)
            if size == LENGTHS[-1]:
                audits.append(bench.audits(whole))
            removed(pair)
            removed(whole)
    return recoveries, audits


def measured_short(bench):
    pair = bench.made("short", SHORT)
    new = pair._replace(log=bench.at("whole-log"), store=bench.at("whole-store"))
    bench.recover("after", pair, new, WORKERS[-1])
    bench.audit(new)
    case = bench.audits(new)
    removed(pair)
    removed(new)
    return case


def measured_pending(bench):
    cases = []
    for losers in LOSERS:
        pair = bench.made("pending", PENDING, losers)
        case, whole = bench.recoveries(pair, WORKERS[-1])
        cases.append((losers, case))
        removed(pair)
        removed(whole)
    return cases


def measured_huge(bench):
    """Recoveries without huge pages and with them."""
    plain = bench.programs["after"]
    both = Bench({"before": plain, "after": [*HUGE, *plain]}, bench.runs, bench.folder)
    return measured(both, LENGTHS)[0]


# Tables. Their columns:

PLACE, COPIES = ["log", "shape", "workers"], ["copy s", "s / copy s"]
COMMON = ["s", "user s", "system s", "MB/s", "M records/s", "peak / log", "page faults"]
RATIOS = ["after / before, s", "after / before, peak"]


def beside(case, text_of):
    """A number of each program, before and after."""
    return " → ".join(text_of(used) for name, used in case.runs.items() if name != "copy")


def common(case):
    size, records = case.pair.bytes, case.pair.records
    return [
        beside(case, lambda used: f"{used.wall:.3f}"),
        beside(case, lambda used: f"{used.user:.3f}"),
        beside(case, lambda used: f"{used.system:.3f}"),
        beside(case, lambda used: f"{size / used.wall / 1e6:.0f}"),
        beside(case, lambda used: f"{records / used.wall / 1e6:.2f}"),
        beside(case, lambda used: f"{used.peak / size:.2f}"),
        beside(case, lambda used: f"{used.faults:,}"),
    ]


def ratios(case):
    if "before" not in case.runs:
        return ["", ""]
    before, after = case.runs["before"], case.runs["after"]
    return [f"{after.wall / before.wall:.2f}", f"{after.peak / before.peak:.2f}"]


def copies(case):
    """The seconds of the copy, and how many times these the programs take."""
    copy = case.runs["copy"].wall
    return [f"{copy:.3f}", beside(case, lambda used: f"{used.wall / copy:.2f}")]


def table(title, heads, rows):
    """A table of Markdown; a column in which nothing stands is left out."""
    kept = [at for at in range(len(heads)) if any(row[at] for row in rows)]
    lines = [[row[at] for at in kept] for row in [heads, ["---:"] * len(heads), *rows]]
    return "\n".join([f"### {title}", "", *("| " + " | ".join(line) + " |" for line in lines), ""])


def place(case):
    return [case.pair.size, case.pair.shape, str(case.workers)]


def recovery_table(title, cases):
    rows = [[*place(case), *common(case), *copies(case), *ratios(case)] for case in cases]
    return table(title, [*PLACE, *COMMON, *COPIES, *RATIOS], rows)


def audit_table(cases):
    rows = [[f"{case.pair.shape} {case.pair.size}", *common(case), *ratios(case)] for case in cases]
    return table("2. Audit of what was recovered", ["log", *COMMON, *RATIOS], rows)


def pending_table(cases):
    rows = [[PENDING, str(losers), *common(case), *ratios(case)] for losers, case in cases]
    return table("3. Recovery with updates to undo", ["updates", "losers", *COMMON, *RATIOS], rows)


def longest_table(cases):
    """The longest logs beside those of a tenth."""
    rows = []
    for case in (case for case in cases if case.pair.size == LONGEST):
        wanted = [LENGTHS[-1], *place(case)[1:]]
        tenth = next(other for other in cases if place(other) == wanted)
        times = [f"{used.wall / tenth.runs[name].wall:.1f}" for name, used in case.runs.items() if name != "copy"]
        rows.append([*place(case), *common(case), *copies(case), " → ".join(times), *ratios(case)])
    heads = [*PLACE, *COMMON, *COPIES, f"s / s of {LENGTHS[-1]}", *RATIOS]
    return table(f"4. {LONGEST}", heads, rows)


def on_paper(small, large, name):
    """What a log of so many records would take, if it grew on as from the one log to the other."""
    few, many = small.pair.records, large.pair.records

    def grown(number_of):
        slope = (number_of(large) - number_of(small)) / (many - few)
        return number_of(large) + slope * (PAPER - many)

    seconds, peak = grown(lambda case: case.runs[name].wall), grown(lambda case: case.runs[name].peak)
    text = grown(lambda case: case.pair.bytes)
    return f"{text / 1e9:.0f} GB of log, {seconds:.0f} s, {peak / 1e9:.0f} GB of memory at the peak"


def growth_table(cases, programs):
    grown = [case for case in cases if (case.pair.shape, case.workers) == (SHAPES[0], WORKERS[-1])]
    rows = []
    for case in grown:
        records = case.pair.records
        speed = beside(case, lambda used: f"{records / used.wall / 1e6:.2f}")
        rows.append([case.pair.size, f"{records:,}", speed, beside(case, lambda used: f"{used.peak / records:.1f}")])
    heads = ["log", "records", "M records/s", "peak bytes / record"]
    papers = " → ".join(on_paper(grown[-2], grown[-1], name) for name in programs)
    line = f"A log of {PAPER:,} records, on paper, from the two longest above: {papers}.\n"
    return "\n".join([table("5. Growth (fresh, four workers)", heads, rows), line])


# The machine, and the whole.

def machine(bench, options):
    """Where and how the numbers were taken."""
    lines = text_of("/proc/cpuinfo").splitlines()
    names = [line.partition(": ")[2] for line in lines if line.startswith("model name")] + [platform.machine()]
    memory = os.sysconf("SC_PAGE_SIZE") * os.sysconf("SC_PHYS_PAGES") / 1e9
    day, load, floor = time.strftime("%Y-%m-%d"), os.getloadavg()[0], run([TRUE]).peak / 1e6
    return (
        f"{day}; {names[0]}, {os.cpu_count()} processors, {memory:.0f} GB of memory; {platform.system()}"
        f" {platform.release()}; files in {file_system(bench.folder)}; least of {options.runs} runs; load {load:.1f} at"
        f" the start. A peak below {floor:.0f} MB cannot be measured.\n"
    )


def file_system(folder):
    """The kind of file system that a folder is in: that of the longest mount point above it."""
    mounts = [line.split()[1:3] for line in text_of("/proc/mounts").splitlines()]
    path = os.path.realpath(folder) + "/"
    above = [(len(at), kind) for at, kind in mounts if path.startswith(at.rstrip("/") + "/")]
    return max(above, default=(0, "an unknown file system"))[1]


def text_of(path):
    try:
        with open(path, encoding="utf-8") as file:
            return file.read()
    except OSError:
        return ""


def report(bench, options):
    begun = machine(bench, options)
    recoveries, audits = measured(bench, LENGTHS if options.quick else [*LENGTHS, LONGEST])
    audits.append(measured_short(bench))
    pending = measured_pending(bench)
    parts = [begun, recovery_table("1. Recovery", [case for case in recoveries if case.pair.size in LENGTHS])]
    parts += [audit_table(audits), pending_table(pending)]
    parts += [] if options.quick else [longest_table(recoveries)]
    parts += [growth_table(recoveries, bench.programs)]
    return "\n".join([*parts, recovery_table("6. Recovery without huge pages → with them", measured_huge(bench))])


def options_of_the_line():
    parser = argparse.ArgumentParser(description=__doc__, formatter_class=argparse.RawDescriptionHelpFormatter)
    parser.add_argument("--before", metavar="PROGRAM")
    parser.add_argument("program", metavar="PROGRAM")
    parser.add_argument("--folder", metavar="DIR", default="/dev/shm" if os.access("/dev/shm", os.W_OK) else None)
    parser.add_argument("--runs", type=int, default=5, metavar="N")
    parser.add_argument("--quick", action="store_true")
    options = parser.parse_args()
    if options.runs < 1:
        parser.error("--runs: at least 1")
    return options


def main():
    options = options_of_the_line()
    programs = {"before": options.before, "after": options.program}
    programs = {name: [os.path.abspath(path)] for name, path in programs.items() if path}
    try:
        with tempfile.TemporaryDirectory(prefix="aries-speed-", dir=options.folder) as folder:
            text = report(Bench(programs, options.runs, folder), options)
        print(text)
    except (Failure, OSError, subprocess.CalledProcessError) as failure:
        sys.exit(f"speed.py: {failure}")


if __name__ == "__main__":
    main()
