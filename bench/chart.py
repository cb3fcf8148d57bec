#!/usr/bin/env python3
"""Measures what a user waits for, and writes it into docs/SPEED.md, as a table and as the chart docs/speed.svg.

usage: chart.py PROGRAM FOLDER [--engines FILE] [--sizes 1M,10M,100M,1G] [--runs N]

FOLDER is made on the disk that is measured. For each size a log of the shape `fresh` (bench/logs.py) and its store of 4 MB are made once.
Then, by turns: the log is recovered in place; it is recovered into new files; and both files are copied. Before each run the inputs are
copied and synced. Times are medians, from the start of a process to its end, with everything synced. FILE has what bench/engines.py
prints.
"""
import argparse
import math
import os
import re
import shutil
import statistics
import subprocess
import sys
import time

HERE = os.path.dirname(os.path.abspath(__file__))
TOP = os.path.dirname(HERE)
DOCUMENT, CHART = os.path.join(TOP, "docs/SPEED.md"), os.path.join(TOP, "docs/speed.svg")
MARKS = ("<!-- chart: begin -->", "<!-- chart: end -->")
UNITS = {"M": 10**6, "G": 10**9}
WAYS = ("in place", "into new files", "copy of both files")
COLORS = {"in place": "#1a7f37", "into new files": "#0969da", "copy of both files": "#8c959f", "other engines": "#cf222e"}
RUNS = {"1M": 15, "10M": 11, "100M": 7, "1G": 3}


def run_timed(words):
    """Seconds and peak memory in MB of a process."""
    begin = time.monotonic()
    process = subprocess.Popen(words, stdout=subprocess.DEVNULL)
    _, status, usage = os.wait4(process.pid, 0)
    seconds = time.monotonic() - begin
    if status != 0:
        sys.exit(f"{' '.join(words)}: status {status}")
    return seconds, usage.ru_maxrss / 1000


def copy_synced(sources, targets):
    for source, target in zip(sources, targets):
        shutil.copyfile(source, target)
        with open(target, "rb+") as file:
            os.fsync(file.fileno())


def turn(program, way, folder, log, store):
    """One run of a way on fresh copies of the inputs."""
    names = [os.path.join(folder, name) for name in ("log", "store", "out-log", "out-store")]
    for name in names:
        if os.path.exists(name):
            os.remove(name)
    copy_synced((log, store), names[:2])
    if way == "copy of both files":
        begin = time.monotonic()
        copy_synced(names[:2], names[2:])
        return time.monotonic() - begin, 0.0
    words = [program, "recover", "--log", names[0], "--store", names[1], "--out-store", names[3]]
    return run_timed(words + (["--in-place"] if way == "in place" else ["--out-log", names[2]]))


def measure(program, folder, size, runs):
    """The median time and peak of each way."""
    log, store = os.path.join(folder, "made-log"), os.path.join(folder, "made-store")
    made = subprocess.run([sys.executable, os.path.join(HERE, "logs.py"), "fresh", size, log, store], check=True, capture_output=True, text=True)
    found = {way: [] for way in WAYS}
    for _ in range(runs):
        for way in WAYS:
            found[way].append(turn(program, way, folder, log, store))
    medians = {way: (statistics.median(s for s, _ in each), statistics.median(p for _, p in each)) for way, each in found.items()}
    return int(re.search(r"records (\d+)", made.stdout)[1]), medians


def engines_in(path):
    """The engines of a file that bench/engines.py printed: the name, what was recovered, and the seconds."""
    found = []
    for line in open(path, encoding="utf-8") if path else []:
        name, _, rest = line.strip().partition(": ")
        what, _, seconds = rest.partition(": ")
        found.append((name, what, [float(number) for number in re.findall(r"([\d.]+) s", seconds)]))
    return found


def in_seconds(seconds):
    return f"{seconds:.3f}" if seconds < 0.1 else f"{seconds:.2f}"


def table(results, engines):
    lines = ["| log | records | in place, s | MB/s | peak MB | into new files, s | MB/s | peak MB | copy of both files, s |", "|---|---:|---:|---:|---:|---:|---:|---:|---:|"]
    for size, (records, medians) in results.items():
        megabytes = int(size[:-1]) * UNITS[size[-1]] / 1e6
        cells = [f"{size[:-1]} {size[-1]}B", f"{records:,}"]
        for way in WAYS[:2]:
            seconds, peak = medians[way]
            cells += [in_seconds(seconds), f"{megabytes / seconds:,.0f}", f"{peak:.0f}"]
        lines.append(f"| {' | '.join([*cells, in_seconds(medians[WAYS[2]][0])])} |")
    if engines:
        lines += ["", "| other engines | log | s |", "|---|---|---:|"]
        for name, what, seconds in engines:
            names = (f"{name}, redo", f"{name}, until it accepts work") if len(seconds) == 2 else (name,)
            lines += [f"| {each} | {what} | {second:.2f} |" for each, second in zip(names, seconds)]
    return "\n".join(lines)


def chart(results, engines):
    """Dots on a logarithmic axis, a row for each size and way."""
    rows = [(f"{size[:-1]} {size[-1]}B", way, way, medians[way][0]) for size, (_, medians) in results.items() for way in WAYS]
    for name, what, seconds in engines:
        rows += [(what.partition(",")[0], f"{name}{', redo' if len(seconds) == 2 else ''}", "other engines", seconds[0])]
    left, width, height, top = 250, 800, 18, 30
    low, high = 0.005, 10.0
    full = top + height * len(rows) + 40

    def x(seconds):
        return left + (width - left - 70) * (math.log10(seconds) - math.log10(low)) / (math.log10(high) - math.log10(low))
    parts = [f'<svg xmlns="http://www.w3.org/2000/svg" width="{width}" height="{full}" font-family="sans-serif" font-size="12">',
             '<rect width="100%" height="100%" fill="white"/>', '<text x="10" y="18" font-weight="bold">Seconds until a log is recovered (logarithmic)</text>']
    for mark in (0.01, 0.1, 1, 10):
        parts.append(f'<line x1="{x(mark):.0f}" y1="{top}" x2="{x(mark):.0f}" y2="{full - 30}" stroke="#d0d7de"/>'
                     f'<text x="{x(mark):.0f}" y="{full - 14}" text-anchor="middle">{mark:g}</text>')
    before = None
    for place, (size, name, kind, seconds) in enumerate(rows):
        y = top + height * place + 12
        label = size if size != before else ""
        before = size
        parts.append(f'<text x="10" y="{y + 4}" font-weight="bold">{label}</text><text x="{left - 10}" y="{y + 4}" text-anchor="end">{name}</text>'
                     f'<circle cx="{x(seconds):.1f}" cy="{y}" r="5" fill="{COLORS[kind]}"/><text x="{x(seconds) + 9:.1f}" y="{y + 4}">{in_seconds(seconds)}</text>')
    return "\n".join([*parts, "</svg>", ""])


def main():
    options = argparse.ArgumentParser(description=__doc__, formatter_class=argparse.RawDescriptionHelpFormatter)
    options.add_argument("program")
    options.add_argument("folder")
    options.add_argument("--engines")
    options.add_argument("--sizes", default="1M,10M,100M,1G")
    options.add_argument("--runs", type=int)
    given = options.parse_args()
    os.makedirs(given.folder, exist_ok=True)
    program = os.path.abspath(given.program)
    results = {size: measure(program, given.folder, size, given.runs or RUNS.get(size, 3)) for size in given.sizes.split(",")}
    engines = engines_in(given.engines)
    with open(CHART, "w", encoding="utf-8") as file:
        file.write(chart(results, engines))
    with open(DOCUMENT, encoding="utf-8") as file:
        before, _, rest = file.read().partition(MARKS[0])
    with open(DOCUMENT, "w", encoding="utf-8") as file:
        file.write(f"{before}{MARKS[0]}\n\n{table(results, engines)}\n\n{MARKS[1]}{rest.partition(MARKS[1])[2]}")
    print(table(results, engines))


if __name__ == "__main__":
    main()
