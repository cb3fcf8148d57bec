#!/usr/bin/env python3
"""Proves and builds the crates with the limits of another profile.

usage: profiles/build.py NAME           proves all crates of the programs and of the C library, builds them, and tests them
       profiles/build.py NAME CRATE..   proves these crates, and those that they use

The tracked files are copied to out/NAME; what an earlier run proved there is kept. The profile, `profiles/NAME.profile`, takes the place of
`crates/page/src/profile.rt`, and `profiles/NAME.page_numbers` and `profiles/NAME.wal_numbers` take that of the definitions `specs/Numbers.antt` of
`page` and `wal`, which say what the numbers are; nothing else is changed. The header of the C library with the sizes of the profile is made in
out/NAME/include. The tests are the worked rows with the magics and the pages of the profile, and the bank, which is killed. The last line
says which crates are proved; the status is 1 if one is not, or if a test fails.
"""
import os
import re
import shutil
import subprocess
import sys

sys.dont_write_bytecode = True  # no folder of it beside the scripts
from row_files import PROFILE, TOP, number_in, wrong_rows

PROGRAMS = ("aries_cli", "aries_dump")
ROW_RUNNER, LIBRARY = "row_files", "aries_c"
KILLS = 300  # of the bank
# The files that a profile replaces, and the ending of what it puts there.
REPLACED = {PROFILE: "profile", "crates/page/specs/Numbers.antt": "page_numbers", "crates/wal/specs/Numbers.antt": "wal_numbers"}
HEADER = "include/aries.h"
# The sizes that the header has, by their names in a profile. It makes its other sizes of these.
SIZES = ("PAGES", "SLOTS", "PAGE_BYTES", "VALUE_BYTES", "TRANSACTIONS")


def header_of(profile, header):
    """The header of the C library with the sizes of a profile: both are texts."""
    for name in SIZES:
        header, count = re.subn(rf"(\bARIES_{name} = )\d+", rf"\g<1>{number_in(profile, name)}", header)
        if count != 1:
            raise ValueError(f"ARIES_{name} is {count} times in the header")
    return header


def crates_below(names):
    """These crates and those that they use, each after those that it uses."""
    with open(os.path.join(TOP, "crates.txt"), encoding="utf-8") as file:
        lines = [line.split(":") for line in file if not line.startswith("#") and ":" in line]
    uses = {head.split()[0]: below.split() for head, below in lines}
    ordered = []

    def add(name):
        if name in uses and name not in ordered:
            for below in uses[name]:
                add(below)
            ordered.append(name)

    for name in names:
        add(name)
    return ordered


def copy_to(folder, name):
    """Copies what differs, so that a later run proves only that again."""
    tracked = subprocess.run(["git", "ls-files", "-z", "crates", "crates.txt", "HANDLES"], cwd=TOP, capture_output=True, check=True, text=True)
    for path in filter(None, tracked.stdout.split("\0")):
        source = os.path.join(TOP, f"profiles/{name}.{REPLACED[path]}" if path in REPLACED else path)
        target = os.path.join(folder, path)
        with open(source, "rb") as file:
            text = file.read()
        if os.path.exists(target):
            with open(target, "rb") as file:
                if file.read() == text:
                    continue
        os.makedirs(os.path.dirname(target), exist_ok=True)
        shutil.copyfile(source, target)


def make_header(folder, profile):
    """The header with the sizes of the profile."""
    with open(profile, encoding="utf-8") as file, open(os.path.join(TOP, HEADER), encoding="utf-8") as header:
        text = header_of(file.read(), header.read())
    os.makedirs(os.path.join(folder, "include"), exist_ok=True)
    with open(os.path.join(folder, HEADER), "w", encoding="utf-8") as file:
        file.write(text)


def is_proved(folder, crate):
    ran = subprocess.run(["rt", "check"], cwd=os.path.join(folder, "crates", crate), capture_output=True, text=True)
    says = (ran.stdout + ran.stderr).strip().split("\n")
    proved = ran.returncode == 0 and any(line.startswith("logic=proved") for line in says)
    print(f"{crate}: {'proved' if proved else 'NOT PROVED'}", flush=True)
    if not proved:
        print("\n".join(line for line in says if "error" in line or "not proved" in line), flush=True)
    return proved


def are_rows_right(name, folder):
    """Builds the program that runs the rows, and runs it on those of the profile."""
    crate = os.path.join(folder, "crates", ROW_RUNNER)
    # The status is that of the program, for which the rows beside its source are of another profile.
    subprocess.run(["rt", "run"], cwd=crate, stdout=subprocess.DEVNULL)
    count, wrong = wrong_rows(os.path.join(crate, "out", ROW_RUNNER), os.path.join(folder, "rows"), f"profiles/{name}.profile")
    print(f"rows: {count - len(wrong)} of {count} as they are to be", *wrong[:20], sep="\n", flush=True)
    return not wrong


def is_bank_right(folder):
    """Builds the bank over the library and the header of the profile, and kills it."""
    subprocess.run(["rt", "lib"], cwd=os.path.join(folder, "crates", LIBRARY), check=True)
    bank, bindings = os.path.join(TOP, "examples/bank"), os.path.join(TOP, "bindings/c")
    sources = [os.path.join(bank, file) for file in sorted(os.listdir(bank)) if file.endswith(".c")]
    sources += [os.path.join(bindings, file) for file in ("aries_files.c", "heap.c")]
    program, archive = os.path.join(folder, "bank"), os.path.join(folder, f"crates/{LIBRARY}/out/lib{LIBRARY}.a")
    words = ["-std=c11", "-D_POSIX_C_SOURCE=200809L", "-O2", "-I", os.path.join(folder, "include"), "-I", bindings]
    subprocess.run(["cc", *words, "-o", program, *sources, archive], check=True)
    aries = os.path.join(folder, "crates/aries_cli/out/aries_cli")
    return subprocess.run([sys.executable, os.path.join(bank, "drive.py"), "--kills", str(KILLS), "--aries", aries, program]).returncode == 0


def main():
    if len(sys.argv) < 2:
        sys.exit(__doc__)
    name, wanted = sys.argv[1], sys.argv[2:]
    profile = os.path.join(TOP, "profiles", f"{name}.profile")
    folder = os.path.join(TOP, "out", name)
    copy_to(folder, name)
    make_header(folder, profile)
    crates = crates_below(wanted or [*PROGRAMS, ROW_RUNNER, LIBRARY])
    proved = []
    for crate in crates:
        if not is_proved(folder, crate):
            sys.exit(f"{len(proved)} of {len(crates)} crates are proved with the profile {name}: {' '.join(proved)}")
        proved.append(crate)
    is_well = True
    if not wanted:
        for program in PROGRAMS:
            subprocess.run(["rt", "run", "--", "--version"], cwd=os.path.join(folder, "crates", program), check=True)
        is_well = are_rows_right(name, folder) & is_bank_right(folder)
    print(f"all {len(crates)} crates are proved with the profile {name}: {' '.join(proved)}")
    sys.exit(0 if is_well else "a test failed")


if __name__ == "__main__":
    main()
