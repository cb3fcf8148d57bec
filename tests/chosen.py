"""Whether an audit takes about as long on transaction numbers that somebody chose to meet in its tables as on other numbers. It counts
instructions, which depend on nothing else that runs."""
import os
import re
import shutil

from program import ARIES, TOP, run

COUNT = 20_000
MOST = 4.0  # times the instructions on spread numbers
STORE = b"ARIESPG1" + (1).to_bytes(4, "big") + bytes(12) + bytes(1024)


def instructions_of(log, store):
    ran = run(["valgrind", "--tool=callgrind", "--callgrind-out-file=/dev/null", ARIES, "audit", "--log", log, "--store", store], text=True)
    found = re.search(r"Collected : (\d+)", ran.stderr)
    return ran.returncode, int(found[1]) if found else 0


def check_chosen(tally, room):
    if not shutil.which("valgrind") and not os.environ.get("CI"):
        return tally.skip("instructions of an audit", "since valgrind is missing")
    maker, store = os.path.join(room, "choose_numbers"), os.path.join(room, "chosen-store")
    run(["cc", "-O2", "-o", maker, os.path.join(TOP, "tests/choose_numbers.c")], check=True)
    with open(store, "wb") as file:
        file.write(STORE)
    counts = {}
    for kind in ("spread", "index", "map", "places"):
        log = os.path.join(room, f"chosen-{kind}")
        with open(log, "wb") as file:
            file.write(run([maker, str(COUNT), kind], check=True).stdout)
        status, counts[kind] = instructions_of(log, store)
        tally.say(f"an audit of {COUNT} transactions, {kind}", status == 0 and 0 < counts[kind] <= MOST * counts["spread"],
                  f"status {status}, {counts[kind]} instructions, {counts['spread']} on spread numbers")
