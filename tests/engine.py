#!/usr/bin/env python3
"""Kills an engine over the journal at random moments, or cuts the power, and recovers what is left by `aries recover --in-place`. Looks whether the log and the
store are lawful before and after, and whether each cell has the value that the engine's own lines say: the changes of all transactions that it acknowledged, and
of the one that it was about to decide either all or none.

usage: tests/engine.py [HISTORIES [SEED]]        at the top of the repository, when the programs are built

`tests/run.py` calls `check_engine`. The engine is the program `engine` (crates/engine), which says what its lines mean.
"""
import concurrent.futures
import os
import random
import signal
import subprocess
import sys
import tempfile
import time

sys.dont_write_bytecode = True  # no folder of it beside the tests
from program import ARIES, ENGINE, Tally, bytes_of, in_doubt, library_of, run

IN_MEMORY = "/dev/shm"  # where files are synced in no time
HISTORIES, LIVES, STEPS = 12, 10, 4000
LONGEST, MOST_CALLS = 0.03, 120  # the longest life in seconds, and in calls
# How an engine dies: after a time, at a call on the log or on the store, or at any call by a power cut. Only a write to the log is cut in the middle, since a page
# that is torn is not repaired.
DEATHS = ("time", "KILL_BEFORE log", "KILL_WITHIN log", "KILL_BEFORE store", "KILL_AFTER store", "power", "power", "power")
HEADER_BYTES, PAGE_BYTES = 24, 1024  # of a store
SYNCS, PLANTED = ("sync log/log", "sync store/store"), 4  # what the power cuts do not see then, and in how many histories
DONE = {"committed": "commit", "prepared": "prepare", "aborted": "abort"}


class Lost(Exception):
    """What is wrong after a kill."""


class Model:
    """What the engine's lines say: the cells that the committed transactions made, and the changes of each transaction in doubt."""

    def __init__(self, cells=(), doubtful=()):
        self.cells, self.doubtful = dict(cells), dict(doubtful)

    def decided(self, words):
        """The model after a decision, of which these are the words."""
        model, (decision, tx, *changes) = Model(self.cells, self.doubtful), words
        if decision == "prepare":
            model.doubtful[tx] = changes
        else:
            changes = model.doubtful.pop(tx, changes)
        if decision == "commit":
            model.cells.update(change.split("=") for change in changes)
        return model

    def seen(self):
        """The lines of the cells, and the transactions in doubt."""
        cells = dict(self.cells)
        for changes in self.doubtful.values():
            cells.update(change.split("=") for change in changes)
        return {f"{cell}={value}" for cell, value in cells.items() if value != "0"}, set(self.doubtful)


def models_after(model, printed):
    """The model of all that was acknowledged, and a second one with the decision that was not, if there is one. Also how many were acknowledged."""
    begun, count = None, 0
    for line in printed.splitlines(keepends=True):
        words = line.split()
        if not line.endswith("\n"):
            continue  # the engine was killed while it printed
        if words[0] in DONE:
            if begun is None or begun[:2] != [DONE[words[0]], words[1]]:
                raise Lost(f"the engine printed {line!r} after {begun}")
            model, begun, count = model.decided(begun), None, count + 1
        else:
            begun = words
    return [model] + ([model.decided(begun)] if begun else []), count


def after_power_cut(log, store, calls, dice):
    """What a power cut leaves of a log and a store, which were synced before these calls: the log up to any byte, with all that was synced; and each page, and the
    header of the store, as it was synced or as one of the writes after that made it."""
    synced = len(log)
    starts = [0, *range(HEADER_BYTES, len(store), PAGE_BYTES)]
    parts = {start: [store[start:end]] for start, end in zip(starts, [*starts[1:], len(store)])}
    for call in calls:
        word, file, *words = call.split()
        if (word, file) == ("write", "log/log"):
            log += bytes.fromhex(words[1])
        elif (word, file) == ("sync", "log/log"):
            synced = len(log)
        elif (word, file) == ("write", "store/store"):
            parts[int(words[0])].append(bytes.fromhex(words[1]))
        elif (word, file) == ("sync", "store/store"):
            parts = {start: versions[-1:] for start, versions in parts.items()}
    return log[:dice.randint(synced, len(log))], b"".join(dice.choice(versions) for versions in parts.values())


class History:
    """An engine that is killed and recovered again and again. The log and the store are in folders of their own, so that calls on one can be counted."""

    def __init__(self, seed, room, library, unseen=""):
        self.dice, self.room, self.library, self.unseen = random.Random(seed), room, library, unseen
        for name in ("log", "store"):
            os.mkdir(os.path.join(room, name))
        self.files = [os.path.join(room, name, name) for name in ("log", "store")]
        self.named = ["--log", self.files[0], "--store", self.files[1]]
        self.model, self.acknowledged, self.torn = Model(), 0, 0

    def done(self, what, words):
        ran = run(words, text=True)
        if ran.returncode != 0:
            raise Lost(f"{what}: {ran.stderr.strip()}")
        return ran.stdout

    def work(self, **settings):
        """Runs the engine, which may be killed. Returns what it printed."""
        words = [ENGINE, "work", *self.files, str(self.dice.randrange(1 << 32)), str(STEPS)]
        engine = subprocess.Popen(words, stdout=subprocess.PIPE, stderr=subprocess.PIPE, text=True, env={**os.environ, **settings})
        if not settings:
            time.sleep(self.dice.random() * LONGEST)
            engine.kill()
        printed, complaint = engine.communicate()
        if engine.returncode not in (0, -signal.SIGKILL):
            raise Lost(f"the engine ended with status {engine.returncode}: {complaint.strip()}")
        return printed

    def watched(self, folder, setting):
        """What kills the engine at a call on the files in a folder."""
        return {"LD_PRELOAD": self.library, "WATCHED": folder, setting: str(self.dice.randrange(1, MOST_CALLS))}

    def lose_power(self):
        """Runs the engine, and cuts the power. Returns what it printed."""
        before, notes = [bytes_of(file) for file in self.files], os.path.join(self.room, "calls")
        printed = self.work(CALLS=notes, **self.watched(self.room, "KILL_AFTER"))
        calls = [call for call in bytes_of(notes).decode().splitlines() if call != self.unseen]
        for file, left in zip(self.files, after_power_cut(*before, calls, self.dice)):
            with open(file, "wb") as out:
                out.write(left)
        if calls:
            os.remove(notes)
        return printed

    def die(self):
        """Runs the engine until it dies. Returns what it printed."""
        death = self.dice.choice(DEATHS)
        if death == "time":
            return self.work()
        if death == "power":
            return self.lose_power()
        setting, name = death.split()
        return self.work(**self.watched(os.path.join(self.room, name), setting))

    def check(self, models, report):
        """The model that the store and the report agree with."""
        cells = set(self.done("the cells", [ENGINE, "cells", self.files[1]]).split())
        doubtful = {line.split()[1] for line in in_doubt(report) if line.startswith("transaction ")}
        for model in models:
            if model.seen() == (cells, doubtful):
                return model
        raise Lost(f"cells {sorted(cells)}, in doubt {doubtful}; expected {[model.seen() for model in models]}")

    def live(self):
        models, count = models_after(self.model, self.die())
        self.done("an audit after a kill", [ARIES, "audit", *self.named])
        report = self.done("a recovery", [ARIES, "recover", "--in-place", "--replace", *self.named])
        self.done("an audit after a recovery", [ARIES, "audit", *self.named])
        self.model = self.check(models, report)
        self.acknowledged += count
        self.torn += "torn 0\n" not in report

    def run(self, lives):
        """How many decisions were acknowledged, and how many logs had torn tails."""
        self.done("new files", [ENGINE, "make", *self.files, str(self.dice.randrange(2, 9))])
        for _ in range(lives):
            self.live()
        return self.acknowledged, self.torn


def lived(seed, room, library, unseen=""):
    """What a history counts; or what is wrong."""
    with tempfile.TemporaryDirectory(dir=IN_MEMORY if os.path.isdir(IN_MEMORY) else room, prefix="aries-engine-") as folder:
        try:
            return History(seed, folder, library, unseen).run(LIVES), None
        except Lost as lost:
            return (0, 0), f"seed {seed}: {lost}"


def check_engine(tally, room, histories=HISTORIES, seed=0):
    library = library_of(room, "watch_calls")
    with concurrent.futures.ThreadPoolExecutor(os.cpu_count()) as pool:
        ended = list(pool.map(lambda number: lived(seed + number, room, library), range(histories)))
        planted = list(pool.map(lambda call: [lived(number, room, library, call)[1] for number in range(PLANTED)], SYNCS))
    lost = [what for _, what in ended if what]
    acknowledged, torn = (sum(counts[place] for counts, _ in ended) for place in (0, 1))
    what = f"an engine, {histories * LIVES} kills and power cuts, {torn} torn tails, {acknowledged} decisions acknowledged"
    tally.say(what, not lost and acknowledged > histories * LIVES and torn > 0, "; ".join(lost[:3]))
    for call, found in zip(SYNCS, planted):
        tally.say(f"an engine that does not {call}: power cuts find it", any(found))


if __name__ == "__main__":
    numbers, only = [int(word) for word in sys.argv[1:]], Tally()
    with tempfile.TemporaryDirectory(prefix="aries-tests-") as its_room:
        check_engine(only, its_room, *numbers)
    sys.exit(1 if only.failed else 0)
