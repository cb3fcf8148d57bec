#!/usr/bin/env python3
"""Kills the key-value store at random calls and moments, half of the time with a power cut, and opens it again. It has
to hold what was committed.

usage: drive.py [--kills N] [--seed S] STORE

STORE is the built example. After a kill the keys have the values of the transactions that were acknowledged, or of one
more, which was being committed; and the files are lawful. Ends with `N kills, nothing lost` and status 0, or with what
was lost and status 1. Takes python3 and cc.
"""
import argparse
import os
import random
import signal
import sys
import tempfile
import time

sys.dont_write_bytecode = True
sys.path.insert(0, os.path.join(os.path.dirname(os.path.abspath(__file__)), "../../tests/embed"))
from power import IN_MEMORY, Machine

KEYS = [f"key-{number}" for number in range(40)]
TRANSACTIONS, MOST_CALLS = 60, 250  # of a run


class Lost(Exception):
    """What was lost, or is not lawful."""


class Driver:
    def __init__(self, asked, room):
        self.store, self.random = asked.store, random.Random(asked.seed)
        self.machine = Machine(room, os.path.join(room, "store"), self.random)
        self.held, self.kills, self.power_cuts, self.commits = {}, 0, 0, 0

    def changed(self, held, lines):
        """What is held after some changes, whose commands are added to the lines."""
        held = dict(held)
        for _ in range(self.random.randint(1, 6)):
            key, digits = self.random.choice(KEYS), str(self.random.randrange(1000))
            value = "v" * self.random.randint(1, 30) + digits
            if self.random.random() < 0.8:
                lines.append(f"set {key} {value}")
                held[key] = value
            elif held.pop(key, None):
                lines.append(f"remove {key}")
        return held

    def work(self):
        """The commands of a run, and what is held after this many commits."""
        lines, states = [], [self.held]
        for _ in range(TRANSACTIONS):
            held = self.changed(states[-1], lines)
            is_committed = self.random.random() < 0.8
            lines.append("commit" if is_committed else "roll-back")
            states += [held] if is_committed else []
        return "\n".join(lines) + "\n", states

    def ended(self, process, text=None):
        printed, errors = process.communicate(text)
        self.machine.after_end(process)
        if errors or process.returncode not in (0, -signal.SIGKILL):
            raise Lost(f"status {process.returncode}, {errors.strip()}")
        self.kills += process.returncode != 0
        return printed.splitlines()

    def killed(self, text):
        """The lines of a run that is killed."""
        words = [self.store, self.machine.folder]
        if self.random.random() < 0.7:
            return self.ended(self.machine.started(words, DIE_AT=str(self.random.randint(1, MOST_CALLS))), text)
        process = self.machine.started(words)
        process.stdin.write(text)
        process.stdin.flush()
        time.sleep(self.random.uniform(0, 0.03))
        process.kill()
        return self.ended(process)

    def shown(self):
        """What the store holds, when its files are lawful."""
        commands = "".join(f"get {key}\n" for key in KEYS) + "audit\n"
        *values, verdict = self.ended(self.machine.started([self.store, self.machine.folder]), commands)
        if verdict != "lawful":
            raise Lost(verdict)
        return {key: value for key, value in zip(KEYS, values) if value != "no such key"}

    def round(self):
        text, states = self.work()
        commits = self.killed(text).count("committed")
        if self.random.random() < 0.5:
            self.machine.cut_power()
            self.power_cuts += 1
        self.held = self.shown()
        if self.held not in states[commits:commits + 2]:
            raise Lost(f"{commits} commits were acknowledged, and it holds {self.held}, not {states[commits]}")
        self.commits += commits


def main():
    parser = argparse.ArgumentParser(description="kills the key-value store and checks whether anything was lost")
    parser.add_argument("--kills", type=int, default=20)
    parser.add_argument("--seed", type=int, default=1)
    parser.add_argument("store", type=os.path.abspath)
    asked = parser.parse_args()
    with tempfile.TemporaryDirectory(prefix="aries-own-log-", dir=IN_MEMORY) as room:
        driver = Driver(asked, room)
        try:
            while driver.kills < asked.kills:
                driver.round()
        except Lost as lost:
            print(f"{lost} (kill {driver.kills}, power cut {driver.power_cuts}, seed {asked.seed})")
            sys.exit(1)
    print(f"{driver.commits} commits acknowledged, {driver.power_cuts} power cuts")
    print(f"{driver.kills} kills, nothing lost")


main()
