#!/usr/bin/env python3
"""Kills the bank, often with a power cut, opens it again, and checks whether anything was lost.

usage: drive.py [--kills N] [--seed S] [--aries PROGRAM [--recover]] [--flag=FLAG].. [--at-random] [--remove] ENGINE

ENGINE is the built example, PROGRAM is `aries`: its audit is asked too. With --recover, `aries recover --in-place` is
run after half of the kills, and has to refuse the folder and change nothing. FLAG is an option of the bank, for example
--one-sync. First, but not with --at-random, the bank is killed at each call that changes a file while it is made,
opened, closed, checkpointed and archived. Then the N kills come at random moments and calls. Half of all kills are
power cuts: tests/embed/power.py says what they may leave. After each kill:

- the bank opens, and its files are lawful then, over the base store if an archive began the log;
- if it was no power cut, they are lawful before it opens too;
- every transfer that was acknowledged is in the ledger;
- each account holds what the transfers that came into the ledger make of what it held before: of no transfer one half
  is there, whether it was acknowledged or not;
- what the ledger had before is still there, unless a newer transfer has taken its cell.

Some kills come while the bank is being opened, also several times in turn. Ends with `N kills, nothing lost` and
status 0, or with what was lost and status 1; the files then stay, except with --remove. Takes python3 and cc.
"""
import argparse
import os
import random
import shutil
import signal
import subprocess
import sys
import tempfile
import time

sys.dont_write_bytecode = True
sys.path.insert(0, os.path.join(os.path.dirname(os.path.abspath(__file__)), "../../tests/embed"))
from power import IN_MEMORY, Machine

PAGES = 128
OPENING_BALANCE = 1000
# How a day is ended; half of the ends come after a page's image, where a torn page shows, and a page that was written
# before its log.
HOW = ("at a time", "at a call", "after a page", "after a page")
# How many calls change files while a bank is made; opened; opened and closed if there is nothing to repair; archived,
# from the making of its base store on; and checkpointed, from its master on, with the first calls after it. An opening
# that writes many pages has more.
CALLS_OF_A_NEW_BANK, CALLS_OF_AN_OPENING, CALLS_OF_A_CLOSED_BANK = 24, 30, 18
CALLS_OF_AN_ARCHIVE, CALLS_OF_A_CHECKPOINT = 20, 4


class Lost(Exception):
    """What was lost, or is not lawful."""


def need(holds, what):
    if not holds:
        raise Lost(what)


class Shown:
    """What the bank holds, from what `bank show` prints."""

    def __init__(self, text):
        self.accounts, self.transfers, self.entries, self.opened = {}, {}, 0, {}
        for line in text.splitlines():
            kind, *words = line.split()
            if kind == "opened":
                self.opened = dict(zip(words[::2], map(int, words[1::2])))
            elif kind == "entries":
                self.entries = int(words[0])
            elif kind == "account":
                self.accounts[int(words[0])] = int(words[1])
            elif kind == "transfer":
                self.transfers[int(words[0])] = transfer_of(words)


def transfer_of(words):
    """From whom, to whom, how much and what for."""
    need(len(words) == 5, f"transfer {words} is damaged")
    _, source, target, amount, purpose = words
    return int(source), int(target), int(amount), purpose


def check(old, new, acknowledged):
    """Whether the bank went from what it held to what it holds by whole transfers, the acknowledged ones among them."""
    total = OPENING_BALANCE * len(new.accounts)
    need(sum(new.accounts.values()) == total, f"the accounts hold {sum(new.accounts.values())}, not {total}")
    for number, transfer in acknowledged.items():
        need(new.transfers.get(number) == transfer, f"transfer {number} was acknowledged and is not there")
    newest = max(old.transfers, default=0)
    came = {number: transfer for number, transfer in new.transfers.items() if number > newest}
    taken = {number % new.entries for number in came}
    for number, transfer in old.transfers.items():
        is_there = new.transfers.get(number) == transfer or number % new.entries in taken
        need(is_there, f"transfer {number} was there and is gone")
    expected = dict(old.accounts) or dict.fromkeys(new.accounts, OPENING_BALANCE)
    for source, target, amount, _ in came.values():
        need(source in expected and target in expected, f"a transfer from {source} to {target} is there")
        expected[source] -= amount
        expected[target] += amount
    for account, amount in expected.items():
        need(new.accounts[account] == amount, f"account {account} holds {new.accounts[account]}, not {amount}")


class Driver:
    def __init__(self, asked, room):
        self.engine, self.aries, self.random = [asked.engine, *asked.flag], asked.aries, random.Random(asked.seed)
        self.is_to_recover = asked.recover
        self.folder = os.path.join(room, "bank")
        self.machine = Machine(room, self.folder, self.random)
        self.held, self.acknowledged, self.is_whole = Shown(""), {}, True
        self.opening_seconds = 0.02
        self.kills = self.kills_at_opening = self.power_cuts = self.all_acknowledged = self.archives = self.refused = 0
        self.cut = self.restored = self.losers = self.decided = 0

    # The bank, run and killed.

    def started(self, words, **settings):
        return self.machine.started([*self.engine, *words], **settings)

    def ended(self, process, words, first=()):
        """The lines of a process that was killed or has ended."""
        with process:  # communicate() would lose the lines that the buffer has
            rest, errors = process.stdout.read(), process.stderr.read()
        self.machine.after_end(process)
        is_well = not errors and process.returncode in (0, -signal.SIGKILL)
        need(is_well, f"{' '.join(words)}: status {process.returncode}, {errors.strip()}")
        printed, is_killed = [*first, *rest.splitlines()], process.returncode < 0
        self.kills += is_killed
        self.kills_at_opening += is_killed and not printed
        return printed

    def killed_at_time(self, words, lines):
        """The lines of the bank, killed some time after this many of them."""
        process = self.started(words)
        first = [line for _, line in zip(range(lines), process.stdout)]
        time.sleep(self.random.uniform(0, 0.01 if lines else self.opening_seconds))
        process.kill()
        return self.ended(process, words, first)

    def killed_at_call(self, words, call, **settings):
        """The lines of the bank, killed at this of its calls that change files."""
        return self.ended(self.started(words, DIE_AT=str(call), **settings), words)

    def day(self):
        return ["run", self.folder, str(self.random.randrange(1 << 32)), str(PAGES)]

    def note(self, printed):
        """Notes what was acknowledged."""
        for kind, *words in map(str.split, printed):
            if kind == "done":
                self.acknowledged[int(words[0])] = transfer_of(words)
            self.archives += kind == "archived"

    def work(self):
        """A day of the bank that ends by a kill."""
        how = self.random.choice(HOW)
        if how == "at a time":
            self.note(self.killed_at_time(self.day(), self.random.choice((0, 1, 10, 100, 400))))
        elif how == "at a call":
            self.note(self.killed_at_call(self.day(), self.random.randint(1, 1000)))
        else:
            self.note(self.killed_at_call(self.day(), self.random.randint(1, 200), DIE_PAGES="1"))

    def interrupt_opening(self, call=None):
        words = ["show", self.folder]
        if call or self.random.random() < 0.7:
            self.killed_at_call(words, call or self.random.randint(1, CALLS_OF_AN_OPENING))
        else:
            self.killed_at_time(words, 0)

    # What is left, checked.

    def audit(self, when):
        """Whether the files are lawful: by the bank's library, and by the program."""
        log = os.path.join(self.folder, "log")
        if not os.path.exists(log):
            return
        ran = subprocess.run([self.engine[0], "audit", self.folder], capture_output=True, text=True)
        need(ran.stdout == "lawful\n" and ran.returncode == 0, f"{when}: {ran.stderr.strip()}")
        if not self.aries:
            return
        words = [self.aries, "audit", "--log", log, "--store", os.path.join(self.folder, "store")]
        with open(log, "rb") as file:
            header = file.read(16)
        if header[7:8] == b"2":  # the last letter of the magic is the version, the one before it the profile
            words += ["--base", os.path.join(self.folder, f"base-{int.from_bytes(header[8:], 'big')}")]
        ran = subprocess.run(words, capture_output=True, text=True)
        need(ran.stdout == "lawful\n" and ran.returncode == 0, f"{when}, by the program: {ran.stderr.strip()}")

    def lose(self, when):
        """Half of the kills are power cuts, which may leave a log that is not whole until the next opening. After the
        others the files are lawful as they are."""
        if self.random.random() < 0.5:
            self.machine.cut_power()
            self.power_cuts += 1
            self.is_whole = False
        elif self.is_whole:
            self.audit(when)

    def content(self):
        """Each file of the folder with its bytes."""
        found = {}
        for name in sorted(os.listdir(self.folder)):
            with open(os.path.join(self.folder, name), "rb") as file:
                found[name] = file.read()
        return found

    def recover_in_place(self, when):
        """`aries recover --in-place` refuses a folder that the bank has not closed, and changes nothing."""
        before = self.content()
        if "log" not in before or not any(name == "pages" or name.startswith("sums-") for name in before):
            return
        log, store = os.path.join(self.folder, "log"), os.path.join(self.folder, "store")
        words = [self.aries, "recover", "--in-place", "--log", log, "--store", store, "--replace"]
        ran = subprocess.run(words, capture_output=True, text=True)
        is_refused = ran.returncode == 1 and "fault 4" in ran.stderr
        need(is_refused, f"{when}, recovered in place: status {ran.returncode}, {ran.stderr.strip()}")
        need(self.content() == before, f"{when}, recovered in place: the files have changed")
        self.refused += 1

    def open_and_check(self):
        start, words = time.monotonic(), ["show", self.folder]
        shown = Shown("\n".join(self.ended(self.started(words), words)))
        self.opening_seconds = time.monotonic() - start
        check(self.held, shown, self.acknowledged)
        self.cut += shown.opened["cut"] > 0
        self.restored += shown.opened["restored"] > 0
        self.losers += shown.opened["losers"]
        self.decided += shown.opened["decided"]
        self.all_acknowledged += len(self.acknowledged)
        self.held, self.acknowledged, self.is_whole = shown, {}, True

    def look(self, when):
        """Loses something or audits, opens, checks, and audits again."""
        self.lose(when)
        if not self.held.accounts and not os.path.exists(os.path.join(self.folder, "log")):
            self.make(when)
        if self.is_to_recover and self.random.random() < 0.5:
            self.recover_in_place(when)
        self.open_and_check()
        self.audit(f"{when}, opened again")

    def make(self, when):
        """A bank that was killed before it was made is made."""
        need(not self.acknowledged, f"{when}: transfers were acknowledged, and there is no log")
        self.note(self.killed_at_call(self.day(), 100))

    def start_anew(self):
        self.machine.start_anew()
        self.held, self.acknowledged, self.is_whole = Shown(""), {}, True

    # The kills.

    def kill_in_a_new_bank(self, call):
        self.start_anew()
        self.note(self.killed_at_call(self.day(), call))

    def kill_in_an_opening(self, call):
        self.note(self.killed_at_time(self.day(), 10))
        self.lose("before an opening")
        self.interrupt_opening(call)

    def kill_in_a_checkpoint(self, call):
        self.note(self.killed_at_call(self.day(), call, DIE_MASTER="1"))

    def kill_in_an_archive(self, call):
        self.note(self.killed_at_call(self.day(), call, DIE_FROM="base-"))

    def each_call(self):
        """Kills the bank at each call that changes a file while it is made, opened, closed, checkpointed, archived."""
        kinds = [
            ("a new bank", CALLS_OF_A_NEW_BANK, self.kill_in_a_new_bank),
            ("an opening", CALLS_OF_AN_OPENING, self.kill_in_an_opening),
            ("the opening of a closed bank", CALLS_OF_A_CLOSED_BANK, self.interrupt_opening),
            *5 * [("a checkpoint", CALLS_OF_A_CHECKPOINT, self.kill_in_a_checkpoint)],
            ("an archive", CALLS_OF_AN_ARCHIVE, self.kill_in_an_archive),
        ]
        for what, calls, kill in kinds:
            for call in range(1, calls + 1):
                kill(call)
                self.look(f"after call {call} of {what}")

    def round(self, kills):
        """A day, and at times kills at the opening after it."""
        self.work()
        while self.kills < kills and self.random.random() < 0.4:
            self.lose("after the kill")
            self.interrupt_opening()
        self.look("after the kill")


def asked_for():
    parser = argparse.ArgumentParser(description="kills the bank and checks whether anything was lost")
    parser.add_argument("--kills", type=int, default=20)
    parser.add_argument("--seed", type=int, default=1)
    parser.add_argument("--aries", help="the program, whose audit is asked too")
    parser.add_argument("--recover", action="store_true", help="runs `aries recover --in-place` after half of the kills")
    parser.add_argument("--flag", action="append", default=[], help="an option of the bank: --flag=--one-sync")
    parser.add_argument("--at-random", action="store_true", help="leaves out the kills at each call")
    parser.add_argument("--remove", action="store_true", help="removes the files also if something was lost")
    parser.add_argument("engine", type=os.path.abspath)
    asked = parser.parse_args()
    if asked.recover and not asked.aries:
        parser.error("--recover needs --aries")
    return asked


def main():
    asked = asked_for()
    room = tempfile.mkdtemp(prefix="aries-bank-", dir=IN_MEMORY)
    driver = Driver(asked, room)
    try:
        if not asked.at_random:
            driver.each_call()
        kills = driver.kills + asked.kills
        while driver.kills < kills:
            driver.round(kills)
    except Lost as lost:
        place = f"kill {driver.kills}, power cut {driver.power_cuts}, seed {asked.seed}"
        print(f"{lost} ({place}; files in {driver.folder})")
        if asked.remove:
            shutil.rmtree(room)
        sys.exit(1)
    shutil.rmtree(room)
    print(f"{driver.all_acknowledged} transfers acknowledged, {driver.kills_at_opening} kills at an opening, "
          f"{driver.power_cuts} power cuts, {driver.archives} archives, {driver.cut} logs cut, "
          f"{driver.restored} times pages restored, {driver.losers} losers, {driver.decided} decided"
          + (f", {driver.refused} recoveries in place refused" if asked.recover else ""))
    print(f"{driver.kills} kills, nothing lost")


main()
