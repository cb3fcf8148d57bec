"""Logs that the workers share: transactions of each kind go on from one stretch to the next, and values look like frames. Any number of workers has to write
what one writes, and an audit has to accept it. `tests/run.py` calls this."""
import os
import random
import struct

from long_logs import compensation, frame, page_image, store_of, update
from program import Row, bytes_of, has_printed

PAGES, SLOTS = 64, 16
LENGTH = 3_300_000  # three workers get 1 MiB each
MOST_OPEN = 24
WORKERS = (2, 3, 4, 8, 64)
COMMIT, ABORT, END, PREPARE = 3, 4, 5, 8


class Transaction:
    def __init__(self):
        self.last, self.is_prepared = 0, False
        self.undoable = []  # of each update that is not undone: its cell, what was there before, and the PrevLSN
        self.cells = set()


class Engine:
    """Writes a lawful log over empty pages, by chance. No two unfinished transactions change one cell."""

    def __init__(self, seed):
        self.chance = random.Random(seed)
        self.log, self.lsn, self.number = bytearray(b"ARIESLG1"), 0, 0
        self.cells, self.open = {}, {}

    def value(self):
        """A value, none, or one that is spelled as the frame of a commit."""
        kind = self.chance.random()
        if kind < 0.3:
            lsn = max(1, self.lsn + self.chance.randrange(-3, 4))
            return frame(COMMIT, lsn, struct.pack(">IQ", self.chance.randrange(1, 99), lsn - 1))
        return None if kind < 0.4 else self.chance.randbytes(self.chance.randrange(1, 40))

    def put(self, number, text):
        self.log += text
        self.open[number].last = self.lsn

    def say(self, number, kind):
        self.lsn += 1
        self.put(number, frame(kind, self.lsn, struct.pack(">IQ", number, self.open[number].last)))

    def change(self, number):
        one, cell = self.open[number], (self.chance.randrange(PAGES), self.chance.randrange(SLOTS))
        if any(cell in other.cells for other in self.open.values() if other is not one):
            return
        before, after = self.cells.get(cell), self.value()
        self.lsn += 1
        one.undoable.append((cell, before, one.last))
        one.cells.add(cell)
        self.put(number, update(self.lsn, number, one.last, *cell, before, after))
        self.cells[cell] = after

    def roll_back(self, number, count):
        """Undoes so many of the updates that are not undone yet."""
        one = self.open[number]
        for cell, before, prev in reversed(one.undoable[-count:]):
            self.lsn += 1
            self.put(number, compensation(self.lsn, number, one.last, *cell, prev, before))
            self.cells[cell] = before
        del one.undoable[-count:]

    def finish(self, number, is_kept):
        if is_kept:
            self.say(number, COMMIT)
        else:
            self.say(number, ABORT)
            self.roll_back(number, max(1, len(self.open[number].undoable)))
            self.say(number, END)
        del self.open[number]

    def go_on(self):
        """One step of a transaction, new or not."""
        what = self.chance.random()
        if not self.open or (what < 0.1 and len(self.open) < MOST_OPEN):
            self.number += self.chance.choice((1, 1, 3, 250))
            self.open[self.number] = Transaction()
        number = self.chance.choice(list(self.open))
        one = self.open[number]
        if what < 0.06 and one.last:
            self.finish(number, what < 0.045)
        elif not one.is_prepared and what < 0.09 and one.undoable:
            self.roll_back(number, self.chance.randrange(1, 4))
        elif not one.is_prepared and what < 0.1 and one.last:
            self.say(number, PREPARE)
            one.is_prepared = True
        elif not one.is_prepared:
            self.change(number)

    def run(self, length):
        while len(self.log) < length:
            self.go_on()
        return bytes(self.log)


def made(row, workers):
    """What a recovery says, and the files that it writes."""
    ran = row.recover(workers=workers)
    return ran.returncode, ran.stdout, ran.stderr, bytes_of(row.new_at("log")), bytes_of(row.new_at("store"))


def check_log(tally, row, what):
    """One worker against each other number of them, and the audit of what they write."""
    wanted = made(row, 1)
    others = [workers for workers in WORKERS if made(row, workers) != wanted]
    tally.say(f"{what}, any number of workers", wanted[0] == 0 and not others, others or wanted[:3])
    audited = Row(row.new, row.new).audit()
    tally.say(f"{what}, the audit of what they write", has_printed(audited, b"lawful\n"), audited)


def check_stretches(tally, room):
    for seed in (1, 2):
        text = Engine(seed).run(LENGTH)
        folder = os.path.join(room, f"stretches-{seed}")
        os.makedirs(folder)
        row = Row(folder, room)
        with open(row.at("store"), "wb") as file:
            file.write(store_of(*(page_image(number, 0, b"") for number in range(PAGES))))
        # whole, and torn where stretches of two, three and four begin, or a few bytes after that
        for cut in (len(text), len(text) // 2 + seed, len(text) // 3 * 2 + 7 * seed, 3 * (1 << 20) + 8 + 3 * seed):
            with open(row.at("log"), "wb") as file:
                file.write(text[:cut])
            check_log(tally, row, f"log {seed} up to byte {cut}")
