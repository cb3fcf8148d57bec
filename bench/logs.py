#!/usr/bin/env python3
"""Makes lawful logs of any length, and the stores that they belong to.

usage: logs.py SHAPE SIZE LOG STORE [--pages N] [--losers N] [--seed N]

SIZE counts bytes for `fresh` and `ckpt90`, transactions for `short`, updates for `pending`; K, M and G behind it stand
for a thousand, a million and a thousand million. The shapes:

fresh    Sixteen transactions at a time update eight cells each, in turn, and commit. The last sixteen are unfinished.
         There is no checkpoint, and all pages of the store are empty.
ckpt90   The same, with a fuzzy checkpoint at 90 % of the bytes. The pages of the store are as they were flushed, one
         after another, while the log grew from 80 % to 90 %; the master is set.
short    Transactions of one update and a commit, 64 at a time. No checkpoint, empty pages.
pending  Updates of a few unfinished transactions (--losers, else 1), and nothing else. No checkpoint, empty pages.

Each cell is updated as often as any other, in an order by chance. Values have 8 to 16 bytes, so a frame of an update
has 48 to 64 bytes, and fewer where the cell was absent.

Prints `records N bytes N`. The log is written as it grows: a long one takes no more memory than a short one.
"""
import argparse
import random
import struct

SLOTS, ABSENT = 16, b"\xff"
UPDATE, COMMIT, CHECKPOINT_BEGIN, CHECKPOINT_END = 1, 3, 6, 7
TOGETHER, UPDATES, SHORT_TOGETHER = 16, 8, 64
UNITS = {"K": 10**3, "M": 10**6, "G": 10**9}
# The frame of an update up to its images, and the frame of a commit.
UPDATE_HEAD, COMMIT_FRAME = struct.Struct(">IBQIQIB").pack, struct.Struct(">IBQIQ").pack


class Log:
    """A log that is being written, and what its records leave in the cells. Cell c is slot c % 16 of page c / 16."""

    def __init__(self, path, pages, seed):
        self.file = open(path, "wb", buffering=1 << 20)
        self.pages = pages
        self.lsn, self.bytes, self.transaction = 0, 0, 0
        self.images = [ABSENT] * (pages * SLOTS)
        self.page_lsns, self.rec_lsns, self.last_lsns = [0] * pages, {}, {}
        self.chance = random.Random(seed)
        tails = [self.chance.randbytes(self.chance.randrange(9)) for _ in range(4096)]
        self.tails = [(bytes([8 + len(tail)]), tail) for tail in tails]
        self.orders = [self.chance.sample(range(pages * SLOTS), pages * SLOTS) for _ in range(4)]
        self.order, self.place = self.orders[0], 0
        self.put(b"ARIESLG1")

    def put(self, text):
        self.file.write(text)
        self.bytes += len(text)

    def begin(self, count):
        """The numbers of so many new transactions."""
        first = self.transaction + 1
        self.transaction += count
        return range(first, first + count)

    def draw(self, count):
        """So many cells that differ."""
        if self.place + count > len(self.order):
            self.order, self.place = self.chance.choice(self.orders), 0
        self.place += count
        return self.order[self.place - count : self.place]

    def update(self, transactions, cells):
        """An update by each of these transactions, each of the cell at its place; a value has its LSN and a tail."""
        lsn, images, tails, last_lsns = self.lsn, self.images, self.tails, self.last_lsns
        page_lsns, rec_lsns, pieces = self.page_lsns, self.rec_lsns, []
        for transaction, cell in zip(transactions, cells):
            lsn, page, before = lsn + 1, cell // SLOTS, images[cell]
            length, tail = tails[lsn * 7 % 4096]
            after = length + lsn.to_bytes(8, "big") + tail
            width, prev = 26 + len(before) + len(after), last_lsns.get(transaction, 0)
            head = UPDATE_HEAD(width, UPDATE, lsn, transaction, prev, page, cell % SLOTS)
            pieces.append(head + before + after)
            images[cell], last_lsns[transaction], page_lsns[page] = after, lsn, lsn
            if page not in rec_lsns:
                rec_lsns[page] = lsn
        self.lsn = lsn
        self.put(b"".join(pieces))

    def commit(self, transactions):
        for transaction in transactions:
            self.lsn += 1
            self.put(COMMIT_FRAME(21, COMMIT, self.lsn, transaction, self.last_lsns.pop(transaction)))

    def begin_checkpoint(self):
        """The LSN of the checkpoint, and its tables: the fields of its end, as they are at its begin."""
        self.lsn += 1
        self.put(struct.pack(">IBQ", 9, CHECKPOINT_BEGIN, self.lsn))
        entries = [struct.pack(">IBQQ", tx, 0, last, last) for tx, last in sorted(self.last_lsns.items())]
        dirty = [struct.pack(">IQ", *entry) for entry in sorted(self.rec_lsns.items())]
        counts = struct.pack(">I", len(entries)), struct.pack(">I", len(dirty))
        return self.lsn, b"".join([struct.pack(">Q", self.lsn), counts[0], *entries, counts[1], *dirty])

    def end_checkpoint(self, tables):
        self.lsn += 1
        self.put(struct.pack(">IBQ", 9 + len(tables), CHECKPOINT_END, self.lsn) + tables)

    def page(self, number):
        """The page as it is now, as a store has it."""
        images = self.images[number * SLOTS : number * SLOTS + SLOTS]
        entries, offset = [], 80
        for image in images:
            entries += (0, 0) if image == ABSENT else (offset, image[0])
            offset += len(image) - 1
        head = struct.pack(">IIQ32H", number, 0, self.page_lsns[number], *entries)
        return (head + b"".join(image[1:] for image in images)).ljust(1024, b"\0")

    def flush(self, number):
        self.rec_lsns.pop(number, None)
        return self.page(number)


def rounds(log):
    """Sixteen transactions after sixteen others, without an end; stops behind each round of one update of each."""
    while True:
        transactions, cells = log.begin(TOGETHER), log.draw(TOGETHER * UPDATES)
        for at in range(0, len(cells), TOGETHER):
            log.update(transactions, cells[at : at + TOGETHER])
            yield
        log.commit(transactions)


def grow(log, steps, size):
    while log.bytes < size:
        next(steps)


def checkpointed(log, size):
    """The pages as they were flushed, and the master."""
    steps, pages = rounds(log), []
    grow(log, steps, size * 0.8)
    for number in range(log.pages):
        grow(log, steps, size * (0.8 + 0.1 * number / log.pages))
        pages.append(log.flush(number))
    grow(log, steps, size * 0.9)
    next(steps)
    master, tables = log.begin_checkpoint()
    next(steps)
    log.end_checkpoint(tables)
    grow(log, steps, size)
    return pages, master


def short(log, count):
    while count:
        together = min(SHORT_TOGETHER, count)
        transactions = log.begin(together)
        log.update(transactions, log.draw(together))
        log.commit(transactions)
        count -= together


def pending(log, count, losers):
    """Each loser has its own cells: a transaction may not update one that another unfinished one has changed."""
    transactions, turns = log.begin(losers), len(log.order) // losers
    for turn in range(count // losers):
        at = turn % turns * losers
        log.update(transactions, log.order[at : at + losers])


def write_store(path, pages, master):
    with open(path, "wb") as store:
        store.write(b"ARIESPG1" + struct.pack(">IIQ", len(pages), 0, master) + b"".join(pages))


def make(options):
    log = Log(options.log, options.pages, options.seed)
    pages, master = [log.page(number) for number in range(log.pages)], 0
    if options.shape == "fresh":
        grow(log, rounds(log), options.size)
    elif options.shape == "ckpt90":
        pages, master = checkpointed(log, options.size)
    elif options.shape == "short":
        short(log, options.size)
    else:
        pending(log, options.size, options.losers)
    log.file.close()
    write_store(options.store, pages, master)
    print(f"records {log.lsn} bytes {log.bytes}")


def size_of(word):
    unit = UNITS.get(word[-1:].upper())
    return round(float(word[:-1]) * unit) if unit else int(word)


def main():
    parser = argparse.ArgumentParser(description=__doc__, formatter_class=argparse.RawDescriptionHelpFormatter)
    parser.add_argument("shape", choices=["fresh", "ckpt90", "short", "pending"])
    parser.add_argument("size", type=size_of)
    parser.add_argument("log")
    parser.add_argument("store")
    parser.add_argument("--pages", type=int, default=4096, metavar="N")
    parser.add_argument("--losers", type=int, default=1, metavar="N")
    parser.add_argument("--seed", type=int, default=1)
    options = parser.parse_args()
    if not 8 <= options.pages <= 4096 or not 1 <= options.losers <= 128:
        parser.error("--pages: 8 to 4,096; --losers: 1 to 128")
    make(options)


if __name__ == "__main__":
    main()
