#!/usr/bin/env python3
"""Makes a lawful log with losers, and the store of empty pages that it belongs to.

usage: make_undo_log.py RECORDS PAGES LOSERS UPDATES SEED LOG STORE [--commit]

Each loser changes one cell of its own, UPDATES times. Their updates are strewn by chance among those of transactions
that change four other cells and commit, up to RECORDS records. With --commit the losers commit too, in as many records
more: the log is the same but for these.
"""
import random
import struct
import sys

SLOTS = 16


class Log:
    """The text of a log, and what its records leave in the cells."""

    def __init__(self, pages):
        self.pages = pages
        self.values = {}
        self.last = {}
        self.lsn = 0
        self.frames = [b"ARIESLG1"]

    def put(self, kind, transaction, fields=b""):
        self.lsn += 1
        prev = self.last.get(transaction, 0)
        body = struct.pack(">BQIQ", kind, self.lsn, transaction, prev) + fields
        self.frames.append(struct.pack(">I", len(body)) + body)
        self.last[transaction] = self.lsn

    def update(self, transaction, cell):
        before = self.values.get(cell, b"\xff")
        after = struct.pack(">BQ", 8, self.lsn + 1)
        self.values[cell] = after
        place = struct.pack(">IB", cell % self.pages, cell // self.pages)
        self.put(1, transaction, place + before + after)

    def commit(self, transaction):
        self.put(3, transaction)


def fill(log, records, losers, updates, chance):
    """Losers are the transactions 1, 2, .. and own the cells 0, 1, .. in this order."""
    pending = list(range(losers)) * updates
    chance.shuffle(pending)
    transaction, turns = losers, []
    while log.lsn < records:
        if not turns:
            transaction += 1
            turns = [transaction] * 5
        if chance.random() * (records - log.lsn) < len(pending):
            loser = pending.pop()
            log.update(loser + 1, loser)
        elif len(turns) > 1:
            log.update(turns.pop(), chance.randrange(losers, SLOTS * log.pages))
        else:
            log.commit(turns.pop())
    return [transaction] if 0 < len(turns) < 5 else []


def write_store(path, pages):
    with open(path, "wb") as store:
        store.write(b"ARIESPG1" + struct.pack(">IIQ", pages, 0, 0))
        for page in range(pages):
            store.write(struct.pack(">I", page) + bytes(1020))


def main():
    records, pages, losers, updates, seed = map(int, sys.argv[1:6])
    log = Log(pages)
    unfinished = fill(log, records, losers, updates, random.Random(seed))
    for transaction in unfinished:
        log.commit(transaction)
    for loser in range(losers if "--commit" in sys.argv[8:] else 0):
        log.commit(loser + 1)
    with open(sys.argv[6], "wb") as file:
        file.write(b"".join(log.frames))
    write_store(sys.argv[7], pages)


main()
