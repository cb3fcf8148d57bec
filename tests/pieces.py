#!/usr/bin/env python3
"""Whether a log that is read in pieces is recovered as one that is read into memory: each case by `aries recover` into new files, of a log that comes through a
pipe with 1, 2, 4 and 64 workers, and of one in a file; and by `aries recover --in-place`. The same bytes, reports and faults. And whether a read of the log that
fails comes before other faults.

usage: tests/pieces.py        at the top of the repository, when the program is built

`tests/run.py` calls `check_pieces` and `check_order`. A piece has 262,144 bytes, and its marks stand between frames, so the frame that crosses the border of
the first piece begins the second one.
"""
import concurrent.futures
import os
import random
import shutil
import struct
import sys
import tempfile

sys.dont_write_bytecode = True  # no folder of it beside the tests
from in_place import HIGH_ROWS
from long_logs import compensation, frame, looks_like_a_frame, page_image, store_of, update
from program import ARIES, SMALL_ROWS, Tally, bytes_of, library_of, run

PIECE = 262_144
HEADER = b"ARIESLG1"
LOSER, WINNER = 1, 2  # transactions


def finish(kind, lsn, transaction, prev):
    return frame(kind, lsn, struct.pack(">IQ", transaction, prev))


def checkpoint_end(lsn, begin, transactions, dirty):
    """A checkpoint end with these entries: transaction, state, LastLSN and UndoNxtLSN; page and RecLSN."""
    entries = b"".join(struct.pack(">IBQQ", *entry) for entry in transactions)
    pages = b"".join(struct.pack(">IQ", *entry) for entry in dirty)
    return frame(7, lsn, struct.pack(">QI", begin, len(transactions)) + entries + struct.pack(">I", len(dirty)) + pages)


def empty_store(pages, master=0):
    store = bytearray(store_of(*[page_image(number, 0, b"") for number in range(pages)]))
    store[16:24] = struct.pack(">Q", master)
    return bytes(store)


class Log:
    """A log that is written record by record: two transactions update the cells of some pages in turn."""

    def __init__(self, pages=4):
        self.frames, self.size, self.lsn, self.pages = [HEADER], len(HEADER), 0, pages
        self.last, self.cells = {}, {}

    def put(self, make):
        """Appends the frame that `make` makes of its LSN."""
        self.lsn += 1
        text = make(self.lsn)
        self.frames.append(text)
        self.size += len(text)
        return self.lsn

    def update(self, transaction, value):
        cell = (transaction * 2 + self.lsn % 2) % self.pages, self.lsn % 16
        prev, before = self.last.get(transaction, 0), self.cells.get(cell)
        self.last[transaction] = self.put(lambda lsn: update(lsn, transaction, prev, *cell, before, value))
        self.cells[cell] = value

    def finish(self, kind, transaction):
        self.put(lambda lsn: finish(kind, lsn, transaction, self.last.pop(transaction)))

    def grow(self, size, transaction=WINNER, value=lambda lsn: b"%07d" % lsn):
        """Updates until the log has this many bytes or a few more."""
        while self.size < size:
            self.update(transaction, value(self.lsn))

    def text(self):
        return b"".join(self.frames)


# The cases: a name, a log and its store.

def at_the_border(shift):
    """A loser on both sides of a border that stands `shift` bytes later in a frame."""
    log = Log()
    log.update(LOSER, b"x" * (shift % 48 + 1))
    log.grow(PIECE - 900)
    log.update(LOSER, b"y" * (shift // 2 + 1))
    log.grow(PIECE + 300)
    log.finish(3, WINNER)
    log.update(LOSER, b"z")
    return log.text(), empty_store(4)


def like_frames(commits):
    """Values that are spelled as frames."""
    log = Log()
    log.update(LOSER, looks_like_a_frame(7))
    log.grow(2 * PIECE + 5_000, value=looks_like_a_frame)
    if commits:
        log.finish(3, WINNER)
    return log.text(), empty_store(4)


def checkpoint(offset, entries):
    """A checkpoint end with many entries, which begins at this offset or a few bytes later, and updates before and after it."""
    log = Log()
    log.update(LOSER, b"first")
    log.grow(offset - 13)
    master = log.put(lambda lsn: frame(6, lsn, b""))
    idle = [(1000 + number, 0, 1, 0) for number in range(entries)]
    listed = [(tx, 0, log.last[tx], log.last[tx]) for tx in (LOSER, WINNER)]
    log.put(lambda lsn: checkpoint_end(lsn, master, listed + idle, [(page, 1) for page in range(4)]))
    log.update(LOSER, b"later")
    log.grow(offset + PIECE // 2)
    log.finish(3, WINNER)
    return log.text(), empty_store(4, master)


def late_end(distance):
    """A checkpoint end that comes this many bytes after its begin, with one of another checkpoint before it and one of the same after it."""
    log = Log()
    log.update(LOSER, b"first")
    log.grow(50_000)
    other = log.put(lambda lsn: frame(6, lsn, b""))
    master = log.put(lambda lsn: frame(6, lsn, b""))
    listed = [(LOSER, 0, log.last[LOSER], log.last[LOSER]), (WINNER, 0, log.last[WINNER], log.last[WINNER])]
    log.grow(50_000 + distance // 2)
    log.put(lambda lsn: checkpoint_end(lsn, other, [], []))
    log.grow(50_000 + distance)
    log.put(lambda lsn: checkpoint_end(lsn, master, listed, [(page, 1) for page in range(4)]))
    log.put(lambda lsn: checkpoint_end(lsn, master, [], []))
    log.grow(100_000 + distance)
    log.finish(3, WINNER)
    return log.text(), empty_store(4, master)


def rollback(share):
    """A loser whose updates go through the whole log, of which the newest are compensated already: this share of them."""
    log, updates = Log(1), []
    while log.size < 2 * PIECE:
        updates.append((log.lsn + 1, log.last.get(LOSER, 0), log.lsn % 16, log.cells.get((0, log.lsn % 16))))
        log.update(LOSER, b"%06d" % log.lsn)
    log.last[LOSER] = log.put(lambda lsn: finish(4, lsn, LOSER, log.last[LOSER]))
    for lsn, prev, slot, before in reversed(updates[len(updates) - int(share * len(updates)):]):
        log.last[LOSER] = log.put(lambda own: compensation(own, LOSER, log.last[LOSER], 0, slot, prev, before))
    return log.text(), empty_store(1)


def cases():
    for shift in range(0, 96, 3):
        yield f"a border {shift} bytes later", *at_the_border(shift)
    for commits in (False, True):
        yield f"values like frames, {'a commit' if commits else 'losers'}", *like_frames(commits)
    for offset in (PIECE - 40_000, PIECE - 5, PIECE - 70_000):
        yield f"a checkpoint end at {offset}", *checkpoint(offset, 1_000)
    for distance in (100, 300_000, 700_000):
        yield f"a checkpoint end {distance} bytes after its begin", *late_end(distance)
    for share in (0, 0.5, 0.99):
        yield f"a rollback of which {share} is done", *rollback(share)
    yield from damaged()
    yield from small_rows()


def damaged():
    """Logs with a torn tail, another byte, a page that is missing or ahead, a master that no checkpoint has."""
    log, store = at_the_border(0)
    choose = random.Random(1)
    for number in range(24):
        place = choose.choice([PIECE + choose.randrange(-200, 200), choose.randrange(len(log))])
        yield f"{place} with another byte", log[:place] + bytes([log[place] ^ (1 << number % 8)]) + log[place + 1:], store
    for cut in (PIECE - 1, PIECE, PIECE + 7, PIECE + 8, PIECE + 9, len(log) - 1):
        yield f"cut at {cut}", log[:cut], store
    torn = checkpoint(PIECE - 5, 1_000)[0][:PIECE + 15_000]
    yield "a torn checkpoint end", torn, store
    yield "a missing page", log, empty_store(2)
    yield "a page ahead", log, store_of(*[page_image(number, 10 ** 6, b"") for number in range(4)])
    yield "no such master", log, empty_store(4, 77)
    yield "no store", log, store[:-1]
    yield "no store, and a bad log", log[:PIECE + 50] + b"\xff" * 60, store[:-1]
    yield "no header", b"ARIESLG3" + log[8:], store
    # A store of more than 16 MiB is read from its file; none of this profile is so large.
    too_long = store + bytes(1 << 24)
    yield "a store of more than 16 MiB", log, too_long
    yield "a store of more than 16 MiB, and a bad log", log[:PIECE + 50] + b"\xff" * 60, too_long
    yield "a store of more than 16 MiB without a header", log, b"X" + too_long[1:]


def small_rows():
    """The rows of crates/row_files."""
    for name in sorted(os.listdir(SMALL_ROWS)):
        files = [os.path.join(SMALL_ROWS, name, file) for file in ("log", "store")]
        if all(os.path.exists(file) for file in files):
            yield f"the row {name}", *map(bytes_of, files)


# How a line ends that names the file of a log whose torn tail is long.
MORE_THAN_TORN = b": more than a torn record\n"


def outcome(ran, log, store):
    """What a run printed, but for a line on a long torn tail, and what it wrote."""
    written = [bytes_of(path) if os.path.exists(path) else b"" for path in (log, store)] if ran.returncode == 0 else []
    said = b"".join(line for line in ran.stderr.splitlines(keepends=True) if not line.endswith(MORE_THAN_TORN) and b": more than a torn record; " not in line)
    return ran.returncode, ran.stdout, said, written


def wrong_at(room, case):
    name, log, store = case
    folder = tempfile.mkdtemp(dir=room)
    at = lambda file: os.path.join(folder, file)
    for file, text in (("log", log), ("store", store)):
        with open(at(file), "wb") as written:
            written.write(text)
    found = []
    for source, workers in (("/dev/stdin", "1"), ("/dev/stdin", "2"), ("/dev/stdin", "4"), ("/dev/stdin", "64"), (at("log"), "1")):
        words = [ARIES, "recover", "--log", source, "--store", at("store"), "--out-log", at("new-log"), "--out-store", at("new-store")]
        found.append(outcome(run([*words, "--workers", workers], input=log), at("new-log"), at("new-store")))
        for file in ("new-log", "new-store"):
            if os.path.exists(at(file)):
                os.remove(at(file))
    is_left = True
    if name.removeprefix("the row ") not in HIGH_ROWS:
        ran = run([ARIES, "recover", "--in-place", "--log", at("log"), "--store", at("store"), "--out-store", at("new-store")])
        found.append(outcome(ran, at("log"), at("new-store")))
        is_left = ran.returncode == 0 or (bytes_of(at("log")), os.path.exists(at("new-store"))) == (log, False)
    shutil.rmtree(folder)
    is_well = all(it == found[0] for it in found) and is_left
    return [] if is_well else [f"{name}: {[(status, out[:90], err[:90]) for status, out, err, _ in found]}"]


# The order of faults: a read of the log that fails comes before a failure of the store, and before a fault of the log's bytes, wherever it stands in the log.

READS = 4  # at least of a log of three pieces: its header, and each piece


def calls_that_fail(room, library, log, store, words):
    """Of a run for each of its calls, which fails: the line of the call, the fault, and what is then in the folder."""
    for number in range(1, 1000):
        folder = tempfile.mkdtemp(dir=room)
        at = lambda file: os.path.join(folder, file)
        with open(at("log"), "wb") as written:
            written.write(log)
        if store is None:
            os.mkdir(at("store"))
        else:
            with open(at("store"), "wb") as written:
                written.write(store)
        settings = {"LD_PRELOAD": library, "WATCHED": folder, "FAIL_AT": str(number), "CALLS": at("calls")}
        ran = run([ARIES, "recover", "--log", at("log"), "--store", at("store"), *words(at)], env={**os.environ, **settings})
        call = next((line for line in bytes_of(at("calls")).decode().splitlines() if line.startswith("fail")), None)
        files = {name: bytes_of(at(name)) for name in os.listdir(folder) if name != "calls" and os.path.isfile(at(name))}
        shutil.rmtree(folder)
        if call is None:
            return
        yield call, fault_in(ran.stderr)[:8], files


def fault_in(said):
    """The line of the fault, the last one on standard error."""
    return said.splitlines(keepends=True)[-1] if said else b""


def into_files(at):
    return "--out-log", at("new-log"), "--out-store", at("new-store")


def in_place(at):
    return "--in-place", "--out-store", at("new-store")


def replaced(at):
    return "--in-place", "--replace"


def fault_beside_a_folder(room, log, words, is_piped):
    """The fault of a run on this log beside a store that cannot be read, since it is a folder; and what it leaves."""
    with tempfile.TemporaryDirectory(dir=room) as folder:
        at = lambda file: os.path.join(folder, file)
        os.mkdir(at("store"))
        with open(at("log"), "wb") as written:
            written.write(log)
        how = {"input": log} if is_piped else {}
        ran = run([ARIES, "recover", "--log", "/dev/stdin" if is_piped else at("log"), "--store", at("store"), *words(at)], **how)
        return fault_in(ran.stderr), bytes_of(at("log")) == log, bytes_of(at("new-log")) + bytes_of(at("new-store"))


def check_order(tally, room):
    library = library_of(room, "watch_calls")
    log, store = like_frames(True)
    bad = log[:100] + b"\xff" * 50 + log[150:]
    for way, words, is_piped in (("into new files", into_files, False), ("in memory", into_files, True), ("in place", in_place, False)):
        found = fault_beside_a_folder(room, bad, words, is_piped)
        tally.say(f"a bad record, and a store that cannot be read, {way}", found == (b"fault 3: reading the store failed\n", True, b""), found)
    for way, words in (("into new files", into_files), ("in place", in_place)):
        for what, text, pages in (("a store that cannot be read", log, None), ("a bad record", bad, store)):
            faults = [fault for call, fault, _ in calls_that_fail(room, library, text, pages, words) if call == "fail read log"]
            is_well = len(faults) >= READS and set(faults) == {b"fault 2:"}
            tally.say(f"{what}, and a log's read that fails, {way}", is_well, (len(faults), sorted(set(faults))))


def check_nothing_out(tally, room):
    """After fault 2 or 3 of a good log nothing of a result is out, whichever call fails."""
    library = library_of(room, "watch_calls")
    log, store = like_frames(True)
    for way, words in (("into new files", into_files), ("in place", in_place), ("in place, the store replaced", replaced)):
        ends = [files for _, fault, files in calls_that_fail(room, library, log, store, words) if fault in (b"fault 2:", b"fault 3:")]
        wrong = [files for files in ends if {name: text for name, text in files.items() if text} != {"log": log, "store": store}]
        sizes = [{name: len(text) for name, text in files.items()} for files in wrong]
        tally.say(f"a good log, each call fails, {way}: nothing out after fault 2 or 3", len(ends) >= READS and not wrong, (len(ends), len(wrong), sizes[:2]))


def check_pieces(tally, room):
    all_cases = list(cases())
    with concurrent.futures.ThreadPoolExecutor(2) as pool:
        wrong = [it for found in pool.map(lambda case: wrong_at(room, case), all_cases) for it in found]
    tally.say(f"{len(all_cases)} logs in memory and in pieces", not wrong, f"{len(wrong)} wrong: {'; '.join(wrong[:3])}")


def main():
    tally = Tally()
    with tempfile.TemporaryDirectory(prefix="aries-pieces-") as room:
        check_pieces(tally, room)
        check_order(tally, room)
        check_nothing_out(tally, room)
    sys.exit(1 if tally.failed else 0)


if __name__ == "__main__":
    main()
