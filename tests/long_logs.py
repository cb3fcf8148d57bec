"""A long log: what its recovery writes is worked out here by hand, from docs/FORMATS.md. With the largest base LSN it is read into memory, by two workers or
more in two parts; else in pieces, by two or more in stretches."""
import functools
import os
import struct

from program import Row, bytes_of, has_printed, has_refused

# How often the transaction that commits updates its cell: 34 MB of log, whether its values are digits or look like frames. From 32 MiB on two workers or more
# read it in two parts.
UPDATES = 990_000
UPDATES_LIKE_FRAMES = 585_000
LARGEST_BASE = 2 ** 63 - 1
TORN = {"no torn tail": b"", "3 torn bytes": b"\0\0\0", "a torn commit": b"\0\0\0\x15\x03\0"}


def digit(lsn):
    return b"%d" % (lsn % 10)


def looks_like_a_frame(lsn):
    """A value that is spelled as the frame of a checkpoint begin."""
    return frame(6, lsn, b"")


def frame(kind, lsn, fields):
    body = struct.pack(">BQ", kind, lsn) + fields
    return struct.pack(">I", len(body)) + body


def image(value):
    return b"\xff" if value is None else bytes([len(value)]) + value


def update(lsn, transaction, prev, page, slot, before, after):
    return frame(1, lsn, struct.pack(">IQIB", transaction, prev, page, slot) + image(before) + image(after))


def compensation(lsn, transaction, prev, page, slot, undo_next, value):
    return frame(2, lsn, struct.pack(">IQIBQ", transaction, prev, page, slot, undo_next) + image(value))


def page_image(number, page_lsn, value):
    """A page with this value in slot 0; with none, if that is empty."""
    entry = struct.pack(">HH", 80, len(value)) if value else bytes(4)
    return (struct.pack(">IIQ", number, 0, page_lsn) + entry + bytes(60) + value).ljust(1024, b"\0")


def store_of(*pages):
    return b"ARIESPG1" + struct.pack(">IIQ", len(pages), 0, 0) + b"".join(pages)


# Transaction 2 updates page 1, then transaction 1 page 0, again and again, and commits, and last transaction 2 updates page 1 once more, in
# another slot: an update to be undone in either part.

def history(value_of, commit, base):
    yield update(base + 1, 2, 0, 1, 0, None, value_of(1))
    before = None
    for number in range(2, commit):
        lsn, after = base + number, value_of(number)
        yield update(lsn, 1, lsn - 1 if number > 2 else 0, 0, 0, before, after)
        before = after
    yield frame(3, base + commit, struct.pack(">IQ", 1, base + commit - 1))
    yield update(base + commit + 1, 2, base + 1, 1, 1, None, value_of(commit + 1))


def rollback(first, last):
    yield compensation(last + 1, 2, last, 1, 1, first, None)
    yield compensation(last + 2, 2, last + 1, 1, 0, 0, None)
    yield frame(5, last + 3, struct.pack(">IQ", 2, last + 2))


@functools.cache
def log_of(value_of, commit, base):
    header = b"ARIESLG2" + struct.pack(">Q", base) if base else b"ARIESLG1"
    return header + b"".join(history(value_of, commit, base))


def offset_of(number):
    """Where in a log without a base the frame of this record begins, if it is one of transaction 1, not its first, and the values are digits."""
    return 8 + 33 + 33 + 34 * (number - 3)


def long_row(room, torn=b"", value_of=digit, base=0):
    """A row like those of `crates/row_files/data`, in a folder of its own."""
    folder = os.path.join(room, f"long-log-{len(torn)}-{value_of.__name__}-{base}")
    os.makedirs(folder, exist_ok=True)
    count = (UPDATES if value_of is digit else UPDATES_LIKE_FRAMES) + 3
    commit, last = base + count - 1, base + count
    log = log_of(value_of, count - 1, base)
    numbers = {"records": count, "torn": len(torn), "redo-from": base + 1, "redone": count - 1, "losers": 1, "compensated": 2, "ended": 1, "pages": 2}
    for name, text in {
        "log": log + torn,
        "store": store_of(page_image(0, 0, b""), page_image(1, 0, b"")),
        "out-log": log + b"".join(rollback(base + 1, last)),
        "out-store": store_of(page_image(0, commit - 1, value_of(count - 2)), page_image(1, last + 2, b"")),
        "printed": "".join(f"{name} {number}\n" for name, number in numbers.items()).encode(),
    }.items():
        with open(os.path.join(folder, name), "wb") as file:
            file.write(text)
    return Row(folder, room)


def check_fault(tally, row, number, header, workers):
    """A frame that holds no record: its kind is none."""
    log, offset = bytearray(bytes_of(row.at("log"))), offset_of(number) + header - 8
    log[offset + 4] = 9
    with open(row.at("damaged"), "wb") as file:
        file.write(log)
    ran = row.recover("damaged", workers=workers)
    is_well = has_refused(ran, b"fault 8: bad record at byte %d\n" % offset) and row.is_nothing_out()
    tally.say(f"a long log with {header} bytes of header damaged at record {number}, {workers} workers", is_well, ran.stderr)


def check_long_log(tally, name, row, counts):
    for workers, parts in counts:
        ran = row.recover(workers=workers, parts=parts)
        is_well = has_printed(ran, bytes_of(row.at("printed"))) and row.is_recovered()
        tally.say(f"a long log, {name}, {workers} workers", is_well, ran.stderr)
    again = row.recover("out-log", "out-store")
    tally.say(f"a long log, {name}, its outcome again", again.returncode == 0 and row.is_recovered(), again.stderr)


def check_long_logs(tally, room):
    for name, torn in TORN.items():
        for value_of, values in ((digit, ""), (looks_like_a_frame, ", values like frames")):
            check_long_log(tally, f"{name}{values}, in pieces", long_row(room, torn, value_of), [(1, 1), (2, 3), (4, 16), (64, 16)])
            check_long_log(tally, f"{name}{values}, in memory", long_row(room, torn, value_of, LARGEST_BASE), [(1, 1), (2, 3), (4, 16)])
    for number in (UPDATES // 4, UPDATES // 2, UPDATES // 4 * 3, UPDATES):
        for workers in (1, 2, 4):
            check_fault(tally, long_row(room), number, 8, workers)
            check_fault(tally, long_row(room, base=LARGEST_BASE), number, 16, workers)
