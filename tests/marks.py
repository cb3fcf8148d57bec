"""The calls of the C library that read a log record by record, find its end, and say what an engine that continues it has to know: on the logs of the
rows, whole, cut, and damaged as by a power cut. What is expected comes from tests/lines.py, which reads logs by docs/FORMATS.md alone."""
import os
import random

from lines import Damaged, frame_at
from program import SMALL_ROWS, TOP, bytes_of, run

KINDS = {"update": 1, "CLR": 2, "commit": 3, "abort": 4, "end": 5, "checkpoint begin": 6, "checkpoint end": 7, "prepare": 8}
ABORTING, PREPARED = 1, 2
ZEROS, SECTOR = (1, 3, 4, 13, 600), 64


def start_of(log):
    """The base LSN of a log and the length of its header; None if it has none."""
    version = {b"ARIESLG1": 1, b"ARIESLG2": 2}.get(log[:8])
    base = 0 if version == 1 else int.from_bytes(log[8:16], "big")
    return None if version is None or len(log) < 8 * version or base >= 2**63 else (base, 8 * version)


def note(table, kind, lsn, fields):
    """What a record makes of the table of unfinished transactions: for each its state, LastLSN and UndoNxtLSN."""
    transaction = fields.get("transaction")
    if kind in (3, 5):
        table.pop(transaction, None)
    elif transaction is not None:
        state, _, undo_next = table.get(transaction, (0, 0, 0))
        state = {4: ABORTING, 8: PREPARED}.get(kind, state)
        table[transaction] = (state, lsn, {1: lsn, 2: fields.get("UndoNxtLSN")}.get(kind, undo_next))


def line_of_record(kind, lsn, fields, offset):
    """How tests/embed/marks.c shows a record; the offset is that of the next one."""
    numbers = [fields.get(name, 0) for name in ("transaction", "PrevLSN")]
    numbers.append(fields.get("BeginLSN", fields.get("UndoNxtLSN", 0)))
    return " ".join(map(str, ("record", lsn, kind, *numbers, fields.get("page", 0), fields.get("slot", 0), offset)))


def read(log, base, offset):
    """The lines of the records, the last LSN, the end, the fault there as a number and a place, and the tables."""
    lines, lsn, highest, table = [], base, 0, {}
    try:
        while len(log) - offset >= 4:
            found = frame_at(log, offset, lsn + 1)
            if found is None:
                break
            name, fields, size = found
            offset, lsn, fields = offset + size, lsn + 1, dict(fields)
            lines.append(line_of_record(KINDS[name], lsn, fields, offset))
            note(table, KINDS[name], lsn, fields)
            highest = max(highest, fields.get("transaction", 0))
    except Damaged as damage:
        return lines, lsn, offset, damage.args, highest, table
    return lines, lsn, offset, (0, 0), highest, table


def expected(log):
    """What tests/embed/marks.c prints of a log."""
    start = start_of(log)
    if start is None:
        return ["begin 6 77 78", "end 6", "state 6 0 77 78 79"]
    lines, lsn, end, damage, highest, table = read(log, *start)
    stop = f"stop {damage[0]} {damage[1]} 1" if damage[0] else "stop 65 0 1"
    lines = [f"begin 0 {start[0]} {start[1]}", *lines, stop]
    torn = 0 if damage[0] else len(log) - end
    lines.append(f"end 0 {end} {lsn} {torn} {damage[0]} {damage[1]}")
    if damage[0]:
        return [*lines, f"state {damage[0]} {damage[1]} 77 78 79"]
    lines.append(f"state 0 0 {lsn} {highest} {len(table)}")
    return lines + [f"unfinished {tx} {' '.join(map(str, table[tx]))}" for tx in sorted(table)]


def damaged(log, draw):
    """What power cuts may leave of a log: zeros at the end, a cut, a sector that is zeros or from elsewhere in the log."""
    yield from (log + bytes(count) for count in ZEROS)
    for _ in range(4):
        yield log[:draw.randrange(len(log) + 1)]
    for _ in range(4):
        at, source = draw.randrange(len(log) + 1), draw.randrange(len(log) + 1)
        yield log[:at] + bytes(SECTOR) + log[at + SECTOR:]
        yield log[:at] + log[source:source + SECTOR] + log[at + SECTOR:]


def logs_of_rows(draw):
    for row in sorted(os.listdir(SMALL_ROWS)):
        log = bytes_of(os.path.join(SMALL_ROWS, row, "log"))
        if log:
            yield log
            yield from damaged(log, draw)


def check_marks(tally, toolchain, archive, how):
    program = toolchain.program("marks", [os.path.join(TOP, "tests/embed/marks.c")], archive, toolchain.flags())
    if not program:
        tally.say(f"marks.c{how}", False, "not built")
        return
    logs, folder = list(logs_of_rows(random.Random(20261128))), toolchain.at("marks-logs")
    os.makedirs(folder, exist_ok=True)
    files = [os.path.join(folder, str(number)) for number in range(len(logs))]
    for path, log in zip(files, logs):
        with open(path, "wb") as file:
            file.write(log)
    wanted = [line for number, log in enumerate(logs) for line in (f"file {number}", *expected(log))]
    printed = run([program, *files], text=True).stdout.splitlines()
    wrong = next(((number, *pair) for number, pair in enumerate(zip(wanted, printed)) if pair[0] != pair[1]), None)
    tally.say(f"{len(logs)} logs record by record, whole and damaged{how}", wanted == printed, wrong or (len(wanted), len(printed)))
    if tally.has_tool("valgrind", f"marks.c by valgrind{how}"):
        ran = run(["valgrind", "-q", "--error-exitcode=2", program, *files[:60]], text=True)
        tally.say(f"marks.c by valgrind{how}", ran.returncode == 0, ran.stderr)
