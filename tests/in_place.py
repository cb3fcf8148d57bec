#!/usr/bin/env python3
"""What `aries recover --in-place` leaves in files: on each row, where it refuses, beside the file of a tail that an earlier run left, after kills at each of
its calls, after failures of each, and after power cuts.

usage: tests/in_place.py [--all | --plant]        at the top of the repository, when the program is built

`tests/run.py` calls `check_in_place`. Run alone, `--all` tries more power cuts. `--plant` leaves out each sync in turn from what the power cuts see,
and says how many of them the program then does not repair: so many would lose something if the program did not make that sync.
"""
import concurrent.futures
import functools
import os
import random
import shutil
import signal
import struct
import sys
import tarfile
import tempfile

sys.dont_write_bytecode = True  # no folder of it beside the tests
from disk import Disk, power_cuts
from long_logs import update
from program import ARIES, LARGE_ROWS, SMALL_ROWS, Row, Tally, bytes_of, has_printed, has_refused, in_doubt, library_of, run

# The rows on which the program is killed and the power cut: losers, checkpoints, torn tails, transactions in doubt, logs of version 2. All are lawful. After a
# log that is not, a second run may find other pages to redo than the first.
ROWS = ("one-commit", "empty-log", "two-losers", "several-kinds-of-loser", "partial-rollback-loser", "rollback-interrupted", "prepared-abort",
        "checkpoint-loser", "checkpoint-commit", "checkpoint-loser-flushed", "torn-tail", "torn-length-largest", "cut-at-232", "cut-twice-1",
        "prepared-at-checkpoint", "prepared-beside-loser", "two-pages-cut", "base-loser", "base-checkpoint")
# Rows that are refused in place, since their LSNs are near 2^63.
HIGH_ROWS = ("base-largest",)
# Rows with 100 bytes of a torn record more, which is longer than what is appended.
TORN_ROWS = ("one-commit torn", "one-loser torn", "base-loser torn")
TORN_BYTES = 100
PLANTED_ROWS = ("two-losers", "torn-tail", "prepared-beside-loser", "one-loser torn", "base-loser torn")
ROWS_OF_SECTORS = ("three-hundred-pages", "many-in-doubt")  # what these append takes many sectors
ROWS_OUT = ("torn-tail", "prepared-beside-loser", "base-loser", "one-loser torn")  # killed with a new store beside the old one, too
REPLACE = ("--replace",)
IN_MEMORY = "/dev/shm"  # where files are synced in no time
WRITING = b"fault 4: writing the log failed\n"
SUM_OF_NONE, PRIME = 0xcbf29ce484222325, 0x100000001b3


class Place:
    """A folder of its own that holds these files, and is gone at last."""

    def __init__(self, room, files):
        self.folder = tempfile.mkdtemp(dir=IN_MEMORY if os.path.isdir(IN_MEMORY) else room, prefix="aries-in-place-")
        for name, text in files.items():
            with open(self.at(name), "wb") as file:
                file.write(text)

    def __enter__(self):
        return self

    def __exit__(self, *_):
        shutil.rmtree(self.folder)

    def at(self, name):
        return os.path.join(self.folder, name)

    def files(self):
        return {name: bytes_of(self.at(name)) for name in os.listdir(self.folder)}

    def recover(self, *more, library=None, **settings):
        """A recovery in place, with the library tests/watch_calls.c and its settings if they are given."""
        watched = {"LD_PRELOAD": library, "WATCHED": self.folder} if library else {}
        environment = {**os.environ, **watched, **{name: str(value) for name, value in settings.items()}}
        words = [ARIES, "recover", "--in-place", "--log", self.at("log"), "--store", self.at("store"), *more]
        return run(words, env=environment)

    def out(self):
        """The words of a line that makes a new store beside the old one."""
        return "--out-store", self.at("new")


def next_lsn(log):
    """The LSN of the record that comes after this log, whose records are whole."""
    at, lsn = (8, 0) if log.startswith(b"ARIESLG1") else (16, int.from_bytes(log[8:16], "big"))
    while at < len(log):
        at, lsn = at + 4 + int.from_bytes(log[at:at + 4], "big"), lsn + 1
    return lsn + 1


def torn_row(row, room):
    """A row with a torn record more, of a transaction of its own: the same comes of it."""
    torn = Row(shutil.copytree(row.folder, os.path.join(room, f"{name_of(row)} torn")), room)
    with open(torn.at("log"), "ab") as log:
        log.write(update(next_lsn(bytes_of(row.at("log"))), 1 << 30, 0, 0, 15, b"0" * 48, b"1" * 48)[:TORN_BYTES])
    with open(torn.at("printed"), "wb") as printed:
        printed.write(bytes_of(row.at("printed")).replace(b"torn 0\n", b"torn %d\n" % TORN_BYTES))
    return torn


@functools.cache
def row_named(name, room):
    if name.endswith(" torn"):
        return torn_row(row_named(name[:-len(" torn")], room), room)
    if os.path.isdir(os.path.join(SMALL_ROWS, name)):
        return Row(os.path.join(SMALL_ROWS, name), room)
    folder = os.path.join(room, "in-place-rows")
    with tarfile.open(os.path.join(LARGE_ROWS, f"{name}.tar.xz")) as files:
        files.extractall(folder)
    return Row(os.path.join(folder, name), room)


def name_of(row):
    return os.path.basename(row.folder)


def before(row):
    return {name: bytes_of(row.at(name)) for name in ("log", "store")}


def replaced(row):
    """What is left of a row after a recovery that replaces the store."""
    return {name: bytes_of(row.at(f"out-{name}")) for name in ("log", "store")}


def beside(row):
    """What is left of a row after a recovery that makes a new store beside the old one."""
    return {**replaced(row), "store": bytes_of(row.at("store")), "new": bytes_of(row.at("out-store"))}


def shown(ran, place):
    files = {name: len(text) for name, text in sorted(place.files().items())}
    return f"status {ran.returncode}, {ran.stdout[:200]!r}, {ran.stderr[:200]!r}, files {files}"


def each(job, things):
    """What is wrong with each of these things, two at a time."""
    with concurrent.futures.ThreadPoolExecutor(2) as pool:
        return [wrong for found in pool.map(job, things) for wrong in found]


def say(tally, what, wrong):
    tally.say(f"in place: {what}", not wrong, f"{len(wrong)} wrong: {'; '.join(wrong[:3])}")


# Rows: the same text, status and files as a recovery into new files gives, and nothing else in the folder.

def wrong_at_row(room, row, workers, is_replaced):
    printed = bytes_of(row.at("printed"))
    with Place(room, before(row)) as place:
        ran = place.recover("--workers", str(workers), *(REPLACE if is_replaced else place.out()))
        if printed.startswith(b"fault "):
            is_well = has_refused(ran, printed) and place.files() == before(row)
        else:
            is_well = has_printed(ran, printed) and place.files() == (replaced(row) if is_replaced else beside(row))
        return [] if is_well else [f"{name_of(row)}, {workers} workers: {shown(ran, place)}"]


def check_rows(tally, room):
    names = [name for name in sorted(os.listdir(SMALL_ROWS)) if name not in HIGH_ROWS]
    rows = [row_named(name, room) for name in names if os.path.exists(os.path.join(SMALL_ROWS, name, "printed"))]
    rows = [row for row in rows if os.path.exists(row.at("log")) and os.path.exists(row.at("store"))]
    chosen = [row_named(name, room) for name in (*ROWS, *TORN_ROWS, *ROWS_OF_SECTORS, "bad-master", "undo-of-missing-page")]
    jobs = [(row, 1) for row in rows] + [(row, workers) for row in chosen for workers in (2, 4, 64)]
    for what, is_replaced in (("the store replaced", True), ("a new store", False)):
        wrong = each(lambda job: wrong_at_row(room, *job, is_replaced), jobs)
        say(tally, f"{len(jobs)} recoveries of rows, {what}", wrong)


def check_modes(tally, room):
    row = row_named("torn-tail", room)
    with Place(room, before(row)) as place:
        os.chmod(place.at("log"), 0o640)
        os.chmod(place.at("store"), 0o604)
        ran = place.recover(*REPLACE)
        modes = [os.stat(place.at(name)).st_mode & 0o7777 for name in ("log", "store")]
        tally.say("in place: modes", modes == [0o640, 0o604] and place.files() == replaced(row), shown(ran, place))


# Refusals: nothing is changed, and nothing is left.

def check_refused(tally, room, what, files, line, more=REPLACE, **how):
    with Place(room, files) as place:
        ran = place.recover(*(more or place.out()), **how)
        tally.say(f"in place: {what}", has_refused(ran, line) and place.files() == files, shown(ran, place))


def check_refusals(tally, room, library):
    row = row_named("torn-tail", room)
    files, other = before(row), row_named("two-losers", room)
    check_refused(tally, room, "no log", {"store": files["store"]}, b"fault 2: reading the log failed\n")
    check_refused(tally, room, "no store", {"log": files["log"]}, b"fault 3: reading the store failed\n")
    check_refused(tally, room, "no store beside the file of a tail", {"log": files["log"], "log.tail": tail_of(row)}, b"fault 3: reading the store failed\n")
    check_refused(tally, room, "a file stands where the new store goes", {**files, "new": b"mine"}, b"fault 5: writing the store failed\n", more=())
    # After the log and the store were opened to be read, the log is opened to be appended to.
    check_refused(tally, room, "a log that nobody may write", files, WRITING, library=library, FAIL_AT=3)
    check_refused(tally, room, "the file of another log's tail", {**files, "log.tail": tail_of(other)}, WRITING)
    longer = {**before(other), "log.tail": tail_of(row_named("cut-at-232", room))}
    check_refused(tally, room, "the file of a longer log's tail", longer, WRITING)
    foreign = files["log"][:-30] + b"\1" + files["log"][-29:]
    check_refused(tally, room, "the file of a tail beside a log with another byte", {**files, "log": foreign, "log.tail": tail_of(row)}, WRITING)
    frames = frames_of(row)
    more = {**files, "log": kept_of(row) + frames[:-1] + b"\1" + frames, "log.tail": tail_of(row)}
    check_refused(tally, room, "the file of a tail beside a log that went on otherwise", more, WRITING)


# The file of a tail: after it, a log that any power cut left is continued.

def sum_of(text):
    """FNV-1a of 64 bits."""
    return functools.reduce(lambda total, byte: (total ^ byte) * PRIME % 2 ** 64, text, SUM_OF_NONE)


def torn_of(row):
    """How many bytes of the log are a torn record."""
    return int(bytes_of(row.at("printed")).splitlines()[1].split()[1])


def kept_of(row):
    """What is kept of the log: all but its torn record."""
    log = bytes_of(row.at("log"))
    return log[:len(log) - torn_of(row)]


def frames_of(row):
    """What comes after it."""
    return bytes_of(row.at("out-log"))[len(kept_of(row)):]


def tail_of(row):
    """The file of a row's tail."""
    kept, frames = kept_of(row), frames_of(row)
    return tail_text(len(kept) + torn_of(row), kept, bytes_of(row.at("log"))[len(kept):], frames)


def tail_text(length, kept, cut, frames):
    """The file of the tail of a log of this length, of which some bytes are kept and some are cut off."""
    front = b"ARIESTL2" + struct.pack(">QQQQQ", length, len(kept), len(frames), sum_of(kept[-4096:]), sum_of(cut)) + frames
    return front + struct.pack(">Q", sum_of(front))


def wrong_again(place, row, what, more=b""):
    """What is wrong with a recovery of what an earlier run left; these bytes are after the outcome."""
    ran, expected = place.recover(*REPLACE), replaced(row)
    expected["log"] += more
    is_well = ran.returncode == 0 and has_finished(ran) and place.files() == expected and in_doubt(ran.stdout) == in_doubt(bytes_of(row.at("printed")))
    return [] if is_well else [f"{name_of(row)}, {what}: {shown(ran, place)}"]


def has_finished(ran):
    """Whether a run said nothing but, perhaps, that it finished an interrupted one."""
    lines = ran.stderr.splitlines()
    return len(lines) < 2 and all(line.startswith(b"aries: finished an interrupted recovery of the log ") for line in lines)


def wrong_with(room, row, what, files, more=b""):
    with Place(room, {**before(row), **files}) as place:
        return wrong_again(place, row, what, more)


def beginnings(text):
    return [text[:length] for length in range(len(text))]


def with_a_wrong_byte(text):
    return [text[:at] + bytes([text[at] ^ 1]) + text[at + 1:] for at in range(len(text))]


def commit_after(log):
    """The frame of a commit of a new transaction, which comes after this log."""
    return struct.pack(">IBQIQ", 21, 3, next_lsn(log), 1 << 30, 0)


def wrong_with_tail(room, row):
    """What is wrong beside the whole file of a row's tail."""
    log, kept, frames, tail = bytes_of(row.at("log")), kept_of(row), frames_of(row), tail_of(row)
    commit, store = commit_after(kept + frames), bytes_of(row.at("out-store"))
    cases = [("the log as before", log, b""), ("a torn record of zeros", kept.ljust(len(log), b"\0"), b"")]
    cases += [("a tail of zeros", kept + bytes(len(frames)), b""), ("old bytes in the tail", (log + frames)[:len(kept + frames)], b"")]
    cases += [(f"{len(part)} bytes appended", kept + part, b"") for part in [*beginnings(frames)[::5], frames]]
    cases += [(f"{len(part)} bytes filled", kept + part.ljust(len(frames), b"\0"), b"") for part in beginnings(frames)[::25]]
    cases += [("a record more", kept + frames + commit, commit), ("a torn record more", kept + frames + commit[:9], b"")]
    wrong = [wrong_with(room, row, f"a tail, {what}", {"log": text, "log.tail": tail}, more) for what, text, more in cases]
    stores = [wrong_with(room, row, f"a tail, the new store, {what}", {"log": text, "log.tail": tail, "store": store}, more) for what, text, more in cases[-3:]]
    return [it for found in wrong + stores for it in found]


def wrong_unless_left(room, row, what, tail):
    """What is wrong unless a run refuses this file of a tail, which no run can have left."""
    with Place(room, {**before(row), "log.tail": tail}) as place:
        ran = place.recover(*REPLACE)
        is_well = has_refused(ran, WRITING) and b"was not left by a recovery" in ran.stderr and place.files() == {**before(row), "log.tail": tail}
        return [] if is_well else [f"{name_of(row)}, {what}: {shown(ran, place)}"]


def check_damaged_tails(tally, room, what, texts):
    row = row_named("torn-tail", room)
    wrong = each(lambda text: wrong_unless_left(room, row, f"{what}, {len(text)} bytes", text), texts)
    say(tally, f"{what}, {len(texts)} of them", wrong)


def check_tails(tally, room):
    tail = tail_of(row_named("torn-tail", room))
    check_damaged_tails(tally, room, "a beginning of the file of a tail", beginnings(tail))
    check_damaged_tails(tally, room, "a wrong byte in the file of a tail", with_a_wrong_byte(tail))
    rows = [row_named(name, room) for name in (*ROWS, *TORN_ROWS)]
    say(tally, f"the whole file of a tail, {len(rows)} rows", each(lambda row: wrong_with_tail(room, row), rows))


# Kills at each call, and failures of each: the next run finishes what was begun.

def wrong_after_kill(room, library, row, how, call):
    """Whether the program is killed, and what is wrong with the runs that follow; half of the time the next one is killed, too."""
    chooser, what = random.Random(f"{name_of(row)} {how} {call}"), f"{how} {call}"
    with Place(room, before(row)) as place:
        is_killed = place.recover(*REPLACE, library=library, **{how: call}).returncode == -signal.SIGKILL
        if chooser.random() < 0.5:
            second = chooser.randint(1, 45)
            place.recover(*REPLACE, library=library, KILL_WITHIN=second)
            what += f", then KILL_WITHIN {second}"
        return is_killed, wrong_again(place, row, what)


def wrong_after_kill_beside(room, library, row, how, call):
    """The same with a new store beside the old one, which is in the way of the next run."""
    with Place(room, before(row)) as place:
        is_killed = place.recover(*place.out(), library=library, **{how: call}).returncode == -signal.SIGKILL
        if os.path.exists(place.at("new")):
            ran = place.recover(*place.out())
            if not has_refused(ran, b"fault 5: writing the store failed\n"):
                return is_killed, [f"{name_of(row)}, {how} {call}, a new store in the way: {shown(ran, place)}"]
            os.remove(place.at("new"))
        ran = place.recover(*place.out())
        is_well = ran.returncode == 0 and place.files() == beside(row)
        return is_killed, [] if is_well else [f"{name_of(row)}, {how} {call}, a new store: {shown(ran, place)}"]


def fault_of(ran):
    """The number of the fault with which a run ended."""
    return ran.stderr.splitlines()[-1][:8] if ran.stderr else b""


def wrong_after_failure(room, library, row, how, call):
    """Whether the call was made, and what is wrong after its failure. If it was one that reads, the folder is as it was."""
    unread = (b"fault 2:", b"fault 3:")
    with Place(room, before(row)) as place, tempfile.NamedTemporaryFile(dir=room) as calls:
        ran = place.recover(*REPLACE, library=library, **{how: call, "CALLS": calls.name})
        is_made = b"fail" in bytes_of(calls.name)
        is_refused = ran.returncode == 1 and fault_of(ran) in (*unread, b"fault 4:", b"fault 5:") and not ran.stdout
        is_kept = place.files() == before(row) or fault_of(ran) not in unread
        is_clean = set(place.files()) <= {"log", "store", "log.tail"}
        is_done = ran.returncode == 0 and not ran.stderr
        wrong = [] if is_done or (is_refused and is_kept and is_clean) else [f"{name_of(row)}, {how} {call}: {shown(ran, place)}"]
        return is_made, wrong + wrong_again(place, row, f"{how} {call}")


def wrong_at_each_call(job, row, how):
    """What is wrong where the job meets each call in turn."""
    call, is_met, wrong = 0, True, []
    while is_met and call < 1000:
        call += 1
        is_met, found = job(row, how, call)
        wrong += found
    return wrong if call > 10 else [f"{name_of(row)}: {call} calls only"]


def check_each_call(tally, room, what, job, cases):
    """The job takes a row, a setting of the library and a number."""
    wrong = each(lambda case: wrong_at_each_call(job, row_named(case[0], room), case[1]), cases)
    say(tally, f"{what}, {len(cases)} cases", wrong)


def check_calls(tally, room, library):
    kills = [(name, how) for how in ("KILL_BEFORE", "KILL_WITHIN", "KILL_AFTER") for name in (*ROWS, *TORN_ROWS)]
    out = [(name, how) for name, how in kills if name in ROWS_OUT]
    failures = [(name, "FAIL_AT") for name in (*ROWS, *TORN_ROWS)]
    check_each_call(tally, room, "killed at each call", functools.partial(wrong_after_kill, room, library), kills)
    check_each_call(tally, room, "killed at each call, a new store", functools.partial(wrong_after_kill_beside, room, library), out)
    check_each_call(tally, room, "each call fails", functools.partial(wrong_after_failure, room, library), failures)


# Power cuts.

def traced(room, library, files, is_replaced=True):
    """The calls of a recovery of these files that change or sync something."""
    with Place(room, files) as place, tempfile.NamedTemporaryFile(dir=room, mode="r", encoding="ascii") as calls:
        place.recover(*(REPLACE if is_replaced else place.out()), library=library, CALLS=calls.name)
        return calls.read().splitlines()


def different(states):
    """Each of these states once."""
    return list({tuple(sorted(state.items())): state for state in states}.values())


def wrong_after_cut(room, row, state):
    sizes = {name: len(text) for name, text in sorted(state.items())}
    with Place(room, state) as place:
        return wrong_again(place, row, f"a power cut that left {sizes}")


def wrong_after_cut_beside(room, row, state):
    """The same with a new store beside the old one: what is there of it is removed before the next run."""
    sizes = {name: len(text) for name, text in sorted(state.items())}
    with Place(room, {name: text for name, text in state.items() if name != "new"}) as place:
        ran = place.recover(*place.out())
        is_well = ran.returncode == 0 and has_finished(ran) and place.files() == beside(row)
        return [] if is_well else [f"{name_of(row)}, a power cut that left {sizes}: {shown(ran, place)}"]


def states_of(room, library, row, count):
    """What power cuts may leave while a row is recovered, and while what a power cut left is recovered again."""
    chooser = random.Random(name_of(row))
    states = different(power_cuts(before(row), traced(room, library, before(row)), chooser, count))
    with_tail = [state for state in states if state.get("log.tail") == tail_of(row)]
    seconds = [power_cuts(state, traced(room, library, state), chooser, 2) for state in chooser.sample(with_tail, min(len(with_tail), count))]
    return different(states + [state for cuts in seconds for state in cuts])


def states_beside(room, library, row, count):
    """What power cuts may leave while a row is recovered with a new store beside the old one."""
    calls = traced(room, library, before(row), is_replaced=False)
    return different(power_cuts(before(row), calls, random.Random(name_of(row)), count))


def after(row, calls):
    """The disk after these calls, as it is with no power cut."""
    disk = Disk(before(row))
    for call in calls:
        disk.do(call)
    return disk


def is_as_defined(row, calls):
    """Whether the file of the tail, when it is synced, is that of the definition."""
    return after(row, calls[:calls.index("sync log.tail.aries-new")]).files()["log.tail.aries-new"] == tail_of(row)


def is_synced(row, calls):
    """Whether a power cut after the run leaves what the row says, and nothing else."""
    disk = after(row, calls)
    return disk.is_synced() and disk.files() == replaced(row)


def check_power_cuts(tally, room, library, is_all):
    rows = [row_named(name, room) for name in (*ROWS, *TORN_ROWS, *ROWS_OF_SECTORS)]
    traces = [(row, traced(room, library, before(row))) for row in rows]
    say(tally, "the file of the tail as it is defined", [name_of(row) for row, calls in traces if not is_as_defined(row, calls)])
    say(tally, "all synced at last", [name_of(row) for row, calls in traces if not is_synced(row, calls)])
    cuts = [(row, state) for row in rows for state in states_of(room, library, row, 100 if is_all else 20)]
    say(tally, f"{len(cuts)} power cuts", each(lambda cut: wrong_after_cut(room, *cut), cuts))
    rows = [row_named(name, room) for name in ROWS_OUT]
    cuts = [(row, state) for row in rows for state in states_beside(room, library, row, 100 if is_all else 20)]
    say(tally, f"{len(cuts)} power cuts, a new store", each(lambda cut: wrong_after_cut_beside(room, *cut), cuts))


def plant(room, library):
    """Says for each sync of a recovery how many power cuts would not be repaired without it."""
    rows = [row_named(name, room) for name in PLANTED_ROWS]
    traces = [(row, traced(room, library, before(row))) for row in rows]
    calls = traces[0][1]
    for at in (None, *syncs_of(calls)):
        number = None if at is None else syncs_of(calls).index(at)
        cuts = [cut for trace in traces for cut in cuts_without(*trace, number)]
        wrong = each(lambda cut: wrong_after_cut(room, *cut), cuts)
        what = "all syncs" if at is None else f"no `{calls[at]}` after `{' '.join(calls[at - 1].split()[:2])}`"
        print(f"{what}: {len(wrong)} of {len(cuts)} power cuts are not repaired {wrong[:2]}", flush=True)


def syncs_of(calls):
    return [at for at, call in enumerate(calls) if call.startswith("sync ")]


def cuts_without(row, calls, number):
    """The power cuts of a run without the sync of this number, or with all if there is none."""
    left_out = None if number is None else syncs_of(calls)[number]
    calls = [call for at, call in enumerate(calls) if at != left_out]
    chooser = random.Random(f"{name_of(row)} {number}")
    return [(row, state) for state in different(power_cuts(before(row), calls, chooser, 60))]


def check_in_place(tally, room, is_all=False):
    library = library_of(room, "watch_calls")
    check_rows(tally, room)
    check_modes(tally, room)
    check_refusals(tally, room, library)
    check_tails(tally, room)
    check_calls(tally, room, library)
    check_power_cuts(tally, room, library, is_all)


def main():
    tally = Tally()
    with tempfile.TemporaryDirectory(prefix="aries-in-place-") as room:
        if "--plant" in sys.argv:
            plant(room, library_of(room, "watch_calls"))
        else:
            check_in_place(tally, room, "--all" in sys.argv)
            print(f"{tally.passed} passed, {tally.failed} failed")
    sys.exit(1 if tally.failed else 0)


if __name__ == "__main__":
    main()
