"""What `aries recover --in-place` makes of what it finds: other names of its files, files that are not its own, another run, a folder that `aries_files`
keeps, what is more than a torn record, an old or a forged file of a tail, and bytes that a killed run or a killed engine left in the cache of the system
alone.

usage: tests/found.py [--all]    at the top of the repository, when the programs are built

`tests/run.py` calls `check_found`. Run alone, `--all` tries more power cuts and histories.
"""
import copy
import fcntl
import functools
import os
import random
import struct
import subprocess
import sys
import tempfile

sys.dont_write_bytecode = True  # no folder of it beside the tests
from disk import Disk
from in_place import REPLACE, WRITING, Place, before, commit_after, different, each, has_finished, kept_of, name_of, next_lsn, replaced, row_named, say, shown
from in_place import tail_of, tail_text, traced, wrong_after_cut
from long_logs import frame
from program import ARIES, DUMP, Tally, bytes_of, has_printed, has_refused, library_of, run

WRITING_STORE = b"fault 5: writing the store failed\n"
LONGEST_UPDATE = 128  # bytes of the longest frame but a checkpoint's
LONG_TORN = struct.pack(">IB", 500, 1) + b"T" * 300  # part of a frame of 504 bytes
KILLED_ROWS = ("two-losers", "one-loser torn", "torn-tail", "prepared-beside-loser", "base-loser")
ENGINE_ROWS = ("two-losers", "torn-tail", "rollback-interrupted", "several-kinds-of-loser")
PAIRS = 40


def recover(place, log, store, *more, **how):
    """A recovery in place of two files of a folder; `more` may name files of it, too. It fails if it waits for something."""
    words = [ARIES, "recover", "--in-place", "--log", place.at(log), "--store", place.at(store), *more]
    try:
        return run(words, timeout=20, **how)
    except subprocess.TimeoutExpired:
        return subprocess.CompletedProcess(words, -1, b"", b"it waits")


def check_unchanged(tally, what, place, files, ran, fault, said):
    """Whether a run has refused by this fault, said why, and changed nothing."""
    is_well = has_refused(ran, fault) and said.encode() in ran.stderr and place.files() == files
    tally.say(f"in place: {what}", is_well, shown(ran, place))


def check_refusal(tally, room, what, files, names, fault, said, *more):
    with Place(room, files) as place:
        ran = recover(place, *names, *(more or REPLACE))
        check_unchanged(tally, what, place, files, ran, fault, said)


# Names.

def check_names(tally, room):
    row = row_named("two-losers", room)
    log, store = before(row)["log"], before(row)["store"]
    twice = "is given twice, or is one that the recovery needs for itself"
    check_refusal(tally, room, "a store that is called as the file of the tail is", {"log": log, "log.tail": store}, ("log", "log.tail"), WRITING, twice)
    check_refusal(tally, room, "a log that is called as the new store is", {"st.aries-new": log, "st": store}, ("st.aries-new", "st"), WRITING_STORE, twice)
    check_refusal(tally, room, "one file as log and store", {"log": log}, ("log", "log"), WRITING, twice)
    with Place(room, before(row)) as place:
        for name in ("log.tail", "log.tail.aries-new", "./log.tail", "log"):
            ran = recover(place, "log", "store", "--out-store", place.at(name))
            check_unchanged(tally, f"a new store that is called {name}", place, before(row), ran, WRITING_STORE, twice)
    with Place(room, {"st.new": log, "st": store}) as place:
        ran = recover(place, "st.new", "st", *REPLACE)
        is_well = has_printed(ran, bytes_of(row.at("printed"))) and place.files() == {"st.new": replaced(row)["log"], "st": replaced(row)["store"]}
        tally.say("in place: a log that is called st.new beside a store st", is_well, shown(ran, place))


def check_links(tally, room):
    row = row_named("two-losers", room)
    for name, fault in (("log", WRITING), ("store", WRITING_STORE)):
        with Place(room, before(row)) as place:
            os.link(place.at(name), place.at("other"))
            files = place.files()
            check_unchanged(tally, f"a second name of the {name}", place, files, recover(place, "log", "store", *REPLACE), fault, "has a second name (a hard link)")
    with Place(room, before(row)) as place, Place(room, {}) as links:
        for name in ("log", "store"):
            os.symlink(place.at(name), links.at(name))
        ran = recover(links, "log", "store", *REPLACE)
        is_well = has_printed(ran, bytes_of(row.at("printed"))) and place.files() == replaced(row) and all(os.path.islink(links.at(it)) for it in links.files())
        tally.say("in place: links to the log and to the store", is_well, shown(ran, place))
    # What a run by the real name left is found by a link.
    with Place(room, {**before(row), "log.tail": tail_of(row)}) as place, Place(room, {}) as links:
        os.symlink(place.at("log"), links.at("log"))
        ran = run([ARIES, "recover", "--in-place", "--log", links.at("log"), "--store", place.at("store"), *REPLACE])
        is_well = ran.returncode == 0 and bool(ran.stderr) and has_finished(ran) and place.files() == replaced(row)
        tally.say("in place: what a run by another name left", is_well, shown(ran, place))


def check_kinds(tally, room):
    row = row_named("two-losers", room)
    irregular = "is not a regular file, so nothing is recovered in place"
    for pipe, fault in (("log", WRITING), ("store", WRITING_STORE), ("log.tail", WRITING)):
        with Place(room, {name: text for name, text in before(row).items() if name != pipe}) as place:
            os.mkfifo(place.at(pipe))
            ran = recover(place, "log", "store", *REPLACE)
            is_well = has_refused(ran, fault) and irregular.encode() in ran.stderr and sorted(os.listdir(place.folder)) == sorted({*before(row), pipe})
            tally.say(f"in place: a pipe in place of {pipe}", is_well, ran.stderr)
    with Place(room, before(row)) as place:
        os.symlink(place.at("nothing"), place.at("log.tail"))
        ran = recover(place, "log", "store", *REPLACE)
        is_well = has_refused(ran, WRITING) and irregular.encode() in ran.stderr and sorted(os.listdir(place.folder)) == ["log", "log.tail", "store"]
        tally.say("in place: a link to nothing in place of the file of the tail", is_well, ran.stderr)


def check_high_lsns(tally, room):
    """A log is continued in place if it can be read in pieces: if none of its LSNs can pass 2^63 - 1. Recovered into new files, this one is a row."""
    row = row_named("base-largest", room)
    check_refusal(tally, room, "a log whose LSNs are near 2^63", before(row), ("log", "store"), WRITING, "has LSNs near 2^63: recover it into new files")


def check_piped_store(tally, room):
    row = row_named("two-losers", room)
    with Place(room, {"log": before(row)["log"]}) as place:
        words = [ARIES, "recover", "--in-place", "--log", place.at("log"), "--store", "/dev/stdin", "--out-store", place.at("new")]
        ran = run(words, input=before(row)["store"])
        is_well = has_printed(ran, bytes_of(row.at("printed"))) and place.files() == {"log": replaced(row)["log"], "new": replaced(row)["store"]}
        tally.say("in place: a store through a pipe", is_well, shown(ran, place))


def check_own_files(tally, room):
    """Files of an operator with the names that a recovery uses are not removed."""
    row = row_named("two-losers", room)
    for name, fault in (("log.tail", WRITING), ("log.tail.aries-new", WRITING), ("store.aries-new", WRITING_STORE)):
        check_refusal(tally, room, f"an operator's own {name}", {**before(row), name: b"my notes\n"}, ("log", "store"), fault, "was not left by a recovery")
    with Place(room, {**before(row), "store.new": b"my notes\n"}) as place:
        ran = recover(place, "log", "store", *REPLACE)
        is_well = has_printed(ran, bytes_of(row.at("printed"))) and place.files() == {**replaced(row), "store.new": b"my notes\n"}
        tally.say("in place: an operator's own store.new", is_well, shown(ran, place))


# One recovery at a time.

def copying(place):
    """A recovery of a folder's files into new files."""
    words = ["--out-log", place.at("new-log"), "--out-store", place.at("new-store")]
    return run([ARIES, "recover", "--log", place.at("log"), "--store", place.at("store"), *words])


def check_lock(tally, room):
    row = row_named("two-losers", room)
    with Place(room, before(row)) as place, open(place.at("log"), "rb") as log:
        fcntl.flock(log, fcntl.LOCK_EX)
        check_unchanged(tally, "a log that another program has locked", place, before(row), recover(place, "log", "store", *REPLACE), WRITING, "is locked by another program")
        audit = run([ARIES, "audit", "--log", place.at("log"), "--store", place.at("store")])
        dump = run([DUMP, "log", place.at("log")])
        said = b'the log "%s" is locked: another program may be writing it\n' % place.at("log").encode()
        ran = copying(place)
        tally.say("a locked log: audit, dump and a recovery into new files say so", audit.stdout == b"lawful\n" and audit.stderr == b"aries: " + said
                  and dump.returncode == 0 and dump.stderr == b"aries_dump: " + said and ran.returncode == 0 and ran.stderr == b"aries: " + said,
                  f"{audit.stderr} {dump.stderr} {ran.stderr}")


def is_turned_away(said):
    """Whether a run says that another one is at work, or that another one's store came after it had opened the old one."""
    return said.endswith(WRITING) or b'" was replaced by another program just now: ' in said and said.endswith(WRITING_STORE)


def wrong_with_two(room, row, number):
    """What is wrong after two runs that begin one after another, some time apart."""
    words = lambda place: [ARIES, "recover", "--in-place", "--log", place.at("log"), "--store", place.at("store"), *REPLACE]
    with Place(room, before(row)) as place:
        first = subprocess.Popen(words(place), stdout=subprocess.PIPE, stderr=subprocess.PIPE)
        try:
            first.wait(random.Random(number).random() * 0.01)
        except subprocess.TimeoutExpired:
            pass
        second = run(words(place))
        _, said = first.communicate()
        ends = [(first.returncode, said), (second.returncode, second.stderr)]
        is_well = place.files() == replaced(row) and any(status == 0 for status, _ in ends) and all(status == 0 or is_turned_away(said) for status, said in ends)
        return [] if is_well else [f"pair {number}: {ends} {[(name, len(text)) for name, text in place.files().items()]}"]


def check_two_runs(tally, room):
    row = row_named("three-hundred-pages", room)
    say(tally, f"two runs at once, {PAIRS} times", each(functools.partial(wrong_with_two, room, row), range(PAIRS)))


# A folder that `aries_files` keeps, and what lies beside a log.

def check_kept_folder(tally, room):
    kept = "is kept by aries_files"
    for name, beside in (("two-losers", "sums-0"), ("two-losers", "pages"), ("base-loser", None)):
        row = row_named(name, room)
        beside = beside or f"sums-{int.from_bytes(before(row)['log'][8:16], 'big')}"
        check_refusal(tally, room, f"{beside} beside the log of {name}", {**before(row), beside: b"ARIESSUM"}, ("log", "store"), WRITING, kept)
        with Place(room, {**before(row), beside: b"ARIESSUM"}) as place:
            ran = copying(place)
            tally.say(f"{beside} beside the log of {name}: a recovery into new files says so", ran.returncode == 0 and b"aries_files keeps the log" in ran.stderr, ran.stderr)


def check_tail_beside(tally, room):
    """Who reads a log without finishing an interrupted recovery says that it was interrupted."""
    row = row_named("two-losers", room)
    with Place(room, {**before(row), "log": kept_of(row) + bytes(50), "log.tail": tail_of(row)}) as place:
        runs = [run([ARIES, "audit", "--log", place.at("log"), "--store", place.at("store")]), run([DUMP, "log", place.at("log")]), copying(place)]
        said = b'"%s.tail" is there: a recovery in place was interrupted' % place.at("log").encode()
        tally.say("a file of a tail beside a damaged log: audit, dump and a recovery into new files say so",
                  all(said in ran.stderr and ran.stderr.splitlines()[-1].startswith(b"fault 7") for ran in runs), [ran.stderr for ran in runs])


# What is cut off, and who owns what is made.

def check_torn(tally, room):
    row = row_named("two-losers", room)
    kept = before(row)["log"]
    with Place(room, {**before(row), "log": kept + LONG_TORN}) as place:
        ran = recover(place, "log", "store", *REPLACE)
        name = f"log.torn-{len(kept)}"
        said = f'aries: cut {len(LONG_TORN)} bytes off the log "{place.at("log")}" at byte {len(kept)}: more than a torn record; they are in "{place.at(name)}"\n'
        tally.say("in place: more than a torn record is kept", ran.returncode == 0 and ran.stderr == said.encode() and place.files() == {**replaced(row), name: LONG_TORN}, shown(ran, place))
    name = f"log.torn-{len(kept)}"
    with Place(room, {**before(row), "log": kept + LONG_TORN, name: LONG_TORN}) as place:
        ran = recover(place, "log", "store", *REPLACE)
        tally.say("in place: more than a torn record that is kept already", ran.returncode == 0 and place.files() == {**replaced(row), name: LONG_TORN}, shown(ran, place))
    check_refusal(tally, room, "other bytes are kept", {**before(row), "log": kept + LONG_TORN, name: b"other"}, ("log", "store"), WRITING, "keeping what is cut off")
    with Place(room, {**before(row), "log": kept + LONG_TORN}) as place:
        ran = copying(place)
        said = f'aries: {len(LONG_TORN)} bytes after the last whole record of the log "{place.at("log")}" are not in the new one: more than a torn record\n'
        tally.say("more than a torn record: a recovery into new files says so", ran.returncode == 0 and ran.stderr == said.encode(), ran.stderr)
    with Place(room, {**before(row), "log": kept + LONG_TORN[:LONGEST_UPDATE]}) as place:
        ran = recover(place, "log", "store", *REPLACE)
        tally.say("in place: a torn record is not kept", ran.returncode == 0 and not ran.stderr and place.files() == replaced(row), shown(ran, place))


def rights(place, name):
    it = os.stat(place.at(name))
    return it.st_uid, it.st_gid, it.st_mode & 0o7777


def check_owner(tally, room):
    if os.geteuid() != 0:
        return tally.skip("in place: the owner of the new store", "since this is not root")
    row = row_named("two-losers", room)
    with Place(room, before(row)) as place:
        for name in ("log", "store"):
            os.chown(place.at(name), 12345, 54321)
            os.chmod(place.at(name), 0o640)
        new, ran = copying(place), recover(place, "log", "store", *REPLACE)
        found = [rights(place, name) for name in ("log", "store", "new-log", "new-store")]
        tally.say("root leaves new files to the owner of the old ones", ran.returncode == new.returncode == 0 and found == [(12345, 54321, 0o640)] * 4, found)
    with Place(room, {**before(row), "log.tail": tail_of(row)}) as place:
        os.chown(place.at("log.tail"), 12345, 54321)
        ran = recover(place, "log", "store", *REPLACE)
        check_unchanged(tally, "a file of a tail of another user", place, {**before(row), "log.tail": tail_of(row)}, ran, WRITING, "is of another user than the log")


# An old file of a tail, or a forged one.

def check_old_tails(tally, room):
    row = row_named("one-commit", room)
    log, store = replaced(row)["log"], replaced(row)["store"]
    for what, more in (("a commit", commit_after(log)), ("a checkpoint's begin", frame(6, next_lsn(log), b""))):
        old = tail_text(len(log) + len(more), log, b"\0\0\0\x99" + b"T" * (len(more) - 4), b"")
        with Place(room, {"log": log + more, "store": store, "log.tail": old}) as place:
            ran = recover(place, "log", "store", *REPLACE)
            tally.say(f"in place: {what} as long as what an old file of a tail cuts off", ran.returncode == 0 and place.files() == {"log": log + more, "store": store}, shown(ran, place))
    files = before(row)
    for what, tail in (("keeps nothing", tail_text(len(files["log"]), b"", files["log"], b"")), ("cuts more than a record", tail_text(10 ** 6, files["log"], b"", b""))):
        check_refusal(tally, room, f"a file of a tail that {what}", {**files, "log.tail": tail}, ("log", "store"), WRITING, "was not left by a recovery")
    long = tail_text(len(files["log"]), files["log"], b"", bytes(300_000))
    check_refusal(tally, room, "a file of a tail that is too long", {**files, "log.tail": long}, ("log", "store"), WRITING, "was not left by a recovery")


# Power cuts after a kill: what is seen may not be on the disk. After each call of a run it is killed; the next run is ended by a power cut after each
# of its calls; the third has to finish.

def cuts_of_next(room, library, disk, chooser, count):
    """What power cuts may leave during a run on what is seen on this disk."""
    disk = copy.deepcopy(disk)
    states = [disk.after_power_cut(chooser) for _ in range(count)]
    for call in traced(room, library, disk.files()):
        disk.do(call)
        states += [disk.after_power_cut(chooser) for _ in range(count)]
    return different(states)


def cuts_after_kills(room, library, count, row):
    chooser, disk, states = random.Random(name_of(row)), Disk(before(row)), []
    for call in traced(room, library, before(row)):
        disk.do(call)
        if not disk.is_synced():
            states += cuts_of_next(room, library, disk, chooser, count)
    return [(row, state) for state in different(states)]


def check_kills_and_cuts(tally, room, library, is_all):
    rows = [row_named(name, room) for name in KILLED_ROWS]
    cuts = each(functools.partial(cuts_after_kills, room, library, 60 if is_all else 15), rows)
    say(tally, f"{len(cuts)} power cuts in the run after a kill", each(lambda cut: wrong_after_cut(room, *cut), cuts))


# Histories: up to four runs, each killed or ended by a power cut after one of its calls. What is then there is recovered as if nothing had happened.

def disk_after_history(room, library, row, chooser):
    disk, ends = Disk(before(row)), []
    for _ in range(chooser.randint(1, 4)):
        calls = traced(room, library, disk.files())
        stop = chooser.randint(0, len(calls))
        for call in calls[:stop]:
            disk.do(call)
        is_cut = chooser.random() < 0.5
        if is_cut:
            disk = Disk(disk.after_power_cut(chooser))
        ends.append(f"{'cut' if is_cut else 'killed'} after {' '.join(calls[stop - 1].split()[:2]) if stop else 'nothing'}")
    return disk, ends


def wrong_after_history(room, library, job):
    row, number = job
    chooser = random.Random(f"{name_of(row)} {number}")
    disk, ends = disk_after_history(room, library, row, chooser)
    return [f"{', '.join(ends)}: {wrong}" for wrong in wrong_after_cut(room, row, disk.after_power_cut(chooser))]


def check_histories(tally, room, library, is_all):
    rows = [row_named(name, room) for name in KILLED_ROWS]
    jobs = [(row, number) for row in rows for number in range(2000 if is_all else 40)]
    say(tally, f"{len(jobs)} histories of kills and power cuts", each(functools.partial(wrong_after_history, room, library), jobs))


# An engine is killed, and the end of its log is in the cache alone. A power cut keeps any part of it; what a recovery makes of that part is right.

def disk_of_engine(row, synced):
    disk = Disk(before(row))
    disk.folder[-1]["log"] = [before(row)["log"][:synced], before(row)["log"]]
    return disk


def wrong_after_engine(room, row, state):
    """What is wrong with a recovery after a power cut, beside one of the same log and store into new files."""
    with Place(room, {name: text for name, text in state.items() if name in ("log", "store")}) as place:
        expected = copying(place)
        files = {"log": bytes_of(place.at("new-log")), "store": bytes_of(place.at("new-store"))}
    is_whole = state.get("log.tail") == tail_of(row)
    with Place(room, state) as place:
        ran = recover(place, "log", "store", *REPLACE)
        wanted = replaced(row) if is_whole else files
        is_well = ran.returncode == 0 and has_finished(ran) and place.files() == wanted and (is_whole or expected.returncode == 0)
        return [] if is_well else [f"{name_of(row)}, the engine killed, a power cut that left { {name: len(text) for name, text in state.items()} }: {shown(ran, place)}"]


def without_torn_sectors(disk, state, chooser):
    """The same, with a log that is cut where its disk ended, at any byte: an engine's log keeps its order."""
    versions = disk.folder[-1]["log"]
    if len(versions) != 2 or not versions[1].startswith(versions[0]):
        return state
    return {**state, "log": versions[1][:chooser.randint(len(versions[0]), len(versions[1]))]}


def cuts_after_engine(room, library, count, row):
    chooser, states, log = random.Random(name_of(row)), [], before(row)["log"]
    disk = disk_of_engine(row, len(log) - min(60, len(log) - 8))
    for call in ["sync store", *traced(room, library, before(row))]:
        disk.do(call)
        states += [without_torn_sectors(disk, disk.after_power_cut(chooser), chooser) for _ in range(count)]
    return [(row, state) for state in different(states)]


def check_killed_engine(tally, room, library, is_all):
    rows = [row_named(name, room) for name in ENGINE_ROWS]
    cuts = each(functools.partial(cuts_after_engine, room, library, 100 if is_all else 25), rows)
    say(tally, f"{len(cuts)} power cuts after the engine was killed", each(lambda cut: wrong_after_engine(room, *cut), cuts))


def check_found(tally, room, is_all=False):
    library = library_of(room, "watch_calls")
    for check in (check_names, check_links, check_kinds, check_high_lsns, check_piped_store, check_own_files, check_lock, check_two_runs, check_kept_folder, check_tail_beside, check_torn,
                  check_owner, check_old_tails):
        check(tally, room)
    check_kills_and_cuts(tally, room, library, is_all)
    check_histories(tally, room, library, is_all)
    check_killed_engine(tally, room, library, is_all)


def main():
    tally = Tally()
    with tempfile.TemporaryDirectory(prefix="aries-found-") as room:
        check_found(tally, room, "--all" in sys.argv)
        print(f"{tally.passed} passed, {tally.failed} failed")
    sys.exit(1 if tally.failed else 0)


if __name__ == "__main__":
    main()
