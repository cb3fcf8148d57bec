"""Recoveries and audits by the program: rows of real size, the small rows in version 2, files that are missing, stand already, or are of another profile,
wrong lines, prints that fail, how many threads are started, and each growth of memory refused in turn."""
import functools
import os
import shutil
import subprocess
import sys
import tarfile

sys.dont_write_bytecode = True  # no folder of it beside the tests
from long_logs import LARGEST_BASE, long_row
from program import ARIES, LARGE_ROWS, ROW_RUNNER, SMALL_ROWS, TOP, Row, bytes_of, has_printed, has_refused, in_doubt, library_of, run

sys.path.append(os.path.join(TOP, "profiles"))
from row_files import PROFILE, Profile, in_profile

REFUSED_ROWS = ["one-commit", "two-losers", "checkpoint-loser", "prepared-beside-loser", "empty-and-full-values", "ten-pages"]
NO_RESOURCE = b"fault 1: no resource\n"


# Rows of real size: what is expected was worked by a model that shares no code with the program.

def check_large_row(tally, name, row):
    over = ("--base", row.at("base")) if os.path.exists(row.at("base")) else ()
    for workers, parts in ((1, 1), (4, 16), (64, 4096)):
        ran = row.recover(workers=workers, parts=parts, is_piped=True)
        is_well = has_printed(ran, bytes_of(row.at("printed"))) and row.is_recovered()
        tally.say(f"{name}, {workers} workers, {parts} parts", is_well, ran.stderr)
    ran = row.recover()
    is_well = has_printed(ran, bytes_of(row.at("printed"))) and row.is_recovered()
    tally.say(f"{name}, in pieces", is_well, ran.stderr)
    tally.say(f"{name}, audit", has_printed(row.audit(more=over), bytes_of(row.at("audited"))))
    tally.say(f"{name}, audit of its outcome", has_printed(row.audit("out-log", "out-store", over), b"lawful\n"))
    again = row.recover("out-log", "out-store")
    is_well = again.returncode == 0 and row.is_recovered() and in_doubt(again.stdout) == in_doubt(bytes_of(row.at("printed")))
    tally.say(f"{name}, its outcome again", is_well, again.stderr)


def check_large_rows(tally, room):
    for archive in sorted(os.listdir(LARGE_ROWS)):
        name = archive.partition(".")[0]
        with tarfile.open(os.path.join(LARGE_ROWS, archive)) as files:
            files.extractall(room)
        check_large_row(tally, name, Row(os.path.join(room, name), room))


# Version 2 of a log: with base 0 it says what version 1 says, and keeps its own header.

def in_version_2(log):
    return b"ARIESLG2" + bytes(8) + log[8:]


def moved_back(printed):
    """What was printed, with the offset that version 1 gives: there the frames stand 8 bytes nearer to the beginning."""
    words = printed.split(b" at byte ")
    if len(words) < 2:
        return printed
    return b"%s at byte %d\n" % (words[0], int(words[1]) - 8)


def is_same_in_version_2(row, ran):
    """Whether a recovery prints what it prints of version 1, and makes the same files, the header aside."""
    expected = bytes_of(row.at("printed"))
    if ran.returncode == 1:
        return moved_back(ran.stderr) == expected and row.is_nothing_out()
    log, store = in_version_2(bytes_of(row.at("out-log"))), bytes_of(row.at("out-store"))
    return has_printed(ran, expected) and bytes_of(row.new_at("log")) == log and bytes_of(row.new_at("store")) == store


def check_row_in_version_2(tally, row, log):
    name = os.path.basename(row.folder)
    if os.path.exists(row.at("printed")):
        ran = row.recover(log=log)
        tally.say(f"{name} in version 2", is_same_in_version_2(row, ran), ran.stderr)
    if os.path.exists(row.at("audited")):
        over = ("--base", row.at("base")) if os.path.exists(row.at("base")) else ()
        ran = row.audit(log=log, more=over)
        is_same = moved_back(ran.stdout + ran.stderr) == bytes_of(row.at("audited"))
        tally.say(f"{name} in version 2, audit", is_same, ran.stderr)


def check_version_2(tally, room):
    log = os.path.join(room, "version-2")
    for name in sorted(os.listdir(SMALL_ROWS)):
        row = Row(os.path.join(SMALL_ROWS, name), room)
        text = bytes_of(row.at("log")) if os.path.isdir(row.folder) else b""
        if text.startswith(b"ARIESLG1"):
            with open(log, "wb") as file:
                file.write(in_version_2(text))
            check_row_in_version_2(tally, row, log)


# Files and words: what the program prints, its status, and which files it makes.

def check_files(tally, room):
    row = Row(os.path.join(SMALL_ROWS, "one-commit"), room)
    ran = row.recover()
    tally.say("a recovery", has_printed(ran, bytes_of(row.at("printed"))) and row.is_recovered(), ran.stderr)
    words = ["recover", "--log", row.at("log"), "--store", row.at("store"), "--out-log"]
    for stands, line in (("log", b"fault 4: writing the log failed\n"), ("store", b"fault 5: writing the store failed\n")):
        folder = os.path.join(room, f"{stands}-stands")
        os.mkdir(folder)
        with open(os.path.join(folder, stands), "w") as mine:
            mine.write("mine")
        ran = run([ARIES, *words, os.path.join(folder, "log"), "--out-store", os.path.join(folder, "store")])
        tally.say(f"a {stands} stands there", has_refused(ran, line) and bytes_of(os.path.join(folder, stands)) == b"mine", ran.stderr)
    both = os.path.join(room, "both")
    ran = run([ARIES, *words, both, "--out-store", both])
    tally.say("one path for both", has_refused(ran, b"fault 5: writing the store failed\n") and bytes_of(both) == b"", ran.stderr)


def check_missing_files(tally, room):
    row = Row(os.path.join(SMALL_ROWS, "one-commit"), room)
    for log, store, line in (
        ("none", "none", b"fault 2: reading the log failed\n"),
        ("log", "none", b"fault 3: reading the store failed\n"),
    ):
        ran = row.recover(log, store)
        is_none_made = not os.path.exists(row.new_at("log")) and not os.path.exists(row.new_at("store"))
        tally.say(f"recovery of {log}, {store}", has_refused(ran, line) and is_none_made, ran.stderr)
        tally.say(f"audit of {log}, {store}", has_refused(row.audit(log, store), line))
    tally.say("a store for a log", has_refused(row.audit("store", "log"), b"fault 6: bad log header\n"))
    # The base store is read behind the store, and decoded behind it.
    base = ["--base", row.at("none")]
    tally.say("no base store", has_refused(row.audit(more=base), b"fault 3: reading the store failed\n"))
    tally.say("a bad log before a base store", has_refused(row.audit("store", "store", more=["--base", row.at("log")]), b"fault 6: bad log header\n"))
    tally.say("a log for a base store", has_refused(row.audit(more=["--base", row.at("log")]), b"fault 10: bad store header\n"))


def check_words(tally, room):
    row = Row(os.path.join(SMALL_ROWS, "one-commit"), room)
    ran = run([ARIES, "--help"])
    tally.say("help", ran.returncode == 0 and b"recover" in ran.stdout and not ran.stderr)
    ran, names = run([ARIES, "recover", "--help"]), [line.split()[0] for line in bytes_of(row.at("printed")).splitlines()]
    told = ran.stdout.partition(b"It prints eight lines:\n")[2].splitlines()[:len(names)]
    is_well = ran.returncode == 0 and not ran.stderr and [line.split()[0] for line in told] == names
    tally.say("help of a recovery tells the lines of its report", is_well, ran.stdout)
    ran = row.recover(workers="+4")
    tally.say("+4 workers", has_printed(ran, bytes_of(row.at("printed"))) and row.is_recovered(), ran.stderr)
    files = ["--log", row.at("log"), "--store", row.at("store")]
    made = [os.path.join(room, name) for name in ("made-log", "made-store")]
    out_log, out_store, in_place = ["--out-log", made[0]], ["--out-store", made[1]], ["recover", *files, "--in-place"]
    recover = ["recover", *files, *out_log, *out_store]
    for what, words, named in (
        ("no command", [], "Usage: "),
        ("no store", ["audit", *files[:2]], "--store <FILE>"),
        ("no workers", [*recover, "--workers", "0"], "--workers <N>"),
        ("too many parts", [*recover, "--parts", "4097"], "--parts <N>"),
        ("a base store for a recovery", [*recover, "--base", row.at("store")], "--base"),
        ("no new files", ["recover", *files], "'--out-store <FILE>' is needed"),
        ("no new log", ["recover", *files, *out_store], "'--out-log <FILE>' is needed"),
        ("no new store", ["recover", *files, *out_log], "'--out-store <FILE>' is needed"),
        ("a new log, and the store replaced", ["recover", *files, *out_log, "--replace"], "without '--in-place'"),
        ("the store replaced beside a new one", [*recover, "--replace"], "'--replace' cannot be used with '--out-store <FILE>'"),
        ("a recovery in place without a new store", in_place, "'--out-store <FILE>' is needed"),
        ("a new log in place", [*in_place, *out_log, *out_store], "'--in-place' cannot be used with '--out-log <FILE>'"),
        ("a new log in place, and the store replaced", [*in_place, *out_log, "--replace"], "'--in-place' cannot be used with '--out-log <FILE>'"),
        ("two stores in place", [*in_place, *out_store, "--replace"], "'--replace' cannot be used with '--out-store <FILE>'"),
        ("an audit in place", ["audit", *files, "--in-place"], "--in-place"),
    ):
        ran = run([ARIES, *words])
        is_none_made = not any(os.path.exists(file) for file in made)
        is_explained = named in ran.stderr.decode() and not ran.stdout
        tally.say(f"a wrong line: {what}", ran.returncode == 2 and is_explained and is_none_made, ran.stderr)
    ran = run([ARIES, "x\x1b[31m\x9b\u202e'"])
    is_well = ran.returncode == 2 and rb"x\u{1b}[31m\u{9b}\u{202e}'" in ran.stderr and b"\x1b" not in ran.stderr
    tally.say("a wrong line: a word that a terminal obeys", is_well, ran.stderr)
    ran = run([ARIES, "audit", "--log", b"\xff"])
    is_well = ran.returncode == 2 and ran.stderr == b"error: word 3 of the command line is no text (UTF-8)\n"
    tally.say("a word that is no text", is_well, ran.stderr)


# Prints that fail: nobody can write to /dev/full.

def check_prints(tally, room):
    row = Row(os.path.join(SMALL_ROWS, "one-commit"), room)
    with open("/dev/full", "wb") as full:
        ran = row.recover(stdout=full, stderr=subprocess.PIPE, capture_output=False)
        is_well = ran.returncode == 1 and not ran.stderr and row.is_recovered()
        tally.say("a report that cannot be printed", is_well, ran.stderr)
        ran = row.audit(stdout=full, stderr=subprocess.PIPE, capture_output=False)
        tally.say("`lawful` that cannot be printed", ran.returncode == 1 and not ran.stderr, ran.stderr)
        ran = run([ARIES, "--help"], stdout=full, stderr=subprocess.PIPE, capture_output=False)
        tally.say("help that cannot be printed", ran.returncode == 1, ran.stderr)
        ran = run([ARIES, "recover"], stdout=subprocess.PIPE, stderr=full, capture_output=False)
        tally.say("a wrong line that cannot be explained", ran.returncode == 1 and not ran.stdout)
        ran = row.audit(log="no-such-file", stdout=subprocess.PIPE, stderr=full, capture_output=False)
        tally.say("a fault that cannot be printed", ran.returncode == 1 and not ran.stdout)


# Threads: none for a short log in a file, which is read in pieces. For a long one, and for each log that is read into memory, more of them if more workers are
# asked for. What is written does not tell. If none are asked for, a short log gets one worker, and a long one four.

def threads_of(row, room, library, workers, is_piped=False):
    """How many threads a recovery starts; None where it writes something else than the row says."""
    started = os.path.join(room, "started")
    open(started, "wb").close()
    row.recover(workers=workers, parts=64, is_piped=is_piped, env=dict(os.environ, LD_PRELOAD=library, THREADS_STARTED=started))
    return len(bytes_of(started)) if row.is_recovered() else None


def check_threads(tally, room):
    short, long, library = Row(os.path.join(SMALL_ROWS, "ten-pages"), room), long_row(room, base=LARGEST_BASE), library_of(room, "count_threads")
    none = [threads_of(row, room, library, workers) for row, workers in ((short, 4), (short, None), (long_row(room), 1))]
    tally.say("threads of a short log in a file, and of one worker", none == [0] * 3, none)
    two, four, default = [threads_of(long_row(room), room, library, workers) for workers in (2, 4, None)]
    tally.say("threads of a long log in a file", None not in (two, four) and 0 < two < four == default, (two, four, default))
    counts = [threads_of(short, room, library, workers, True) for workers in (1, 4, 64)]
    tally.say("threads of 1, 4 and 64 workers", None not in counts and counts[0] < counts[1] < counts[2], counts)
    one = threads_of(short, room, library, None, True)
    tally.say("threads of a short log", one is not None and one == counts[0], (one, counts))
    both = [threads_of(long, room, library, workers) for workers in (4, None)]
    tally.say("threads of a long log", None not in both and both[0] == both[1] > 0, both)


# Each growth of memory refused in turn.

class Refuser:
    """Runs programs in which one growth of memory is refused, or one and all behind it."""

    def __init__(self, room, behind=False):
        self.library, self.mark = library_of(room, "refuse_growth"), os.path.join(room, "mark")
        self.behind = {"REFUSE_BEHIND": "1"} if behind else {}

    def in_turn(self, job):
        """What each run of the job gives, the first growth refused, then the second, until none is."""
        growth, is_refused = 0, True
        while is_refused:
            growth += 1
            if os.path.exists(self.mark):
                os.remove(self.mark)
            more = {"LD_PRELOAD": self.library, "REFUSE_MARK": self.mark, "REFUSE_GROWTH": str(growth), **self.behind}
            ran = job(env=dict(os.environ, **more))
            is_refused = os.path.exists(self.mark)
            yield ran, is_refused


def is_no_resource(ran):
    return ran.returncode == 1 and ran.stderr == NO_RESOURCE and not ran.stdout


def is_right_recovery(row, ran, is_refused):
    """Fault 1 and nothing out, or the row's files if memory for the report was refused; or these files and the report."""
    if is_no_resource(ran) and is_refused:
        return row.is_nothing_out() or row.is_recovered()
    return has_printed(ran, bytes_of(row.at("printed"))) and row.is_recovered()


def is_right_audit(row, ran, is_refused):
    """Fault 1; or the row's verdict, which alone may be refused."""
    if is_no_resource(ran) and is_refused:
        return True
    expected = bytes_of(row.at("audited"))
    return has_printed(ran, expected) or (ran.returncode == 1 and not ran.stderr and not ran.stdout and is_refused)


def is_right_line_of(what, ran, is_refused):
    """What the row says; or that memory was refused; or an error of the runner itself, before or after what it does."""
    line = ran.stdout.decode().rstrip("\n")
    if ran.returncode == 0:
        return line == f"{what}: ok" or (is_refused and line == f"{what}: no resource, and nothing out")
    return is_refused and ran.returncode == 1 and not line


def check_line(tally, room, refuser, name, word, what):
    """Runs one line of an index on a row, each growth of memory refused in turn."""
    folder = os.path.join(room, f"{word}-{name}")
    shutil.copytree(os.path.join(SMALL_ROWS, name), os.path.join(folder, name))
    with open(os.path.join(folder, "index"), "w") as index:
        index.write(f"{name} {word}\n")
    job = lambda **how: run([ROW_RUNNER], cwd=folder, **how)
    check_refused_growth(tally, f"{name}, {what}", refuser, job, lambda *ran: is_right_line_of(f"{name}, {what}", *ran))


def is_right_line(ran, is_refused):
    """Fault 1, or what is said of a wrong line."""
    return (is_no_resource(ran) and is_refused) or (ran.returncode == 2 and ran.stderr.startswith(b"error: ") and not ran.stdout)


def check_refused_growth(tally, what, refuser, job, is_right):
    """One check: no run of the job may give another answer."""
    wrong, count = [], 0
    for ran, is_refused in refuser.in_turn(job):
        count += is_refused
        if not is_right(ran, is_refused):
            wrong.append(f"growth {count}: status {ran.returncode}, {ran.stdout!r}, {ran.stderr!r}")
    tally.say(f"{what}, {count} growths refused in turn", not wrong and count > 0, "; ".join(wrong[:3]))


def check_refusals(tally, room):
    refuser, behind = Refuser(room), Refuser(room, behind=True)
    line = [ARIES, "audit", "--log", "none", "--log", "none"]
    check_refused_growth(tally, "a wrong line, and all behind", behind, lambda **how: run(line, **how), is_right_line)
    unplaced = [ARIES, "recover", "--log", "none", "--store", "none"]
    check_refused_growth(tally, "a recovery without new files, and all behind", behind, lambda **how: run(unplaced, **how), is_right_line)
    row = Row(os.path.join(SMALL_ROWS, "one-commit"), room)
    check_refused_growth(tally, "a recovery, and all behind", behind, row.recover, lambda *ran: is_right_recovery(row, *ran))
    check_refused_growth(tally, "an audit, and all behind", behind, row.audit, lambda *ran: is_right_audit(row, *ran))
    for name in REFUSED_ROWS:
        row = Row(os.path.join(SMALL_ROWS, name), room)
        check_refused_growth(tally, f"{name}, recovery", refuser, row.recover, lambda *ran: is_right_recovery(row, *ran))
        piped = functools.partial(row.recover, is_piped=True)
        check_refused_growth(tally, f"{name}, recovery in memory", refuser, piped, lambda *ran: is_right_recovery(row, *ran))
        check_refused_growth(tally, f"{name}, audit", refuser, row.audit, lambda *ran: is_right_audit(row, *ran))
        check_line(tally, room, refuser, name, "slow", "slow devices")
        check_line(tally, room, behind, name, "each", "each record")
    for what, row in (("in pieces", long_row(room)), ("in memory", long_row(room, base=LARGEST_BASE))):
        check_refused_growth(tally, f"a long log, recovery {what}", refuser, row.recover, lambda *ran: is_right_recovery(row, *ran))


# Files of another profile.

def check_files_of_another_profile(tally, room):
    row, profiles = Row(os.path.join(SMALL_ROWS, "base-loser"), room), (Profile(PROFILE), Profile("profiles/wide.profile"))
    for name, line in (("log", b"fault 6: bad log header\n"), ("store", b"fault 10: bad store header\n")):
        path = os.path.join(room, f"wide {name}")
        with open(path, "wb") as file:
            file.write(in_profile(bytes_of(row.at(name)), *profiles))
        tally.say(f"recovery of a {name} of the wide profile", has_refused(row.recover(**{name: path}), line) and row.is_nothing_out())
        tally.say(f"audit of a {name} of the wide profile", has_refused(row.audit(**{name: path}), line))
