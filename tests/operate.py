"""What an operator sees of `aries`: what --verbose says, the modes of new files, what is synced and in which order, and limits
on the size of files and of stacks. `tests/run.py` calls these."""
import errno
import itertools
import os
import re
import resource
import shutil
import signal
import subprocess

from long_logs import long_row
from program import ARIES, SMALL_ROWS, Row, bytes_of, has_printed, has_refused, library_of, run

NOBODY = 65534  # a user in no group but its own
TIME = r"in \d+\.\d{3} ms"


def copied(room, name):
    """A row whose files are its own copies, with an empty folder for new ones."""
    folder, new = os.path.join(room, name), os.path.join(room, f"{name}-new")
    shutil.copytree(os.path.join(SMALL_ROWS, "one-commit"), folder)
    os.mkdir(new)
    return Row(folder, new)


def failed(call, role, path, code):
    """The line on a call that failed."""
    return f'aries: {call} the {role} "{path}": {os.strerror(code)} (os error {code})\n'


def limited(size, is_ignored):
    """What a program begins with that may make no file longer than this many bytes, and ignores the signal of it or dies."""
    def begin():
        resource.setrlimit(resource.RLIMIT_FSIZE, (size, size))
        signal.signal(signal.SIGXFSZ, signal.SIG_IGN if is_ignored else signal.SIG_DFL)
    return begin


# Why: if a file failed, each run says so, and after any other fault one with --verbose; nothing else changes.

FAULTS_OF_FILES = (b"fault 2:", b"fault 3:", b"fault 4:", b"fault 5:")


def says_why(brief, verbose, line):
    """Whether this line stands before that of the fault, without --verbose only if it is that of a file."""
    fault = brief.stderr.splitlines(keepends=True)[-1]
    full = line.encode() + fault
    wanted = full if fault.startswith(FAULTS_OF_FILES) else fault
    return brief.returncode == verbose.returncode == 1 and not brief.stdout and not verbose.stdout and brief.stderr == wanted and verbose.stderr == full


def check_why(tally, what, job, line):
    """The job takes further words and what `run` takes."""
    brief, verbose = job(()), job(("--verbose",))
    tally.say(f"why: {what}", says_why(brief, verbose, line), (brief.stderr, verbose.stderr))


def check_calls_that_fail(tally, row):
    missing = 'no "log"\n'
    os.mkdir(row.at("folder"))
    escaped = row.at(r'no \"log\"\n')
    check_why(tally, "no log", lambda more: row.audit(missing, more=more), failed("opening", "log", escaped, errno.ENOENT))
    check_why(tally, "no store", lambda more: row.recover("log", "none", more=more), failed("opening", "store", row.at("none"), errno.ENOENT))
    check_why(tally, "a folder for a log", lambda more: row.recover("folder", more=more), failed("reading", "log", row.at("folder"), errno.EISDIR))
    base = ["--base", row.at("none")]
    check_why(tally, "no base store", lambda more: row.audit(more=[*base, *more]), failed("opening", "base store", row.at("none"), errno.ENOENT))

    def into(out_log, out_store):
        words = ["recover", "--log", row.at("log"), "--store", row.at("store"), "--out-log", out_log, "--out-store", out_store]
        return lambda more: run([ARIES, *words, *more])
    check_why(tally, "a new log stands there", into(row.at("log"), row.new_at("store")), failed("making", "new log", row.at("log"), errno.EEXIST))
    nowhere = os.path.join(row.at("none"), "store")
    job = into(os.path.join(row.new, "log-alone"), nowhere)
    brief = job(())
    os.remove(os.path.join(row.new, "log-alone"))
    verbose = job(("--verbose",))
    is_well = says_why(brief, verbose, failed("making", "new store", nowhere, errno.ENOENT))
    tally.say("why: no folder for a new store", is_well, verbose.stderr)


def check_faults_in_files(tally, row):
    log, store = row.at("log"), row.at("store")
    check_why(tally, "a bad log", lambda more: row.audit("store", "store", more), f'aries: in the log "{store}"\n')
    check_why(tally, "a bad store", lambda more: row.recover("log", "log", more=more), f'aries: in the store "{log}"\n')
    base = ["--base", log]
    line = f'aries: in the store "{store}" or the base store "{log}"\n'
    check_why(tally, "a bad base store", lambda more: row.audit(more=[*base, *more]), line)
    other = Row(os.path.join(SMALL_ROWS, "bad-master"), row.new)
    line = f'aries: between the log "{other.at("log")}" and the store "{other.at("store")}"\n'
    check_why(tally, "a bad master", lambda more: other.recover(more=more), line)


def has_told(ran, lines):
    return re.fullmatch(lines, ran.stderr.decode()) is not None


def check_times(tally, row):
    def read(role, path, count=None):
        return rf'aries: read the {role} "{re.escape(path)}": {count or os.path.getsize(path)} bytes {TIME}\n'

    def wrote(role, path):
        return rf'aries: wrote and synced the {role} "{re.escape(path)}": {os.path.getsize(path)} bytes {TIME}\n'
    ran = row.recover(more=["--verbose"])
    # A log that is read in pieces is read again, some of it more than once.
    lines = read("log", row.at("log"), r"\d+") + read("store", row.at("store")) + f"aries: recovered in memory {TIME}\n"
    lines += wrote("new log", row.new_at("log")) + wrote("new store", row.new_at("store"))
    is_same = ran.returncode == 0 and ran.stdout == bytes_of(row.at("printed")) and row.is_recovered()
    tally.say("--verbose: a recovery", is_same and has_told(ran, lines), ran.stderr)
    ran = row.audit(more=["--verbose"])
    lines = read("log", row.at("log")) + read("store", row.at("store")) + f"aries: audited {TIME}\n"
    is_same = ran.returncode == 0 and ran.stdout == b"lawful\n"
    tally.say("--verbose: an audit", is_same and has_told(ran, lines), ran.stderr)


def check_print(tally, row):
    with open("/dev/full", "wb") as full:
        ran = row.audit(more=["--verbose"], stdout=full, stderr=subprocess.PIPE, capture_output=False)
    line = f"aries: printing: {os.strerror(errno.ENOSPC)} (os error {errno.ENOSPC})\n"
    tally.say("--verbose: a verdict that cannot be printed", ran.returncode == 1 and ran.stderr.decode().endswith(line), ran.stderr)


def writes_of(words):
    """What a program writes to standard error, call by call: a pipe of packets keeps them apart."""
    there, here = os.pipe2(os.O_DIRECT)
    subprocess.run(words, stdout=subprocess.DEVNULL, stderr=here)
    os.close(here)
    with open(there, "rb", buffering=0) as pipe:
        return list(iter(lambda: pipe.read(65536), b""))


def check_writes(tally, row):
    """Runs that share a terminal do not mix their lines."""
    files = ["--log", row.at("none"), "--store", row.at("store")]
    for what, words in (("a fault", ["audit", *files]), ("--verbose", ["audit", "--verbose", *files]), ("a wrong line", ["audit"])):
        writes = writes_of([ARIES, *words])
        tally.say(f"one write to standard error: {what}", len(writes) == 1, writes)


# New files: their modes, and what is synced.

def mode_of(path):
    return os.stat(path).st_mode & 0o7777


def check_modes(tally, row):
    for log, store, mask in ((0o640, 0o600, 0o022), (0o664, 0o444, 0o077), (0o600, 0o660, 0)):
        os.chmod(row.at("log"), log)
        os.chmod(row.at("store"), store)
        ran = row.recover(preexec_fn=lambda: os.umask(mask))
        modes = mode_of(row.new_at("log")), mode_of(row.new_at("store"))
        is_well = ran.returncode == 0 and row.is_recovered() and modes == (log, store)
        tally.say(f"modes {log:o}, {store:o} under umask {mask:03o}", is_well, [f"{mode:o}" for mode in modes])


def check_groups(tally, row):
    """The rights of a group are not given to another group, nor those of others to the old group's members. To run as a user without groups takes root."""
    if os.geteuid() != 0:
        return tally.skip("modes of another group", "since this is not root")
    room = os.path.dirname(row.folder)
    program, new = shutil.copy(ARIES, room), os.path.join(room, "new-of-nobody")
    os.mkdir(new)
    for path, mode in ((room, 0o755), (row.folder, 0o755), (new, 0o777), (program, 0o755)):
        os.chmod(path, mode)
    for name, mode in (("log", 0o640), ("store", 0o604)):
        os.chown(row.at(name), NOBODY, NOBODY - 1)
        os.chmod(row.at(name), mode)
    out = Row(row.folder, new)
    words = ["--log", row.at("log"), "--store", row.at("store"), "--out-log", out.new_at("log"), "--out-store", out.new_at("store")]
    ran = run([program, "recover", *words], user=NOBODY, group=NOBODY, extra_groups=[])
    modes = mode_of(out.new_at("log")), mode_of(out.new_at("store"))
    is_well = ran.returncode == 0 and out.is_recovered() and modes == (0o600, 0o600)
    tally.say("modes 640, 604 of a group that is not the user's", is_well, ([f"{mode:o}" for mode in modes], ran.stderr))
    for name in ("log", "store"):
        os.chown(row.at(name), os.geteuid(), os.getegid())


def check_syncs(tally, room, row):
    library, notes = library_of(room, "note_syncs"), os.path.join(room, "syncs")
    synced = "".join(f"fsync {os.path.realpath(path)}\n" for path in (row.new_at("log"), row.new_at("store"), row.new, row.new))
    for code, line in ((None, b""), (errno.EINVAL, b""), (errno.EIO, b"fault 4: writing the log failed\n")):
        if os.path.exists(notes):
            os.remove(notes)
        fails = {} if code is None else {"FOLDER_ERRNO": str(code)}
        ran = row.recover(env=dict(os.environ, LD_PRELOAD=library, SYNCS=notes, **fails))
        is_well = row.is_recovered() and synced.startswith(bytes_of(notes).decode())
        is_well = is_well and (has_refused(ran, line) if line else has_printed(ran, bytes_of(row.at("printed"))) and bytes_of(notes).decode() == synced)
        what = "" if code is None else f", the folder's refused: {os.strerror(code)}"
        tally.say(f"syncs in order{what}", is_well, (ran.stderr, bytes_of(notes)))


def check_second_folder(tally, room, row):
    """The folder of the new log may not be synced, which is let pass; that of the new store ends the run, and is named."""
    library, codes = library_of(room, "note_syncs"), {"FOLDER_ERRNO": str(errno.EINVAL), "NEXT_FOLDER_ERRNO": str(errno.EIO)}
    env = dict(os.environ, LD_PRELOAD=library, SYNCS=os.devnull, **codes)
    line = failed("syncing the folder of", "new store", row.new_at("store"), errno.EIO)
    check_why(tally, "the second folder is not synced", lambda more: row.recover(env=env, more=more), line)


def check_sizes(tally, row):
    ran = row.recover(preexec_fn=limited(16, False))
    tally.say("a new log too long, by the signal", ran.returncode == -signal.SIGXFSZ and not ran.stdout and not ran.stderr, ran.stderr)
    for size, line in ((16, b"fault 4: writing the log failed\n"), (512, b"fault 5: writing the store failed\n")):
        ran = row.recover(preexec_fn=limited(size, True))
        tally.say(f"new files of at most {size} bytes, the signal ignored", has_refused(ran, line), ran.stderr)
    line = failed("writing", "new log", row.new_at("log"), errno.EFBIG)
    check_why(tally, "a new log too long", lambda more: row.recover(more=more, preexec_fn=limited(16, True)), line)


def check_unprinted(tally, row):
    """Without a line status 1 does not say whether the new files are whole; an audit of them does."""
    new = Row(row.new, row.new)
    with open("/dev/full", "wb") as full:
        ran = row.recover(stdout=full, stderr=subprocess.PIPE, capture_output=False)
        is_well = ran.returncode == 1 and not ran.stderr and has_printed(new.audit(), b"lawful\n")
        tally.say("new files whose report is not printed, by an audit", is_well, ran.stderr)
        ran = row.recover(preexec_fn=limited(16, True), stdout=subprocess.PIPE, stderr=full, capture_output=False)
        is_well = ran.returncode == 1 and not ran.stdout and has_refused(new.audit(), b"fault 10: bad store header\n")
        tally.say("new files whose fault is not printed, by an audit", is_well, ran.stdout)


def check_stack(tally, room):
    rows = {"": Row(os.path.join(SMALL_ROWS, "ten-pages"), room), ", a long log": long_row(room)}
    for (kind, row), workers in itertools.product(rows.items(), (1, 64)):
        ran = row.recover(workers=workers, parts=64, preexec_fn=lambda: resource.setrlimit(resource.RLIMIT_STACK, (128 * 1024, 128 * 1024)))
        is_well = has_printed(ran, bytes_of(row.at("printed"))) and row.is_recovered()
        tally.say(f"a stack of 128 KiB, {workers} workers{kind}", is_well, (ran.returncode, ran.stderr))


def check_operation(tally, room):
    row = copied(room, "operated")
    check_calls_that_fail(tally, row)
    check_faults_in_files(tally, row)
    check_times(tally, row)
    check_print(tally, row)
    check_writes(tally, row)
    check_modes(tally, row)
    check_groups(tally, row)
    check_syncs(tally, room, row)
    check_second_folder(tally, room, row)
    check_sizes(tally, row)
    check_unprinted(tally, row)
    check_stack(tally, room)
