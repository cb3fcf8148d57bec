"""The checks of `aries_dump`, which `tests/run.py dump` makes: its lines on every small row, on rows of real size and on bytes of every kind, against a second
reader; its options; what it says of damaged files; and each growth of memory refused in turn."""
import os
import subprocess
import tarfile

from lines import STYLES, lines_of_log, lines_of_store
from program import DUMP, LARGE_ROWS, SMALL_ROWS, bytes_of, has_refused, run
from recoveries import Refuser

# A log of one update and one commit, and a store of one page, byte by byte as docs/FORMATS.md shows them.
LOG = bytes.fromhex("41524945534c4731" "0000001d01000000000000000100000001000000000000000000000000" "00ff0161"
                    "000000150300000000000000020000000100000000" "00000001")
LOG_LINES = b"""\
0: log, version 1, BaseLSN 0
8: update, LSN 1, transaction 1, PrevLSN 0, page 0, slot 0, before absent, after "a" (61)
41: commit, LSN 2, transaction 1, PrevLSN 1
"""
LOG_OBJECTS = b"""\
{"offset":0,"kind":"log","version":1,"BaseLSN":0}
{"offset":8,"kind":"update","LSN":1,"transaction":1,"PrevLSN":0,"page":0,"slot":0,"before":null,"after":{"text":"a","hex":"61"}}
{"offset":41,"kind":"commit","LSN":2,"transaction":1,"PrevLSN":1}
"""
STORE = (bytes.fromhex("4152494553504731" "00000001" "00000000" "0000000000000000" "00000000" "00000000" "0000000000000001" "00500001")
         + bytes(60) + b"a" + bytes(943))
STORE_LINES = b"""\
0: store, pages 1, master 0
24: page, number 0, PageLSN 1, slot 0 "a" (61)
"""
TEXTS = {6: "bad log header", 7: "bad length at byte {}", 8: "bad record at byte {}", 9: "bad LSN at byte {}", 12: "bad image of page {}"}


def dump(*words, **how):
    return run([DUMP, *words], **how)


def written(room, name, text):
    path = os.path.join(room, name)
    with open(path, "wb") as file:
        file.write(text)
    return path


def words_of(asked, style):
    words = [word for name, number in asked.items() for word in (f"--{name}", str(number))]
    return words + (["--json"] if style == "json" else [])


def listing_difference(ran, lines, fault):
    """What differs from these lines, and behind them the line of this fault, if there is one: what came, and what was wanted; or None."""
    line = b"" if fault is None else f"fault {fault[0]}: {TEXTS[fault[0]].format(fault[1])}\n".encode()
    if (ran.returncode, ran.stderr) != (0 if fault is None else 1, line):
        return f"status {ran.returncode}, {ran.stderr!r}, wanted {line!r}"
    if ran.stdout == lines:
        return None
    came, wanted = ran.stdout.splitlines() + [b"no line"], lines.splitlines() + [b"no line"]
    at = next((at for at, (one, other) in enumerate(zip(came, wanted)) if one != other), min(len(came), len(wanted)) - 1)
    return f"line {at + 1} is {came[at]!r}, wanted {wanted[at]!r}"


def log_difference(path, style, **asked):
    lines, fault = lines_of_log(bytes_of(path), STYLES[style], **asked)
    return listing_difference(dump("log", path, *words_of(asked, style)), lines, fault)


def store_difference(path, style, **asked):
    lines, fault = lines_of_store(bytes_of(path), STYLES[style], **asked)
    return listing_difference(dump("store", path, *words_of(asked, style)), lines, fault)


def row_differences(folder, style):
    """How the lists of the log of a row, and of its stores where a recovery took them, differ from what they should be."""
    stores = [os.path.join(folder, name) for name in ("store", "out-store") if os.path.exists(os.path.join(folder, "out-store"))]
    logs = [os.path.join(folder, name) for name in ("log", "out-log") if os.path.exists(os.path.join(folder, name))]
    yield from (log_difference(log, style) for log in logs)
    yield from (store_difference(store, style) for store in stores)


def say_same(tally, what, differences):
    """Says whether nothing differs, or what differs first."""
    found = next((it for it in differences if it), None)
    tally.say(what, found is None, found)


def check_by_hand(tally, room):
    log, store = written(room, "log-by-hand", LOG), written(room, "store-by-hand", STORE)
    say_same(tally, "dump of a log, by hand", [listing_difference(dump("log", log), LOG_LINES, None)])
    say_same(tally, "dump of a log as JSON, by hand", [listing_difference(dump("log", log, "--json"), LOG_OBJECTS, None)])
    say_same(tally, "dump of a store, by hand", [listing_difference(dump("store", store), STORE_LINES, None)])


def check_rows(tally):
    for name in sorted(os.listdir(SMALL_ROWS)):
        folder = os.path.join(SMALL_ROWS, name)
        if os.path.exists(os.path.join(folder, "log")):
            say_same(tally, f"dump of {name}", (it for style in STYLES for it in row_differences(folder, style)))


def check_large_rows(tally, room):
    for archive in sorted(os.listdir(LARGE_ROWS)):
        name = archive.partition(".")[0]
        with tarfile.open(os.path.join(LARGE_ROWS, archive)) as files:
            files.extractall(room)
        say_same(tally, f"dump of {name}", row_differences(os.path.join(room, name), "json"))


def every_byte(room):
    """A log whose values hold each byte, cut within its last frame."""
    log = b"ARIESLG2" + (5).to_bytes(8, "big")
    for lsn, first in enumerate(range(0, 256, 32), 6):
        value = bytes([32]) + bytes(range(first, first + 32))
        body = bytes([1]) + lsn.to_bytes(8, "big") + (7).to_bytes(4, "big") + bytes(8) + (3).to_bytes(4, "big") + bytes([first // 32]) + b"\0" + value
        log += len(body).to_bytes(4, "big") + body
    return written(room, "every-byte", log[:-9])


def check_options(tally, room):
    path = every_byte(room)
    for style in STYLES:
        say_same(tally, f"dump of every byte, {style}", [log_difference(path, style)])
    log = os.path.join(SMALL_ROWS, "two-losers", "log")
    for asked in ({"from": 2}, {"to": 3}, {"from": 2, "to": 2}, {"from": 3, "to": 2}, {"transaction": 1}, {"transaction": 9}, {"page": 0}, {"page": 1},
                  {"from": 2, "transaction": 2, "page": 0}):
        say_same(tally, f"dump of {asked}", (log_difference(log, style, **asked) for style in STYLES))
    store = os.path.join(SMALL_ROWS, "ten-pages", "store")
    say_same(tally, "dump of one page", (store_difference(store, style, page=page) for style in STYLES for page in (0, 9, 10)))


def log_damage(room):
    whole = bytes_of(os.path.join(SMALL_ROWS, "two-losers", "log"))
    for at in range(len(whole)):
        yield log_difference(written(room, "damaged", whole[:at] + bytes([whole[at] ^ 0x80]) + whole[at + 1:]), "text")
        yield log_difference(written(room, "cut", whole[:at]), "json")


def store_damage(room):
    store = bytes_of(os.path.join(SMALL_ROWS, "ten-pages", "out-store"))
    for at in range(24, len(store), 101):
        path = written(room, "damaged", store[:at] + bytes([store[at] ^ 0x01]) + store[at + 1:])
        yield from (store_difference(path, style) for style in STYLES)


def check_damage(tally, room):
    say_same(tally, "dump of a log with each byte changed, and cut there", log_damage(room))
    say_same(tally, "dump of a store with bytes of its pages changed", store_damage(room))
    missing = os.path.join(room, "no-such-file")
    ran = dump("log", missing)
    tally.say("dump of no log", has_refused(ran, b"fault 2: reading the log failed\n"))
    ran = dump("store", missing)
    tally.say("dump of no store", has_refused(ran, b"fault 3: reading the store failed\n"))
    ran = dump("store", os.path.join(SMALL_ROWS, "two-losers", "log"))
    tally.say("dump of a log as a store", has_refused(ran, b"fault 10: bad store header\n"))
    store = bytes_of(os.path.join(SMALL_ROWS, "ten-pages", "store"))
    sizes = [store[:-1], store + b"\0", store[:24], store[:-1024]]
    answers = [dump("store", written(room, "another-size", text)) for text in sizes]
    tally.say("dump of a store of another size", all(has_refused(ran, b"fault 11: bad store size\n") for ran in answers))


def check_words(tally, room):
    log = os.path.join(SMALL_ROWS, "two-losers", "log")
    for what, words in (("no command", []), ("no file", ["log"]), ("two files", ["log", log, log]), ("an LSN too large", ["log", log, "--from", str(2**64)]),
                        ("a page of no number", ["store", log, "--page", "x"]), ("a transaction of a store", ["store", log, "--transaction", "1"])):
        ran = dump(*words)
        tally.say(f"a wrong line of aries_dump: {what}", ran.returncode == 2 and not ran.stdout and ran.stderr != b"")
    ran = dump("log", log, "--from=\x1b[31m")
    tally.say("a word of aries_dump that a terminal obeys", ran.returncode == 2 and rb"\u{1b}[31m" in ran.stderr and b"\x1b" not in ran.stderr, ran.stderr)
    ran = dump("log", b"a\xff")
    is_well = ran.returncode == 2 and ran.stderr == b"error: word 2 of the command line is no text (UTF-8)\n"
    tally.say("a word of aries_dump that is no text", is_well, ran.stderr)
    ran = dump("--help")
    tally.say("help of aries_dump", ran.returncode == 0 and b"log" in ran.stdout and not ran.stderr)
    with open("/dev/full", "wb") as full:
        ran = dump("log", log, stdout=full, stderr=subprocess.PIPE, capture_output=False)
        tally.say("a dump that cannot be printed", ran.returncode == 1 and not ran.stderr)


def check_growth(tally, refuser):
    log = os.path.join(SMALL_ROWS, "checkpoint-loser", "log")
    lines, _ = lines_of_log(bytes_of(log), STYLES["text"])
    right, count = True, 0
    for ran, is_refused in refuser.in_turn(lambda **how: dump("log", log, **how)):
        is_fault_1 = ran.returncode == 1 and ran.stderr == b"fault 1: no resource\n" and lines.startswith(ran.stdout)
        right = right and (listing_difference(ran, lines, None) is None or (is_refused and is_fault_1))
        count += is_refused
    tally.say(f"dump, {count} growths refused in turn", right and count > 0)


def check_dump(tally, room):
    check_by_hand(tally, room)
    check_rows(tally)
    check_large_rows(tally, room)
    check_options(tally, room)
    check_damage(tally, room)
    check_words(tally, room)
    check_growth(tally, Refuser(room))
