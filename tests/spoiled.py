"""Whether the program recovers or refuses, and does nothing else, where a byte of a log or of its store is another one."""
import concurrent.futures
import os
import re
import tempfile

from program import SMALL_ROWS, Row, bytes_of, text_of

ROW = "checkpoint-loser"
BYTES = (0x00, 0xff)
WRITING = ("4", "5")  # the faults after which something may be out


def lines_of_faults():
    """What the line of each fault looks like, by docs/FORMATS.md."""
    rows = re.findall(r"^\| (\d+) \| `\w+` \| ([^|]*) \|", text_of("docs/FORMATS.md"), re.M)
    return {number: re.escape(text).replace("<n>", r"\d+") for number, text in rows}


def spoiled(text):
    """A place, another byte for it, and the text with that."""
    for place, byte in enumerate(text):
        for other in BYTES:
            if other != byte:
                yield place, other, text[:place] + bytes([other]) + text[place + 1:]


def is_answer(lines, ran, is_nothing_out):
    """Whether a run did its job, or refused by the line of a fault alone."""
    if ran.returncode == 0:
        return bool(ran.stdout) and not ran.stderr
    found = re.fullmatch(r"fault (\d+): (.*)\n", ran.stderr.decode())
    is_told = found is not None and found[1] in lines and re.fullmatch(lines[found[1]], found[2]) is not None
    return ran.returncode == 1 and is_told and not ran.stdout and (is_nothing_out or found[1] in WRITING)


def wrong_at(room, lines, case):
    name, place, byte, texts = case
    found = []
    with tempfile.TemporaryDirectory(dir=room) as folder:
        row = Row(folder, os.path.join(folder, "new"))
        os.mkdir(row.new)
        for file, text in texts.items():
            with open(row.at(file), "wb") as written:
                written.write(text)
        runs = {"audit": row.audit, "recover": row.recover}
        for workers in (1, 2):
            runs[f"recover in memory, {workers} workers"] = lambda workers=workers: row.recover(workers=workers, is_piped=True)
        for what, job in runs.items():
            ran = job()
            if not is_answer(lines, ran, row.is_nothing_out()):
                found.append(f"byte {place} of the {name} set to {byte:02x}, {what}: status {ran.returncode}, {ran.stdout[:80]}, {ran.stderr[:80]}")
            for out in ("log", "store"):
                if os.path.exists(row.new_at(out)):
                    os.remove(row.new_at(out))
    return found


def check_spoiled(tally, room):
    files = {name: bytes_of(os.path.join(SMALL_ROWS, ROW, name)) for name in ("log", "store")}
    cases = [(name, place, byte, {**files, name: text}) for name in files for place, byte, text in spoiled(files[name])]
    lines = lines_of_faults()
    with concurrent.futures.ThreadPoolExecutor(2) as pool:
        wrong = [it for found in pool.map(lambda case: wrong_at(room, lines, case), cases) for it in found]
    tally.say(f"{ROW} with each byte set to 00 and to ff, {len(cases)} cases", bool(cases) and not wrong, f"{len(wrong)} wrong: {'; '.join(wrong[:3])}")
