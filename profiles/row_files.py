"""The worked rows with the limits of another profile: their files have its magics and its pages, and the program `row_files`, built with it, runs them.

A row that speaks of a limit is left out. A page of another profile has the same bytes at its front: its number, its PageLSN, its directory, and its
values one after another. More zeros follow.
"""
import os
import re
import shutil
import subprocess

TOP = os.path.dirname(os.path.dirname(os.path.abspath(__file__)))
PROFILE = "crates/page/src/profile.rt"
ROWS = "crates/row_files"
STORE_HEADER_BYTES = 24

# Rows whose result is another one with other limits: a table with one entry too many, a value of 49 bytes, a length of a frame that is too large.
OF_A_LIMIT = {"bad-frame-1025", "bad-frame-length49", "value-of-49", "length-too-large"}


def number_in(text, name):
    """A number of a profile, by its name."""
    return int(re.search(rf"^pub const {name}: usize = ([\d_]+);", text, re.M).group(1))


class Profile:
    """The magics of a profile, and how many bytes a page has."""

    def __init__(self, path):
        with open(os.path.join(TOP, path), encoding="utf-8") as file:
            text = file.read()
        names = ("STORE_MAGIC", "LOG_MAGIC", "BASED_LOG_MAGIC")
        self.magics = [re.search(rf"^pub const {name}: .*b\"(\w+)\";", text, re.M).group(1).encode() for name in names]
        self.page_bytes = number_in(text, "PAGE_BYTES")


def with_pages(store, old, new):
    """A store whose pages have the length of the other profile. A page that lacks bytes lacks as many then."""
    count = int.from_bytes(store[8:12], "big")
    more, made, rest = bytes(new.page_bytes - old.page_bytes), store[:STORE_HEADER_BYTES], store[STORE_HEADER_BYTES:]
    for _ in range(count):
        if rest:
            made, rest = made + rest[:old.page_bytes] + more, rest[old.page_bytes:]
    return made + rest


def in_profile(text, old, new):
    """The bytes of a log or of a store with the magics and the pages of the other profile; any other bytes as they are."""
    for old_magic, new_magic in zip(old.magics, new.magics):
        if text.startswith(old_magic):
            text = new_magic + text[len(old_magic):]
            return with_pages(text, old, new) if old_magic == old.magics[0] else text
    return text


def make_row(source, target, old, new):
    os.makedirs(target)
    for name in os.listdir(source):
        with open(os.path.join(source, name), "rb") as file:
            text = file.read()
        with open(os.path.join(target, name), "wb") as file:
            file.write(in_profile(text, old, new))


def is_of_a_limit(line):
    return line.split()[0].rstrip(",:") in OF_A_LIMIT


def kept_lines(path):
    """The lines of a file that are of rows which speak of no limit."""
    with open(os.path.join(TOP, ROWS, path), encoding="utf-8") as file:
        return [line for line in file.read().splitlines() if not is_of_a_limit(line)]


def make_rows(folder, profile):
    """Makes the rows with this profile, and their index, in a new folder."""
    old, new = Profile(PROFILE), Profile(profile)
    shutil.rmtree(folder, ignore_errors=True)
    for name in sorted(os.listdir(os.path.join(TOP, ROWS, "data"))):
        source = os.path.join(TOP, ROWS, "data", name)
        if os.path.isdir(source) and name not in OF_A_LIMIT:
            make_row(source, os.path.join(folder, name), old, new)
    with open(os.path.join(folder, "index"), "w", encoding="utf-8") as index:
        index.writelines(f"{line}\n" for line in kept_lines("data/index"))


def wrong_rows(program, folder, profile):
    """Runs the program `row_files` on the rows with this profile. Returns how many lines it printed, and those that are not as they are to be."""
    make_rows(folder, profile)
    ran = subprocess.run([program], cwd=folder, capture_output=True, text=True)
    printed, wanted = ran.stdout.splitlines(), kept_lines("stdout")
    wrong = [line for line, right in zip(printed, wanted) if line != right]
    if len(printed) != len(wanted):
        wrong.append(f"{len(printed)} lines instead of {len(wanted)}: {ran.stderr.strip()}")
    return len(printed), wrong
