"""The kept list edits/tried.txt: what the edits of `edits/` were last tried on. A line for each crate of them has

    NAME SOURCES EDITS

where SOURCES is the sum of what the crate says (src/*.rt and specs/*.antt) and EDITS that of its files edits/NAME/*.edit. What changes no promise is left out
of the first sum: comments, empty lines, white space at the ends of lines, and lines that only import. As long as both sums are the same, the prover need not
try these edits again. A sum is the beginning of a sha256. tests/edits.py writes the lines.
"""
import glob
import hashlib
import os
import re

from program import TOP, text_of

KEPT = "edits/tried.txt"

# A text in quotes, which is the first group and stays, or what is left out. The imports are looked for after the comments are gone.
TEXT = {".rt": r'''("(?:\\.|[^"\\])*"|'(?:\\.|[^'\\])')''', ".antt": r'("[^"\n]*")'}
COMMENT = {".rt": re.compile(rf"{TEXT['.rt']}|//[^\n]*", re.S), ".antt": re.compile(rf"{TEXT['.antt']}|--[^\n]*")}
IMPORT = {
    ".rt": re.compile(rf"{TEXT['.rt']}|^[ \t]*(?:(?:ghost |pub )?use [^;]*;|(?:pub )?mod \w+;)", re.S | re.M),
    ".antt": re.compile(rf"{TEXT['.antt']}|^[ \t]*use [^\n{{]*(?:\{{[^}}]*\}}[^\n]*)?$", re.M),
}


def without_remarks(path):
    """The text of a source or of a file of definitions, without what changes no promise."""
    ending = os.path.splitext(path)[1]
    text = text_of(path)
    for left_out in (COMMENT[ending], IMPORT[ending]):
        text = left_out.sub(lambda found: found[1] or "", text)
    return "\n".join(line.rstrip() for line in text.split("\n") if line.strip())


def sum_of(texts):
    """The sum of these names and texts."""
    made = hashlib.sha256()
    for name, text in texts:
        made.update(f"{name}\n{len(text)}\n{text}\n".encode())
    return made.hexdigest()[:16]


def sources_of(crate):
    """The sources and the definitions of a crate, by path."""
    return sorted(path for pattern in ("src/**/*.rt", "specs/**/*.antt") for path in glob.glob(f"crates/{crate}/{pattern}", root_dir=TOP, recursive=True))


def others_of(crate):
    """The edits of a crate that the gate does not try."""
    return sorted(glob.glob(f"edits/{crate}/*.edit", root_dir=TOP))


def crates_with_others():
    return sorted({path.split(os.sep)[1] for path in glob.glob("edits/*/*.edit", root_dir=TOP)})


def line_of(crate):
    """The line of a crate, as it is now."""
    sources = sum_of((path, without_remarks(path)) for path in sources_of(crate))
    return f"{crate} {sources} {sum_of((path, text_of(path)) for path in others_of(crate))}"


def kept_lines():
    """The lines of the list, by crate."""
    lines = text_of(KEPT).splitlines() if os.path.exists(os.path.join(TOP, KEPT)) else []
    return {line.split()[0]: line for line in lines if line.strip()}


def never_tried():
    """The crates that have no line: not all of their edits were tried and refused."""
    kept = kept_lines()
    return [crate for crate in crates_with_others() if crate not in kept]


def to_try():
    """Of each crate whose edits have to be tried again its name, and what differs from its line."""
    for crate, line in kept_lines().items():
        new, old = line_of(crate).split(), line.split()
        if new != old:
            yield crate, "other sources or contracts" if new[1] != old[1] else "other edits"


def keep(*lines):
    """Puts lines into the list, in place of the old ones of their crates. The line of a crate that has no such edits goes."""
    kept = kept_lines() | {line.split()[0]: line for line in lines}
    with open(os.path.join(TOP, KEPT), "w", encoding="utf-8") as file:
        file.writelines(f"{kept[crate]}\n" for crate in crates_with_others() if crate in kept)
