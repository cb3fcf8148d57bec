"""What the tests of the programs have in common: where the programs and the rows are, how one is run on a row, and the tally."""
import os
import shutil
import subprocess

TOP = os.path.dirname(os.path.dirname(os.path.abspath(__file__)))


def program_of(crate):
    """The program of a crate: the proved one that `rt ci` builds, or the one that the runner was given, which is in the environment under this name."""
    return os.environ.get(f"PROGRAM_OF_{crate}") or os.path.join(TOP, f"crates/{crate}/out/{crate}")


ARIES, DUMP, ENGINE, ROW_RUNNER = (program_of(crate) for crate in ("aries_cli", "aries_dump", "engine", "row_files"))
LARGE_ROWS = os.path.join(TOP, "tests/rows")
SMALL_ROWS = os.path.join(TOP, "crates/row_files/data")


def text_of(path):
    with open(os.path.join(TOP, path), encoding="utf-8") as file:
        return file.read()


def folder_of_toolchain():
    return os.path.dirname(run(["rt", "doc"], text=True, check=True).stdout.strip())


def words_of_a_crate(kit, crate, below):
    """What `rattle` is told for a crate over the libraries of these names, which are those that `rt ci` built or those of the kit."""
    words = ["--crate-name", crate, "src/lib.rt", "--extern", f"std={kit}/rlibs/std.rlib", "-L", f"dependency={kit}/rlibs"]
    for name in below:
        own = os.path.join(TOP, f"crates/{name}/out/rlib/{name}.rlib")
        words += ["--extern", f"{name}={own if os.path.exists(own) else f'{kit}/rlibs/{name}.rlib'}"]
    for name in sorted(os.listdir(os.path.join(TOP, "crates"))):
        words += ["-L", f"dependency={TOP}/crates/{name}/out/rlib"]
    words += ["--antt-project", f"{kit}/rattle/logic/antt-project.json", "--logic-built", f"{kit}/logic_built"]
    return [*words, "--links", f"{crate}=", "--jobs", "2"]


def bytes_of(path):
    """What a file holds; nothing where there is none."""
    if not os.path.exists(path):
        return b""
    with open(path, "rb") as file:
        return file.read()


class Row:
    """The files of a row, and a folder in which the program makes new ones."""

    def __init__(self, folder, new):
        self.folder, self.new = folder, new

    def at(self, name):
        return os.path.join(self.folder, name)

    def new_at(self, name):
        return os.path.join(self.new, name)

    def recover(self, log="log", store="store", workers=2, parts=3, more=(), is_piped=False, **how):
        """A recovery of these two files of the row, into new files. With no number of workers the program chooses it. A log that comes through a pipe is read
        into memory, one in a file in pieces."""
        for name in ("log", "store"):
            if os.path.exists(self.new_at(name)):
                os.remove(self.new_at(name))
        if is_piped:
            how["input"] = bytes_of(self.at(log))
        words = ["recover", "--log", "/dev/stdin" if is_piped else self.at(log), "--store", self.at(store)]
        words += ["--out-log", self.new_at("log"), "--out-store", self.new_at("store")]
        words += ["--workers", str(workers)] if workers is not None else []
        return run([ARIES, *words, "--parts", str(parts), *more], **how)

    def audit(self, log="log", store="store", more=(), **how):
        return run([ARIES, "audit", "--log", self.at(log), "--store", self.at(store), *more], **how)

    def is_recovered(self):
        """Whether the new files are those of the row."""
        return all(bytes_of(self.new_at(name)) == bytes_of(self.at(f"out-{name}")) for name in ("log", "store"))

    def is_nothing_out(self):
        return not bytes_of(self.new_at("log")) and not bytes_of(self.new_at("store"))


def run(words, **how):
    return subprocess.run(words, **{"capture_output": True, **how})


def in_doubt(report):
    """The lines of a report that list the transactions in doubt."""
    return report.splitlines()[8:]


def has_printed(ran, text):
    """Whether a run did its job and printed this text alone."""
    return ran.returncode == 0 and ran.stdout == text and not ran.stderr


def has_refused(ran, line):
    """Whether a run refused by the line of this fault, before which stand only lines that say why."""
    *why, fault = ran.stderr.splitlines(keepends=True) or [b""]
    return ran.returncode == 1 and fault == line and not ran.stdout and all(it.startswith((b"aries: ", b"aries_dump: ")) for it in why)


class Tally:
    """Which checks passed, which were left out, and what the last lines ask for."""

    def __init__(self):
        self.passed = self.failed = self.skipped = 0
        self.asked = []

    def say(self, what, is_well, seen=""):
        is_well = bool(is_well)
        self.passed, self.failed = self.passed + is_well, self.failed + (not is_well)
        print(f"{what}: {'ok' if is_well else 'FAILED'}{f' ({seen})' if seen and not is_well else ''}", flush=True)

    def skip(self, what, why):
        self.skipped += 1
        print(f"{what}: skipped, {why}", flush=True)

    def has_tool(self, name, what):
        """Whether the machine has this tool; else the check is left out."""
        is_there = shutil.which(name) is not None
        if not is_there:
            self.skip(what, f"since {name} is missing")
        return is_there

    def __str__(self):
        return f"{self.passed} passed, {self.failed} failed" + (f", {self.skipped} skipped" if self.skipped else "")


def library_of(room, name):
    library = os.path.join(room, f"{os.path.basename(name)}.so")
    source = os.path.join(TOP, f"tests/{name}.c")
    subprocess.run(["cc", "-O1", "-shared", "-fPIC", "-o", library, source, "-ldl"], check=True)
    return library
