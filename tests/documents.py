"""The documents: that the code, the links and the tables in them are true of the code. And what other scripts count: instructions, profiles."""
import os
import re
import sys

sys.dont_write_bytecode = True  # no folder of it beside the tests
from program import SMALL_ROWS, TOP, run, text_of


def documents():
    yield from ("README.md", "CONTRIBUTING.md", "CHANGELOG.md", "crates/row_files/data/README.md")
    yield from ("tests/README.md", "bench/NOTES.md", "examples/bank/README.md", "examples/own_log/README.md", "bindings/rust/README.md")
    yield from (os.path.join("docs", name) for name in sorted(os.listdir(os.path.join(TOP, "docs"))) if name.endswith(".md"))


def is_readme_code_tested():
    """Whether each part of the code in README is in a file whose function the tests of its crate call."""
    tested = text_of("crates/recovery_tests/src/in_memory.rt") + text_of("crates/journal_tests/src/tests/readme.rt")
    shown = re.findall(r"```rust\n(.*?)```", text_of("README.md"), re.S)
    return bool(shown) and all(part.strip() in tested for code in shown for part in code.split("\n\n"))


def broken_links(document):
    """The links of a document that lead to no file of this repository."""
    targets = (target.partition("#")[0] for target in re.findall(r"\]\(([^)\s]+)\)", text_of(document)))
    return [target for target in targets if target and not os.path.exists(os.path.join(TOP, os.path.dirname(document), target))]


def faults_of_the_source():
    """The number and the text of each fault, by its name."""
    source = text_of("crates/page/src/fault.rt")
    texts = {name: text for text, name in re.findall(r'#\[error\("([^"]*)"\)\]\s*(\w+)', source)}
    return {name: (number, texts[name]) for name, number in re.findall(r"Fault::(\w+)(?:\(_\))? => (\d+)", source)}


def faults_of_the_documents():
    rows = re.findall(r"^\| (\d+) \| `(\w+)` \| ([^|]*) \|", text_of("docs/FORMATS.md"), re.M)
    return {name: (number, text.replace("<n>", "{0}")) for number, name, text in rows}


def missing_in_list_of_tests():
    """The checks of tests/run.py and the files of bench/ that tests/README.md does not have."""
    checks = re.findall(r'^    \("([\w-]+)", "\w+", "\w+", \w+, ', text_of("tests/run.py"), re.M)
    files = [name for name in sorted(os.listdir(os.path.join(TOP, "bench"))) if name not in ("NOTES.md", "__pycache__")]
    return [name for name in checks + files if f"`{name}`" not in text_of("tests/README.md")]


def check_documents(tally):
    tally.say("README's code is tested", is_readme_code_tested())
    tally.say("tests/README.md has each check and each file of bench", not missing_in_list_of_tests(), missing_in_list_of_tests())
    for document in documents():
        tally.say(f"links of {document}", not broken_links(document), broken_links(document))
    tally.say("faults in docs/FORMATS.md", faults_of_the_documents() == faults_of_the_source())
    listed = re.findall(r"^\| `([\w-]+)` \|", text_of("crates/row_files/data/README.md").partition("## The rows")[2], re.M)
    folders = [name for name in sorted(os.listdir(SMALL_ROWS)) if os.path.isdir(os.path.join(SMALL_ROWS, name))]
    tally.say("rows in crates/row_files/data/README.md", listed == folders, set(listed) ^ set(folders))


def check_instructions(tally):
    """If a count is lower, the last lines of the run ask for it to be kept: among all others nobody sees it."""
    ran = run([sys.executable, os.path.join(TOP, "bench/count.py")], text=True)
    print(ran.stdout, end="")
    tally.say("instructions of the workloads", ran.returncode == 0, ran.stderr)
    tally.asked += [line for line in ran.stdout.splitlines() if "KEEP" in line]


def check_ways(tally):
    ways = run([sys.executable, os.path.join(TOP, "bench/way.py")], text=True)
    tally.say("no way through the crates is longer than it is to be", ways.returncode == 0, ways.stdout)
    tally.asked += [f"bench/way.py: {line}" for line in ways.stdout.splitlines() if line.startswith("KEEP")]


def check_profile(tally):
    """The first crate with the limits of another profile: its numbers keep what the proofs need."""
    ran = run([sys.executable, os.path.join(TOP, "profiles/build.py"), "wide", "page"], text=True)
    tally.say("page is proved with the wide profile", ran.returncode == 0, ran.stdout + ran.stderr)
