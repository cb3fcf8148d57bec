"""Whether the man pages are true: their synopses against what the programs print for --help, their faults against docs/FORMATS.md.
`tests/run.py` calls these."""
import os
import re

from program import ARIES, DUMP, TOP, run, text_of

COMMANDS = [("aries.1", ARIES, ("recover", "audit")), ("aries_dump.1", DUMP, ("log", "store"))]
FORMATS = "man/aries-formats.5"


def plain(text):
    """Text of a page without what roff marks in it."""
    return re.sub(r"\\f.", "", text).replace("\\-", "-").replace("\\e", "\\")


def words_of_line(line):
    """The words that a line of a page sets: those of .B and .I stand apart, those of .BR and the like without a space."""
    macro, _, rest = line.partition(" ")
    words = [word.strip('"') for word in re.findall(r'"[^"]*"|\S+', plain(rest))]
    return " ".join(words) if macro in (".B", ".I") else "".join(words)


def synopses(page):
    """The synopses of a page by their commands: of each form the set of its words, `[..]` kept together."""
    lines = text_of(os.path.join("man", page)).partition(".SH SYNOPSIS\n")[2].partition("\n.SH")[0]
    found = {}
    for part in lines.split("\n.PP\n"):
        text = " ".join(words_of_line(line) for line in part.splitlines())
        text = re.sub(r"\[(--[\w-]+) (\w+)\]", r"[\1=\2]", text)
        text = re.sub(r"(?<= )(--[\w-]+) ([A-Z]+)", r"\1=\2", text)
        words = text.split()
        if len(words) > 2:
            found.setdefault(words[1], []).append(set(words[2:]))
    return found


def words_of_form(form, options, named):
    """The words of a form that a usage has: what stands in it, and in brackets the options that no form names."""
    words = set(re.findall(r"<([A-Z]+)>", re.sub(r"--[\w-]+ <[A-Z]+>", "", form)))
    words |= {word for name, word in options.items() if name in form.split()}
    return words | {f"[{word}]" for name, word in options.items() if name not in named}


def synopses_by_help(program, command):
    """The same of one command by what a program prints for its --help."""
    text = run([program, command, "--help"], text=True).stdout
    forms = re.search(r"^Usage: (.*(?:\n {7}\S.*)*)$", text, re.M)[1].splitlines()
    listed = re.findall(r"^\s+(?:-\w, )?(--[\w-]+)(?: <([A-Z]+)>)?", text, re.M)
    options = {name: f"{name}={value}" if value else name for name, value in listed if name not in ("--help", "--version")}
    named = {word for form in forms for word in form.split()}
    return [words_of_form(form, options, named) for form in forms]


def faults_of_the_page():
    """The number and the text of each fault, and what it says."""
    part = text_of(FORMATS).partition(".SH FAULTS\n")[2].partition("\n.SH")[0]
    for entry in part.split(".TP\n")[1:]:
        head, _, meaning = entry.partition("\n")
        words = [word.strip('"') for word in re.findall(r'"[^"]*"|\S+', head.partition(" ")[2])]
        text = "".join(words) if head.startswith(".BI") else " ".join(words)
        number, _, text = text.partition(" ")
        yield number, text, plain(meaning.strip())


def faults_of_the_document():
    rows = re.findall(r"^\| (\d+) \| `\w+` \| ([^|]*) \| [^|]* \| ([^|]*) \|", text_of("docs/FORMATS.md"), re.M)
    for number, text, meaning in rows:
        yield number, text.replace("<n>", "n"), meaning.replace("`", "")


def check_pages(tally):
    for page, program, commands in COMMANDS:
        if os.path.exists(program):
            told = synopses(page)
            wrong = [(command, told.get(command), synopses_by_help(program, command)) for command in commands]
            wrong = [(command, here, there) for command, here, there in wrong if here != there]
            tally.say(f"synopses of man/{page}", not wrong and set(told) == set(commands), wrong)
    if tally.has_tool("groff", "the man pages set"):
        for page in (*(f"man/{page}" for page, _, _ in COMMANDS), FORMATS):
            ran = run(["groff", "-man", "-Tutf8", "-ww", "-z", os.path.join(TOP, page)], text=True)
            tally.say(f"{page} is set without a warning", ran.returncode == 0 and not ran.stderr, ran.stderr)
    tally.say(f"faults in {FORMATS}", list(faults_of_the_page()) == list(faults_of_the_document()))
