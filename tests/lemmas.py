#!/usr/bin/env python3
"""Looks for definitions and lemmas that no other place names: in the files of crates/*/specs/ and crates/*/proofs/, and not in those of a function.

usage: tests/lemmas.py           at the top of the repository: each of them, also those that are meant so
       tests/run.py contracts    fails if there is one that is not meant so

A name is used if it is somewhere else in its file, or if a `use` line or an attribute names it with its file. Only then can a proof cite it. Examples and
counterexamples are proved for their own sake: the files that have only these are in EXAMPLES. Other names are in MEANT.
"""
import glob
import os
import re
import sys
from collections import Counter, namedtuple

sys.dont_write_bytecode = True  # no folder of it beside the tests
from program import TOP, text_of

EXAMPLES = re.compile(r"/(Rows|PreparedRows|RowsOf\w+|Counterexamples)\.antt$")
# By file and name: what is meant to be named nowhere, with the reason.
EXAMPLE = "an example of a command line"
MEANT = {
    "Lines": dict.fromkeys(("words_without_fault", "in_place_without_fault", "in_place_named", "not_both", "words_at_fault", "flag_given",
                            "flag_left_out", "number_left_out"), EXAMPLE),
}

NAME = re.compile(r"[^\s(){}\[\],;.:|`\"]+")
HEAD = re.compile(r"((?:(?:unfoldable|abbrev|pub|record|data) )*)([^\s:(){}]+)(.*)")
# A definition: its name, and all of its lines.
Definition = namedtuple("Definition", "name lines")


def without_comments(text):
    return re.sub(r"--.*", "", text)


def definitions(text):
    """The definitions of a file. Inside a `module` they are two columns further right."""
    modules, found = [], None
    for line in without_comments(text).splitlines():
        words, column = line.strip(), len(line) - len(line.lstrip())
        if not words:
            continue
        while modules and column <= modules[-1]:
            modules.pop()
        if column == (modules[-1] + 2 if modules else 0) and not words.startswith("unfolding "):
            kinds, name, rest = HEAD.match(words).groups() if HEAD.match(words) else ("", "", "")
            is_new = re.search("record|data", kinds) or re.match(r"\s*:(?!:)", rest)
            if is_new or found and name != found.name and "◌" not in found.name:
                yield from [found] if found else []
                found = Definition(name, []) if is_new and name != "module" else None
            if name == "module":
                modules.append(column)
        if found:
            found.lines.append(line)
    yield from [found] if found else []


def named_elsewhere(texts):
    """The names that are named with their file, each as `(crate.folder.File, name)`; and the files that are named as a whole."""
    names, whole = set(), set()
    for path, text in texts.items():
        for file, listed in re.findall(r"\bRattle\.([\w.]+)\.\{([^}]*)\}", text):
            names |= {(file, name.partition(" as ")[0].strip()) for name in listed.split(",")}
        names |= set(re.findall(r"\bRattle\.([\w.]+)\.([^\s.{}]+)", text))
        for crate, folder, file, name in re.findall(r"\b(\w+)::(proofs|specs)::(\w+)::(\w+)", text):
            names.add((f"{path.split('/')[1] if crate == 'crate' else crate}.{folder}.{file}", name))
        whole |= set(re.findall(r"\bRattle\.([\w.]+) as \w+", text))
    return names, whole


def unnamed():
    """The definitions and lemmas that no other place names, each with its file."""
    paths = [path for ending in ("antt", "rt") for path in glob.glob(f"crates/**/*.{ending}", root_dir=TOP, recursive=True)]
    texts = {path: without_comments(text_of(path)) if path.endswith(".antt") else text_of(path) for path in paths}
    names, whole = named_elsewhere(texts)
    for path in sorted(path for path in texts if re.fullmatch(r"crates/\w+/(specs|proofs)/\w+\.antt", path)):
        file = path[len("crates/"):-len(".antt")].replace("/", ".")
        counts = Counter(NAME.findall(texts[path]))
        for found in definitions(texts[path]) if file not in whole else ():
            is_used = counts[found.name] > Counter(NAME.findall("\n".join(found.lines)))[found.name]
            if not is_used and "◌" not in found.name and (file, found.name) not in names:
                yield path, found.name


def reason(path, name):
    """Why nothing is meant to name it; empty if something is."""
    file = os.path.basename(path)[:-len(".antt")]
    return "an example" if EXAMPLES.search(path) else MEANT.get(file, {}).get(name, "")


def check_lemmas(tally):
    found = list(unnamed())
    tally.say("each definition and each lemma is named somewhere", not [name for path, name in found if not reason(path, name)],
              ", ".join(f"{path}: {name}" for path, name in found if not reason(path, name)))
    meant = {(file, name) for file, names in MEANT.items() for name in names}
    over = meant - {(os.path.basename(path)[:-len(".antt")], name) for path, name in found}
    tally.asked += [f"tests/lemmas.py: {name} of {file} is named or gone: take it out of MEANT" for file, name in sorted(over)]


if __name__ == "__main__":
    for where, which in unnamed():
        print(f"{where}: {which}{f' ({reason(where, which)})' if reason(where, which) else ''}")
