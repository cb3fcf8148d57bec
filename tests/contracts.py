#!/usr/bin/env python3
"""Lists contracts, and checks that docs/PROOFS.md cites only what exists.

usage: tests/contracts.py --print [CRATE..]   at the top of the repository: what these crates have, or all
       tests/run.py contracts                 fails if docs/PROOFS.md cites a name that is not there, or tests/lemmas.py finds a name that nothing uses

For each crate, from the lowest to the highest, it prints the functions that other crates can call with the labels of the clauses that they ensure (`=` is a
clause without a label, usually that the result is exactly a given value); the first line of each file of definitions and of lemmas; and for each public
theorem, which is a function of `laws.rt` that is proved and does nothing, the files of lemmas that its proof cites directly.
"""
import glob
import os
import re
import sys

sys.dont_write_bytecode = True  # no folder of it beside the tests
from lemmas import check_lemmas
from program import TOP, text_of

CITING = "docs/PROOFS.md"


def crates():
    """The names of the libraries, from the lowest to the highest, without those that only test."""
    names = re.findall(r"^(\w+)[^:\n]*:", text_of("crates.txt"), re.M)
    libraries = [name for name in names if os.path.exists(os.path.join(TOP, f"crates/{name}/src/lib.rt"))]
    return [name for name in libraries if not name.endswith(("_tests", "_rows")) and name != "workloads"]


def modules(crate):
    """The source files of a crate, each with its name as a module."""
    for path in sorted(glob.glob(f"crates/{crate}/src/**/*.rt", root_dir=TOP, recursive=True)):
        yield os.path.basename(path)[:-3], text_of(path)


def exported(crate):
    """The names that the root of a crate exports from its own modules; of the library for C those of its calls."""
    if crate == "aries_c":
        return {name for _, text in modules(crate) for name in re.findall(r"fn (aries_\w+)", text)}
    own = {name for name, _ in modules(crate)}
    uses = re.findall(r"^pub use (\w+)::([^;]*);", text_of(f"crates/{crate}/src/lib.rt"), re.M)
    return {name for module, names in uses if module in own for name in re.findall(r"\w+", names)}


def labels_of(head):
    """The labels of the clauses in the head of a function."""
    return [label or "=" for label in re.findall(r"^\s+ensures (?:(\w+) )?\{", head, re.M)]


def functions(crate):
    """The functions that other crates can call: each with its labels, in the order of the source."""
    names = exported(crate)
    for module, text in modules(crate):
        owner, is_trait = None, False
        for part in re.split(r"^(?=[a-z#/])|^(?=    (?:pub )?fn )", text, flags=re.M):
            item = re.match(r"(?:pub )?(?:impl(?:<[^{]*?>)? (?:(\w+)(?:<[^{]*>)? for )?(\w+)|trait (\w+))", part)
            if item:
                owner, is_trait = (item[2] or item[3], bool(item[3])) if not item[1] else (None, False)
            elif re.match("[a-z]", part):
                owner = None
            found = re.match(r'(    )?(?:pub )?(?:unsafe )?(?:extern "C" )?fn (\w+)', part) if re.match(r"(    )?pub |    fn ", part) else None
            if not found or (found[1] and (not owner or owner not in names or not (is_trait or part.startswith("    pub")))):
                continue
            if not found[1] and found[2] not in names:
                continue
            head = re.split(r"^(?:    )?\{$|;$", part, maxsplit=1, flags=re.M)[0]
            yield f"{owner}::{found[2]}" if found[1] else found[2], labels_of(head)


def first_lines(crate, folder):
    """The files of a folder of a crate, each with its first line if that is a comment."""
    for path in sorted(glob.glob(f"crates/{crate}/{folder}/*.antt", root_dir=TOP)):
        lines = text_of(path).splitlines()
        if lines and lines[0].startswith("-- "):
            said = [lines[0][3:]]
            for line in lines[1:]:
                if not line.startswith("-- ") or said[-1].rstrip().endswith((".", ":", ";")):
                    break
                said.append(line[3:])
            yield os.path.basename(path)[:-5], " ".join(said)


def cited_by_theorems(crate):
    """The theorems of a crate, each with the files of lemmas that its proof cites."""
    for folder in sorted(glob.glob(f"crates/{crate}/proofs/laws/*/", root_dir=TOP)):
        texts = "".join(text_of(path) for path in glob.glob(f"{folder}*.antt", root_dir=TOP))
        files = sorted({(own, file) for own, file in re.findall(r"^use Rattle\.(\w+)\.proofs\.([A-Z]\w+)\.", texts, re.M) if own != "std"})
        yield os.path.basename(os.path.dirname(folder)), [file if own == crate else f"{own}: {file}" for own, file in files]


def table(head, rows):
    rows = list(rows)
    return [f"| {head[0]} | {head[1]} |", "|---|---|", *(f"| `{name}` | {what} |" for name, what in rows), ""] if rows else []


def coded(names):
    return ", ".join(f"`{name}`" for name in names)


def listed(names):
    """What these crates have, in tables."""
    lines = []
    for crate in names:
        parts = table(("function", "clauses"), ((name, coded(labels)) for name, labels in functions(crate) if labels))
        parts += table(("definitions", "what they say"), first_lines(crate, "specs"))
        parts += table(("lemmas", "what they are about"), first_lines(crate, "proofs"))
        parts += table(("theorem", "cites"), ((name, coded(files)) for name, files in cited_by_theorems(crate) if files))
        if parts:
            lines += [f"## `{crate}`", "", *parts]
    return "\n".join(lines).rstrip()


def promises():
    """The rows of the promises in docs/PROOFS.md: the cells with clauses and with definitions."""
    text = text_of(CITING).partition("## The promises")[2].partition("\n## ")[0]
    for line in re.findall(r"^\| .* \|$", text, re.M)[1:]:
        cells = [cell.strip() for cell in line.strip("|").split(" | ")]
        if len(cells) >= 3 and not cells[1].startswith("---"):
            yield cells[-2], cells[-1]


def wrong_clauses(cell, known):
    """What a cell cites that is no function or no label of it: `crate::name`: `label`, `label`; .."""
    for part in cell.split("; "):
        names, _, labels = part.partition(": ")
        for name in re.findall(r"`([^`]+)`", names):
            crate, _, function = name.partition("::")
            if function not in known.get(crate, {}):
                yield name
            else:
                yield from (f"{name}: {label}" for label in re.findall(r"`([^`]+)`", labels) if label not in known[crate][function])


def wrong_definitions(cell):
    """What a cell cites that is no file of definitions, or no name in it: `crate/specs/File`: `Name`, `Name`; .."""
    for part in cell.split("; "):
        file, _, names = part.partition(": ")
        path = os.path.join(TOP, f"crates/{file.strip('`')}.antt")
        if not os.path.exists(path):
            yield file
            continue
        text = text_of(path)
        yield from (f"{file}: {name}" for name in re.findall(r"`([^`]+)`", names) if not re.search(rf"^\s*(abbrev |record |let )?(pub )?(record )?{name}\b", text, re.M))


def check_contracts(tally):
    known = {crate: dict(functions(crate)) for crate in crates()}
    rows = list(promises())
    wrong = [name for clauses, definitions in rows for name in [*wrong_clauses(clauses, known), *wrong_definitions(definitions)]]
    tally.say(f"{CITING} cites what exists, {len(rows)} promises", rows and not wrong, ", ".join(wrong))
    check_lemmas(tally)


def main():
    words = sys.argv[1:]
    names = words[1:] or crates()
    if words[:1] != ["--print"] or any(name not in crates() for name in names):
        print(f"{__doc__}\ncrates: {' '.join(crates())}", file=sys.stderr)
        return 2
    print(listed(names))
    return 0


if __name__ == "__main__":
    sys.exit(main())
