#!/usr/bin/env python3
"""Counts expressions in documents, man pages, the header and comments that a reader stumbles over, and sentences of more than 40 words.

usage: tests/prose.py [--list]   at the top of the repository: prints the counts that are kept, from what is there; with --list each place
       tests/run.py              fails where a count is above the one that is kept in tests/prose.txt

Counts may only fall: where one is below what is kept, keep the lower one. Code, formats and output are not counted, nor the uses of a word that are right.
"""
import glob
import os
import re
import sys

sys.dont_write_bytecode = True  # no folder of it beside the tests
from program import TOP, text_of

KEPT = "tests/prose.txt"
LONGEST_SENTENCE = 40
# An expression, and its uses that are right.
EXPRESSIONS = {
    r"\bbehind\b": r"lags? behind|leaves? behind|library behind",
    r"\b[Aa]nswer(s|ed|ing)?\b": None,
    r"\b([Tt]ell(s|ing)?|[Tt]old)\b": r"told apart|tells? \w+ from|tells? the prover|tells? a program",
    r"\b[Ww]ho\b": r"the one who|someone who|anybody who|a user who",
    r"\bst(and|ands|ood)\b": r"stands? for",
    r"\b[Ss]pell(s|ed|ing|ings)?\b": None,
    r"\b[Ww]ant of\b": None,
    r"\bmidst\b|\bbut for\b|\bleavings\b|\banew\b": None,
    r"\b[Tt]he like (of|stands)\b": None,
    r"\b[Bb]eside\b": None,
    r"\b([Pp]artings?|parted|dealt|deals)\b": r"bad parting",
    r"\b(the|its|of|at) begin\b": r"(the|its|of|at) begin record",
    r"\bg(ive|ives|iven) out\b|\bin brief\b|\bmostly\b": None,
    r"\brising\b|\bnumbers? (that )?rises?\b": None,
    r"[Ee]xactly where": None,
    r"\bbr(ing|ings|ought) nothing\b": None,
    r"\b(ms|faults) for \d": None,
    r"\b([Ll]ooks?|[Ss]ees?) (whether|that)\b": None,
    r"\b(go|goes|gone) on (from|to|with)\b": None,
    r"\b(is|are|was) no (log|store|record|page|loser|spelling|winner)\b": None,
    r"\b(none|causes one|no cause [\w ]+) stands?\b": None,
    r"(^|[.:;] )[Oo]f (a|an|the|it|each|several|two|causes)\b": None,
    r"\b[Ss]ome (\d|hundred|three|two|twenty)": None,
}


def paragraphs_of_markdown(text):
    """Paragraphs, items and cells without code."""
    text = re.sub(r"```.*?```", "", text, flags=re.S)
    text = re.sub(r"`[^`]*`", "X", text)
    text = re.sub(r"\]\([^)]*\)", "]", text)
    for part in re.split(r"\n\s*\n|\n(?=\s*(?:[-*]|\d+\.) )|\n(?=\|)", text):
        cells = part.split("|") if part.lstrip().startswith("|") else [part]
        yield from (" ".join(cell.split()) for cell in cells)


def paragraphs_of_man(text):
    """Paragraphs of a man page, without examples and without what a macro sets apart."""
    text = re.sub(r"^\.EX.*?^\.EE", ".PP", text, flags=re.S | re.M)
    for part in re.split(r"^\.(?:PP|TP|IP|SH)\b.*$", text, flags=re.M):
        lines = ["X" if line.startswith(".") else line for line in part.splitlines()]
        yield " ".join(" ".join(lines).split())


def paragraphs_of_comments(pattern, text):
    """Comments whose lines follow each other."""
    lines = [re.match(pattern, line) for line in text.splitlines()]
    parts, part = [], []
    for found in lines + [None]:
        if found and found[1].strip():
            part.append(re.sub(r"`[^`]*`", "X", found[1]))
        elif part:
            parts.append(" ".join(" ".join(part).split()))
            part = []
    return parts


def sources():
    """Of each group its files, each with its paragraphs."""
    documents = ["README.md", "CONTRIBUTING.md", "CHANGELOG.md", *sorted(glob.glob("docs/*.md", root_dir=TOP))]
    documents += ["bench/NOTES.md", "examples/bank/README.md", "examples/own_log/README.md", "bindings/rust/README.md", "crates/row_files/data/README.md", "edits/README.md"]
    yield from (("documents", name, paragraphs_of_markdown(text_of(name))) for name in documents)
    yield from (("man", name, paragraphs_of_man(text_of(name))) for name in sorted(glob.glob("man/*", root_dir=TOP)))
    for name in ("include/aries.h", "bindings/c/aries_files.h"):
        yield "header", name, paragraphs_of_comments(r"\s*(?:/\*|\*)(.*?)(?:\*/)?$", text_of(name))
    for name in sorted(glob.glob("crates/*/src/**/*.rt", root_dir=TOP, recursive=True)):
        if name.startswith("crates/workloads/"):
            continue  # the benchmark keeps the text with which it was measured
        yield "comments", name, paragraphs_of_comments(r"\s*//[/!]?(.*)$", text_of(name))
    for name in sorted(glob.glob("crates/*/specs/**/*.antt", root_dir=TOP, recursive=True)):
        yield "comments", name, paragraphs_of_comments(r"\s*--(.*)$", text_of(name))


def found_in(paragraph):
    """The expressions in a paragraph, each with its place."""
    for expression, right in EXPRESSIONS.items():
        spared = [found.span() for found in re.finditer(right, paragraph)] if right else []
        for found in re.finditer(expression, paragraph):
            if not any(start <= found.start() and found.end() <= end for start, end in spared):
                yield expression, paragraph[max(0, found.start() - 40):found.end() + 40]
    for sentence in re.split(r"(?<=[.;:!?]) ", paragraph):
        if len(sentence.split()) > LONGEST_SENTENCE:
            yield f"a sentence of more than {LONGEST_SENTENCE} words", sentence


def counts(is_listed=False):
    """How often each expression is found in each group."""
    found = {}
    for group, name, paragraphs in sources():
        for paragraph in paragraphs:
            for expression, place in found_in(paragraph):
                found[group, expression] = found.get((group, expression), 0) + 1
                if is_listed:
                    print(f"{name}: {expression}: {place}")
    return found


def kept_counts():
    lines = (line.split(" ", 2) for line in text_of(KEPT).splitlines())
    return {(group, expression): int(count) for count, group, expression in lines}


def check_prose(tally):
    kept, now = kept_counts(), counts()
    above = [f"{group}: {expression}: {now[group, expression]}, kept {kept.get((group, expression), 0)}" for group, expression in sorted(now)
             if now[group, expression] > kept.get((group, expression), 0)]
    tally.say("no expression is found more often than before", not above, "; ".join(above))
    tally.asked += [f"KEEP tests/prose.txt: {expression} in {group}: {now.get((group, expression), 0)}" for group, expression in sorted(kept)
            if now.get((group, expression), 0) < kept[group, expression]]


if __name__ == "__main__":
    if "--list" in sys.argv:
        counts(is_listed=True)
    else:
        for (group, expression), count in sorted(counts().items()):
            print(count, group, expression)
