"""Tries wrong bodies of a crate, several in one check.

The prover checks each function over the contracts of those that it calls. So edits of the bodies of different functions do not touch each other, and what the
prover says of a function is the verdict on its edit. An edit of anything else (a constant, a definition, a contract) is tried alone, and so is one of whose
function nothing was said. Each check begins with what a check of the crate as it stands proved.
"""
import os
import re
import shutil
import subprocess

from program import TOP, text_of

HEAD = re.compile(r'^(?P<indent> *)(?:pub(?:\(crate\))? )?(?:const |unsafe )*(?:extern "C" )?fn (?P<name>\w+)')

# What the prover says of a place in a source, of one in the proofs of a function, and of one in any proof or definition.
OF_SOURCE = re.compile(r"(?:note: )?(?:\./)?(?P<path>src/\S+?):(?P<line>\d+):\d+: (?:error|it is not proved)")
OF_PROOF = re.compile(r"(?:\./)?proofs/(?P<place>\S+)/\w+\.antt:\d+:\d+: error")
OF_TEXT = re.compile(r"(?:\./)?(?:proofs|specs)/\S+\.antt:\d+:\d+: error")

# The words by which it says that no contract was tried: the text cannot be read, or a proof names what the edit took away.
FORM = re.compile(r"does not cover|is no goal|has no goal|not in scope|: record `Rattle\.|has no field|has no `|was not admitted|error\[[\w-]+\]")


def changes_of(edit):
    """The changes of an edit: of each the file, the text that stands there once, and what comes in its place."""
    path = old = None
    with open(edit, encoding="utf-8") as lines:
        for line in lines.read().split("\n"):
            word, _, rest = line.partition(" ")
            if word == "file:":
                path = rest.strip()
            elif word == "old:":
                old = rest
            elif word == "new:":
                yield path, old, rest


def functions_in(text):
    """Yields the functions of a source as `rt fmt` leaves it: name, first line, first line of the body, last line, counted from 0. The first line is that of
    its attributes, if it has some: the prover may say there what it says of the function."""
    lines = text.split("\n")
    for at, line in enumerate(lines):
        head = HEAD.match(line)
        if head:
            body = body_after(lines, at, head["indent"])
            if body is not None:
                is_short = lines[body].endswith("}")
                last = body if is_short else lines.index(head["indent"] + "}", body)
                first = at
                while first > 0 and lines[first - 1].lstrip().startswith("#["):
                    first -= 1
                yield head["name"], first, body, last


def body_after(lines, at, indent):
    """The line with which the body of the function begins whose head is here; None if it has no body."""
    for number in range(at, len(lines)):
        line = lines[number]
        is_own = number == at or line.startswith((f"{indent})", f"{indent}{{"))
        if is_own and (line.endswith("{") or line.startswith(f"{indent}{{ ")):
            return number
        if number > at and (HEAD.match(line) or line == indent[4:] + "}") or is_own and line.endswith(";"):
            return None
    return None


class Crate:
    """A crate in a copy of the repository, in which edits are tried."""

    def __init__(self, room, name):
        copy = os.path.join(room, "aries")
        shutil.copytree(TOP, copy, symlinks=True, ignore=shutil.ignore_patterns(".git", "must-fail", "incremental"))
        self.name = name
        self.folder = os.path.join(copy, "crates", name)
        self.kept = os.path.join(self.folder, "out", "incremental")
        self.base = os.path.join(room, "base")

    def text(self, path):
        return text_of(os.path.join("crates", self.name, path))

    def begin(self):
        """Checks the crate as it stands. Returns what the prover said if it is not proved."""
        status, said = self.check({})
        if status == 0:
            linked(self.kept, self.base)
        return None if status == 0 else said

    def check(self, texts):
        """Checks the crate with these texts in place of its own, and returns the status and what the prover said."""
        for path, text in texts.items():
            with open(os.path.join(self.folder, path), "w", encoding="utf-8") as file:
                file.write(text)
        ran = subprocess.run(["rt", "check"], cwd=self.folder, stdout=subprocess.PIPE, stderr=subprocess.STDOUT, text=True, errors="replace")
        for path in texts:
            with open(os.path.join(self.folder, path), "w", encoding="utf-8") as file:
                file.write(self.text(path))
        return ran.returncode, [line.removeprefix("so far: ") for line in ran.stdout.split("\n")]

    def functions_of(self, edit):
        """The functions whose bodies an edit changes; None if it changes anything else."""
        found = set()
        for path, old, _ in changes_of(edit):
            text = self.text(path)
            line = text[: text.index(old)].count("\n")
            inside = [name for name, _, body, last in functions_in(text) if body <= line <= last] if path.startswith("src/") else []
            if not inside:
                return None
            found |= {(path, inside[-1])}
        return found

    def rounds(self, edits):
        """These edits in groups that can be tried together."""
        rounds, alone = [], []
        for edit in edits:
            of = self.functions_of(edit)
            room = next((it for it in rounds if of is not None and not of & set(it)), None)
            if of is None:
                alone.append({edit: edit})
            elif room is None:
                rounds.append(dict.fromkeys(of, edit))
            else:
                room |= dict.fromkeys(of, edit)
        return [sorted(set(it.values())) for it in rounds + alone]

    def edited(self, edits):
        """The texts of the files that these edits change, with all of them; None if what one of them puts in has the old text of another."""
        texts = {}
        for edit in edits:
            for path, old, new in changes_of(edit):
                text = texts.get(path) or self.text(path)
                if text.count(old) != 1:
                    assert len(edits) > 1, f"{edit}: {old!r} stands in {path} {text.count(old)} times"
                    return None
                texts[path] = text.replace(old, new)
        return texts

    def verdicts(self, edits):
        """Tries edits together. Yields each with what speaks against it: None if a contract refused it."""
        texts = self.edited(edits)
        if texts is None:
            yield from self.halves(edits)
            return
        shutil.rmtree(self.kept)
        linked(self.base, self.kept)
        status, said = self.check(texts)
        if len(edits) == 1:
            yield edits[0], verdict_on(status, [line for line in said if OF_SOURCE.match(line) or OF_TEXT.match(line)], said)
        elif status != 1 or any(re.search(r"\berror\[", line) for line in said):
            # One of them is no code, or the prover stopped at a limit.
            yield from self.halves(edits)
        else:
            for edit in edits:
                own = list(said_of(self.functions_of(edit), texts, said))
                if own:
                    yield edit, verdict_on(status, own, said)
                else:
                    yield from self.verdicts([edit])

    def halves(self, edits):
        """Tries the first half of some edits, and then the others."""
        for half in (edits[: len(edits) // 2], edits[len(edits) // 2 :]):
            yield from self.verdicts(half)


def said_of(functions, texts, said):
    """Yields the lines that the prover said of these functions."""
    for line in said:
        source, proof = OF_SOURCE.match(line), OF_PROOF.match(line)
        if source and source["path"] in texts:
            number = int(source["line"]) - 1
            places = {(source["path"], name) for name, first, _, last in functions_in(texts[source["path"]]) if first <= number <= last}
        elif proof:
            *_, name = proof["place"].split("/")
            places = {(path, name) for path, _ in functions if f"{proof['place']}/".startswith(path[len("src/") : -len(".rt")] + "/")}
        else:
            continue
        if places & functions:
            yield line


def verdict_on(status, own, said):
    """What speaks against an edit of which the prover said this: None if a contract refused it."""
    if status == 0:
        return "NOT REFUSED: the crate is proved with it"
    if status != 1:
        return f"no verdict, since `rt check` ended with status {status}: {[line for line in said if line][-1:]}"
    if any(not FORM.search(line) for line in own):
        return None
    return f"refused for a name or a form only: {(own or [line for line in said if line] or ['nothing'])[0]}"


def linked(folder, to):
    """Copies what was proved, by links where these can be made: a check replaces such a file, and changes none."""

    def copy(one, other):
        try:
            return os.link(one, other) if one.endswith(".oantt") else shutil.copy2(one, other)
        except OSError:
            return shutil.copy2(one, other)

    shutil.copytree(folder, to, symlinks=True, copy_function=copy)
