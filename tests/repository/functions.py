"""The functions of the crates that are no tests, each known by its path and its name, and which of them one calls.

A call is told by its name and by where it stands, as a reader tells it: a plain one is of the same file or of what the file
imports; one behind `::` is of the type or module that is named before; a method is of a type or trait that the file names.
Calls of std's functions are none of the repository.
"""

import re
from dataclasses import dataclass, field

from harness import ROOT

CRATES = ROOT / "crates"
HEAD = re.compile(r"\bfn (\w+)\s*(?:<[^(]*>)?\(")
OWNER = re.compile(r"^(?:pub(?:\([^)]*\))? )?(?:unsafe )?(impl|trait)\b([^{]*?)\{", re.MULTILINE)
CALL = re.compile(r"(?:(\w+)(?:::<[^(]*>)?::|(\.))?\b(\w+)(?:::<[^(]*>)?\(")
IMPORT = re.compile(r"^(?:pub )?use ((?:crate|super|self|np_\w+)[\w:]*)::(\{[^}]*\}|\w+);", re.MULTILINE)


@dataclass(frozen=True)
class Function:
    """A function: its file below the folder of crates, its name, the types and traits that have it, its parameters and body."""

    path: str
    name: str
    owners: frozenset = field(compare=False)
    is_method: bool = field(compare=False)
    parameters: int = field(compare=False)
    body: str = field(compare=False, repr=False)

    @property
    def crate(self):
        return self.path.partition("/")[0]

    def __str__(self):
        return f"{self.path} {self.name}"


def closing(text, at):
    """The place of the bracket that closes the one at a place."""
    depth = 0
    for place in range(at, len(text)):
        depth += (text[place] in "([{") - (text[place] in ")]}")
        if depth == 0:
            return place
    return len(text)


def parameters(text):
    """How many parameters a list of them has."""
    depth, parts = 0, [""]
    for letter in text.replace("->", ""):
        depth += (letter in "([<") - (letter in ")]>")
        if letter == "," and depth == 0:
            parts.append("")
        else:
            parts[-1] += letter
    return sum(1 for part in parts if part.strip())


def body_behind(text, at):
    """The body of a function whose parameters end at a place, behind its clauses; nothing where a trait leaves it out."""
    place, depth, is_head = at + 1, 0, True
    for line in text[place:].splitlines(keepends=True):
        bare = line.strip()
        if depth == 0 and (bare == "{" or is_head and bare.endswith("{")):
            start = place + line.rindex("{")
            return text[start:closing(text, start) + 1]
        depth += sum(sign in "([{" for sign in line) - sum(sign in ")]}" for sign in line)
        if depth == 0 and bare.endswith(";"):
            return ""
        place, is_head = place + len(line), False
    return ""


def owners(text):
    """Where what belongs to a type or a trait begins and ends, and the names of these."""
    for head in OWNER.finditer(text):
        named = re.sub(r"\bwhere\b.*", "", head[2], flags=re.DOTALL)
        kept = re.sub(r"<[^<>]*>", "", re.sub(r"<[^<>]*>", "", named))
        yield head.start(), closing(text, head.end() - 1), frozenset(re.findall(r"\b[A-Z]\w*", kept.partition(":")[0] if head[1] == "trait" else kept))


def functions_of(path, text):
    """The functions of a file."""
    spans = list(owners(text))
    for head in HEAD.finditer(text):
        end = closing(text, head.end() - 1)
        body = body_behind(text, end)
        given = text[head.end():end]
        held = next((names for begin, close, names in spans if begin < head.start() < close), frozenset())
        yield Function(path, head[1], held, re.match(r"\s*&?\s*(?:'\w+ )?(?:mut )?self\b", given) is not None, parameters(given), body)


class Sources:
    """The functions of all crates, found by path and name."""

    def __init__(self):
        self.texts, self.by_name = {}, {}
        self.below = {line.split()[0].rstrip(":"): set(line.partition(":")[2].split())
                      for line in (ROOT / "crates.txt").read_text(encoding="utf-8").splitlines() if line and line[0] != "#"}
        for path in sorted(CRATES.glob("*/src/**/*.rt")):
            name = path.relative_to(CRATES).as_posix()
            if not name.startswith("np_examples"):
                text = re.sub(r"//.*|^ghost use .*", "", path.read_text(encoding="utf-8"), flags=re.MULTILINE)
                self.texts[name] = text
                for one in functions_of(name, text):
                    self.by_name.setdefault(one.name, []).append(one)

    def all(self):
        return [one for several in self.by_name.values() for one in several]

    def find(self, path, name):
        """The functions of that path and name: several where more than one type of the file has one."""
        return [one for one in self.by_name.get(name, []) if one.path == path]

    def imports(self, path):
        """What a file imports of the crates: each name, with the crate and the module that it names it by."""
        for head, names in IMPORT.findall(self.texts[path]):
            crate, _, module = head.partition("::")
            for name in re.findall(r"\w+", names):
                yield name, (crate if crate.startswith("np_") else path.partition("/")[0], module.rpartition("::")[2])

    def called(self, one):
        """The functions of the crates that one calls. What a trait of its crate has is called there, not where it is carried out."""
        imported, text = dict(self.imports(one.path)), self.texts[one.path]

        def is_meant(other, before, dot):
            if other.crate != one.crate and other.crate not in self.below[one.crate]:
                return False
            if dot:
                return other.is_method and (other.path == one.path or any(re.search(rf"\b{owner}\b", text) for owner in other.owners))
            if before == "Self":
                return bool(other.owners & one.owners)
            if before:
                return before in other.owners or other.path.endswith(f"/{before}.rt")
            crate, module = imported.get(other.name, (one.crate, None))
            is_there = other.path == one.path if module is None else other.crate == crate and (not module or other.path.endswith(f"/{module}.rt"))
            return not other.owners and is_there

        calls = CALL.findall(one.body)
        return {other for before, dot, name in calls for other in self.by_name.get(name, []) if other.body and other != one and is_meant(other, before, dot)}
