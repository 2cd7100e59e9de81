"""Which definitions the public contracts cite: read from the sources of the crates.

A public contract is that of a `pub fn`, of a method of a public trait, or of an `impl` of a trait for a
type, and the model of a public type. What it cites is found by the names of its clauses, through the
file's `ghost use` lines.
"""

import re
from pathlib import Path
from typing import NamedTuple

from harness import ROOT

CRATES = ROOT / "crates"
HEAD = re.compile(r"^(?P<indent> *)pub (?:const |unsafe |extern \"C\" )*fn (?P<name>\w+)")
BARE = re.compile(r"^    (?:const |unsafe )*fn (?P<name>\w+)")
BLOCK = re.compile(r"^(?P<kind>pub trait|impl)\b(?P<rest>.*)")
IMPORT = re.compile(r"ghost use Rattle\.(?P<path>[\w.]+?)(?:\.\{(?P<names>[^}]*)\})?(?: as (?P<alias>\w+))?;")
NAME = re.compile(r"[^\s(){}\[\],;.:]+")


class Module(NamedTuple):
    """A module of definitions, by its crate and its path below specs/."""

    crate: str
    path: tuple

    @property
    def file(self):
        """Its file, where it is one of this repository, or None."""
        here = CRATES / self.crate / "specs" / ("/".join(self.path) + ".antt")
        return here if here.exists() else None

    @property
    def is_inside(self):
        return self.path[:1] == ("inside",)


class Contract(NamedTuple):
    """A public contract: its file, its name, and the modules that it cites."""

    file: Path
    name: str
    cites: frozenset

    @property
    def where(self):
        return f"{self.file.relative_to(CRATES)} {self.name}"


def module_of(path):
    """The module of an import, or None where it is none of specs/."""
    parts = path.split(".")
    if len(parts) < 3 or parts[1] != "specs":
        return None
    return Module(parts[0], tuple(parts[2:]))


def imports_of(text):
    """The module of each name that the text imports."""
    found = {}
    for match in IMPORT.finditer(text):
        module = module_of(match["path"])
        if module is None:
            continue
        if match["names"] is None:
            parent = Module(module.crate, module.path[:-1]) if len(module.path) > 1 else module
            found[match["alias"] or module.path[-1]] = module if module.file else parent
        else:
            for name in match["names"].split(","):
                found[name.split(" as ")[-1].strip()] = module
    return found


def clauses_of(lines, at):
    """What stands from a function's head to its body."""
    clauses = []
    for line in lines[at:]:
        clauses.append(line)
        bare = line.strip()
        if bare in ("{", "{}") or bare.endswith(";") or (len(clauses) == 1 and bare.endswith(("{", "{}"))):
            break
        if bare.endswith(" {") and not bare.startswith(("requires", "ensures")) and "where" not in bare:
            break
    return [line for line in clauses if re.match(r"\s*(requires|ensures|×|→|[^\s].*)", line)]


def cited(text, imports):
    """The modules of the names in a text."""
    return frozenset(imports[name] for name in NAME.findall(text) if name in imports)


def contract_text(lines, at):
    """The clauses of the function whose head stands at this line, as one text."""
    clauses = clauses_of(lines, at)
    first = next((place for place, line in enumerate(clauses) if line.strip().startswith(("requires", "ensures"))), None)
    return "" if first is None else "\n".join(clauses[first:])


def contracts_in(file):
    """The public contracts of a source file."""
    text = file.read_text(encoding="utf-8")
    lines, imports, block = text.splitlines(), imports_of(text), None
    for at, line in enumerate(lines):
        opened = BLOCK.match(line)
        if opened:
            rest = opened["rest"]
            block = "trait" if opened["kind"] == "pub trait" else "impl" if " for " in rest else "own"
            if block == "impl" and re.search(r"\bModel for\b", rest):
                body = "\n".join(lines[at:lines.index("}", at)])
                yield Contract(file, rest.split(" for ")[1].split("<")[0].strip(" {") + " (model)", cited(body, imports))
                block = "own"
        elif line == "}":
            block = None
        head = HEAD.match(line) or (BARE.match(line) if block in ("trait", "impl") else None)
        if head:
            yield Contract(file, head["name"], cited(contract_text(lines, at), imports))


def sources():
    """The source files of all crates but the worked examples, without the tests."""
    for file in sorted(CRATES.glob("*/src/**/*.rt")):
        if not file.relative_to(CRATES).parts[0].startswith("np_examples") and file.name != "tests.rt":
            yield file


def public_contracts():
    """All public contracts of the repository."""
    for file in sources():
        yield from contracts_in(file)
