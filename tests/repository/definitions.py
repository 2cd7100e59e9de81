#!/usr/bin/env python3
"""Checks the reading list of docs/DEFINITIONS.md, each path that the documents name, and the pages' lengths.

    tests/repository/definitions.py              checks
    tests/repository/definitions.py --write      puts the two tables of docs/DEFINITIONS.md right
    tests/repository/definitions.py --for NAME   prints what to read for the contract of that name, in reading order

The first table has each file that a reader must believe once: what it defines, by its own first comment,
what it needs, and how many lines of statements it has, which are neither blank nor comment nor import.
The second has for each promise the public contracts that carry it, the files that these cite
(contracts.py finds them), and the statements of these with all that they need. Each file of definitions
outside `inside` has to be reached by a promise; none may import one of `inside`; a public contract and a
model that cite one of `inside` have to be named below the tables. In the table 'Where is' of docs/ARCHITECTURE.md
each name has to stand in the file before it. Code and those files have lines under 160 characters, but for
imports. Prints the sums, and ends in a line 'N passed, M failed'.
"""

import re
import sys
from pathlib import Path

# Nothing is written into the tree but what `--write` puts right.
sys.dont_write_bytecode = True
sys.path.insert(0, str(Path(__file__).resolve().parent.parent))

from repository import pages
from repository.contracts import CRATES, public_contracts, sources
from harness import ROOT, Tally

DEFINITIONS = ROOT / "docs" / "DEFINITIONS.md"
ARCHITECTURE = ROOT / "docs" / "ARCHITECTURE.md"
CODE = re.compile(r"`([^`\n]+)`")
INSIDE = re.compile(r"^\s*(?:pub )?use Rattle\.\w+\.specs\.inside\b", re.MULTILINE)
IMPORT = re.compile(r"^\s*(?:pub )?use Rattle\.(\w+)\.specs\.(\w+)\b", re.MULTILINE)
# Crates whose definitions are the toolchain's own, as std's are.
OF_THE_LANGUAGE = ("std", "std_collections", "std_io", "std_alloc")
# What a path in a document may stand for a part of.
ROOTS = ("", "crates")
ENDINGS = ("", ".antt", ".rt")
# The folders that each crate may have, of which documents speak in general.
OF_A_CRATE = ("src", "specs", "proofs", "must-fail", "must-fail-release", "out")
# What no line of code or of a definition reaches.
WIDTH = 160
FILES, PROMISES = "## The files, in reading order", "## What a promise rests on"
CITED, MODELS = "## What is inside, and cited by a public contract all the same", "## What a value of a type stands for"


def documents():
    """The documents whose paths are checked."""
    return [ROOT / "README.md", ROOT / "CONTRIBUTING.md", *sorted((ROOT / "docs").glob("*.md"))]


def found(path):
    """The file or folder that a document means by the path, or None."""
    for root in ROOTS:
        for ending in ENDINGS:
            here = ROOT / root / (path + ending)
            if here.exists():
                return here
    return None


def is_general(path):
    """Whether the path has a word in capitals for any name, or begins with a folder of any crate."""
    parts = [part for part in path.split("/") if part]
    return any(re.fullmatch(r"[A-Z_*]{2,}(\.\w+)?|\*", part) for part in parts) or parts[0] in OF_A_CRATE


def paths_in(text):
    """The paths that a document names: what stands as code, with a slash and neither blank nor bracket."""
    for token in CODE.findall(text):
        token = token.removeprefix("./")
        if re.fullmatch(r"[\w.*-]+(/[\w.*-]+)*/?", token) and "/" in token and not is_general(token):
            yield token


def believed():
    """The files of definitions that are not inside, but for the lists of modules."""
    return {path for path in ROOT.glob("crates/*/specs/*.antt") if path.stem not in ("Lib", "inside")}


def imported(path):
    """The files of definitions of this repository that a file of definitions imports."""
    for crate, module in IMPORT.findall(path.read_text(encoding="utf-8")):
        here = CRATES / crate / "specs" / f"{module}.antt"
        if here.exists() and here != path:
            yield here


def ported():
    """The definitions of ported crates that files to be believed import, by crate."""
    own = {path.name for path in CRATES.iterdir()}
    return {(crate, module) for path in believed() for crate, module in IMPORT.findall(path.read_text(encoding="utf-8"))
            if crate not in own and crate not in OF_THE_LANGUAGE}


def statements(paths):
    """How many lines of these files are statements: neither blank nor a comment nor an import."""
    return sum(1 for path in paths for line in path.read_text(encoding="utf-8").splitlines()
               if line.strip() and not re.match(r"\s*--|(pub )?use ", line))


def head_of(path):
    """What a file defines, by the comment that it begins with."""
    lines = path.read_text(encoding="utf-8").splitlines()
    head = [line.removeprefix("--").strip() for line in lines[:next(at for at, line in enumerate(lines) if not line.startswith("--"))]]
    return " ".join(head).rstrip(".").replace("|", "\\|")


def in_order(paths, before=()):
    """The files and what they import, each behind what it imports."""
    ordered = list(before)
    for path in paths:
        if path not in ordered:
            ordered = in_order([here for here in imported(path) if here not in ordered], ordered)
            ordered.append(path)
    return ordered


def name_of(path):
    return str(path.relative_to(CRATES).with_suffix(""))


def reading_order():
    """All files to be believed, each behind what it needs, the lowest crate's first."""
    crates = re.findall(r"^(\w+)(?: \w+)*:", (ROOT / "crates.txt").read_text(encoding="utf-8"), re.MULTILINE)
    return in_order(sorted(believed(), key=lambda path: (crates.index(path.parts[-3]), path.name)))


def contracts_by_name():
    """The public contracts by file and name."""
    named = {}
    for contract in public_contracts():
        for name in (contract.name, contract.name.removesuffix(" (model)")):
            named.setdefault((str(contract.file.relative_to(CRATES)), name), []).append(contract)
    return named


def cited_files(contracts):
    """The files to be believed that these contracts cite."""
    return sorted({module.file for contract in contracts for module in contract.cites
                   if module.file and not module.is_inside})


def contracts_of(cell, named):
    """The contracts that a cell names: a file and the names in it, and those of which there is none."""
    file, contracts, missing = None, [], []
    for token in CODE.findall(cell):
        if "/" in token:
            file = token
        elif (file, token) in named:
            contracts += named[file, token]
        else:
            missing.append(f"{file} {token}")
    return contracts, missing


def promises(text):
    """The rows of the second table: promise, contracts, files, statements as written."""
    table = text.partition(f"\n{PROMISES}\n")[2].partition("\n## ")[0]
    for line in table.splitlines():
        cells = [cell.strip() for cell in line.strip()[1:-1].split("|")]
        if line.startswith("|") and len(cells) == 4 and "`" in cells[1]:
            yield cells


def row_of(promise, cell, named):
    """The row of a promise, with its files and statements put right."""
    files = cited_files(contracts_of(cell, named)[0])
    names = ", ".join(f"`{name_of(path)}`" for path in files)
    return f"| {promise} | {cell} | {names} | {statements(in_order(files)):,} |"


def table_of_files():
    """The first table."""
    lines = ["| File | What it defines | Needs | Statements |", "|---|---|---|---|"]
    for path in reading_order():
        needs = ", ".join(f"`{name_of(here)}`" for here in sorted(set(imported(path)), key=name_of)) or "-"
        lines.append(f"| `{name_of(path)}` | {head_of(path)} | {needs} | {statements([path]):,} |")
    return [*lines, f"| all of it | | | {statements(believed()):,} |"]


def put_right(text):
    """The text with both tables put right."""
    named = contracts_by_name()
    before, _, rest = text.partition(f"\n{FILES}\n")
    _, _, behind = rest.partition("\n## ")
    text = "\n".join([before, FILES, "", *table_of_files(), "", f"## {behind}"])
    for promise, cell, *_ in list(promises(text)):
        line = next(line for line in text.splitlines() if line.startswith(f"| {promise} | {cell} |"))
        text = text.replace(f"{line}\n", f"{row_of(promise, cell, named)}\n")
    return text


def check_reading_list(tally):
    """Both tables are right, and each file is reached by a promise."""
    text, named, reached = DEFINITIONS.read_text(encoding="utf-8"), contracts_by_name(), set()
    tally.check("docs/DEFINITIONS.md: both tables are right", put_right(text) == text, "run tests/repository/definitions.py --write")
    for promise, cell, *_ in promises(text):
        contracts, missing = contracts_of(cell, named)
        tally.check(f"{promise}: its contracts", contracts and not missing, f"there is none of {', '.join(missing) or 'them'}")
        files = in_order(cited_files(contracts))
        reached.update(files)
        print(f"{promise}: {len(files)} files, {statements(files):,} lines of statements")
    for path in sorted(believed()):
        tally.check(f"{name_of(path)} is reached by a promise", path in reached, "it is not")
        tally.check(f"{name_of(path)} imports nothing of inside", not INSIDE.search(path.read_text(encoding="utf-8")),
                    "it does")
    for crate, module in sorted(ported()):
        tally.check(f"the definitions of {crate} are spoken of", f"`{crate}`" in text, f"{module} is imported")
    print(f"all of it: {len(believed())} files, {statements(believed()):,} lines of statements")


def check_inside(tally):
    """The public contracts and models that cite what serves proofs are those that the page names, each in its part."""
    text = DEFINITIONS.read_text(encoding="utf-8")
    contracts, models = (part.partition("\n## ")[0] for part in text.partition(f"\n{CITED}\n")[2].partition(f"\n{MODELS}\n")[::2])
    citing = {contract.name for contract in public_contracts()
              if any(module.is_inside for module in contract.cites) and is_exported(contract)}
    of_types = {name.removesuffix(" (model)") for name in citing if name.endswith(" (model)")}
    check_named(tally, "contract", {name for name in citing if not name.endswith(" (model)")}, contracts)
    check_named(tally, "model", of_types, models)


def check_named(tally, kind, citing, text):
    """The page names each of these that cites what is inside."""
    named = set(CODE.findall(text))
    for name in sorted(citing - named):
        tally.check(f"docs/DEFINITIONS.md names the {kind} of {name}, which cites what is inside", False, "it doesn't")
    tally.check(f"each {kind} that cites what is inside is named", bool(citing) and citing <= named, "")


def is_exported(contract):
    """Whether the crate passes the item on: its file's module is public, or a `pub use` names the file."""
    crate = CRATES / contract.file.relative_to(CRATES).parts[0]
    roots = [path for path in (crate / "src" / "lib.rt", crate / "src" / "main.rt") if path.exists()]
    text = "\n".join(path.read_text(encoding="utf-8") for path in roots)
    name = contract.file.stem
    return name in ("lib", "main") or bool(re.search(rf"^pub (mod {name};|use ([\w:]+::)?{name}\b)", text, re.MULTILINE))


def check_paths(tally):
    """Each path that a document names is there, but for what is built, which a fresh checkout lacks."""
    for document in documents():
        for path in sorted(set(paths_in(document.read_text(encoding="utf-8")))):
            if "out" in Path(path).parts:
                continue
            tally.check(f"{document.relative_to(ROOT)}: {path}", found(path) is not None, "there is no such path")


def check_where(tally):
    """In the table 'Where is' each name stands in the file before it."""
    text = ARCHITECTURE.read_text(encoding="utf-8").partition("\n## Where is")[2].partition("\n## ")[0]
    rows = [line for line in text.splitlines() if line.startswith("|") and "`" in line]
    for line in rows:
        path = None
        for token in CODE.findall(line):
            if "/" in token:
                path = found(token)
            elif path and path.is_file():
                words = re.findall(r"[\w'-]+", path.read_text(encoding="utf-8"))
                tally.check(f"{path.relative_to(ROOT)} has {token}", token.split("::")[-1] in words, "it has not")
    tally.check("there is a table 'Where is'", len(rows) >= 20, f"{len(rows)} rows")


def check_widths(tally):
    """Code with its contracts, and the files that are to be believed, have no wide line but of an import."""
    wide = [f"{name_of(path)} line {number}" for path in [*sources(), *believed()]
            for number, line in enumerate(path.read_text(encoding="utf-8").splitlines(), 1)
            if len(line) >= WIDTH and not re.match(r"(pub )?(ghost )?use ", line)]
    tally.check(f"lines are under {WIDTH} characters", not wide, ", ".join(wide))


def show_for(name):
    """Prints what to read for a contract, in reading order."""
    contracts = [contract for contract in public_contracts() if contract.name.removesuffix(" (model)") == name]
    files = in_order(cited_files(contracts))
    for contract in contracts:
        print(f"# {contract.where}")
    for path in files:
        print(f"{statements([path]):5}  {name_of(path)}: {head_of(path)}")
    print(f"{statements(files):5}  in all")
    return 0 if contracts else 1


def main():
    if sys.argv[1:2] == ["--for"] and len(sys.argv) == 3:
        sys.exit(show_for(sys.argv[2]))
    if sys.argv[1:] == ["--write"]:
        DEFINITIONS.write_text(put_right(DEFINITIONS.read_text(encoding="utf-8")), encoding="utf-8")
    tally = Tally()
    check_reading_list(tally)
    check_inside(tally)
    check_paths(tally)
    check_where(tally)
    check_widths(tally)
    pages.check_pages(tally)
    pages.check_figure(tally)
    pages.check_comments(tally)
    tally.finish()


if __name__ == "__main__":
    main()
