"""The rows of fixtures/caseless that a crate's tests run are those of its files."""

import re
from pathlib import Path

FOLDER = Path(__file__).resolve().parents[2] / "fixtures" / "caseless"
SOURCES = Path(__file__).resolve().parents[2] / "crates" / "np_examples_caseless" / "src"
# A constant's rows, up to their end, and a literal or a word in them.
ROWS = re.compile(r"pub const (\w+): &\[[^=]*\] = &\[(.*?)\n\];", re.DOTALL)
TEXTS = re.compile(r'pub const (\w+): &str =\s*"((?:[^"\\]|\\.)*)";')
ITEM = re.compile(r'"((?:[^"\\]|\\.)*)"|\b(true|false|Form::\w+)\b')


def split(name):
    """The rows of a file of the fixtures, cut into their parts."""
    lines = (FOLDER / name).read_text(encoding="utf-8").splitlines()
    return [line.split(" / ", 3) for line in lines if line and not line.startswith("#")]


def string_of(codes):
    return "" if codes == "-" else "".join(chr(int(code, 16)) for code in codes.split())


def key_rows():
    """Under each version the keys, and the strings that have none, by the constant that has them."""
    rows = {}
    for head, string, key in split("KEYS.txt"):
        version, form = head.split()
        refused = key.startswith("unassigned")
        name = f"{version.upper()}_{'REFUSED' if refused else 'KEYS'}"
        rows.setdefault(name, []).extend((f"Form::{form.capitalize()}", string_of(string), key if refused else string_of(key)))
    return rows


def match_rows():
    """Under each version two strings and whether they match, by the constant that has them."""
    rows = {}
    for head, left, right, answer in split("MATCHES.txt"):
        version, form = head.split()
        compat = "true" if form.startswith("nfk") else "false"
        rows.setdefault(f"{version.upper()}_MATCHES", []).extend(
            (compat, string_of(left), string_of(right), "true" if answer.startswith("0") else "false"))
    return rows


def audit_rows():
    """Two folders, and what is told of them."""
    rows = []
    for head, *rest in split("AUDITS.txt"):
        if len(head.split()) == 2:
            rows += [*head.split(), rest[1]]
    return {"AUDITS": rows}


def edges():
    """Each file at an edge that is a text, with its data, its status and what is told of it."""
    for name, data, status, answer in split("edges/EXPECTED.txt"):
        try:
            text = (FOLDER / "edges" / name).read_bytes().decode("utf-8")
        except UnicodeDecodeError:
            continue
        yield text, data, status, answer.removeprefix("version 0 folding: ")


def edge_rows():
    """The files at the edges, with their faults by the grammar alone."""
    rows = []
    for text, _data, _status, answer in edges():
        rows += [text, answer if answer.startswith("line ") else ""]
    return {"EDGES": rows}


def condition_rows():
    """The files that have no fault of the grammar, with their faults beside their data, by the constant that has them."""
    rows = {}
    for text, data, status, answer in edges():
        if not answer.startswith("line "):
            rows.setdefault(f"{data.upper()}_CONDITIONS", []).extend((text, answer if status == "4" else ""))
    return rows


def rows_of(source, unescaped):
    """The constants of a source file, by name, as one list of their parts each."""
    text = (SOURCES / source).read_text(encoding="utf-8")
    return {name: [word or unescaped(literal) for literal, word in ITEM.findall(body)] for name, body in ROWS.findall(text)}


def check(tally, unescaped):
    data = {name: unescaped(text) for name, text in TEXTS.findall((SOURCES / "condition_rows.rt").read_text(encoding="utf-8"))}
    for name in ("lower", "deep"):
        text = (FOLDER / "edges" / f"{name}.data").read_text(encoding="utf-8")
        tally.check(f"the data of {name}", data.get(f"DATA_OF_{name.upper()}") == text, "not the file of fixtures/caseless/edges")
    for source, wanted in (("key_rows.rt", key_rows()), ("match_rows.rt", match_rows()), ("edge_rows.rt", edge_rows()),
                           ("condition_rows.rt", condition_rows()), ("audit_rows.rt", audit_rows())):
        got = rows_of(source, unescaped)
        for name in sorted(wanted.keys() | got.keys()):
            tally.check(f"{source}: {name}", wanted.get(name) and got.get(name) == wanted.get(name), "not the rows of fixtures/caseless")
