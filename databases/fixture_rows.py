"""The rows of fixtures/caseless, for the tests of both extensions."""

import unicodedata
from pathlib import Path
from typing import NamedTuple

FIXTURES = Path(__file__).resolve().parent.parent / "fixtures"
FILES = ("UnicodeData.txt", "CompositionExclusions.txt")
FOLDING = "CaseFolding.txt"
FORMS = ("nfc", "nfd", "nfkc", "nfkd")
# The toy versions, each with the one whose first two files it has.
TOYS = {"v1": "v1", "v2": "v2", "changed": "v2"}


class Key(NamedTuple):
    """A string under a form of a version, and its caseless key; or the code point and the byte that refuse it."""

    version: str
    form: str
    string: str
    key: str
    refused: tuple


class Match(NamedTuple):
    """Two strings, and whether they match caselessly by the kind of a form."""

    version: str
    form: str
    left: str
    right: str
    same: bool


def split(name):
    """The rows of a file, cut into their parts."""
    lines = (FIXTURES / "caseless" / name).read_text(encoding="utf-8").splitlines()
    return [line.split(" / ", 3) for line in lines if line and not line.startswith("#")]


def string_of(codes):
    return "" if codes == "-" else "".join(chr(int(code, 16)) for code in codes.split())


def keys():
    """The rows of KEYS.txt that SQL can tell: no text has U+0000 or a surrogate."""
    for head, string, answer in split("KEYS.txt"):
        words = answer.split()
        refused = (words[1], int(words[-1])) if words[0] == "unassigned" else ()
        yield Key(*head.split(), string_of(string), "" if refused else string_of(answer), refused)


def matches():
    """The rows of MATCHES.txt of assigned code points; `npss_caseless compare` refuses others, and a match doesn't."""
    for head, left, right, answer in split("MATCHES.txt"):
        if not answer.startswith("3"):
            yield Match(*head.split(), string_of(left), string_of(right), answer.startswith("0"))


def audits():
    """Two versions, and what an audit of the second behind the first tells first."""
    for head, *rest in split("AUDITS.txt"):
        if len(head.split()) == 2:
            yield (*head.split(), rest[1].partition(",")[0])


def put_toy(folder, name, caseless=True):
    """Puts the files of a toy version into a folder: two, or three."""
    folder.mkdir()
    for file in FILES:
        (folder / file).write_bytes((FIXTURES / TOYS[name] / file).read_bytes())
    if caseless:
        (folder / FOLDING).write_bytes((FIXTURES / "caseless" / name / FOLDING).read_bytes())
    return folder


def caseless(form, text):
    """The caseless form of a text by Python, as the Standard has it (D145, D146)."""
    text = unicodedata.normalize("NFD", text).casefold()
    if form.startswith("nfk"):
        text = unicodedata.normalize("NFKD", text).casefold()
    return unicodedata.normalize(form.upper(), text)
