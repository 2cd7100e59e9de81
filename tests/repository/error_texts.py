"""The texts of faults: each is told by a unit test, word for word."""

import re

from harness import ROOT

# A text of a fault stands before its variant, or before its struct.
TEXT = re.compile(r'#\[error\("((?:[^"\\]|\\.)*)"[^\n]*\)\]\s*(?:pub struct )?(\w+)')
STRING = re.compile(r'"((?:[^"\\]|\\.)*)"', re.DOTALL)
TYPE = re.compile(r"pub (?:enum|struct) (\w+)")


def texts():
    """The texts of faults, each with its type and variant. One that only hands on another's is left out."""
    for path in sorted((ROOT / "crates").glob("*/src/**/*.rt")):
        source = path.read_text(encoding="utf-8")
        for found in TEXT.finditer(source):
            text, variant = found.groups()
            if text != "{fault}":
                yield f"{TYPE.findall(source[:found.end()])[-1]}::{variant}", text


def tested_strings():
    """The strings of the files of unit tests that tell values in words."""
    for path in sorted((ROOT / "crates").glob("*/src/**/*.rt")):
        source = path.read_text(encoding="utf-8")
        if "want_told(" in source and "#[test]" in source:
            yield from STRING.findall(source)


def check_texts(tally):
    """Each text of a fault is one of the strings, with something in each of its places."""
    strings = set(tested_strings())
    for name, text in texts():
        shape = re.compile(re.sub(r"\\\{[^}]*\\\}", "[^ ].*", re.escape(text)))
        tally.check(f"the text of {name} is told by a test", any(map(shape.fullmatch, strings)), text)
