#!/usr/bin/env python3
"""How many instructions a few runs take: tests/program/costs.py PROGRAM LINES, where LINES is npss_lines.

Answers that are right and several times as dear fail no other test: a table that tells nothing of ASCII, or an audit that
looks at each code point, or a caseless key that is always made the long way. Each run's instructions are counted by valgrind,
and may be a tenth more than the figure that is kept below. Where a change makes a run cheaper, put the figure right.
tests/library/doors.py counts keys through the library for C in the same way. Ends in a line 'N passed, M failed'.
"""

import re
import shutil
import string
import subprocess
import sys
import tempfile
import unicodedata
from pathlib import Path

# Nothing is written into the tree.
sys.dont_write_bytecode = True
sys.path.insert(0, str(Path(__file__).resolve().parent.parent))

from program.cases import text
from harness import Tally
from versions import record, with_records

# Millions of instructions, and how many more are too many.
MORE = 1.1
# So many bytes a text has at least.
LENGTH = 4 << 20
ASCII = "the quick brown fox jumps over a lazy dog "
LATIN = "Zo\u00eb na\u00efvet\u00e9 \u00e0 c\u00f4t\u00e9 "
CAPITALS = "\u00c0\u00c9\u00cb\u00cf\u00d4" + "".join(map(chr, range(0x410, 0x430)))
# Letters of four bytes.
EXTENSION = "".join(map(chr, range(0x20000, 0x20008)))
# Lines by what they are of, for caseless keys, and the millions of instructions that are kept. Of ideographs by themselves nothing folds.
CASELESS = {
    "ASCII": (f"{ASCII.title()}\n", 39.7),
    "Latin": ("Zo\u00eb Na\u00efvet\u00e9\n\u00c0 C\u00f4t\u00e9\n", 91.7),
    "Cyrillic": ("\u041d\u043e\u0432\u044b\u0439 \u0413\u043e\u0440\u043e\u0434\n\u0414\u043e\u043c \u041a\u043d\u0438\u0433\u0438\n", 100.1),
    "ideographs": ("\u6771\u4eac\u90fd \u65e5\u672c\u6a4b\n\u6587\u5b57 \u4e2d\u592e\n", 127.9),
    "capitals and ideographs": ("Tokyo \u6771\u4eac\u90fd\nOsaka \u5927\u962a\n", 112.0),
    "ideographs of four bytes": (f"{EXTENSION[:3]} {EXTENSION[3:]}\n{EXTENSION[5:]} {EXTENSION[:5]}\n", 180.3),
}

# How many instructions a key takes through the library for C, by the text's name in doors/costs.c.
KEYS = {"short": 138, "long": 1_550, "changed": 1_707, "looked-up": 883}


def code_of(letter):
    """The letter's code point, as files have it."""
    return f"{ord(letter):04X}"


def version():
    """A data file with ASCII, some Latin letters and marks, and 26,000 more code points, each by itself."""
    lines = [record(f"{code:04X}") for code in range(0x80)]
    lines += [record("00E0", "Ll", 0, "0061 0300"), record("00E9", "Ll", 0, "0065 0301"), record("00EB", "Ll", 0, "0065 0308"),
              record("00EF", "Ll", 0, "0069 0308"), record("00F4", "Ll", 0, "006F 0302")]
    lines += [record("0300", "Mn", 230), record("0301", "Mn", 230), record("0302", "Mn", 230), record("0308", "Mn", 230)]
    lines += [record(f"{code:04X}", "Lo") for code in range(0x3400, 0x9A00)]
    return "".join(lines)


def folded_version():
    """The same with capitals, Cyrillic and letters of four bytes, and a folding file by which each capital folds to its small letter."""
    letters = [record(code_of(letter), mapping=unicodedata.decomposition(letter)) for letter in CAPITALS + CAPITALS.lower() + EXTENSION]
    folds = [f"{code_of(letter)}; C; {code_of(letter.lower())}; # X\n" for letter in string.ascii_uppercase + CAPITALS]
    return with_records(version(), record("0306", "Mn", 230), *letters), "".join(folds)


def of_length(piece):
    """The text so often that it has as many bytes as are wanted."""
    return piece.encode() * (LENGTH // len(piece.encode()))


def runs(program, lines):
    """What is run, over which input, and its millions of instructions."""
    files, three = ["data", "exclusions"], ["folded-data", "exclusions", "foldings"]
    ascii_text, latin = of_length(ASCII), of_length(LATIN)
    yield "audit of a version with itself", [program, "audit", *files, *files], b"", 27.8
    yield "key of a short name", [program, "key", "--form", "nfc", *files], text("0061"), 16.5
    yield "key of ASCII, NFC", [program, "key", "--form", "nfc", *files], ascii_text, 26.4
    yield "key of Latin, NFC", [program, "key", "--form", "nfc", *files], latin, 65.9
    yield "key of Latin, NFD", [program, "key", "--form", "nfd", *files], latin, 200.0
    yield "lines of short names, NFC", [lines, "--form", "nfc", *files], b"bob\n" * (LENGTH // 4), 110.1
    yield "lines of Latin, NFD", [lines, "--form", "nfd", *files], latin.replace(b" ", b"\n"), 322.3
    for name, (piece, kept) in CASELESS.items():
        yield f"lines of {name}, NFKC, caseless", [lines, "--form", "nfkc", "--caseless", *three], of_length(piece), kept


def instructions(command, given, folder):
    """How many millions of instructions a run takes, and its status."""
    ended = subprocess.run(["valgrind", "--tool=cachegrind", "--cache-sim=no", "--cachegrind-out-file=/dev/null", *command],
                           input=given, cwd=folder, capture_output=True, check=False)
    counted = re.search(rb"I\s+refs:\s+([\d,]+)", ended.stderr)
    return int(counted[1].replace(b",", b"")) / 1e6 if counted else None, ended.returncode


def write_version(folder):
    """Writes the version's two files."""
    (folder / "data").write_text(version(), encoding="ascii")
    (folder / "exclusions").write_text("", encoding="ascii")


def write_folded_version(folder):
    """Writes the data and the foldings of the version that folds."""
    for name, text in zip(("folded-data", "foldings"), folded_version()):
        (folder / name).write_text(text, encoding="ascii")


def check_keys(tally, program, folder):
    """Keys through the library for C, by the program of doors/costs.c: what a thousand take more than one."""
    write_version(folder)
    for name, kept in KEYS.items():
        one, more = (instructions([program, "data", "exclusions", name, str(keys)], b"", folder)[0] for keys in (1, 1001))
        count = round((more - one) * 1e3) if one and more else None
        print(f"a key through C, {name}: {count} instructions, {kept} are kept")
        tally.check(f"a key through C, {name}: its instructions", count is not None and count <= kept * MORE, f"{count}, and {kept} are kept")


def main():
    tally = Tally()
    if shutil.which("valgrind") is None:
        print("skipped: instructions of runs: valgrind is not there")
    else:
        with tempfile.TemporaryDirectory() as folder:
            write_version(Path(folder))
            write_folded_version(Path(folder))
            for name, command, given, kept in runs(*(Path(word).resolve() for word in sys.argv[1:3])):
                count, status = instructions(command, given, folder)
                print(f"{name}: {count} million instructions, {kept} are kept, status {status}")
                tally.check(f"{name}: its instructions", status == 0 and count is not None and count <= kept * MORE, f"{count} million, and {kept} are kept")
    tally.finish()


if __name__ == "__main__":
    main()
