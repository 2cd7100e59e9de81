"""Folding files that were edited at random, opened by the C library, beside the reader of tests/models/folding_files.py.

What npss_open_caseless answers, and the caseless NFD form of a text, have to be what that reader says. tests/library/fuzz.py runs this
beside the fuzzers, by the program of folding_answers.cc.
"""

import random
import re
import struct
import subprocess
import time
from typing import NamedTuple

from harness import ROOT
from models import data_files, folding_files
import ucd

FIXTURES = ROOT / "fixtures"
EDGES = FIXTURES / "caseless" / "edges"
RECORD_FAULTS = ("", "FieldCount", "BadCode", "BadStatus", "OutOfOrder", "StatusConflict", "BadMapping")
CONDITION_FAULTS = ("", "FoldsUnassigned", "FoldsToUnassigned", "FoldsAgain", "FoldedTooLong", "NotFolded")
DONE, FOLDING, FOLDINGS = 0, 24, 25
# One file in so many is an edit of the published one, which takes some hundred times as long.
PUBLISHED = 200
BYTES = b";;; \t\r\n#0123456789ABCDEFabCFSTX\0\xff\xc3"
WORDS = (b"D800", b"DFFF", b"110000", b"10FFFF", b"0041", b"0061", b"0345", b"E000", b"e001", b"00C5", b"41", b"0000041", b"16D67", b"AC00", b"")


class Version(NamedTuple):
    """The first two files, what the reader has of them, folding files to begin with, and a text, all of it assigned."""

    files: tuple
    decompositions: folding_files.Decompositions
    lowercases: dict
    foldings: list
    text: str


def version_of(data, exclusions, foldings):
    """The version of two files, with these folding files."""
    rows, fault = data_files.version_of(data.read_bytes(), exclusions.read_bytes())
    if rows is None:
        raise ValueError(fault)
    assigned = [code for row in rows.rows for code in range(row.first, min(row.last, row.first + 9) + 1) if not data_files.is_surrogate(code)]
    text = "".join(map(chr, assigned[:500] + assigned[-20:]))
    return Version((data, exclusions), folding_files.Decompositions(rows), folding_files.lowercases_of(data.read_bytes()),
                   [path.read_bytes() for path in foldings], text)


def edges():
    """The name of each folding file at an edge, and the data file that it stands beside."""
    for line in (EDGES / "EXPECTED.txt").read_text(encoding="utf-8").splitlines():
        if not line.startswith("#"):
            name, data = line.split(" / ")[:2]
            yield name, FIXTURES / "v1" / ucd.DATA if data == "v1" else EDGES / f"{data}.data"


def versions_here(published):
    """The toy versions, with the files at the edges, and the published one behind them."""
    v1, v2 = FIXTURES / "v1", FIXTURES / "v2"
    both = [FIXTURES / "caseless" / name / ucd.FOLDING for name in ("v1", "v2", "changed")]
    beside = {}
    for name, data in edges():
        beside.setdefault(data, []).append(EDGES / name)
    made = [version_of(v1 / ucd.DATA, v1 / ucd.EXCLUSIONS, [*both, *beside.pop(v1 / ucd.DATA)]), version_of(v2 / ucd.DATA, v2 / ucd.EXCLUSIONS, both)]
    made += [version_of(data, v1 / ucd.EXCLUSIONS, found) for data, found in beside.items()]
    return [*made, version_of(published[ucd.DATA], published[ucd.EXCLUSIONS], [published[ucd.FOLDING]])]


def edited_line(chance, line):
    """A line with another field, a longer or a wrong list, or blanks."""
    fields = line.split(b";")
    kind, place = chance.randrange(6), chance.randrange(len(fields))
    if kind == 0:
        fields[place] = chance.choice((b"", b" ")) + chance.choice(WORDS) + chance.choice((b"", b" ", b"\t"))
    elif kind == 1 and len(fields) > 2:
        fields[1] = chance.choice((b" C", b" F", b"S", b" T", b"\tT ", b" c"))
    elif kind == 2 and len(fields) > 2:
        fields[2] = b" " + b" ".join(chance.choices(WORDS[4:10], k=chance.choice((0, 1, 2, 3, 31, 32, 33))))
    elif kind == 3:
        fields.insert(place, chance.choice((b"", b" ", b" 0061", b"# C")))
    elif kind == 4:
        del fields[place]
    else:
        fields[place] = chance.choice((b"  ", b"\t", b"\xc2\xa0", b"\0")) + fields[place]
    return b";".join(fields)


def edited_lines(chance, data):
    """The file with a line that is edited, lost, repeated, moved or of another file's kind."""
    lines = data.split(b"\n")
    kind, at, to = chance.randrange(6), chance.randrange(len(lines)), chance.randrange(len(lines))
    if kind < 2:
        lines[at] = edited_line(chance, lines[at])
    elif kind == 2:
        del lines[at]
    elif kind == 3:
        lines.insert(at + 1, lines[at])
    elif kind == 4:
        lines[at], lines[to] = lines[to], lines[at]
    else:
        mapping = b" ".join(chance.choices(WORDS, k=chance.choice((1, 1, 2))))
        lines.insert(to, b"; ".join((chance.choice(WORDS), chance.choice((b"C", b"F", b"S", b"T")), mapping, b"# x")))
    return b"\n".join(lines)


def edited(chance, data):
    """The file with one edit: of a byte, of a bit, of a line, or of the whole."""
    kind, at = chance.randrange(10), chance.randrange(len(data) + 1)
    if kind == 0:
        return data[:at] + bytes([chance.choice(BYTES)]) + data[at + 1:]
    if kind == 1:
        return data[:at] + bytes([chance.choice(BYTES)]) + data[at:]
    if kind == 2:
        return data[:at] + data[at + 1:]
    if kind == 3:
        return data[:at] + bytes([byte ^ 1 << chance.randrange(8) for byte in data[at:at + 1]]) + data[at + 1:]
    if kind == 4 and chance.randrange(4) == 0:
        return chance.choice((data[:at], b"\xef\xbb\xbf" + data, data.replace(b"\n", b"\r\n"), data[:at] + data[at:at + 1] * 70_000 + data[at:]))
    return edited_lines(chance, data)


def answer_of(version, folding):
    """The five fields of the answer, and the caseless NFD form of the version's text."""
    folded, line = folding_files.folded_of(version.decompositions, version.lowercases, folding)
    if folded:
        return (DONE, 0, 0, 0, 0), "".join(map(chr, folded.caseless_nfd(list(map(ord, version.text))))).encode().hex()
    found = re.search(r"line (\d+): (\w+)", line)
    if found:
        return (FOLDING, RECORD_FAULTS.index(found[2]), 0, int(found[1]), 0), None
    name, code = line.split()[-2:]
    return (FOLDINGS, CONDITION_FAULTS.index(name), int(code, 16), 0, 0), None


def answered_by(program, number, version, folding):
    """What the program tells of a folding file beside a version; nothing where it died."""
    text = version.text.encode()
    try:
        program.stdin.write(struct.pack("<III", number, len(folding), len(text)) + folding + text)
        program.stdin.flush()
    except BrokenPipeError:
        return (), None
    *fields, key = program.stdout.readline().split() or [b"-"]
    return tuple(map(int, fields)), key[1:].decode() if key[:1] == b"=" else None


def drawn(chance, versions):
    """A version by its number, and a folding file beside it with one to four edits."""
    number = len(versions) - 1 if chance.randrange(PUBLISHED) == 0 else chance.randrange(len(versions) - 1)
    folding = chance.choice(versions[number].foldings)
    for _ in range(chance.choice((1, 1, 1, 2, 3, 4))):
        folding = edited(chance, folding)
    return number, folding


def judge_until(path, published, seconds, seed):
    """How many files were opened in this time, and by which number of it the first one that is told otherwise, with what was told and what
    had to be; None where there is none."""
    chance, versions, count = random.Random(seed), versions_here(published), 0
    words = [path, *(name for version in versions for name in version.files)]
    end = time.monotonic() + seconds
    with subprocess.Popen(list(map(str, words)), stdin=subprocess.PIPE, stdout=subprocess.PIPE) as program:
        while time.monotonic() < end:
            number, folding = drawn(chance, versions)
            got, want = answered_by(program, number, versions[number], folding), answer_of(versions[number], folding)
            if got != want:
                program.kill()
                return count, (number, folding, got, want)
            count += 1
        program.stdin.close()
    return count, None
