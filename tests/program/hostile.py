#!/usr/bin/env python3
"""Cut and forged data files: tests/program/hostile.py PROGRAM [--published [FOLDER]] [--places N].

Over the first fixture both files are cut at every byte, and every byte is replaced in turn; with
--published the published files are changed at N places drawn by a fixed seed (2,000 where N isn't
told). For each changed version the program's status and line are compared with those of the reader
in data_files.py; and of the first fixture, where there is no fault, the breaks from and to the unchanged one.
Ends in a line 'N passed, M failed'.
"""

import argparse
import random
import sys
import tempfile
from pathlib import Path

sys.dont_write_bytecode = True
sys.path.insert(0, str(Path(__file__).resolve().parent.parent))

from models import data_files
import ucd
from program.cases import BAD_TEXT, DIFFERENT
from harness import ROOT, Tally, run

FIXTURE = ROOT / "fixtures" / "v1"
REPLACEMENTS = b";\n\r<\0\xff"
SEED = 19


def check(tally, program, folder, name, data, exclusions):
    """Compares what the program and the reader say of one version, which is answered where it has no fault."""
    (folder / "data").write_bytes(data)
    (folder / "exclusions").write_bytes(exclusions)
    got = run(program, ["key", "--form", "nfc", "data", "exclusions"], folder=folder)
    version, line = data_files.version_of(data, exclusions)
    tally.same(name, got, (0 if version else BAD_TEXT, b"", line.encode()))
    return version


def check_rows(tally, program, folder, name, first, version):
    """Compares the breaks between the first fixture and a changed one: they tell which rows were read. Where the
    rows are not the same, in both directions."""
    paths = [str(FIXTURE / file) for file in (ucd.DATA, ucd.EXCLUSIONS)]
    ways = [([*paths, "data", "exclusions"], first, version), (["data", "exclusions", *paths], version, first)]
    same = (version.rows, version.spans) == (first.rows, first.spans)
    for words, old, new in ways[:1] if same else ways:
        breaks = data_files.breaks_of(old, new)
        wanted = (DIFFERENT, breaks.encode(), b"") if breaks else (0, b"extends\n", b"")
        tally.same(f"{name}, audit {words[0]}", run(program, ["audit", *words], folder=folder), wanted)


def changed(data):
    """Each way to cut the bytes or to replace one of them, with its name."""
    for at in range(len(data)):
        yield f"cut to {at}", data[:at]
        for byte in REPLACEMENTS:
            yield f"byte {at} replaced by {byte:02x}", data[:at] + bytes([byte]) + data[at + 1:]


def check_fixture(tally, program, folder):
    """All changes of the first fixture: each is refused at its line, or has the rows that it says."""
    data, exclusions = ((FIXTURE / name).read_bytes() for name in (ucd.DATA, ucd.EXCLUSIONS))
    first, _ = data_files.version_of(data, exclusions)
    files = [(f"data {name}", bad, exclusions) for name, bad in changed(data)]
    files += [(f"exclusions {name}", data, bad) for name, bad in changed(exclusions)]
    for name, *pair in files:
        version = check(tally, program, folder, name, *pair)
        if version:
            check_rows(tally, program, folder, name, first, version)


def drawn(chance, data):
    """A change at a place drawn by chance: a cut, another byte, or a line that is lost or repeated."""
    at = chance.randrange(len(data))
    kind = chance.randrange(6)
    if kind == 0:
        return f"cut to {at}", data[:at]
    if kind < 4:
        byte = chance.choice(REPLACEMENTS + b"0123456789ABCDEFabcdef <>.# ,")
        return f"byte {at} replaced by {byte:02x}", data[:at] + bytes([byte]) + data[at + 1:]
    first = data.rfind(b"\n", 0, at) + 1
    last = data.find(b"\n", at) + 1 or len(data)
    if kind == 4:
        return f"line at {at} lost", data[:first] + data[last:]
    return f"line at {at} repeated", data[:last] + data[first:]


def check_published(tally, program, folder, files, places):
    """Changes of the published files at places drawn by a fixed seed, one in ten of the exclusions."""
    data, exclusions = files[ucd.DATA].read_bytes(), files[ucd.EXCLUSIONS].read_bytes()
    chance = random.Random(SEED)
    for number in range(places):
        if number % 10 == 9:
            name, bad = drawn(chance, exclusions)
            check(tally, program, folder, f"published exclusions {name}", data, bad)
        else:
            name, bad = drawn(chance, data)
            check(tally, program, folder, f"published data {name}", bad, exclusions)


def main():
    parser = argparse.ArgumentParser(description="cut and forged data files")
    parser.add_argument("program", type=Path)
    parser.add_argument("--published", nargs="?", const="", help="change the published files too")
    parser.add_argument("--places", type=int, default=2_000)
    chosen = parser.parse_args()
    tally = Tally()
    with tempfile.TemporaryDirectory() as name:
        folder = Path(name)
        check_fixture(tally, chosen.program.resolve(), folder)
        if chosen.published is not None:
            files, why = ucd.folder_files(Path(chosen.published)) if chosen.published else ucd.package_files()
            if files is None:
                print(f"skipped: {why}")
            else:
                check_published(tally, chosen.program.resolve(), folder, files, chosen.places)
    tally.finish()


if __name__ == "__main__":
    main()
