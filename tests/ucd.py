"""The published files of the Unicode Character Database: where they are, and versions cut from them.

What stands here trusts the files. It is written beside the program and shares nothing with it, so
that the two can be compared.
"""

import bz2
import subprocess
from pathlib import Path
from typing import NamedTuple

DATA = "UnicodeData.txt"
EXCLUSIONS = "CompositionExclusions.txt"
FOLDING = "CaseFolding.txt"


class Row(NamedTuple):
    """A record of UnicodeData.txt, or a First and a Last record together."""

    first: int
    last: int
    fields: list

    def codes(self):
        return range(self.first, self.last + 1)


def package_files():
    """The files of Debian's package unicode-data by name, or why there are none."""
    try:
        listed = subprocess.run(["dpkg", "-L", "unicode-data"], capture_output=True, text=True)
    except FileNotFoundError:
        return None, "there is no dpkg here, and no folder of published files was named"
    if listed.returncode != 0:
        return None, "Debian's package unicode-data is not installed"
    return with_both({Path(line).name: Path(line) for line in listed.stdout.splitlines()},
                     "the package unicode-data")


def folder_files(folder):
    """The files of a folder by name, or why there are none."""
    found = {path.name: path for path in folder.iterdir()} if folder.is_dir() else {}
    return with_both(found, folder)


def with_both(files, place):
    """The files, where the two that the program reads are among them."""
    for name in (DATA, EXCLUSIONS):
        if not (name in files and files[name].is_file()):
            return None, f"{place} has no {name}"
    return files, None


def text_of(files, name):
    """The text of a file that may be there as it is or packed, or None."""
    if name in files:
        return files[name].read_text(encoding="utf-8")
    if f"{name}.bz2" in files:
        return bz2.decompress(files[f"{name}.bz2"].read_bytes()).decode("utf-8")
    return None


def contents(text):
    """The lines without comments and spaces around; empty ones are left out."""
    cut = (line.split("#")[0].strip() for line in text.splitlines())
    return [line for line in cut if line]


def span(field):
    """The first and the last code point of `X` or `X..Y`."""
    first, _, last = field.strip().partition("..")
    return int(first, 16), int(last or first, 16)


def rows(data):
    """The rows of the text of UnicodeData.txt."""
    found, opened = [], None
    for line in data.splitlines():
        fields = line.split(";")
        code = int(fields[0], 16)
        if fields[1].endswith(", First>"):
            opened = code
        else:
            found.append(Row(code if opened is None else opened, code, fields))
            opened = None
    return found


def codes_until(ages, newest):
    """The code points of that age or older, of the text of DerivedAge.txt; an age is like (12, 0)."""
    old = set()
    for line in contents(ages):
        codes, age = line.split(";")
        if tuple(map(int, age.split("."))) <= newest:
            first, last = span(codes)
            old.update(range(first, last + 1))
    return old


def cut_data(data, kept):
    """The text of UnicodeData.txt for the code points of the set alone. Ranges have grown from
    version to version, so one may be cut into shorter ranges."""
    return "".join(record for row in rows(data) for record in cut_row(row, kept))


def cut_row(row, kept):
    """The records of the parts of a row that are kept."""
    first = None
    for code in range(row.first, row.last + 2):
        inside = code <= row.last and code in kept
        if inside and first is None:
            first = code
        elif not inside and first is not None:
            yield from records(row, first, code - 1)
            first = None


def records(row, first, last):
    """The records of a part of a row: one, or a First and a Last one."""
    name = row.fields[1].removesuffix(", Last>")
    rest = ";".join(row.fields[2:])
    if row.first == row.last:
        yield f"{first:04X};{name};{rest}\n"
    elif first == last:
        yield f"{first:04X};{name}>;{rest}\n"
    else:
        yield f"{first:04X};{name}, First>;{rest}\n{last:04X};{name}, Last>;{rest}\n"


def cut_exclusions(exclusions, kept):
    """The text of CompositionExclusions.txt for the code points of the set alone."""
    spans = (span(line) for line in contents(exclusions))
    return "".join(f"{code:04X}\n" for first, last in spans for code in range(first, last + 1)
                   if code in kept)


def cut_foldings(folding, kept):
    """The text of CaseFolding.txt for the code points of the set that fold to some of the set."""
    lines = []
    for line in contents(folding):
        code, _, mapping = line.split(";")[:3]
        if {int(word, 16) for word in (code, *mapping.split())} <= kept:
            lines.append(f"{line}\n")
    return "".join(lines)


def write_cut(files, newest, folder):
    """Writes a version of that age into a folder: the names of its two files, and the set of the
    code points that DerivedAge.txt gives it."""
    kept = codes_until(text_of(files, "DerivedAge.txt"), newest)
    names = [folder / f"{'.'.join(map(str, newest))}-{name}" for name in (DATA, EXCLUSIONS)]
    names[0].write_text(cut_data(text_of(files, DATA), kept), encoding="utf-8")
    names[1].write_text(cut_exclusions(text_of(files, EXCLUSIONS), kept), encoding="utf-8")
    return [str(name) for name in names], kept


def cut_folding(folding, kept):
    """The text of CaseFolding.txt for the code points of the set that fold to some of the set."""
    lines = [[field.strip() for field in line.split(";")] for line in contents(folding)]
    return "".join(f"{code}; {status}; {mapping};\n" for code, status, mapping, *_ in lines
                   if {int(code, 16), *(int(word, 16) for word in mapping.split())} <= kept)


def write_cut_folding(files, newest, folder):
    """Writes the folding file of a version of that age into a folder: its name."""
    kept = codes_until(text_of(files, "DerivedAge.txt"), newest)
    name = folder / f"{'.'.join(map(str, newest))}-{FOLDING}"
    name.write_text(cut_folding(text_of(files, FOLDING), kept), encoding="utf-8")
    return str(name)


def test_strings(text):
    """The lines of the text of NormalizationTest.txt: for each its number, the strings of its five
    columns, and whether it stands in part 1, which lists single code points."""
    lines, part = [], None
    for number, line in enumerate(text.split("\n"), 1):
        line = line.split("#")[0].strip()
        if line.startswith("@"):
            part = line
        elif line:
            columns = ["".join(chr(int(code, 16)) for code in field.split())
                       for field in line.split(";")[:5]]
            lines.append((number, columns, part == "@Part1"))
    return lines


def each_test_string(files):
    """The strings of all columns of NormalizationTest.txt, or None where it isn't among the files."""
    text = text_of(files, "NormalizationTest.txt")
    return text and [string for _, columns, _ in test_strings(text) for string in columns]
