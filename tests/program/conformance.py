#!/usr/bin/env python3
"""Runs the program over the published Unicode Character Database: tests/program/conformance.py [FOLDER [EARLIER..]].

Takes the files of the folder, or of Debian's package unicode-data, and those of earlier published
versions, one folder each, or those that ./published fetched. Worked examples of each command; all of
each version's NormalizationTest.txt; random texts against two implementations that no one here wrote;
the count of records and of assigned code points; a break of each kind; versions of several ages
against each other; published versions against each other, and keys that go back to earlier ones
(neighbours.py); texts cut at random places (cuttings.py); and long histories of nodes over these
versions against a model (histories.py). What can't be done here is skipped, with the reason. Ends in a
line 'N passed, M failed'.

Strings go through the program joined by LF, a starter that composes with nothing, so one run serves
a form. Nothing here is drawn by chance: the seed is fixed.
"""

import random
import re
import shutil
import subprocess
import sys
import tempfile
import unicodedata
from pathlib import Path

# Nothing is written into the tree.
sys.dont_write_bytecode = True
sys.path.insert(0, str(Path(__file__).resolve().parent.parent))

import ucd
from program.cuttings import check_cuttings
from harness import FORMS, ROOT, Tally, built_program, run
from program.histories import check_histories
from program.neighbours import (Version, check_audits, check_forms, check_lagging, cut_versions, earlier_versions)

# The column, from 0, that the form of each of the five columns is.
WANTED = {
    "nfc": (1, 1, 1, 3, 3),
    "nfd": (2, 2, 2, 4, 4),
    "nfkc": (3, 3, 3, 3, 3),
    "nfkd": (4, 4, 4, 4, 4),
}

# Graphic and format characters of a version, as the standard's page on it tells them; and what else
# is assigned in each of these: controls, private use and surrogates.
CHARACTERS = {"4.1": 97_655, "6.0": 109_384, "9.0": 128_172, "12.0": 137_928, "13.0": 143_859, "14.0": 144_697,
              "15.0": 149_186, "15.1": 149_813, "16.0": 154_998, "17.0": 159_801}
OTHER_ASSIGNED = 65 + 137_468 + 2_048

# Ages to cut versions at. Ranges of ideographs grew after most of them. Before 4.1 the composites
# were not yet stable.
AGES = ((4, 1), (6, 0), (9, 0), (12, 0), (13, 0), (14, 0))

# Random texts: how many, the least length, and how many non-starters may stand in a row.
TEXTS = 8_000
LENGTH = 24
MOST_NON_STARTERS = 40
SEED = 15


class Published:
    """The files, and what the scripts beside the program read in them."""

    def __init__(self, files):
        self.files = files
        self.versions = [str(files[ucd.DATA]), str(files[ucd.EXCLUSIONS])]
        self.data = ucd.text_of(files, ucd.DATA)
        self.rows = ucd.rows(self.data)
        self.assigned = {code for row in self.rows for code in row.codes()}

    def number(self):
        """The version that the exclusions' first line names, like 15.0, or None."""
        found = re.match(r"# CompositionExclusions-(\d+\.\d+)\.", ucd.text_of(self.files, ucd.EXCLUSIONS))
        return found and found[1]


def codes(text):
    return bytes.fromhex(text)


def check_examples(tally, program, published):
    """A worked example for each answer that a command has."""
    for form, want in (("nfd", "61cca3cc82"), ("nfc", "e1baad"), ("nfkd", "61cca3cc82"), ("nfkc", "e1baad")):
        for command in ("key", "normalize"):
            got = run(program, [command, "--form", form, *published.versions], codes("61cc82cca3"))
            tally.same(f"{command} under {form}", got, (0, codes(want), b""))
    gap = next(code for code in range(0x378, 0x110000) if code not in published.assigned)
    text = f"a{chr(gap)}b".encode()
    got = run(program, ["key", "--form", "nfc", *published.versions], text)
    tally.same("key of an unassigned code point", got, (3, b"", f"unassigned {gap:04X} at byte 1\n".encode()))
    got = run(program, ["normalize", "--form", "nfc", *published.versions], text)
    tally.same("normalize of an unassigned code point", got, (0, text, b""))
    for name, form, pair, status, answer in (
            ("a ligature and its letters", "nfkc", "\ufb01\nfi\n", 0, b"equal\n"),
            ("a ligature and its letters", "nfc", "\ufb01\nfi\n", 1, b"different\n"),
            ("the two orders of two non-starters", "nfc", "a\u0302\u0323\na\u0323\u0302\n", 0, b"equal\n"),
            ("two non-starters of one class", "nfc", "a\u0302\u0301\na\u0301\u0302\n", 1, b"different\n"),
            ("a syllable and its letters", "nfd", "\ud55c\n\u1112\u1161\u11ab\n", 0, b"equal\n")):
        got = run(program, ["compare", "--form", form, *published.versions], pair.encode())
        tally.same(f"compare of {name} under {form}", got, (status, answer, b""))
    got = run(program, ["audit", *published.versions, *published.versions])
    tally.same("audit against itself", got, (0, b"extends\n", b""))


def forms_of(program, form, versions, strings, command="normalize"):
    """The forms of many strings, by one run; the strings hold no LF."""
    status, out, err = run(program, [command, "--form", form, *versions], "\n".join(strings).encode("utf-8"))
    if status != 0:
        return None, f"status {status}, {err!r}"
    pieces = out.decode("utf-8").split("\n")
    if len(pieces) != len(strings):
        return None, f"{len(strings)} strings gave {len(pieces)}"
    return pieces, None


def check_lines(tally, program, form, versions, lines, name):
    """Each column of each line of NormalizationTest.txt against the column that its form is."""
    got, fault = forms_of(program, form, versions, [c for _, columns, _ in lines for c in columns])
    if not tally.check(f"{form} of the test's columns", fault is None, fault):
        return
    wrong = [number for at, (number, columns, _) in enumerate(lines)
             if any(got[5 * at + k] != columns[WANTED[form][k]] for k in range(5))]
    print(f"{form}: {len(lines) - len(wrong)} of {len(lines)} lines of {name}'s NormalizationTest.txt passed")
    tally.check(f"{form}: lines of NormalizationTest.txt", not wrong, f"lines {wrong[:20]}")


def check_unlisted(tally, program, form, versions, lines):
    """Every code point that part 1 doesn't list is its own form."""
    listed = {columns[0] for _, columns, single in lines if single}
    others = [chr(code) for code in range(0x110000)
              if not 0xD800 <= code <= 0xDFFF and code != 0x0A and chr(code) not in listed]
    got, fault = forms_of(program, form, versions, others)
    if tally.check(f"{form} of the code points that the test doesn't list", fault is None, fault):
        wrong = [f"{ord(c):04X}" for c, own in zip(others, got) if c != own]
        print(f"{form}: {len(others) - len(wrong)} of {len(others)} unlisted code points are their own form")
        tally.check(f"{form}: unlisted code points", not wrong, f"changed {wrong[:20]}")


def check_normalization_test(tally, program, files, versions, name):
    """All of a version's own test file."""
    text = ucd.text_of(files, "NormalizationTest.txt")
    if text is None:
        print(f"skipped: lines of NormalizationTest.txt of {name}: the file is not there")
        return
    lines = ucd.test_strings(text)
    tally.check("NormalizationTest.txt has a part 1", any(single for _, _, single in lines), "it has none")
    for form in FORMS:
        check_lines(tally, program, form, versions, lines, name)
        check_unlisted(tally, program, form, versions, lines)


def check_neighbours(tally, program, published, earlier, folder):
    """Published versions beside one another, and keys of the newest one under all earlier ones, cut where
    there is no published one."""
    newest = Version("the published version", published.versions, published.assigned)
    for version, files in earlier:
        check_normalization_test(tally, program, files, version.files, version.name)
    versions = [version for version, _ in earlier]
    check_audits(tally, program, [*versions, newest])
    strings = ucd.each_test_string(published.files)
    if strings is not None:
        check_forms(tally, program, [*versions, newest], [text for text in strings if "\n" not in text])
    if "DerivedAge.txt" not in published.files:
        print("skipped: keys under versions of all ages: DerivedAge.txt is not there")
        return
    names = {version.name: version for version in versions}
    cut = [names.get(version.name, version) for version in cut_versions(published, folder)]
    check_lagging(tally, program, cut, newest, published.rows)


def python_forms(form, strings):
    return [unicodedata.normalize(form.upper(), string) for string in strings]


def python_knows(strings):
    return {c for c in strings if unicodedata.category(c) != "Cn"}


def icu_rules(rules, strings):
    """What uconv makes of the strings by these rules of ICU."""
    done = subprocess.run(["uconv", "-f", "utf-8", "-t", "utf-8", "-x", rules], check=True, capture_output=True,
                          input="\n".join(strings).encode("utf-8"))
    return done.stdout.decode("utf-8").split("\n")


def icu_forms(form, strings):
    return icu_rules(f"any-{form}", strings)


def icu_knows(strings):
    """Those that ICU's own data assigns. uconv works on one line after another, and cuts lines also
    after each UTF-16 unit that has all bits of U+2028, so that it doesn't exchange non-starters across
    such a place: code points with these bits are left out."""
    return {c for c in icu_rules("::[:Cn:] Remove;", strings) if c} - {c for c in strings if cuts_line(ord(c))}


def cuts_line(code):
    return code < 0x10000 and code & 0x2028 == 0x2028


def others():
    """The implementations by name: what they know, their forms, and why one is left out."""
    version = f"Python's unicodedata {unicodedata.unidata_version}"
    yield version, python_knows, python_forms, None
    if shutil.which("uconv") is None:
        yield "ICU's uconv", None, None, "the command uconv is not there (Debian's package icu-devtools)"
    else:
        output = subprocess.run(["uconv", "--version"], capture_output=True, text=True).stdout
        yield f"ICU's uconv {output.split()[-1]}", icu_knows, icu_forms, None


def pools_of(published, known):
    """The known code points to draw from: all non-starters; and ASCII, those with a canonical mapping, with
    a compatibility mapping, parts of mappings, Hangul, any."""
    def within(code_points):
        return [c for c in map(chr, code_points) if c in known]
    mapped = [row for row in published.rows if row.fields[5]]
    compatibility = [row.first for row in mapped if row.fields[5][0] == "<"]
    canonical = [row.first for row in mapped if row.fields[5][0] != "<"]
    parts = {int(part, 16) for row in mapped for part in row.fields[5].split() if part[0] != "<"}
    non_starters = within(row.first for row in published.rows if row.fields[3] != "0")
    pools = (within(range(0x20, 0x7F)), within(canonical), within(compatibility), within(sorted(parts)),
             within([*range(0x1100, 0x1200), *range(0xAC00, 0xD7A4, 7)]), sorted(known))
    return non_starters, pools


def random_texts(published, known):
    """Texts of these code points, with non-starters of any scripts behind many of them: mostly few, seldom
    many."""
    non_starters, pools = pools_of(published, known)
    source = random.Random(SEED)
    for _ in range(TEXTS):
        text = ""
        while len(text) < LENGTH:
            text += source.choice(source.choice(pools))
            count = int(MOST_NON_STARTERS ** source.random()) - 1 if source.random() < 0.6 else 0
            text += "".join(source.choice(non_starters) for _ in range(count))
        yield text


def check_random_texts(tally, program, published):
    """The forms of random texts are those of each other implementation."""
    assigned = [chr(code) for code in sorted(published.assigned) if not 0xD800 <= code <= 0xDFFF and code != 0x0A]
    for name, knows, forms, why in others():
        if why is not None:
            print(f"skipped: random texts against {name}: {why}")
            continue
        known = knows(assigned) & set(assigned)
        texts = list(random_texts(published, known))
        print(f"{name}: {len(texts)} random texts of {len(known)} code points, {sum(map(len, texts))} in all")
        for form in FORMS:
            want = forms(form, texts)
            changed = sum(text != own for text, own in zip(texts, want))
            tally.check(f"{form}: most texts are changed by {name}", changed * 2 > TEXTS, f"{changed} are")
            for command in ("normalize", "key"):
                got, fault = forms_of(program, form, published.versions, texts, command)
                if tally.check(f"{command} under {form} of random texts", fault is None, fault):
                    wrong = [text for text, own, right in zip(texts, got, want) if own != right]
                    tally.check(f"{command} under {form} against {name}", not wrong,
                                f"{len(wrong)} texts differ, the first is {ascii(wrong[:1])}")


def check_compared_pairs(tally, program, published):
    """Random pairs are equal for `compare` where Python's forms are."""
    known = python_knows({chr(code) for code in published.assigned if not 0xD800 <= code <= 0xDFFF and code != 0x0A})
    texts = list(random_texts(published, known))[:20]
    for at, text in enumerate(texts):
        form = FORMS[at % 4]
        for other in (unicodedata.normalize(FORMS[at // 4 % 4].upper(), text), text[1:] + text[:1]):
            first, second = python_forms(form, (text, other))
            want = (0, b"equal\n", b"") if first == second else (1, b"different\n", b"")
            got = run(program, ["compare", "--form", form, *published.versions], f"{text}\n{other}\n".encode())
            tally.same(f"compare under {form} of random text {at}", got, want)


def check_counts(tally, program, published, folder):
    """Every record is read, and every code point of a row is assigned, no other."""
    lines = published.data.splitlines()
    longer = folder / "longer.txt"
    longer.write_text("\n".join([*lines, lines[-1]]) + "\n", encoding="utf-8")
    got = run(program, ["key", "--form", "nfc", str(longer), published.versions[1]])
    want = f"version 0 data: line {len(lines) + 1}: OutOfOrder\n".encode()
    if tally.same("a copy of the last record behind it", got, (4, b"", want)):
        print(f"{ucd.DATA}: {len(lines):,} records, {len(published.rows):,} rows")
    empty = folder / "empty.txt"
    empty.write_bytes(b"")
    got = run(program, ["audit", *published.versions, str(empty), str(empty)])
    if tally.same("all that is lost to an empty version", got, (1, lost(published.assigned), b"")):
        print(f"assigned: {len(published.assigned):,} code points")
    check_size(tally, published.number(), got[1].count(b"Lost "))


def check_size(tally, number, assigned):
    """The count of assigned code points against what the standard's page tells."""
    if number in CHARACTERS:
        tally.same(f"assigned code points of version {number}", assigned, CHARACTERS[number] + OTHER_ASSIGNED)
    else:
        print(f"skipped: how many code points version {number} assigns is not known here")


def lost(code_points):
    """What `audit` prints where exactly these code points are lost."""
    return "".join(f"Lost {code:04X}\n" for code in sorted(code_points)).encode()


def check_ages(tally, program, published, folder):
    """Each version extends every older one, and loses exactly the younger code points to it."""
    if "DerivedAge.txt" not in published.files:
        print("skipped: audit of versions of several ages: DerivedAge.txt is not there")
        return
    newer = [("the published version", published.versions, published.assigned)]
    for age in reversed(AGES):
        name = ".".join(map(str, age))
        versions, kept = ucd.write_cut(published.files, age, folder)
        assigned = published.assigned & kept
        if assigned == published.assigned:
            print(f"skipped: version {name}: the published one is not younger")
            continue
        check_size(tally, name, len(assigned))
        for other, names, codes_of_other in newer:
            got = run(program, ["audit", *versions, *names])
            tally.same(f"audit from {name} to {other}", got, (0, b"extends\n", b""))
            got = run(program, ["audit", *names, *versions])
            want = (1, lost(codes_of_other - assigned), b"")
            tally.same(f"audit from {other} back to {name}", got, want)
        print(f"version {name}: {len(assigned):,} code points; {len(newer)} newer ones extend it")
        newer.append((name, versions, assigned))
    tally.check("there is an older version", len(newer) > 1, "DerivedAge.txt gives none")


def with_field(data, code, place, value):
    """The text of UnicodeData.txt with another value in one field of one record."""
    lines = []
    for line in data.splitlines():
        fields = line.split(";")
        if int(fields[0], 16) == code:
            fields[place] = value
        lines.append(";".join(fields) + "\n")
    return "".join(lines)


def check_breaks(tally, program, published, folder):
    """One break of each kind, between two versions that each differ a little from the published one."""
    exclusions = ucd.text_of(published.files, ucd.EXCLUSIONS)
    younger = with_field(with_field(published.data, 0x323, 3, "222"), 0xFB01, 5, "<compat> 0066")
    texts = {
        "old-data": ucd.cut_data(published.data, published.assigned - {0x1EF2}),
        "old-exclusions": exclusions,
        "new-data": ucd.cut_data(younger, published.assigned - {0x2603}),
        "new-exclusions": ucd.cut_exclusions(exclusions, published.assigned - {0x958}) + "00C0\n",
    }
    for name, text in texts.items():
        (folder / name).write_text(text, encoding="utf-8")
    got = run(program, ["audit", *(str(folder / name) for name in texts)])
    want = (b"NowExcluded 00C0\nClassChanged 0323\nNowIncluded 0958\nNewComposite 1EF2\nLost 2603\n"
            b"MappingChanged FB01\n")
    tally.same("audit of a break of each kind", got, (1, want, b""))


def main():
    if len(sys.argv) > 1:
        files, why = ucd.folder_files(Path(sys.argv[1]))
        folders = list(map(Path, sys.argv[2:]))
    else:
        files, why = ucd.package_files()
        fetched = ROOT / "out" / "published"
        folders = list(fetched.iterdir()) if fetched.is_dir() else []
    tally = Tally()
    if files is None and len(sys.argv) > 1:
        tally.check("the folder of published files", False, why)
        tally.finish()
    if files is None:
        print(f"skipped: {why}")
        tally.finish()
    program = built_program()
    if not tally.check("the program is built", program is not None, "the launcher could not build it"):
        tally.finish()
    published = Published(files)
    earlier = list(earlier_versions(folders))
    if not earlier:
        print("skipped: published versions beside one another: ./published fetches earlier ones")
    with tempfile.TemporaryDirectory() as folder:
        check_examples(tally, program, published)
        check_counts(tally, program, published, Path(folder))
        check_normalization_test(tally, program, published.files, published.versions, "the published version")
        check_random_texts(tally, program, published)
        check_compared_pairs(tally, program, published)
        check_cuttings(tally, program, published.versions, ucd.each_test_string(published.files))
        check_breaks(tally, program, published, Path(folder))
        check_ages(tally, program, published, Path(folder))
        check_neighbours(tally, program, published, earlier, Path(folder))
        check_histories(tally, program, published, AGES, [version for version, _ in earlier], Path(folder))
    tally.finish()


if __name__ == "__main__":
    main()
