"""Published versions beside one another: what each extends, loses and keeps, and keys that go back.

An earlier version is a folder with its own UnicodeData.txt and CompositionExclusions.txt. Where it has
none, versions are cut from a later one by DerivedAge.txt; the tests here say which they took.
"""

import itertools
import random
import unicodedata
from concurrent.futures import ThreadPoolExecutor
from pathlib import Path

import ucd
from harness import FORMS, run

SEED = 23
# Strings whose keys are checked under earlier versions, and how many programs run at once.
STRINGS = 10_000
AT_ONCE = 4


class Version:
    """A version by its name, its two files and what it assigns."""

    def __init__(self, name, files, assigned):
        self.name, self.files, self.assigned = name, [str(file) for file in files], assigned


def published_version(name, files):
    """A version that was published as it stands."""
    assigned = {code for row in ucd.rows(ucd.text_of(files, ucd.DATA)) for code in row.codes()}
    return Version(name, (files[ucd.DATA], files[ucd.EXCLUSIONS]), assigned)


def earlier_versions(folders):
    """The versions of the folders, the oldest first: each with its files by name."""
    for folder in sorted(folders, key=lambda folder: tuple(map(int, folder.name.split(".")))):
        files, why = ucd.folder_files(folder)
        if files is None:
            print(f"skipped: an earlier version: {why}")
        else:
            yield published_version(folder.name, files), files


def cut_versions(published, folder):
    """A version of each age that DerivedAge.txt names, cut from the published one, the oldest first."""
    ages = sorted({tuple(map(int, line.split(";")[1].split(".")))
                   for line in ucd.contents(ucd.text_of(published.files, "DerivedAge.txt"))})
    for age in ages[:-1]:
        names, kept = ucd.write_cut(published.files, age, folder)
        yield Version(".".join(map(str, age)), names, published.assigned & kept)


def lost(code_points):
    """What `audit` prints where exactly these code points are lost."""
    return "".join(f"Lost {code:04X}\n" for code in sorted(code_points)).encode()


def check_audits(tally, program, versions):
    """Each version extends every earlier one, and loses exactly the younger code points to it."""
    for older, newer in itertools.combinations(versions, 2):
        got = run(program, ["audit", *older.files, *newer.files])
        tally.same(f"audit from {older.name} to {newer.name}, both published", got, (0, b"extends\n", b""))
        got = run(program, ["audit", *newer.files, *older.files])
        want = (1, lost(newer.assigned - older.assigned), b"")
        tally.same(f"audit from {newer.name} back to {older.name}, both published", got, want)


def first_break(newer, older, rows):
    """The line of the first break from a version that was cut to the one that it was cut from: a
    composite of the later one whose two parts the earlier one has. None where there is none."""
    excluded = {code for line in ucd.contents(Path(newer.files[1]).read_text(encoding="utf-8"))
                for code in range(ucd.span(line)[0], ucd.span(line)[1] + 1)}
    classes = {row.first: row.fields[3] for row in rows}
    for row in rows:
        parts = [] if row.fields[5].startswith("<") else [int(part, 16) for part in row.fields[5].split()]
        if (row.first not in older.assigned and row.first not in excluded and len(parts) == 2
                and row.fields[3] == "0" and classes.get(parts[0], "0") == "0" and all(part in older.assigned for part in parts)):
            return f"not an extension: version 1 NewComposite {row.first:04X}\n".encode()
    return None


def fault_of_cut(version, rows):
    """The line of the fault of a version that was cut so that a mapping names a code point that it lacks, as
    one of which the mapping was changed later. None where there is no such mapping."""
    for row in rows:
        parts = [int(part, 16) for part in row.fields[5].split() if not part.startswith("<")]
        if row.first in version.assigned and any(part not in version.assigned for part in parts):
            return f"version 0 tables: MapsToUnassigned {row.first:04X}\n".encode()
    return None


def pools_of(versions, rows):
    """Code points of each age, and the starters and non-starters among what Python knows or what has no
    mapping: of these Python's forms are the published ones."""
    plain = {row.first for row in rows if row.fields[3] == "0" and not row.fields[5] and row.first == row.last}
    known = {code for code in versions[-1].assigned if not 0xD800 <= code <= 0xDFFF and code != 0x0A
             and (unicodedata.category(chr(code)) != "Cn" or code in plain)}
    before = set()
    for version in versions:
        age = sorted((version.assigned - before) & known)
        before |= version.assigned
        if age:
            yield [chr(code) for code in age]


def drawn_strings(versions, rows):
    """Strings that hold code points of every age, with non-starters behind some."""
    source = random.Random(SEED)
    pools = list(pools_of(versions, rows))
    non_starters = [c for pool in pools for c in pool if unicodedata.combining(c)]
    for number in range(STRINGS):
        text = source.choice(pools[number % len(pools)])
        for _ in range(source.randrange(6)):
            text += source.choice(source.choice(pools))
            text += "".join(source.choices(non_starters, k=source.randrange(3)))
        yield text


def own_line(older, key):
    """What is printed of a key under an earlier version."""
    for at, c in enumerate(key):
        if ord(c) not in older.assigned:
            return f"own form, unassigned {ord(c):04X} at byte {len(key[:at].encode())}\n".encode()
    return b"own form\n"


def check_lagging(tally, program, versions, newest, rows):
    """Keys made under the newest version, checked under each earlier one."""
    breaks = {version.name: first_break(newest, version, rows) for version in versions}
    tested = [version for version in versions if breaks[version.name] is None]
    for version in versions:
        if version not in tested:
            got = run(program, ["key", "--form", "nfc", "--check-under", *version.files, *newest.files], b"a")
            fault = fault_of_cut(version, rows)
            want = (4, b"", fault) if fault else (1, b"", breaks[version.name])
            tally.same(f"a key under {version.name}, which {newest.name} doesn't extend", got, want)
    texts = list(drawn_strings([*versions, newest], rows))
    print(f"keys of {newest.name} under earlier versions: {len(texts):,} strings, {len(tested)} versions: "
          + ", ".join(version.name for version in tested))

    def answer(job):
        number, text = job
        version, form = tested[number % len(tested)], FORMS[number // len(tested) % 4]
        words = ["key", "--form", form, "--check-under", *version.files, *newest.files]
        key = unicodedata.normalize(form.upper(), text)
        return f"{ascii(text)} under {form} and {version.name}", run(program, words, text.encode()), (0, own_line(version, key), b"")

    with ThreadPoolExecutor(AT_ONCE) as pool:
        wrong = [row for row in pool.map(answer, enumerate(texts)) if row[1] != row[2]]
    tally.check(f"keys of {newest.name} are their own form under each earlier version", not wrong,
                f"{len(wrong)} answers differ, the first: {wrong[:1]}")


def check_forms(tally, program, versions, strings):
    """What an earlier version assigns has the same keys under each later one."""
    for older, newer in itertools.combinations(versions, 2):
        texts = [text for text in strings if all(ord(c) in older.assigned for c in text)]
        for form in FORMS:
            keys = [run(program, ["key", "--form", form, *version.files], "\n".join(texts).encode()) for version in (older, newer)]
            tally.check(f"{form}: the keys of {len(texts)} strings under {older.name} and {newer.name}",
                        keys[0][0] == 0 and keys[0] == keys[1], f"statuses {keys[0][0]}, {keys[1][0]}")
