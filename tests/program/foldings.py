#!/usr/bin/env python3
"""Folding files that were cut, forged, swapped or are of another version: tests/program/foldings.py PROGRAM [--strings N] [--places N].

PROGRAM is npss_caseless. The first fixture's file is cut at every byte, and every byte is replaced in turn; the published one is
changed at N places drawn by a fixed seed. What the program says of each is compared with the reader of folding_files.py. Then
the published files: bad ones in place of the third, versions cut by age from 5.0 on beside one another, the published 13.0 beside
15.0 where Debian has it, and the keys of N strings beside ICU's folding between its forms. What can't be had is skipped, with the
reason. Ends in a line 'N passed, M failed'.
"""

import argparse
import ctypes
import gzip
import itertools
import random
import re
import sys
import tempfile
from concurrent.futures import ThreadPoolExecutor
from pathlib import Path

# Nothing is written into the tree.
sys.dont_write_bytecode = True
sys.path.insert(0, str(Path(__file__).resolve().parent.parent))

import ucd
from cases import BAD_TEXT
from harness import FORMS, ROOT, Tally, install, run, shown
from hostile import REPLACEMENTS, changed
from models import data_files, folding_files

FIXTURE, FOLDINGS = ROOT / "fixtures" / "v1", ROOT / "fixtures" / "caseless" / "v1"
SEED = 31
# Where Debian's package cl-unicode has the published files of 13.0.
EARLIER = Path("/usr/share/common-lisp/source/cl-unicode/build/data")
# The first version whose foldings Unicode promises to keep.
STABLE = (5, 0)
# So many strings go through the program at once; LF, which ends each, is a starter that composes with nothing and doesn't fold.
AT_ONCE = 5_000
# So much of a file that nobody should read on.
LIMIT = 16_777_216


class Three:
    """The three files of a version, its code points and what the readers say of it."""

    def __init__(self, data, exclusions, folding):
        self.files = [str(data), str(exclusions), str(folding)]
        self.folding = Path(folding).read_bytes()
        self.version, fault = data_files.version_of(Path(data).read_bytes(), Path(exclusions).read_bytes())
        self.lowercases = folding_files.lowercases_of(Path(data).read_bytes()) if self.version else {}
        self.decompositions, self.fault = folding_files.Decompositions(self.version), fault

    def assigned(self):
        return [code for row in self.version.rows for code in range(row.first, row.last + 1)]

    def folded(self, folding=None):
        """The version with its folding, or with that of these bytes; or the line that the program says of it."""
        if self.version is None:
            return None, self.fault
        return folding_files.folded_of(self.decompositions, self.lowercases, self.folding if folding is None else folding)

    def foldings(self):
        """What folds, by the file, to what."""
        return folding_files.foldings_of(self.folding)[0]


def text_of(codes):
    """The code points that a text can hold, as one."""
    return "".join(chr(code) for code in codes if not data_files.is_surrogate(code))


def want_of(three, folding, text):
    """What `key` has to tell of a text over these bytes of the third file: its caseless NFD form."""
    folded, line = three.folded(folding)
    if folded is None:
        return BAD_TEXT, b"", line.encode()
    return 0, text_of(folded.caseless_nfd(list(map(ord, text)))).encode(), b""


def check_changed(tally, program, three, folder, changes):
    """Each of these bytes in place of the third file: what folds by the right one folds as they say, and so does the rest of a toy."""
    text = text_of(sorted({*three.foldings(), *three.assigned()[:1_000]}))

    def differs(numbered):
        number, (name, folding) = numbered
        file = folder / f"{number}.folding"
        file.write_bytes(folding)
        got, want = run(program, ["key", "--form", "nfd", *three.files[:2], str(file)], text.encode()), want_of(three, folding, text)
        file.unlink()
        return None if got == want else f"{name}: got {shown(got)}, want {shown(want)}"

    with ThreadPoolExecutor() as pool:
        for differing in pool.map(differs, enumerate(changes)):
            tally.check("a folding file that was changed", differing is None, differing)


def drawn(chance, data):
    """A change at a place drawn by chance: a cut, another byte, or a line that is lost or repeated."""
    at = chance.randrange(len(data))
    first, last = data.rfind(b"\n", 0, at) + 1, data.find(b"\n", at) + 1 or len(data)
    kind = chance.randrange(6)
    if kind == 0:
        return f"cut to {at}", data[:at]
    if kind < 4:
        byte = chance.choice(REPLACEMENTS + b"0123456789ABCDEFCFST# ;")
        return f"byte {at} replaced by {byte:02x}", data[:at] + bytes([byte]) + data[at + 1:]
    return (f"line at {at} lost", data[:first] + data[last:]) if kind == 4 else (f"line at {at} repeated", data[:last] + data[first:])


def bad_files(three):
    """What is handed in by mistake, or by malice, where the folding file should be, by name."""
    folding = three.folding
    yield "the data file", Path(three.files[0]).read_bytes()
    yield "the exclusions", Path(three.files[1]).read_bytes()
    yield "gzip", gzip.compress(folding, mtime=0)
    yield "CRLF", folding.replace(b"\n", b"\r\n")
    yield "a BOM", b"\xef\xbb\xbf" + folding
    yield "UTF-16", folding.decode("utf-8").encode("utf-16")
    yield "an empty file", b""
    yield "a line of 16 MiB", b"0" * LIMIT
    yield "a list of 33 codes", folding.replace(b"0041; C; 0061;", b"0041; F;" + b" 0061" * 33 + b";")
    yield "a mapping to a surrogate", folding.replace(b"0041; C; 0061;", b"0041; C; D800;")
    yield "a web page", b"<!DOCTYPE html>\n<html></html>\n"


def check_bad(tally, program, three, folder):
    """Each bad file beside the published two: the fault, nothing on standard output. The fault is the reader's."""
    file = folder / "bad"
    for name, folding in bad_files(three):
        file.write_bytes(folding)
        folded, line = three.folded(folding)
        want = (0, b"a", b"") if folded else (BAD_TEXT, b"", line.encode())
        tally.same(f"{name} for the folding file", run(program, ["key", "--form", "nfc", *three.files[:2], str(file)], b"A"), want)
    file.write_bytes(b"\n" * (LIMIT + 1))
    got = run(program, ["key", "--form", "nfc", *three.files[:2], str(file)], b"A")
    tally.same("one byte too many for a folding file", got, (BAD_TEXT, b"", b"version 0 folding: TooLarge\n"))


def cut_versions(files, folder):
    """The versions of each age but the last that DerivedAge.txt names, from 4.1 on, with their folding files; by age."""
    ages = sorted({tuple(map(int, line.split(";")[1].split("."))) for line in ucd.contents(ucd.text_of(files, "DerivedAge.txt"))})
    for age in ages[:-1]:
        if age >= (4, 1):
            names, kept = ucd.write_cut(files, age, folder)
            folding = folder / f"{'.'.join(map(str, age))}-{ucd.FOLDING}"
            folding.write_text(ucd.cut_foldings(ucd.text_of(files, ucd.FOLDING), kept), encoding="utf-8")
            yield age, Three(*names, folding)


def breaks_between(old, new):
    """What `audit` prints of two versions of which one was cut from the other: what was lost, and what folds otherwise."""
    before, after = old.foldings(), new.foldings()
    lost = {code: "Lost" for code in set(old.assigned()) - set(new.assigned())}
    folds = {code: "FoldingChanged" for code in before.keys() | after.keys()
             if before.get(code) != after.get(code) and old.version.row_at(code) and new.version.row_at(code)}
    found = {**folds, **lost}
    return "".join(f"{found[code]} {code:04X}\n" for code in sorted(found)).encode()


def check_ages(tally, program, files, folder, newest):
    """Versions cut by age beside one another: from 5.0 on each extends the one before; what a later one adds it loses the other way."""
    cut = [(age, three) for age, three in cut_versions(files, folder)]
    for age, three in cut:
        folded, line = three.folded()
        want = (0, b"a", b"") if folded else (BAD_TEXT, b"", line.encode())
        tally.same(f"the version cut at {age}", run(program, ["key", "--form", "nfc", *three.files], b"A"), want)
    sound = [(age, three) for age, three in [*cut, ((15, 0), newest)] if three.version]
    for (older, old), (newer, new) in itertools.pairwise(sound):
        breaks = breaks_between(old, new)
        tally.check(f"{older} to {newer}: what folds otherwise", bool(breaks) == (older < STABLE), shown(breaks))
        want = (1, breaks, b"") if breaks else (0, b"extends\n", b"")
        tally.same(f"audit of {newer} behind {older}", run(program, ["audit", *old.files, *new.files]), want)
        tally.same(f"audit of {older} behind {newer}", run(program, ["audit", *new.files, *old.files]), (1, breaks_between(new, old), b""))


def check_earlier(tally, program, three):
    """The published 13.0 beside the newest: its folding file is of no use there, nor the other way round; keys go back."""
    if not EARLIER.is_dir():
        install(["cl-unicode"])
    if not (EARLIER / ucd.FOLDING).is_file():
        print("skipped: the published foldings of 13.0: Debian's package cl-unicode is not here")
        return
    old = Three(*(EARLIER / name for name in (ucd.DATA, ucd.EXCLUSIONS, ucd.FOLDING)))
    key = ["key", "--form", "nfkc"]
    mixed = [([*three.files[:2], old.files[2]], b"version 0 folding: NotFolded 2C2F\n"),
             ([*old.files[:2], three.files[2]], b"version 0 folding: FoldsUnassigned 2C2F\n")]
    for words, line in mixed:
        tally.same("a folding file of another version", run(program, [*key, *words], b"A"), (BAD_TEXT, b"", line))
    tally.same("audit of 13.0 and the newest", run(program, ["audit", *old.files, *three.files]), (0, b"extends\n", b""))
    tally.same("and back", run(program, ["audit", *three.files, *old.files]), (1, breaks_between(three, old), b""))
    lacks = "not an extension: version 1 Lost "
    status, out, err = run(program, [*key, "--check-under", *three.files, *old.files], b"A")
    tally.check("a key under a later version", (status, out) == (1, b"") and err.decode().startswith(lacks), shown(err))
    for form in FORMS:
        for string, want in (("ẞ℡Ωα\u0345\u0301", b"own form\n"), ("A\U0001df25", None)):
            status, out, err = run(program, ["key", "--form", form, "--check-under", *old.files, *three.files], string.encode())
            lacking = f"own form, unassigned 1DF25 at byte 1\n".encode()
            tally.same(f"{form} of {shown(string)} under 13.0", (status, out, err), (0, want or lacking, b""))


class Icu:
    """Case folding and forms of ICU, by its C calls."""

    def __init__(self, path):
        self.library = ctypes.CDLL(path)
        self.suffix = re.search(r"\.so\.(\d+)", path)[1]
        self.forms = {form: self.instance(form.upper()) for form in FORMS}

    def call(self, name):
        return getattr(self.library, f"{name}_{self.suffix}")

    def version(self):
        numbers = (ctypes.c_uint8 * 4)()
        self.call("u_getUnicodeVersion")(numbers)
        return tuple(numbers[:2])

    def instance(self, form):
        get = self.call(f"unorm2_get{form}Instance")
        get.restype = ctypes.c_void_p
        return ctypes.c_void_p(get(ctypes.byref(ctypes.c_int(0))))

    def made(self, text, call):
        """What a call makes of the text, in room for the worst of it."""
        data, error = text.encode("utf-16-le"), ctypes.c_int(0)
        room = ctypes.create_string_buffer(2 * 20 * len(data) + 64)
        length = call(data, len(data) // 2, room, len(room) // 2, ctypes.byref(error))
        if error.value > 0:
            raise OSError(f"ICU's error {error.value}")
        return room.raw[:2 * length].decode("utf-16-le")

    def fold(self, text):
        return self.made(text, lambda data, length, room, most, error: self.call("u_strFoldCase")(room, most, data, length, 0, error))

    def form(self, form, text):
        return self.made(text, lambda data, length, room, most, error:
                         self.call("unorm2_normalize")(self.forms[form], data, length, room, most, error))

    def caseless(self, form, text):
        """The caseless form, as D145 and D146 have it."""
        text = self.fold(self.form("nfd", text))
        if form.startswith("nfk"):
            text = self.fold(self.form("nfkd", text))
        return self.form(form, text)


def pools(three):
    """Code points that are likely to break something: what folds, non-starters, what has a mapping, what is folded to, any, and
    those around which the order of folding and ordering tells."""
    foldings, version = three.foldings(), three.version
    marks = [code for row in version.rows if row.combining for code in range(row.first, row.last + 1)]
    special = [0x345, 0x37A, 0x3B9, 0x399, 0x1FBE, 0x3B1, 0x301, 0x323, 0x49, 0x130, 0xDF, 0x1E9E, 0x3F9, 0xFF9E, 0xFF9F, 0x3099, 0xFF76,
               0x13A0, 0xAB70, 0x1C90, 0x10D0, 0xFB01, 0x2121, 0x1FB3, 0x1FB4, 0xAC00, 0x1100, 0x1161, 0x11A8]
    scalars = [code for code in three.assigned() if not data_files.is_surrogate(code) and code != 0x0A]
    return [special, special, sorted(foldings), marks, sorted(version.mapped), sorted({part for to in foldings.values() for part in to}), scalars]


def strings_of(three, count):
    """Each code point that isn't a surrogate, and then so many strings at random."""
    draw, some = random.Random(SEED), pools(three)
    yield from (chr(code) for code in some[-1])
    for _ in range(count):
        yield "".join(chr(draw.choice(draw.choice(some))) for _ in range(draw.choice((1, 2, 2, 3, 3, 4, 5, 6, 9))))


def check_icu(tally, program, three, count):
    """The keys of many strings beside ICU's."""
    path = next((str(found) for folder in ("/usr/lib/x86_64-linux-gnu", "/usr/lib") for found in sorted(Path(folder).glob("libicuuc.so.*"))), None)
    if path is None:
        print("skipped: foldings beside ICU: its library isn't here")
        return
    icu = Icu(path)
    if icu.version() != (15, 0):
        print(f"skipped: foldings beside ICU: it has version {icu.version()}, and the files 15.0")
        return
    strings = iter(strings_of(three, count))
    texts = list(iter(lambda: "\n".join(itertools.islice(strings, AT_ONCE)), ""))

    def differs(job):
        form, text = job
        got, want = run(program, ["key", "--form", form, *three.files], text.encode()), (0, icu.caseless(form, text).encode(), b"")
        if got == want:
            return None
        lines = zip(text.split("\n"), got[1].decode("utf-8", "replace").split("\n"), want[1].decode().split("\n"))
        return f"{form}: {next(((ascii(one), ascii(ours), ascii(icus)) for one, ours, icus in lines if ours != icus), shown(got))}"

    with ThreadPoolExecutor() as pool:
        wrong = [difference for difference in pool.map(differs, ((form, text) for form in FORMS for text in texts)) if difference]
    many = len(FORMS) * sum(text.count("\n") + 1 for text in texts)
    tally.check(f"{many} keys are ICU's", not wrong, "; ".join(wrong[:3]))
    print(f"{many} caseless keys compared with ICU's")


def main():
    parser = argparse.ArgumentParser(description="folding files that were changed, and the published ones")
    parser.add_argument("program", type=Path)
    parser.add_argument("--strings", type=int, default=50_000)
    parser.add_argument("--places", type=int, default=200)
    chosen = parser.parse_args()
    tally, program = Tally(), chosen.program.resolve()
    with tempfile.TemporaryDirectory() as name:
        folder = Path(name)
        toy = Three(FIXTURE / ucd.DATA, FIXTURE / ucd.EXCLUSIONS, FOLDINGS / ucd.FOLDING)
        check_changed(tally, program, toy, folder, changed(toy.folding))
        files, why = ucd.package_files()
        if files is None or ucd.FOLDING not in files:
            print(f"skipped: published foldings: {why or 'the package unicode-data has none'}")
            tally.finish()
        newest, chance = Three(*(files[name] for name in (ucd.DATA, ucd.EXCLUSIONS, ucd.FOLDING))), random.Random(SEED)
        check_changed(tally, program, newest, folder, (drawn(chance, newest.folding) for _ in range(chosen.places)))
        check_bad(tally, program, newest, folder)
        check_ages(tally, program, files, folder, newest)
        check_earlier(tally, program, newest)
        check_icu(tally, program, newest, chosen.strings)
    tally.finish()


if __name__ == "__main__":
    main()
