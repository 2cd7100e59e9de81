#!/usr/bin/env python3
"""Runs `npss_caseless` end to end: tests/program/caseless.py PROGRAM.

The rows of fixtures/caseless: keys and refusals, matches, audits, keys under an earlier version, and folding files at each edge
of the grammar and of the conditions. Then words, the order in which files are judged, files and devices that fail, bad input,
and where the published files are here all code points and strings against Python's own folding, normalized as the Standard's
D145 and D146 say. Ends in a line 'N passed, M failed'.
"""

import os
import random
import sys
import tempfile
import unicodedata
from concurrent.futures import ThreadPoolExecutor
from pathlib import Path

# Nothing is written into the tree.
sys.dont_write_bytecode = True
sys.path[:0] = [str(Path(__file__).resolve().parent.parent), str(Path(__file__).resolve().parents[2] / "packaging")]

from caseless_rows import FOLDER, split, string_of
from cases import DEVICE, WRONG_WORDS
from harness import FORMS, ROOT, Tally, run, shown
from release import newest
from ucd import DATA, EXCLUSIONS, FOLDING, package_files

USAGE = (ROOT / "crates" / "npss_caseless" / "stdout").read_bytes()
BAD, UNASSIGNED, DIFFERENT = 4, 3, 1
# How many strings are drawn at random for each form.
STRINGS = 400


def folder_of(version):
    """The folder of the data and the exclusions of a toy version."""
    return ROOT / "fixtures" / ("v2" if version == "changed" else version)


def files(version):
    """The three files of a toy version, in the order of the words."""
    here = folder_of(version)
    return [str(here / "UnicodeData.txt"), str(here / "CompositionExclusions.txt"), str(FOLDER / version / "CaseFolding.txt")]


def check_run(tally, program, words, stdin, want):
    """One run against its status, standard output and standard error."""
    got = run(program, words, stdin)
    tally.check(" ".join(Path(word).name for word in words), got == want, f"got {shown(got)}, want {shown(want)}")


def key_runs():
    """The runs of `key` over the toy versions."""
    for head, string, key in split("KEYS.txt"):
        version, form = head.split()
        words = ["key", "--form", form, *files(version)]
        if key.startswith("unassigned"):
            yield words, string_of(string).encode(), (UNASSIGNED, b"", f"{key}\n".encode())
        else:
            yield words, string_of(string).encode(), (0, string_of(key).encode(), b"")


def match_runs():
    """Those of `compare`."""
    for head, first, second, answer in split("MATCHES.txt"):
        version, form = head.split()
        status, line = answer.split(" ", 1)
        output = f"{line}\n".encode()
        yield (["compare", "--form", form, *files(version)], f"{string_of(first)}\n{string_of(second)}\n".encode(),
               (int(status), output, b"") if int(status) <= DIFFERENT else (int(status), b"", output))


def audit_runs():
    """Those of `audit`, and of `key` under an earlier version."""
    for row in split("AUDITS.txt"):
        if row[0] in FORMS:
            form, string, answer = row
            status, line = answer.split(" ", 1)
            out, err = (b"", f"{line}\n".encode()) if int(status) else (f"{line}\n".encode(), b"")
            yield ["key", "--form", form, "--check-under", *files("v1"), *files("v2")], string_of(string).encode(), (int(status), out, err)
        else:
            old, new = row[0].split()
            lines = "".join(f"{line}\n" for line in row[2].split(", "))
            yield ["audit", *files(old), *files(new)], b"", (int(row[1]), lines.encode(), b"")


def edge_files(data, name):
    """The three files of a row of the edges."""
    here = folder_of("v1")
    first = here / "UnicodeData.txt" if data == "v1" else FOLDER / "edges" / f"{data}.data"
    return [str(first), str(here / "CompositionExclusions.txt"), str(FOLDER / "edges" / name)]


def edge_runs():
    """Those over folding files at the edges."""
    for name, data, status, answer in split("edges/EXPECTED.txt"):
        want = (int(status), b"", f"{answer}\n".encode()) if int(status) else (0, string_of(answer).encode(), b"")
        yield ["key", "--form", "nfc", *edge_files(data, name)], b"A", want


def word_runs():
    """Words that ask for nothing that there is, of which the refused one is told, notices, forms in either case, and words of a
    file that can't be opened."""
    good = files("v1")
    form = ["--form", "nfc"]
    for words in ([], ["--help"], ["key", *form, "--help", *good], ["help", "--help", "--version"]):
        yield words, b"", (0, USAGE, b"")
    for words in (["--version"], ["key", "--version", "--help"]):
        yield words, b"", (0, f"npss_caseless {newest()[0]}\n".encode(), b"")
    for words in (["--form", "NFC"], ["--form=NFC"], ["--form", "nFc"]):
        yield ["key", *words, *good], b"A", (0, b"a", b"")
    for words, refused in ((["help"], "help"), (["normalize", *form, *good], "normalize"), (["replay", *form, *good], "replay"), (["key", *good], None),
                           (["key", "--form", "nfx", *good], "nfx"), (["key", *form, *good[:2]], None), (["key", *form, *good, *good], good[0]),
                           (["key", *form, "--check-under", *good], None), (["compare", *form, *good, *good], good[0]), (["audit", *good], None),
                           (["audit", *form, *good, *good], None), (["key", *form, *form, *good], "--form"), (["key", *form, "-x", *good], "-x"),
                           (["key", *form, "--check-under=yes", *good], "--check-under=yes")):
        line = f"cannot take '{refused}'" if refused else "a form, a file or a flag is missing"
        yield words, b"", (WRONG_WORDS, b"", f"npss_caseless: {line}\n".encode() + USAGE)
    for at in range(3):
        names = [*good[:at], "/nothing/here", *good[at + 1:]]
        yield ["key", "--form", "nfc", *names], b"A", (DEVICE, b"", b"cannot open /nothing/here\n")
        yield ["audit", *good, *names], b"", (DEVICE, b"", b"cannot open /nothing/here\n")
    yield ["key", "--form", "nfc", "/nothing/first", "/nothing/second", good[2]], b"A", (DEVICE, b"", b"cannot open /nothing/first\n")


def order_runs(folder):
    """Which fault is told where several files are wrong, and which version."""
    good = files("v1")
    bad_data, bad_folding, folder_in_place = str(folder / "data"), str(folder / "folding"), str(folder)
    (folder / "data").write_text("0041;x\n", encoding="ascii")
    (folder / "folding").write_text("0041; X; 0061;\n", encoding="ascii")
    key = ["key", "--form", "nfc"]
    yield [*key, bad_data, good[1], bad_folding], b"A", (BAD, b"", b"version 0 data: line 1: FieldCount\n")
    yield [*key, good[0], bad_folding, bad_folding], b"A", (BAD, b"", b"version 0 exclusions: line 1: BadCode\n")
    yield [*key, *good[:2], bad_folding], b"\xff", (BAD, b"", b"version 0 folding: line 1: BadStatus\n")
    yield [*key, *good], b"\xff", (BAD, b"", b"input: not UTF-8 at byte 0\n")
    yield [*key, *good[:2], folder_in_place], b"A", (DEVICE, b"", b"version 0 folding: ReadFailed\n")
    yield ["audit", *good, *good[:2], bad_folding], b"", (BAD, b"", b"version 1 folding: line 1: BadStatus\n")
    yield ["audit", *good[:2], bad_folding, bad_data, *good[1:]], b"", (BAD, b"", b"version 0 folding: line 1: BadStatus\n")
    yield [*key, "--check-under", *files("v2"), *files("changed")], b"\xff", (DIFFERENT, b"", b"not an extension: version 1 FoldingChanged 0041\n")
    yield ["compare", "--form", "nfc", *good], b"A", (BAD, b"", b"input: two lines wanted\n")
    yield ["compare", "--form", "nfc", *good], "A\n\U00016d67\n".encode(), (UNASSIGNED, b"", b"second: unassigned 16D67 at byte 0\n")
    large = folder / "large"
    with large.open("wb") as file:
        file.truncate(16_777_217)
    yield [*key, *good[:2], str(large)], b"A", (BAD, b"", b"version 0 folding: TooLarge\n")


def check_devices(tally, program):
    """A full device for standard output, and a pipe that nobody reads."""
    for words, stdin in ((["key", "--form", "nfc", *files("v1")], b"A"), (["audit", *files("v1"), *files("v2")], b""), ([], b"")):
        with open("/dev/full", "wb") as full:
            tally.same(f"{' '.join(words[:1])} into a full device", run(program, words, stdin, stdout=full), (DEVICE, b"", b"output: WriteFailed\n"))
        reader, writer = os.pipe()
        os.close(reader)
        tally.same(f"{' '.join(words[:1])} into a pipe that nobody reads", run(program, words, stdin, stdout=writer), (DEVICE, b"", b""))
        os.close(writer)


def form_of(form, text):
    return unicodedata.normalize(form.upper(), text)


def caseless(form, text):
    """The caseless list by Python's own folding, as D145 and D146 have it."""
    folded = form_of("nfd", text).casefold()
    if form.startswith("nfk"):
        folded = form_of("nfkd", folded).casefold()
    return form_of(form, folded)


def published_strings():
    """Strings of what Python's version assigns: each code point in texts of many, and some at random that mix folding and marks."""
    known = [chr(code) for code in range(0x110000) if unicodedata.category(chr(code)) not in ("Cn", "Cs")]
    for at in range(0, len(known), 2000):
        yield "a\u0300".join(known[at:at + 2000])
    draw = random.Random(5)
    folding = [code for code in known if code.casefold() != code]
    marks = [code for code in known if unicodedata.combining(code)]
    wide = ["\uff9e", "\uff9f", "\u0345", "\u2121", "\u03f9", "\u1fb3", "\u1fb4", "\u0130", "\u1e9e"]
    for _ in range(STRINGS):
        yield "".join(draw.choice(draw.choice((folding, marks, wide, known))) for _ in range(draw.randrange(1, 60)))


def check_published(tally, program):
    """Keys under the published files are those of Python's folding between its forms, where Python's version assigns the text."""
    found, why = package_files()
    if found is None or FOLDING not in found:
        print(f"skipped: published foldings: {why or 'the package unicode-data has none'}")
        return
    three = [str(found[name]) for name in (DATA, EXCLUSIONS, FOLDING)]
    texts = list(published_strings())

    def differs(job):
        form, text = job
        got = run(program, ["key", "--form", form, *three], text.encode())
        want = (0, caseless(form, text).encode(), b"")
        return None if got == want else f"{form} of {shown(text)}: {shown(got)}, want {shown(want)}"

    with ThreadPoolExecutor() as pool:
        wrong = [difference for difference in pool.map(differs, ((form, text) for form in FORMS for text in texts)) if difference]
    tally.check(f"{len(texts)} published texts in four forms have Python's folding", not wrong, "; ".join(wrong[:3]))
    tally.passed += len(texts) * len(FORMS) - len(wrong)
    for cut in (1, 2):
        lines = found[FOLDING].read_bytes().splitlines(keepends=True)
        with tempfile.NamedTemporaryFile() as half:
            half.write(b"".join(lines[:len(lines) * cut // 3]))
            half.flush()
            status, out, err = run(program, ["key", "--form", "nfc", *three[:2], half.name], b"A")
            tally.check(f"{cut} thirds of the published folding file", (status, out) == (BAD, b"") and b"folding: NotFolded" in err, shown(err))


def main():
    tally, program = Tally(), Path(sys.argv[1]).resolve()
    with tempfile.TemporaryDirectory() as folder:
        for runs in (key_runs(), match_runs(), audit_runs(), edge_runs(), word_runs(), order_runs(Path(folder))):
            for words, stdin, want in runs:
                check_run(tally, program, words, stdin, want)
    check_devices(tally, program)
    check_published(tally, program)
    tally.finish()


if __name__ == "__main__":
    main()
