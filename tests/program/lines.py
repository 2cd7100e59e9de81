#!/usr/bin/env python3
"""Runs `npss_lines` end to end: tests/program/lines.py PROGRAM KEYS, where KEYS is the program npss.

Each line of an input has one line of answer: `=` and its key, or `!` and why it has none (docs/FORMATS.md). The rows
below are by that page; keys of published strings are compared with those of `npss key`. Then come long lines,
closed streams, devices that fail, a pipe that nobody reads, a bound on memory, and GNU parallel where it is there.
With `--caseless` each key of fixtures/caseless is that of a line, and refused files are told as npss_caseless tells them.
Ends in a line 'N passed, M failed'.
"""

import itertools
import os
import pty
import resource
import shutil
import subprocess
import sys
import tempfile
import threading
import time
import unicodedata
from concurrent.futures import ThreadPoolExecutor
from pathlib import Path

# Nothing is written into the tree.
sys.dont_write_bytecode = True
sys.path[:0] = [str(Path(__file__).resolve().parent.parent), str(Path(__file__).resolve().parents[2] / "packaging")]

from caseless import caseless
from caseless_rows import FOLDER, split, string_of
from cases import DEVICE, WRONG_WORDS, text
from drawn_lines import drawn_lines
from harness import FORMS, ROOT, Tally, resident, run, shown
from refusals import MEMORY as WANT, WAYS, Refusals, built_shim, each, is_last_call
from release import newest
from ucd import DATA, EXCLUSIONS, FOLDING, each_test_string, package_files
from versions import V1, record, with_records, write_all

FIXTURES = ROOT / "fixtures"
USAGE = (ROOT / "crates" / "npss_lines" / "stdout").read_bytes()
# The status of a run in which a line was refused, where `--strict` asks for it.
REFUSED = 3
# The most bytes of a line.
LIMIT = 65_536
# The most memory of a run, in MiB.
MEMORY = 8
# A long line, in pieces of 1 MiB.
LONG = 300
# So many lines of four bytes that reads of one byte are more than 2 ** 20.
MANY = 290_000
# Of so many published strings one is asked for by itself, for each form: each such run reads the published files anew.
ALONE = 100

# The first version with all of ASCII.
ASCII = ("ascii.data", V1[1])

# A line that has a key of its own under each form, in the order of FORMS: NFD, NFC, NFKD, NFKC.
MADE = {
    text("0061 0302 0323"): ("0061 0323 0302", "1EAD", "0061 0323 0302", "1EAD"),
    text("1EAD"): ("0061 0323 0302", "1EAD", "0061 0323 0302", "1EAD"),
    text("1111 1171 11B6"): ("1111 1171 11B6", "D4DB", "1111 1171 11B6", "D4DB"),
    text("D4DB"): ("1111 1171 11B6", "D4DB", "1111 1171 11B6", "D4DB"),
    text("0958"): ("0915 093C",) * 4,
    text("FB01"): ("FB01", "FB01", "0066 0069", "0066 0069"),
}

# Lines under that version, and their answers under each form; of those of MADE the answer is told there.
ROWS = [
    (b"", b"="),
    (b"abc", b"=abc"),
    *((line, None) for line in MADE),
    (b"a\r", b"=a\r"),
    (b"=a", b"==a"),
    (b"!a", b"=!a"),
    (b"a\0b", b"=a\0b"),
    (b"a" + text("16D67"), b"!unassigned 16D67 at byte 1"),
    (text("FFFE"), b"!unassigned FFFE at byte 0"),
    (b"abc\xff", b"!not UTF-8 at byte 3"),
    (b"\xed\xa0\x80", b"!not UTF-8 at byte 0"),
    (b"a" * LIMIT, b"=" + b"a" * LIMIT),
    (b"a" * (LIMIT - 1), b"=" + b"a" * (LIMIT - 1)),
    (b"a" * (LIMIT + 1), b"!too long"),
    (b"\xff" * (LIMIT + 1), b"!too long"),
]

# So many of them are short.
SHORT = len(ROWS) - 4

# Words that ask for nothing that there is, and the one that is told as refused; None where each is known.
WRONG = [
    (["--form", "nfc", "D"], None),
    (["--form", "nfc", "D", "E", "F"], None),
    (["--form", "nfc", "--caseless", "D", "E"], None),
    (["--form", "nfc", "--caseless", "D", "E", "F", "G"], "G"),
    (["D", "E"], None),
    (["--form"], None),
    (["--form", "NFX", "D", "E"], "NFX"),
    (["--form=", "D", "E"], "--form="),
    (["--FORM", "nfc", "D", "E"], "--FORM"),
    (["--form", "nfc", "--form", "nfc", "D", "E"], "--form"),
    (["--null", "--null", "--form", "nfc", "D", "E"], None),
    (["--form", "nfc", "--caseless", "--caseless", "D", "E", "F"], None),
    (["--nul", "--form", "nfc", "D", "E"], "--nul"),
    (["--strict=true", "--form", "nfc", "D", "E"], "--strict=true"),
    (["--form", "nfc", "--caseless=true", "D", "E", "F"], "--caseless=true"),
    (["-n", "--form", "nfc", "D", "E"], "-n"),
    (["--form", "nfc", "--", "--help", "--help", "E", "F"], "F"),
    (["key", "--form", "nfc", "D", "E"], None),
]
VERSION = f"npss_lines {newest()[0]}\n".encode()
MISSING = b"npss_lines: a form, a file or a flag is missing\n"


def asks(*flags, form="nfc", files=ASCII):
    """The words of a run."""
    return [*flags, "--form", form, *files]


def folded(version):
    """The three files of a toy version, in the order of the words."""
    here = FIXTURES / ("v2" if version == "changed" else version)
    return [str(here / DATA), str(here / EXCLUSIONS), str(FOLDER / version / FOLDING)]


def asks_caselessly(*flags, form="nfkc", files=None):
    """The words of a run with caseless keys."""
    return [*flags, "--form", form, "--caseless", *(files or folded("v1"))]


def rows(form="nfc", most=None):
    """Lines and their answers under a form: so many, where that is told."""
    at = FORMS.index(form)
    return [(line, answer or b"=" + text(MADE[line][at])) for line, answer in ROWS[:most]]


def joined(lines):
    """Lines, or answers, each with its end."""
    return b"".join(line + b"\n" for line in lines)


def check_rows(tally, program, folder):
    """Each row by itself under each form, with and without the byte that ends it, and all of them in one run."""
    for form in FORMS:
        for line, answer in rows(form):
            for flags, end in (((), b"\n"), (("--null",), b"\0")):
                if end in line:
                    continue
                name = f"{shown(line, 40)} {form} {flags}"
                words = asks(*flags, form=form)
                tally.same(name, run(program, words, line + end, folder), (0, answer + end, b""))
                # an empty input has no line
                tally.same(f"{name} unended", run(program, words, line, folder), (0, answer + end if line else b"", b""))
        given, wanted = (joined(column) for column in zip(*rows(form)))
        tally.same(f"all rows in one run, {form}", run(program, asks(form=form), given, folder), (0, wanted, b""))
        tally.same(f"all rows, {form}, strictly", run(program, asks("--strict", form=form), given, folder), (REFUSED, wanted, b""))
    tally.same("lines that all have keys, strictly", run(program, asks("--strict"), b"a\nb\n", folder), (0, b"=a\n=b\n", b""))
    tally.same("lines end with NUL", run(program, asks("--null"), b"a\nb\0c", folder), (0, b"=a\nb\0=c\0", b""))
    tally.same("a NUL is part of a line", run(program, asks(), b"a\0b\nc", folder), (0, b"=a\0b\n=c\n", b""))
    tally.same("progress is told to terminals alone", run(program, asks("--progress"), b"a\n", folder), (0, b"=a\n", b""))


def check_words(tally, program, folder):
    """The usage text, wrong words, files that don't open, bad files, and flags at each place."""
    for words in ([], ["--help"], ["--form", "nfc", "--help", "D", "E"], ["--help", "--version"], ["--nul", "--help"]):
        tally.same(" ".join(words) or "no words", run(program, words, b"", folder), (0, USAGE, b""))
    for words in (["--version"], ["--version", "--help"], [*asks(), "--version"]):
        tally.same(" ".join(words), run(program, words, b"", folder), (0, VERSION, b""))
    for words, refused in WRONG:
        line = f"npss_lines: cannot take '{refused}'\n".encode() if refused else MISSING
        tally.same(" ".join(words), run(program, words, b"a\n", folder), (WRONG_WORDS, b"", line + USAGE))
    for form in FORMS:
        for words in (["--form", form.upper()], [f"--form={form.upper()}"], ["--form", form.title()]):
            tally.same(" ".join(words), run(program, [*words, *ASCII], joined(line for line, _ in rows(form, SHORT)), folder),
                       (0, joined(answer for _, answer in rows(form, SHORT)), b""))
    for name in ("NFC", "--form=NFC"):
        tally.same(f"a file {name} is no form", run(program, ["--form", "nfc", "--", name, V1[1]], b"", folder),
                   (DEVICE, b"", f"cannot open {name}\n".encode()))
    tally.same("a word that is no text", run(program, [b"--form", b"nfc", b"d\xff", b"e"], b"", folder), (WRONG_WORDS, b"", USAGE))
    for files, name in ((("nothing", V1[1]), "nothing"), ((V1[0], "no thing "), "no thing "), (("", V1[1]), "")):
        tally.same(f"cannot open {name}", run(program, asks(files=files), b"a\n", folder),
                   (DEVICE, b"", f"cannot open {name}\n".encode()))
    tally.same("the data file is no data", run(program, asks(files=(V1[1], V1[1])), b"a\n", folder),
               (4, b"", b"version 0 data: line 1: FieldCount\n"))
    flags = ["--null", "--strict", "--progress", "--form=nfd"]
    for order in itertools.permutations(flags):
        for words in ([*order, *ASCII], [*ASCII, *order], [order[0], ASCII[0], *order[1:3], ASCII[1], order[3]]):
            got = run(program, words, text("00E2") + b"\0\xff", folder)
            tally.same(" ".join(words), got, (REFUSED, b"=" + text("0061 0302") + b"\0!not UTF-8 at byte 0\0", b""))


def check_line_ends(tally, program, folder):
    """A version that maps to the byte that ends lines."""
    (folder / "line-end.data").write_text(with_records((folder / ASCII[0]).read_text(encoding="ascii"),
                                                       record("2028", "Zl", 0, "<compat> 000A"),
                                                       record("2400", "So", 0, "<compat> 0000")), encoding="ascii")
    files = ("line-end.data", V1[1])
    for code, flags, end, other in (("2028", (), b"\n", b"\0"), ("2400", ("--null",), b"\0", b"\n")):
        got = run(program, asks(*flags, form="nfkc", files=files), text(code) + end + text("0061"), folder)
        tally.same(f"{code} maps to the byte that ends lines", got, (0, b"!line end in key" + end + b"=a" + end, b""))
        flags = ("--null",) if not flags else ()
        got = run(program, asks(*flags, form="nfkc", files=files), text(code) + other, folder)
        tally.same(f"{code} maps to another byte", got, (0, b"=" + end + other, b""))
    (folder / "line-end.data").unlink()


def fed(program, words, pieces, folder):
    """The run over an input that comes in these pieces: status, output, error, and the most memory in MiB, looked at behind
    each piece."""
    with subprocess.Popen([program, *words], cwd=folder, stdin=subprocess.PIPE, stdout=subprocess.PIPE,
                          stderr=subprocess.PIPE) as running:
        peaks = [0.0]

        def feed():
            for piece in pieces:
                running.stdin.write(piece)
                running.stdin.flush()
                peaks.append(resident(running.pid))
            running.stdin.close()
        feeder = threading.Thread(target=feed)
        feeder.start()
        out, err = running.stdout.read(), running.stderr.read()
        feeder.join()
        return (running.wait(), out, err), max(peaks)


def check_long(tally, program, folder):
    """Pieces of one and of seven bytes, a line of 300 MB between two others, and many lines: in constant memory."""
    given, wanted = (joined(column) for column in zip(*rows(most=SHORT)))
    for size in (1, 7):
        pieces = (given[at:at + size] for at in range(0, len(given), size))
        got, _ = fed(program, asks(), pieces, folder)
        tally.same(f"pieces of {size}", got, (0, wanted, b""))
    pieces = itertools.chain([b"a\n"], (b"a" * (1 << 20) for _ in range(LONG)), [b"\nb"])
    got, used = fed(program, asks(), pieces, folder)
    tally.same("a line of 300 MiB", got, (0, b"=a\n!too long\n=b\n", b""))
    tally.check("a line of 300 MiB in constant memory", 0 < used <= MEMORY, f"{used} MiB")
    piece, answers = b"a" * 9 + b"\n", b"=" + b"a" * 9 + b"\n"
    got, used = fed(program, asks(), (piece * 100_000 for _ in range(10)), folder)
    tally.check("1,000,000 lines", got == (0, answers * 1_000_000, b""), shown(got))
    tally.check("1,000,000 lines in constant memory", 0 < used <= MEMORY, f"{used} MiB")


def check_devices(tally, program, folder):
    """Closed streams, a full device, a folder to read, and a pipe that nobody reads."""
    for closed, wanted in (("<&-", (DEVICE, b"", b"input: ReadFailed\n")), (">&-", (DEVICE, b"", b"output: WriteFailed\n")),
                           ("2>&-", (0, b"=a\n", b"")), ("<&- 2>&-", (DEVICE, b"", b"")), (">&- 2>&-", (DEVICE, b"", b""))):
        got = run("sh", ["-c", f'exec "$0" "$@" {closed}', str(program), *asks()], b"a\n", folder)
        tally.same(f"with {closed}", got, wanted)
    with open("/dev/full", "wb") as full:
        tally.same("into a full device", run(program, asks(), b"a\n", folder, stdout=full), (DEVICE, b"", b"output: WriteFailed\n"))
        tally.same("the usage into a full device", run(program, [], b"", folder, stdout=full), (DEVICE, b"", b"output: WriteFailed\n"))
    reader, writer = os.pipe()
    os.close(reader)
    tally.same("into a pipe that nobody reads", run(program, asks(), b"a\n", folder, stdout=writer), (DEVICE, b"", b""))
    tally.same("the usage into a pipe that nobody reads", run(program, [], b"", folder, stdout=writer), (DEVICE, b"", b""))
    os.close(writer)
    handle = os.open(folder, os.O_RDONLY)
    tally.same("from a folder", run(program, asks(), handle, folder), (DEVICE, b"", b"input: ReadFailed\n"))
    os.close(handle)


def bound():
    """So little memory that a table is not to be had."""
    resource.setrlimit(resource.RLIMIT_AS, (3 << 20, 3 << 20))


def check_memory(tally, program, folder):
    """Under a bound on its memory a run is told that, or can't be started."""
    status, out, err = run(program, asks(), b"a\n", folder, preexec_fn=bound)
    tally.check("under a bound on memory", (status, out, err) == (6, b"", b"out of memory\n") or status in (127, -9, -11, -6), f"{status} {out} {err}")


def are_first_answers(out, ample):
    """Whether these are the answers to some first lines."""
    return ample.startswith(out) and (not out or out.endswith(b"\n"))


def is_refused_end(kind, got, ample):
    """Whether a run ends well in which a call was refused: told in its line, with the answers to some first lines, or,
    where a write failed, some first bytes of them."""
    status, out, err = got
    if kind == "memory":
        return (status, err) == (WANT[0], WANT[2]) and are_first_answers(out, ample[1])
    if kind == "read":
        return status == DEVICE and err.endswith(b": ReadFailed\n") and are_first_answers(out, ample[1])
    return status == DEVICE and err == b"output: WriteFailed\n" and ample[1].startswith(out)


def check_refused(tally, program, refusals, name, words, given):
    """Each allocation, read and write of a run refused in turn."""
    ample, counts = refusals.counted(program, words, given)
    tally.same(f"{name}: calls are counted", ample, run(program, words, given, refusals.folder))
    for kind, ways in (("memory", ("", "rest")), *WAYS.items()):
        for way in ways:
            ends = refusals.ends(program, words, given, each(kind, counts[kind], way))
            wrong = [(asked, got) for asked, got, _ in ends
                     if not (is_refused_end(kind, got, ample) or (kind == "memory" and got == ample))]
            tally.check(f"{name}: each of {counts[kind]} calls, {kind} {way}", ends and not wrong, shown(wrong[:1]))
            late = [asked for asked, got, calls in ends if kind != "memory" and not is_last_call(kind, asked, got, calls, ample)]
            tally.check(f"{name}: no call behind it, {kind} {way}", not late, shown(late[:1]))
    for kind in WAYS:
        tally.same(f"{name}: {kind}s of one byte", refusals.run(program, words, given, REFUSE=f"{kind}:0:one"), ample)


def check_refusals(tally, program, folder):
    """Each allocation, read and write refused in turn."""
    shim = built_shim(folder.parent)
    if shim is None:
        print("skipped: lines with refused allocations, reads and writes: there is no C compiler")
        return
    refusals = Refusals(shim, folder)
    given = joined(line for line, _ in ROWS)
    check_refused(tally, program, refusals, "keys", asks(), given)
    check_refused(tally, program, refusals, "caseless keys", asks_caselessly(), given)
    # no count of reads is too large
    got = refusals.run(program, asks(), b"abc\n" * MANY, REFUSE="read:0:one")
    tally.check("more than a million reads", got == (0, b"=abc\n" * MANY, b""), f"{got[0]} {len(got[1])} {got[2]}")


def run_on_terminal(program, words, pieces, folder, stdin=subprocess.PIPE):
    """The run with standard error on a terminal, over an input that comes in these pieces, a number among them being a pause
    in seconds, or over a file: status, output, and what the terminal was told."""
    master, slave = pty.openpty()
    with subprocess.Popen([program, *words], cwd=folder, stdin=stdin, stdout=subprocess.PIPE, stderr=slave) as running:
        os.close(slave)
        for piece in pieces:
            if isinstance(piece, bytes):
                running.stdin.write(piece)
                running.stdin.flush()
            else:
                time.sleep(piece)
        if running.stdin is not None:
            running.stdin.close()
        out = running.stdout.read()
        status = running.wait()
    terminal = b""
    try:
        while piece := os.read(master, 4096):
            terminal += piece
    except OSError:
        # nothing more was told before the terminal was closed
        pass
    os.close(master)
    return status, out, terminal


def check_progress(tally, program, folder):
    """To a terminal the lines and bytes done are told on one line, once a second, and once more at the end of the input."""
    for name, words, pieces, out, terminal in (
            ("a short input", asks("--progress"), [b"a\nb\nc"], b"=a\n=b\n=c\n", b"3 lines, 5 bytes\r\n"),
            ("an empty input", asks("--progress"), [], b"", b"0 lines, 0 bytes\r\n"),
            ("lines that end with NUL", asks("--progress", "--null"), [b"a\nb\0c"], b"=a\nb\0=c\0", b"2 lines, 5 bytes\r\n"),
            ("a slow input", asks("--progress"), [1.5, b"a\nb", 1.5, b"\nc\n"], b"=a\n=b\n=c\n",
             b"2 lines, 3 bytes\r3 lines, 6 bytes\r3 lines, 6 bytes\r\n"),
            ("unasked", asks(), [b"a\n"], b"=a\n", b"")):
        tally.same(f"progress: {name}", run_on_terminal(program, words, pieces, folder), (0, out, terminal))
    (folder / "names").write_bytes(b"a\nb\nc")
    with open(folder / "names", "rb") as names:
        tally.same("progress: a file", run_on_terminal(program, asks("--progress"), [], folder, names), (0, b"=a\n=b\n=c\n", b"3 lines, 5 bytes, 100 %\r\n"))
    (folder / "names").unlink()


def keyed_lines():
    """The strings of the fixtures' keys as lines with their answers, by version and form."""
    lines = {}
    for head, string, key in split("KEYS.txt"):
        answer = "!" + key if key.startswith("unassigned") else "=" + string_of(key)
        lines.setdefault(tuple(head.split()), []).append((string_of(string).encode(), answer.encode()))
    return lines


def check_caseless(tally, program, folder):
    """Caseless keys: each of the fixtures as a line, and what is refused of a line, of the third file and of words."""
    for (version, form), lines in keyed_lines().items():
        words = asks_caselessly(form=form, files=folded(version))
        given, wanted = (joined(column) for column in zip(*lines))
        tally.same(f"caseless keys of {version}, {form}", run(program, words, given, folder), (0, wanted, b""))
        pieces = (given[at:at + 7] for at in range(0, len(given), 7))
        tally.same(f"caseless keys of {version}, {form}, in pieces", fed(program, words, pieces, folder)[0], (0, wanted, b""))
        strict = REFUSED if b"!" in wanted else 0
        tally.same(f"caseless keys of {version}, {form}, strictly", run(program, ["--strict", *words], given, folder), (strict, wanted, b""))
        nul = given.replace(b"\n", b"\0"), wanted.replace(b"\n", b"\0")
        tally.same(f"caseless keys of {version}, {form}, with NUL", run(program, ["--null", *words], nul[0], folder), (0, nul[1], b""))
    for line, answer in ((b"", b""), (b"\n", b"=\n"), (b"A", b"=a\n"), (b"A\xff", b"!not UTF-8 at byte 1\n"), (b"A" * LIMIT, b"=" + b"a" * LIMIT + b"\n"),
                         (b"A" * (LIMIT + 1), b"!too long\n"), (b"A" + text("16D67"), b"!unassigned 16D67 at byte 1\n")):
        tally.same(f"caseless: {shown(line, 40)}", run(program, asks_caselessly(), line, folder), (0, answer, b""))
    check_caseless_files(tally, program, folder)
    check_ascii_folding(tally, program, folder)
    check_folded_line_end(tally, program, folder)


def check_caseless_files(tally, program, folder):
    """What is told of the three files, in the order in which they are opened and judged; nothing is answered."""
    good = folded("v1")
    for at in range(3):
        files = [*good[:at], "nothing", *good[at + 1:]]
        tally.same(f"caseless: file {at} doesn't open", run(program, asks_caselessly(files=files), b"A\n", folder), (DEVICE, b"", b"cannot open nothing\n"))
    for files, line in (([good[2], *good[1:]], b"version 0 data: line 4: FieldCount\n"), ([*good[:2], good[0]], b"version 0 folding: line 1: FieldCount\n")):
        tally.same(line.decode(), run(program, asks_caselessly(files=files), b"A\n", folder), (4, b"", line))
    for name, data, status, answer in split("edges/EXPECTED.txt"):
        first = good[0] if data == "v1" else str(FOLDER / "edges" / f"{data}.data")
        words = asks_caselessly(form="nfc", files=[first, good[1], str(FOLDER / "edges" / name)])
        want = (int(status), b"", f"{answer}\n".encode()) if int(status) else (0, f"={string_of(answer)}\n".encode(), b"")
        tally.same(f"caseless: {name}", run(program, words, b"A\n", folder), want)


def with_folding(folder, line=""):
    """The words of a version that has all of ASCII, with the first toy folding and one line more, which stands behind 0041."""
    before, _, behind = (FOLDER / "v1" / FOLDING).read_text(encoding="ascii").partition("0066;")
    (folder / "more.folding").write_text(f"{before}{line}0066;{behind}", encoding="ascii")
    return lambda form, *flags: asks_caselessly(*flags, form=form, files=[*ASCII, "more.folding"])


def check_ascii_folding(tally, program, folder):
    """Lines of ASCII, which are folded byte by byte where that can be, among other lines; and foldings where it can't be."""
    words = with_folding(folder)
    ascii_lines = [(b"A", b"=a"), (b"fAt 0~\r\t", b"=iat 0~\r\t"), (b"", b"="), (b"A" * LIMIT, b"=" + b"a" * LIMIT), (b"A" * (LIMIT + 1), b"!too long"),
                   (b"A\xff", b"!not UTF-8 at byte 1"), (b"A" + text("16D67"), b"!unassigned 16D67 at byte 1")]
    for form in FORMS:
        others = [pair for pair in keyed_lines()["v1", form] if pair[1].startswith(b"=")]
        mixed = [pair for at, other in enumerate(others) for pair in (other, ascii_lines[at % 3], ascii_lines[at % len(ascii_lines)])]
        given, wanted = (joined(column) for column in zip(*mixed))
        tally.same(f"caseless: ASCII among others, {form}", run(program, words(form), given, folder), (0, wanted, b""))
        pieces = (given[at:at + 5_000] for at in range(0, len(given), 5_000))
        tally.same(f"caseless: ASCII among others, {form}, in pieces", fed(program, words(form), pieces, folder)[0], (0, wanted, b""))
        tally.same(f"caseless: ASCII with LF in lines, {form}", run(program, words(form, "--null"), b"A\nf\0f\0A", folder), (0, b"=a\ni\0=i\0=a\0", b""))
    for line, answer in (("0042; C; 000A; \n", b"!line end in key"), ("0042; C; 0000; \n", b"=\0"), ("0042; C; 00E2; \n", "=â".encode()),
                         ("0042; F; 0043 0044; \n", b"=CD"), ("0042; C; 0043; \n", b"=C"), ("0042; C; 007F; \n", b"=\x7f")):
        words = with_folding(folder, line)
        tally.same(f"caseless: {line.strip()}", run(program, words("nfc"), b"B\nA\nB", folder), (0, answer + b"\n=a\n" + answer + b"\n", b""))
    (folder / "more.folding").unlink()


def check_folded_line_end(tally, program, folder):
    """The caseless key holds the byte that ends lines: it is asked of the key, and not of the line."""
    letters = folder / "folds-to-end.data", folder / "folds-to-end.folding"
    letters[0].write_text(with_records((folder / ASCII[0]).read_text(encoding="ascii"), record("2028", "Lu", 0, "")), encoding="ascii")
    before, _, behind = (FOLDER / "v1" / FOLDING).read_text(encoding="ascii").partition("E000;")
    letters[1].write_text(f"{before}2028; C; 000A; \nE000;{behind}", encoding="ascii")
    words = ["--form", "nfc", "--caseless", str(letters[0]), V1[1], str(letters[1])]
    given = text("2028") + b"\n" + b"A\n"
    tally.same("caseless: a line folds to its end", run(program, words, given, folder), (0, b"!line end in key\n=a\n", b""))
    tally.same("caseless: a line folds to no end", run(program, ["--null", *words], text("2028") + b"\0", folder), (0, b"=\n\0", b""))
    for path in letters:
        path.unlink()


def check_published_folding(tally, program, files, strings):
    """The published strings that Python's version assigns, in one run, against Python's folding between its forms."""
    if FOLDING not in files:
        print("skipped: caseless keys of published strings: the package unicode-data has no folding")
        return
    known = [string for string in strings if not any(unicodedata.category(code) == "Cn" for code in string)]
    three = [str(files[name]) for name in (DATA, EXCLUSIONS, FOLDING)]
    given = "".join(f"{string}\0" for string in known).encode()
    check_drawn(tally, program, three)
    for form in FORMS:
        status, out, err = run(program, asks_caselessly("--null", form=form, files=three), given)
        wanted = [b"=" + caseless(form, string).encode() for string in known]
        wrong = [pair for pair in zip(known, out.split(b"\0"), wanted) if pair[1] != pair[2]]
        tally.check(f"caseless keys of {len(known)} published strings, {form}", (status, out.count(b"\0"), err, wrong) == (0, len(known), b"", []), shown(wrong[:1]))


def check_drawn(tally, program, three):
    """Lines that are answered by one way and by another, in stretches and in turns, against Python's folding between its forms."""
    lines = list(drawn_lines())
    given = "".join(f"{line}\n" for line in lines).encode()
    for form in FORMS:
        status, out, err = run(program, asks_caselessly(form=form, files=three), given)
        answers, wanted = out.split(b"\n"), [b"=" + caseless(form, line).encode() for line in lines]
        wrong = [pair for pair in zip(lines, answers, wanted) if pair[1] != pair[2]]
        tally.check(f"caseless keys of {len(lines)} drawn lines, {form}", (status, len(answers), err, wrong) == (0, len(lines) + 1, b"", []), shown(wrong[:1]))


def check_published(tally, program, keys, folder):
    """The strings of NormalizationTest.txt, answered in one run, against `npss normalize` and `npss key` over all of them at
    once, since no form goes across a NUL, and against `npss key` over some by themselves."""
    files, why = package_files()
    if files is None or each_test_string(files) is None:
        print(f"skipped: lines of published strings: {why or 'NormalizationTest.txt is not there'}")
        return
    strings = sorted(set(each_test_string(files)))
    check_published_folding(tally, program, files, strings)
    version = [str(files[name]) for name in (DATA, EXCLUSIONS)]
    given = "".join(f"{string}\0" for string in strings).encode()
    for form in FORMS:
        status, out, err = run(program, asks("--null", form=form, files=version), given, folder)
        answers = out.split(b"\0")[:-1]
        tally.same(f"published strings, {form}", (status, len(answers), err), (0, len(strings), b""))
        for command in ("normalize", "key"):
            whole = run(keys, [command, "--form", form, *version], given, folder)[1]
            tally.check(f"published strings, {form}, against npss {command}", b"".join(a[1:] + b"\0" for a in answers) == whole, form)
        # one process a string: some of them for each form
        part = range(FORMS.index(form), len(strings), ALONE)
        with ThreadPoolExecutor(os.cpu_count()) as pool:
            wanted = pool.map(lambda at, form=form: run(keys, ["key", "--form", form, *version], strings[at].encode(), folder), part)
            wrong = [(strings[at], answers[at], key) for at, key in zip(part, wanted) if key != (0, answers[at][1:], b"") or answers[at][:1] != b"="]
        tally.check(f"published strings, {form}, some by themselves, against npss key", not wrong, shown(wrong[:1]))


def check_parallel(tally, program, folder):
    """GNU parallel over pieces of the input: the same bytes as one process."""
    parallel = shutil.which("parallel")
    if parallel is None:
        print("skipped: GNU parallel is not there")
        return
    path = folder.parent / "names"
    path.write_bytes(joined(line for line, _ in ROWS[:SHORT]) * 20_000)
    command = " ".join([str(program), *asks()])
    _, wanted, _ = run(program, asks(), path.read_bytes(), folder)
    for name, words, stdin in (("--pipepart", ["--pipepart", "-k", "-a", str(path), "--block", "300k", command], b""),
                               ("--pipe", ["--pipe", "-k", "--block", "300k", command], path.read_bytes())):
        status, out, _ = run(parallel, ["--will-cite", *words], stdin, folder)
        tally.check(f"GNU parallel {name}", (status, out) == (0, wanted), f"{status} {len(out)} of {len(wanted)}")
    path.unlink()


def main():
    program, keys = (Path(word).resolve() for word in sys.argv[1:3])
    tally = Tally()
    with tempfile.TemporaryDirectory() as name:
        folder = Path(name) / "files"
        shutil.copytree(FIXTURES, folder)
        write_all(folder)
        letters = (record(f"{code:04X}") for code in range(0x80))
        (folder / ASCII[0]).write_text(with_records((folder / V1[0]).read_text(encoding="ascii"), *letters), encoding="ascii")
        check_rows(tally, program, folder)
        check_words(tally, program, folder)
        check_line_ends(tally, program, folder)
        check_long(tally, program, folder)
        check_devices(tally, program, folder)
        check_memory(tally, program, folder)
        check_refusals(tally, program, folder)
        check_progress(tally, program, folder)
        check_caseless(tally, program, folder)
        check_parallel(tally, program, folder)
        check_published(tally, program, keys, folder)
    tally.finish()


if __name__ == "__main__":
    main()
