#!/usr/bin/env python3
"""Cut and forged messages, and broken schedules: tests/program/forged.py PROGRAM.

Messages over the first fixture are cut at every byte, each byte is replaced by others, each length by
others, fields are exchanged, repeated and left out; each comes to a node by `forge`, under a bound on memory. Each
line of a schedule and of the scripts loses a word, has one twice, has two exchanged, or has another in its place. The report, or the first faulty line, is compared with what
history_model.py and the grammar here say. Ends in a line 'N passed, M failed'.
"""

import re
import sys
import tempfile
from pathlib import Path

sys.dont_write_bytecode = True
sys.path.insert(0, str(Path(__file__).resolve().parent.parent))

from models import history_model
import ucd
from harness import ROOT, Tally, run
from program.limits import under
from program.replays import SCRIPTS

FIXTURE = ROOT / "fixtures" / "v1"
# Strings of the fixture, each with its normal form under NFC by hand.
ENTRIES = [("", ""), ("A", "A"), ("a\u0302", "\u00e2"), ("\u212b", "\u00c5"), ("a\u0302\u0323", "\u1ead")]
BYTES = (0x00, 0x01, 0x7F, 0x80, 0xFF)
LENGTHS = (0, 1, 0x7FFFFFFF, 0xFFFFFFFF)
# What the program may take for all of the messages, in KiB: far less than a great length promises.
BOUND = 65536


class Version:
    """What the fixture says of letters and non-starters; syllables are left out."""

    def __init__(self):
        self.assigned, self.classes, self.parts = set(), {}, {}
        excluded = {int(line.split("#")[0].strip(), 16) for line in (FIXTURE / ucd.EXCLUSIONS).read_text().splitlines()
                    if line.split("#")[0].strip()}
        first = None
        for line in (FIXTURE / ucd.DATA).read_text().splitlines():
            fields = line.split(";")
            code = int(fields[0], 16)
            self.assigned |= set(range(first or code, code + 1)) if fields[1].endswith(", Last>") else {code}
            first = code if fields[1].endswith(", First>") else None
            self.classes[code] = int(fields[3])
            if fields[5] and not fields[5].startswith("<"):
                self.parts[code] = [int(part, 16) for part in fields[5].split()]
        self.pairs = {tuple(parts): code for code, parts in self.parts.items()
                      if len(parts) == 2 and code not in excluded and not self.class_of(code) and not self.class_of(parts[0])}

    def class_of(self, code):
        return self.classes.get(code, 0)

    def full(self, code):
        return [whole for part in self.parts[code] for whole in self.full(part)] if code in self.parts else [code]

    def key(self, string):
        """The string's normal form under NFC."""
        codes = [whole for c in string for whole in self.full(ord(c))]
        # What has starters alone, of which no two neighbours compose, stays: so long ones take no time.
        if not any(map(self.class_of, codes)) and not self.pairs.keys() & set(zip(codes, codes[1:])):
            return "".join(map(chr, codes))
        for end in range(len(codes), 1, -1):
            for at in range(1, end):
                if self.class_of(codes[at - 1]) > self.class_of(codes[at]) > 0:
                    codes[at - 1:at + 1] = codes[at], codes[at - 1]
        at = 1
        while at < len(codes):
            starters = [place for place in range(at) if not self.class_of(codes[place])]
            between = codes[starters[-1] + 1:at] if starters else []
            free = all(0 < self.class_of(c) < self.class_of(codes[at]) for c in between)
            pair = (codes[starters[-1]], codes[at]) if starters and free else None
            if pair in self.pairs:
                codes[starters[-1]] = self.pairs[pair]
                del codes[at]
            else:
                at += 1
        return "".join(map(chr, codes))


def field(data, length=None):
    return (len(data) if length is None else length).to_bytes(4, "big") + data


def message(string, key, form=b"C"):
    return form + field(string) + field(key)


def forged(string, key):
    """Each way to change the message of a string and its key that is told in the head."""
    whole = message(string, key)
    yield whole
    for at in range(len(whole)):
        yield whole[:at]
        for byte in {*BYTES, (whole[at] + 1) % 256, (whole[at] - 1) % 256}:
            yield whole[:at] + bytes([byte]) + whole[at + 1:]
    for length in {*LENGTHS, len(string) + 1, max(len(string) - 1, 0)}:
        yield b"C" + field(string, length) + field(key)
    for length in {*LENGTHS, len(key) + 1, max(len(key) - 1, 0)}:
        yield b"C" + field(string) + field(key, length)
    yield message(key, string)
    yield whole + whole
    yield b"C" + field(string)
    yield b"C" + field(string) + field(key) + field(key)
    for form in b"DdcX":
        yield message(string, key, bytes([form]))


def check_messages(tally, program, folder):
    """All of them to one node, in one schedule, in front of and behind the right ones."""
    version = Version()
    entries = [(string.encode(), key.encode()) for string, key in ENTRIES]
    messages = [one for entry in entries for one in forged(*entry)]
    messages += [b"C" + field(b"A" * size) + field(b"A" * size) for size in (65_536, 65_537)]
    for room in (0, 1, 4096):
        lines = [f"room {room}", "nodes 0", *(f"forge 0 {one.hex()}".strip() for one in messages + messages)]
        schedule = "\n".join(lines) + "\n"
        (folder / "schedule").write_text(schedule)
        status, out, err = run(program, ["replay", "--form", "nfc", "schedule", FIXTURE / ucd.DATA, FIXTURE / ucd.EXCLUSIONS],
                               folder=folder, preexec_fn=under(BOUND))
        tally.check(f"forged messages to a room of {room}", (status, err) == (0, b""), f"{status} {err}")
        wanted = history_model.report_of(schedule, [version.assigned], "nfc", version.key).splitlines()
        got = out.decode().splitlines()
        for number, (line, want) in enumerate(zip(got, wanted)):
            given = messages[number % len(messages)].hex() if number < 2 * len(messages) else "entries"
            tally.same(f"room {room}, {given}", line, want)
        tally.same(f"lines of room {room}", len(got), len(wanted))


NUMBER = re.compile(r"[0-9]{1,9}")
CODE = re.compile(r"(10|0?[0-9A-Fa-f])?[0-9A-Fa-f]{4}")


def are_codes(words):
    return all(CODE.fullmatch(word) and not 0xD800 <= int(word, 16) <= 0xDFFF for word in words)


def stands(number, words, nodes, versions):
    """Whether the words of the data line of this number, from 0, may stand in a schedule of so many nodes."""
    if number == 0:
        return len(words) == 2 and words[0] == "room" and bool(NUMBER.fullmatch(words[1])) and int(words[1]) <= 65536
    if number == 1:
        return words[0] == "nodes" and 0 < len(words) - 1 <= 64 and all(NUMBER.fullmatch(w) and int(w) < versions
                                                                        for w in words[1:])
    if len(words) < 2 or not NUMBER.fullmatch(words[1]) or int(words[1]) >= nodes:
        return False
    name, rest = words[0], words[2:]
    if name in ("upgrade", "save"):
        return not rest
    if name == "restart":
        return not rest or len(rest) == 1 and bool(NUMBER.fullmatch(rest[0])) and int(rest[0]) < versions
    if name in ("accept", "forget"):
        return are_codes(rest)
    if name == "deliver":
        return len(rest) == 1 and bool(NUMBER.fullmatch(rest[0]))
    if name == "ask":
        return rest.count("/") == 1 and are_codes(word for word in rest if word != "/")
    return name == "forge" and len(rest) <= 1 and all(re.fullmatch(r"([0-9A-Fa-f]{2})*", word) for word in rest)


LINES = ["room 4", "nodes 0 0", "accept 0 0061 0302", "deliver 1 0", "save 1", "restart 1", "restart 1 0", "upgrade 0",
         "forget 0 0061 0302", "ask 1 0061 0302 / 0061", "forge 1 430000000141", "forge 0"]
WORDS = ["0", "9", "000000001", "999999999", "1234567890", "/", "-1", "+1", "D800", "DFFF", "10FFFF", "110000", "061", "0000061",
         "ab", "abc", "save", "#"]
NUMBERS = ["999999999", "1234567890"]


def changed(line, others):
    """A line with a word lost, doubled, exchanged with the next, or replaced, and with one more."""
    words = line.split()
    for at in range(len(words)):
        yield words[:at] + words[at + 1:]
        yield words[:at] + [words[at]] + words[at:]
        yield words[:at] + words[at:at + 2][::-1] + words[at + 2:]
        for word in others:
            yield words[:at] + [word] + words[at + 1:]
    for word in others:
        yield [*words, word]


def check_lines(tally, program, folder, lines, others, words):
    """Each line of a schedule changed in each way: it is refused at that line, or it isn't."""
    nodes, versions = len(lines[1].split()) - 1, len(words[3:]) // 2
    for number, line in enumerate(lines):
        for those in changed(line, others):
            if number == 1 and len(those) - 1 != nodes and stands(1, those, nodes, versions):
                continue  # other lines speak of so many nodes
            changes = [*lines[:number], " \t".join(those), *lines[number + 1:]]
            (folder / "schedule").write_text("\n".join(changes))
            status, _, err = run(program, ["replay", *words[:2], "schedule", *words[3:]], folder=folder)
            # A line without words, or that begins with '#', is skipped, and the next one stands in its place.
            data = [(at, text.split()) for at, text in enumerate(changes, 1) if text.split() and not text.startswith("#")]
            faulty = [at for place, (at, found) in enumerate(data) if not stands(place, found, nodes, versions)]
            want = (4, f"schedule: line {faulty[0]}\n".encode()) if faulty else (0, b"")
            tally.same(f"{words[2]} line {number + 1} as {' '.join(those)}", (status, err), want)


def check_schedules(tally, program, folder):
    """A schedule with each kind of event, and the scripts."""
    files = [FIXTURE / ucd.DATA, FIXTURE / ucd.EXCLUSIONS]
    check_lines(tally, program, folder, LINES, WORDS, ["--form", "nfc", "schedule", *files])
    for name, paths, form in SCRIPTS:
        lines = (ROOT / "fixtures" / "scripts" / f"{name}.schedule").read_text(encoding="utf-8").splitlines()
        check_lines(tally, program, folder, lines, NUMBERS,
                    ["--form", form, name, *(ROOT / "fixtures" / path for path in paths)])


def main():
    program = Path(sys.argv[1]).resolve()
    tally = Tally()
    with tempfile.TemporaryDirectory() as name:
        check_messages(tally, program, Path(name))
        check_schedules(tally, program, Path(name))
    tally.finish()


if __name__ == "__main__":
    main()
