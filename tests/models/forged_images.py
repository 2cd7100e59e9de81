#!/usr/bin/env python3
"""Cut and forged images: tests/models/forged_images.py [--write].

No command takes an image from outside, so a unit test hands them to `restore`: an image of four entries in each
layout is cut at every byte, each byte and each length and count is replaced by others, fields and entries are
exchanged, repeated and left out, and keys are told in another way. What each has to answer is judged here, from
docs/FORMATS.md and over the first fixture, apart from the crate. It stands as a text in a file of the test
for each layout; without --write the files are compared with it. Ends in a line 'N passed, M failed'.
"""

import sys
from itertools import groupby
from pathlib import Path
from textwrap import wrap

# Nothing is written into the tree but with --write.
sys.dont_write_bytecode = True
sys.path.insert(0, str(Path(__file__).resolve().parent.parent))

from program.forged import BYTES, LENGTHS, Version, field
from harness import ROOT, Tally

FOLDER = ROOT / "crates" / "np_examples_jobs" / "src" / "node"
FILES = {FOLDER / "first_forged.rt": "first", FOLDER / "second_forged.rt": "second"}
# Strings of the fixture, each with its normal form under NFC by hand.
ENTRIES = [("", ""), ("a\u0302", "\u00e2"), ("\u212b", "\u00c5"), ("A", "A")]
ROOM = 5
# How wide a line of the test's files is.
WIDTH = 115
FORMS = tuple(b"DCdc")
FORM = ord("C")
LONGEST = 65536
SAME, OTHER = b"\x00", b"\x01"


def number(value):
    return value.to_bytes(4, "big")


def entry(string, key, needs):
    """An entry, as the layout spells it that tells how many code points are needed, or the one that doesn't."""
    if needs is None:
        return field(string) + field(key)
    return field(string) + (SAME if key == string else OTHER + field(key))


def image_of(entries, needs, count=None):
    """The image of spelled entries: of the second layout where it tells how many code points it needs."""
    front = b"NPS1C" if needs is None else b"NPS2C" + number(needs)
    return front + number(len(entries) if count is None else count) + b"".join(entries)


class Malformed(Exception):
    """The place of the first field that isn't whole or isn't allowed, or of the first byte left over."""

    def __init__(self, at):
        super().__init__(at)
        self.at = at


class Reader:
    """An image that is read whole: how many code points it needs, or None, and each entry with its first byte's
    place, its string and its key. The places of its fields, numbers and markers are kept."""

    def __init__(self, image):
        self.image, self.at = image, 0
        self.fields, self.numbers, self.markers = [], [], []
        name = self.next_bytes(4)
        if name not in (b"NPS1", b"NPS2"):
            raise Malformed(0)
        self.form = self.next_bytes(1)[0]
        if self.form not in FORMS:
            raise Malformed(4)
        self.needs = self.number() if name == b"NPS2" else None
        count = self.number()
        self.entries = [self.entry() for _ in range(count)]
        if self.at < len(image):
            raise Malformed(self.at)

    def next_bytes(self, size):
        if len(self.image) < self.at + size:
            raise Malformed(self.at)
        self.fields.append(self.at)
        self.at += size
        return self.image[self.at - size:self.at]

    def number(self):
        value = int.from_bytes(self.next_bytes(4), "big")
        self.numbers.append(self.at - 4)
        return value

    def field(self):
        return self.next_bytes(self.number())

    def entry(self):
        first, string = self.at, self.field()
        return first, string, self.field() if self.needs is None else self.key(string)

    def key(self, string):
        place, marker = self.at, self.next_bytes(1)
        if marker not in (SAME, OTHER):
            raise Malformed(place)
        key = string if marker == SAME else self.field()
        if marker == OTHER and key == string:
            raise Malformed(place)
        self.markers.append((place, self.at, string, key))
        return key


def refusal(string, key, version):
    """Why an entry is refused for itself, or None."""
    if len(string) > LONGEST:
        return "too long: more than 65,536 bytes"
    try:
        text = string.decode()
    except UnicodeDecodeError as fault:
        return f"not UTF-8 at byte {fault.start}"
    for at, c in enumerate(text):
        if ord(c) not in version.assigned:
            return f"unassigned {ord(c):04X} at byte {len(text[:at].encode())}"
    return None if version.key(text).encode() == key else "key differs"


def answer(image, version):
    """What restoring answers, in the words of its fault; behind `restored` the image of the node, in hex digits."""
    try:
        found = Reader(image)
    except Malformed as fault:
        return f"malformed at byte {fault.at}"
    have = len(version.assigned)
    if found.form != FORM:
        return "another form"
    if found.needs is not None and found.needs > have:
        return f"older tables: need {found.needs} code points, have {have}"
    if len(found.entries) > ROOM:
        return "full"
    kept = set()
    for place, (at, string, key) in enumerate(found.entries):
        fault = refusal(string, key, version) or (f"malformed at byte {at}" if string in kept else None)
        if fault:
            return f"entry {place}: {fault}"
        kept.add(string)
    return f"restored {image_of([entry(string, key, have) for _, string, key in found.entries], have).hex()}"


def changed_bytes(image):
    """Each prefix, and each byte replaced by others: the place, how many bytes go, and those that come."""
    for at, byte in enumerate(image):
        yield at, len(image) - at, b""
        for other in sorted({*BYTES, (byte + 1) % 256, (byte - 1) % 256}):
            yield at, 1, bytes([other])


def changed_numbers(image):
    """Each count and each length, replaced by others."""
    for at in Reader(image).numbers:
        value = int.from_bytes(image[at:at + 4], "big")
        for other in sorted({*LENGTHS, max(value - 1, 0), value + 1}):
            yield at, 4, number(other)


def changed_keys(image):
    """What tells a key, replaced by what tells another, and by the string once more."""
    for at, end, string, key in Reader(image).markers:
        for other in (SAME, OTHER + field(string), OTHER + field(key + b"A"), OTHER + field(string)[:-1], b"\x02" + field(key)):
            yield at, end - at, other


def exchanged_fields(image):
    """Two fields exchanged: each with one of the next four, so with the next one of its kind too."""
    places = [*Reader(image).fields, len(image)]
    for first in range(len(places) - 1):
        for second in range(first + 1, min(first + 5, len(places) - 1)):
            begin, middle, behind, end = places[first], places[first + 1], places[second], places[second + 1]
            yield begin, end - begin, image[behind:end] + image[middle:behind] + image[begin:middle]


def changed_entries(needs):
    """An entry repeated, left out, with its string and key exchanged, or exchanged with the next, each under the
    count before and behind."""
    pairs = [(string.encode(), key.encode()) for string, key in ENTRIES]
    entries = [entry(*pair, needs) for pair in pairs]
    for at, (string, key) in enumerate(pairs):
        for lists in (entries + [entries[at]], entries[:at] + entries[at + 1:], entries + [entries[at]] * 2,
                      entries[:at] + [entry(key, string, needs)] + entries[at + 1:],
                      entries[:at] + entries[at:at + 2][::-1] + entries[at + 2:]):
            for count in (None, len(entries)):
                yield image_of(lists, needs, count)


def whole(needs):
    """The image of the entries."""
    return image_of([entry(string.encode(), key.encode(), needs) for string, key in ENTRIES], needs)


def change_to(image, other):
    """The change of the image that makes another of it: what both have at their fronts and at their ends stays."""
    front = next((at for at, (one, two) in enumerate(zip(image, other)) if one != two), min(len(image), len(other)))
    most = min(len(image), len(other)) - front
    end = next((at for at in range(most) if image[-1 - at] != other[-1 - at]), most)
    return front, len(image) - front - end, other[front:len(other) - end]


def changes(image, needs):
    """All of them, each once: the place, how many bytes go, those that come, and what comes of it."""
    seen = set()
    others = [change_to(image, other) for other in changed_entries(needs)]
    for at, gone, put in [*changed_bytes(image), *changed_numbers(image), *changed_keys(image), *exchanged_fields(image), *others]:
        made = image[:at] + put + image[at + gone:]
        if made not in seen:
            seen.add(made)
            yield at, gone, put, made


def answers(needs, version):
    """A row for each place and answer: the place, how many bytes go, those that come in hex (`-` for none, several
    ways divided by commas), and the answer."""
    rows = [((at, gone, answer(made, version)), put.hex()) for at, gone, put, made in changes(whole(needs), needs)]
    for (at, gone, answered), puts in groupby(rows, lambda row: row[0]):
        yield f"{at} {gone} {','.join(put or '-' for _, put in puts)} {answered}"


def wrapped(rows):
    """The rows with `; ` between them, as a literal of several lines, each of which ends in the space before a word."""
    return " \\\n".join(wrap("; ".join(rows), WIDTH, break_long_words=False, break_on_hyphens=False))


def texts():
    """The test's files, each with its text: an image and its answers, for each layout."""
    version = Version()
    count = len(version.assigned)
    for (path, layout), needs in zip(FILES.items(), (None, count)):
        rows = wrapped(answers(needs, version))
        yield path, f'''//! An image of four entries in the {layout} layout that is cut and forged, and what restoring answers, both under the
//! first fixture's version. `tests/models/forged_images.py` writes this file from the format alone.

/// The image, in hex digits.
pub const IMAGE: &str =
    "{whole(needs).hex()}";

/// A row for each change of the image, with `; ` between rows: the place, how many bytes go, those that come instead in
/// hex digits (`-` for none, several ways divided by commas), and what restoring with a room of {ROOM} answers; behind
/// `restored` the image of the node.
pub const ANSWERS: &str = "\\
{rows}";
'''


def check(tally):
    """The test's files are those that are made here."""
    for path, text in texts():
        tally.same(f"{path.relative_to(ROOT)}", path.read_text(encoding="utf-8"), text)


def main():
    if sys.argv[1:] == ["--write"]:
        for path, text in texts():
            path.write_text(text, encoding="utf-8")
        return
    tally = Tally()
    check(tally)
    tally.finish()


if __name__ == "__main__":
    main()
