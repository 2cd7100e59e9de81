"""What the two data files say, judged anew: a small reader of UnicodeData.txt and
CompositionExclusions.txt, and of the conditions on a version, that trusts nothing.

It is written from docs/FORMATS.md and docs/STANDARD.md alone, beside the program, so that the two
can be compared on files that were cut or forged. Bytes come in, and what comes out is the fault of
the program's line, or None.
"""

import re
from bisect import bisect_right
from functools import lru_cache
from typing import NamedTuple

CODE = re.compile(rb"[0-9A-Fa-f]{4,6}")
CATEGORY = re.compile(rb"[A-Za-z]{2}")
CLASS = re.compile(rb"[0-9]{1,3}")
TAGGED = re.compile(rb"<[^>]*> *")

LEADS, VOWELS, TAILS = range(0x1100, 0x1113), range(0x1161, 0x1176), range(0x11A8, 0x11C3)
SYLLABLES = range(0xAC00, 0xD7A4)
HANGUL = (LEADS, VOWELS, TAILS, SYLLABLES)

DEEPEST, LONGEST = 32, 64


class Record(NamedTuple):
    """A line of the data file: the first fault that it has by itself, or what it says."""

    faults: tuple
    code: int
    category: bytes
    combining: int
    kind: str
    mapping: tuple
    first: bool
    last: bool


class Row(NamedTuple):
    first: int
    last: int
    combining: int
    kind: str
    mapping: tuple


def lines_of(data):
    """The lines, each without one CR at its end; what stands behind the last LF is a line where it
    is not empty."""
    cut = data.split(b"\n")
    if cut[-1] == b"":
        cut.pop()
    return [line[:-1] if line.endswith(b"\r") else line for line in cut]


def is_skipped(line):
    return line.startswith(b"#") or not line.strip(b" \t")


def code_in(field):
    """The code point that 4 to 6 hex digits name, or None."""
    if not CODE.fullmatch(field):
        return None
    value = int(field, 16)
    return value if value <= 0x10FFFF else None


def is_surrogate(code):
    return 0xD800 <= code <= 0xDFFF


def mapping_in(field):
    """The kind and the code points of the field of the decomposition, or None."""
    field = field.strip(b" ")
    if not field:
        return "none", ()
    kind, most = "canonical", 2
    if field.startswith(b"<"):
        tag = TAGGED.match(field)
        if not tag:
            return None
        kind, most, field = "compatibility", 32, field[tag.end():]
    words = [word for word in field.split(b" ") if word]
    found = tuple(code_in(word) for word in words)
    if not 1 <= len(found) <= most or any(code is None or is_surrogate(code) for code in found):
        return None
    return kind, found


@lru_cache(maxsize=None)
def record_in(line):
    """A line as a record: which faults it has whatever stands before it."""
    fields = line.split(b";")
    if len(fields) != 15:
        return Record(("FieldCount",), 0, b"", 0, "none", (), False, False)
    faults = []
    code = code_in(fields[0])
    if code is None:
        faults.append("BadCode")
    if not CATEGORY.fullmatch(fields[2]) or fields[2] == b"Cn":
        faults.append("BadCategory")
    combining = int(fields[3]) if CLASS.fullmatch(fields[3]) else 255
    if combining > 254:
        faults.append("BadClass")
    mapping = mapping_in(fields[5])
    if mapping is None or (mapping[1] and code is not None and is_surrogate(code)):
        faults.append("BadMapping")
    kind, codes = mapping or ("none", ())
    return Record(tuple(faults), code or 0, fields[2], combining, kind, codes,
                  fields[1].endswith(b", First>"), fields[1].endswith(b", Last>"))


def fault_of(record, before):
    """The first fault that fits a record behind the one before, or None."""
    opened = before is not None and before.first
    tests = (
        ("FieldCount", "FieldCount" in record.faults),
        ("BadCode", "BadCode" in record.faults),
        ("OutOfOrder", before is not None and record.code <= before.code),
        ("BadCategory", "BadCategory" in record.faults),
        ("BadClass", "BadClass" in record.faults),
        ("BadMapping", "BadMapping" in record.faults),
        ("RangeOpen", opened and not record.last),
        ("RangeLone", record.last and not opened),
        ("RangeDiffers", record.last and opened
         and (record.category, record.combining) != (before.category, before.combining)),
        ("RangeMaps", (record.first or record.last) and bool(record.mapping)),
    )
    return next((name for name, fits in tests if fits), None)


def data_of(data):
    """The rows of a data file, or its first fault: line and name."""
    rows, before, last_line = [], None, 0
    for number, line in enumerate(lines_of(data), 1):
        if is_skipped(line):
            continue
        record = record_in(line)
        fault = fault_of(record, before)
        if fault:
            return None, (number, fault)
        if not record.first:
            first = before.code if record.last else record.code
            rows.append(Row(first, record.code, record.combining, record.kind, record.mapping))
        before, last_line = record, number
    if before is not None and before.first:
        return None, (last_line, "RangeOpen")
    return rows, None


@lru_cache(maxsize=None)
def span_in(line):
    """The first and last code point that a line of the exclusions lists, () for none, or None."""
    text = line.split(b"#")[0].strip(b" \t")
    if not text:
        return ()
    first, dots, last = text.partition(b"..")
    ends = code_in(first), code_in(last if dots else first)
    return None if None in ends or ends[0] > ends[1] else ends


def exclusions_of(data):
    """The spans of an exclusions file, or the number of its first bad line."""
    spans = []
    for number, line in enumerate(lines_of(data), 1):
        span = () if is_skipped(line) else span_in(line)
        if span is None:
            return None, (number, "BadCode")
        if span:
            spans.append(span)
    return spans, None


class Version:
    """The rows and exclusions of a version, and the least fault of its tables."""

    def __init__(self, rows, spans):
        self.rows, self.spans = rows, spans
        self.firsts = [row.first for row in rows]
        self.mapped = {row.first: row for row in rows if row.mapping}
        self.depths, self.lengths = {}, {}
        self.hangul = all(self.is_hangul_row(row) for row in self.hangul_parts())

    def row_at(self, code):
        place = bisect_right(self.firsts, code) - 1
        return self.rows[place] if place >= 0 and code <= self.rows[place].last else None

    def hangul_parts(self):
        """For each stretch of the syllables and jamo that one row has, or none has: its first code
        point and that row."""
        for block in HANGUL:
            code = block.start
            while code < block.stop:
                row = self.row_at(code)
                if row is None:
                    later = self.firsts[bisect_right(self.firsts, code):][:1]
                    following = min([block.stop, *later])
                else:
                    following = min(block.stop, row.last + 1)
                yield code, row
                code = following

    @staticmethod
    def is_hangul_row(part):
        row = part[1]
        return row is not None and row.combining == 0 and not row.mapping

    def hangul_fault(self):
        """The least syllable or jamo that is wrong, where some is assigned."""
        parts = sorted(self.hangul_parts(), key=lambda part: part[0])
        if not any(row for _, row in parts):
            return None
        return next((code for code, row in parts if not self.is_hangul_row((code, row))), None)

    def parts_of(self, code):
        """The mapping, with the syllables' pairs where the arithmetic is on."""
        if self.hangul and code in SYLLABLES:
            lead, rest = divmod(code - 0xAC00, 588)
            vowel, tail = divmod(rest, 28)
            return (code - tail, 0x11A7 + tail) if tail else (0x1100 + lead, 0x1161 + vowel)
        return self.mapped[code].mapping if code in self.mapped else ()

    def depth(self, code, above=0):
        """How deep a code point's mapping goes, at most one more than is allowed."""
        if above > DEEPEST:
            return 1
        if code not in self.depths or above == 0:
            parts = self.parts_of(code)
            found = 1 + max(self.depth(part, above + 1) for part in parts) if parts else 0
            if above == 0:
                self.depths[code] = found
            return found
        return self.depths[code]

    def length(self, code):
        """How many code points the full compatibility decomposition has; nothing in it is too deep."""
        if code not in self.lengths:
            parts = self.parts_of(code)
            self.lengths[code] = sum(map(self.length, parts)) if parts else 1
        return self.lengths[code]

    def is_primary(self, code):
        row = self.mapped.get(code)
        if row is None or row.kind != "canonical" or len(row.mapping) != 2 or row.combining:
            return False
        first = self.row_at(row.mapping[0])
        listed = any(low <= code <= high for low, high in self.spans)
        return not listed and (first is None or first.combining == 0)

    def ambiguous(self):
        """The code points whose pair a smaller primary composite has."""
        found, pairs = [], {}
        for code in sorted(filter(self.is_primary, self.mapped)):
            pair = self.mapped[code].mapping
            if pair in pairs:
                found.append(code)
            pairs.setdefault(pair, code)
            syllable = self.syllable(*pair)
            if syllable is not None:
                found.append(max(code, syllable))
        return found

    def syllable(self, first, second):
        """The syllable with this pair, where the arithmetic is on."""
        if not self.hangul:
            return None
        if first in LEADS and second in VOWELS:
            return 0xAC00 + ((first - 0x1100) * 21 + second - 0x1161) * 28
        if first in SYLLABLES and (first - 0xAC00) % 28 == 0 and second in TAILS:
            return first + second - 0x11A7
        return None

    def fault(self):
        """The fault at the least code point, and of those there the first; None where there is none."""
        faults = []
        for code in self.mapped:
            if any(self.row_at(part) is None for part in self.parts_of(code)):
                faults.append((code, 1, "MapsToUnassigned"))
            if self.depth(code) > DEEPEST:
                faults.append((code, 2, "TooDeep"))
            elif self.length(code) > LONGEST:
                faults.append((code, 3, "TooLong"))
        faults += [(code, 4, "AmbiguousPair") for code in self.ambiguous()]
        wrong = self.hangul_fault()
        if wrong is not None:
            faults.append((wrong, 5, "HangulWrong"))
        return min(faults)[::2] if faults else None


    def is_composite(self, code):
        """Whether a code point is a primary composite, syllables of the arithmetic among them."""
        return self.is_primary(code) or (self.hangul and code in SYLLABLES)

    def are_parts_assigned(self, parts):
        return all(self.row_at(part) is not None for part in parts)


def break_at(code, old, new):
    """How a later version breaks an earlier one at a code point, or None."""
    before, after = old.row_at(code), new.row_at(code)
    if before and not after:
        return "Lost"
    if before and before.combining != after.combining:
        return "ClassChanged"
    if before and before[3:] != after[3:]:
        return "MappingChanged"
    if old.is_composite(code) and not new.is_composite(code):
        return "NowExcluded"
    if new.is_composite(code) and not old.is_composite(code) and old.are_parts_assigned(new.parts_of(code)):
        return "NowIncluded" if before else "NewComposite"
    return None


def breaks_of(old, new):
    """The lines of the breaks between two versions: at code points whose rows differ, or that have a mapping."""
    rows = set(old.rows) ^ set(new.rows)
    codes = {code for row in rows for code in range(row.first, row.last + 1)} | old.mapped.keys() | new.mapped.keys()
    found = ((code, break_at(code, old, new)) for code in sorted(codes))
    return "".join(f"{kind} {code:04X}\n" for code, kind in found if kind)


def version_of(data, exclusions):
    """The version of two files; or the line that the program says of them."""
    rows, fault = data_of(data)
    if fault:
        return None, f"version 0 data: line {fault[0]}: {fault[1]}\n"
    spans, fault = exclusions_of(exclusions)
    if fault:
        return None, f"version 0 exclusions: line {fault[0]}: {fault[1]}\n"
    version = Version(rows, spans)
    fault = version.fault()
    if fault:
        return None, f"version 0 tables: {fault[1]} {fault[0]:04X}\n"
    return version, ""
