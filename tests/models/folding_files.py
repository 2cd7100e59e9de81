"""What CaseFolding.txt says beside its version, judged anew: a small reader of it, of lowercases and of the five conditions.

It is written from docs/FORMATS.md and docs/STANDARD.md alone, beside the program, as data_files.py is, whose version it takes.
"""

import re

from models import data_files

STATUSES = (b"C", b"F", b"S", b"T")
LONGEST = 64


def record_of(line):
    """The fields of a line without its comment, or None where nothing is left."""
    text = line.split(b"#", 1)[0].strip(b" \t")
    return [field.strip(b" \t") for field in text.split(b";")] if text else None


def mapping_of(field):
    """The codes of a mapping, None where one of them is none or a surrogate."""
    codes = [data_files.code_in(word) for word in re.split(rb" +", field)]
    return None if any(code is None or data_files.is_surrogate(code) for code in codes) else tuple(codes)


def conflicts(status, code, before):
    """Whether a status can't stand behind the record before."""
    if status == b"F":
        return before == (code, b"C")
    return status == b"S" and before != (code, b"F")


def fault_of(fields, before):
    """The first fault of a record behind the one before, or None."""
    if len(fields) != 4 or fields[3]:
        return "FieldCount"
    code, status = data_files.code_in(fields[0]), fields[1]
    if code is None:
        return "BadCode"
    if status not in STATUSES:
        return "BadStatus"
    if before and (code, STATUSES.index(status)) <= (before[0], STATUSES.index(before[1])):
        return "OutOfOrder"
    if conflicts(status, code, before):
        return "StatusConflict"
    mapping, counts = mapping_of(fields[2]), range(2, 33) if status == b"F" else range(1, 2)
    return "BadMapping" if mapping is None or len(mapping) not in counts or data_files.is_surrogate(code) else None


def foldings_of(data):
    """What folds, to what; or the line and the name of the first fault."""
    found, before = {}, None
    for number, line in enumerate(data_files.lines_of(data), 1):
        fields = record_of(line)
        if fields is None:
            continue
        fault = fault_of(fields, before)
        if fault:
            return None, (number, fault)
        code = data_files.code_in(fields[0])
        if fields[1] in (b"C", b"F") and mapping_of(fields[2]) != (code,):
            found[code] = mapping_of(fields[2])
        before = (code, fields[1])
    return found, None


def lowercases_of(data):
    """The lowercase of each code point that has one, of the bytes of a data file without a fault."""
    found = {}
    for line in data_files.lines_of(data):
        if data_files.is_skipped(line):
            continue
        fields = line.split(b";")
        lower = data_files.code_in(fields[13].strip(b" "))
        if lower is not None and not fields[1].endswith((b", First>", b", Last>")):
            found[int(fields[0], 16)] = lower
    return found


class Decompositions:
    """The full decompositions of a version, each made once."""

    def __init__(self, version):
        self.version, self.fulls = version, {}

    def kind(self, code):
        """The kind of the mapping; that of a syllable of the arithmetic is canonical."""
        if self.version.hangul and code in data_files.SYLLABLES:
            return "canonical"
        row = self.version.mapped.get(code)
        return row.kind if row else "none"

    def full(self, code, compat):
        """The full decomposition of a code point."""
        if (code, compat) not in self.fulls:
            maps = self.kind(code) == "canonical" or (compat and self.kind(code) == "compatibility")
            parts = self.version.parts_of(code) if maps else ()
            self.fulls[code, compat] = [deep for part in parts for deep in self.full(part, compat)] if parts else [code]
        return self.fulls[code, compat]

    def decomposed(self, codes, compat):
        return [part for code in codes for part in self.full(code, compat)]


class Folded:
    """A version with its lowercases and a folding."""

    def __init__(self, decompositions, lowercases, foldings):
        self.decompositions, self.lowercases, self.foldings = decompositions, lowercases, foldings
        self.version, self.decomposed = decompositions.version, decompositions.decomposed

    def is_assigned(self, code):
        return self.version.row_at(code) is not None

    def fold(self, codes):
        return [part for code in codes for part in self.foldings.get(code, (code,))]

    def folds_again(self, code):
        """Whether condition 3 is broken at a code point that folds."""
        folded, kind = self.foldings[code], self.decompositions.kind(code)
        return ((kind != "canonical" and any(part in self.foldings for part in self.decomposed(folded, False)))
                or (kind == "none" and any(part in self.foldings for part in self.decomposed(folded, True))))

    def is_too_long(self, code):
        once = self.fold(self.decomposed([code], False))
        twice = self.fold(self.decomposed(once, True))
        return len(self.decomposed(twice, True)) > LONGEST

    def lacks_folding(self, code):
        lower = self.lowercases.get(code)
        return lower not in (None, code) and self.is_assigned(lower) and code not in self.foldings and lower not in self.foldings

    def candidates(self):
        """All code points at which a condition can be broken."""
        syllables = data_files.SYLLABLES if self.version.hangul and any(code in self.foldings for part in data_files.HANGUL for code in part) else ()
        return {*self.foldings, *self.version.mapped, *self.lowercases, *syllables}

    def faults_at(self, code):
        """The names of the faults at a code point, in the order of their numbers."""
        folds = code in self.foldings
        tests = (
            ("FoldsUnassigned", folds and not self.is_assigned(code)),
            ("FoldsToUnassigned", folds and not all(map(self.is_assigned, self.foldings[code]))),
            ("FoldsAgain", folds and self.folds_again(code)),
            ("FoldedTooLong", self.is_too_long(code)),
            ("NotFolded", self.lacks_folding(code)),
        )
        return [name for name, fits in tests if fits]

    def fault(self):
        """The code point and the name of the fault that is told, or None."""
        for code in sorted(self.candidates()):
            faults = self.faults_at(code)
            if faults:
                return code, faults[0]
        return None

    def ordered(self, codes):
        """The codes with each run of non-starters in the order of their classes."""
        out, run = [], []
        for code in codes:
            row = self.version.row_at(code)
            if row and row.combining:
                run.append((row.combining, code))
            else:
                out += [one for _, one in sorted(run, key=lambda pair: pair[0])] + [code]
                run = []
        return out + [one for _, one in sorted(run, key=lambda pair: pair[0])]

    def caseless_nfd(self, codes):
        """The caseless NFD form (D145)."""
        folded = self.fold(self.ordered(self.decomposed(codes, False)))
        return self.ordered(self.decomposed(folded, False))


def folded_of(decompositions, lowercases, data, number=0):
    """The version of these decompositions with the folding of these bytes; or the line that the program says of them."""
    foldings, fault = foldings_of(data)
    if fault:
        return None, f"version {number} folding: line {fault[0]}: {fault[1]}\n"
    folded = Folded(decompositions, lowercases, foldings)
    fault = folded.fault()
    if fault:
        return None, f"version {number} folding: {fault[1]} {fault[0]:04X}\n"
    return folded, ""
