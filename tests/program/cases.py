"""The cases of the end-to-end tests: words, input, and what the program has to answer."""

from dataclasses import dataclass

from harness import ROOT
from versions import BAD_DATA, BAD_TABLES, EXCLUSIONS, LIMIT, ODD_NAMES, S, V1, V2, good_files

# The usage text is that of the stored run, which tests/repository/fixtures.py compares with docs/FORMATS.md.
USAGE = (ROOT / "crates" / "npss" / "stdout").read_text(encoding="utf-8")

# Statuses.
DIFFERENT, WRONG_WORDS, UNASSIGNED, BAD_TEXT, DEVICE = 1, 2, 3, 4, 5


@dataclass
class Case:
    """One run: its words, its input, and what it has to write and answer."""

    words: list
    stdin: bytes = b""
    out: bytes = b""
    err: str = ""
    status: int = 0

    def name(self):
        return f"{' '.join(self.words)} < {self.stdin[:40]!r}"


def text(codes):
    """The bytes of a string that is written as code points."""
    return "".join(chr(int(code, 16)) for code in codes.split()).encode("utf-8")


# A version, the form or forms, a string and its form.
FORM_ROWS = [
    (V1, "nfd nfc nfkd nfkc", "", ""),
    (V1, "nfd nfkd", "0061 0302 0323", "0061 0323 0302"),
    (V1, "nfc nfkc", "0061 0302 0323", "1EAD"),
    (V1, "nfd nfkd", "212B", "0041 030A"),
    (V1, "nfc nfkc", "212B", "00C5"),
    (V1, "nfc", "0344", "0308 0301"),
    (V1, "nfc", "0958", "0915 093C"),
    (V1, "nfc", "0061 0301 0302", "0061 0301 0302"),
    (V1, "nfc", "0041 0327 030A", "00C5 0327"),
    (S, "nfc", "0041 0323 030A", "00C5 0323"),
    (S, "nfc", "F000", "00C5 0323"),
    (V1, "nfd nfc", "FB01", "FB01"),
    (V1, "nfkd nfkc", "FB01", "0066 0069"),
    (V1, "nfd nfkd", "D4DB", "1111 1171 11B6"),
    (V1, "nfc nfkc", "1111 1171 11B6", "D4DB"),
    (V1, "nfc", "AC00 11A7", "AC00 11A7"),
    (V1, "nfc", "AC00 11A8", "AC01"),
    (V1, "nfc", "AC01 11A8", "AC01 11A8"),
    (V1, "nfc", "E000", "E000"),
    (V2, "nfc", "E000", "E000"),
    (V2, "nfc", "0041 16D67", "0041 16D67"),
    (V2, "nfc", "16D67 16D67 16D67", "16D68 16D67"),
    (V2, "nfc", "16D63 16D67 16D67", "16D6A"),
    (("new-composite.data", V1[1]), "nfc", "0041 0301", "00C1"),
    (("new-composite.data", "with-00c1.excl"), "nfc", "0041 0301", "0041 0301"),
    (("chain-of-32.data", "empty"), "nfd", "0100", "0120"),
    (("just-not-too-long.data", "empty"), "nfkd", "0063", " ".join(["0061"] * 64)),
]

# Strings at which a wrong definition would be seen: the form or forms under a version, worked out by hand.
GRAVE = ("composite-of-old-and-new.data", V1[1])
LAST = ("with-last.data", V1[1])
WORKED_ROWS = [
    # the least and the greatest of the pairs
    (V1, "nfc nfkc", "0041 030A", "00C5"),
    (V1, "nfc nfkc", "1EA1 0302", "1EAD"),
    (V1, "nfc nfkc", "0061 0302", "00E2"),
    # two non-starters of one class of which the first composes
    (V1, "nfd nfkd", "0061 0302 0301", "0061 0302 0301"),
    (V1, "nfc nfkc", "0061 0302 0301", "00E2 0301"),
    # a pair that no version before had, and one that this version excludes
    (V1, "nfc", "0041 0301", "0041 0301"),
    (("new-composite.data", "with-00c1.excl"), "nfd nfc", "00C1", "0041 0301"),
    # a non-starter between two starters that compose
    (GRAVE, "nfd nfc nfkd nfkc", "1100 0300 1161", "1100 0300 1161"),
    (GRAVE, "nfc", "AC00 0300 11A8", "AC00 0300 11A8"),
    # a run of non-starters before a starter that composes with nothing, with a starter before it and without
    (V1, "nfd nfc nfkd nfkc", "0302 0323 0066", "0323 0302 0066"),
    (V1, "nfc", "0061 0302 0323 0066 0061", "1EAD 0066 0061"),
    # the last trailing consonant and the last syllable
    (V1, "nfc nfkc", "1100 1161 11C2", "AC1B"),
    (V1, "nfc", "AC00 11C2", "AC1B"),
    (V1, "nfd", "D7A3", "1112 1175 11C2"),
    (V1, "nfc", "1112 1175 11C2", "D7A3"),
    # the last code point
    (LAST, "nfd nfc nfkd nfkc", "0061 10FFFF 0302", "0061 10FFFF 0302"),
]

# A version, a form and a string that `normalize` leaves as it is, and the refusal of `key`.
UNASSIGNED_ROWS = [
    (V1, "nfc", "0041 16D67", "unassigned 16D67 at byte 1"),
    (V1, "nfc", "16D6A", "unassigned 16D6A at byte 0"),
    (V1, "nfd", "FFFE", "unassigned FFFE at byte 0"),
    (V2, "nfd", "FFFE", "unassigned FFFE at byte 0"),
    (V1, "nfkc", "10FFFF", "unassigned 10FFFF at byte 0"),
    (V1, "nfd", "0061 000A", "unassigned 000A at byte 1"),
    (V1, "nfc", "00C5 0062 0063", "unassigned 0062 at byte 2"),
    (S, "nfd", "AC00", "unassigned AC00 at byte 0"),
    (("empty", "empty"), "nfc", "0061", "unassigned 0061 at byte 0"),
]

# Input that is not UTF-8, and the length of its longest valid prefix, which is its own NFC.
NOT_UTF8 = [
    ("80", 0), ("61bf", 1), ("c080", 0), ("61c1bf", 1), ("e08080", 0), ("e09fbf", 0),
    ("f0808080", 0), ("f08fbfbf", 0), ("eda080", 0), ("61edbfbf", 1), ("f4908080", 0),
    ("f5808080", 0), ("ff", 0), ("61fe62", 1), ("61ff62", 1), ("61cc", 1), ("61e1ba", 1),
    ("f096b5", 0), ("c3a2f096", 2), ("c3a2c361", 2), ("cc820ac3", 3), ("e1baade1ba41", 3),
] + [(f"61{byte:02x}808080", 1) for byte in range(0xF5, 0x100)]
# What `normalize` writes of it before it is refused: the form up to its last starter, where the end
# of the input is what cuts a character; nothing else of these has two starters.
CUT_BY_THE_END = {"cc820ac3": "cc82"}

# The input of `compare` under V1: the form, bytes, output, error and status.
COMPARE_ROWS = [
    ("nfc", b"\xef\xac\x81\nfi\n", "different", "", DIFFERENT),
    ("nfd", b"\xef\xac\x81\nfi\n", "different", "", DIFFERENT),
    ("nfkc", b"\xef\xac\x81\nfi\n", "equal", "", 0),
    ("nfkd", b"\xef\xac\x81\nfi\n", "equal", "", 0),
    ("nfc", b"A\xcc\x8a\n\xe2\x84\xab", "equal", "", 0),
    ("nfd", b"A\xcc\x8a\n\xe2\x84\xab\n", "equal", "", 0),
    ("nfc", b"A\na\n", "different", "", DIFFERENT),
    ("nfc", b"\n", "equal", "", 0),
    ("nfc", b"\n\n", "equal", "", 0),
    ("nfc", b"", "", "input: two lines wanted", BAD_TEXT),
    ("nfc", b"a", "", "input: two lines wanted", BAD_TEXT),
    ("nfc", b"b", "", "input: two lines wanted", BAD_TEXT),
    # a text and its prefix, either way round
    ("nfc", b"Aa\nA\n", "different", "", DIFFERENT),
    ("nfkd", b"A\nAa\n", "different", "", DIFFERENT),
    # two equal strings that aren't assigned
    ("nfc", b"b\nb\n", "", "first: unassigned 0062 at byte 0", UNASSIGNED),
    # a last line with CR, with and without a line end behind it
    ("nfc", b"a\na\r", "", "second: unassigned 000D at byte 1", UNASSIGNED),
    ("nfc", b"a\na\r\n", "", "second: unassigned 000D at byte 1", UNASSIGNED),
    ("nfc", b"a\n\n\n", "", "second: unassigned 000A at byte 0", UNASSIGNED),
    ("nfc", b"ab\nb", "", "first: unassigned 0062 at byte 1", UNASSIGNED),
    ("nfc", b"a\nab\n", "", "second: unassigned 0062 at byte 1", UNASSIGNED),
    ("nfc", b"a\r\na\n", "", "first: unassigned 000D at byte 1", UNASSIGNED),
    ("nfc", b"b\n\xff", "", "input: not UTF-8 at byte 2", BAD_TEXT),
]

LOST = "".join(f"Lost {code}\n" for code in ("1DFA", "16D63", "16D67", "16D68", "16D69", "16D6A"))

# Two versions and the breaks between them.
AUDIT_ROWS = [
    (V1, V1, ""),
    (V1, V2, ""),
    (("empty", "empty"), V1, ""),
    (V2, V1, LOST),
    (V1, ("new-composite.data", V1[1]), "NewComposite 00C1\n"),
    (V1, ("new-composite.data", "with-00c1.excl"), ""),
    (V1, ("other-class.data", V1[1]), "ClassChanged 0323\n"),
    (V1, (V1[0], "empty"), "NowIncluded 0958\n"),
    ((V1[0], "empty"), V1, "NowExcluded 0958\n"),
    (V1, ("other-mapping.data", V1[1]), "MappingChanged FB01\n"),
    (V1, ("lower-class.data", V1[1]), "ClassChanged 0302\n"),
    (V1, ("canonical-to-compatibility.data", V1[1]), "MappingChanged 00E2\n"),
    (V1, ("mapping-of-equal-length.data", V1[1]), "MappingChanged 00E2\n"),
    (V1, GRAVE, ""),
    (GRAVE, V1, "Lost 00C0\nLost 0300\n"),
    (V1, LAST, ""),
    (LAST, V1, "Lost 10FFFF\n"),
    (LAST, ("last-with-class.data", V1[1]), "ClassChanged 10FFFF\n"),
    # more breaks than half a million
    (("many.data", "empty"), ("empty", "empty"),
     "".join(f"Lost {code:04X}\n" for code in range(0x20000, 0xA0000))),
]


# What V1 has of keys under V2: the form, the string and the line.
UNDER_ROWS = [
    ("nfc", "0061 0302 0323", "own form"),
    ("nfc", "", "own form"),
    ("nfc", "16D67 16D67", "own form, unassigned 16D68 at byte 0"),
    # the place in the key, where the string has it a byte later
    ("nfc", "0061 0302 16D67", "own form, unassigned 16D67 at byte 2"),
    ("nfd", "16D6A", "own form, unassigned 16D63 at byte 0"),
    ("nfkc", "FB01 1DFA 16D67", "own form, unassigned 1DFA at byte 2"),
]

# Their keys.
KEYS_OF_UNDER_ROWS = {
    ("nfc", "0061 0302 0323"): "1EAD",
    ("nfc", ""): "",
    ("nfc", "16D67 16D67"): "16D68",
    ("nfc", "0061 0302 16D67"): "00E2 16D67",
    ("nfd", "16D6A"): "16D63 16D67 16D67",
    ("nfkc", "FB01 1DFA 16D67"): "0066 0069 1DFA 16D67",
}


def refused(words, line, status, stdin=b"a"):
    """A case in which one line is written, to standard error."""
    return Case(words, stdin, b"", line + "\n", status)


def usage_cases():
    """No words at all, and words that ask for nothing that there is."""
    yield Case([], out=USAGE.encode())
    wrong = ["--help", "-h", "help", "--version", "help key", "key --help", "key", "nothing", "--",
             "key --form nfx D E", "key --form NFC D E", "key D E", "key --form nfc D",
             "key --form nfc D E F", "key --form nfc --form nfc D E", "audit A B C",
             "key --form nfc A B C D", "key --check-under A B C D", "key --form nfc --check-under A B",
             "key --form nfc --check-under A B C", "key --form nfc --check-under A B C D E",
             "key --form nfc --check-under --check-under A B C D", "key --form nfc --check-under=true A B C D",
             "audit A B C D E", "audit A B --form nfc C D", "compare --form nfc D", "normalize --form nfc"]
    for words in wrong:
        yield Case(words.split(), err=USAGE, status=WRONG_WORDS)


def word_cases():
    """Words in other orders: options stand anywhere among the places of a command."""
    given, wanted = text("0061 0302 0323"), text("1EAD")
    for words in (["--form", "nfc", *V1], [*V1, "--form", "nfc"], [V1[0], "--form", "nfc", V1[1]],
                  ["--form=nfc", *V1], ["--form", "nfc", "--", *V1]):
        yield Case(["key", *words], given, wanted)
    # one file may be named twice
    yield Case(["audit", *V1, *V1], out=b"extends\n")


def name_cases():
    """A file is opened by its name as it stands in the words, with blanks, line ends and slashes at its ends."""
    given, wanted = text("0061 0302 0323"), text("1EAD")
    for data, exclusions in ODD_NAMES:
        yield Case(["key", "--form", "nfc", "--", data, exclusions], given, wanted)
        yield Case(["audit", "--", data, exclusions, *V2], out=b"extends\n")
        yield Case(["audit", "--", *V2, data, exclusions], out=LOST.encode(), status=DIFFERENT)
    for name in (" v1/UnicodeData.txt", "v1/UnicodeData.txt ", "v1/UnicodeData.txt\n", "v1/UnicodeData.txt/"):
        yield refused(["key", "--form", "nfc", name, V1[1]], f"cannot open {name}", DEVICE)
        yield refused(["key", "--form", "nfc", V1[0], name], f"cannot open {name}", DEVICE)
    # of two that don't open the first is told
    yield refused(["key", "--form", "nfc", "nothing", "never"], "cannot open nothing", DEVICE)
    yield refused(["audit", V1[0], "nothing", "never", V1[1]], "cannot open nothing", DEVICE)


def under_cases():
    """Keys under an earlier version: the flag and the form at each place, and what is refused in which order."""
    files = [*V1, *V2]
    for form, given, line in UNDER_ROWS:
        out = (line + "\n").encode()
        for place in range(len(files) + 1):
            words = [*files[:place], "--check-under", *files[place:]]
            yield Case(["key", "--form", form, *words], text(given), out)
            yield Case(["key", *words[:place], "--form", form, *words[place:]], text(given), out)
    words = ["key", "--form", "nfc", "--check-under"]
    yield refused([*words, *V1, *V2], "unassigned FFFE at byte 0", UNASSIGNED, text("FFFE"))
    yield refused([*words, *V1, *V2], "input: not UTF-8 at byte 1", BAD_TEXT, b"a\xff")
    yield refused([*words, *V1, *V2], "input: TooLarge", BAD_TEXT, b"a" * (LIMIT + 1))
    # files are opened first, and versions read in order; the pair is looked at before the input
    broken = "not an extension: version 1"
    for given in (b"a", b"\xff"):
        yield refused([*words, *V2, *V1], f"{broken} Lost 1DFA", DIFFERENT, given)
    yield refused([*words, *V1, "new-composite.data", V1[1]], f"{broken} NewComposite 00C1", DIFFERENT)
    yield refused([*words, *V1, V1[0], "empty"], f"{broken} NowIncluded 0958", DIFFERENT)
    for place in range(len(files)):
        missing = [*files[:place], "nothing", *files[place + 1:]]
        yield refused([*words, *missing], "cannot open nothing", DEVICE)
        behind = ["page.bad", *files[1:place], "nothing", *files[place + 1:]] if place else missing
        yield refused([*words, *behind], "cannot open nothing", DEVICE)
    yield refused([*words, "page.bad", "falling.excl", "page.bad", V1[1]], "version 0 data: line 1: FieldCount", BAD_TEXT)
    yield refused([*words, *V2, "page.bad", "falling.excl"], "version 1 data: line 1: FieldCount", BAD_TEXT)
    yield refused([*words, "one-jamo.data", V1[1], "page.bad", V1[1]], "version 0 tables: HangulWrong 1101", BAD_TEXT)
    # the key is its own form under both versions
    for form, given, _ in UNDER_ROWS:
        key = text(KEYS_OF_UNDER_ROWS[form, given])
        for version in (V1, V2):
            yield Case(["normalize", "--form", form, *version], key, key)
        yield Case(["key", "--form", form, *V2], text(given), key)


def form_cases():
    """Forms and keys of worked strings."""
    for version, forms, given, wanted in FORM_ROWS:
        for form in forms.split():
            for command in ("key", "normalize"):
                yield Case([command, "--form", form, *version], text(given), text(wanted))
    for version, form, given, refusal in UNASSIGNED_ROWS:
        yield Case(["normalize", "--form", form, *version], text(given), text(given))
        yield refused(["key", "--form", form, *version], refusal, UNASSIGNED, text(given))


def worked_cases():
    """Forms worked out by hand; and a place behind code points that are longer in their form."""
    for version, forms, given, wanted in WORKED_ROWS:
        for form in forms.split():
            for command in ("key", "normalize"):
                yield Case([command, "--form", form, *version], text(given), text(wanted))
    words = ["--form", "nfd", *V1]
    yield refused(["key", *words], "unassigned 0062 at byte 4", UNASSIGNED, text("00C5 00E2 0062"))
    yield Case(["normalize", *words], text("00C5 00E2 0062"), text("0041 030A 0061 0302 0062"))


def input_cases():
    """Input that is not UTF-8 or too large."""
    for codes, at in NOT_UTF8:
        given = bytes.fromhex(codes)
        line = f"input: not UTF-8 at byte {at}"
        yield refused(["key", "--form", "nfc", *V1], line, BAD_TEXT, given)
        yield refused(["compare", "--form", "nfc", *V1], line, BAD_TEXT, given)
        written = bytes.fromhex(CUT_BY_THE_END.get(codes, ""))
        yield Case(["normalize", "--form", "nfc", *V1], given, written, line + "\n", BAD_TEXT)
    full = b"a" * LIMIT
    yield Case(["key", "--form", "nfc", *V1], full, full)
    yield Case(["normalize", "--form", "nfc", *V1], full, full)
    yield refused(["key", "--form", "nfc", *V1], "input: TooLarge", BAD_TEXT, full + b"a")
    yield refused(["key", "--form", "nfc", *V1], "input: TooLarge", BAD_TEXT, full + b"\xff")
    # a form that is longer than an input may be
    rings = text("00C5") * (LIMIT // 2)
    yield Case(["key", "--form", "nfd", *V1], rings, text("0041 030A") * (LIMIT // 2))
    yield Case(["normalize", "--form", "nfd", *V1], rings, text("0041 030A") * (LIMIT // 2))
    half = b"a" * (LIMIT // 2 - 1)
    yield Case(["compare", "--form", "nfc", *V1], half + b"\n" + half + b"\n", b"equal\n")
    yield refused(["compare", "--form", "nfc", *V1], "input: TooLarge", BAD_TEXT, full + b"\n")
    # `normalize` reads on where the others stop
    yield Case(["normalize", "--form", "nfc", *V1], full + b"a", full + b"a")


def compare_cases():
    for form, given, out, err, status in COMPARE_ROWS:
        out, err = (line and line + "\n" for line in (out, err))
        yield Case(["compare", "--form", form, *V1], given, out.encode(), err, status)


def audit_cases():
    for old, new, breaks in AUDIT_ROWS:
        out = breaks or "extends\n"
        yield Case(["audit", *old, *new], out=out.encode(), status=DIFFERENT if breaks else 0)


def refusals(files, line, status):
    """A version that is refused, as the one version of a command and as either one of `audit`."""
    for command in ("key", "normalize", "compare"):
        yield refused([command, "--form", "nfd", *files], line.replace("K", "0", 1), status, b"a\na")
    yield refused(["audit", *files, *V1], line.replace("K", "0", 1), status)
    yield refused(["audit", *V1, *files], line.replace("K", "1", 1), status)


def file_cases():
    """Files as a user may have them, right and wrong."""
    for name in good_files(""):
        if name != "crlf":
            yield Case(["key", "--form", "nfd", f"{name}.data", "empty"], b"a", b"a")
    yield Case(["key", "--form", "nfc", "crlf.data", V1[1]], text("0061 0302 0323"), text("1EAD"))
    for name, _, line, fault in BAD_DATA:
        yield from refusals((f"{name}.bad", V1[1]), f"version K data: line {line}: {fault}", BAD_TEXT)
    for name, _, line in EXCLUSIONS:
        if line is None:
            yield Case(["key", "--form", "nfd", V1[0], f"{name}.excl"], b"a", b"a")
        else:
            yield from refusals((V1[0], f"{name}.excl"),
                                f"version K exclusions: line {line}: BadCode", BAD_TEXT)
    for name, fault in BAD_TABLES:
        yield from refusals((f"{name}.data", "empty"), f"version K tables: {fault}", BAD_TEXT)
    yield Case(["key", "--form", "nfd", V1[0], "comments-at-limit"], b"a", b"a")
    yield from refusals(("too-large", V1[1]), "version K data: TooLarge", BAD_TEXT)
    yield from refusals((V1[0], "too-large"), "version K exclusions: TooLarge", BAD_TEXT)
    yield from refusals(("folder", V1[1]), "version K data: ReadFailed", DEVICE)
    yield from refusals((V1[0], "folder"), "version K exclusions: ReadFailed", DEVICE)
    yield from refusals(("nothing", V1[1]), "cannot open nothing", DEVICE)
    yield from refusals((V1[0], "v1/nothing"), "cannot open v1/nothing", DEVICE)


def order_cases():
    """Where several things are wrong, the first of the order is told."""
    yield refused(["key", "--form", "nfd", "page.bad", "nothing"], "cannot open nothing", DEVICE)
    yield refused(["audit", "nothing", "page.bad", "never", V1[1]], "cannot open nothing", DEVICE)
    yield refused(["audit", "page.bad", V1[1], V1[0], "nothing"], "cannot open nothing", DEVICE)
    yield refused(["key", "--form", "nfd", "page.bad", "falling.excl"],
                  "version 0 data: line 1: FieldCount", BAD_TEXT)
    yield refused(["key", "--form", "nfd", "one-jamo.data", "falling.excl"],
                  "version 0 exclusions: line 1: BadCode", BAD_TEXT)
    yield refused(["audit", "one-jamo.data", V1[1], "page.bad", V1[1]],
                  "version 0 tables: HangulWrong 1101", BAD_TEXT)
    yield refused(["key", "--form", "nfd", "one-jamo.data", V1[1]],
                  "version 0 tables: HangulWrong 1101", BAD_TEXT, b"\xff")
    yield refused(["key", "--form", "nfd", *V1], "input: not UTF-8 at byte 1", BAD_TEXT, b"b\xff")


def all_cases():
    """All of them."""
    for group in (usage_cases, word_cases, name_cases, under_cases, form_cases, worked_cases, input_cases, compare_cases, audit_cases,
                  file_cases, order_cases):
        yield from group()
