"""The files that the end-to-end tests name: the fixtures, versions made from them, and bad files."""

# The fixtures, as files under fixtures/: data, exclusions.
V1 = ("v1/UnicodeData.txt", "v1/CompositionExclusions.txt")
V2 = ("v2/UnicodeData.txt", "v2/CompositionExclusions.txt")
S = ("s/UnicodeData.txt", "s/CompositionExclusions.txt")

# The most bytes that a data file, an exclusions file or the input of `key` and `compare` may have.
LIMIT = 16_777_216


def record(code, category="Lo", combining=0, mapping="", name="X"):
    """A line of UnicodeData.txt, with its line end."""
    return f"{code};{name};{category};{combining};L;{mapping};;;;N;;;;;\n"


def code_of(line):
    """The code point of a record's line."""
    return int(line.split(";")[0], 16)


def with_records(text, *lines):
    """The file's text with these lines in their places; a line whose code is there is replaced."""
    fresh = {code_of(line): line for line in lines}
    kept = [line for line in text.splitlines(keepends=True) if code_of(line) not in fresh]
    return "".join(sorted(kept + list(fresh.values()), key=code_of))


def without(text, code):
    """The file's text without the record of this code point."""
    return "".join(line for line in text.splitlines(keepends=True) if code_of(line) != code)


def filled(text, size):
    """The text with a comment behind it, in all this many bytes."""
    return text + "#" * (size - len(text.encode()) - 1) + "\n"


def chain(mappings):
    """A data file in which 0100 has so many mappings, one behind another."""
    codes = [f"{0x100 + step:04X}" for step in range(mappings + 1)]
    return "".join(record(code, mapping=after) for code, after in zip(codes, [*codes[1:], ""]))


def made_versions(v1):
    """Data files made from the text of V1, by name."""
    compat = "<compat> "
    return {
        "new-composite": with_records(v1, record("00C1", "Lu", 0, "0041 0301")),
        "other-class": with_records(v1, record("0323", "Mn", 222)),
        "other-mapping": with_records(v1, record("FB01", "Ll", 0, compat + "0066")),
        "lower-class": with_records(v1, record("0302", "Mn", 220)),
        "canonical-to-compatibility": with_records(v1, record("00E2", "Ll", 0, compat + "0061 0302")),
        "mapping-of-equal-length": with_records(v1, record("00E2", "Ll", 0, "0061 0301")),
        "composite-of-old-and-new": with_records(v1, record("0300", "Mn", 230),
                                                 record("00C0", "Lu", 0, "0041 0300")),
        "with-last": with_records(v1, record("10FFFF", "Co")),
        "last-with-class": with_records(v1, record("10FFFF", "Co", 7)),
        "many": record("20000", name="<R, First>") + record("9FFFF", name="<R, Last>"),
        "maps-to-unassigned": without(v1, 0x030A),
        "maps-to-itself": with_records(v1, record("0041", "Lu", 0, "0041")),
        "circle-of-three": record("0061", mapping="0063") + record("0062", mapping="0061")
                           + record("0063", mapping="0062"),
        "chain-of-32": chain(32),
        "chain-of-33": chain(33),
        "ambiguous-pair": with_records(v1, record("00C4", "Lu", 0, "0041 030A")),
        "short-trailing-range": with_records(without(v1, 0x11C2),
                                             record("11C1", "Lo", 0, "", "<R, Last>")),
        "one-jamo": record("1100"),
        "half-of-the-jamo": "".join(record(f"{code:04X}") for code in range(0x1100, 0x1113)),
        "too-long": record("0061") + record("0062", mapping=compat + " ".join(["0061"] * 32))
                    + record("0063", mapping=compat + "0062 0062 0062"),
        "just-not-too-long": record("0061")
                             + record("0062", mapping=compat + " ".join(["0061"] * 32))
                             + record("0063", mapping=compat + "0062 0062"),
    }


# So many versions, each of which has one code point more than the one before.
GROWN = 6


def grown_versions():
    """Data files of these versions, by name; and each but the first without the code point before its last."""
    rows = [record(f"{0x61 + place:04X}") for place in range(GROWN)]
    grown = {f"grown-{place}": "".join(rows[:place + 1]) for place in range(GROWN)}
    return grown | {f"lossy-{place}": "".join(rows[:place - 1] + [rows[place]]) for place in range(1, GROWN)}


# Names that a program might change: the data file and the exclusions of V1, so named.
ODD_NAMES = ((" both ends ", "\texclusions\n"), ("a\nline end\n", "\u2028"), ("-dash", "--form"), ("caf\u00e9", "cafe\u0301"))


def good_files(v1):
    """Unusual data files with nothing wrong in them, by name; each lists 0061."""
    two = record("0041") + record("0061")
    return {
        "crlf": v1.replace("\n", "\r\n"),
        "mixed-line-ends": record("0041").rstrip("\n") + "\r\n" + record("0061").rstrip("\n"),
        "comments": "# a comment\n\n \t\r\n" + two,
        "long-name": record("0041", name="X" * 1_000_000) + record("0061"),
        "long-comment": "#" * 1_000_000 + "\n" + two,
        "nul-in-name": record("0041", name="\0") + record("0061"),
        "lower-hex": record("0061") + record("00e2", mapping="0061 0302") + record("0302", "Mn", 230),
        "at-limit": filled(two, LIMIT),
    }


# Data files with a fault: name, text, the line and the fault's name.
BAD_DATA = [
    ("one-field-less", record("0041").replace(";N;", "N;"), 1, "FieldCount"),
    ("one-field-more", record("0041").replace(";N;", ";N;;"), 1, "FieldCount"),
    ("fault-behind-skipped-lines", "# one\n\n" + record("0041") + "x\n", 4, "FieldCount"),
    ("page", "<!DOCTYPE html>\n<html><body>404</body></html>\n", 1, "FieldCount"),
    ("long-line", record("0041") + "x" * 1_000_000 + "\n", 2, "FieldCount"),
    ("cut", record("0041") + record("0061")[:9], 2, "FieldCount"),
    ("exclusions", "0958\n", 1, "FieldCount"),
    ("short-code", record("41"), 1, "BadCode"),
    ("high-code", record("110000"), 1, "BadCode"),
    ("byte-order-mark", "\ufeff" + record("0041"), 1, "BadCode"),
    ("nul-in-code", record("00\0041"), 1, "BadCode"),
    ("falling", record("0061") + record("0041"), 2, "OutOfOrder"),
    ("twice", record("0041") + record("0041"), 2, "OutOfOrder"),
    ("not-assigned", record("0041", "Cn"), 1, "BadCategory"),
    ("no-category", record("0041", ""), 1, "BadCategory"),
    ("high-class", record("0041", "Mn", 255), 1, "BadClass"),
    ("three-codes", record("0041", mapping="0041 030A 0301"), 1, "BadMapping"),
    ("tag-alone", record("0041", mapping="<compat>"), 1, "BadMapping"),
    ("maps-to-surrogate", record("0041", mapping="D800"), 1, "BadMapping"),
    ("open-range", record("E000", "Co", 0, "", "<R, First>"), 1, "RangeOpen"),
    ("broken-range", record("E000", "Co", 0, "", "<R, First>") + record("F8FF", "Co"), 2, "RangeOpen"),
    ("lone-last", record("F8FF", "Co", 0, "", "<R, Last>"), 1, "RangeLone"),
    ("unlike-ends", record("E000", "Co", 0, "", "<R, First>")
     + record("F8FF", "Co", 1, "", "<R, Last>"), 2, "RangeDiffers"),
    ("mapped-range", record("E000", "Co", 0, "0041", "<R, First>"), 1, "RangeMaps"),
]

# Exclusions files: name and text, and the line of the fault `BadCode` or None.
EXCLUSIONS = [
    ("several", "# 0340\n\n  0958\t# QA\nfb1d..FB1F\n", None),
    ("with-00c1", "0958\n00C1\n", None),
    ("falling", "0958..0950\n", 1),
    ("records", record("0041"), 1),
    ("a-page", "<!DOCTYPE html>\n", 1),
    ("marked", "\ufeff0958\n", 1),
]

# Versions whose files are right and whose tables are refused: data, fault, code point.
BAD_TABLES = [
    ("maps-to-unassigned", "MapsToUnassigned 00C5"),
    ("maps-to-itself", "TooDeep 0041"),
    ("circle-of-three", "TooDeep 0061"),
    ("chain-of-33", "TooDeep 0100"),
    ("too-long", "TooLong 0063"),
    ("ambiguous-pair", "AmbiguousPair 00C5"),
    ("short-trailing-range", "HangulWrong 11C2"),
    ("one-jamo", "HangulWrong 1101"),
    ("half-of-the-jamo", "HangulWrong 1161"),
]


def write_all(folder):
    """Writes all files but the fixtures into the folder, which holds the fixtures already."""
    v1 = (folder / V1[0]).read_text(encoding="utf-8")
    texts = {f"{name}.data": text for name, text in made_versions(v1).items()}
    texts.update({f"{name}.data": text for name, text in good_files(v1).items()})
    texts.update({f"{name}.bad": text for name, text, _, _ in BAD_DATA})
    texts.update({f"{name}.excl": text for name, text, _ in EXCLUSIONS})
    texts.update({f"{name}.data": text for name, text in grown_versions().items()})
    for data, exclusions in ODD_NAMES:
        texts |= {data: v1, exclusions: (folder / V1[1]).read_text(encoding="utf-8")}
    texts["empty"] = ""
    texts["too-large"] = filled("", LIMIT + 1)
    texts["comments-at-limit"] = filled("", LIMIT)
    for name, text in texts.items():
        (folder / name).write_bytes(text.encode("utf-8"))
    (folder / "folder").mkdir()
