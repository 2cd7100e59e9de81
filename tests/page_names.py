"""The names of the numbers that the C library answers, by the pages and by the header."""

import re

from harness import ROOT

HEADER = (ROOT / "include" / "npss.h").read_text(encoding="utf-8")
FORMATS = (ROOT / "docs" / "FORMATS.md").read_text(encoding="utf-8")
STANDARD = (ROOT / "docs" / "STANDARD.md").read_text(encoding="utf-8")
TABLE = "| Number | Name |"


def numbered(page):
    """The names of the first table of a part of a page, by their numbers."""
    rows = page.partition(TABLE)[2].partition("\n\n")[0]
    return {int(number): name for number, name in re.findall(r"^\| (\d+) \| `(\w+)` \|", rows, re.MULTILINE)}


def behind(page, title):
    """The part of a page that begins with this title."""
    return page.partition(f"\n{title}\n")[2]


def break_names():
    """The names of the kinds of breaks: six of `npss audit`, and that of `npss_caseless audit` alone."""
    listed = re.search(r"The kinds are, by their numbers from 1, (.*?)\.", FORMATS)[1]
    more = re.search(r"the kind `(\w+)` more, number (\d+)", FORMATS)
    return {**dict(enumerate(re.findall(r"`(\w+)`", listed), 1)), int(more[2]): more[1]}


def status_names():
    """The names of the statuses: those of the header's constants, NPSS_NOT_UTF8 as NotUtf8."""
    listed = re.search(r"^enum npss_status \{(.*?)^\};", HEADER, re.MULTILINE | re.DOTALL)[1]
    return {int(number): "".join(word.capitalize() for word in name.split("_")) for name, number in re.findall(r"^ +NPSS_(\w+) = (\d+),?$", listed, re.MULTILINE)}


def file_faults():
    """The names of the faults of the first two files."""
    return numbered(behind(FORMATS, "## UnicodeData.txt"))


def table_faults():
    """The names of the faults of the tables that they make."""
    return numbered(behind(STANDARD, "## What a version must meet"))


def folding_faults():
    """The names of the faults of the folding file."""
    return numbered(behind(FORMATS, "## CaseFolding.txt"))


def condition_faults():
    """The names of the faults of a version with its foldings."""
    return numbered(FORMATS.partition("A folding that has no fault by itself")[2])
