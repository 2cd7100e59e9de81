"""What a run of bench/texts/run printed, read again: the rows of the chart and of the README's table of speed."""

import re
from pathlib import Path

RESULTS = Path(__file__).resolve().parents[1] / "results"
PEERS = ("npss", "icu", "crate")
# The corpora that are shown, and what a reader calls each.
SHOWN = {
    "ascii": "ASCII",
    "latin": "Latin, composed",
    "latin-decomposed": "Latin, decomposed",
    "korean": "Korean",
    "korean-decomposed": "Korean, decomposed",
    "japanese": "Japanese",
    "non-starters": "Hebrew, Arabic, Indic, Thai",
    "tests": "strings of NormalizationTest.txt",
}
ROW = re.compile(r"^\| (?P<corpus>[\w-]+) (?P<form>nfc|nfd) \| (?P<size>[\d.]+) \| (?P<took>[^|]*) \| [^|]* \| (?P<beside>[\d.]+) \|",
                 re.MULTILINE)


def last_run():
    """The file of the last run that has all that is shown, or None."""
    whole = (path for path in RESULTS.glob("*.md") if len(readme_rows(path.read_text(encoding="utf-8"))) == len(SHOWN))
    return max(whole, default=None)


def times(table):
    """For each corpus and form the milliseconds of those that did it, by name."""
    return {(match["corpus"], match["form"]): {name: float(took) for name, took in re.findall(r"(\w+) ([\d.]+)", match["took"])}
            for match in ROW.finditer(table)}


def size_of(table):
    """The MiB of a corpus, or None where the run had none of those that are shown."""
    return max((float(match["size"]) for match in ROW.finditer(table) if match["corpus"] in SHOWN), default=None)


def day_of(table):
    """The day of a run, or nothing."""
    found = re.match(r"# (\d{4}-\d\d-\d\d) ", table)
    return found[1] if found else ""


def machine_of(table):
    """What a run tells of its machine: the processor, and how many there are."""
    found = re.search(r"^Commit \w+, Unicode [\d.]+\. (.*?, \d+ processors), load ", table, re.MULTILINE)
    return found[1] if found else "a machine that isn't told"


def readme_rows(table):
    """The rows of the README's table of speed: milliseconds of npss, and how many times that its fastest peer takes."""
    took = times(table)
    beside = {(match["corpus"], match["form"]): float(match["beside"]) for match in ROW.finditer(table)}
    return [" ".join([f"| {name} |", *(f"{took[corpus, form]['npss']:.0f} ms | {beside[corpus, form]:.1f} |" for form in ("nfc", "nfd"))])
            for corpus, name in SHOWN.items() if (corpus, "nfc") in took and (corpus, "nfd") in took]
