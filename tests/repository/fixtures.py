#!/usr/bin/env python3
"""Compares the files under fixtures/ with the texts that the crates' tests use.

Those texts are constants of the crates, since a test can't read the repository's files. A constant
is paired with a file by its name: V1_DATA with v1/UnicodeData.txt, V1_EXCLUSIONS with
v1/CompositionExclusions.txt, EXCHANGE_SCHEDULE and EXCHANGE_REPORT with scripts/exchange.schedule
and scripts/exchange.report. Each has to have the other. The reports of the scripts are compared with those
of history_model.py, the usage text of docs/FORMATS.md with that of the stored run, the forged images of a unit
test and their answers with those of forged_images.py, and the Rust example of docs/RATTLE.md and of two crates with the
unit test that runs it. The manual page is compared with docs/FORMATS.md, and the README's table of speed with the last
run of bench/texts/run. Each text of a fault is looked for in the unit tests (error_texts.py). Ends in a line 'N passed, M failed'.
"""

import re
import sys
import unicodedata
from pathlib import Path

# Nothing is written into the tree.
sys.dont_write_bytecode = True
sys.path.insert(0, str(Path(__file__).resolve().parent.parent))
ROOT = Path(__file__).resolve().parents[2]
sys.path.append(str(ROOT / "bench" / "texts"))

import tables
import ucd
from harness import Tally
from models import forged_images, history_model
from program import caseless_rows
from program.replays import SCRIPTS
from repository import error_texts

CRATES = ROOT / "crates"
FILES = {
    "DATA": "{}/UnicodeData.txt",
    "EXCLUSIONS": "{}/CompositionExclusions.txt",
    "SCHEDULE": "scripts/{}.schedule",
    "REPORT": "scripts/{}.report",
    "FOLDING": "caseless/{}/CaseFolding.txt",
}
CONSTANT = re.compile(r'const (\w+)_(DATA|EXCLUSIONS|SCHEDULE|REPORT|FOLDING): &(?:\'static )?str =\s*"((?:[^"\\]|\\.)*)";',
                      re.DOTALL)
ESCAPES = {"n": "\n", "r": "\r", "t": "\t", "0": "\0", "\\": "\\", '"': '"', "'": "'"}


def unescaped(literal):
    """The text of a Rust string literal, of what stands between its quotes."""
    def one(match):
        sign = match[1]
        if sign[0] == "\n":
            return ""
        if sign[0] in "xu":
            return chr(int(sign.strip("xu{}"), 16))
        return ESCAPES[sign]
    return re.sub(r"\\(\n\s*|x[0-9A-Fa-f]{2}|u\{[0-9A-Fa-f]+\}|.)", one, literal)


def constants():
    """The texts of the crates' constants, by the file that each is paired with."""
    texts = {}
    for source in sorted(ROOT.glob("crates/*/src/**/*.rt")):
        for name, kind, literal in CONSTANT.findall(source.read_text(encoding="utf-8")):
            texts[FILES[kind].format(name.lower())] = unescaped(literal)
    return texts


def files(wanted):
    """The texts of the files. Scripts count once a crate has a constant of one, and of caseless/ the folding files of the
    versions alone: caseless_rows.py compares the others row by row."""
    folder = ROOT / "fixtures"
    found = {str(path.relative_to(folder)): path.read_bytes().decode("utf-8")
             for path in sorted(folder.rglob("*")) if path.is_file() and "caseless" not in path.relative_to(folder).parts}
    found |= {f"caseless/{version}/CaseFolding.txt": (folder / "caseless" / version / "CaseFolding.txt").read_text(encoding="utf-8")
              for version in ("v1", "v2", "changed")}
    has_scripts = any(name.startswith("scripts/") for name in wanted)
    return {name: text for name, text in found.items() if has_scripts or not name.startswith("scripts/")}


# Keys that are younger than some Python.
YOUNG_KEYS = {history_model.string_of(["16D63", "16D67", "16D67"]): history_model.string_of(["16D6A"])}


def check_model(tally):
    """The model of histories gives each script's report."""
    folder = ROOT / "fixtures"
    for name, files, form in SCRIPTS:
        versions = [{code for row in ucd.rows((folder / data).read_text(encoding="utf-8")) for code in row.codes()}
                    for data in files[::2]]
        schedule = (folder / "scripts" / f"{name}.schedule").read_text(encoding="utf-8")
        got = history_model.report_of(schedule, versions, form,
                                      lambda string: YOUNG_KEYS.get(string) or unicodedata.normalize(form.upper(), string))
        tally.same(f"the model's report of {name}", got, (folder / "scripts" / f"{name}.report").read_text(encoding="utf-8"))


def check_example(tally):
    """The Rust example of docs/RATTLE.md and of the crates' heads is the one that a unit test runs."""
    tested = (CRATES / "np_examples" / "src" / "forms" / "example.rt").read_text(encoding="utf-8")
    for page, fence, sign in ((ROOT / "docs" / "RATTLE.md", "```rust\n", ""), (CRATES / "np_forms/src/lib.rt", "//! ```\n", "//! "),
                              (CRATES / "np_tables/src/lib.rt", "//! ```\n", "//! ")):
        block = page.read_text(encoding="utf-8").split(fence)[1].split("```")[0]
        lines = [line.removeprefix(sign).strip() for line in block.splitlines() if line.strip("/! ")]
        missing = [line for line in lines if not re.search(rf"^ *{re.escape(line)}$", tested, re.MULTILINE)]
        tally.check(f"{page.relative_to(ROOT)} has the tested example", lines and not missing, f"{missing} in example.rt")


def check_speed(tally):
    """The README's table of speed is that of the last whole run of bench/texts/run that was kept."""
    run, page = tables.last_run(), (ROOT / "README.md").read_text(encoding="utf-8")
    rows = page.partition("\n| Text | NFC | others | NFD | others |\n|---|---|---|---|---|\n")[2].partition("\n\n")[0].splitlines()
    wanted = tables.readme_rows(run.read_text(encoding="utf-8")) if run else []
    tally.check("README.md: the table of speed", rows and rows == wanted, "run bench/texts/chart")
    tally.same("bench/results has the last whole run alone", [path for path in tables.RESULTS.iterdir() if path != run], [])


def plain(roff):
    """The text of a manual page without its marks."""
    text = re.sub(r"^\.(TP|PP|RS|RE|nf|fi)$", "", roff, flags=re.MULTILINE)
    text = re.sub(r"^\.(?:B|I|BR|BI|SH|TH) ?", "", text, flags=re.MULTILINE)
    return re.sub(r"\\f[A-Z]", "", text).replace("\\-", "-").replace('"', "")


def check_usage_lines(tally, name, manual, usage):
    """The manual page has each line of the usage text."""
    for line in usage.splitlines():
        words = line.removeprefix("usage:").strip()
        tally.check(f"docs/{name} has: {words}", f"\n{words}\n" in manual, "it has not")


def check_manual(tally, usage):
    """The manual page has each line of the usage text, each status and each limit of docs/FORMATS.md."""
    manual = plain((ROOT / "docs" / "npss.1").read_text(encoding="utf-8"))
    formats = (ROOT / "docs" / "FORMATS.md").read_text(encoding="utf-8")
    check_usage_lines(tally, "npss.1", manual, usage)
    statuses = formats.partition("| Status | Meaning |")[2].partition("\n\n")[0]
    for number, meaning in re.findall(r"^\| (\d) \| ([^|]+) \|$", statuses, re.MULTILINE):
        paragraph = manual.partition("EXIT STATUS")[2].partition(f"\n{number}\n")[2].partition(f"\n{int(number) + 1}\n")[0].lower()
        missing = [word for word in re.findall(r"[a-z]{4,}", meaning.lower()) if word not in paragraph]
        tally.check(f"docs/npss.1: status {number}", paragraph and not missing, f"it lacks {missing}")
    for limit in ("16,777,216", "4,294,967,295", "65,536", "1,000,000"):
        tally.check(f"docs/npss.1: {limit}", limit in manual and (limit in formats or limit == "4,294,967,295"), "it is not there")


def check_lines_manual(tally):
    """docs/FORMATS.md has the usage text of the stored run of npss_lines, and its manual page has that, the answers and
    the statuses."""
    manual = plain((ROOT / "docs" / "npss_lines.1").read_text(encoding="utf-8"))
    formats = (ROOT / "docs" / "FORMATS.md").read_text(encoding="utf-8")
    usage = (ROOT / "crates" / "npss_lines" / "stdout").read_text(encoding="utf-8")
    tally.check("docs/FORMATS.md has the usage text of npss_lines", f"\n```\n{usage}```\n" in formats, "it has not")
    check_usage_lines(tally, "npss_lines.1", manual, usage)
    section = formats.partition("## Answers to lines")[2].partition("\n## ")[0]
    for answer in re.findall(r"^\| `(![^`]+)` \|", section, re.MULTILINE):
        is_there = all(word in manual for word in re.findall(r"[!A-Za-z0-9-]{2,}", answer))
        tally.check(f"docs/npss_lines.1: {answer}", is_there, "it is not there")
    for numbers in re.findall(r"^\| ([\d, ]+) \|", section, re.MULTILINE):
        for number in numbers.split(", "):
            tally.check(f"docs/npss_lines.1: status {number}", f"\n{number}\n" in manual, "it is not there")


def check_caseless_manual(tally):
    """docs/FORMATS.md has the usage text of the stored run of npss_caseless, and its manual page has each line of it and each status."""
    manual = plain((ROOT / "docs" / "npss_caseless.1").read_text(encoding="utf-8"))
    formats = (ROOT / "docs" / "FORMATS.md").read_text(encoding="utf-8")
    usage = (ROOT / "crates" / "npss_caseless" / "stdout").read_text(encoding="utf-8")
    tally.check("docs/FORMATS.md has the usage text of npss_caseless", f"\n```\n{usage}```\n" in formats, "it has not")
    check_usage_lines(tally, "npss_caseless.1", manual, usage)
    for number in range(7):
        tally.check(f"docs/npss_caseless.1: status {number}", f"\n{number}\n" in manual.partition("EXIT STATUS")[2], "it is not there")


def main():
    tally = Tally()
    check_model(tally)
    check_speed(tally)
    error_texts.check_texts(tally)
    wanted = constants()
    got = files(wanted)
    for name in sorted(wanted.keys() | got.keys()):
        tally.same(f"fixtures/{name}", got.get(name), wanted.get(name))
    usage = (ROOT / "crates" / "npss" / "stdout").read_text(encoding="utf-8")
    tally.check("docs/FORMATS.md has the usage text",
                f"\n```\n{usage}```\n" in (ROOT / "docs" / "FORMATS.md").read_text(encoding="utf-8"))
    tally.check("there are fixtures", got, "fixtures/ has no file")
    check_manual(tally, usage)
    check_lines_manual(tally)
    check_caseless_manual(tally)
    forged_images.check(tally)
    caseless_rows.check(tally, unescaped)
    check_example(tally)
    tally.finish()


if __name__ == "__main__":
    main()
