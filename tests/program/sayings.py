"""What docs/npss.1 tells under IF IT SAYS: each line, by a run that has the cause which stands there."""

import re
import subprocess
import tempfile
from pathlib import Path

import ucd
from harness import ROOT, shown

# The page's line, as it stands there without its marks; what a shell runs; and the line that comes of it. D and E are the
# published files, OLD an earlier version's data file.
ROWS = (
    ("version 0 data: line 41: FieldCount", "npss key --form nfc E D", r"version 0 data: line 41: FieldCount"),
    ("version 0 data: line 1: FieldCount", "gzip -nc D >z; npss key --form nfc z E", r"version 0 data: line 1: FieldCount"),
    ("version 0 data: line 1: FieldCount", "printf '<!DOCTYPE html>\\n' >z; npss key --form nfc z E", r"version 0 data: line 1: FieldCount"),
    ("version 0 data: line 1: BadCode", "(printf '\\357\\273\\277'; cat D) >z; npss key --form nfc z E", r"version 0 data: line 1: BadCode"),
    ("version 0 data: line N: FieldCount", "head -c 100003 D >z; npss key --form nfc z E", r"version 0 data: line (\d+): FieldCount"),
    ("version 0 data: line N: OutOfOrder", "cat D D >z; npss key --form nfc z E", r"version 0 data: line \d+: OutOfOrder"),
    ("version 0 data: line N: OutOfOrder", "(sed 2d D; sed -n 2p D) >z; npss key --form nfc z E", r"version 0 data: line \d+: OutOfOrder"),
    ("version 0 exclusions: line 1: BadCode", "npss key --form nfc D D", r"version 0 exclusions: line 1: BadCode"),
    ("version 0 exclusions: line 1: BadCode", "(printf '\\357\\273\\277'; cat E) >z; npss key --form nfc D z", r"version 0 exclusions: line 1: BadCode"),
    ("version 1 ..", "npss audit D E E D", r"version 1 data: line 41: FieldCount"),
    ("cannot open FILE", "npss key --form nfc D none", r"cannot open none"),
    ("cannot open FILE", "npss key --form nfc - E <D", r"cannot open -"),
    ("unassigned XXXX at byte N", "printf 'A\\364\\217\\277\\277' | npss key --form nfc D E", r"unassigned 10FFFF at byte 1"),
    ("input: not UTF-8 at byte N", "printf 'J\\366rg' | npss key --form nfc D E", r"input: not UTF-8 at byte 1"),
    ("input: TooLarge", "head -c 16777217 /dev/zero | npss key --form nfc D E", r"input: TooLarge"),
    ("input: two lines wanted", "printf A | npss compare --form nfc D E", r"input: two lines wanted"),
    ("output: WriteFailed", "printf A | npss key --form nfc D E >/dev/full", r"output: WriteFailed"),
    ("Lost XXXX", "npss audit D E OLD E", r"Lost [0-9A-F]{4,6}"),
    ("usage:", "npss key --form NFC D E", r"usage: npss .*"),
    ("usage:", "npss key D E", r"usage: npss .*"),
    ("usage:", "npss --version", r"usage: npss .*"),
)


def page_lines():
    """The lines of the page's section, without their marks."""
    section = (ROOT / "docs" / "npss.1").read_text(encoding="utf-8").partition(".SH IF IT SAYS\n")[2].partition("\n.SH ")[0]
    heads = re.findall(r"^\.TP\n\.BI? (.*)$", section, re.MULTILINE)
    return [re.sub(r" +", " ", head.replace("\\-", "-").replace(' "', " " if ' "' in head else "").replace('"', "")).replace(" :", ":") for head in heads]


def check_sayings(tally, program):
    """Each line of the section comes where its cause is, and each has a run here."""
    plain = [re.sub(r"\s+", "", one) for one in page_lines()]
    tally.same("lines of IF IT SAYS", sorted(set(plain)), sorted({re.sub(r"\s+", "", row[0]) for row in ROWS}))
    files, why = ucd.package_files()
    if files is None:
        print(f"skipped: the lines of IF IT SAYS: {why}")
        return
    with tempfile.TemporaryDirectory() as name:
        folder = Path(name)
        (folder / "D").write_bytes(files[ucd.DATA].read_bytes())
        (folder / "E").write_bytes(files[ucd.EXCLUSIONS].read_bytes())
        Path(ucd.write_cut(files, (13, 0), folder)[0][0]).rename(folder / "OLD")
        (folder / "npss").symlink_to(program)
        for line, typed, wanted in ROWS:
            ran = subprocess.run(["sh", "-c", f"PATH={folder}:$PATH; {typed}"], cwd=folder, stdin=subprocess.DEVNULL, stdout=subprocess.PIPE,
                                 stderr=subprocess.STDOUT, timeout=120, check=False)
            first = ran.stdout.decode(errors="replace").partition("\n")[0]
            tally.check(f"{line}, by {typed}", ran.returncode != 0 and re.fullmatch(wanted, first), f"status {ran.returncode}: {shown(first)}")
