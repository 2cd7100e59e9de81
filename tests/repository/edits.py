#!/usr/bin/env python3
"""The must-fail edits: tests/repository/edits.py [--release | --changed | NAME..].

Those that each merge tries stand in crates/NAME/must-fail, where the toolchain's gate reads them. The others stand in
crates/NAME/must-fail-release: they show no clause that one of the first doesn't show, or one that only crates above meet.
Without words each edit of both is looked at alone: its old text has to stand once in its file. With --release those of all
crates are tried too, with NAME those of these crates, and with --changed those of the crates that differ from the newest
tag, where there is one. Each crate has a run of `rt ci` of its own over a copy: what was proved before is taken from there,
and what its edits came to is kept once all are tried. Ends in a line 'N passed, M failed'.
"""

import argparse
import re
import shutil
import subprocess
import sys
import tempfile
from pathlib import Path

sys.path.insert(0, str(Path(__file__).resolve().parent.parent))

from harness import ROOT, Tally

CRATES = ROOT / "crates"
MERGE, RELEASE = "must-fail", "must-fail-release"
SOURCES = ("src", "specs", "proofs", RELEASE)
# What the toolchain says of an edit that shows nothing of a contract.
SAYS_LITTLE = "says little of the contract"


def edits_of(name, folder):
    """The crate's edits in that folder."""
    return sorted((CRATES / name / folder).glob("*.edit"))


def names_with(folder):
    """The crates that have edits in that folder, lowest first."""
    lines = (ROOT / "crates.txt").read_text(encoding="utf-8")
    return [name for name in re.findall(r"^(\w+)(?: \w+)*:", lines, re.MULTILINE) if edits_of(name, folder)]


def fault_of(edit):
    """Why the edit can't be applied, by its texts; None where it can."""
    path = text = old = None
    for line in edit.read_text(encoding="utf-8").splitlines():
        key, divider, value = line.partition(": ")
        if not divider:
            continue
        if key == "file":
            path = edit.parent.parent / value
            text = path.read_text(encoding="utf-8") if path.exists() else None
            if text is None:
                return f"there is no {value}"
        elif key == "old":
            if text is None or text.count(value) != 1:
                return f"{value!r} doesn't stand once in its file"
            old = value
        elif key == "new":
            if old is None:
                return "a new text without an old one"
            text, old = text.replace(old, value), None
    return None if path and old is None else "no whole pair of an old text and a new one"


def check_texts(tally):
    """Each edit can be applied, and no name is used twice in a crate."""
    for name in sorted({*names_with(MERGE), *names_with(RELEASE)}):
        merge, release = edits_of(name, MERGE), edits_of(name, RELEASE)
        for edit in [*merge, *release]:
            fault = fault_of(edit)
            tally.check(f"{edit.relative_to(ROOT)} can be applied", fault is None, fault)
        tally.same(f"the edits of {name} that stand twice", {one.name for one in merge} & {one.name for one in release}, set())


def changed():
    """The crates that differ from the newest tag in what their edits stand on; None where there is no tag to tell."""
    git = ["git", "-C", str(ROOT)]
    tag = subprocess.run([*git, "describe", "--tags", "--abbrev=0", "--match", "v*"], stdout=subprocess.PIPE, stderr=subprocess.DEVNULL, text=True, check=False)
    if tag.returncode:
        return None
    return [name for name in names_with(RELEASE)
            if subprocess.run([*git, "diff", "--quiet", tag.stdout.strip(), "--", *[f"crates/{name}/{part}" for part in SOURCES]], check=False).returncode]


def copied(folder):
    """A copy of what the gate reads, without an edit."""
    shutil.copytree(CRATES, folder / "crates", ignore=shutil.ignore_patterns("out", MERGE, RELEASE))
    for name in ("crates.txt", "HANDLES"):
        shutil.copy(ROOT / name, folder)


def try_crate(tally, folder, name):
    """Tries the crate's edits of a release over that copy."""
    place, edits = folder / "crates" / name / MERGE, edits_of(name, RELEASE)
    shutil.copytree(CRATES / name / RELEASE, place)
    print(f"{name}: trying its edits of a release ({len(edits)})", flush=True)
    ran = subprocess.run(["rt", "ci", name], cwd=folder, stdin=subprocess.DEVNULL, stdout=subprocess.PIPE, stderr=subprocess.STDOUT, text=True, check=False)
    shutil.rmtree(place)
    outcomes = dict(re.findall(rf"must-fail {name}/(\S+?\.edit): (.*)", ran.stdout))
    for edit in edits:
        said = outcomes.get(edit.name, f"nothing was told of it: {ran.stdout[-500:]}")
        tally.check(f"{edit.relative_to(ROOT)} is refused", said.startswith("refused") and SAYS_LITTLE not in said, said)


def main():
    parser = argparse.ArgumentParser()
    parser.add_argument("--release", action="store_true")
    parser.add_argument("--changed", action="store_true")
    parser.add_argument("names", nargs="*", metavar="NAME")
    words = parser.parse_args()
    tally = Tally()
    check_texts(tally)
    names = names_with(RELEASE) if words.release else [one for one in words.names if edits_of(one, RELEASE)]
    if words.changed:
        names = changed()
        if names is None:
            print("skipped: edits of a release: no tag tells which crates have changed since; ./test --release tries all")
    with tempfile.TemporaryDirectory() as name:
        folder = Path(name)
        if names:
            copied(folder)
        for one in names or ():
            try_crate(tally, folder, one)
    tally.finish()


if __name__ == "__main__":
    main()
