#!/usr/bin/env python3
"""Measures of the sources: how many functions a byte of a name passes, which functions have many parameters, what is tracked.

The walk of a byte stands in docs/ARCHITECTURE.md ("What a byte of a name touches"): paths, each with the functions that
it has. Each of them has to be there, and is called by another one. They are counted, and so are the functions that they call
beside them: the ways that another name takes, refusals, the files of the version. Both counts are by path and name, so a new
function on the way or beside it is seen wherever it stands. Functions have at most five parameters, but in the files of WIDE.
No file that is built is tracked, and none names a folder of this machine.
Ends in a line 'N passed, M failed'.
"""

import re
import subprocess
import sys
from pathlib import Path

# Nothing is written into the tree.
sys.dont_write_bytecode = True
sys.path.insert(0, str(Path(__file__).resolve().parent.parent))

from harness import ROOT, Tally
from repository.functions import Sources

SECTION = "### What a byte of a name touches"
# The most functions of the walk, those that they call beside it, and the most parameters of a function.
MOST, BESIDE, WIDEST = 45, 45, 5
# Jobs, which take each file and stream by itself, with the inner halves of two; and a call of C, whose parameters are the header's.
WIDE = {"np_jobs/src/jobs.rt", "np_jobs/src/key_under.rt", "np_jobs/src/streaming.rt", "np_lines_job/src/job.rt", "np_program/src/replay.rt",
        "np_c/src/node_exports.rt"}
# Folders that are built, and how what is compiled begins: programs and objects, archives, Python's bytecode by its ending.
BUILT = re.compile(r"(^|/)(target|out|__pycache__|\.mypy_cache)/|\.py[co]$")
COMPILED = (b"\x7fELF", b"!<arch>\n", b"MZ", b"\xcf\xfa\xed\xfe", b"\xfe\xed\xfa\xcf")
# Where sessions on a machine of ours have their clones.
CLONES = b"/" + b"work/"


def walk():
    """The functions of the walk, each with its path."""
    page = (ROOT / "docs" / "ARCHITECTURE.md").read_text(encoding="utf-8")
    steps = page.partition(SECTION)[2].partition("\n###")[0]
    paths, named, named_since = [], [], False
    for word in re.findall(r"`([^`]+)`", "\n".join(line for line in steps.splitlines() if re.match(r"\d+\. ", line))):
        if "/" in word:
            # several paths before one name have it in common
            paths = [*paths, word] if paths and not named_since else [word]
            named_since = False
        else:
            named += [(path, word) for path in paths]
            named_since = True
    return list(dict.fromkeys(named))


def check_walk(tally, sources):
    """The walk of a byte, and what its functions call beside it."""
    steps = walk()
    there = {step: sources.find(*step) for step in steps}
    ones = {one for several in there.values() for one in several}
    words = {word for one in ones for word in re.findall(r"\b(\w+)(?:::<[^(]*>)?\(", one.body)}
    for path, name in steps:
        tally.check(f"{path} {name}: it is there", there[path, name], "it is not")
        tally.check(f"{path} {name}: one of the walk calls it", name in words or name == "main", "none does")
    beside = {other for one in ones for other in sources.called(one)} - ones
    tally.check("a byte of a name", len(steps) <= MOST, f"passes {len(steps)} functions, and {MOST} at most are wanted")
    tally.check("what they call beside it", len(beside) <= BESIDE,
                f"is {len(beside)} functions, and {BESIDE} at most are wanted: {', '.join(sorted(map(str, beside)))}")
    print(f"a byte of a name passes {len(steps)} functions, which call {len(beside)} beside them")


def check_widths(tally, sources):
    """How many parameters functions have."""
    wide = sorted(f"{one}: {one.parameters}" for one in sources.all() if one.parameters > WIDEST and one.path not in WIDE)
    tally.check(f"functions have at most {WIDEST} parameters", not wide, "; ".join(wide))
    idle = WIDE - {one.path for one in sources.all() if one.parameters > WIDEST}
    tally.check("each file that may have wide functions has one", not idle, ", ".join(sorted(idle)))


def is_built(path):
    """Whether a file is something that was built."""
    return bool(BUILT.search(path.relative_to(ROOT).as_posix())) or path.read_bytes()[:8].startswith(COMPILED)


def check_tracked(tally):
    """What git tracks."""
    listed = subprocess.run(["git", "ls-files", "-z"], cwd=ROOT, stdout=subprocess.PIPE, stderr=subprocess.DEVNULL, check=False)
    if listed.returncode:
        print("skipped: what is tracked: this is no clone, or git isn't here")
        return
    paths = [ROOT / name for name in listed.stdout.decode().split("\0") if name and (ROOT / name).is_file()]
    tally.same("tracked files that are built", [str(path.relative_to(ROOT)) for path in paths if is_built(path)], [])
    folders = [CLONES] + ([f"{ROOT.parent}/".encode()] if len(ROOT.parts) > 2 else [])
    tally.same("tracked files that name a folder of this machine",
               [str(path.relative_to(ROOT)) for path in paths if any(folder in path.read_bytes() for folder in folders)], [])


def main():
    tally, sources = Tally(), Sources()
    check_walk(tally, sources)
    check_widths(tally, sources)
    check_tracked(tally)
    tally.finish()


if __name__ == "__main__":
    main()
