#!/usr/bin/env python3
"""tests/on_demand/fuzz_plants.py [--only WORDS..] [--seconds N] [--seed S] [--prefix PREFIX]: plants bugs that tests/library/fuzz.py has to find.

Each bug stands before a call of the library for C (tests/library/fuzz/planted.cc). Each fuzzer that is meant to find it has N seconds for
that (default 20). WORDS choose the bugs whose names have them. PREFIX is where ./build-c installed the library, that of this tree where
none is named. On demand: not called by ./test; some five minutes. Ends in a line 'N passed, M failed'.
"""

import argparse
import os
import random
import sys
import tempfile
import time
from pathlib import Path
from typing import NamedTuple

sys.path.insert(0, str(Path(__file__).resolve().parent.parent))

from harness import ROOT, Tally
from library import fuzz
import ucd

SHARED = ("calls", "texts")
# The status of a fuzzer that lacks its files.
NO_FILES = 9
CALLS = ("caseless_key", "caseless_match", "caseless_answers", "folding", "caseless_extends", "open_caseless")


class Plant(NamedTuple):
    """A bug by its number in planted.cc, and the programs that have to find it."""

    number: int
    finders: tuple


PLANTS = {
    "a caseless key loses its last byte": Plant(1, (*SHARED, "opening", "folding_answers")),
    "a refused room isn't told how much is needed": Plant(2, SHARED),
    "a byte is written behind a caseless key": Plant(3, SHARED),
    "a byte is written where there is no room": Plant(4, SHARED),
    "an unassigned code point is told at the next byte": Plant(5, SHARED),
    "a caseless key is a key": Plant(6, (*SHARED, "opening", "folding_answers")),
    "a text is folded before it is decomposed": Plant(7, (*SHARED, "opening")),
    "a compatible key is folded once": Plant(8, (*SHARED, "opening")),
    "a match compares forms only": Plant(30, (*SHARED, "opening")),
    "each match is compatible": Plant(31, SHARED),
    "the first of two texts is blamed": Plant(32, SHARED),
    "a match tells what it has no use for": Plant(33, SHARED),
    "answers to lines have plain keys": Plant(40, SHARED),
    "a refused line isn't told": Plant(41, SHARED),
    "a byte that ends no lines is told before the folding that isn't there": Plant(42, SHARED),
    "an unassigned code point isn't named": Plant(50, SHARED),
    "110000 is a code point": Plant(51, ("calls",)),
    "a folding is cut": Plant(52, SHARED),
    "an audit passes over foldings": Plant(60, ("calls",)),
    "an audit looks the other way": Plant(61, ("calls",)),
    "of two handles the first one is blamed": Plant(62, SHARED),
    "a mark isn't folded": Plant(70, SHARED),
    "a byte order mark is passed over": Plant(71, ("folding_answers",)),
    "tabs are no blanks": Plant(72, ("folding_answers",)),
    "the last line is lost": Plant(73, ("folding_answers",)),
    "simple foldings are full ones": Plant(74, ("folding_answers",)),
    "an opening tells another file": Plant(75, ("calls", "opening", "folding_answers")),
    "an opening tells another line": Plant(76, ("folding_answers",)),
    "another condition is told": Plant(77, ("opening", "folding_answers")),
    "a refused opening closes its handle": Plant(78, ("calls", "opening")),
    "the tables are told otherwise": Plant(79, ("opening",)),
    "a folding of another version is let in": Plant(80, ("opening", "folding_answers")),
    "a condition tells what it has no use for": Plant(81, ("opening", "folding_answers")),
}


def planted(tally, prefix, folder, name):
    """A program with all bugs in it, of which it is told one when it runs; None where it isn't built."""
    parts = [*fuzz.sources(name), fuzz.HERE / "planted.cc", *(f"-Wl,--wrap=npss_{call}" for call in CALLS)]
    return fuzz.built(tally, name, fuzz.compiled(prefix, folder, name, parts))


def is_found(name, program, chosen):
    """Whether a fuzzer, or the reader beside the openings, finds the bug in time."""
    if name == "folding_answers":
        return fuzz.judged.judge_until(program, ucd.package_files()[0], chosen.seconds, chosen.seed)[1] is not None
    with tempfile.TemporaryDirectory() as room:
        done = fuzz.ran(fuzz.words_of(name, program, Path(room), chosen), chosen)
    return done is not None and done.returncode not in (0, NO_FILES)


def check_plant(tally, bug, programs, chosen):
    """Each program that is meant to finds the bug."""
    os.environ["PLANT"] = str(PLANTS[bug].number)
    for name in PLANTS[bug].finders:
        begun = time.monotonic()
        found = programs[name] is not None and is_found(name, programs[name], chosen)
        tally.check(f"{bug}: {name}", found, f"survived, seed {chosen.seed}")
        print(f"{bug}: {name}: {'found' if found else 'survived'} after {time.monotonic() - begun:.1f} seconds", flush=True)


def main():
    parser = argparse.ArgumentParser(description="plants bugs that the fuzzers have to find")
    parser.add_argument("--only", default=[""], nargs="+", metavar="WORDS", help="the bugs alone whose names have one of these in them")
    parser.add_argument("--seconds", type=int, default=20, help="how long each fuzzer may take (default 20)")
    parser.add_argument("--seed", type=int, default=random.randrange(1, 1 << 31))
    parser.add_argument("--prefix", type=Path, default=ROOT / "out" / "c", help="where ./build-c installed the library")
    chosen = parser.parse_args()
    tally, why = Tally(), fuzz.reason()
    if why:
        sys.exit(f"tests/on_demand/fuzz_plants.py: {why}")
    chosen.prefix = chosen.prefix.resolve()
    print(f"seed {chosen.seed}", flush=True)
    with tempfile.TemporaryDirectory() as folder:
        # What finds a bug that was planted is nothing to keep.
        fuzz.FOUND = Path(folder)
        programs = {name: planted(tally, chosen.prefix, Path(folder), name) for name in fuzz.SOURCES}
        for bug in PLANTS:
            if any(some in bug for some in chosen.only):
                check_plant(tally, bug, programs, chosen)
    tally.finish()


if __name__ == "__main__":
    main()
