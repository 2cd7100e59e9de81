#!/usr/bin/env python3
"""tests/program/trees.py NPSS_LINES [FILES]: examples/tree over a tree of so many files, beside what Python's unicodedata tells.

Its names are of few letters, so that many are one name; some hold line ends and tabs, some are no UTF-8, some have a code
point that no version assigns. 3,000 files where nobody says otherwise. Ends in a line 'N passed, M failed'.
"""

import collections
import os
import random
import subprocess
import sys
import tempfile
import time
import unicodedata
from pathlib import Path

sys.dont_write_bytecode = True
sys.path.insert(0, str(Path(__file__).resolve().parent.parent))

from harness import FORMS, ROOT, Tally
from ucd import DATA, EXCLUSIONS, package_files

LETTERS = ("a", "fi", "\ufb01", "e\u0301", "\u00e9", "\u212b", "A\u030a", "\uac01", "\u1100\u1161\u11a8", "\n", "\t", "\uff0f")
# Assigned by no version.
NEVER = "\u0378"
# Files of one folder, and of a tree.
WIDTH, FILES = 500, 3_000


def grown(folder, count):
    """A tree of so many files in folders that are in one another: each path below the folder, as bytes."""
    source, paths, here = random.Random(count), set(), b"."
    while len(paths) < count:
        if len(paths) % WIDTH == 0:
            here = here if len(here) < 200 else b"."
            here += f"/d\u00e9={len(paths)}".encode()
            os.mkdir(os.path.join(folder, here))
            paths.add(here)
            continue
        name = "".join(source.choices(LETTERS, k=source.randint(1, 9))).encode()
        name += source.choices((b"", NEVER.encode(), b"\xff", b"\xc3"), (40, 1, 1, 1))[0]
        path = here + b"/" + name
        if path not in paths:
            paths.add(path)
            with open(os.path.join(folder, path), "wb"):
                pass
    return paths


def findings(form, paths):
    """What is to be told of these paths."""
    found, keys = collections.Counter(), collections.defaultdict(list)
    for path in paths:
        where, _, name = path.rpartition(b"/")
        try:
            text = name.decode()
        except UnicodeDecodeError as fault:
            found[b"no key\tnot UTF-8 at byte %d\t%s" % (fault.start, path)] += 1
            continue
        if NEVER in text:
            found[b"no key\tunassigned 0378 at byte %d\t%s" % (name.index(NEVER.encode()), path)] += 1
            continue
        key = unicodedata.normalize(form.upper(), text)
        keys[where, key].append(path)
        if key != text:
            found[b"other form\t" + path] += 1
    found.update(b"one name\t" + path for alike in keys.values() if len(alike) > 1 for path in alike)
    return found


def check_tree(tally, program, count, forms=FORMS):
    """Each finding once, and no other."""
    files, why = package_files()
    if files is None:
        print(f"skipped: a tree of files: {why}")
        return
    with tempfile.TemporaryDirectory() as folder:
        paths = grown(os.fsencode(folder), count)
        environment = {**os.environ, "PATH": f"{program.parent}:{os.environ['PATH']}"}
        for form in forms:
            since = time.monotonic()
            words = [ROOT / "examples" / "tree", form, files[DATA], files[EXCLUSIONS], folder]
            done = subprocess.run(words, env=environment, capture_output=True, check=False)
            print(f"a tree of {count} files under {form}: {time.monotonic() - since:.1f} s")
            got, wanted = collections.Counter(done.stdout.split(b"\0")[:-1]), findings(form, paths)
            odd = list(((got - wanted) + (wanted - got)).items())[:3]
            tally.check(f"a tree of {count} files under {form}", (done.returncode, done.stderr, odd) == (0, b"", []) and wanted,
                        f"{done.returncode} {done.stderr[-200:]!r} {odd}")
        missing = subprocess.run([*words[:4], Path(folder) / "none"], env=environment, capture_output=True, check=False)
        tally.check("a tree that isn't there", missing.returncode != 0 and missing.stderr and not missing.stdout, str(missing))


def main():
    tally = Tally()
    check_tree(tally, Path(sys.argv[1]).resolve(), int(sys.argv[2]) if len(sys.argv) > 2 else FILES)
    tally.finish()


if __name__ == "__main__":
    main()
