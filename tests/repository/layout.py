#!/usr/bin/env python3
"""Each crate's files are in the toolchain's layout, that of `rt fmt`.

A check of a crate doesn't ask for it. The gate does, but only as it comes to the crate, which may be half an hour after its
beginning. So it is asked here, by the command that the gate asks, which writes nothing. Ends in a line 'N passed, M failed'.
"""

import shutil
import subprocess
import sys
from pathlib import Path

# Nothing is written into the tree.
sys.dont_write_bytecode = True
sys.path.insert(0, str(Path(__file__).resolve().parent.parent))

from harness import ROOT, Tally

PARTS = ("src", "specs", "proofs")
ENDINGS = (".rt", ".antt")


def files_of(crate):
    """The crate's files that have a layout."""
    return sorted(file.relative_to(ROOT) for part in PARTS for file in (crate / part).rglob("*") if file.suffix in ENDINGS)


def check_crate(tally, tool, crate):
    """All files of a crate; the tool names those that aren't in the layout."""
    ran = subprocess.run([tool, "fmt", "--check", *files_of(crate)], cwd=ROOT, stdin=subprocess.DEVNULL, stdout=subprocess.PIPE, stderr=subprocess.STDOUT,
                         text=True, check=False)
    tally.check(f"the files of {crate.name} are in the layout", ran.returncode == 0,
                f"{ran.stdout.strip()}; `rt fmt` in its folder lays them out")


def main():
    tally, kit = Tally(), shutil.which("rt")
    tally.check("the toolchain is on the path", kit is not None, "there is no rt")
    for source in sorted(ROOT.glob("crates/*/src")) if kit else ():
        check_crate(tally, Path(kit).resolve().with_name("rattle"), source.parent)
    tally.finish()


if __name__ == "__main__":
    main()
