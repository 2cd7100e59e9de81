"""Watches the prover's processes below a command: of which crate, and for its proof, its tests or its must-fail edits.

tests/repository/watching.py FILE COMMAND..: runs the command, and writes into FILE a line for each piece: minutes by the clock,
processor minutes, and its name. `bench/gate` and `./test` use it. The status is the command's.
"""

import os
import signal
import subprocess
import sys
import time
from pathlib import Path

ROOT = Path(__file__).resolve().parents[2]
PIECES = ("proof", "tests", "edits")
TICKS = os.sysconf("SC_CLK_TCK")
PAGE = os.sysconf("SC_PAGE_SIZE")
# How long is waited from one look to the next, in seconds.
PERIOD = 1.0


def state(process):
    """The number of the process's parent, its processor seconds so far and the bytes that it holds; None where it has ended."""
    try:
        fields = (process / "stat").read_text(encoding="utf-8", errors="replace").rpartition(")")[2].split()
        return int(fields[1]), (int(fields[11]) + int(fields[12])) / TICKS, int(fields[21]) * PAGE
    except (OSError, IndexError, ValueError):
        return None


def piece_of(process):
    """The crate that a prover's process checks, and for which piece; None for another process."""
    try:
        words = (process / "cmdline").read_bytes().decode(errors="replace").split("\0")
        if Path(words[0]).name != "rattle" or "--crate-name" not in words:
            return None
        folder = os.readlink(process / "cwd")
    except (OSError, IndexError, ValueError):
        return None
    piece = "edits" if Path(folder).parent != ROOT / "crates" else "tests" if "--test" in words else "proof"
    return words[words.index("--crate-name") + 1], piece


def is_below(number, top, states):
    """Whether the process is that one or was begun below it."""
    while number != top and number in states:
        number = states[number][0]
    return number == top


def look(top, now, seen):
    """Looks once at each prover's process below that one."""
    states = {int(one.name): found for one in Path("/proc").glob("[0-9]*") if (found := state(one))}
    held = {}
    for number, (_, seconds, memory) in states.items():
        key = piece_of(Path("/proc") / str(number))
        if key is not None and is_below(number, top, states):
            piece = seen.setdefault(key, {"first": now, "seconds": {}, "memory": 0})
            piece["last"], piece["seconds"][number] = now, seconds
            held[key] = held.get(key, 0) + memory
    for key, memory in held.items():
        seen[key]["memory"] = max(seen[key]["memory"], memory)


def watched(words):
    """Runs the command: its status, its minutes, and of each piece when it was seen first and last, each process's seconds and the most memory."""
    began, seen = time.monotonic(), {}
    with subprocess.Popen(words, cwd=ROOT, stdin=subprocess.DEVNULL) as run:
        signal.signal(signal.SIGTERM, lambda *_: run.terminate())
        while run.poll() is None:
            look(run.pid, (time.monotonic() - began) / 60, seen)
            time.sleep(PERIOD)
        return run.returncode, (time.monotonic() - began) / 60, seen


def main():
    status, _, seen = watched(sys.argv[2:])
    lines = [f"{piece['last'] - piece['first']:.1f}\t{sum(piece['seconds'].values()) / 60:.1f}\t{name} of {crate}\n" for (crate, name), piece in seen.items()]
    Path(sys.argv[1]).write_text("".join(lines), encoding="utf-8")
    return status


if __name__ == "__main__":
    sys.exit(main())
