#!/usr/bin/env python3
"""What a run of ./test left on the machine: tests/repository/leftovers.py [--before] ROOM.

ROOM is the run's folder, which its processes have as NPSS_TEST_RUN, with `temporary` in it for their temporary files.
With --before what is there is noted in ROOM; without it all that came since is a failure: a process of the run, a file in
`temporary`, a network namespace, shared memory of PostgreSQL, a cluster of Debian's, a folder of ours in the system's
temporary folder. A process that is about to end is waited for. Ends in a line 'N passed, M failed'.
"""

import argparse
import json
import os
import sys
import time
from pathlib import Path

sys.path.insert(0, str(Path(__file__).resolve().parent.parent))

from harness import Tally

# Where what a run makes can outlive it, and by which names.
PLACES = {"network namespaces": ("/run/netns", "*"), "shared memory": ("/dev/shm", "PostgreSQL.*"), "clusters": ("/etc/postgresql", "*/*"),
          "temporary folders": ("/tmp", "npss[-_]*")}
# How long a process may take to end, in seconds.
PATIENCE = 10


def named():
    """What is at each place, by name."""
    return {name: sorted(map(str, Path(folder).glob(pattern))) for name, (folder, pattern) in PLACES.items()}


def processes(room):
    """The processes of the run but this one and those that wait for it: number and words."""
    own, number = set(), os.getpid()
    while number:
        own.add(number)
        number = int(Path(f"/proc/{number}/stat").read_text(encoding="utf-8", errors="replace").rpartition(")")[2].split()[1])
    found = []
    for process in Path("/proc").glob("[0-9]*"):
        try:
            words, environment = (process / "cmdline").read_bytes(), (process / "environ").read_bytes()
        except OSError:
            continue
        is_of_run = f"NPSS_TEST_RUN={room}".encode() in environment.split(b"\0") or str(room).encode() in words
        if is_of_run and int(process.name) not in own:
            found.append(f"{process.name} {words.decode(errors='replace').replace(chr(0), ' ').strip()}")
    return found


def ended(room):
    """The processes of the run that haven't ended after a while."""
    until = time.monotonic() + PATIENCE
    while processes(room) and time.monotonic() < until:
        time.sleep(0.2)
    return processes(room)


def main():
    parser = argparse.ArgumentParser()
    parser.add_argument("--before", action="store_true")
    parser.add_argument("room", type=Path)
    words = parser.parse_args()
    note = words.room / "before.json"
    if words.before:
        note.write_text(json.dumps(named()), encoding="utf-8")
        return
    tally = Tally()
    tally.same("processes that go on", ended(words.room), [])
    tally.same("temporary files", sorted(path.name for path in (words.room / "temporary").iterdir()), [])
    before = json.loads(note.read_text(encoding="utf-8"))
    for name, there in named().items():
        tally.same(f"{name} that are left", sorted(set(there) - set(before[name]) - {str(words.room)}), [])
    tally.finish()


if __name__ == "__main__":
    main()
