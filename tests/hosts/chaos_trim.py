#!/usr/bin/env python3
"""The trims of tests/hosts/chaos.py. As a program: chaos_trim.py ENDS AFTER PATIENCE PROGRAM STORE.., which trims the log of stores.

As chaos_node.py it ends itself at a write. Status 0 where it came to its end, and 5 where the log, or a store, was away: then
nothing was deleted.
"""

import json
import random
import subprocess
import sys
import threading
import time
from pathlib import Path

from chaos_node import Ends, hooked, rows_of
from npss_registry import LogAway, Registry, Version, init
from npss_registry.errors import StoreAway
from npss_registry.judge import Judge
from npss_registry.trim import trim

# So many seconds a store may take to read on, meanwhile and in the end.
PATIENCE, IN_THE_END = 5, 60


class Trims(threading.Thread):
    """Trims the log of all stores now and then, beside the nodes; some trims end at a write."""

    def __init__(self, chaos, seed, writes):
        super().__init__()
        self.chaos, self.source, self.writes = chaos, random.Random(seed), writes
        self.done = 0

    def run(self):
        while time.time() < self.chaos.end:
            time.sleep(self.source.uniform(0.5, 3))
            self.trim(self.source.choice((0, 0, self.source.randint(1, self.writes))), PATIENCE)

    def trim(self, number, patience):
        """Trims once, perhaps up to a write; whether it came to its end."""
        words = [sys.executable, __file__, number, self.source.randint(0, 1), patience, self.chaos.program, *self.chaos.stores()]
        ran = subprocess.run(list(map(str, words)), stdin=subprocess.DEVNULL, stdout=subprocess.PIPE, stderr=subprocess.PIPE, text=True, check=False)
        if ran.returncode == 0:
            self.chaos.answers.broken += json.loads(ran.stdout)["findings"]
            self.done += 1
        elif ran.returncode not in (5, 9):
            self.chaos.answers.broken.append(f"a trim ended with status {ran.returncode}: {ran.stderr[-400:]}")
        return ran.returncode == 0


def check_trimmed(tally, chaos, rows):
    """The log is trimmed once more; a store that is made behind it registers the same as the others."""
    meanwhile = chaos.trims.done
    tally.check("the log is trimmed in the end", any(chaos.trims.trim(0, IN_THE_END) for _ in range(3)), chaos.answers.broken)
    path, version = str(chaos.folder / "anew"), Version(*(Path(name).read_bytes() for name in chaos.files[-1]))
    init(path, version, None, chaos.servers.name("chaos"))
    node = Registry(path)
    node.catch_up()
    tally.same("what a store registers that is made behind a trim", rows_of(node), rows)
    node.close()
    judge = Judge([*chaos.stores(), path], chaos.program)
    tally.same("the judge behind a trim", judge.run(), [])
    judge.close()
    tally.same("no store lacked what was trimmed", chaos.answers.broken, [])
    print(f"{meanwhile} times trimmed meanwhile")


def main():
    number, behind, patience, program, *stores = sys.argv[1:]
    hooked(Ends(int(number), behind == "1"), random.Random(0), repeated=0)
    try:
        done = trim(stores, program, float(patience))
    except (LogAway, StoreAway):
        sys.exit(5)
    print(json.dumps({"findings": done.findings, "records": done.records, "names": done.names}))


if __name__ == "__main__":
    main()
