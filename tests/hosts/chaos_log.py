"""The log's own faults, behind a run of tests/hosts/chaos.py: relog that is killed and called again, and logs that lost their past.

The stores are closed when it begins, and are so when it ends. Each part answers nothing; what doesn't hold is told to a tally.
"""

import contextlib
import json
import sqlite3
import subprocess
import sys
import threading
from pathlib import Path

from npss_registry import LogBroken, Registry
from npss_registry.judge import Judge
from npss_registry.relog import relog

HERE = Path(__file__).resolve().parent
# A relog is killed at one of so many writes.
WRITES = 24


class Log:
    """The bytes of a log, apart from the registry's code: they are kept, and put back."""

    def __init__(self, chaos, name):
        self._servers, self._shards, self._name = chaos.servers, chaos.setup.shards, name

    @property
    def name(self):
        return self._servers.name(self._name)

    def keep(self):
        """What puts back the log as it is now."""
        return self._servers.keep(self._name, self._shards)

    def bring_back(self, kept):
        self._servers.bring_back(self._name, kept)


def rows_of(path):
    """What a store registers, read apart from the registry's code."""
    with contextlib.closing(sqlite3.connect(path)) as base:
        return {string.decode(): owner for string, owner in base.execute("SELECT string, owner FROM registration WHERE ended IS NULL")}


def relogged(tally, chaos, stores, log):
    """Calls relog again and again, each time killed at a write, until it ends: what it told."""
    for left in reversed(range(5)):
        number = chaos.source.randint(1, WRITES) if left else 0
        words = [sys.executable, HERE / "chaos_relog.py", number, chaos.source.randint(0, 1), log, *stores]
        ran = subprocess.run(list(map(str, words)), stdout=subprocess.PIPE, stderr=subprocess.PIPE, text=True, check=False)
        if ran.returncode == 0:
            return json.loads(ran.stdout)
        if ran.returncode != 9:
            break
    tally.check("relog ends", False, ran.stderr[-500:])
    return {"registered": None, "lost": None, "without_end": None}


def check_stores(tally, chaos, paths, program, owners):
    """The stores register this, as they stand and by their nodes, and the judge is silent."""
    for path in paths:
        tally.same("what a store registers as it stands", rows_of(path), owners)
        node = Registry(str(path))
        node.catch_up()
        tally.same("how many a store's nodes keep", sum(len(shard.node) for shard in node.shards), len(owners))
        node.close()
    judge = Judge(list(map(str, paths)), program)
    tally.same("the judge behind a relog", judge.run(), [])
    judge.close()


def goes_on_beside(tally, chaos, path, begun):
    """A node that wasn't named goes on while relog runs: what it was answered before the log's end, by name and owner."""
    node, answered = Registry(str(path)), {}
    begun.set()
    try:
        for count in range(10_000):
            if node.claim(f"beside {count}", "b").what == "registered":
                answered[f"beside {count}"] = "b"
        tally.check("a node that wasn't named stops", False, "it goes on over the old log")
    except LogBroken as error:
        tally.check("a node that wasn't named is told where the registry goes on", "relog" in str(error), error)
    finally:
        node.abandon()
    return answered


def check_relog(tally, chaos, program):
    """Stores go over to another log by a relog that is killed, while a node that wasn't named goes on; then that comes over."""
    stores = [chaos.store(number) for number in range(len(chaos.nodes))]
    before, found, begun = rows_of(stores[0]), {}, threading.Event()
    beside = threading.Thread(target=lambda: found.update(goes_on_beside(tally, chaos, stores[-1], begun)))
    beside.start()
    begun.wait(30)
    done = relogged(tally, chaos, stores[:-1], Log(chaos, "second").name)
    beside.join()
    owners = {**before, **found}
    tally.same("what relog lost", (done["registered"], done["lost"]), (len(owners), []))
    tally.same("what the store loses that comes over later", relogged(tally, chaos, stores[-1:], Log(chaos, "second").name)["lost"], [])
    check_stores(tally, chaos, stores, program, owners)
    # Once more, to a third log, as somebody does who doesn't trust it.
    done = relogged(tally, chaos, stores, Log(chaos, "third").name)
    tally.same("what relog lost that was called again", (done["registered"], done["lost"]), (len(owners), []))
    check_stores(tally, chaos, stores, program, owners)
    return owners


def claimed(tally, path, names, owner):
    """Claims names at a store's node; each is registered."""
    node = Registry(str(path))
    tally.same("claims over the log", [node.claim(name, owner).what for name in names], ["registered"] * len(names))
    node.close()


def without(tally, path, owners):
    """Gives all names up, so that there is room."""
    node = Registry(str(path))
    tally.same("forgets that make room", {node.forget(name).what for name in owners}, {"forgotten"})
    node.close()
    return {}


def check_grown_again(tally, chaos, program, owners):
    """A log that lost its tail and has grown again with the same claims is never read on; relog keeps the branch that is chosen."""
    log, names = Log(chaos, "third"), [f"grown {count}" for count in range(8)]
    one, other, third = (chaos.store(number) for number in range(3))
    if chaos.setup.room <= len(owners) + len(names):
        owners = without(tally, one, owners)
    claimed(tally, one, names[:1], "g")
    for path in (other, third):
        claimed(tally, path, names[:1], "g")
    kept = log.keep()
    claimed(tally, one, names, "g")
    node = Registry(str(third))
    node.catch_up()
    log.bring_back(kept)
    # One owner is another one, where the last record is the same all the same.
    lost = names[1:2] if chaos.setup.shards == 1 else []
    for name in names:
        claimed(tally, other, [name], "h" if name in lost else "g")
    for what, asked in (("reading on", node.catch_up), ("a claim", lambda: node.claim("grown more", "g")), ("a start", lambda: Registry(str(one)))):
        check_broken(tally, f"{what} over a log that has grown again", asked)
    node.abandon()
    done = relog([str(path) for path in (one, other, third)], Log(chaos, "fourth").name, str(other))
    tally.same("what the branch that was chosen lost", sorted(row.registration.string for row in done.lost), sorted(lost * 2))
    check_stores(tally, chaos, [one, other, third], program, {**owners, **dict.fromkeys(names, "g"), **dict.fromkeys(lost, "h")})


def check_broken(tally, name, asked):
    """A node stops."""
    try:
        asked()
        tally.check(name, False, "it is read on")
    except LogBroken as error:
        tally.check(name, "another one" in str(error) or "missing" in str(error), error)


def check_brought_back(tally, chaos):
    """A log that is brought back older stops each node that has read more."""
    path = chaos.store(0)
    node = Registry(str(path))
    log = Log(chaos, node.store.log.partition("#")[2] or Path(node.store.log).name)
    kept = log.keep()
    outcome = node.claim("brought back", "k")
    node.close()
    if outcome.new:
        log.bring_back(kept)
        check_broken(tally, "a log that was brought back older", lambda: Registry(str(path)))


def check_log_faults(tally, chaos, program):
    """All of it, in turn."""
    owners = check_relog(tally, chaos, program)
    check_grown_again(tally, chaos, program, owners)
    check_brought_back(tally, chaos)
