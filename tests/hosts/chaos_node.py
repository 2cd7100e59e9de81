#!/usr/bin/env python3
"""A node of tests/hosts/chaos.py: chaos_node.py STORE ENDS AFTER.

It opens the store, and does what each line of its standard input asks, which is JSON; it answers in a line of JSON. At
its write number ENDS to store or log, from 1, it ends itself at once: behind the write where AFTER is 1, else before it.
0 never ends it. Some writes to the log bring an earlier forget once more, as a client does that waited in vain for its answer.
"""

import json
import os
import random
import sys
from contextlib import contextmanager, suppress
from pathlib import Path

from npss import Refused
from npss_registry import InUse, LogAway, LogBroken, NotOneChain, Version
from npss_registry.logs import SqliteLog, kind_of
from npss_registry.records import Forget, read, spelled
from npss_registry.registry import Registry
from npss_registry.store import Store


class Ends:
    """Counts the writes to store and log, and ends the process at one."""

    def __init__(self, number, behind):
        self.left = number
        self.behind = behind

    @contextmanager
    def write(self):
        self.left -= 1
        if self.left == 0 and not self.behind:
            os._exit(9)
        yield
        if self.left == 0:
            os._exit(9)


# How many of the writes to the log bring a forget once more.
REPEATED = 0.2


def kinds():
    """The kinds of logs of which there is what they want."""
    found = [SqliteLog]
    for name in ("redis://", "postgresql://", "etcd://"):
        with suppress(LogAway):
            found.append(kind_of(name))
    return found


def hooked(ends, source, repeated=REPEATED):
    """Store and logs whose writes are counted."""
    commit, appends = Store.transaction, {log: (log.append, log.begin, log.keep, log.trim) for log in kinds()}

    @contextmanager
    def transaction(self, again=False):
        with ends.write(), commit(self, again):
            yield

    def append_of(call):
        forgets = []

        def append(self, records):
            with ends.write():
                places = call(self, records)
            forgets.extend((shard, record) for shard, body in records if isinstance(record := read(0, body), Forget))
            if forgets and source.random() < repeated:
                shard, forget = source.choice(forgets)
                with ends.write(), suppress(LogAway):
                    call(self, [(shard, spelled(forget))])
            return places
        return append

    def counted(call):
        def one(self, *given):
            with ends.write():
                call(self, *given)
        return one

    Store.transaction = transaction
    for log, (append, *others) in appends.items():
        log.append = append_of(append)
        log.begin, log.keep, log.trim = map(counted, others)


def outcome_fields(outcome):
    holder = outcome.holder
    return {"what": outcome.what, "place": holder and holder.place, "string": holder and holder.string}


def rows_of(registry):
    """All that is registered."""
    return [[row.place, row.string, row.key, row.owner, row.parked, row.caseless]
            for shard in registry.shards for row in registry.store.registrations(shard.number)]


def done(registry, asked):
    """What a request comes to."""
    what = asked["do"]
    if what == "claim":
        return outcome_fields(registry.claim(asked["name"], asked["owner"]))
    if what == "forget":
        return outcome_fields(registry.forget(asked["name"]))
    if what == "read":
        registry.catch_up()
        return {"what": "read"}
    if what == "find":
        return {"what": "found", "holders": [(row.string, row.owner) for row in registry.find(asked["name"])]}
    if what == "same":
        registry.catch_up()
        return {"what": str(registry.same(asked["left"], asked["right"]))}
    if what == "upgrade":
        version = Version(*(Path(name).read_bytes() for name in asked["files"]))
        return {"what": "upgraded", "parked": len(registry.upgrade(version))}
    return {"what": "registered", "rows": rows_of(registry)}


def answer(registry, asked):
    """The answer to a request; a refusal is one too."""
    try:
        return done(registry, asked)
    except (Refused, LogAway, NotOneChain) as error:
        return {"what": "refused", "why": type(error).__name__}


def main():
    store, number, behind = sys.argv[1], int(sys.argv[2]), sys.argv[3] == "1"
    hooked(Ends(number, behind), random.Random(number))
    try:
        registry = Registry(store)
    except (LogAway, InUse):  # a trim reads it on just now
        sys.exit(5)
    print(json.dumps({"what": "opened"}), flush=True)
    for line in sys.stdin:
        try:
            reply = answer(registry, json.loads(line))
        except LogBroken as error:
            reply = {"what": "broken", "why": str(error)}
        print(json.dumps(reply), flush=True)
    registry.close()


if __name__ == "__main__":
    main()
