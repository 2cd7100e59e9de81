"""A new log from what stores have read, where the old one lost its tail, is gone, or is given up for another one.

It goes in steps, each of which can be done again: the old logs get an end, at which nodes stop that weren't named; stores
read them on up to there; they are marked, so that no node opens them; the new log is written; each store goes over to it
within a transaction, and has read it then. A call that was cut off is called again, and goes on.
"""

import os
import secrets
from collections.abc import Iterator, Sequence
from contextlib import ExitStack, suppress
from dataclasses import dataclass, replace
from typing import Optional

from npss import Node

from npss_registry import records
from npss_registry.errors import LogAway, LogBroken, StoreError
from npss_registry.examine import Examiner
from npss_registry.ledger import Ledger
from npss_registry.logs import Log, check_name, last_bodies, located, open_log, scheme_of, shown, whole
from npss_registry.logs.names import address
from npss_registry.logs.sqlite_log import make_file
from npss_registry.records import Claim, End, Setup
from npss_registry.registry import is_whole, setup_of
from npss_registry.shards import Shard
from npss_registry.store import Registration, Store

# So many records are written together.
BATCH = 1000


@dataclass(frozen=True)
class Lost:
    """A registration that a store had, and the new log has not."""

    store: str
    registration: Registration


@dataclass(frozen=True)
class Relogged:
    """How many strings are registered in the new log, what stores had registered that isn't, and which old logs have no end.

    Nodes that weren't named go on over an old log without an end.
    """

    registered: int
    lost: list[Lost]
    without_end: list[str]


def relog(paths: Sequence[str], log_name: str, source: Optional[str] = None) -> Relogged:
    """Brings stores over to a log, which is begun where there is none by what the store registers that has read farthest.

    `source` is the path of another one of the stores, which is to be taken instead.
    StoreError of stores that have read nothing or are of two registries, and of a log in which something else stands.
    """
    check_name(log_name)
    with ExitStack() as opened:
        stores = [_opened(path, opened) for path in paths]
        if not stores:
            raise StoreError("no store was named")
        if source is not None and not any(_is_store(store, source) for store in stores):
            raise StoreError(f"{source}: it is not among the stores that go over")
        without_end = _bring_over(stores, located(log_name, stores[0].folder), source)
        registered = sum(stores[0].count(shard) for shard in range(stores[0].setup.shards))
        done = Relogged(registered, [Lost(store.path, row) for store in stores for row in store.lost()], without_end)
    return done


def _opened(path: str, opened: ExitStack) -> Store:
    store = Store(path)
    opened.callback(store.close)
    return store


def _bring_over(stores: Sequence[Store], target: str, source: Optional[str]) -> list[str]:
    """Brings the stores over that aren't yet. Answers the old logs that have no end."""
    going = [store for store in stores if store.moving is not None or not _is_log(store.log, target)]
    if not going:
        return []
    for store in going:
        _check_store(store, going[0], target)
    if not scheme_of(target):
        make_file(target, stores[0].path)
    log = open_log(target, "make")
    try:
        return _Moving(going, log, target, source).run()
    finally:
        log.close()


def _is_store(store: Store, path: str) -> bool:
    return os.path.realpath(store.path) == os.path.realpath(path)


def _is_log(one: str, other: str) -> bool:
    """Whether two names are those of one log, whoever asks it and by which password."""
    if scheme_of(one) or scheme_of(other):
        return address(one) == address(other)
    return os.path.realpath(one) == os.path.realpath(other)


def _check_store(store: Store, first: Store, target: str) -> None:
    """StoreError where a store can't go over to a log beside another one."""
    if store.setup != first.setup:
        raise StoreError(f"{store.path} and {first.path} are of two registries, or over two logs of one")
    if not any(store.places()):
        raise StoreError(f"{store.path}: it has read nothing of its log; leave it out, and make it anew by `npss-registry init`")
    if store.moving is not None and not _is_log(store.moving, target) and _is_begun(store.moving):
        raise StoreError(f"{store.path}: it goes over to {shown(store.moving)} already; call relog with that log again")


class _Moving:
    """Stores that go over to a log."""

    def __init__(self, stores: Sequence[Store], log: Log, target: str, source: Optional[str]):
        self._stores = stores
        self._log = log
        self._target = target
        # The stores that may be taken: all, also where the one that was named has gone over already.
        self._sources = [store for store in stores if source is not None and _is_store(store, source)] or stores
        self._marked = all(store.moving is not None and _is_log(store.moving, target) for store in stores)
        self._old = stores[0].setup

    def run(self) -> list[str]:
        """Does all steps that are left. Answers the old logs that have no end."""
        begun = self._begun()
        without_end = sorted({shown(store.log) for store in self._stores if not self._end(store)})
        self._mark(begun is not None and is_whole(self._log, begun))
        if begun is None or not is_whole(self._log, begun):
            self._fill(begun)
        for store in self._stores:
            self._go_over(store)
        return without_end

    # ---- what has to be so

    def _begun(self) -> Optional[Setup]:
        """The setup of the log; None of an empty one. StoreError where it doesn't go on from that of the stores."""
        setup = setup_of(self._log, 0)
        if setup is None:
            return None
        name = shown(self._target)
        if setup.name and setup.name == self._old.name:
            raise StoreError(f"{name} is the log of {self._stores[0].path} already, by another name")
        # Logs without a name can't be told from one another.
        if setup.before != _name_of(self._old) or not (self._old.name or self._marked):
            raise self._foreign()
        if any(isinstance(record, End) for record in _last_records(self._log, setup.shards)):
            raise StoreError(f"{name}: it has ended itself; make the stores anew by `npss-registry init` over the log in which the registry goes on")
        return setup

    def _foreign(self) -> StoreError:
        return StoreError(f"{shown(self._target)}: there is a log already that doesn't go on from that of {self._stores[0].path}; name a new one")

    # ---- the old logs

    def _end(self, store: Store) -> bool:
        """Writes an end into a store's log, and reads the store on up to there. Whether the log has an end then."""
        try:
            log = open_log(store.log)
        except (LogAway, StoreError):
            return False
        try:
            if setup_of(log, 0) != store.setup:
                return False
            _write_end(log, store.setup.shards, shown(self._target))
            for shard in range(store.setup.shards):
                with suppress(LogBroken, StoreError):  # it stays where it is, on a branch of its own
                    _read_on(store, log, shard)
            return True
        finally:
            log.close()

    def _mark(self, is_late: bool) -> None:
        """Marks the stores that aren't yet, and writes into each what will be lost. `is_late` is whether the log is whole already."""
        lost = {store.path: list(self._lost_late(store) if is_late else self._lost(store)) for store in self._stores}
        for store in self._stores:
            if store.moving != self._target:
                store.begin_moving(self._target, lost[store.path])

    def _farthest(self, shard: int) -> Store:
        """The store that has read a shard farthest, of those that may be taken."""
        return max(self._sources, key=lambda store: store.shard(shard).place)

    def _lost(self, store: Store) -> Iterator[tuple[int, Registration]]:
        """What a store registers that the one that is taken doesn't, nor read that it was given up; each with its shard."""
        for shard in range(store.setup.shards):
            past = list(self._farthest(shard).past(shard))
            known = {(row.place, row.string, row.owner) for row in past}
            kept = {(row.string, row.owner) for row in past if row.ended is None}
            for row in store.registrations(shard):
                if (row.place, row.string, row.owner) not in known and (row.string, row.owner) not in kept:
                    yield shard, row

    def _lost_late(self, store: Store) -> Iterator[tuple[int, Registration]]:
        """What a store registers that a log which others have begun never did; each with its shard."""
        tables, setup = store.versions()[-1].tables(), setup_of(self._log, 0)
        if setup is None:
            return
        for shard in range(store.setup.shards):
            known = {(one.string, one.owner) for one in Ledger(Examiner(setup, shard, tables), self._log).all}
            yield from ((shard, row) for row in store.registrations(shard) if (row.string, row.owner) not in known)

    # ---- the new log

    def _fill(self, begun: Optional[Setup]) -> None:
        """Writes the new log, or what of it isn't there yet."""
        wanted = [list(self._farthest(shard).registrations(shard)) for shard in range(self._old.shards)]
        if begun is None:
            setup = replace(self._old, name=secrets.token_hex(16), before=_name_of(self._old))
            self._log.begin([(shard, records.spelled(replace(setup, kept=len(rows)))) for shard, rows in enumerate(wanted)])
        missing = [one for shard, rows in enumerate(wanted) for one in self._missing(shard, rows)]
        for at in range(0, len(missing), BATCH):
            self._log.append(missing[at:at + BATCH])

    def _missing(self, shard: int, rows: Sequence[Registration]) -> Iterator[tuple[int, bytes]]:
        """The claims of registrations that aren't in the new log yet; those that are have to be the first ones."""
        setup, *found = [records.read(place, body, caseless=self._old.caseless) for place, body in whole(self._log, shard)]
        if not isinstance(setup, Setup) or setup.kept != len(rows) or len(found) > len(rows):
            raise self._foreign()
        for record, row in zip(found, rows):
            if not isinstance(record, Claim) or (record.string, record.key, record.owner, record.caseless) != (row.string, row.key, row.owner, row.caseless):
                raise self._foreign()
        for row in rows[len(found):]:
            yield shard, records.spelled(records.claim_of(records.message(setup.form, row.string, row.key), row.owner, row.caseless))

    def _go_over(self, store: Store) -> None:
        """A store goes over to the new log, and has read it then."""
        setup = setup_of(self._log, 0)
        if setup is None:
            raise LogAway("the log: what was written to it isn't there")
        versions = store.versions()
        tables = versions[-1].tables()
        with store.transaction():
            store.move(self._target, setup, Node(tables, setup.form, setup.room).image())
            for number in range(setup.shards):
                _apply_all(Shard(number, store, self._log, tables, len(versions) - 1))
        store.note_opening()


def _name_of(setup: Setup) -> str:
    """The name of an earlier log, as a setup tells it."""
    return setup.name or "-"


def _is_begun(name: str) -> bool:
    """Whether a log can be opened, and has all that was to be carried over."""
    try:
        log = open_log(name, "read")
    except StoreError:
        return False
    try:
        setup = setup_of(log, 0)
        return setup is not None and is_whole(log, setup)
    finally:
        log.close()


def _last_records(log: Log, shards: int) -> list[Optional[records.RegistryRecord]]:
    """The last record of each shard; None of an empty one."""
    return [None if body is None else records.read(place, body) for place, body in last_bodies(log, shards)]


def _write_end(log: Log, shards: int, goes_on: str) -> None:
    """Writes an end into each shard that has none as its last record."""
    ends = [(shard, records.spelled(End(goes_on))) for shard, last in enumerate(_last_records(log, shards)) if not isinstance(last, End)]
    if ends:
        log.append(ends)


def _read_on(store: Store, log: Log, number: int) -> None:
    """Reads a shard of a store on up to its end."""
    versions = store.versions()
    shard = Shard(number, store, log, versions[-1].tables(), len(versions) - 1)
    with store.transaction():
        shard.note_restart()
        while shard.end is None and (piece := shard.read()):
            shard.apply(piece)
        shard.save()


def _apply_all(shard: Shard) -> None:
    """Reads a shard from its beginning, within a transaction of its store, and begins its journal."""
    while piece := shard.read():
        shard.apply(piece)
        shard.check_end()
    shard.begin_journal()
