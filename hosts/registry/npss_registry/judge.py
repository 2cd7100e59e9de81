"""The judge: follows what stores did by their journals and the log, has `npss replay` run it, and compares.

It works on copies of the stores, each of one moment, and on the log, which only grows: so nodes may go on meanwhile.
"""

import os
import sqlite3
import tempfile
from collections.abc import Collection, Iterator, Sequence
from contextlib import ExitStack
from dataclasses import dataclass
from typing import Optional, Union

from npss import Node, Tables

from npss_registry.caseless import CaselessKeys
from npss_registry.course import KINDS, Course, Judged, Stretch
from npss_registry.errors import Differs, LogAway, LogBroken, LogTrimmed, NoLog, NotOneChain, StoreError
from npss_registry.examine import Examiner
from npss_registry.ledger import Ledger, Registered
from npss_registry.logs import Log, open_log, shown
from npss_registry.records import Setup
from npss_registry.registry import described, setup_of
from npss_registry.replay import MOST_BYTES, MOST_EVENTS, Limits, Replay, first_apart, parts, scheduled
from npss_registry.shards import Shard, lacks
from npss_registry.store import Registration, ShardRow, Store, Version

# A stretch of a course has about so many moves, of which a schedule may need two events each.
_MOVES = 250_000


@dataclass(frozen=True)
class _World:
    """What all shards and stores are judged by."""

    setup: Setup
    log: Log
    chain: list[Version]
    tables: list[Tables]
    replay: Replay
    limits: Limits
    # Of a caseless log alone: what makes its caseless keys under the last version.
    caseless: Optional[CaselessKeys]


class Judge:
    """Holds the stores of one log against it, and against `npss replay`.

    `unjudged` has the strings of which no named store's version assigns each code point: their rows are compared alone.
    """

    def __init__(self, paths: Sequence[str], program: str = "npss", most_events: int = MOST_EVENTS, most_bytes: int = MOST_BYTES):
        if not paths:
            raise StoreError("no store was named")
        self.findings: list[str] = []
        self.unjudged: set[str] = set()
        self.events = 0
        with ExitStack() as opened:
            folder = opened.enter_context(tempfile.TemporaryDirectory())
            self._stores = self._copied(paths, folder, opened)
            # Each machine may reach the log by a name of its own: that it is one log, the running sums tell.
            log = open_log(self._stores[0].log, "read")
            opened.callback(log.close)
            setup = setup_of(log, 0)
            if setup is None:
                raise NoLog(shown(self._stores[0].log))
            alike = [store for store in self._stores if store.setup.caseless == setup.caseless]
            if not alike:
                raise Differs(f"{self._stores[0].path}: it was set up as {described(self._stores[0].setup)}; the log as {described(setup)}")
            chain, tables = _chain([store.versions() for store in alike], setup.caseless)
            files = _write_files(folder, chain)
            replay = Replay(program, folder, setup.form, setup.room, [name for two in files for name in two[:2]])
            caseless = CaselessKeys(program, setup.form, files[-1]) if setup.caseless else None
            self._world = _World(setup, log, chain, tables, replay, Limits(most_events, most_bytes), caseless)
            self._opened = opened.pop_all()

    def _copied(self, paths: Sequence[str], folder: str, opened: ExitStack) -> list[Store]:
        """Copies of the stores. One that can't be read is a finding, where others can."""
        stores = []
        for number, path in enumerate(paths):
            try:
                stores.append(Store.copied(path, os.path.join(folder, f"store{number}")))
                opened.callback(stores[-1].close)
                stores[-1].versions()
            except StoreError as error:
                self.findings.append(str(error))
                if len(self.findings) == len(paths):
                    raise
                stores = [store for store in stores if store.path != path]
        return stores

    @property
    def setup(self) -> Setup:
        """The log's."""
        return self._world.setup

    def examiner(self, shard: int) -> Examiner:
        """What examines the records of a shard, under the last version of the stores."""
        return Examiner(self._world.setup, shard, self._world.tables[-1])

    def close(self) -> None:
        """Removes the copies, and lets the log go."""
        self._opened.close()

    def run(self) -> list[str]:
        """What is not as the log and the replay have it: a line for each; none where all is right."""
        stores = [store for store in self._stores if self._check_store(store)]
        for shard in range(self._world.setup.shards):
            self._judge(shard, stores)
        return self.findings

    def _check_store(self, store: Store) -> bool:
        """Whether a store is one of the log's."""
        self._find(store.path, [f"the file is damaged: {fault}" for fault in store.faults()])
        if store.setup != self._world.setup:
            self._find(store.path, [f"it was set up as {described(store.setup)}; the log as {described(self._world.setup)}"])
            return False
        versions = zip(store.versions(), store.version_sums())
        if any((version.sums, version.tables().count) != found for version, found in versions):
            self._find(store.path, ["the sums or the count of a version are not those of its files"])
        return True

    def _find(self, where: str, whats: Sequence[str]) -> None:
        self.findings += [f"{where}: {what}" for what in whats]

    def _judge(self, shard: int, stores: Sequence[Store]) -> None:
        rows = [store.shard(shard) for store in stores]
        places = {place for row in rows for place in (row.place, row.image_place)}
        try:
            ledger = Ledger(self.examiner(shard), self._world.log, places)
        except LogBroken as error:
            self._find(f"shard {shard}", [str(error)])
            return
        self._compare_caseless(shard, ledger, stores)
        for store in stores:
            judged = _ShardJudge(self._world, store, ledger, shard)
            judged.run()
            self._find(f"shard {shard}, {store.path}", judged.findings)
            self.unjudged |= judged.unjudged
            self.events += judged.events


    def _compare_caseless(self, shard: int, ledger: Ledger, stores: Sequence[Store]) -> None:
        """Each caseless key of the log and of the stores is the one that the programs make under the last version."""
        if self._world.caseless is None:
            return
        found: dict[tuple[str, Optional[str]], str] = {}
        for one, where in _stand(shard, ledger, stores):
            found.setdefault((one.string, one.caseless), f"{where} has at place {one.place}")
        unjudged = {string for string, _ in found if self._world.tables[-1].first_unassigned(string)}
        self.unjudged |= unjudged
        answers = self._world.caseless.answers({string for string, _ in found} - unjudged)
        self.findings += [f"{where} {string!r} with the caseless key {key!r}; the program answers {answers[string]!r}"
                          for (string, key), where in found.items() if answers.get(string, f"={key}") != f"={key}"]


class _ShardJudge:
    """Judges a shard of a store."""

    def __init__(self, world: _World, store: Store, ledger: Ledger, shard: int):
        self._world, self._store, self._ledger, self._shard = world, store, ledger, shard
        self.findings: list[str] = []
        self.unjudged: set[str] = set()
        self.events = 0

    def run(self) -> None:
        try:
            row = self._store.shard(self._shard)
            if 0 < row.place < self._ledger.begin:
                raise LogTrimmed(row.place, self._ledger.begin)
            if row.place and row.base_place < self._ledger.begin:
                raise StoreError(f"its journal begins at place {row.base_place}, before the snapshot at place {self._ledger.begin}, with which the log begins")
            store, image, now = self._read(row)
        except LogTrimmed as error:
            self._check_trimmed(error)
            self.findings.append(str(error))
            return
        except (LogBroken, StoreError, sqlite3.Error, ValueError, IndexError) as error:
            self.findings.append(f"{type(error).__name__}: {error}")
            return
        self._compare_sums(row)
        self._compare_rows(store)
        if self._can_be_followed(store, row):
            course = Course(store, self._ledger, min(_MOVES, self._world.limits.events // 4))
            self._compare_end(course, row, image, now)
            self._compare_parked(course, store)
            self._replay(course)

    def _check_trimmed(self, error: LogTrimmed) -> None:
        """LogAway where the copy of the store alone stands before the log's first record, since the log was trimmed behind it."""
        now = Store(self._store.path, read_only=True)
        try:
            if now.places()[self._shard] >= error.first:
                raise LogAway("the log: it was trimmed while this store was judged; ask again")
        finally:
            now.close()

    def _read(self, row: ShardRow) -> tuple[Judged, Node, Node]:
        """What the store tells of the shard, its image, and the node that a start makes of it."""
        setup, tables, number = self._world.setup, self._world.tables, self._shard
        chain = [self._number(version) for version in self._store.versions()]
        base = Node.restore(tables[chain[row.base_version]], row.base, setup.form, setup.room)
        image = Node.restore(tables[chain[-1]], row.image, setup.form, setup.room)
        now = Shard(number, self._store, self._world.log, tables[chain[-1]], len(chain) - 1)
        rows = {one.place: one for one in self._store.past(number)}
        store = Judged(rows, self._store.journal(number), row.place, chain, row.base_version, row.base_place, [entry.string for entry in base])
        return store, image, now.node

    def _number(self, version: Version) -> int:
        return next(number for number, one in enumerate(self._world.chain) if one.sums == version.sums)

    # ---- what is compared with the log

    def _compare_sums(self, row: ShardRow) -> None:
        """What the store has read is what stands in the log now."""
        for what, place, total in (("place", row.place, row.sum), ("image", row.image_place, row.image_sum)):
            if total is not None and self._ledger.sums.get(place) != total:
                self.findings.append(f"the running sum at its {what} {place} is not that of the log: it has read another past")

    def _compare_rows(self, store: Judged) -> None:
        """The store's registrations are those of the log, up to the place where it stands, but for those whose ends were trimmed."""
        wanted = {one.place: (one.string, *_keys(one), one.owner, one.ended if one.ended and one.ended <= store.place else None)
                  for one in self._ledger.all if one.place <= store.place}
        found = {row.place: (row.string, *_keys(row), row.owner, row.ended) for row in store.rows.values()
                 if row.ended is None or row.ended > self._ledger.begin}
        for place in sorted(wanted.keys() | found.keys()):
            if wanted.get(place) != found.get(place):
                self.findings.append(f"at place {place} the log has {wanted.get(place)}, the store {found.get(place)}")

    def _can_be_followed(self, store: Judged, row: ShardRow) -> bool:
        """Whether a course can be made of the store's journal: it has events that a node writes, and all of them stand in the log."""
        if len(store.journal) != row.events:
            self.findings.append(f"its journal has {len(store.journal)} events, and had {row.events}")
        active, places = self._ledger.active(store.base_place), {one.place for one in self._ledger.all}
        unknown = [repr(event) for event in store.journal if event.event not in KINDS or not 0 <= event.version < len(store.chain)]
        others = [repr(string) for string in store.base if string not in active]
        others += [f"place {event.place}" for event in store.journal if event.event == "taken" and event.place not in places]
        if unknown:
            self.findings.append(f"its journal has what no node wrote: {', '.join(unknown[:5])}")
        if others:
            self.findings.append(f"its node kept what the log doesn't register: {', '.join(others[:5])}")
        return not unknown and not others

    # ---- what is compared with the course

    def _compare_end(self, course: Course, row: ShardRow, image: Node, now: Node) -> None:
        """Image and node keep what they have to keep, in the order in which it came."""
        if course.saved_place != row.image_place:
            self.findings.append(f"its image is of place {row.image_place}, the last save of {course.saved_place}")
        for what, node, held in (("image", image, course.saved.values()), ("node", now, course.held)):
            apart = first_apart([(entry.string, entry.key) for entry in node], [(one.string, one.key) for one in held])
            if apart:
                self.findings.append(f"its {what} has {apart}")

    def _compare_parked(self, course: Course, store: Judged) -> None:
        """Parked is what is registered and not kept."""
        kept = {one.place for one in course.held}
        for row in store.rows.values():
            wanted = row.ended is None and row.place not in kept
            if row.parked != wanted:
                self.findings.append(f"{row.string!r} at place {row.place} is {'' if row.parked else 'not '}parked, and has to be {'' if wanted else 'not '}so")

    # ---- what the replay says

    def _replay(self, course: Course) -> None:
        for number, stretch in enumerate(course.stretches):
            touched = {move.one.string for move in stretch.moves if move.one is not None}
            if number == 0:
                touched.update(one.string for one in stretch.held)
            unjudged = {string for string in touched if self._world.tables[-1].first_unassigned(string)}
            self._compare_unjudged(stretch, unjudged)
            for part in parts(stretch, touched - unjudged, self._world.limits):
                self._replay_part(stretch, part)

    def _replay_part(self, stretch: Stretch, part: Collection[str]) -> None:
        schedule = scheduled(stretch, part)
        replies, kept = self._world.replay.run(schedule, stretch.version)
        self.events += len(schedule.lines)
        for line, reply, found in zip(schedule.lines, schedule.replies, replies):
            if reply != found:
                self.findings.append(f"event {line[:200]!r}: the store has {reply!r}, the replay {found!r}")
        apart = first_apart([(one.string, one.key) for one in stretch.end if one.string in part], kept)
        if apart:
            self.findings.append(f"by the log its node keeps, and by the replay: {apart}")

    def _compare_unjudged(self, stretch: Stretch, strings: Collection[str]) -> None:
        """Names that the log's node can't accept: each version lacks a code point of them, and so has to say."""
        self.unjudged.update(strings)
        version = stretch.version
        for move in stretch.moves:
            if move.what in ("upgrade", "restart"):
                version = move.version
            elif move.what == "deliver" and move.one is not None and move.one.string in strings:
                self._compare_lacks(move.one, move.reply, self._world.tables[version])

    def _compare_lacks(self, one: Registered, reply: str, tables: Tables) -> None:
        error = tables.first_unassigned(one.string)
        wanted = lacks(error) if error is not None else "kept"
        if reply != wanted:
            self.findings.append(f"{one.string!r} at place {one.place}: the store has {reply!r}, its version {wanted!r}")


def _stand(shard: int, ledger: Ledger, stores: Sequence[Store]) -> Iterator[tuple[Union[Registered, Registration], str]]:
    """All registrations of the log and of its stores, each with where it stands."""
    yield from ((one, f"shard {shard}: the log") for one in ledger.all)
    yield from ((row, f"shard {shard}, {store.path}: the store") for store in stores for row in store.past(shard))


def _keys(one: Union[Registered, Registration]) -> tuple[str, ...]:
    """The key of a registration, and its caseless one where it has that."""
    return (one.key,) if one.caseless is None else (one.key, one.caseless)


def _chain(chains: Sequence[Sequence[Version]], caseless: bool) -> tuple[list[Version], list[Tables]]:
    """The versions of all stores as one chain, the earliest first, each once."""
    by_sums = {version.sums: version for chain in chains for version in chain}
    opened = sorted(((version.tables(), version) for version in by_sums.values()), key=lambda pair: pair[0].count)
    for (older, _), (newer, _) in zip(opened, opened[1:]):
        first = newer.first_break(older, caseless)
        if first is not None:
            raise NotOneChain(first)
    return [version for _, version in opened], [tables for tables, _ in opened]


def _write_files(folder: str, chain: Sequence[Version]) -> list[list[str]]:
    """Writes the files of a chain into a folder, and answers their paths, those of each version by themselves."""
    return [_write_version(folder, number, version) for number, version in enumerate(chain)]


def _write_version(folder: str, number: int, version: Version) -> list[str]:
    files = []
    for name, content in (("data", version.data), ("exclusions", version.exclusions), ("folding", version.folding)):
        if content is not None:
            files.append(os.path.join(folder, f"{name}{number}"))
            with open(files[-1], "wb") as file:
                file.write(content)
    return files
