"""A registry's node: a store, a log, and what a client may ask of them."""

import os
import secrets
import threading
from collections.abc import Iterable, Iterator, Sequence
from contextlib import contextmanager
from dataclasses import dataclass, replace
from typing import Optional, Union

from npss import Node, Refused, Tables

from npss_registry import records
from npss_registry.errors import Differs, LogAway, LogBroken, NameTooLong, NoLog, NotOneChain, StoreError
from npss_registry.layout import create
from npss_registry.logs import PIECE, Log, check_name, located, open_log, shown, size_of
from npss_registry.records import Claim, Forget, Setup, Snapshot
from npss_registry.shards import Outcome, Shard
from npss_registry.store import Registration, Store, Version

MOST_SHARDS = 1024
# Pieces of shards are applied together up to so many bytes.
BYTES = 1 << 24
# A name of a new registry has at most so many bytes, where nobody says otherwise.
MOST_BYTES = 1024


@dataclass(frozen=True)
class ShardStatus:
    """How far a shard was read, the place of the log's last record, how many names are registered, which are parked.

    `last` is None where the log is away.
    """

    shard: int
    place: int
    last: Optional[int]
    registered: int
    parked: list[Registration]


def init(path: str, version: Version, setup: Optional[Setup], log_name: str) -> Setup:
    """Makes a store over a log, and sets the log up where nobody has. Without a setup the log's own is taken.

    Where it tells 0 for the most bytes of a name, a new log allows 1,024, and of another one they are taken. That a log is caseless
    is taken too, where the setup doesn't say so. A relative path of the log counts from the store's folder. Differs where the setup
    isn't the log's. StoreError of a log that `relog` has begun and not ended, of a version without CaseFolding.txt where the log
    is caseless, and of one with it where the log isn't.
    """
    check_name(log_name)
    tables = version.tables()
    if os.path.lexists(path):
        raise StoreError(f"{path}: there is a file of this name already")
    log = open_log(located(log_name, os.path.dirname(os.path.realpath(path))), "make")
    try:
        found = setup_of(log, 0)
        if found is None:
            wanted = setup or Setup("nfc", 65536, 1, False, most_bytes=0)
            check_files(version, wanted)
            _set_up(log, replace(wanted, most_bytes=wanted.most_bytes or MOST_BYTES))
            found = setup_of(log, 0)
            if found is None:
                raise LogAway("the log: its setup could not be written")
        if setup is not None and _filled(setup, found) != found:
            raise Differs(f"the log was set up otherwise: {described(found)}")
        check_files(version, found)
        check_whole(log, found, log_name)
    finally:
        log.close()
    create(path, found, log_name, version, Node(tables, found.form, found.room).image())
    return found


def _filled(setup: Setup, found: Setup) -> Setup:
    """A setup as it was named, with what is taken from that of a log."""
    return replace(setup, name=found.name, most_bytes=setup.most_bytes or found.most_bytes, caseless=setup.caseless or found.caseless)


def check_files(version: Version, setup: Setup) -> None:
    """StoreError where a version hasn't the files that a log wants."""
    if setup.caseless and version.folding is None:
        raise StoreError("the log is caseless: a version has a third file there, CaseFolding.txt, behind the other two")
    if not setup.caseless and version.folding is not None:
        raise StoreError("the log is not caseless: a version has two files there, and no CaseFolding.txt; `npss-registry init --caseless` "
                         "begins a log that is")


def described(setup: Setup) -> str:
    """A setup for people."""
    return (f"form {setup.form}{', caseless' if setup.caseless else ''}, room {setup.room}"
            + f", shards {setup.shards}, equivalents {'allowed' if setup.equivalents else 'refused'}"
            + f", names of at most {setup.most_bytes} bytes" + (f", name {setup.name}" if setup.name else ""))


def setup_of(log: Log, shard: int) -> Optional[Setup]:
    """The setup that a shard's first record tells; None of an empty one."""
    first = log.read(shard, 0, 1)
    if not first:
        return None
    found = records.read(*first[0])
    setup = found.setup if isinstance(found, Snapshot) else found
    if not isinstance(setup, Setup):
        raise LogBroken(first[0][0], "the first record is no setup")
    return setup


def _set_up(log: Log, setup: Setup) -> None:
    if not 1 <= setup.shards <= MOST_SHARDS:
        raise StoreError(f"a registry has 1 to {MOST_SHARDS} shards, not {setup.shards}")
    if not 0 <= setup.room <= 65536:
        raise StoreError(f"a shard has room for 0 to 65536 strings, not {setup.room}")
    named = replace(setup, name=secrets.token_hex(16))
    log.begin([(shard, records.spelled(named)) for shard in range(setup.shards)])


def check_whole(log: Log, setup: Setup, name: str) -> None:
    """StoreError where `relog` has begun a log and has not carried all over."""
    if not is_whole(log, setup):
        raise StoreError(f"{shown(name)}: `npss-registry relog` has begun this log and not ended; call it again first")


def is_whole(log: Log, setup: Setup) -> bool:
    """Whether what a log says to be carried over stands in it."""
    return all(_carried(log, shard) for shard in range(setup.shards))


def _carried(log: Log, shard: int) -> bool:
    """Whether behind a shard's setup so many records stand as it tells."""
    setup = setup_of(log, shard)
    if setup is None:
        return False
    at, left = log.read(shard, 0, 1)[0][0], setup.kept
    while left > 0:
        piece = log.read(shard, at, min(left, PIECE))
        if not piece:
            return False
        at, left = piece[-1][0], left - len(piece)
    return True


class Registry:
    """The node of a store. It serves one thread at a time, and keeps others waiting.

    Raises NoLog where its log isn't there, Differs where it is another registry's, and LogBroken where it isn't the one that was read.
    """

    def __init__(self, path: str, store: Optional[Store] = None):
        """Over the store of a path; one that is open already is left open where this fails."""
        self._lock = threading.RLock()
        self._ended = False
        self.store = store or Store(path)
        try:
            if self.store.moving is not None:
                raise StoreError(f"{path}: `npss-registry relog` into {shown(self.store.moving)} was begun and has not ended; call it again")
            self.setup = self.store.setup
            self._use(self.store.versions()[-1].tables())
            self.log = open_log(self.store.log)
            try:
                self._begin()
            except BaseException:
                self.log.close()
                raise
        except BaseException:
            if store is None:
                self.store.close()
            raise

    def _use(self, tables: Tables) -> None:
        """Goes by these tables from now on."""
        self.tables = tables
        self._speller = Node(tables, self.setup.form, 1)

    def _begin(self) -> None:
        self._check_setup(setup_of(self.log, 0))
        version = len(self.store.versions()) - 1
        self.shards = [Shard(number, self.store, self.log, self.tables, version) for number in range(self.setup.shards)]
        with self.store.transaction():
            if self.store.was_brought_back:
                self.store.rename_node()
                for shard in self.shards:
                    shard.begin_journal()
            else:
                for shard in self.shards:
                    shard.note_restart()
            self.store.count_opening()
        self.store.note_opening()

    def _check_setup(self, found: Optional[Setup]) -> None:
        """The log is the one that this store's registry has."""
        if found is None and not any(self.store.places()):
            raise NoLog(shown(self.store.log))
        if found is None:
            raise LogBroken(0, "nothing stands in it any more; see `npss-registry relog`")
        if found.name != self.setup.name and replace(found, name=self.setup.name) == self.setup:
            raise Differs(f"{shown(self.store.log)} is another registry's log: its name is {found.name or 'none'}, the store's {self.setup.name or 'none'}")
        if found != self.setup:
            raise Differs(f"the store was set up as {described(self.setup)}; its log as {described(found)}")

    def close(self) -> None:
        """Saves what each shard keeps, and lets store and log go, also where the store takes nothing any more."""
        with self._lock:
            try:
                if not self._ended:
                    with self._writing():
                        for shard in self.shards:
                            shard.save()
            finally:
                self.abandon()

    @contextmanager
    def _writing(self, again: bool = False) -> Iterator[None]:
        """A transaction of the store. Where it fails, nodes are ahead of the store: it has to be opened anew."""
        self._check_going()
        try:
            with self.store.transaction(again):
                yield
        except BaseException:
            self._ended = True
            raise

    def _check_going(self) -> None:
        if self._ended:
            raise StoreError(f"{self.store.path}: this node has stopped; open the store anew")

    def abandon(self) -> None:
        """Lets store and log go as they are."""
        self.log.close()
        self.store.close()

    # ---- reading the log

    def catch_up(self, shards: Optional[Iterable[int]] = None) -> dict[tuple[int, int], Outcome]:
        """Reads shards of the log to their ends, and tells what became of each record, by its shard and place.

        LogEnded where the log has an end, behind which nothing is read.
        """
        outcomes = self._read_on(shards)
        self._check_ends()
        return outcomes

    def _read_on(self, shards: Optional[Iterable[int]] = None) -> dict[tuple[int, int], Outcome]:
        outcomes: dict[tuple[int, int], Outcome] = {}
        with self._lock:
            self._check_going()
            left = list(range(self.setup.shards) if shards is None else shards)
            while left:
                pieces = self._pieces(left)
                with self._writing(again=True):
                    for number, piece in pieces.items():
                        for place, outcome in self.shards[number].apply(piece).items():
                            outcomes[number, place] = outcome
                left += [number for number in pieces if self.shards[number].more and not self.shards[number].end]
        return outcomes

    def _pieces(self, left: list[int]) -> dict[int, list[tuple[int, bytes]]]:
        """The next pieces of shards that are left, which they aren't any more: as many as are worked on at a time."""
        pieces: dict[int, list[tuple[int, bytes]]] = {}
        size = 0
        while left and size < BYTES:
            number = left.pop()
            pieces[number] = self.shards[number].read()
            size += size_of(pieces[number]) + self.shards[number].waiting
        return pieces

    def _check_ends(self) -> None:
        for shard in self.shards:
            shard.check_end()

    # ---- what clients ask

    def claim(self, string: Union[str, bytes], owner: str) -> Outcome:
        """Claims a string. Raises Refused where no node of this version would register it."""
        outcome = self.claim_many([(string, owner)])[0]
        if isinstance(outcome, Refused):
            raise outcome
        return outcome

    def claim_many(self, claims: Sequence[tuple[Union[str, bytes], str]]) -> list[Union[Outcome, Refused]]:
        """Claims strings, each for its owner. What is refused at once stands in its place."""
        with self._lock:
            outcomes: dict[int, Union[Outcome, Refused]] = {}
            made = []
            for index, (string, owner) in enumerate(claims):
                try:
                    claim = self._claim_of(string, owner)
                    made.append((index, self._shard_of(claim.unique), claim))
                except Refused as error:
                    outcomes[index] = error
            self.catch_up({number for _, number, _ in made})
            publish = []
            with self.store.snapshot():
                for index, number, claim in made:
                    decided = self.shards[number].decided(claim)
                    if decided:
                        outcomes[index] = decided
                    else:
                        publish.append((index, number, records.spelled(claim)))
            outcomes.update(self._published(publish))
        return [outcomes[index] for index in range(len(claims))]

    def _claim_of(self, string: Union[str, bytes], owner: str) -> Claim:
        """The claim of a string, by a node that keeps nothing else."""
        most = self.setup.most_bytes
        if most < records.MOST_BYTES and len(string if isinstance(string, bytes) else string.encode()) > most:
            raise NameTooLong(most)
        self._speller.accept(string)
        name, key = self._speller[0]
        self._speller.forget(string)
        return Claim(records.message(self.setup.form, name, key), owner, name, key, self._unique_of(name) if self.setup.caseless else None)

    def _shard_of(self, unique: str) -> int:
        return records.shard_of(unique, self.setup.shards)

    def _published(self, publish: Sequence[tuple[int, int, bytes]]) -> dict[int, Outcome]:
        """Writes records to the log, and answers when each was read back: what became of it, by its index."""
        if not publish:
            return {}
        places = self.log.append([(number, body) for _, number, body in publish])
        outcomes = self._read_on({number for _, number, _ in publish})
        lost = [place for (_, number, _), place in zip(publish, places) if (number, place) not in outcomes]
        if lost:
            self._check_ends()
            raise LogBroken(lost[0], "the record that this node wrote is missing; see `npss-registry relog`")
        return {index: outcomes[number, place] for (index, number, _), place in zip(publish, places)}

    def forget(self, string: Union[str, bytes], owner: Optional[str] = None) -> Outcome:
        """Gives a string up; where an owner is named, only that owner's. Raises Refused of what can't be registered."""
        with self._lock:
            name, unique = self._parts_of(string)
            number = self._shard_of(unique)
            self.catch_up([number])
            holder = self.store.holder(number, name, unique)
            if holder is None:
                return Outcome("not registered")
            if owner is not None and holder.owner != owner:
                return Outcome("taken", holder)
            return self._published([(0, number, records.spelled(Forget(name, holder.place)))])[0]

    def find(self, string: Union[str, bytes]) -> list[Registration]:
        """The registrations whose unique keys are equal to that of a string, as far as the log was read."""
        with self._lock:
            _, unique = self._parts_of(string)
            return self.store.with_key(self._shard_of(unique), unique)

    def same(self, left: Union[str, bytes], right: Union[str, bytes]) -> Optional[bool]:
        """Whether two registered strings are one name, by their unique keys; None where one of them isn't registered."""
        with self._lock:
            (one, unique), (other, other_unique) = self._parts_of(left), self._parts_of(right)
            first, second = self._shard_of(unique), self._shard_of(other_unique)
            if not self.store.holder(first, one, unique) or not self.store.holder(second, other, other_unique):
                return None
            if first != second or self.setup.caseless:  # a node compares keys, and no caseless ones
                return unique == other_unique
            answer = self.shards[first].node.same(one, other)
            return unique == other_unique if answer is None else answer

    def _parts_of(self, string: Union[str, bytes]) -> tuple[str, str]:
        """A string as text, and its unique key."""
        name = _text(string)
        return name, self._unique_of(name)

    def _unique_of(self, name: str) -> str:
        """The key by which names are one: the caseless one in a caseless log."""
        return self.tables.key(name, self.setup.form, self.setup.caseless)

    def status(self) -> list[ShardStatus]:
        with self._lock:
            return [ShardStatus(shard.number, shard.place, last, self.store.count(shard.number), self.store.parked(shard.number))
                    for shard, last in zip(self.shards, self._lasts())]

    def _lasts(self) -> Sequence[Optional[int]]:
        """The places of the last records of all shards, by one question; None where the log is away."""
        try:
            return self.log.lasts(self.setup.shards)
        except LogAway:
            return [None] * self.setup.shards

    # ---- a new version

    def upgrade(self, version: Version) -> list[Registration]:
        """Goes on to a version that extends the present one; answers what is still parked. All of it is done, or none.

        StoreError of one that hasn't the files that the log wants, NotOneChain of one that doesn't extend it, in a caseless log with its folding.
        """
        with self._lock:
            check_files(version, self.setup)
            tables = version.tables()
            first = tables.first_break(self.tables, self.setup.caseless)
            if first is not None:
                raise NotOneChain(first)
            if version.sums == self.store.versions()[-1].sums:
                return [parked for shard in self.shards for parked in self.store.parked(shard.number)]
            claims = [shard.parked_claims() for shard in self.shards]
            parked = []
            with self._writing():
                number = self.store.add_version(version)
                for shard, found in zip(self.shards, claims):
                    parked += shard.upgrade(tables, number, found)
            self._use(tables)
            return parked


def _text(string: Union[str, bytes]) -> str:
    """A string as text. NotUtf8 of bytes that are none."""
    if isinstance(string, str):
        return string
    try:
        return string.decode()
    except UnicodeDecodeError as error:
        from npss import NotUtf8

        raise NotUtf8(error.start) from error
