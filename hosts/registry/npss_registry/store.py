"""What a machine keeps of a registry: a SQLite file that stands whole after each transaction."""

import os
import secrets
import sqlite3
import zlib
from collections.abc import Iterator, Sequence
from contextlib import closing, contextmanager, suppress
from dataclasses import replace
from typing import Any, Optional

from npss_registry.errors import StoreError
from npss_registry.failures import store_error
from npss_registry.images import first_of, whole, write_rest
from npss_registry.layout import LAYOUT, add_version, raise_layout, without_password
from npss_registry.lock import Lock, file_of
from npss_registry.logs.names import located
from npss_registry.logs.sqlite_log import uri_path, uri_to_read
from npss_registry.records import NOTHING_READ, Setup, form_of
from npss_registry.rows import Event as Event
from npss_registry.rows import Registration as Registration
from npss_registry.rows import ShardRow as ShardRow
from npss_registry.rows import Sums
from npss_registry.rows import Version as Version

# Registrations by an index: left to itself SQLite walks the places of the whole shard.
_FOUND = "SELECT place, string, key, owner, refused, parked, ended, caseless FROM registration"
_BY_KEY = f"{_FOUND} INDEXED BY registered WHERE shard = ? AND key = ? AND ended IS NULL"
_BY_CASELESS_KEY = f"{_FOUND} INDEXED BY registered_caseless WHERE shard = ? AND caseless = ? AND ended IS NULL"
_PARKED = f"{_FOUND} INDEXED BY parked_place WHERE shard = ? AND parked AND ended IS NULL ORDER BY place"
_BY_PLACE = f"{_FOUND} WHERE shard = ?"
# SQLite keeps so many KiB of the file, and copies what it wrote back into it after so many pages.
_CACHE, _PAGES = 65_536, 4_096


def _registration(row: tuple[Any, ...]) -> Registration:
    place, string, key, owner, refused, parked, ended, caseless = row
    return Registration(place, string.decode(), key.decode(), owner, refused, bool(parked), ended, None if caseless is None else caseless.decode())


def _bytes(caseless: Optional[str]) -> Optional[bytes]:
    """A caseless key as it stands in a row, where there is one."""
    return None if caseless is None else caseless.encode()


class Store:
    """The store of a path, to be read alone, or to be worked on by this process and no other."""

    def __init__(self, path: str, read_only: bool = False):
        self.path = path
        file = file_of(path)
        # What a relative path of the log counts from.
        self.folder = os.path.dirname(file)
        self._lock = None if read_only else Lock(file)
        # Whether what is written now can be made again.
        self._again = False
        try:
            self._base = self._connected(file, read_only)
        except sqlite3.Error as error:
            self._unlock()
            raise store_error(path, error, "it is no store") from error
        try:
            self._read_setup(file, read_only)
        except sqlite3.Error as error:
            self.close()
            raise store_error(path, error, "it is no store") from error
        except BaseException:
            self.close()
            raise

    def _read_setup(self, file: str, read_only: bool) -> None:
        row = self._base.execute("SELECT layout FROM setup").fetchone()
        if row is None or row[0] not in range(1, LAYOUT + 1):
            raise StoreError(f"{self.path}: its layout is not one that this version reads")
        if row[0] != LAYOUT:
            if read_only:
                raise StoreError(f"{self.path}: its layout is an earlier one; `npss-registry status` brings it to the present one")
            with self.transaction():
                raise_layout(self._base, file)
        row = self._base.execute("SELECT form, room, shards, equivalents, name, log, node, openings, moving, most_bytes, caseless FROM setup").fetchone()
        self.setup = Setup(form_of(row[0]), row[1], row[2], bool(row[3]), row[4], most_bytes=row[9], caseless=bool(row[10]))
        # The log as it was named, and the one to which `relog` brings the store.
        self.named_log, self.node, self._openings, self.moving = row[5:9]
        if not read_only:
            self.named_log = without_password(self._base, file, self.named_log)

    @property
    def log(self) -> str:
        """The log, by which it can be opened from everywhere."""
        return located(self.named_log, self.folder)

    @staticmethod
    def _connected(path: str, read_only: bool) -> sqlite3.Connection:
        mode = "ro" if read_only else "rw"
        base = sqlite3.connect(f"file:{uri_path(path)}?mode={mode}", uri=True, isolation_level=None,
                               check_same_thread=False, cached_statements=256)
        base.execute("PRAGMA synchronous = FULL")
        base.execute(f"PRAGMA cache_size = -{_CACHE}")
        base.execute(f"PRAGMA wal_autocheckpoint = {_PAGES}")
        return base

    @classmethod
    def copied(cls, path: str, to: str) -> "Store":
        """A copy of a store, of one moment, whatever others write meanwhile; in the present layout."""
        file = file_of(path)
        try:
            with closing(sqlite3.connect(uri_to_read(file), uri=True)) as base, closing(sqlite3.connect(to)) as copy:
                base.backup(copy)
                copy.execute("BEGIN")
                raise_layout(copy, file)
                copy.execute("COMMIT")
        except sqlite3.Error as error:
            raise store_error(path, error, "it is no store") from error
        made = cls(to, read_only=True)
        made.path, made.folder = path, os.path.dirname(file)
        return made

    def close(self) -> None:
        """Lets the store go."""
        self._base.close()
        self._unlock()

    def _held(self) -> Lock:
        """The lock of a store that is worked on. StoreError of one that is only read."""
        if self._lock is None:
            raise StoreError(f"{self.path}: the store is only read here")
        return self._lock

    def _unlock(self) -> None:
        if self._lock is not None:
            self._lock.release()
            self._lock = None

    @contextmanager
    def transaction(self, again: bool = False) -> Iterator[None]:
        """What is written within is kept whole, or none of it.

        Where it can be made `again` from the log, nobody waits until it stands on the disk: a cut of the power may lose it.
        """
        if again is not self._again:
            self._base.execute(f"PRAGMA synchronous = {'NORMAL' if again else 'FULL'}")
            self._again = again
        self._base.execute("BEGIN IMMEDIATE")
        try:
            yield
            self._base.execute("COMMIT")
        except BaseException:
            if self._base.in_transaction:
                self._base.execute("ROLLBACK")
            raise

    @contextmanager
    def snapshot(self) -> Iterator[None]:
        """What is read within is of one moment."""
        self._base.execute("BEGIN")
        try:
            yield
        finally:
            self._base.execute("ROLLBACK")

    def backup(self, to: str) -> None:
        """Copies the store into a new file, of one moment, while others work on this one. What couldn't be copied whole isn't left."""
        if os.path.exists(to):
            raise StoreError(f"{to}: there is a file of this name already")
        try:
            with closing(sqlite3.connect(to)) as copy:
                self._base.backup(copy)
        except sqlite3.Error as error:
            for end in ("", "-journal"):
                with suppress(OSError):
                    os.unlink(to + end)
            raise store_error(to, error, "the copy can't be written") from error

    def faults(self) -> list[str]:
        """What SQLite finds wrong in the file, as an index that differs from its table."""
        try:
            return [str(row[0]) for row in self._base.execute("PRAGMA integrity_check") if row[0] != "ok"]
        except sqlite3.DatabaseError as error:
            return [str(error)]

    # ---- where it stands

    @property
    def was_brought_back(self) -> bool:
        """Whether this isn't the file that was opened last under its name, but a backup of an earlier time or another place."""
        mark = self._held().mark.split()
        if not self._openings:
            return bool(mark)
        # Earlier versions didn't tell the file, which is another one where a folder was copied whole.
        return mark not in (self._mark(), self._mark()[:2])

    def _mark(self) -> list[str]:
        """What the lock's file tells of the last opening."""
        return [self.node, str(self._openings), str(self._held().inode)]

    def rename_node(self) -> None:
        """Gives the node another name, since its old one goes on elsewhere."""
        self.node = secrets.token_hex(8)
        self._base.execute("UPDATE setup SET node = ?", (self.node,))

    def count_opening(self) -> None:
        """Writes that the store was opened once more, into it; `note_opening` tells it beside it."""
        self._openings += 1
        self._base.execute("UPDATE setup SET openings = ?", (self._openings,))

    def note_opening(self) -> None:
        """Tells beside the store which opening was the last. Where that fails, the next one takes it for a backup."""
        self._held().tell(" ".join(self._mark()) + "\n")

    def versions(self) -> list[Version]:
        """The chain of versions, the earliest first. The last is in use."""
        rows = self._base.execute("SELECT data, exclusions, folding FROM version ORDER BY number").fetchall()
        if any((folding is None) is self.setup.caseless for _, _, folding in rows):
            raise StoreError(f"{self.path}: the store is damaged: a version has {'no' if self.setup.caseless else 'a'} CaseFolding.txt")
        try:
            return [Version(zlib.decompress(data), zlib.decompress(exclusions), folding and zlib.decompress(folding)) for data, exclusions, folding in rows]
        except zlib.error as error:
            raise StoreError(f"{self.path}: the files of a version are damaged: {error}") from error

    def version_sums(self) -> list[tuple[Sums, int]]:
        """What the store tells of each version: the sums of its files, and how many code points it assigns."""
        rows = self._base.execute("SELECT data_sum, exclusions_sum, folding_sum, assigned FROM version ORDER BY number")
        return [((data, exclusions, folding), assigned) for data, exclusions, folding, assigned in rows]

    @property
    def served(self) -> int:
        """How many versions the store had when it was served last; 0 where that isn't known."""
        return int(self._base.execute("PRAGMA user_version").fetchone()[0])

    def note_served(self, versions: int) -> None:
        """Writes that it is served, and how many versions it has."""
        self._base.execute(f"PRAGMA user_version = {versions:d}")

    def add_version(self, version: Version) -> int:
        """Adds the next version of the chain, and answers its number."""
        number = self._base.execute("SELECT count(*) FROM version").fetchone()[0]
        add_version(self._base, number, version)
        return int(number)

    def places(self) -> list[int]:
        """How far each shard was read."""
        return [int(place) for place, in self._base.execute("SELECT place FROM shard ORDER BY number")]

    def shard(self, number: int) -> ShardRow:
        row = self._base.execute("SELECT place, last, sum, image, image_place, image_sum, base, base_place, base_version, events "
                                 "FROM shard JOIN image USING (number) WHERE number = ?", (number,)).fetchone()
        found = ShardRow(*row)
        return replace(found, image=whole(self._base, number, "image", found.image), base=whole(self._base, number, "base", found.base))

    def applied(self, number: int, place: int, last: bytes, total: bytes) -> None:
        """Writes how far a shard was read, with the sum of its last record and the running sum."""
        self._base.execute("UPDATE shard SET place = ?, last = ?, sum = ? WHERE number = ?", (place, last, total, number))

    def established(self, number: int, total: bytes, image_total: bytes) -> None:
        """Writes the running sums of a shard that a store of an earlier layout hasn't."""
        self._base.execute("UPDATE shard SET sum = ?, image_sum = ? WHERE number = ?", (total, image_total, number))

    def save(self, number: int, image: bytes, place: int, version: int) -> None:
        """Writes the image of a shard's node behind the record at the place where the shard stands."""
        self._base.execute("UPDATE image SET image = ?, image_place = ? WHERE number = ?", (first_of(image), place, number))
        write_rest(self._base, number, "image", image)
        self._base.execute("UPDATE shard SET image_sum = sum WHERE number = ?", (number,))
        self.note(number, Event("save", place, version))

    def begin_journal(self, number: int, image: bytes, place: int, version: int) -> None:
        """Begins a shard's journal anew with what its node keeps now."""
        self._base.execute("DELETE FROM journal WHERE shard = ?", (number,))
        self._base.execute("UPDATE image SET image = ?1, image_place = ?2, base = ?1, base_place = ?2, base_version = ?3 "
                           "WHERE number = ?4", (first_of(image), place, version, number))
        write_rest(self._base, number, "image", image)
        write_rest(self._base, number, "base", image)
        self._base.execute("UPDATE shard SET image_sum = sum, events = 0 WHERE number = ?", (number,))

    def note(self, number: int, event: Event) -> None:
        """Appends an event to a shard's journal."""
        self._base.execute("INSERT INTO journal (shard, event, place, version) VALUES (?, ?, ?, ?)",
                           (number, event.event, event.place, event.version))
        self._base.execute("UPDATE shard SET events = events + 1 WHERE number = ?", (number,))

    def journal(self, number: int) -> list[Event]:
        rows = self._base.execute("SELECT event, place, version FROM journal WHERE shard = ? ORDER BY number", (number,))
        return [Event(*row) for row in rows]

    # ---- going over to another log, or to another name of it

    def rename_log(self, name: str) -> None:
        """Writes another name of the log."""
        self._base.execute("UPDATE setup SET log = ?", (name,))
        self.named_log = name

    def begin_moving(self, log: str, lost: Sequence[tuple[int, Registration]]) -> None:
        """Writes that the store goes over to another log, and what will be lost, each with its shard. No node opens it until it is there."""
        with self.transaction():
            self._base.execute("UPDATE setup SET moving = ?", (log,))
            self.lose(lost)
        self.moving = log

    def lose(self, lost: Sequence[tuple[int, Registration]]) -> None:
        """Writes what is lost, and nothing else is."""
        self._base.execute("DELETE FROM lost")
        self._base.executemany("INSERT INTO lost VALUES (?, ?, ?, ?, ?)",
                               ((shard, one.place, one.string.encode(), one.key.encode(), one.owner) for shard, one in lost))

    def lost(self) -> list[Registration]:
        """What the store had registered and the log to which it went over last has not, at its old places, without caseless keys."""
        return list(self._some("SELECT place, string, key, owner, NULL, 0, NULL, NULL FROM lost ORDER BY shard, place"))

    def move(self, log: str, setup: Setup, empty: bytes) -> None:
        """Begins anew over another log: nothing is registered, and nothing was read. `empty` is an empty node's image."""
        version = self._base.execute("SELECT max(number) FROM version").fetchone()[0]
        self._base.execute("DELETE FROM registration")
        self._base.execute("DELETE FROM journal")
        self._base.execute("UPDATE shard SET place = 0, last = NULL, sum = ?1, image_sum = ?1, events = 0", (NOTHING_READ,))
        self._base.execute("UPDATE image SET image = ?1, image_place = 0, base = ?1, base_place = 0, base_version = ?2", (empty, version))
        self._base.execute("DELETE FROM image_rest")
        self._base.execute("UPDATE setup SET log = ?, name = ?, moving = NULL", (log, setup.name))
        self.named_log, self.setup, self.moving = log, setup, None
        self.rename_node()

    # ---- registrations

    @property
    def _by_unique(self) -> str:
        """What looks registrations up by their unique key."""
        return _BY_CASELESS_KEY if self.setup.caseless else _BY_KEY

    def holder(self, number: int, string: str, unique: str) -> Optional[Registration]:
        """The registration of a string with its unique key, while it lasts."""
        return self._one(f"{self._by_unique} AND string = ?", number, unique.encode(), string.encode())

    def holder_of_key(self, number: int, unique: str) -> Optional[Registration]:
        """A registration of a unique key, while it lasts."""
        return self._one(self._by_unique, number, unique.encode())

    def with_key(self, number: int, unique: str) -> list[Registration]:
        """The registrations of a unique key, while they last, in the order of their places."""
        return list(self._some(f"{self._by_unique} ORDER BY place", number, unique.encode()))

    def at(self, number: int, place: int) -> Optional[Registration]:
        """The registration that the record at a place made."""
        return self._one(f"{_BY_PLACE} AND place = ?", number, place)

    def registrations(self, number: int) -> Iterator[Registration]:
        """All registrations while they last, in the order of their places."""
        return self._some(f"{_BY_PLACE} AND ended IS NULL ORDER BY place", number)

    def registered_at(self, number: int, place: int) -> Iterator[Registration]:
        """What was registered behind the record at a place, in the order of their places."""
        return self._some(f"{_BY_PLACE} AND place <= ?2 AND (ended IS NULL OR ended > ?2) ORDER BY place", number, place)

    def past(self, number: int) -> Iterator[Registration]:
        """All registrations that ever were, in the order of their places."""
        return self._some(f"{_BY_PLACE} ORDER BY place", number)

    def parked(self, number: int) -> list[Registration]:
        """The registrations of which the node lacks a code point, in the order of their places."""
        return list(self._some(_PARKED, number))

    def parked_counts(self) -> dict[int, int]:
        """How many registrations are parked, by their shards; shards without any are left out."""
        return dict(self._base.execute("SELECT shard, count(*) FROM registration INDEXED BY parked_place WHERE parked AND ended IS NULL "
                                       "GROUP BY shard"))

    def first_parked(self, most: int) -> list[tuple[int, str]]:
        """The first parked strings of all shards, at most so many, each with its shard."""
        rows = self._base.execute("SELECT shard, string FROM registration INDEXED BY parked_place WHERE parked AND ended IS NULL "
                                  "ORDER BY shard, place LIMIT ?", (most,))
        return [(shard, string.decode()) for shard, string in rows]

    def registered_counts(self) -> dict[int, int]:
        """How many strings are registered, by their shards; shards without any are left out."""
        return dict(self._base.execute("SELECT shard, count(*) FROM registration WHERE ended IS NULL GROUP BY shard"))

    @property
    def data_version(self) -> int:
        """A number that is another one once somebody else has written to the store."""
        return int(self._base.execute("PRAGMA data_version").fetchone()[0])

    def count(self, number: int) -> int:
        """How many strings are registered."""
        return int(self._base.execute("SELECT count(*) FROM registration WHERE shard = ? AND ended IS NULL",
                                      (number,)).fetchone()[0])

    def counts(self, number: int) -> tuple[int, int]:
        """How many registrations there ever were, and how many of them ended."""
        made, ended = self._base.execute("SELECT count(*), count(ended) FROM registration WHERE shard = ?", (number,)).fetchone()
        return int(made), int(ended)

    def register(self, number: int, new: Registration) -> None:
        self._base.execute("INSERT INTO registration VALUES (?, ?, ?, ?, ?, ?, ?, ?, ?)",
                           (number, new.place, new.string.encode(), new.key.encode(), new.owner, new.refused, int(new.parked), new.ended,
                            _bytes(new.caseless)))

    def end(self, number: int, place: int, ended: int) -> None:
        """The registration of a place ends at another."""
        self._base.execute("UPDATE registration SET ended = ?, parked = 0 WHERE shard = ? AND place = ?", (ended, number, place))

    def unpark(self, number: int, place: int) -> None:
        self._base.execute("UPDATE registration SET parked = 0 WHERE shard = ? AND place = ?", (number, place))

    def _some(self, query: str, *given: Any) -> Iterator[Registration]:
        return map(_registration, self._base.execute(query, given))

    def _one(self, query: str, *given: Any) -> Optional[Registration]:
        return next(self._some(query, *given), None)
