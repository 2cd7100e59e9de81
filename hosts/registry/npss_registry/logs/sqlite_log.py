"""A log in a SQLite file, for several processes of one machine."""

import os
import sqlite3
import time
from collections.abc import Iterator, Sequence
from contextlib import contextmanager, suppress
from typing import Optional

from npss_registry.errors import LogAway, LogBroken, LogReadOnly, NoLog, StoreError
from npss_registry.logs.protocol import How, bounded

# A file is looked at for news after so many seconds.
LOOK = 0.05
# What belongs to records and stands beside them. A log of earlier versions has no such table until something does.
_KEPT = ("CREATE TABLE IF NOT EXISTS kept (shard INTEGER NOT NULL, place INTEGER NOT NULL, number INTEGER NOT NULL, part BLOB NOT NULL, "
         "PRIMARY KEY (shard, place, number)) WITHOUT ROWID")


@contextmanager
def _reached(path: str) -> Iterator[None]:
    try:
        yield
    except sqlite3.OperationalError as error:
        if "readonly" in str(error):
            raise LogReadOnly(f"the log {path}: this user may not write it") from error
        raise LogAway(f"the log: {error}") from error
    except sqlite3.DatabaseError as error:
        raise StoreError(f"the log: {error}") from error


class SqliteLog:
    """A log in a SQLite file, for several processes of one machine."""

    def __init__(self, path: str, how: How = "use", patience: float = 10.0):
        self._path = path
        if how != "make":
            _check_file(path, os.R_OK if how == "read" else os.R_OK | os.W_OK)
        uri = uri_to_read(path) if how == "read" else f"file:{uri_path(path)}?mode={'rwc' if how == 'make' else 'rw'}"
        with _reached(path):
            # Each call is under the registry's own lock, whichever thread makes it.
            self._base = sqlite3.connect(uri, uri=True, timeout=patience, isolation_level=None, check_same_thread=False)
            if how == "make":
                self._make()
            elif not self._base.execute("SELECT EXISTS (SELECT 1 FROM sqlite_master WHERE name = 'record')").fetchone()[0]:
                self._base.close()
                raise NoLog(path)
            self._base.execute("PRAGMA synchronous = FULL")

    def _make(self) -> None:
        self._base.execute("PRAGMA journal_mode = WAL")
        self._base.execute("CREATE TABLE IF NOT EXISTS record (place INTEGER PRIMARY KEY AUTOINCREMENT, "
                           "shard INTEGER NOT NULL, body BLOB NOT NULL)")
        self._base.execute("CREATE INDEX IF NOT EXISTS record_of_shard ON record (shard, place)")

    @contextmanager
    def _writing(self) -> Iterator[None]:
        with _reached(self._path):
            self._base.execute("BEGIN IMMEDIATE")
            try:
                yield
                self._base.execute("COMMIT")
            except BaseException:
                if self._base.in_transaction:
                    self._base.execute("ROLLBACK")
                raise

    def append(self, records: Sequence[tuple[int, bytes]]) -> list[int]:
        with self._writing():
            return self._insert(records)

    def begin(self, records: Sequence[tuple[int, bytes]]) -> None:
        with self._writing():
            if not self._base.execute("SELECT EXISTS (SELECT 1 FROM record)").fetchone()[0]:
                self._insert(records)

    def _insert(self, records: Sequence[tuple[int, bytes]]) -> list[int]:
        """Inserts records, whose places follow one another within a transaction."""
        self._base.executemany("INSERT INTO record (shard, body) VALUES (?, ?)", records)
        last: int = self._base.execute("SELECT last_insert_rowid()").fetchone()[0]
        return list(range(last - len(records) + 1, last + 1))

    def read(self, shard: int, behind: int, most: int) -> list[tuple[int, bytes]]:
        with _reached(self._path):
            found = self._base.execute("SELECT place, body FROM record WHERE shard = ? AND place > ? ORDER BY place LIMIT ?",
                                       (shard, behind, most))
            return bounded((place, _body(place, body)) for place, body in found)

    def lasts(self, shards: int) -> list[int]:
        with _reached(self._path):
            found = self._base.execute("WITH RECURSIVE number (shard) AS (VALUES (0) UNION ALL SELECT shard + 1 FROM number WHERE shard + 1 < ?) "
                                       "SELECT coalesce((SELECT max(place) FROM record WHERE record.shard = number.shard), 0) FROM number", (shards,))
            return [int(place) for place, in found]

    def news(self, known: Sequence[int], patience: float) -> list[int]:
        end = time.monotonic() + patience
        seen = None
        while True:
            with _reached(self._path):
                version = self._base.execute("PRAGMA data_version").fetchone()[0]
            if version != seen:
                lasts = self.lasts(len(known))
                if lasts != list(known):
                    return lasts
                seen = version
            left = end - time.monotonic()
            if left <= 0:
                return list(known)
            time.sleep(min(LOOK, left))

    def keep(self, shard: int, place: int, number: int, part: bytes) -> None:
        with self._writing():
            self._base.execute(_KEPT)
            self._base.execute("INSERT OR REPLACE INTO kept VALUES (?, ?, ?, ?)", (shard, place, number, part))

    def kept(self, shard: int, place: int, number: int) -> Optional[bytes]:
        with _reached(self._path):
            if not self._base.execute("SELECT EXISTS (SELECT 1 FROM sqlite_master WHERE name = 'kept')").fetchone()[0]:
                return None
            found = self._base.execute("SELECT part FROM kept WHERE shard = ? AND place = ? AND number = ?", (shard, place, number)).fetchone()
            return None if found is None else _body(place, found[0])

    def trim(self, shard: int, place: int) -> None:
        with self._writing():
            self._base.execute(_KEPT)
            for table in ("record", "kept"):
                self._base.execute(f"DELETE FROM {table} WHERE shard = ? AND place < ?", (shard, place))

    def close(self) -> None:
        self._base.close()


def _body(place: int, body: object) -> bytes:
    if not isinstance(body, bytes):
        raise LogBroken(place, "what stands there is no record: it isn't bytes")
    return body


def allowed(path: str, right: int) -> bool:
    """Whether this user has a right on a file or a folder."""
    return os.access(path, right, effective_ids=os.access in os.supports_effective_ids)


def _check_file(path: str, rights: int) -> None:
    """A log is there, and this user may use it."""
    try:
        os.stat(path)
    except FileNotFoundError as error:
        raise NoLog(path) from error
    except OSError as error:
        raise StoreError(f"the log {path}: {error.strerror}") from error
    for right, word in ((os.R_OK, "read"), (os.W_OK, "write")):
        if rights & right and not allowed(path, right):
            raise StoreError(f"the log {path}: this user may not {word} it")


def uri_path(path: str) -> str:
    """A path as SQLite's URIs spell it."""
    return os.path.abspath(path).replace("%", "%25").replace("?", "%3f").replace("#", "%23")


def uri_to_read(path: str) -> str:
    """The URI by which a file is read, also in a folder that nobody may write, where SQLite can't have files beside it."""
    alone = not allowed(os.path.dirname(os.path.abspath(path)), os.W_OK) and not os.path.exists(f"{path}-wal")
    return f"file:{uri_path(path)}?mode=ro" + ("&immutable=1" if alone else "")


def make_file(path: str, like: str) -> None:
    """Makes the file of a log, where none is, with the owner and the rights of another file."""
    found = os.stat(like)
    with suppress(FileExistsError):
        file = os.open(path, os.O_CREAT | os.O_EXCL | os.O_CLOEXEC, 0o600)
        try:
            with suppress(PermissionError):  # who isn't root keeps it
                os.fchown(file, found.st_uid, found.st_gid)
            os.fchmod(file, found.st_mode & 0o666)
        finally:
            os.close(file)
