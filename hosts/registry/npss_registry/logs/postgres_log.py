"""A log in a table of a PostgreSQL cluster, which a fail-over of that cluster survives.

Who appends holds one lock until its records are committed, so places are committed in their order: none comes up
behind one that was read already. A commit is answered when a standby has it on its disk as well.
"""

import select
import time
from collections.abc import Iterator, Sequence
from contextlib import contextmanager, suppress
from typing import Optional

import psycopg
from psycopg import sql

from npss_registry.errors import LogAway, LogUnsafe, NoLog, StoreError
from npss_registry.logs.names import shown
from npss_registry.logs.postgres_cluster import SETTINGS, TRUSTED, Cluster, Connection
from npss_registry.logs.protocol import MOST_READ, PATIENCE, How

# So many records are deleted by one statement, so that each ends within the patience.
DELETED = 10_000
_MAKE = ("CREATE TABLE IF NOT EXISTS {table} (place bigint PRIMARY KEY, shard integer NOT NULL, body bytea NOT NULL)",
         "CREATE UNIQUE INDEX IF NOT EXISTS {index} ON {table} (shard, place)")
_MAKE_KEPT = """CREATE TABLE IF NOT EXISTS {kept} (shard integer NOT NULL, place bigint NOT NULL, number integer NOT NULL, part bytea NOT NULL,
    PRIMARY KEY (shard, place, number))"""
_KEEP = """INSERT INTO {kept} VALUES (%s, %s, %s, %s) ON CONFLICT (shard, place, number) DO UPDATE SET part = excluded.part"""
_READ = """SELECT place, body FROM (SELECT place, body, row_number() OVER records AS number, sum(octet_length(body)) OVER records - octet_length(body) AS before
    FROM (SELECT place, body FROM {table} WHERE shard = %s AND place > %s ORDER BY place LIMIT %s) AS piece
    WINDOW records AS (ORDER BY place ROWS UNBOUNDED PRECEDING)) AS sized WHERE before < %s OR number <= 2 ORDER BY place"""
_LASTS = """SELECT coalesce((SELECT max(place) FROM {table} WHERE shard = number), 0) FROM generate_series(0, %s - 1) AS number ORDER BY number"""
_DELETE = """WITH piece AS (SELECT place FROM {table} WHERE shard = %s AND place > %s AND place < %s ORDER BY place LIMIT %s),
    gone AS (DELETE FROM {table} WHERE place IN (SELECT place FROM piece)) SELECT max(place) FROM piece"""
_NOTIFY = "BEGIN; SET LOCAL synchronous_commit = off; NOTIFY {table}; COMMIT"
_INSERT = """INSERT INTO {table} SELECT %s + number, shard, body
    FROM unnest(%b::integer[], %b::bytea[]) WITH ORDINALITY AS one (shard, body, number)"""


class PostgresLog:
    """A log of many machines: a table of a PostgreSQL cluster that writes each record to the disks of two servers.

    The name is a connection URI of PostgreSQL with all hosts of the cluster. Behind `#` stand the table's name, `npss`
    where none does, and perhaps `,single`, where one server without standbys is enough. Raises LogUnsafe where the server may
    lose records. One that comes to be so later is away, until it is mended.
    """

    def __init__(self, url: str, how: How = "use", patience: float = PATIENCE):
        address, _, words = url.partition("#")
        name, _, single = words.partition(",")
        if single not in ("", "single"):
            raise StoreError(f"{shown(url)}: behind the table's name stands {single!r}; `single` alone may")
        self._patience = patience
        self._name = name or "npss"
        self._cluster = Cluster(address, f"npss log {self._name}", bool(single), patience)
        self._base: Optional[Connection] = None
        self._opened = False
        with self._asked() as base:
            if how == "make":
                with self._cluster.writing(base):
                    for statement in _MAKE:
                        base.execute(self._sql(statement))
            elif base.execute("SELECT to_regclass(quote_ident(%s))", [self._name]).fetchone() == (None,):
                self.close()
                raise NoLog(shown(url))
        self._opened = True

    def _sql(self, text: str) -> sql.Composed:
        return sql.SQL(text).format(table=sql.Identifier(self._name), index=sql.Identifier(f"{self._name}_of_shard"),
                                    kept=sql.Identifier(f"{self._name}_kept"))

    @contextmanager
    def _asked(self) -> Iterator[Connection]:
        """A connection for a call, which ends when the patience is over."""
        by = time.monotonic() + self._patience
        try:
            if self._base is None or self._base.closed:
                self._base = self._cluster.connected(by)
            self._base.by = by
            if time.monotonic() - self._base.proved > TRUSTED:  # it may be an old primary that another one has followed
                self._cluster.prove(self._base)
            yield self._base
        except LogUnsafe as error:
            self.close()
            if self._opened:  # it was durable before, and will be so again
                raise LogAway(f"the log: {error}") from error
            raise
        except psycopg.Error as error:
            self.close()  # whatever it was: the next call finds out who is the primary, and what is durable
            raise LogAway(f"the log: {str(error).strip()}") from error

    def append(self, records: Sequence[tuple[int, bytes]]) -> list[int]:
        with self._asked() as base:
            with self._cluster.writing(base):
                places = self._insert(base, self._last_of_all(base), records)
            # By itself: within the transaction it would make each NOTIFY of the cluster wait for the standby. The records stand
            # where they are without it.
            with suppress(psycopg.Error):
                base.execute(self._sql(_NOTIFY))
            return places

    def begin(self, records: Sequence[tuple[int, bytes]]) -> None:
        with self._asked() as base, self._cluster.writing(base):
            if not self._last_of_all(base):
                self._insert(base, 0, records)

    def _last_of_all(self, base: Connection) -> int:
        """The last place of any shard, by a query of its own: it sees what stood there when the lock was got."""
        (last, *settings), = base.execute(self._sql(f"SELECT coalesce(max(place), 0), {SETTINGS} FROM {{table}}")).fetchall()
        self._cluster.check(settings)
        return int(last)

    def _insert(self, base: Connection, behind: int, records: Sequence[tuple[int, bytes]]) -> list[int]:
        base.execute(self._sql(_INSERT), [behind, [shard for shard, _ in records], [body for _, body in records]])
        return list(range(behind + 1, behind + len(records) + 1))

    def read(self, shard: int, behind: int, most: int) -> list[tuple[int, bytes]]:
        with self._asked() as base:
            return base.execute(self._sql(_READ), [shard, behind, most, MOST_READ], binary=True).fetchall()

    def lasts(self, shards: int) -> list[int]:
        with self._asked() as base:
            return self._lasts(base, shards)

    def _lasts(self, base: Connection, shards: int) -> list[int]:
        return [int(place) for place, in base.execute(self._sql(_LASTS), [shards])]

    def news(self, known: Sequence[int], patience: float) -> list[int]:
        end = time.monotonic() + patience
        while True:
            with self._asked() as base:
                if not base.listens:
                    base.execute(self._sql("LISTEN {table}"))
                    base.listens = True
                lasts = self._lasts(base, len(known))
                if lasts != list(known) or time.monotonic() >= end:
                    return lasts
                _hear(base, end)

    def keep(self, shard: int, place: int, number: int, part: bytes) -> None:
        with self._asked() as base, self._cluster.writing(base):
            if not self._has_kept(base):
                base.execute(self._sql(_MAKE_KEPT))
            base.execute(self._sql(_KEEP), [shard, place, number, part])

    def kept(self, shard: int, place: int, number: int) -> Optional[bytes]:
        with self._asked() as base:
            if not self._has_kept(base):
                return None
            found = base.execute(self._sql("SELECT part FROM {kept} WHERE shard = %s AND place = %s AND number = %s"), [shard, place, number],
                                 binary=True).fetchone()
            return None if found is None else bytes(found[0])

    def _has_kept(self, base: Connection) -> bool:
        """Whether there is the table of what belongs to records, which a log of earlier versions lacks."""
        return base.execute("SELECT to_regclass(quote_ident(%s))", [f"{self._name}_kept"]).fetchone() != (None,)

    def trim(self, shard: int, place: int) -> None:
        # Who appends waits for nothing here: what is deleted stands before all that is read or written meanwhile.
        with self._asked() as base, base.transaction():
            at: Optional[int] = 0
            while at is not None:
                base.by = time.monotonic() + self._patience
                found = base.execute(self._sql(_DELETE), [shard, at, place, DELETED]).fetchone()
                at = found and found[0]
            if self._has_kept(base):
                base.execute(self._sql("DELETE FROM {kept} WHERE shard = %s AND place < %s"), [shard, place])

    def close(self) -> None:
        if self._base is not None:
            self._base.close()
            self._base = None


def _hear(base: Connection, end: float) -> None:
    """Waits for a notification until a moment. One that came beside an answer is missed, and its record found when the time is over."""
    heard = False
    while not heard and (left := end - time.monotonic()) > 0:
        if select.select([base.pgconn.socket], [], [], left)[0]:
            base.pgconn.consume_input()
        while base.pgconn.notifies():
            heard = True
