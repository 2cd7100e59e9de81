"""The kinds of logs, over the real servers: how their logs are named, silenced, filled and brought back. Each passes the suite of every_log.py."""

import base64
import contextlib
import sqlite3
import tempfile
import unittest
from pathlib import Path

from every_log import EveryLog
from log_servers import Etcd, Postgres, Proxy, RedisServer, is_here, waited


class SqliteKind(EveryLog, unittest.TestCase):
    """A log in a SQLite file."""

    begin_servers = classmethod(lambda cls: None)

    def name(self, prefix):
        return str(self.folder / prefix)

    @staticmethod
    def kind():
        from npss_registry.logs.sqlite_log import SqliteLog

        return SqliteLog

    @contextlib.contextmanager
    def silent(self):
        """Another process writes, and comes to no end."""
        with contextlib.closing(sqlite3.connect(self.log, isolation_level=None)) as base:
            base.execute("BEGIN IMMEDIATE")
            yield
            base.execute("ROLLBACK")

    def asked_while_silent(self, log):
        return [lambda: log.append([(0, b"meanwhile")]), lambda: log.keep(0, 1, 0, b"part"), lambda: log.trim(0, 1)]

    def test_a_tail_that_is_gone_is_news(self):
        log = self.opened()
        log.begin([(shard, b"first") for shard in range(3)])
        first = log.lasts(3)
        with contextlib.closing(sqlite3.connect(self.log)) as base, base:
            base.execute("DELETE FROM record WHERE place = ?", (first[2],))
        self.assertEqual(log.news(first, 5), [*first[:2], 0])

    @contextlib.contextmanager
    def full(self, log):
        pages = log._base.execute("PRAGMA page_count").fetchone()[0]
        log._base.execute(f"PRAGMA max_page_count = {pages + 100}")
        yield
        log._base.execute("PRAGMA max_page_count = 1000000")


class Served:
    """A log of servers."""

    def name(self, prefix):
        return self.servers.name(prefix)

    @contextlib.contextmanager
    def silent(self):
        self.servers.silence()
        try:
            yield
        finally:
            self.servers.speak()


@unittest.skipUnless(is_here("redis"), "redis-server or python3-redis is not here")
class RedisKind(Served, EveryLog, unittest.TestCase):
    """A log in a Redis server."""

    @classmethod
    def begin_servers(cls):
        cls.servers = RedisServer(cls.folder)
        cls.addClassCleanup(cls.servers.close)

    @staticmethod
    def kind():
        from npss_registry.logs.redis_log import RedisLog

        return RedisLog

    def through(self, **words):
        self.proxy = Proxy(self.servers.port)
        self.addCleanup(self.proxy.close)
        return self.opened(self.log.replace(str(self.servers.port), str(self.proxy.port)), **words)

    @contextlib.contextmanager
    def full(self, log):
        used = self.servers.client().info("memory")["used_memory"]
        self.servers.set(maxmemory=str(used + 2_000_000))
        yield
        self.servers.set(maxmemory="0")


@unittest.skipUnless(is_here("postgres"), "PostgreSQL or python3-psycopg is not here")
class PostgresKind(Served, EveryLog, unittest.TestCase):
    """A log in a table of a primary with two standbys."""

    @classmethod
    def begin_servers(cls):
        cls.servers = Postgres(cls.folder)
        cls.addClassCleanup(cls.servers.close)

    @staticmethod
    def kind():
        from npss_registry.logs.postgres_log import PostgresLog

        return PostgresLog

    def through(self, **words):
        self.proxy = Proxy(self.servers.ports[self.servers.primary])
        self.addCleanup(self.proxy.close)
        return self.opened(f"postgresql://npss@127.0.0.1:{self.proxy.port}/postgres#{self.log.partition('#')[2]}", **words)

    @contextlib.contextmanager
    def full(self, log):
        """No file of the table may have more bytes, as on a full disk; those of the write-ahead log are smaller."""
        self.servers.limit(log._base.info.backend_pid, 4_000_000)
        yield


@unittest.skipUnless(is_here("etcd"), "etcd-server is not here")
class EtcdKind(Served, EveryLog, unittest.TestCase):
    """A log in an etcd of three members."""

    @classmethod
    def begin_servers(cls):
        cls.servers = Etcd(cls.folder)
        cls.addClassCleanup(cls.servers.close)

    @staticmethod
    def kind():
        from npss_registry.logs.etcd_log import EtcdLog

        return EtcdLog

    def through(self, **words):
        self.proxy = Proxy(self.servers.ports[0])
        self.addCleanup(self.proxy.close)
        return self.opened(f"etcd://127.0.0.1:{self.proxy.port}#{self.log.partition('#')[2]}", **words)

    @contextlib.contextmanager
    def full(self, log):
        """A cluster of its own, which may have few bytes: where it had more, it takes nothing until somebody says that it may."""
        with tempfile.TemporaryDirectory(dir=self.folder) as folder:
            small = Etcd(Path(folder), "--quota-backend-bytes", str(16 << 20))
            try:
                log._cluster._hosts[:] = [("127.0.0.1", port) for port in small.ports]
                log._cluster.close()
                log._seen.clear()
                log.begin([(0, b"first"), (1, b"first")])
                log.append([(0, b"before")])
                yield
                self.make_room(small, log)
                self.answers_again(log, b"behind")
            finally:
                small.close()
        log._cluster._hosts[:] = [("127.0.0.1", port) for port in self.servers.ports]
        log._cluster.close()
        log._seen.clear()

    @staticmethod
    def make_room(servers, log):
        """As an operator does: something is deleted, each member gives back what that had, and the alarms are ended, as often as they come."""
        first, end = (base64.b64encode(log._key(0, place)).decode() for place in (3, 1 << 62))
        servers.ask(0, "/v3/kv/deleterange", {"key": first, "range_end": end})
        servers.ask(0, "/v3/kv/compaction", {"revision": servers.ask(0, "/v3/maintenance/status", {})["header"]["revision"], "physical": True})
        for number in range(3):
            servers.ask(number, "/v3/maintenance/defragment", {})

        def has_ended():
            alarms = (servers.ask(0, "/v3/maintenance/alarm", {"action": "GET"}) or {}).get("alarms", [])
            for one in alarms:
                servers.ask(0, "/v3/maintenance/alarm", {"action": "DEACTIVATE", "memberID": one["memberID"], "alarm": one["alarm"]})
            return not alarms

        waited(has_ended)


if __name__ == "__main__":
    unittest.main()
