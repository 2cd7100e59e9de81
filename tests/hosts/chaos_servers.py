"""The servers of a log in tests/hosts/chaos.py: what befalls them, and what a log is for who doesn't go by the registry's code.

A kind answers `ports`, by which nodes reach it through proxies; `trouble` does to it what a seed draws, and notes in `deaths`
when whoever takes records ended; `settle` brings all servers back. `keep`, `bring_back` and `lose` work on the bytes of a log.
"""

import base64
import contextlib
import signal
import sqlite3
import sys
import threading
import time

from harness import ROOT

# Beside this folder's own modules, of which one has the name of another there.
sys.path.append(str(ROOT / "hosts" / "registry" / "tests"))

from log_servers import Etcd, Postgres, RedisServer, is_here, send, waited
from log_servers import Proxy as Proxy
from npss_registry import LogAway
from npss_registry.logs import open_log

KINDS = ("sqlite", "redis", "postgres", "etcd")


def here():
    """The kinds of logs of which a server and a client are here."""
    return [kind for kind in KINDS if kind == "sqlite" or is_here(kind)]


class File:
    """A SQLite file, which nothing befalls but what its nodes do."""

    ports = ()

    def __init__(self, folder):
        self._folder = folder
        self.deaths = []

    def name(self, prefix, ports=None):
        return str(self._folder / ("log" if prefix == "chaos" else prefix))

    def trouble(self, source):
        pass

    settle = close = lambda self: None

    def keep(self, prefix, shards):
        """What puts back the log as it is now."""
        kept = self._folder / "kept"
        kept.unlink(missing_ok=True)
        with contextlib.closing(sqlite3.connect(self.name(prefix))) as base, contextlib.closing(sqlite3.connect(kept)) as copy:
            base.backup(copy)
        return kept

    def bring_back(self, prefix, kept):
        with contextlib.closing(sqlite3.connect(kept)) as copy, contextlib.closing(sqlite3.connect(self.name(prefix))) as base:
            copy.backup(base)

    def lose(self, prefix, shard, place, other):
        """The record at a place is gone, or another one stands there."""
        with contextlib.closing(sqlite3.connect(self.name(prefix))) as base, base:
            base.execute("UPDATE record SET body = ? WHERE place = ?", (other, place))


class Redis(RedisServer):
    """A server that is killed and started again."""

    def __init__(self, folder):
        super().__init__(folder)
        self.deaths = []

    def trouble(self, source):
        self.deaths.append(time.monotonic())
        self.kill()
        time.sleep(source.uniform(0, 0.5))
        self.start()

    def settle(self):
        pass

    def keep(self, prefix, shards):
        return {f"{prefix}:{shard}": self.client().xrange(f"{prefix}:{shard}") for shard in range(shards)}

    def bring_back(self, prefix, kept):
        client = self.client()
        for stream, entries in kept.items():
            client.delete(stream)
            for identifier, fields in entries:
                client.xadd(stream, fields, id=identifier)

    def lose(self, prefix, shard, place, other):
        self.client().xdel(f"{prefix}:{shard}", f"0-{place}")


class Cluster(Postgres):
    """A primary that is killed, and comes back or has another one in its place; standbys that go away."""

    def __init__(self, folder):
        super().__init__(folder)
        waited(self.synchronous)
        self.deaths = []

    def trouble(self, source):
        drawn = source.random()
        if drawn < 0.75:
            self.deaths.append(time.monotonic())
            self.kill(self.primary)
            time.sleep(source.uniform(0, 0.5))
        if drawn < 0.3:
            self.start(self.primary)
        elif drawn < 0.75:
            self.clone(self.promote())
        else:
            away = source.sample(self.others(), source.choice((1, 1, 2)))
            for number in away:
                self.stop(number)
            time.sleep(source.uniform(0, 2))
            for number in away:
                self.start(number)
        waited(self.synchronous)

    def settle(self):
        waited(self.synchronous)

    def _base(self):
        import psycopg

        return psycopg.connect(f"host=127.0.0.1 port={self.ports[self.primary]} user=npss dbname=postgres client_encoding=UTF8")

    def keep(self, prefix, shards):
        with self._base() as base:
            return base.execute(f'SELECT place, shard, body FROM "{prefix}" ORDER BY place').fetchall()

    def bring_back(self, prefix, kept):
        with self._base() as base:
            base.execute(f'DELETE FROM "{prefix}"')
            base.cursor().executemany(f'INSERT INTO "{prefix}" VALUES (%s, %s, %s)', kept)

    def lose(self, prefix, shard, place, other):
        with self._base() as base:
            base.execute(f'DELETE FROM "{prefix}" WHERE place = %s', (place,))


class Members(Etcd):
    """Three members, whose leader is killed, or stopped for a while; at times another one."""

    def __init__(self, folder):
        super().__init__(folder)
        self.deaths = []

    def trouble(self, source):
        leader = self.leader()
        number = source.choice((leader, leader, leader, source.randrange(3))) if leader is not None else source.randrange(3)
        self.deaths.append(time.monotonic())
        if source.random() < 0.5:
            self.kill(number)
            time.sleep(source.uniform(0, 3))
            self.start(number)
        else:
            send([self.running[number].pid], signal.SIGSTOP)
            time.sleep(source.uniform(0, 3))
            send([self.running[number].pid], signal.SIGCONT)

    def settle(self):
        waited(lambda: self.leader() is not None)

    def _asked(self, path, request):
        """What some member answers."""
        answers = []

        def ask():
            answers[:] = [answer for number in range(3) if (answer := self.ask(number, path, request)) is not None][:1]
            return answers

        waited(ask)
        return answers[0]

    @staticmethod
    def _spelled(text):
        return base64.b64encode(text.encode()).decode()

    def _all_of(self, prefix):
        return {"key": self._spelled(f"{prefix}/"), "range_end": self._spelled(f"{prefix}0")}

    def keep(self, prefix, shards):
        return [{"key": pair["key"], "value": pair["value"]} for pair in self._asked("/v3/kv/range", self._all_of(prefix)).get("kvs", ())]

    def bring_back(self, prefix, kept):
        self._asked("/v3/kv/deleterange", self._all_of(prefix))
        for pair in kept:
            self._asked("/v3/kv/put", pair)

    def lose(self, prefix, shard, place, other):
        self._asked("/v3/kv/deleterange", {"key": self._spelled(f"{prefix}/batch/{shard:04x}/{place:016x}")})


class Probe(threading.Thread):
    """Writes records into a log of its own in the same servers, one behind the other, and notes when each was taken."""

    def __init__(self, name, end):
        super().__init__()
        self._name, self._end = name, end
        self.appends = []

    def run(self):
        log = None
        while time.time() < self._end:
            begun = time.monotonic()
            try:
                log = log or open_log(self._name, "make")
                log.append([(0, b"probe")])
                self.appends.append((begun, time.monotonic()))
            except LogAway:
                pass
            time.sleep(0.1)
        if log is not None:
            log.close()


MADE = {"sqlite": File, "redis": Redis, "postgres": Cluster, "etcd": Members}
