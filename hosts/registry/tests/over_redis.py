"""A log of a Redis server."""

import contextlib
import os
import time
import unittest
from unittest.mock import patch

from cases import NEW, YOUNG, Case, version
from log_servers import RedisServer, is_here
from npss_registry import LogAway, LogBroken, Registry, StoreError
from npss_registry.errors import LogUnsafe
from npss_registry.health import Health
from npss_registry.logs import open_log, record_at
from npss_registry.records import Forget, Setup, spelled
from npss_registry.watch import Watch

# What lets a server lose records that it answered, setting by setting.
UNSAFE = {"appendonly": "no", "appendfsync": "everysec", "no-appendfsync-on-rewrite": "yes", "maxmemory-policy": "allkeys-lru"}


@unittest.skipUnless(is_here("redis"), "redis-server or python3-redis is not here")
class Redis(Case):
    """A log of a Redis server."""

    def server(self, **settings):
        self.redis = RedisServer(self.folder, **settings)
        self.addCleanup(self.redis.close)
        self.log = self.redis.log
        return self.redis

    def test_claims_through_a_server(self):
        self.server()
        one, other = self.node("one", setup=Setup("nfc", 9, 3, False)), self.node("other", NEW, Setup("nfc", 9, 3, False))
        self.assertEqual(one.claim("a\u0302", "x").what, "registered")
        self.assertEqual(other.claim("\u00e2", "y").what, "taken")
        self.assertEqual(other.claim(YOUNG, "y").what, "registered")
        self.assertEqual(one.forget("a\u0302").what, "forgotten")
        one.catch_up()
        one.abandon()
        again = self.open(one.store.path)
        again.upgrade(version(NEW))
        self.assertEqual(again.find(YOUNG)[0].owner, "y")
        self.assertEqual(self.judged(one.store.path, other.store.path), [])

    def test_a_server_that_is_away(self):
        server = self.server()
        node = self.node("one")
        node.claim("a", "x")
        server.kill()
        self.assertRaises(LogAway, node.claim, "A", "x")
        self.assertIsNone(node.status()[0].last)
        # What stands in the store is found all the same.
        self.assertEqual(node.find("a")[0].owner, "x")
        node.abandon()
        self.assertRaises(LogAway, Registry, node.store.path)

    def test_names_of_no_server(self):
        for name in ("redis://h:port/0", "redis://127.0.0.1:99999999/0", "redis://127.0.0.1/0?nothing=1", "redis://127.0.0.1/zero"):
            status, out, err = self.run_words("init", str(self.folder / "store"), *NEW, "--log", name)
            self.assertIn(status, (4, 5), name)
            self.assertRegex(err, r"\Anpss-registry: [^\n]+\n\Z")
            self.assertNotIn("a fault of npss-registry", err)
            self.assertEqual((out, (self.folder / "store").exists()), ("", False))

    def test_a_server_that_refuses_is_away(self):
        server = self.server()
        node = self.node("one")
        self.assertEqual(node.claim("a", "x").what, "registered")
        for most, check in (("1", lambda: self.assertRaises(LogAway, node.claim, "A", "x")),
                            ("0", lambda: self.assertEqual(node.claim("A", "x").what, "registered"))):
            server.set(maxmemory=most)
            check()

    def test_an_entry_that_no_node_wrote_stops_the_node(self):
        server = self.server()
        node, other = self.node("one"), self.node("other")
        server.client().xadd("tests:0", {"another": "x"}, id="0-*")
        self.assertRaisesRegex(LogBroken, "at place 2", node.catch_up)
        server.client().xadd("tests:0", {"record": spelled(Forget("a", 1))}, id="7-3")
        self.assertRaisesRegex(LogBroken, "7-3", other.catch_up)


@unittest.skipUnless(is_here("redis"), "redis-server or python3-redis is not here")
class RedisReads(Case):
    """A log that is trimmed while somebody reads it."""

    def trimmed_meanwhile(self, place):
        """A log, and the places that one read answers where it is trimmed to a place behind the first 200."""
        folder = self.folder / str(place)
        folder.mkdir()
        server = RedisServer(folder)
        self.addCleanup(server.close)
        log, other = open_log(server.log, "make"), open_log(server.log)
        self.addCleanup(log.close)
        self.addCleanup(other.close)
        log.begin([(0, b"first")])
        log.append([(0, b"%d" % count) for count in range(349)])
        asked, pieces = other._server.xrange, []

        def trims(*words, **more):
            pieces.append(asked(*words, **more))
            if len(pieces) == 2:
                log.trim(0, place)
            return pieces[-1]

        with patch.object(other._server, "xrange", trims):
            return log, [at for at, _ in other.read(0, 0, 1000)]

    def test_what_was_read_before_a_trim_is_answered(self):
        for place in (202, 300):
            with self.subTest(place=place):
                log, places = self.trimmed_meanwhile(place)
                self.assertEqual(places, list(range(1, 201)))
                # The next one begins where the log does.
                self.assertEqual([at for at, _ in log.read(0, 200, 1000)], list(range(place, 351)))

    def test_a_read_goes_on_where_nothing_is_left_out(self):
        self.assertEqual(self.trimmed_meanwhile(201)[1], list(range(1, 351)))


@unittest.skipUnless(is_here("redis"), "redis-server or python3-redis is not here")
class RedisSettings(Case):
    """A Redis server that may lose what it answered isn't used, at first or later."""

    def server(self, **settings):
        self.redis = RedisServer(self.folder, **settings)
        self.addCleanup(self.redis.close)
        return self.redis

    def test_each_setting_is_looked_at_where_a_log_is_opened(self):
        server = self.server()
        for name, value in UNSAFE.items():
            before = server.client().config_get(name)[name]
            server.set(**{name: value})
            for how in ("make", "use", "read"):
                self.assertRaisesRegex(LogUnsafe, f"loses what it was told last: set {name} {before}", open_log, server.log, how)
            server.set(**{name: before})
        open_log(server.log, "make").close()

    def test_a_server_that_was_started_unsafe_is_refused(self):
        self.assertRaisesRegex(StoreError, "appendfsync always", open_log, self.server(appendfsync="no").log, "make")

    def test_each_setting_is_looked_at_while_a_log_is_used(self):
        server = self.server()
        log = open_log(server.log, "make")
        self.addCleanup(log.close)
        log.begin([(0, b"first")])
        for name, value in UNSAFE.items():
            before = server.client().config_get(name)[name]
            server.set(**{name: value})
            for _ in range(2):
                self.assertRaisesRegex(LogAway, f"set {name} {before}", log.append, [(0, b"lost perhaps")])
            server.set(**{name: before})
            place, = log.append([(0, name.encode())])
            self.assertEqual(record_at(log, 0, place), name.encode())

    def test_a_server_that_comes_back_unsafe_is_away_until_it_is_mended(self):
        server = self.server()
        log = open_log(server.log, "make")
        self.addCleanup(log.close)
        log.append([(0, b"before")])
        server.kill()
        server.start(appendfsync="no")
        for ask in (lambda: log.append([(0, b"lost perhaps")]), lambda: log.read(0, 0, 9), lambda: log.lasts(1), lambda: log.news([1], 1)):
            self.assertRaisesRegex(LogAway, "set appendfsync always", ask)
        server.set(appendfsync="always")
        place, = log.append([(0, b"behind")])
        self.assertEqual(log.read(0, 0, 9), [(1, b"before"), (place, b"behind")])

    def test_who_waits_for_news_waits_for_a_safe_server(self):
        server, looks, health = self.server(), [], Health()
        server.set(appendfsync="no")
        with self.assertLogs("npss_registry", "INFO") as logs:
            watch = Watch(server.log, 1, health, looks.append)
            watch.start()
            self.addCleanup(watch.stop)
            self.until(lambda: health.log.why)
            self.assertEqual(looks, [])
            server.set(appendfsync="always")
            self.until(lambda: looks)
        self.assertEqual((looks[0], health.log.why), ([0], None))
        self.assertRegex("\n".join(logs.output), "(?s)the log is away: .*appendfsync always.*the log is back")

    def until(self, true, seconds=15):
        end = time.monotonic() + seconds
        while not true():
            self.assertLess(time.monotonic(), end)
            time.sleep(0.02)

    def test_a_server_that_does_not_tell_its_settings_is_refused(self):
        server = self.server()
        client = server.client()
        client.acl_setuser("alice", enabled=True, passwords=["+secret"], keys=["*"], commands=["+@all", "-config"])
        with patch.dict(os.environ, {"NPSS_LOG_PASSWORD": "secret"}):
            self.assertRaisesRegex(LogUnsafe, "doesn't tell how it writes", open_log, server.log.replace("redis://", "redis://alice@"), "make")

    def test_an_earlier_version_is_refused(self):
        from npss_registry.logs import redis_log

        server = self.server()
        redis_version = server.client().info("server")["redis_version"]
        with patch.object(redis_log, "LEAST_VERSION", int(redis_version.partition(".")[0]) + 1), self.assertRaisesRegex(LogUnsafe, f"is of version {redis_version}"):
            open_log(server.log, "make")

    def test_a_server_goes_on_over_one_that_is_mended(self):
        """What is asked meanwhile isn't lost, and the node stays the one it was."""
        server = self.server()
        self.log = server.log
        node = self.node("one")
        self.assertEqual(node.claim("a", "x").what, "registered")
        server.kill()
        server.start(appendfsync="no")
        self.assertRaises(LogAway, node.claim, "A", "x")
        server.set(appendfsync="always")
        self.assertEqual(node.claim("A", "x").what, "registered")
        with contextlib.suppress(LogAway):
            node.claim("i", "x")
        self.assertEqual(self.judged(node.store.path), [])
