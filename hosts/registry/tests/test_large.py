"""Names as long as they may be: how long that is, and what they cost."""

import contextlib
import http.client
import os
import re
import sqlite3
import subprocess
import sys
import threading
from dataclasses import replace
from pathlib import Path
from unittest.mock import patch

from cases import OLD, Case, version
from npss_registry import LogBroken, init
from npss_registry.errors import NameTooLong
from npss_registry.logs import open_log
from npss_registry.records import Setup, claim_of, message, shard_of, spelled
from npss_registry.relog import relog
from serving import TOKEN, RedisServer, ServingCase, answered, claim, with_redis

LONGEST = 65_536
# Reads what a log has, and tells the most memory in MiB that it took beside what it took before.
READS = """
import resource, sys
from npss_registry import Registry
registry = Registry(sys.argv[1])
before = resource.getrusage(resource.RUSAGE_SELF).ru_maxrss
registry.catch_up()
print((resource.getrusage(resource.RUSAGE_SELF).ru_maxrss - before) // 1024, sum(shard.count for shard in registry.shards))
registry.abandon()
"""


class Lengths(Case):
    """How long a name may be."""

    def test_a_new_registry_has_names_of_1024_bytes(self):
        made = init(str(self.folder / "store"), version(OLD), None, self.log)
        self.assertEqual(made.most_bytes, 1024)
        node = self.open(str(self.folder / "store"))
        self.assertEqual(node.claim("a" * 1024, "x").what, "registered")
        before = node.log.lasts(1)
        for name in ("a" * 1025, b"a" * 1025, "\u00e2" * 513):
            with self.assertRaisesRegex(NameTooLong, "more than 1,024 bytes"):
                node.claim(name, "x")
        self.assertEqual(node.log.lasts(1), before)
        self.assertEqual(node.find("a" * 1025), [])

    def test_how_long_stands_in_the_log(self):
        self.store("one", setup=Setup("nfc", 9, 1, False, most_bytes=3))
        self.assertEqual(init(str(self.folder / "two"), version(OLD), None, self.log).most_bytes, 3)
        self.assertEqual(init(str(self.folder / "three"), version(OLD), Setup("nfc", 9, 1, False, most_bytes=0), self.log).most_bytes, 3)
        with self.assertRaisesRegex(Exception, "at most 3 bytes"):
            init(str(self.folder / "four"), version(OLD), Setup("nfc", 9, 1, False, most_bytes=4), self.log)
        node = self.open(str(self.folder / "two"))
        self.assertEqual(node.setup.most_bytes, 3)
        place = node.log.append([(0, spelled(claim_of(message("nfc", "aaaa", "aaaa"), "x")))])[0]
        with self.assertRaisesRegex(LogBroken, "more than 3 bytes") as caught:
            node.catch_up()
        self.assertEqual(caught.exception.place, place)

    def test_another_log_allows_as_much(self):
        node = self.node("one", setup=Setup("nfc", 9, 1, False, most_bytes=3))
        node.claim("a", "x")
        node.close()
        relog([node.store.path], str(self.folder / "new"))
        again = self.open(node.store.path)
        self.assertEqual((again.setup.most_bytes, again.find("a")[0].owner), (3, "x"))

    def test_a_log_that_tells_no_length_has_names_as_long_as_a_node_takes(self):
        path = self.store("store")
        setup = self.open(path).setup
        body = spelled(setup).replace(b',"most_bytes":65536', b"")
        self.assertNotIn(b"most_bytes", body)
        self.assertNotEqual(body, spelled(setup))
        with contextlib.closing(sqlite3.connect(self.log)) as base, base:
            base.execute("UPDATE record SET body = ? WHERE place = 1", (body,))
        other = self.open(self.store("other", setup=replace(setup, name="")))
        self.assertEqual(other.claim("a" * LONGEST, "x").what, "registered")

    def test_over_http(self):
        made = str(self.folder / "store")
        init(made, version(OLD), None, self.log)
        case = ServingCase()
        case.folder, case.tokens = self.folder, self.folder / "tokens"
        case.tokens.write_text(TOKEN, encoding="ascii")
        self.addCleanup(case.doCleanups)
        server = case.serve(made)
        status, answer = case.ask(server, "/claim", claim("a" * 1025))
        self.assertEqual((status, answer["error"]), (422, "NameTooLong"))
        self.assertEqual(case.ask(server, "/status", None)[1]["most_bytes"], 1024)


class Images(Case):
    """Images that are larger than what SQLite keeps in one place."""

    def test_an_image_in_pieces(self):
        with patch("npss_registry.images.PIECE", 50):
            node = self.node("one")
            for count in range(1, 40):
                node.claim("a" * count, "x")
            node.close()
            again = self.open(node.store.path)
            self.assertEqual(len(again.shards[0].node), 39)
            self.assertGreater(len(again.store.shard(0).image), 500)
            copy = str(self.folder / "copy")
            again.store.backup(copy)
            for name in ("a" * count for count in range(1, 39)):
                again.forget(name)
            again.close()
            back = self.open(copy)  # whose journal begins with its image
            back.catch_up()
            self.assertEqual(len(back.shards[0].node), 1)
            back.close()
            self.assertEqual(self.judged(again.store.path, copy), [])
            self.assertEqual(len(self.open(again.store.path).shards[0].node), 1)
        with contextlib.closing(sqlite3.connect(node.store.path)) as base:
            self.assertLessEqual(base.execute("SELECT max(length(image)), max(length(base)) FROM image").fetchone(), (50, 50))


class Memory(Case):
    """What a node takes that reads many of the longest names."""

    def check(self, shards):
        self.setup = Setup("nfc", 1000, shards, False)
        path = self.store("store")
        log = open_log(self.log)
        self.addCleanup(log.close)
        names = ["A" * number + "a" * (LONGEST - number) for number in range(1, 601)]
        for at in range(0, len(names), 50):
            log.append([(shard_of(name, shards), spelled(claim_of(message("nfc", name, name), "x"))) for name in names[at:at + 50]])
        ran = subprocess.run([sys.executable, "-c", READS, path], stdout=subprocess.PIPE, text=True, check=True, env=dict(os.environ))
        most, count = map(int, ran.stdout.split())
        self.assertEqual(count, 600)
        # The nodes keep 600 names, 40 MiB, and SQLite a part of the store's file.
        self.assertLess(most, 190)

    def test_over_a_file(self):
        self.check(1)

    @with_redis
    def test_over_a_redis_server(self):
        server = RedisServer(self.folder)
        self.addCleanup(server.kill)
        self.log = server.log
        self.check(8)


class Large(ServingCase):
    """Many of the longest names."""

    setup = Setup("nfc", 1000, 1, False)

    @staticmethod
    def most_memory(server):
        """The most memory that a server had, in MiB."""
        state = Path(f"/proc/{server.process.pid}/status").read_text(encoding="ascii")
        return int(re.search(r"VmHWM:\s+(\d+) kB", state)[1]) / 1024

    def test_claims_that_come_at_once_are_worked_on_in_turn(self):
        server = self.serve()
        self.ask(server, "/claim", claim("a" * LONGEST))
        before = self.most_memory(server)
        statuses = []

        def claim_one(number):
            connection = http.client.HTTPConnection("127.0.0.1", server.port, timeout=60)
            statuses.append(answered(connection, "/claim", claim("A" * number + "a" * (LONGEST - number)), TOKEN, {}).status)
            connection.close()

        threads = [threading.Thread(target=claim_one, args=(number,)) for number in range(1, 201)]
        for thread in threads:
            thread.start()
        for thread in threads:
            thread.join()
        self.assertEqual(statuses, [201] * 200)
        self.assertLess(self.most_memory(server) - before, 125)
