"""What a server does beside its log and its store: it reads on, and goes on where one of them is away."""

import contextlib
import http.client
import os
import resource
import signal
import sqlite3
import stat
import subprocess
import sys
import threading
import time
from pathlib import Path
from unittest.mock import patch

from cases import NEW, PROGRAM, YOUNG
from npss_registry import LogAway, Registry
from npss_registry.health import Health
from npss_registry.logs import SqliteLog, open_log
from npss_registry.reader import Reader
from npss_registry.records import Setup
from npss_registry.trim import trim
from npss_registry.watch import Watch
from npss_registry.worker import Worker
from serving import TOKEN, RedisServer, ServingCase, answered, claim, with_redis


class Reading(ServingCase):
    """A node reads on whatever is asked."""

    def test_questions_keep_no_node_from_reading(self):
        self.setup = Setup("nfc", 100, 8, False)
        server, other = self.serve(), self.serve(self.store("other"))
        done = threading.Event()

        def ask_often(path, body):
            connection = http.client.HTTPConnection("127.0.0.1", other.port, timeout=30)
            while not done.is_set():
                answered(connection, path, body, TOKEN, {}).read()
            connection.close()

        asking = [threading.Thread(target=ask_often, args=asked) for asked in [("/status", None)] + 12 * [("/claim", claim("A", "y"))]]
        self.assertEqual(self.ask(other, "/claim", claim("A", "y"))[0], 201)
        for thread in asking:
            thread.start()
        try:
            for count in range(2, 10):  # in some shard each
                self.assertEqual(self.ask(server, "/claim", claim("a" * count))[0], 201)
                self.until(lambda name="a" * count: self.ask(other, "/find", {"name": name}, None)[0] == 200, 2)
        finally:
            done.set()
            for thread in asking:
                thread.join()

    def test_work_that_always_waits_keeps_no_node_from_reading(self):
        path = self.store("store")
        worker, reader, other = Worker(path, Health()), Reader(path), self.node("other")
        self.addCleanup(reader.close)
        self.addCleanup(worker.close, 10)
        worker.start()
        for _ in range(250):
            worker.work(lambda registry: time.sleep(0.02))
        other.claim("A", "x")
        worker.news(other.log.lasts(1))
        self.until(lambda: reader.find("A"), 2.5)

    def test_a_node_that_is_behind_says_so(self):
        server = self.serve()
        self.assertEqual(self.ask(server, "/claim", claim("A"))[0], 201)
        answer = self.ask(server, "/status", None, None)[1]
        self.assertEqual((answer["shards"][0]["place"], answer["shards"][0]["last"], answer["shards"][0]["behind"]), (2, 2, 0))
        self.assertLess(answer["log"]["age"], 3)
        self.assertIsNone(answer["log"]["away"])

    def test_what_is_parked_is_told(self):
        server, newer = self.serve(), self.serve(self.store("newer", NEW))
        self.assertEqual(self.ask(newer, "/claim", claim(YOUNG))[0], 201)
        self.until(lambda: self.ask(server, "/status", None, None)[1]["shards"][0]["parked"] == 1)
        self.assertEqual(self.ask(server, "/status", None, None)[1]["shards"][0]["names"], [YOUNG])
        self.assertIn(YOUNG, self.page(server, "/"))


class Watching(ServingCase):
    """The thread that waits for news."""

    def test_a_fault_of_its_own_does_not_end_it(self):
        self.store("store")
        looks, places = [ValueError("a fault"), LogAway("away")], []

        def opened(name, how):
            if looks:
                raise looks.pop(0)
            return open_log(name, how)

        health = Health()
        watch = Watch(self.log, 1, health, places.append)
        with patch("npss_registry.watch.open_log", opened), self.assertLogs("npss_registry", "INFO") as logs:
            watch.start()
            self.until(lambda: places)
            watch.stop()
        self.assertEqual((places[0], health.log.why), ([1], None))
        self.assertRegex("\n".join(logs.output), "(?s)the log is away: ValueError: a fault.*the log is back")


class Logs(ServingCase):
    """Logs that are away, silent, or not what nodes wrote."""

    def redis(self):
        made = RedisServer(self.folder)
        self.addCleanup(made.kill)
        self.log = made.log
        return made

    @with_redis
    def test_a_silent_log_costs_one_deadline(self):
        redis = self.redis()
        self.setup = Setup("nfc", 100, 16, False)
        server = self.serve()
        self.assertEqual(self.ask(server, "/claim", claim("A"))[0], 201)
        redis.process.send_signal(signal.SIGSTOP)
        begun = time.monotonic()
        answers = []
        claiming = [threading.Thread(target=lambda name=name: answers.append(self.ask(server, "/claim", claim(name)))) for name in ("a", "aa", "aaa", "aaaa")]
        for thread in claiming:
            thread.start()
            time.sleep(0.1)
        for path, body, status in (("/status", None, 200), ("/", None, 200), ("/find", {"name": "A"}, 200), ("/same", {"left": "A", "right": "A"}, 200),
                                   ("/health", None, 200), ("/metrics", None, 200)):
            asked = time.monotonic()
            self.assertEqual(self.ask(server, path, body, None)[0], status, path)
            self.assertLess(time.monotonic() - asked, 1, path)
        for thread in claiming:
            thread.join()
        self.assertEqual([(status, answer["why"].rpartition("; ")[2]) for status, answer in answers], [(503, "the outcome is unknown, ask again")] * 4)
        self.assertLess(time.monotonic() - begun, 8)
        # From now on it is known, and nobody waits.
        self.until(lambda: self.ask(server, "/status", None, None)[1]["log"]["away"], 8)
        asked = time.monotonic()
        status, answer = self.ask(server, "/claim", claim("i"))
        self.assertEqual((status, answer["error"]), (503, "NotTried"))
        self.assertLess(time.monotonic() - asked, 1)
        answer = self.ask(server, "/status", None, None)[1]
        self.assertIsNone(answer["shards"][0]["behind"])
        self.assertGreater(answer["log"]["age"], 2)
        redis.process.send_signal(signal.SIGCONT)
        self.until(lambda: self.ask(server, "/claim", claim("i"))[0] in (200, 201), 15)
        server.wait_for("the log is away: ")
        server.wait_for("the log is back after ")

    @with_redis
    def test_a_server_starts_while_its_log_is_away(self):
        redis = self.redis()
        path = self.store("store")
        registry = Registry(path)
        registry.claim("A", "x")
        registry.close()
        redis.kill()
        server = self.serve(path)
        self.assertEqual(self.ask(server, "/find", {"name": "A"}, None)[0], 200)
        self.assertEqual(self.ask(server, "/claim", claim("a"))[0], 503)
        answer = self.ask(server, "/status", None, None)[1]
        self.assertEqual((answer["claims"], answer["shards"][0]["place"], answer["shards"][0]["registered"], answer["shards"][0]["last"]), (False, 2, 1, None))
        self.assertEqual(self.ask(server, "/health", None, None), (200, {"finds": True, "claims": False, "log": "away", "store": "written"}))
        self.assertIn("The log is away", self.page(server, "/"))
        self.assertIn("npss_registry_log_up 0.0", self.ask(server, "/metrics", None, None)[1])
        server.wait_for("warning: the log is away: ")
        redis.start()
        self.until(lambda: self.ask(server, "/claim", claim("a"))[0] in (200, 201), 15)
        server.wait_for("the log is back after ")
        self.assertEqual(server.end(), 0)

    def test_a_server_starts_while_its_log_is_not_there(self):
        path = self.store("store")
        registry = Registry(path)
        registry.claim("A", "x")
        registry.close()
        os.rename(self.log, f"{self.log}.away")
        server = self.serve(path)
        self.assertEqual(self.ask(server, "/find", {"name": "A"}, None)[0], 200)
        self.assertEqual(self.ask(server, "/claim", claim("a"))[1]["error"], "NotTried")
        self.assertEqual(self.ask(server, "/health", None, None)[1]["log"], "away")
        server.wait_for("the log is away: no log at")
        os.rename(f"{self.log}.away", self.log)
        self.until(lambda: self.ask(server, "/claim", claim("a"))[0] in (200, 201), 10)
        server.wait_for("the log is back after ")

    def test_a_log_that_is_held_keeps_claims_alone(self):
        server = self.serve()
        self.assertEqual(self.ask(server, "/claim", claim("A"))[0], 201)
        with contextlib.closing(sqlite3.connect(self.log, isolation_level=None)) as base:
            base.execute("BEGIN IMMEDIATE")
            begun = time.monotonic()
            answers = []
            claiming = [threading.Thread(target=lambda name=name: answers.append(self.ask(server, "/claim", claim(name))[0])) for name in ("a", "aa", "i")]
            for thread in claiming:
                thread.start()
                time.sleep(0.2)
            self.assertEqual(self.ask(server, "/find", {"name": "A"}, None)[0], 200)
            self.assertEqual(self.ask(server, "/status", None, None)[0], 200)
            for thread in claiming:
                thread.join()
            self.assertEqual(answers, [503] * 3)
            self.assertLess(time.monotonic() - begun, 13)
            self.assertFalse(self.ask(server, "/health", None, None)[1]["claims"])
            base.execute("ROLLBACK")
        self.assertEqual(self.ask(server, "/claim", claim("a"))[0], 201)
        self.assertTrue(self.ask(server, "/health", None, None)[1]["claims"])
        server.wait_for("warning: the log takes no records: .*locked")
        server.wait_for("the log takes records again after ")

    def test_a_server_stops_where_the_log_is_broken(self):
        server = self.serve()
        self.assertEqual(self.ask(server, "/status", None, None)[0], 200)
        held = self.connect(server)
        held.sendall(b"POST /find HTTP/1.1\r\nHost: localhost\r\nContent-Length: 10\r\n\r\n{")
        SqliteLog(self.log).append([(0, b"no record")])
        self.assertEqual(server.process.wait(timeout=10), 4)
        self.assertRegex(server.wait_for("critical: the node has stopped")[0] + server.lines[-1], "at place 2: ")
        self.assertNotIn("Traceback", "\n".join(server.lines))

    def test_a_log_that_lost_its_tail_stops_the_server(self):
        server = self.serve()
        self.assertEqual(self.ask(server, "/claim", claim("A"))[0], 201)
        with contextlib.closing(sqlite3.connect(self.log)) as base, base:
            base.execute("DELETE FROM record WHERE place = 2")
        self.assertEqual(server.process.wait(timeout=10), 4)
        server.wait_for("at place 2: the record that this node read last is missing")


    def test_a_log_is_trimmed_while_it_is_served(self):
        path = self.store("store")
        server = self.serve(path)
        for name in ("A", "a"):
            self.assertEqual(self.ask(server, "/claim", claim(name))[0], 201)
        self.assertEqual(trim([path], PROGRAM, 30).findings, [])
        self.assertEqual([self.ask(server, "/claim", claim(*asked))[0] for asked in (("A", "x"), ("A", "y"), ("i", "x"))], [200, 409, 201])
        self.assertEqual(self.ask(server, "/find", {"name": "a"}, None)[1][0]["owner"], "x")
        # One that is away over a trim, and wasn't named, stops and says so.
        other = self.node("other")
        other.claim("aa", "x")
        server.process.send_signal(signal.SIGSTOP)
        other.claim("ii", "x")
        other.close()
        self.assertEqual(trim([other.store.path], PROGRAM, 30).findings, [])
        server.process.send_signal(signal.SIGCONT)
        self.assertEqual(server.process.wait(timeout=15), 4)
        server.wait_for("critical: the node has stopped: the log at place .*trimmed.*npss-registry init")


class Stores(ServingCase):
    """Stores that can't be written for a while."""

    def test_a_store_that_fails_is_opened_anew(self):
        path = self.store("store")
        server = self.serve(path)
        self.assertEqual(self.ask(server, "/claim", claim("A"))[0], 201)
        with contextlib.closing(sqlite3.connect(path, isolation_level=None)) as base:
            base.execute("BEGIN IMMEDIATE")
            status, answer = self.ask(server, "/claim", claim("a"))
            self.assertEqual((status, answer["error"]), (503, "StoreAway"))
            self.assertRegex(answer["why"], "locked; the outcome is unknown, ask again")
            status, answer = self.ask(server, "/claim", claim("i"))
            self.assertEqual((status, answer["error"]), (503, "NotTried"))
            self.assertRegex(answer["why"], "locked; nothing was written")
            self.assertEqual(self.ask(server, "/find", {"name": "A"}, None)[0], 200)
            self.assertEqual(self.ask(server, "/health", None, None)[1]["store"], "away")
            # What stands in the log, and not in the store, is what the node is behind by.
            self.node("other").claim("aa", "x")
            self.until(lambda: self.ask(server, "/status", None, None)[1]["shards"][0]["behind"] == 1)
            self.assertIn('npss_registry_behind{shard="0"} 1.0', self.ask(server, "/metrics", None, None)[1])
            base.execute("ROLLBACK")
        self.until(lambda: self.ask(server, "/claim", claim("a"))[0] in (200, 201), 15)
        server.wait_for("the store can't be worked on: ")
        server.wait_for("the store can be worked on again after ")
        self.assertEqual(self.ask(server, "/find", {"name": "a"}, None)[1][0]["owner"], "x")
        self.assertNotIn("Traceback", "\n".join(server.lines))
        self.assertEqual(server.end(), 0)

    def limit(self, server, most):
        """Files of the server have at most so many bytes, as on a full disk; None: as many as they like."""
        _, hard = resource.prlimit(server.process.pid, resource.RLIMIT_FSIZE)
        resource.prlimit(server.process.pid, resource.RLIMIT_FSIZE, (hard if most is None else most, hard))

    def check_full(self, server, error, line):
        """Claims are refused while the disk is full, names are found, and the node goes on once there is room."""
        self.assertEqual(self.ask(server, "/claim", claim("A"))[0], 201)
        self.limit(server, 4096)
        status, answer = self.ask(server, "/claim", claim("a"))
        self.assertEqual((status, answer["error"]), (503, error))
        self.assertRegex(answer["why"], "the outcome is unknown, ask again")
        self.assertEqual(self.ask(server, "/find", {"name": "A"}, None)[0], 200)
        self.assertFalse(self.ask(server, "/health", None, None)[1]["claims"])
        self.limit(server, None)
        self.until(lambda: self.ask(server, "/claim", claim("a"))[0] in (200, 201))
        server.wait_for(line)
        self.until(lambda: self.ask(server, "/health", None, None)[1]["claims"])
        self.assertEqual(server.end(), 0)
        self.assertNotIn("Traceback", "\n".join(server.lines))

    def test_a_full_disk_of_the_log(self):
        self.check_full(self.serve(), "LogAway", "warning: the log takes no records")

    @with_redis
    def test_a_full_disk_of_the_store(self):
        redis = RedisServer(self.folder)
        self.addCleanup(redis.kill)
        self.log = redis.log
        self.check_full(self.serve(), "StoreAway", "warning: the store can't be worked on")

    def test_a_store_that_is_opened_anew_leaves_its_reader_as_it_was(self):
        path = self.store("store")
        first, reader = Registry(path), Reader(path)
        self.addCleanup(reader.close)
        first.claim("A", "x")
        first.close()
        again = self.open(path)
        # Who closes a store last writes it back and removes what stands beside it, which nobody may do whose look is over now.
        look = f"import sqlite3; base = sqlite3.connect({path!r}); base.execute('SELECT * FROM setup').fetchall(); base.close()"
        subprocess.run([sys.executable, "-c", look], check=True)
        self.assertTrue(Path(f"{path}-wal").exists())
        again.claim("a", "x")
        self.assertEqual([row.owner for row in reader.find("a")], ["x"])

    def test_backup_while_it_serves(self):
        path = self.store("store")
        server = self.serve(path)
        self.assertEqual(self.ask(server, "/claim", claim("A"))[0], 201)
        copy = self.folder / "copy"
        ran = subprocess.run([sys.executable, "-m", "npss_registry", "backup", path, copy], stderr=subprocess.PIPE, text=True, check=False)
        self.assertEqual((ran.returncode, ran.stderr), (0, ""))
        self.assertEqual(stat.S_IMODE(copy.stat().st_mode), 0o600)
        again = Registry(str(copy))
        self.addCleanup(again.abandon)
        self.assertEqual(again.find("A")[0].owner, "x")


    def test_check_while_it_serves(self):
        path = self.store("store")
        server = self.serve(path)
        for count in range(1, 30):
            self.assertEqual(self.ask(server, "/claim", claim("a" * count))[0], 201)
        done = threading.Event()

        def claim_on():
            count = 30
            while not done.is_set():
                self.ask(server, "/claim", claim("a" * count))
                count += 1

        claiming = threading.Thread(target=claim_on)
        claiming.start()
        try:
            for _ in range(3):
                self.assertEqual(self.judged(path), [])
        finally:
            done.set()
            claiming.join()
