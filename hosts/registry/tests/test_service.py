"""What whoever runs the registry as a service meets: ends, tokens, what is told and counted."""

import contextlib
import http.client
import os
import signal
import socket
import sqlite3
import threading
import time
from pathlib import Path
from unittest import mock

from cases import NEW, YOUNG, version
from npss_registry import Registry
from npss_registry.health import LOGGER, Trouble
from serving import OTHER, TOKEN, RedisServer, Server, ServingCase, claim, with_redis


class Ends(ServingCase):
    """A server that is told to end does so, whatever hangs."""

    def test_an_end_of_a_server_that_idles(self):
        server = self.serve()
        self.assertEqual(self.ask(server, "/claim", claim("A"))[0], 201)
        self.assertEqual(server.end(3), 0)
        server.wait_for("has ended")
        with Path(self.folder / "store-lock").open(encoding="ascii") as lock:
            self.assertTrue(lock.read())
        registry = Registry(str(self.folder / "store"))
        self.addCleanup(registry.abandon)
        self.assertEqual(registry.find("A")[0].owner, "x")

    def test_an_end_beside_half_requests(self):
        server = self.serve()
        for half in (b"", b"GET /", b"POST /find HTTP/1.1\r\nHost: localhost\r\nContent-Length: 10\r\n\r\n{", b"GET /status HTTP/1.1\r\nHost: localhost\r\n\r\n"):
            self.connect(server).sendall(half)
        time.sleep(0.3)
        self.assertEqual(server.end(9), 0)

    def test_an_end_beside_who_takes_no_answer(self):
        server = self.serve()
        made = self.connect(server)
        made.setsockopt(socket.SOL_SOCKET, socket.SO_RCVBUF, 4096)
        for _ in range(300):
            made.sendall(b"GET / HTTP/1.1\r\nHost: localhost\r\n\r\n")
        time.sleep(1)
        self.assertEqual(server.end(9), 0)

    @with_redis
    def test_an_end_while_the_log_is_silent(self):
        redis = RedisServer(self.folder)
        self.addCleanup(redis.kill)
        self.log = redis.log
        server = self.serve()
        self.assertEqual(self.ask(server, "/claim", claim("A"))[0], 201)
        redis.process.send_signal(signal.SIGSTOP)
        claiming = threading.Thread(target=self.claimed, args=(server,))
        claiming.start()
        time.sleep(0.5)
        self.assertEqual(server.end(10), 0)
        claiming.join()
        # The same while a server waits for its log at its start.
        again = self.serve(str(self.folder / "store"))
        self.assertTrue(again.port)
        self.assertEqual(again.end(10), 0)

    def claimed(self, server):
        with contextlib.suppress(OSError, http.client.HTTPException):
            self.ask(server, "/claim", claim("a"))

    def test_an_end_while_the_log_is_held(self):
        server = self.serve()
        self.assertEqual(self.ask(server, "/claim", claim("A"))[0], 201)
        with contextlib.closing(sqlite3.connect(self.log, isolation_level=None)) as base:
            base.execute("BEGIN IMMEDIATE")
            claiming = threading.Thread(target=self.claimed, args=(server,))
            claiming.start()
            time.sleep(0.5)
            self.assertEqual(server.end(10), 0)
            claiming.join()


class Tokens(ServingCase):
    """Tokens that change while it serves."""

    def test_tokens_are_read_again(self):
        server = self.serve()
        self.assertEqual(self.ask(server, "/claim", claim("A"), TOKEN)[0], 201)
        self.tokens.write_text("new a-token-that-came-later\n", encoding="ascii")
        server.process.send_signal(signal.SIGHUP)
        server.wait_for("read 1 tokens: new")
        self.assertEqual(self.ask(server, "/claim", claim("A"), TOKEN)[0], 401)
        self.assertEqual(self.ask(server, "/claim", claim("A"), "a-token-that-came-later")[0], 200)
        for odd in ("", "short\n", "\u00e2" * 20, "a b c d e\n"):
            count = len([line for line in server.lines if "the tokens stay" in line])
            self.tokens.write_text(odd, encoding="utf-8")
            server.process.send_signal(signal.SIGHUP)
            server.wait_for("error: the tokens stay as they were: ", count=count + 1)
            self.assertEqual(self.ask(server, "/claim", claim("A"), "a-token-that-came-later")[0], 200)
        self.tokens.unlink()
        server.process.send_signal(signal.SIGHUP)
        server.wait_for("the tokens stay as they were: .*No such file")
        os.mkfifo(self.tokens)
        server.process.send_signal(signal.SIGHUP)
        server.wait_for("the tokens stay as they were: .*nothing came")
        self.assertEqual(self.ask(server, "/claim", claim("A"), "a-token-that-came-later", 5)[0], 200)
        self.assertNotIn(TOKEN, "\n".join(server.lines))

    def test_a_mark_of_the_order_of_bytes_is_no_part_of_a_token(self):
        self.tokens.write_bytes(b"\xef\xbb\xbf" + TOKEN.encode() + b"\r\n")
        server = self.serve()
        self.assertEqual(self.ask(server, "/claim", claim("A"), TOKEN)[0], 201)

    def test_a_hangup_without_tokens_changes_nothing(self):
        server = self.serve(tokens=False)
        self.assertTrue(server.port)
        server.process.send_signal(signal.SIGHUP)
        time.sleep(0.3)
        self.assertEqual(self.ask(server, "/status", None, None)[0], 200)


class Telling(ServingCase):
    """What is told to who runs it."""

    def test_lines_have_levels_and_no_names(self):
        server = self.serve(None, journal=True)
        server.wait_for("at http://")
        self.assertEqual(self.ask(server, "/claim", claim("aAaAaAi", "somebody"))[0], 201)
        self.ask(server, "/claim", claim(YOUNG))
        self.ask(server, "/claim", b"{")
        self.ask(server, "/claim", claim("A"), "wrong")
        self.assertEqual(server.end(), 0)
        server.wait_for("^<6>refused: 1 Bad Request, 1 Unassigned, 1 Unauthorized$")
        self.assertTrue(all(line.startswith("<") for line in server.lines), server.lines)
        journal = "\n".join(server.lines)
        for secret in ("aAaAaAi", "somebody", YOUNG, TOKEN):
            self.assertNotIn(secret, journal)
        for words in ("serves ", "version 1 of Unicode", "has ended", "1 Bad Request", "1 Unauthorized"):
            self.assertIn(words, journal)

    def test_who_reads_a_line_finds_it_so(self):
        trouble = Trouble("the log is away", "the log is back")
        found = []
        with mock.patch.object(LOGGER, "warning", lambda *_: found.append(trouble.why)), mock.patch.object(LOGGER, "info", lambda *_: found.append(trouble.why)):
            for tell in (lambda: trouble.begin("no log"), lambda: trouble.begin("still none"), trouble.end, trouble.end):
                tell()
        self.assertEqual(found, ["no log", None])

    def test_an_upgrade_is_told_where_the_store_is_served_next(self):
        path = self.store("store")
        server = self.serve(path)
        self.assertTrue(server.port)
        self.assertEqual(server.end(), 0)
        registry = Registry(path)
        before = registry.tables.count
        registry.upgrade(version(NEW))
        after = registry.tables.count
        registry.close()
        Registry(path).close()  # as `status` does, of which nobody is told
        line = f"^<6>upgraded from version 1 of Unicode in this store, which assigns {before} code points, to version 2, which assigns {after}$"
        server = self.serve(path, journal=True)
        server.wait_for(line)
        self.assertEqual(server.end(), 0)
        server = self.serve(path, journal=True)
        self.assertTrue(server.port)
        self.assertEqual(server.end(), 0)
        self.assertNotIn("upgraded", "\n".join(server.lines))

    def test_what_keeps_a_service_from_starting_is_an_error(self):
        with socket.create_server(("127.0.0.1", 0)) as taken:
            server = Server(self.store("store"), "--port", taken.getsockname()[1], journal=True)
            self.addCleanup(server.kill)
            self.assertEqual(server.process.wait(30), 5)
        server.wait_for("^<3>127.0.0.1 port [0-9]+: Address already in use$")

    def test_metrics(self):
        from prometheus_client.parser import text_string_to_metric_families

        server = self.serve()
        for body in (claim("A"), claim("A"), claim("A", "y"), claim(YOUNG), claim("aa")):
            self.ask(server, "/claim", body)
        self.ask(server, "/claim", claim("i"), OTHER)
        self.ask(server, "/forget", {"name": "A"})
        self.ask(server, "/forget", {"name": "A"})
        self.ask(server, "/none/" + "x" * 100, None)
        status, answer = self.ask(server, "/metrics", None, None)
        self.assertEqual(status, 200)
        self.assertTrue(self.answer.headers["Content-Type"].startswith("text/plain; version=0.0.4"))
        found = {(sample.name, *sorted(sample.labels.items())): sample.value for family in text_string_to_metric_families(answer) for sample in family.samples}
        outcomes = "npss_registry_outcomes_total"

        def counted(request, outcome, token="line-1"):
            return found.get((outcomes, ("outcome", outcome), ("request", request), ("token", token)))

        self.assertEqual([counted("claim", "registered"), counted("claim", "taken"), counted("claim", "registered", "other"), counted("forget", "forgotten"),
                          counted("forget", "not registered")], [3, 1, 1, 1, 1])
        self.assertEqual(found["npss_registry_refused_total", ("kind", "Unassigned")], 1)
        self.assertEqual(found["npss_registry_request_seconds_count", ("path", "/claim")], 6)
        self.assertEqual(found["npss_registry_request_seconds_count", ("path", "another")], 1)
        for name, value in (("place", 5), ("behind", 0), ("registered", 2), ("parked", 0)):
            self.assertEqual(found[f"npss_registry_{name}", ("shard", "0")], value, name)
        self.assertEqual((found["npss_registry_log_up",], found["npss_registry_versions",], found["npss_registry_claims_up",]), (1, 1, 1))
        self.assertLess(found["npss_registry_log_age_seconds",], 5)
        self.assertNotIn('"A"', answer)

    def test_health(self):
        server = self.serve()
        self.assertEqual(self.ask(server, "/health", None, None), (200, {"finds": True, "claims": True, "log": "reached", "store": "written"}))
