"""The registry over HTTP: requests, those that come late or large or from elsewhere, and pages."""

import http.client
import re
import shutil
import socket
import subprocess
import threading
import time
import unittest
from pathlib import Path

from npss_registry import pages
from npss_registry.overview import Overview, ShardState

from cases import YOUNG
from serving import OTHER, READING, TOKEN, Server, ServingCase, answered, claim, read_all


class Requests(ServingCase):
    """What is asked, and what comes."""

    def test_names_over_http(self):
        server = self.serve()
        self.assertEqual(self.ask(server, "/claim", claim("a\u0302"))[0], 201)
        self.assertEqual(self.ask(server, "/claim", claim("a\u0302"))[0], 200)
        status, answer = self.ask(server, "/claim", claim("\u00e2", "y"))
        self.assertEqual((status, answer["holder"]["name"]), (409, "a\u0302"))
        status, answer = self.ask(server, "/claim", claim("a" + YOUNG, "y"))
        self.assertEqual((status, answer["error"], answer["code"], answer["place"]), (422, "Unassigned", "1DFA", 1))
        status, answer = self.ask(server, "/find", {"name": "\u00e2"}, None)
        self.assertEqual((status, [row["owner"] for row in answer]), (200, ["x"]))
        self.assertEqual(self.ask(server, "/find", {"name": "A"}, None), (404, []))
        self.assertEqual(self.ask(server, "/same", {"left": "a\u0302", "right": "a\u0302"}, None), (200, {"same": True}))
        self.assertEqual(self.ask(server, "/same", {"left": "a\u0302", "right": "\u00e2"}, None), (404, {"same": None}))
        self.assertEqual(self.ask(server, "/forget", {"name": "a\u0302", "owner": "y"})[0], 409)
        self.assertEqual(self.ask(server, "/forget", {"name": "a\u0302", "owner": "x"})[0], 200)
        self.assertEqual(self.ask(server, "/forget", {"name": "a\u0302"})[0], 404)
        status, answer = self.ask(server, "/status", None, None)
        self.assertEqual((status, answer["shards"][0]["registered"], answer["shards"][0]["behind"], answer["claims"]), (200, 0, 0, True))

    def test_bodies_that_are_none(self):
        server = self.serve()
        for body, status in ((b"{", 400), (b"[]", 400), ({"name": 3, "owner": "x"}, 400), ({"name": "a"}, 400), ({"name": "a", "owner": ""}, 422),
                             (b'{"name": "\\ud800", "owner": "x"}', 422), (b"\xff", 400), (b"", 400), (b'{"name": NaN}', 400), (b'{"a": 1' + b"0" * 5000, 400),
                             (b'{"name":' + b"[" * 100_000, 400), (b"[" * 100_000 + b"]" * 100_000, 400)):
            self.assertEqual(self.ask(server, "/claim", body)[0], status, body[:40] if isinstance(body, bytes) else body)
        for path in ("/find", "/same"):
            status, answer = self.ask(server, path, b'{"a":' * 10_000 + b"1" + b"}" * 10_000, None)
            self.assertEqual((status, answer["error"]), (400, "Bad Request"))
        self.assertEqual(self.ask(server, "/find", None, None)[0], 405)
        self.assertEqual(self.ask(server, "/none", None, None)[0], 404)
        self.assertEqual(self.ask(server, "/claim", claim("A"))[0], 201)
        self.assertNotIn("Traceback", "\n".join(server.lines))

    def test_the_body_of_who_shows_no_token_has_64_kib(self):
        server = self.serve()
        for path, name in (("/find", "name"), ("/same", "left"), ("/search", "name"), ("/why", "left")):
            self.assertEqual(self.ask(server, path, b"x" * 65_537, None)[0], 413, path)
        long = {"name": "\u00e2" * 20_000}
        self.assertEqual(self.ask(server, "/find", long, None)[0], 413)
        for token in (TOKEN, READING):
            self.assertEqual(self.ask(server, "/find", long, token)[0], 404)
        self.assertEqual(self.ask(server, "/claim", b"x" * 600_000)[0], 413)
        # Nothing of a body is read of who may not claim.
        made = self.connect(server)
        made.sendall(b"POST /claim HTTP/1.1\r\nHost: localhost\r\nContent-Length: 500000\r\n\r\n")
        self.assertEqual(made.recv(4096)[:12], b"HTTP/1.1 401")

    def test_who_sends_far_too_much_is_told_so(self):
        server = self.serve()
        for token, status in ((TOKEN, 413), (None, 401)):
            made = self.connect(server)
            shown = f"Authorization: Bearer {token}\r\n" if token else ""
            made.sendall(f"POST /claim HTTP/1.1\r\nHost: localhost\r\n{shown}Content-Length: 20000000\r\n\r\n".encode())
            made.sendall(b"x" * 20_000_000)
            self.assertEqual(int(made.recv(4096).split()[1]), status)

    def test_a_body_in_pieces_is_counted(self):
        server = self.serve()
        made = self.connect(server)
        made.sendall(b"POST /find HTTP/1.1\r\nHost: localhost\r\nTransfer-Encoding: chunked\r\n\r\n" + b"10000\r\n" + b" " * 65_536 + b"\r\n1\r\n \r\n")
        self.assertEqual(made.recv(4096)[:12], b"HTTP/1.1 413")

    def test_why_is_bounded_and_keeps_nobody_waiting(self):
        server = self.serve()
        begun = time.monotonic()
        why_page = self.page(server, "/why", {"left": "a" * 30_000, "right": "A" * 30_000})
        self.assertLess(time.monotonic() - begun, 3)
        self.assertLess(len(why_page), 500_000)
        self.assertIn("its first 1000 code points of 30000", why_page)
        slowest = []

        def asked():
            for _ in range(5):
                self_begun = time.monotonic()
                connection = http.client.HTTPConnection("127.0.0.1", server.port, timeout=30)
                answered(connection, "/claim", claim("A"), TOKEN, {}).read()
                connection.close()
                slowest.append(time.monotonic() - self_begun)

        claiming = threading.Thread(target=asked)
        claiming.start()
        for _ in range(10):
            self.page(server, "/why", {"left": "a" * 30_000, "right": "A" * 30_000})
        claiming.join()
        self.assertLess(max(slowest), 2)

    def test_tokens(self):
        server = self.serve()
        for token, status in ((TOKEN, 201), (OTHER, 200), (READING, 403), (None, 401), ("", 401), (TOKEN + "x", 401), (TOKEN[:-1], 401)):
            self.assertEqual(self.ask(server, "/claim", claim("A"), token)[0], status, token)
        self.assertEqual(self.ask(server, "/claim", claim("A"), None, Authorization=f"bearer {TOKEN}")[0], 200)
        self.assertEqual(self.ask(server, "/claim", claim("A"), None, Authorization=f"Basic {TOKEN}")[0], 401)
        self.assertEqual(self.answer.headers["WWW-Authenticate"], "Bearer")
        self.assertEqual(self.ask(server, "/find", {"name": "A"}, None)[0], 200)

    def test_reading_wants_a_token_where_that_is_asked_for(self):
        server = self.serve(None, "--private")
        for path, body in (("/find", {"name": "A"}), ("/same", {"left": "A", "right": "A"}), ("/status", None), ("/metrics", None), ("/", None),
                           ("/search", b"name=A"), ("/why", b"left=A&right=A")):
            self.assertEqual(self.ask(server, path, body, None)[0], 401, path)
            self.assertIn(self.ask(server, path, body, READING)[0], (200, 404), path)
        self.assertEqual(self.ask(server, "/health", None, None)[0], 200)

    def test_without_a_token_nothing_changes(self):
        server = self.serve(tokens=False)
        self.assertEqual(self.ask(server, "/claim", claim("A"))[0], 403)
        self.assertEqual(self.ask(server, "/forget", {"name": "A"})[0], 403)


class Strangers(ServingCase):
    """Who asks slowly, by half, too often, or from another site."""

    def test_half_a_request_is_closed(self):
        server = self.serve()
        halves = [b"", b"GET /sta", b"GET /status HTTP/1.1\r\nHost: localhost\r\n", b"POST /find HTTP/1.1\r\nHost: localhost\r\nContent-Length: 10\r\n\r\n{",
                  b"GET /status HTTP/1.1\r\nHost: localhost\r\nContent-Length: 10\r\n\r\n{", b"GET /status HTTP/1.1\r\nHost: localhost\r\n\r\nGET /st",
                  b"POST /claim HTTP/1.1\r\nHost: localhost\r\nContent-Length: 10\r\n\r\n{"]
        made = [self.connect(server) for _ in halves]
        begun = time.monotonic()
        for one, half in zip(made, halves):
            one.sendall(half)
        answers = [read_all(one) for one in made]
        self.assertLess(time.monotonic() - begun, 14)
        for number in (0, 1, 2, 3):
            self.assertEqual(answers[number][:12], b"HTTP/1.1 408", halves[number])
        for number in (4, 5):
            self.assertEqual(answers[number][:12], b"HTTP/1.1 200", halves[number])
        self.assertEqual(answers[6][:12], b"HTTP/1.1 401")

    def test_a_body_that_trickles_is_closed(self):
        server = self.serve()
        made = self.connect(server)
        made.sendall(b"POST /find HTTP/1.1\r\nHost: localhost\r\nContent-Length: 1000\r\n\r\n")
        begun = time.monotonic()
        with self.assertRaises(OSError):
            while time.monotonic() - begun < 20:
                made.sendall(b" ")
                time.sleep(0.2)
        self.assertLess(time.monotonic() - begun, 15)

    def test_connections_beyond_the_most_are_told_so(self):
        server = self.serve()
        port = server.port
        held = [self.connect(server) for _ in range(400)]
        self.assertEqual(self.ask(server, "/status", None, None)[0], 503)
        self.assertEqual(self.answer.headers["Retry-After"], "1")
        # Those that are there are served on.
        held[0].sendall(b"GET /health HTTP/1.1\r\nHost: localhost\r\n\r\n")
        self.assertEqual(held[0].recv(4096)[:12], b"HTTP/1.1 200")
        for one in held:
            one.close()
        self.until(lambda: self.is_served(server))
        # Far more than that, and more than there are descriptors for.
        crowd = []
        for _ in range(1100):
            made = socket.socket()
            made.settimeout(5)
            try:
                made.connect(("127.0.0.1", port))
            except OSError:
                made.close()
                break
            crowd.append(made)
        for one in crowd:
            one.close()
        self.until(lambda: self.is_served(server), 20)
        self.assertNotIn("Traceback", "\n".join(server.lines))

    def is_served(self, server):
        """Whether a new connection is served, and neither refused nor cut off."""
        try:
            return self.ask(server, "/status", None, None)[0] == 200
        except ConnectionError:
            return False

    def test_a_client_that_hangs_up_or_sends_garbage_is_not_told_of(self):
        server = self.serve()
        before = len(server.lines) if server.port else 0
        for half in (b"POST /find HTTP/1.1\r\nHost: localhost\r\nContent-Length: 10\r\n\r\n{", b"\x00\xff\r\n\r\n", b"GET / HTTP/1.1\r\nHost: localhost\r\nUpgrade: websocket\r\n"
                     b"Connection: Upgrade\r\n\r\n", b"GET /status HTTP/9\r\n\r\n", b"\x16\x03\x01\x02\x00"):
            made = self.connect(server)
            made.sendall(half)
            made.close()
        self.assertEqual(self.ask(server, "/status", None, None)[0], 200)
        self.assertEqual(server.lines[before:], [])

    def test_other_hosts(self):
        server = self.serve(None, "--allow-host", "names.example")
        for host, status in (("localhost", 200), ("LocalHost:99", 200), ("127.0.0.1:8765", 200), ("[::1]:8765", 200), ("names.example", 200),
                             ("evil.example", 421), ("localhost.evil.example", 421), ("127.0.0.1.evil.example:80", 421), ("[::2]", 421), ("", 421)):
            for path in ("/status", "/"):
                made = self.connect(server)
                made.sendall(f"GET {path} HTTP/1.1\r\nHost: {host}\r\nConnection: close\r\n\r\n".encode())
                self.assertEqual(int(read_all(made).split()[1]), status, host)
        made = self.connect(server)
        made.sendall(b"GET /status HTTP/1.0\r\n\r\n")
        self.assertEqual(read_all(made).split()[1], b"421")

    def test_headers_on_each_answer(self):
        server = self.serve()
        for path, body in (("/", None), ("/status", None), ("/find", {"name": "A"}), ("/none", None), ("/claim", b"{"), ("/why", b"left=a&right=b"), ("/metrics", None)):
            self.ask(server, path, body)
            headers = self.answer.headers
            self.assertEqual((headers["X-Content-Type-Options"], headers["Cache-Control"], headers["Referrer-Policy"]), ("nosniff", "no-store", "no-referrer"), path)
            for words in ("default-src 'none'", "frame-ancestors 'none'", "base-uri 'none'", "form-action 'self'"):
                self.assertIn(words, headers["Content-Security-Policy"], path)
        self.assertEqual(self.ask(server, "/status", None, None, Host="evil.example")[0], 421)
        self.assertEqual(self.answer.headers["X-Content-Type-Options"], "nosniff")

    def test_a_flood_of_questions(self):
        server = self.serve()
        port, answers, until = server.port, [], time.monotonic() + 3

        def flood():
            connection = http.client.HTTPConnection("127.0.0.1", port, timeout=30)
            while time.monotonic() < until:
                answers.append(answered(connection, "/status", None, None, {}).read())
            connection.close()

        threads = [threading.Thread(target=flood) for _ in range(8)]
        for thread in threads:
            thread.start()
        slowest = 0.0
        for count in range(10):
            begun = time.monotonic()
            self.assertEqual(self.ask(server, "/claim", claim("a" * (count + 1)))[0], 201)
            slowest = max(slowest, time.monotonic() - begun)
        for thread in threads:
            thread.join()
        self.assertGreater(len(answers), 100)
        self.assertLess(slowest, 2)


class Addresses(ServingCase):
    """Where it listens."""

    def test_an_answer_waits_for_no_packet_of_the_client(self):
        server = self.serve()
        connection = http.client.HTTPConnection("127.0.0.1", server.port, timeout=30)
        begun = time.monotonic()
        for _ in range(50):  # 40 ms each, where the rest of an answer waits until its beginning is acknowledged
            self.assertEqual(len(answered(connection, "/find", {"name": "A"}, None, {}).read()), 2)
        self.assertLess(time.monotonic() - begun, 1.5)
        connection.close()

    def test_an_answer_is_sent_at_once(self):
        server = self.serve()
        made = self.connect(server)
        for path, body in 50 * [(b"/find", b'{"name": "A"}'), (b"/status", b"")]:
            made.sendall(b"%s %s HTTP/1.1\r\nHost: localhost\r\nContent-Length: %d\r\n\r\n%s" % (b"POST" if body else b"GET", path, len(body), body))
            head, behind, content = made.recv(65536).partition(b"\r\n\r\n")
            self.assertEqual((behind, len(content)), (b"\r\n\r\n", int(re.search(rb"content-length: (\d+)", head)[1])), path)

    def test_each_address_of_a_name(self):
        server = Server(self.store("store"), "--port", 0, "--host", "localhost")
        self.addCleanup(server.kill)
        for family, _, _, _, address in socket.getaddrinfo("localhost", server.port, type=socket.SOCK_STREAM):
            with socket.socket(family, socket.SOCK_STREAM) as made:
                made.connect(address)
                made.sendall(b"GET /health HTTP/1.1\r\nHost: localhost\r\nConnection: close\r\n\r\n")
                self.assertEqual(read_all(made).split()[1], b"200", address)

    @unittest.skipUnless(socket.has_ipv6 and Path("/proc/net/if_inet6").exists(), "there is no IPv6 here")
    def test_an_address_of_ipv6(self):
        server = Server(self.store("store"), "--port", 0, "--host", "::1")
        self.addCleanup(server.kill)
        server.wait_for(r"at http://\[::1\]:\d+/")
        for host, status in ((f"[::1]:{server.port}", 200), ("[::2]", 421)):
            with socket.create_connection(("::1", server.port)) as made:
                made.sendall(f"GET /health HTTP/1.1\r\nHost: {host}\r\nConnection: close\r\n\r\n".encode())
                self.assertEqual(int(read_all(made).split()[1]), status)


class Pages(ServingCase):
    """Pages for people."""

    def test_pages(self):
        server = self.serve()
        self.ask(server, "/claim", claim("a\u0302", "<x>"))
        self.assertIn("<td>1</td>", self.page(server, "/"))
        self.assertEqual((self.answer.status, self.answer.headers["Content-Type"]), (200, "text/html; charset=utf-8"))
        found = self.page(server, "/search", {"name": "\u00e2"})
        self.assertIn("&lt;x&gt;", found)
        self.assertNotIn("<x>", found)
        self.assertIn("0061 0302", found)
        self.assertIn("Nobody has it", self.page(server, "/search", {"name": "A"}))
        self.assertIn("unassigned 1DFA at byte 0", self.page(server, "/search", {"name": YOUNG}))
        self.assertIn("The same name", self.page(server, "/why", {"left": "a\u0302", "right": "\u00e2"}))
        other = self.page(server, "/why", {"left": "a\u0302", "right": "a\u0302A"})
        for words in ("Two names", "differ first at code point 2", "<mark>0041</mark>", "230", "only look alike"):
            self.assertIn(words, other)
        self.assertNotIn("<script", other)
        self.assertIn("can't be told", self.page(server, "/why", {"left": YOUNG, "right": "A"}).replace("&#x27;", "'"))

    def test_a_text_keeps_its_direction_and_controls_are_spelled(self):
        server = self.serve()
        self.ask(server, "/claim", claim("A", "99\t\u202eadmin\n\x1b"))
        found = self.page(server, "/search", {"name": "A"})
        self.assertIn("<bdi>A</bdi>", found)
        self.assertRegex(found, r"<bdi>99<span[^>]*>\[0009\]</span><span[^>]*>\[202E\]</span>admin<span[^>]*>\[000A\]</span><span[^>]*>\[001B\]</span></bdi>")
        why_page = self.page(server, "/why", {"left": "a", "right": "A"})
        self.assertRegex(why_page, r"<h2>One: <bdi>a</bdi></h2>")
        self.assertRegex(why_page, r"Key: <bdi>a</bdi>")
        self.assertRegex(why_page, r"\.code \{[^}]*unicode-bidi: isolate; direction: ltr")
        for page in (found, why_page, self.page(server, "/")):
            self.assertIn('<meta name="viewport"', page)
        self.assertNotIn("Search and status", self.page(server, "/"))

    def test_parked_names_have_their_code_points(self):
        shards = [ShardState(0, 3, 3, 0, 1, 1)]
        home_page = pages.home(Overview("ab", "nfkc", False, 65536, 1024, 5, 1, True, None, None, 2.0, shards, [(0, "A\u0639\U00016d67")]))
        self.assertIn('<td><bdi>A\u0639\U00016d67</bdi></td><td><span class="code">0041 0639 16D67</span></td>', home_page)
        self.assertIn("The log told its last places 2 s ago", home_page)

    @unittest.skipUnless(shutil.which("chromium"), "chromium is not here")
    def test_a_page_in_a_browser(self):
        server = self.serve()
        file = self.folder / "page.html"
        file.write_text(self.page(server, "/why", {"left": "a\u0302", "right": "a\u0323"}), encoding="utf-8")
        words = ["chromium", "--headless", "--no-sandbox", "--disable-gpu", f"--user-data-dir={self.folder}/chromium", "--dump-dom", file.as_uri()]
        seen = subprocess.run(words, stdout=subprocess.PIPE, stderr=subprocess.DEVNULL, text=True, timeout=120, check=True).stdout
        for words in ("Two names", "<mark>00E2</mark>", "<mark>1EA1</mark>", "<td>220</td>"):
            self.assertIn(words, seen)
