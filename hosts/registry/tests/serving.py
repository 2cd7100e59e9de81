"""What tests of the server share: a store, a server over it as a process of its own, and what a client does."""

import contextlib
import http.client
import importlib.util
import json
import os
import re
import signal
import socket
import subprocess
import sys
import threading
import time
import unittest
import urllib.parse

from cases import Case
from log_servers import RedisServer as RedisServer
from log_servers import is_here

TOKEN, OTHER, READING = "token-of-the-tests", "another-token-of-them", "a-token-that-reads-alone"
# What the server stands on.
HERE = all(importlib.util.find_spec(name) for name in ("prometheus_client", "starlette", "uvicorn"))


class Server:
    """A server as a process. Its lines are gathered as it tells them, as a journal where that is asked for."""

    def __init__(self, *words, journal=False):
        self.lines = []
        reading, writing = os.pipe()
        end = os.fstat(writing)
        environment = {"JOURNAL_STREAM": f"{end.st_dev}:{end.st_ino}"} if journal else {}
        self.process = subprocess.Popen([sys.executable, "-m", "npss_registry", "serve", *map(str, words)], stdout=subprocess.DEVNULL,
                                        stderr=writing, env={**os.environ, **environment})
        os.close(writing)
        self._output = open(reading, encoding="utf-8", errors="replace")
        self._reading = threading.Thread(target=self._read, daemon=True)
        self._reading.start()

    def _read(self):
        for line in self._output:
            self.lines.append(line.rstrip("\n"))

    def wait_for(self, pattern, seconds=60, count=1):
        """The first match of a pattern in a line, which is waited for."""
        end = time.monotonic() + seconds
        while time.monotonic() < end:
            found = [match for match in (re.search(pattern, line) for line in list(self.lines)) if match]
            if len(found) >= count:
                return found[count - 1]
            time.sleep(0.02)
        raise AssertionError(f"{pattern!r} isn't told in {self.lines}")

    @property
    def port(self):
        return int(self.wait_for(r"at http://(?:[\d.]+|\[[\d:a-f]+\]|localhost):(\d+)/")[1])

    def end(self, seconds=10, number=signal.SIGTERM):
        """Tells it to end, and answers its status, which has to come within so many seconds."""
        self.process.send_signal(number)
        return self.process.wait(timeout=seconds)

    def kill(self):
        self.process.kill()
        self.process.wait()
        self._reading.join(5)
        self._output.close()


@unittest.skipUnless(HERE, "python3-starlette, python3-uvicorn or python3-prometheus-client is not here")
class ServingCase(Case):
    """A folder with a store, its log beside it, and a file of tokens."""

    def setUp(self):
        super().setUp()
        self.tokens = self.folder / "tokens"
        self.tokens.write_text(f"{TOKEN}\nother {OTHER}\nlook {READING} read-only\n", encoding="ascii")

    def serve(self, path=None, *words, tokens=True, journal=False):
        """A server on a free port."""
        given = ["--token-file", self.tokens] if tokens else []
        server = Server(path or self.store("store"), "--port", 0, *given, *words, journal=journal)
        self.addCleanup(server.kill)
        return server

    def ask(self, server, path, body=None, token=TOKEN, seconds=30, **headers):
        """A request of its own connection: status and JSON, or text."""
        connection = http.client.HTTPConnection("127.0.0.1", server.port, timeout=seconds)
        with contextlib.closing(connection):
            self.answer = answer = answered(connection, path, body, token, headers)  # the last one, where threads ask
            text = answer.read().decode()
            return answer.status, json.loads(text) if answer.headers["Content-Type"] == "application/json" else text

    def page(self, server, path, form=None, **headers):
        connection = http.client.HTTPConnection("127.0.0.1", server.port, timeout=30)
        with contextlib.closing(connection):
            given = {"Content-Type": "application/x-www-form-urlencoded", **headers} if form else headers
            connection.request("GET" if form is None else "POST", path, form and urllib.parse.urlencode(form), given)
            self.answer = connection.getresponse()
            return self.answer.read().decode()

    def connect(self, server):
        """A connection by hand."""
        made = socket.create_connection(("127.0.0.1", server.port), timeout=30)
        self.addCleanup(made.close)
        return made

    def until(self, true, seconds=10):
        """Waits until something is so."""
        end = time.monotonic() + seconds
        while not true():
            self.assertLess(time.monotonic(), end, "it doesn't come to be so")
            time.sleep(0.02)


def answered(connection, path, body, token, headers):
    """The answer to a request over a connection."""
    given = {} if token is None else {"Authorization": f"Bearer {token}"}
    sent = body if isinstance(body, (bytes, type(None))) else json.dumps(body).encode()
    connection.request("GET" if body is None else "POST", path, sent, {**given, **{name.replace("_", "-"): value for name, value in headers.items()}})
    return connection.getresponse()


def claim(name, owner="x"):
    return {"name": name, "owner": owner}


def read_all(made, seconds=20):
    """What comes over a connection until it is closed."""
    made.settimeout(seconds)
    received = b""
    with contextlib.suppress(ConnectionResetError):
        while piece := made.recv(65_536):
            received += piece
    return received


def with_redis(test):
    """A test that wants a Redis server."""
    return unittest.skipUnless(is_here("redis"), "python3-redis or redis-server is not here")(test)
