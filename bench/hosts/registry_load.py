"""Clients of a registry's server, which ask one behind the other over connections that they keep, and the server itself."""

import itertools
import json
import os
import re
import selectors
import socket
import subprocess
import sys
import threading
import time
from pathlib import Path
from typing import NamedTuple

TOKEN = "0123456789abcdef0123456789abcdef"


class Rate(NamedTuple):
    """How many answers came a second, and after how many milliseconds: in the median, and for 99 of 100."""

    second: float
    median: float
    late: float

    def __str__(self):
        return f"{self.second:,.0f} ({self.median:.1f}, {self.late:.1f})"


def request(port, path, fields):
    body = json.dumps(fields).encode()
    return (f"POST {path} HTTP/1.1\r\nHost: localhost\r\nAuthorization: Bearer {TOKEN}\r\nContent-Length: {len(body)}\r\n\r\n").encode() + body


def length_in(head):
    return int(re.search(rb"content-length: *(\d+)", head, re.IGNORECASE)[1])


def asked(port, requests, clients, seconds, statuses):
    """The rate of some clients that each ask what comes next, for so many seconds. Each answer has to have one of the statuses."""
    took, begun = [], time.perf_counter()
    with selectors.DefaultSelector() as selector:
        for _ in range(clients):
            made = socket.create_connection(("127.0.0.1", port))
            made.setsockopt(socket.IPPROTO_TCP, socket.TCP_NODELAY, 1)
            selector.register(made, selectors.EVENT_READ, [b"", time.perf_counter()])
            made.sendall(request(port, *next(requests)))
        while time.perf_counter() - begun < seconds:
            for key, _ in selector.select(1):
                state = key.data
                state[0] += key.fileobj.recv(65536)
                head, behind, body = state[0].partition(b"\r\n\r\n")
                if not behind or len(body) < length_in(head):
                    continue
                now = time.perf_counter()
                assert int(head[9:12]) in statuses, state[0]
                took.append(now - state[1])
                state[:] = b"", now
                key.fileobj.sendall(request(port, *next(requests)))
        for key in list(selector.get_map().values()):
            key.fileobj.close()
    took.sort()
    return Rate(len(took) / (time.perf_counter() - begun), 1e3 * took[len(took) // 2], 1e3 * took[len(took) * 99 // 100])


_COUNTS = itertools.count()


def claims():
    """Claims of names that nobody has."""
    return (("/claim", {"name": f"claimed {count}", "owner": "17"}) for count in _COUNTS)


def finds(most):
    """Lookups of `name 0`, `name 1` and so on."""
    return (("/find", {"name": f"name {count % most}"}) for count in itertools.count())


class Served:
    """A store that is served by a process of its own. `host` is the folder of the registry that serves it, this tree's or another."""

    def __init__(self, path, host):
        tokens = Path(f"{path}.tokens")
        tokens.write_text(f"{TOKEN}\n", encoding="ascii")
        words = [sys.executable, "-m", "npss_registry", "serve", path, "--port", "0", "--token-file", str(tokens)]
        python_path = os.pathsep.join([str(host), *filter(None, [os.environ.get("PYTHONPATH")])])
        self.process = subprocess.Popen(words, env={**os.environ, "PYTHONPATH": python_path}, stderr=subprocess.PIPE, text=True)
        for line in self.process.stderr:
            if found := re.search(r"http://127\.0\.0\.1:(\d+)/", line):
                self.port = int(found[1])
                break
        else:
            raise RuntimeError(f"{path} isn't served")
        threading.Thread(target=self.process.stderr.read, daemon=True).start()

    def memory(self):
        """How many MB of it are in memory."""
        return int(re.search(r"VmRSS:\s+(\d+)", Path(f"/proc/{self.process.pid}/status").read_text(encoding="ascii"))[1]) / 1e3

    def kill(self):
        self.process.kill()
        self.process.wait()

    def close(self):
        self.process.terminate()
        self.process.wait()


class Pulse(threading.Thread):
    """One client that claims on and on, and notes when it was answered; `port` may change."""

    def __init__(self, port):
        super().__init__(daemon=True)
        self.port = port
        self.answered = []
        self._ended = threading.Event()

    def run(self):
        requests = claims()
        while not self._ended.wait(0.01):
            try:
                with socket.create_connection(("127.0.0.1", self.port), timeout=30) as line:
                    line.sendall(request(self.port, *next(requests)))
                    if int(line.recv(65536)[9:12] or 0) == 201:
                        self.answered.append(time.monotonic())
            except (OSError, ValueError):
                continue

    def gap(self, since):
        """How long nothing was answered around a moment, once something is again."""
        while not any(moment > since + 0.5 for moment in self.answered):
            time.sleep(0.05)
        moments = [moment for moment in self.answered if moment > since - 1]
        return max(behind - before for before, behind in zip([since, *moments], moments) if behind > since)

    def stop(self):
        self._ended.set()
        self.join()
