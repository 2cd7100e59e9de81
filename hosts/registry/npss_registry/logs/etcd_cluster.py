"""The members of an etcd cluster, asked by JSON over HTTP: one of them, and another one where it gives no answer."""

import base64
import http.client
import json
import ssl
import time
from collections.abc import Iterator
from typing import Any, Optional
from urllib.parse import unquote, urlsplit

from npss_registry.errors import LogAway, StoreError
from npss_registry.logs.names import PASSWORD_FILE, password_of, shown, words_of

_WORDS = {"ca", "cert", "key", PASSWORD_FILE}
_PORT = 2379
# What another member, or the same one a moment later, may do: not what a wrong request comes to.
_RETRIED = {1, 4, 8, 14, 16}  # CANCELLED, DEADLINE_EXCEEDED, RESOURCE_EXHAUSTED, UNAVAILABLE, UNAUTHENTICATED
_UNKNOWN = 2
_FULL = "space exceeded"
_PAUSE = 0.1
Pair = tuple[bytes, bytes]


class Elsewhere(Exception):
    """A member can't answer now."""


class Cluster:
    """The members of a URL. `patience` is how many seconds an answer may take."""

    def __init__(self, url: str, patience: float):
        parts, words = urlsplit(url), words_of(url)
        if words.keys() - _WORDS:
            raise StoreError(f"{shown(url)}: {', '.join(sorted(words.keys() - _WORDS))} isn't known; ca, cert, key and {PASSWORD_FILE} are")
        self._url, self._patience = url, patience
        self._tls = _tls_of(words, shown(url)) if parts.scheme == "etcds" else None
        account, _, hosts = parts.netloc.rpartition("@")
        self._account = unquote(account.partition(":")[0])
        self._hosts = [_host_of(host, url) for host in hosts.split(",")]
        self._token: Optional[str] = None
        self._line: Optional[http.client.HTTPConnection] = None

    def ask(self, path: str, request: dict[str, Any], by: Optional[float] = None) -> dict[str, Any]:
        """An answer of some member, by a moment. What is asked may have been done several times, or not, where LogAway is raised."""
        end = time.monotonic() + self._patience if by is None else by
        why, tried = "no member answers", 0
        while (left := end - time.monotonic()) > 0:
            try:
                # A member that is stopped takes connections and is silent, so none has all the time.
                return self._ask_one(path, request, min(left, self._patience / len(self._hosts)))
            except (OSError, http.client.HTTPException, ValueError, Elsewhere) as error:
                why = str(error) or type(error).__name__
            self._next()
            tried += 1
            if tried % len(self._hosts) == 0:
                time.sleep(max(0.0, min(_PAUSE, end - time.monotonic())))
        raise LogAway(f"the log: {why}")

    def heard(self, create: dict[str, Any], end: float) -> bool:
        """Whether something happens, until a moment, of what a watch is created for."""
        try:
            line = self._connected(max(0.0, min(end - time.monotonic(), self._patience)))
            answer = self._answer(line, "/v3/watch", {"create_request": create})
            while (left := end - time.monotonic()) > 0:
                if line.sock is None:  # which a line has that was connected
                    raise http.client.NotConnected
                line.sock.settimeout(left)
                event = answer.readline()
                if not event or json.loads(event).get("result", {}).get("events"):
                    return bool(event)
        except TimeoutError:
            pass
        except (OSError, http.client.HTTPException, ValueError, Elsewhere):
            time.sleep(max(0.0, min(_PAUSE, end - time.monotonic())))
        finally:
            self._next()  # the line has a watch, and nothing else can be asked over it
        return False

    def _ask_one(self, path: str, request: dict[str, Any], patience: float) -> dict[str, Any]:
        return self._found(self._answer(self._connected(patience), path, request))

    def _found(self, answer: http.client.HTTPResponse) -> dict[str, Any]:
        """What a member answered. Elsewhere where another one may do it, LogAway where none would."""
        found: dict[str, Any] = json.loads(answer.read())
        if answer.status == 200:
            return found
        code, why = found.get("code"), str(found.get("error", answer.status))
        self._token = None  # it ends by itself, with the member that gave it, or with a change of rights
        if _FULL not in why and (code in _RETRIED or (code == _UNKNOWN and "etcdserver" not in why)):
            raise Elsewhere(why)
        raise LogAway(f"the log: etcd refuses: {why}")

    def _connected(self, patience: float) -> http.client.HTTPConnection:
        """A line to the first of the members, over which somebody has signed in where etcd asks for it."""
        if self._line is None or self._line.sock is None:
            host, port = self._hosts[0]
            self._line = (http.client.HTTPSConnection(host, port, timeout=patience, context=self._tls) if self._tls else
                          http.client.HTTPConnection(host, port, timeout=patience))
            self._line.connect()
        self._line.sock.settimeout(patience)
        if self._account and self._token is None:
            request = {"name": self._account, "password": password_of(self._url) or ""}
            self._token = str(self._found(self._answer(self._line, "/v3/auth/authenticate", request))["token"])
        return self._line

    def _answer(self, line: http.client.HTTPConnection, path: str, request: dict[str, Any]) -> http.client.HTTPResponse:
        line.request("POST", path, json.dumps(request), {"Authorization": self._token} if self._token else {})
        return line.getresponse()

    def _next(self) -> None:
        self.close()
        self._hosts.append(self._hosts.pop(0))

    def close(self) -> None:
        if self._line is not None:
            self._line.close()
            self._line = None


def _tls_of(words: dict[str, str], name: str) -> ssl.SSLContext:
    try:
        made = ssl.create_default_context(cafile=words.get("ca"))
        if "cert" in words:
            made.load_cert_chain(words["cert"], words.get("key"))
    except (OSError, ValueError) as error:
        raise StoreError(f"{name}: a file of ca, cert and key can't be used: {error}") from error
    return made


def _host_of(host: str, url: str) -> tuple[str, int]:
    """A host and its port. An address of IPv6 stands in brackets."""
    try:
        parts = urlsplit(f"//{host}")
        if not parts.hostname:
            raise ValueError("a host is missing")
        return parts.hostname, parts.port or _PORT
    except ValueError as error:
        raise StoreError(f"{shown(url)} names no server: {error}") from error


# ---- how keys and values are spelled


def spelled(what: bytes) -> str:
    return base64.b64encode(what).decode()


def put(key: bytes, value: bytes) -> dict[str, Any]:
    """The part of a transaction that writes a value."""
    return {"request_put": {"key": spelled(key), "value": spelled(value)}}


def delete(key: bytes, to: bytes) -> dict[str, Any]:
    """The part of a transaction that deletes keys, up to one that stays."""
    return {"request_delete_range": {"key": spelled(key), "range_end": spelled(to)}}


def get(key: bytes) -> dict[str, Any]:
    """The part of a transaction that reads a value."""
    return {"request_range": {"key": spelled(key)}}


def unchanged(key: bytes, value: Optional[bytes]) -> dict[str, Any]:
    """The part of a transaction by which it is refused where a key has another value; None of one that has none."""
    target = {"target": "VERSION", "version": 0} if value is None else {"target": "VALUE", "value": spelled(value)}
    return {"key": spelled(key), **target}


def pairs(answer: dict[str, Any]) -> Iterator[Pair]:
    """The keys and values of an answer."""
    for pair in answer.get("kvs", ()):
        yield base64.b64decode(pair["key"]), base64.b64decode(pair.get("value", ""))
