"""What stands before each route: whose host is asked for, headers for safety, and how long an answer took."""

import asyncio
import ipaddress
import logging
import time
from collections.abc import Awaitable, Collection, MutableMapping
from typing import Any, Callable

from starlette.requests import ClientDisconnect
from starlette.responses import JSONResponse

from npss_registry.metrics import Metrics

LOGGER = logging.getLogger("npss_registry")
LOOPBACK = ("localhost", "127.0.0.1", "[::1]")
_POLICY = "default-src 'none'; style-src 'unsafe-inline'; form-action 'self'; frame-ancestors 'none'; base-uri 'none'"
HEADERS = [(b"content-security-policy", _POLICY.encode()), (b"x-content-type-options", b"nosniff"), (b"cache-control", b"no-store"),
           (b"referrer-policy", b"no-referrer"), (b"x-frame-options", b"DENY"), (b"cross-origin-resource-policy", b"same-origin")]

Scope = MutableMapping[str, Any]
Receive = Callable[[], Awaitable[MutableMapping[str, Any]]]
Send = Callable[[MutableMapping[str, Any]], Awaitable[None]]
App = Callable[[Scope, Receive, Send], Awaitable[None]]


def hosts_of(host: str, others: Collection[str]) -> frozenset[str]:
    """The hosts that a server answers for: this machine by its own names, the address where it listens, and others."""
    return frozenset({*LOOPBACK, *(_bracketed(name).lower() for name in (host, *others))})


def _bracketed(name: str) -> str:
    """A host as a request names it: an address of IPv6 stands in brackets."""
    try:
        return f"[{name}]" if ipaddress.ip_address(name).version == 6 else name
    except ValueError:
        return name


def _host_in(scope: Scope) -> str:
    """The host that a request names, without its port."""
    for name, value in scope["headers"]:
        if name == b"host":
            host: str = value.decode("latin-1").strip().lower()
            return host.partition("]")[0] + "]" if host.startswith("[") else host.partition(":")[0]
    return ""


class Guard:
    """An application behind its guard. A page of another site can't have its name lead here and read what stands here."""

    def __init__(self, app: App, hosts: frozenset[str], metrics: Metrics, paths: Collection[str]):
        self._app, self._hosts, self._metrics, self._paths = app, hosts, metrics, paths

    async def __call__(self, scope: Scope, receive: Receive, send: Send) -> None:
        if scope["type"] != "http":
            await self._app(scope, receive, send)
            return
        begun = time.monotonic()

        async def guarded(message: MutableMapping[str, Any]) -> None:
            if message["type"] == "http.response.start":
                names = [name for name, _ in message.get("headers", [])]
                message["headers"] = [*message.get("headers", []), *(one for one in HEADERS if one[0] not in names)]
            await send(message)

        try:
            await self._answer(scope, receive, guarded)
        except (ClientDisconnect, asyncio.CancelledError):
            self._metrics.refused("hung up")
        except Exception as error:  # of which the client was told already
            LOGGER.error("%s %s: %s: %s", scope["method"], self._path(scope), type(error).__name__, error)
        finally:
            self._metrics.observe_seconds(self._path(scope), time.monotonic() - begun)

    def _path(self, scope: Scope) -> str:
        path: str = scope["path"]
        return path if path in self._paths else "another"

    async def _answer(self, scope: Scope, receive: Receive, send: Send) -> None:
        if _host_in(scope) in self._hosts:
            await self._app(scope, receive, send)
            return
        self._metrics.refused("another host")
        why = "the request names another host; this server answers for it where it is started with --allow-host"
        await JSONResponse({"error": "Misdirected Request", "why": why}, 421)(scope, receive, send)
