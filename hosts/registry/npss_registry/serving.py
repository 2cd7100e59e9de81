"""Serves a store: its socket, its signals, and how it ends."""

import asyncio
import contextlib
import logging
import signal
import socket
from collections.abc import AsyncIterator, Sequence
from dataclasses import dataclass, field
from functools import partial
from typing import Optional

import uvicorn
from starlette.applications import Starlette

from npss_registry import system_log
from npss_registry.connections import Connection
from npss_registry.errors import CannotServe, RegistryError
from npss_registry.guard import Guard, hosts_of
from npss_registry.health import Health
from npss_registry.logs import kind_of, scheme_of
from npss_registry.metrics import Metrics
from npss_registry.overview import Overlook
from npss_registry.reader import Reader
from npss_registry.server import PATHS, Service, application
from npss_registry.tokens import tokens_in
from npss_registry.watch import Watch
from npss_registry.worker import Worker

LOGGER = logging.getLogger("npss_registry")
# Once it is told to end: so many seconds for answers, and then for what the registry is at.
ANSWERS, REGISTRY = 3.0, 5.0
# What was refused is told after so many seconds.
REFUSALS = 60.0
_BACKLOG = 1024


@dataclass(frozen=True)
class Serving:
    """What `serve` is asked for."""

    store: str
    host: str = "127.0.0.1"
    port: int = 8765
    token_file: Optional[str] = None
    private: bool = False
    hosts: Sequence[str] = field(default_factory=tuple)


def _listening(host: str, port: int) -> list[socket.socket]:
    """A socket that listens for each address of a host. CannotServe where the port or an address can't be had."""
    if not 0 <= port <= 65_535:
        raise CannotServe(f"port {port}: a port is a number from 0 to 65535")
    made: list[socket.socket] = []
    try:
        for family, _, _, _, address in socket.getaddrinfo(host, port, type=socket.SOCK_STREAM, flags=socket.AI_PASSIVE):
            # Where any port will do, all addresses have the one that the first got.
            made.append(_bound(family, address[0], made[0].getsockname()[1] if made else port))
    except (OSError, UnicodeError) as error:
        for one in made:
            one.close()
        raise CannotServe(f"{host} port {port}: {getattr(error, 'strerror', None) or error}") from error
    return made


def _bound(family: int, address: str, port: int) -> socket.socket:
    # Only of a socket that names its protocol asyncio has each packet sent at once.
    made = socket.socket(family, socket.SOCK_STREAM, socket.IPPROTO_TCP)
    try:
        made.setsockopt(socket.SOL_SOCKET, socket.SO_REUSEADDR, 1)
        if family == socket.AF_INET6:
            made.setsockopt(socket.IPPROTO_IPV6, socket.IPV6_V6ONLY, 1)
        made.bind((address, port))
        made.listen(_BACKLOG)
    except BaseException:
        made.close()
        raise
    return made


class Node:
    """A store that is served."""

    def __init__(self, asked: Serving):
        self._asked = asked
        self._tokens = None if asked.token_file is None else tokens_in(asked.token_file)
        if asked.private and self._tokens is None:
            raise CannotServe("--private wants --token-file")
        self._sockets = _listening(asked.host, asked.port)
        self._health = Health()
        self._worker = Worker(asked.store, self._health)
        if scheme_of(self._worker.log):
            kind_of(self._worker.log)
        self._watch = Watch(self._worker.log, self._worker.setup.shards, self._health, self._worker.news)
        self._worker.start()
        self._reader = Reader(asked.store)
        overlook = Overlook(self._reader, self._worker, self._watch, self._health)
        self._metrics = Metrics(overlook.overview)
        self._service = Service(self._worker, self._reader, overlook, self._metrics)
        self._service.tokens, self._service.private = self._tokens, asked.private
        app = Guard(application(self._service, self._lifespan), hosts_of(asked.host, asked.hosts), self._metrics, PATHS)
        # Without a level uvicorn tells each message to itself; nobody reads what a proxy says of the client.
        self._server = uvicorn.Server(uvicorn.Config(app, http=Connection, ws="none", log_config=None, log_level="critical", access_log=False,
                                                     lifespan="on", server_header=False, proxy_headers=False, backlog=_BACKLOG))

    def run(self) -> int:
        """Serves until it is told to end, or the registry stops; the status."""
        # A hangup has no loop to come to before the server begins, and would end the process.
        signal.signal(signal.SIGHUP, signal.SIG_IGN)
        self._watch.start()
        self._server.run(sockets=self._sockets)
        return self._ended()

    def _tell(self) -> None:
        """Tells what is served, and to which version the store was upgraded since it was served last."""
        before, versions = self._worker.served, self._reader.counts
        if 0 < before < len(versions):
            LOGGER.info("upgraded from version %d of Unicode in this store, which assigns %d code points, to version %d, which assigns %d",
                        before, versions[before - 1], len(versions), versions[-1])
        host, port = self._sockets[0].getsockname()[:2]
        address = f"[{host}]" if ":" in host else host
        access = "to be read alone" if self._tokens is None else f"{len(self._tokens)} tokens" if len(self._tokens) > 1 else "one token"
        LOGGER.info("serves %s at http://%s:%d/, %s; node %s, %s%s, version %d of Unicode in this store assigns %d code points",
                    self._asked.store, address, port, access, self._worker.node, "caseless " if self._reader.setup.caseless else "",
                    self._reader.setup.form.upper(), self._reader.versions, self._reader.tables.count)

    def _ended(self) -> int:
        self._watch.stop()
        whole = self._worker.close(REGISTRY)
        self._tell_refusals()
        failure = self._worker.failure
        if failure is not None:
            kind = "" if isinstance(failure, RegistryError) else f"{type(failure).__name__}: "
            LOGGER.critical("the node has stopped: %s%s", kind, failure)
            return 4
        LOGGER.info("has ended" if whole else "has ended before the registry was saved, which reads on from the log at its next start")
        return 0

    # ---- within the server's loop

    @contextlib.asynccontextmanager
    async def _lifespan(self, _app: Starlette) -> AsyncIterator[None]:
        loop = asyncio.get_running_loop()
        tasks: list[asyncio.Task[None]] = []
        for number in (signal.SIGTERM, signal.SIGINT):
            loop.add_signal_handler(number, self._end, loop)
        loop.add_signal_handler(signal.SIGHUP, lambda: tasks.append(loop.create_task(self._read_tokens())))
        self._worker.on_failure = partial(self._end_soon, loop)
        if self._worker.failure is not None:
            self._end(loop)
        tasks.append(loop.create_task(self._tell_often()))
        self._tell()
        yield
        for task in tasks:
            task.cancel()

    def _end(self, loop: asyncio.AbstractEventLoop) -> None:
        """Ends: answers what can be answered soon, and no longer."""
        if not self._server.should_exit:
            self._server.should_exit = True
            loop.call_later(ANSWERS, setattr, self._server, "force_exit", True)

    def _end_soon(self, loop: asyncio.AbstractEventLoop) -> None:
        """Ends, as another thread asks for."""
        loop.call_soon_threadsafe(self._end, loop)

    async def _read_tokens(self) -> None:
        """Reads the tokens anew. Where the file is odd, the present ones stay."""
        if self._asked.token_file is not None:
            try:
                self._tokens = self._service.tokens = await asyncio.to_thread(tokens_in, self._asked.token_file)
                LOGGER.info("read %d tokens: %s", len(self._tokens), ", ".join(token.name for token in self._tokens))
            except CannotServe as error:
                LOGGER.error("the tokens stay as they were: %s", error)

    async def _tell_often(self) -> None:
        while True:
            await asyncio.sleep(REFUSALS)
            self._tell_refusals()

    def _tell_refusals(self) -> None:
        counts = self._metrics.untold()
        if counts:
            LOGGER.info("refused: %s", ", ".join(f"{count} {kind}" for kind, count in sorted(counts.items())))


def serve(asked: Serving) -> int:
    """Serves a store until the process is told to end: status 0. Status 4: the log or the store is faulty."""
    system_log.begin()
    return Node(asked).run()
