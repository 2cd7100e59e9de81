"""A log of many machines in a Redis server, which writes each record to its disk before it answers."""

import re
from collections.abc import Iterator, Sequence
from contextlib import contextmanager
from typing import Any, NoReturn, Optional

import redis
from redis.backoff import NoBackoff
from redis.retry import Retry

from npss_registry.errors import LogAway, LogBroken, LogUnsafe, StoreError
from npss_registry.logs.names import PASSWORD_FILE, password_of, shown, without_words
from npss_registry.logs.protocol import PATIENCE, How, bounded

# A server is asked for so many records at a time.
STEP = 100
LEAST_VERSION = 7
# What a server has to be set to, so that it loses nothing that it answered: neither in a cut of the power, nor while it
# rewrites its file, nor for want of memory.
SETTINGS = {"appendonly": "yes", "appendfsync": "always", "no-appendfsync-on-rewrite": "no", "maxmemory-policy": "noeviction"}


class RedisLog:
    """A log of many machines: a stream for each shard of a Redis server (7 or later).

    Record number N of a shard has the identifier 0-N, and N is its place. The name is redis://HOST:PORT/NUMBER#PREFIX.
    Raises LogUnsafe where the server may lose records. One that comes to be so later is away, until it is mended.
    """

    def __init__(self, url: str, how: How = "use", patience: float = PATIENCE):
        self._url, self._patience = url, patience
        address, _, prefix = url.partition("#")
        self._prefix = prefix or "npss"
        # Why the server may lose records, as it was seen last.
        self._unsafe: Optional[str] = None
        # What got no answer is never sent twice.
        words: dict[str, Any] = {"socket_timeout": patience, "socket_connect_timeout": patience, "redis_connect_func": self._connected,
                                 "retry": Retry(NoBackoff(), 0)}
        try:
            self._server: Any = redis.Redis.from_url(without_words(address, PASSWORD_FILE), **words)
            self._server.ping()
        except (TypeError, ValueError) as error:
            raise StoreError(f"{shown(url)} names no server: {error}") from error
        except redis.RedisError as error:
            raise LogUnsafe(self._unsafe) if self._unsafe else _away(error) from error

    def _connected(self, connection: Any) -> None:
        """Begins a connection: signs in, and looks at what the server says of itself."""
        try:
            connection.password = password_of(self._url)
        except LogAway as error:
            raise redis.ConnectionError(str(error)) from error
        connection.on_connect()
        try:
            connection.send_command("INFO", "server")
            version = _version_in(connection.read_response())
            if version is None or int(version.partition(".")[0]) < LEAST_VERSION:
                self._refuse(f"the Redis server is of version {version or 'unknown'}; {LEAST_VERSION} is the least")
            connection.send_command("CONFIG", "GET", *SETTINGS)
            self._check_settings(connection.read_response())
        except redis.ResponseError as error:
            self._refuse(f"the Redis server doesn't tell how it writes: {error}")

    def _check_settings(self, config: Any) -> None:
        """The server is set so that it loses nothing. It tells pairs, in a list or as they were gathered."""
        found = config if isinstance(config, dict) else dict(zip(config[::2], config[1::2]))
        settings = {_text(name): _text(value) for name, value in found.items()}
        wrong = [f"{name} {value}" for name, value in SETTINGS.items() if settings.get(name) != value]
        if wrong:
            self._refuse(f"the Redis server loses what it was told last: set {' and '.join(wrong)}")

    def _refuse(self, why: str) -> NoReturn:
        """The server isn't used. Where another kind of error is raised, the connection is taken for one that has begun."""
        self._unsafe = why
        raise redis.ConnectionError(why)

    @contextmanager
    def _asked(self) -> Iterator[None]:
        try:
            yield
        except redis.RedisError as error:  # a server that refuses, as one that is full or a replica, is away as well
            raise _away(error) from error

    def _stream(self, shard: int) -> str:
        return f"{self._prefix}:{shard}"

    @staticmethod
    def _place(identifier: bytes) -> int:
        before, _, place = identifier.partition(b"-")
        if before != b"0":
            raise LogBroken(int(place), f"the identifier {identifier.decode()} is not one that a node wrote")
        return int(place)

    def append(self, records: Sequence[tuple[int, bytes]]) -> list[int]:
        with self._asked():
            pipe = self._server.pipeline(transaction=True)
            for shard, body in records:
                pipe.xadd(self._stream(shard), {"record": body}, id="0-*")
            return [self._place(identifier) for identifier in self._written(pipe)]

    def _written(self, pipe: Any) -> list[Any]:
        """Writes what a pipe has; the server's answers. It may have been set otherwise since the connection was begun."""
        pipe.execute_command("CONFIG GET", *SETTINGS)
        written: list[Any] = pipe.execute()
        self._check_settings(written.pop())
        return written

    def begin(self, records: Sequence[tuple[int, bytes]]) -> None:
        with self._asked():
            pipe = self._server.pipeline(transaction=True)
            for shard, body in records:
                pipe.xadd(self._stream(shard), {"record": body}, id="0-1")
            # Where somebody was sooner, each of these is refused, for its identifier isn't larger than the last.
            pipe.execute(raise_on_error=False)

    def read(self, shard: int, behind: int, most: int) -> list[tuple[int, bytes]]:
        return bounded(self._some(shard, behind, most))

    def _some(self, shard: int, behind: int, most: int) -> Iterator[tuple[int, bytes]]:
        """The records behind a place, a few at a time, up to where the next ones were trimmed since those before were read."""
        at = behind
        while most > 0:
            with self._asked():
                found = self._server.xrange(self._stream(shard), min=f"(0-{at}" if at else "-", count=min(most, STEP))
            if found and at > behind and self._place(found[0][0]) > at + 1:
                break
            for identifier, fields in found:
                at = self._place(identifier)
                yield at, fields.get(b"record", b"")
            most = most - STEP if len(found) == STEP else 0

    def lasts(self, shards: int) -> list[int]:
        with self._asked():
            pipe = self._server.pipeline(transaction=False)
            for shard in range(shards):
                pipe.xrevrange(self._stream(shard), count=1)
            return [self._place(found[0][0]) if found else 0 for found in pipe.execute()]

    def news(self, known: Sequence[int], patience: float) -> list[int]:
        # A server that is silent is told from one without news by the patience of a question, which has to be the longer one.
        wait = min(patience, self._patience / 2)
        with self._asked():
            self._server.xread({self._stream(shard): f"0-{place}" for shard, place in enumerate(known)}, count=1, block=max(1, int(wait * 1000)))
        return self.lasts(len(known))

    def _beside(self, shard: int) -> str:
        """The hash of what belongs to a shard's records: its fields are a place and a part's number."""
        return f"{self._prefix}/kept:{shard}"

    def keep(self, shard: int, place: int, number: int, part: bytes) -> None:
        with self._asked():
            pipe = self._server.pipeline(transaction=True)
            pipe.hset(self._beside(shard), f"{place}:{number}", part)
            self._written(pipe)

    def kept(self, shard: int, place: int, number: int) -> Optional[bytes]:
        with self._asked():
            found: Optional[bytes] = self._server.hget(self._beside(shard), f"{place}:{number}")
            return found

    def trim(self, shard: int, place: int) -> None:
        with self._asked():
            old = [field for field in self._server.hkeys(self._beside(shard)) if int(field.partition(b":")[0]) < place]
            pipe = self._server.pipeline(transaction=True)
            pipe.xtrim(self._stream(shard), minid=f"0-{place}", approximate=False)
            if old:
                pipe.hdel(self._beside(shard), *old)
            self._written(pipe)

    def close(self) -> None:
        self._server.close()


def _away(error: Exception) -> LogAway:
    why = str(error)
    return LogAway(why if why.startswith("the log: ") else f"the log: {why}")


def _text(value: Any) -> str:
    return value.decode(errors="replace") if isinstance(value, bytes) else str(value)


def _version_in(info: Any) -> Optional[str]:
    """The version of a server, which tells lines of what it is; None where it doesn't."""
    found = re.search(r"^redis_version:(\d+\S*)", _text(info), re.MULTILINE)
    return found[1] if found else None
