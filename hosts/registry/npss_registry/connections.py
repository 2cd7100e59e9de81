"""Connections: how many there may be, and how long each may take over a request."""

import asyncio
import json
from typing import Any, Optional

import h11
from uvicorn.protocols.http.h11_impl import H11Protocol

# So many connections are served at once. As many more are told that the server is busy, and beyond them each is cut off.
MOST_CONNECTIONS = 400
# Seconds until a request has come whole, a little longer than its body may take; until its answer was taken; and of a refusal.
REQUEST, ANSWER, REFUSAL = 11.0, 60.0, 2.0
_WHOLE = (h11.DONE, h11.MUST_CLOSE, h11.CLOSED, h11.ERROR)


def _refusal(status: str, error: str, why: str) -> bytes:
    body = json.dumps({"error": error, "why": why}).encode()
    head = f"HTTP/1.1 {status}\r\ncontent-type: application/json\r\ncontent-length: {len(body)}\r\nretry-after: 1\r\nconnection: close\r\n\r\n"
    return head.encode() + body


_BUSY = _refusal("503 Service Unavailable", "Busy", "the server has as many connections as it serves; ask again")
_LATE = _refusal("408 Request Timeout", "Request Timeout", f"the request didn't come within {REQUEST:g} s")


class _Together:
    """A transport that sends at once what is written at once, as the head of an answer and its body."""

    def __init__(self, transport: Any, loop: asyncio.AbstractEventLoop):
        self._transport, self._loop = transport, loop
        self._written: list[bytes] = []

    def __getattr__(self, name: str) -> Any:
        return getattr(self._transport, name)

    def write(self, data: bytes) -> None:
        if not self._written:
            self._loop.call_soon(self._send)
        self._written.append(data)

    def _send(self) -> None:
        if self._written:
            data, self._written = b"".join(self._written), []
            self._transport.write(data)

    def close(self) -> None:
        self._send()
        self._transport.close()


class Connection(H11Protocol):  # type: ignore[misc]
    """A connection that is cut off where it takes too long."""

    def connection_made(self, transport: Any) -> None:
        super().connection_made(_Together(transport, self.loop))
        self._end: Optional[asyncio.TimerHandle] = None
        self._seconds: Optional[float] = None
        count = len(self.connections)
        self._refusing = count > MOST_CONNECTIONS
        if count > 2 * MOST_CONNECTIONS:
            transport.abort()
        elif self._refusing:
            self._end = self.loop.call_later(REFUSAL, transport.abort)
        else:
            self._wait(REQUEST)

    def data_received(self, data: bytes) -> None:
        if self._refusing:
            if not self.transport.is_closing():
                self.transport.write(_BUSY)
                self.transport.close()
            return
        super().data_received(data)
        self._wait(self._awaited())

    def on_response_complete(self) -> None:
        super().on_response_complete()
        self._wait(self._awaited())

    def connection_lost(self, exc: Optional[Exception]) -> None:
        self._wait(None)
        super().connection_lost(exc)

    def _awaited(self) -> Optional[float]:
        """How long this may take: the rest of a request, or its answer; None between two requests, which uvicorn watches."""
        if self.conn.their_state in _WHOLE:
            return ANSWER if self.cycle is not None and not self.cycle.response_complete else None
        if self.cycle is not None and self.conn.their_state is h11.IDLE and not self.conn.trailing_data[0]:
            return None
        return REQUEST

    def _wait(self, seconds: Optional[float]) -> None:
        """Cuts the connection off in so many seconds, unless that is what is waited for already."""
        if seconds == self._seconds and self._end is not None:
            return
        if self._end is not None:
            self._end.cancel()
            self._end = None
        self._seconds = seconds
        if seconds is not None and not self.transport.is_closing():
            self._end = self.loop.call_later(seconds, self._cut)

    def _cut(self) -> None:
        # Nothing of an answer was written where no request is being answered.
        if self._seconds == REQUEST and (self.cycle is None or self.cycle.response_complete):
            self.transport.write(_LATE)
            self.transport.close()
            self._end = self.loop.call_later(REFUSAL, self.transport.abort)
        else:
            self.transport.abort()
