"""What a registry asks of a log, whatever keeps it, and what is read by that alone."""

from collections.abc import Iterable, Iterator, Sequence
from typing import Literal, Optional, Protocol

from npss_registry.errors import LogAway

# A log is made where there is none, or has to be there; who reads alone needn't be allowed to write.
How = Literal["make", "use", "read"]
# A log is read in pieces of so many records.
PIECE = 1000
# A piece ends where it has so many bytes, but not before its second record.
MOST_READ = 1 << 22
# So many seconds a log of a server may take to answer a call.
PATIENCE = 5.0


class Log(Protocol):
    """A log. Each call raises LogAway where the log can't be reached, or where a server refuses it."""

    def append(self, records: Sequence[tuple[int, bytes]]) -> list[int]:
        """Writes records, each with its shard, and answers their places. All are written, or it isn't known which."""

    def begin(self, records: Sequence[tuple[int, bytes]]) -> None:
        """Writes the first record of each shard, unless somebody has begun the log meanwhile."""

    def read(self, shard: int, behind: int, most: int) -> list[tuple[int, bytes]]:
        """The first records behind a place, at most so many, in their order; fewer where these have many bytes, but two at least."""

    def lasts(self, shards: int) -> list[int]:
        """The places of the last records of the first so many shards, by one question; 0 of a shard that has none."""

    def news(self, known: Sequence[int], patience: float) -> list[int]:
        """`lasts` as soon as one of them isn't the known one, or once so many seconds are over."""

    def keep(self, shard: int, place: int, number: int, part: bytes) -> None:
        """Writes a part, by its number from 0, of what belongs to the record at a place and stands beside the log."""

    def kept(self, shard: int, place: int, number: int) -> Optional[bytes]:
        """A part of what belongs to a record; None where there is none."""

    def trim(self, shard: int, place: int) -> None:
        """Deletes the records of a shard before a place, where a record has to stand, and what belongs to them; all of it, or nothing."""

    def close(self) -> None:
        """Lets the log go."""


def record_at(log: Log, shard: int, place: int) -> Optional[bytes]:
    """The record at a place; None where there is none."""
    found = log.read(shard, place - 1, 1) if place else []
    return found[0][1] if found and found[0][0] == place else None


def last_bodies(log: Log, shards: int) -> list[tuple[int, Optional[bytes]]]:
    """The last record of each shard, with its place; None of an empty one."""
    return [(place, record_at(log, shard, place)) for shard, place in enumerate(log.lasts(shards))]


def whole(log: Log, shard: int) -> Iterator[tuple[int, bytes]]:
    """All records of a shard. LogAway where the log is trimmed meanwhile, or loses its tail: who asks again finds which."""
    at = 0
    while piece := log.read(shard, max(at - 1, 0), PIECE + 1):
        if at and piece[0][0] != at:
            raise LogAway(f"the log: what stood at place {at} is gone since it was read, as where it is trimmed meanwhile; ask again")
        yield from piece[1:] if at else piece
        if at == piece[-1][0]:
            break
        at = piece[-1][0]


def size_of(piece: Iterable[tuple[int, bytes]]) -> int:
    """How many bytes the records of a piece have."""
    return sum(len(body) for _, body in piece)


def may_go_on(piece: Sequence[tuple[int, bytes]], most: int) -> bool:
    """Whether there may be more behind the records that a log answered where at most so many were asked for."""
    return len(piece) >= most or size_of(piece) >= MOST_READ


def bounded(records: Iterable[tuple[int, bytes]]) -> list[tuple[int, bytes]]:
    """The first of some records, as many as a piece may have by their bytes."""
    piece: list[tuple[int, bytes]] = []
    size = 0
    for place, body in records:
        piece.append((place, body))
        size += len(body)
        if size >= MOST_READ and len(piece) > 1:
            break
    return piece
