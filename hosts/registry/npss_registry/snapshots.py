"""What was registered at a snapshot, which stands beside the log in parts, so that a node can begin there.

Each part has some of the names, in the order of their places; behind them all stands one that tells their sum.
"""

import json
import zlib
from collections.abc import Iterable, Iterator, Sequence
from typing import NamedTuple, Optional

from npss_registry import records
from npss_registry.errors import LogAway, LogBroken, RegistryError
from npss_registry.logs import Log, record_at
from npss_registry.records import Name, Snapshot, SnapshotSum

# A part has so many characters before it is packed, and one name more: a server takes it in one request.
_PART = 1 << 19
_ENCODER = json.JSONEncoder(ensure_ascii=False, separators=(",", ":"))


class Kept(NamedTuple):
    """What was registered at a snapshot."""

    names: Sequence[Name]
    snapshot: SnapshotSum

    @property
    def size(self) -> int:
        """How many bytes the names have, about."""
        return sum(len(text) for name in self.names for text in name[1:] if text is not None)


def trimmed_to(log: Log, shard: int) -> Optional[int]:
    """The place of a shard's first record, where that is a snapshot; else None."""
    first = log.read(shard, 0, 1)
    return first[0][0] if first and isinstance(records.read(*first[0]), Snapshot) else None


def keep(log: Log, shard: int, names: Iterable[Name], snapshot: SnapshotSum) -> None:
    """Writes what was registered at a snapshot beside the log. What isn't whole is none: its last part comes last."""
    number = -1
    for number, part in enumerate(_parts(names)):
        log.keep(shard, snapshot.place, number, part)
    log.keep(shard, snapshot.place, number + 1, records.spelled(snapshot))


def load(log: Log, shard: int, place: int) -> Kept:
    """What was registered at the snapshot at a place. LogBroken where it isn't there, or isn't what its sum tells; LogAway where the log
    is trimmed meanwhile: who asks again finds what it begins with then."""
    names: list[Name] = []
    try:
        for part in _found(log, shard, place):
            if part.startswith(b"{"):
                snapshot = records.read(place, part)
                break
            names += (_name(*row) for row in json.loads(zlib.decompress(part)))
        else:
            raise _missing(log, shard, place)
    except (TypeError, ValueError, zlib.error) as error:
        raise LogBroken(place, f"what stands beside the log is no part of what was registered there: {error!r}") from error
    if not isinstance(snapshot, SnapshotSum) or (snapshot.place, snapshot.names, snapshot.sum) != (place, *records.sum_of_names(names)):
        raise LogBroken(place, "what stands beside the log isn't what was registered there: its sum is another one")
    if any(one.place >= behind for one, behind in zip(names, [*(name.place for name in names[1:]), place])):
        raise LogBroken(place, "what stands beside the log isn't what was registered there: its places don't rise")
    return Kept(names, snapshot)


def _found(log: Log, shard: int, place: int) -> Iterator[bytes]:
    number = 0
    while (part := log.kept(shard, place, number)) is not None:
        yield part
        number += 1


def _missing(log: Log, shard: int, place: int) -> RegistryError:
    """Why what was registered at a snapshot isn't there, whose record was."""
    if record_at(log, shard, place) is None:
        return LogAway(f"the log: the snapshot at place {place} is gone since it was read, as where the log is trimmed meanwhile; ask again")
    return LogBroken(place, "what was registered there is missing beside the log")


def _parts(names: Iterable[Name]) -> Iterator[bytes]:
    part: list[str] = []
    size = 0
    for name in names:
        part.append(_ENCODER.encode(_row_of(name)))
        size += len(part[-1])
        if size >= _PART:
            yield _packed(part)
            part, size = [], 0
    if part:
        yield _packed(part)


def _row_of(name: Name) -> list[object]:
    """A name as a part tells it."""
    row = [name.place, name.string, None if name.key == name.string else name.key, name.owner]
    return row if name.caseless is None else [*row, name.caseless]


def _packed(part: Sequence[str]) -> bytes:
    return zlib.compress(f"[{','.join(part)}]".encode())


def _name(place: object, string: object, key: object, owner: object, *caseless: object) -> Name:
    """A name of a part, whose caseless key stands last where it has one. TypeError where it is none."""
    made = (place, string, string if key is None else key, owner, *caseless)
    if type(place) is not int or len(caseless) > 1 or not all(isinstance(text, str) for text in made[1:]):
        raise TypeError(f"{made!r} is no name")
    return Name(place, *map(str, made[1:]))
