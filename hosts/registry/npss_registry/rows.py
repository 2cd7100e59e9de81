"""What stands in a store, in rows."""

import hashlib
from dataclasses import dataclass
from typing import NamedTuple, Optional

from npss import Tables

# What is kept of the files of a version, and of a third one where it has that.
Sums = tuple[bytes, bytes, Optional[bytes]]


class Registration(NamedTuple):
    """A string that somebody has, or had until the place `ended`.

    `refused` is what the node answered where it lacked a code point of the string when it came; `parked` whether it
    lacks one still. `caseless` is its caseless key, in a caseless log alone.
    """

    place: int
    string: str
    key: str
    owner: str
    refused: Optional[str]
    parked: bool
    ended: Optional[int]
    caseless: Optional[str] = None


@dataclass(frozen=True)
class ShardRow:
    """How far a shard was read, with the sum of its last record and the running sum of all; its last image, and the running
    sum there; what its journal began with, and how many events it has.

    `sum` is None where a store of an earlier layout doesn't have it yet, and `image_sum` until its next image.
    """

    place: int
    last: Optional[bytes]
    sum: Optional[bytes]
    image: bytes
    image_place: int
    image_sum: Optional[bytes]
    base: bytes
    base_place: int
    base_version: int
    events: int


@dataclass(frozen=True)
class Event:
    """An `upgrade`, a `save` or a `restart` of a shard's node, behind the record at its place, under a version by its number.

    Of `taken` the place is that of the parked claim that the node took behind an upgrade.
    """

    event: str
    place: int
    version: int


@dataclass(frozen=True)
class Version:
    """The files of a version: two, or three with CaseFolding.txt, which a caseless log wants."""

    data: bytes
    exclusions: bytes
    folding: Optional[bytes] = None

    def tables(self) -> Tables:
        return Tables.open(self.data, self.exclusions, self.folding)

    @property
    def sums(self) -> Sums:
        """The SHA-256 of each file, by which a version is known; None of a folding file that it hasn't."""
        return _sum(self.data), _sum(self.exclusions), None if self.folding is None else _sum(self.folding)


def _sum(content: bytes) -> bytes:
    return hashlib.sha256(content).digest()
