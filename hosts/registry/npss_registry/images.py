"""Images of nodes in a store, which may be larger than what SQLite keeps in one place."""

import sqlite3
from collections.abc import Iterator
from typing import Literal

# The first so many bytes of an image stand in the row of its shard, the rest in pieces of as many. SQLite keeps a row up to
# 1,000,000,000 bytes, and a shard's row has the beginnings of two images.
PIECE = 1 << 28

Of = Literal["image", "base"]


def first_of(image: bytes) -> bytes:
    """What of an image stands in the row of its shard."""
    return image[:PIECE]


def write_rest(base: sqlite3.Connection, shard: int, of: Of, image: bytes) -> None:
    """Writes what of an image doesn't stand in the row, in place of what was there."""
    base.execute("DELETE FROM image_rest WHERE shard = ? AND of = ?", (shard, of))
    base.executemany("INSERT INTO image_rest VALUES (?, ?, ?, ?)", _rest(shard, of, image))


def _rest(shard: int, of: Of, image: bytes) -> Iterator[tuple[int, Of, int, bytes]]:
    for number, at in enumerate(range(PIECE, len(image), PIECE)):
        yield shard, of, number, image[at:at + PIECE]


def whole(base: sqlite3.Connection, shard: int, of: Of, first: bytes) -> bytes:
    """An image, of which the row has the first part."""
    rest = base.execute("SELECT body FROM image_rest WHERE shard = ? AND of = ? ORDER BY number", (shard, of)).fetchall()
    return b"".join([first, *(body for body, in rest)]) if rest else first
