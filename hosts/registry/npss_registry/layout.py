"""The tables of a store, and how a store of earlier versions is brought to what it has to be at present."""

import logging
import os
import secrets
import sqlite3
import zlib
from pathlib import Path

from npss_registry.errors import StoreError
from npss_registry.logs.names import password_in, scheme_of, with_password_file, write_password
from npss_registry.records import NOTHING_READ, Setup
from npss_registry.rows import Version

LOGGER = logging.getLogger("npss_registry")

LAYOUT = 4
_REGISTERED = "CREATE UNIQUE INDEX registered ON registration (shard, key, string) WHERE ended IS NULL"
_REGISTERED_CASELESS = ("CREATE UNIQUE INDEX registered_caseless ON registration (shard, caseless, string) "
                        "WHERE ended IS NULL AND caseless IS NOT NULL")
_REST = "CREATE TABLE image_rest (shard INTEGER NOT NULL, of TEXT NOT NULL, number INTEGER NOT NULL, body BLOB NOT NULL, PRIMARY KEY (shard, of, number))"
_LOST = "CREATE TABLE lost (shard INTEGER NOT NULL, place INTEGER NOT NULL, string BLOB NOT NULL, key BLOB NOT NULL, owner TEXT NOT NULL)"
# Images stand apart from places: a batch writes places, and would read what stands beside them.
TABLES = f"""
CREATE TABLE setup (layout INTEGER NOT NULL, form TEXT NOT NULL, room INTEGER NOT NULL, shards INTEGER NOT NULL,
    equivalents INTEGER NOT NULL, log TEXT NOT NULL, node TEXT NOT NULL, openings INTEGER NOT NULL, name TEXT NOT NULL DEFAULT '',
    moving TEXT, most_bytes INTEGER NOT NULL DEFAULT 65536, caseless INTEGER NOT NULL DEFAULT 0);
CREATE TABLE version (number INTEGER PRIMARY KEY, data BLOB NOT NULL, exclusions BLOB NOT NULL,
    data_sum BLOB NOT NULL, exclusions_sum BLOB NOT NULL, assigned INTEGER NOT NULL, folding BLOB, folding_sum BLOB);
CREATE TABLE shard (number INTEGER PRIMARY KEY, place INTEGER NOT NULL, last BLOB, sum BLOB, image_sum BLOB, events INTEGER NOT NULL DEFAULT 0);
CREATE TABLE image (number INTEGER PRIMARY KEY, image BLOB NOT NULL, image_place INTEGER NOT NULL, base BLOB NOT NULL,
    base_place INTEGER NOT NULL, base_version INTEGER NOT NULL);
CREATE TABLE registration (shard INTEGER NOT NULL, place INTEGER NOT NULL, string BLOB NOT NULL, key BLOB NOT NULL,
    owner TEXT NOT NULL, refused TEXT, parked INTEGER NOT NULL, ended INTEGER, caseless BLOB, PRIMARY KEY (shard, place)) WITHOUT ROWID;
{_REGISTERED};
{_REGISTERED_CASELESS};
CREATE INDEX parked_place ON registration (shard, place) WHERE parked;
CREATE TABLE journal (number INTEGER PRIMARY KEY AUTOINCREMENT, shard INTEGER NOT NULL, event TEXT NOT NULL,
    place INTEGER NOT NULL, version INTEGER NOT NULL);
{_LOST};
{_REST};
"""
# What makes the next layout of an earlier one.
_RAISING = {
    1: f"""
ALTER TABLE shard RENAME TO image;
CREATE TABLE shard (number INTEGER PRIMARY KEY, place INTEGER NOT NULL, sum BLOB);
INSERT INTO shard SELECT number, place, sum FROM image;
ALTER TABLE image DROP COLUMN place;
ALTER TABLE image DROP COLUMN sum;
DROP INDEX registered_string;
DROP INDEX registered_key;
{_REGISTERED};
UPDATE setup SET layout = 2;
""",
    2: f"""
ALTER TABLE shard RENAME COLUMN sum TO last;
ALTER TABLE shard ADD COLUMN sum BLOB;
ALTER TABLE shard ADD COLUMN image_sum BLOB;
ALTER TABLE shard ADD COLUMN events INTEGER NOT NULL DEFAULT 0;
UPDATE shard SET events = (SELECT count(*) FROM journal WHERE journal.shard = shard.number);
ALTER TABLE setup ADD COLUMN name TEXT NOT NULL DEFAULT '';
ALTER TABLE setup ADD COLUMN moving TEXT;
ALTER TABLE setup ADD COLUMN most_bytes INTEGER NOT NULL DEFAULT 65536;
{_LOST};
{_REST};
UPDATE setup SET layout = 3;
""",
    3: f"""
ALTER TABLE setup ADD COLUMN caseless INTEGER NOT NULL DEFAULT 0;
ALTER TABLE version ADD COLUMN folding BLOB;
ALTER TABLE version ADD COLUMN folding_sum BLOB;
ALTER TABLE registration ADD COLUMN caseless BLOB;
{_REGISTERED_CASELESS};
UPDATE setup SET layout = 4;
""",
}


def execute(base: sqlite3.Connection, statements: str) -> None:
    """Executes statements, within the transaction of who asks."""
    for statement in statements.split(";\n"):
        base.execute(statement)


def create(path: str, setup: Setup, log: str, version: Version, empty: bytes) -> None:
    """Makes a store with nothing in it. `empty` is the image of a node that keeps nothing."""
    if os.path.exists(path):
        raise StoreError(f"{path}: there is a file of this name already")
    made = f"{path}.{secrets.token_hex(4)}"
    base = sqlite3.connect(made, isolation_level=None)
    try:
        base.execute("PRAGMA journal_mode = WAL")
        base.execute("PRAGMA synchronous = FULL")
        base.execute("BEGIN")
        execute(base, TABLES)
        base.execute("INSERT INTO setup VALUES (?, ?, ?, ?, ?, ?, ?, 0, ?, NULL, ?, ?)",
                     (LAYOUT, setup.form, setup.room, setup.shards, setup.equivalents, log, secrets.token_hex(8), setup.name, setup.most_bytes, setup.caseless))
        add_version(base, 0, version)
        base.executemany("INSERT INTO shard VALUES (?1, 0, NULL, ?2, ?2, 0)", ((number, NOTHING_READ) for number in range(setup.shards)))
        base.executemany("INSERT INTO image VALUES (?1, ?2, 0, ?2, 0, 0)", ((number, empty) for number in range(setup.shards)))
        base.execute("COMMIT")
        base.close()
        os.link(made, path)  # which fails where somebody else made one meanwhile
    except FileExistsError as error:
        raise StoreError(f"{path}: there is a file of this name already") from error
    finally:
        base.close()
        for end in ("", "-wal", "-shm"):
            if os.path.exists(made + end):
                os.unlink(made + end)


def add_version(base: sqlite3.Connection, number: int, version: Version) -> None:
    """Writes the next version of the chain, whose number that is."""
    data, exclusions, folding = version.sums
    base.execute("INSERT INTO version VALUES (?, ?, ?, ?, ?, ?, ?, ?)",
                 (number, zlib.compress(version.data), zlib.compress(version.exclusions), data, exclusions, version.tables().count,
                  None if version.folding is None else zlib.compress(version.folding), folding))


def raise_layout(base: sqlite3.Connection, path: str) -> None:
    """Brings the store of a path to the present layout, within the transaction of who asks."""
    layout, log = base.execute("SELECT layout, log FROM setup").fetchone() or (LAYOUT, "")
    if layout not in range(1, LAYOUT):
        return
    for number in range(layout, LAYOUT):
        execute(base, _RAISING[number])
    base.execute("UPDATE setup SET log = ?", (_log_of(path, log),))


def _log_of(path: str, log: str) -> str:
    """The log of a store of an earlier layout, whose relative path counted from the folder of who asked."""
    if scheme_of(log) or os.path.isabs(log):
        return log
    folder, name = os.path.split(path)
    own = f"{name}.log"
    for found in (os.path.join(folder, own) if os.path.basename(log) == own else "", os.path.abspath(log)):
        if found and os.path.exists(found):
            return found
    return log


def without_password(base: sqlite3.Connection, path: str, log: str) -> str:
    """The log of a store, whose password is taken out of the store into a file beside it; the log as it is where that can't be done now."""
    password, file = password_in(log) if scheme_of(log) else None, f"{path}-password"
    if password is None:
        return log
    try:
        write_password(password, file, path)
    except OSError:
        if not _has(file, password):  # a call that was cut off has written it
            return log
    named = with_password_file(log, os.path.basename(file))
    base.execute("PRAGMA secure_delete = ON")
    base.execute("UPDATE setup SET log = ?", (named,))
    base.execute("PRAGMA wal_checkpoint(TRUNCATE)")
    LOGGER.warning("%s held the password of its log; that stands in %s now, which its owner alone may read", path, file)
    return named


def _has(file: str, password: str) -> bool:
    """Whether a file has a password."""
    try:
        return Path(file).read_bytes() == f"{password}\n".encode()
    except OSError:
        return False
