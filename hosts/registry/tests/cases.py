"""What the registry's tests share: PROGRAM and FIXTURES of the command line, and stores of a folder."""

import contextlib
import io
import json
import os
import sqlite3
import sys
import tempfile
import unittest
from base64 import b64encode
from pathlib import Path

from npss_registry import Registry, Version, init
from npss_registry.command import main as command
from npss_registry.judge import Judge
from npss_registry.records import Setup

PROGRAM, FIXTURES = sys.argv[1], Path(sys.argv[2])
OLD, NEW = ([str(FIXTURES / version / name) for name in ("UnicodeData.txt", "CompositionExclusions.txt")] for version in ("v1", "v2"))
# The same with their folding files.
FOLDED_OLD, FOLDED_NEW = ([*files, str(FIXTURES / "caseless" / version / "CaseFolding.txt")] for version, files in (("v1", OLD), ("v2", NEW)))
# Assigned in v2 alone; the second one folds to a.
YOUNG, YOUNG_A = "\u1dfa", "\U00016d63"


# Makes a store of the third layout of the present one, of the second of that, and of the first.
THIRD_LAYOUT = """
DROP INDEX registered_caseless;
ALTER TABLE registration DROP COLUMN caseless;
ALTER TABLE version DROP COLUMN folding;
ALTER TABLE version DROP COLUMN folding_sum;
ALTER TABLE setup DROP COLUMN caseless;
UPDATE setup SET layout = 3;
"""
SECOND_LAYOUT = THIRD_LAYOUT + """
ALTER TABLE shard DROP COLUMN sum;
ALTER TABLE shard DROP COLUMN image_sum;
ALTER TABLE shard DROP COLUMN events;
ALTER TABLE shard RENAME COLUMN last TO sum;
ALTER TABLE setup DROP COLUMN name;
ALTER TABLE setup DROP COLUMN moving;
ALTER TABLE setup DROP COLUMN most_bytes;
DROP TABLE lost;
DROP TABLE image_rest;
UPDATE setup SET layout = 2;
"""
FIRST_LAYOUT = """
ALTER TABLE image ADD COLUMN place INTEGER;
ALTER TABLE image ADD COLUMN sum BLOB;
UPDATE image SET (place, sum) = (SELECT place, sum FROM shard WHERE shard.number = image.number);
DROP TABLE shard;
ALTER TABLE image RENAME TO shard;
DROP INDEX registered;
CREATE UNIQUE INDEX registered_string ON registration (shard, string) WHERE ended IS NULL;
CREATE INDEX registered_key ON registration (shard, key, place) WHERE ended IS NULL;
UPDATE setup SET layout = 1;
"""


def version(files):
    return Version(*(Path(name).read_bytes() for name in files))


def changed(path, *statements):
    """Changes a database by SQL, behind the registry's back."""
    with contextlib.closing(sqlite3.connect(path)) as base, base:
        for statement, *given in (one if isinstance(one, tuple) else (one,) for one in statements):
            base.execute(statement, given)


def earlier(path, *scripts):
    """Brings a store back to an earlier layout."""
    with contextlib.closing(sqlite3.connect(path)) as base:
        for script in scripts:
            base.executescript(script)


def first_record(kind, *words, form=b"C"):
    """A record of the first layout, as 0.2.0 spells it: `setup`, `claim STRING KEY OWNER` or `forget STRING PLACE`."""
    if kind == "setup":
        fields = {"setup": 1, "form": "nfc", "room": 100, "shards": 1, "equivalents": False}
    elif kind == "forget":
        fields = {"forget": words[0], "place": words[1]}
    else:
        parts = [len(word.encode()).to_bytes(4, "big") + word.encode() for word in words[:2]]
        fields = {"claim": b64encode(form + b"".join(parts)).decode(), "owner": words[2]}
    return json.dumps(fields, ensure_ascii=False, separators=(",", ":")).encode()


@contextlib.contextmanager
def without_rights():
    """As nobody, where root has all rights."""
    if os.geteuid():
        yield
        return
    os.seteuid(65534)
    try:
        yield
    finally:
        os.seteuid(0)


class Case(unittest.TestCase):
    """Stores of a folder over one log."""

    setup = Setup("nfc", 100, 1, False)

    def setUp(self):
        room = tempfile.TemporaryDirectory()
        self.addCleanup(room.cleanup)
        self.folder = Path(room.name)
        self.log = str(self.folder / "log")

    def store(self, name, files=OLD, setup=None):
        path = str(self.folder / name)
        init(path, version(files), setup or self.setup, self.log)
        return path

    def open(self, path):
        registry = Registry(path)
        self.addCleanup(registry.abandon)
        return registry

    def node(self, name, files=OLD, setup=None):
        return self.open(self.store(name, files, setup))

    def run_words(self, *words):
        out, err = io.StringIO(), io.StringIO()
        with contextlib.redirect_stdout(out), contextlib.redirect_stderr(err):
            status = command(words)
        return status, out.getvalue(), err.getvalue()

    def old_log(self, *records):
        """A log of the first layout, with these records behind its setup."""
        with contextlib.closing(sqlite3.connect(self.log)) as base, base:
            base.execute("PRAGMA journal_mode = WAL")
            base.execute("CREATE TABLE record (place INTEGER PRIMARY KEY AUTOINCREMENT, shard INTEGER NOT NULL, body BLOB NOT NULL)")
            base.execute("CREATE INDEX record_of_shard ON record (shard, place)")
            base.executemany("INSERT INTO record (shard, body) VALUES (0, ?)", ((body,) for body in (first_record("setup"), *records)))

    def bodies(self, shard=0):
        """The places and the bytes of the log's records."""
        with contextlib.closing(sqlite3.connect(self.log)) as base:
            return base.execute("SELECT place, body FROM record WHERE shard = ? ORDER BY place", (shard,)).fetchall()

    def judged(self, *paths, **limits):
        judge = Judge(paths, PROGRAM, **limits)
        try:
            return judge.run()
        finally:
            judge.close()
