"""What the tests of the extension share. Called with EXTENSION FOLDER, as test_sqlite.py tells."""

import os
import sqlite3
import sys
import tempfile
import unittest
from pathlib import Path

sys.path.append(str(Path(__file__).resolve().parent.parent))

import fixture_rows
from fixture_rows import FILES, FOLDING

EXTENSION, FOLDER = sys.argv[1], Path(sys.argv[2])
LABELS = ("13.0", "14.0", "15.0")
OLD, MIDDLE, NEW = (str(FOLDER / label) for label in LABELS)
# The same with CaseFolding.txt.
CASED_OLD, CASED_MIDDLE, CASED_NEW = (str(FOLDER / "caseless" / label) for label in LABELS)
# How many code points OLD and NEW assign.
OLD_COUNT, NEW_COUNT = 283_440, 288_767
# New in 14.0 and in 15.0.
YOUNG, YOUNGEST = "\u1df9\u1dfa", "\U0001e08f"
MARKED = "a\u0302\u0323"


class Case(unittest.TestCase):
    def setUp(self):
        room = tempfile.TemporaryDirectory()
        self.addCleanup(room.cleanup)
        self.path = os.path.join(room.name, "base")

    def connect(self, path=None, loads=True):
        base = sqlite3.connect(path or self.path, isolation_level=None, timeout=30, uri=True)
        self.addCleanup(base.close)
        if loads:
            base.enable_load_extension(True)
            base.load_extension(EXTENSION)
        return base

    def with_names(self, version=OLD):
        base = self.connect()
        base.execute("SELECT npss_raise(?)", (version,))
        base.execute("CREATE TABLE account (name TEXT NOT NULL)")
        base.execute("CREATE UNIQUE INDEX account_key ON account (npss_nfc(name))")
        return base

    def asked(self, base, text, *given):
        return base.execute(f"SELECT {text}", given).fetchone()[0]

    def refused(self, words, base, text, *given):
        with self.assertRaisesRegex(sqlite3.Error, words):
            base.execute(text, given).fetchall()

    def whole(self, base):
        self.assertEqual(base.execute("PRAGMA integrity_check").fetchall(), [("ok",)])
