"""The name of a store's log, which is told, and changed to another name of the same log."""

import contextlib
import os
import shutil
import sqlite3
from pathlib import Path

from cases import SECOND_LAYOUT, Case, changed, earlier
from npss_registry import Registry

DONE, FAULTY, AWAY = 0, 4, 5


class Renaming(Case):
    """`npss-registry log`."""

    def setUp(self):
        super().setUp()
        self.path = self.store("one")
        node = Registry(self.path)
        for name in ("a", "A", "i"):
            node.claim(name, "x")
        node.close()
        self.other = str(self.folder / "other.log")

    def copied(self):
        with contextlib.closing(sqlite3.connect(self.log)) as base, contextlib.closing(sqlite3.connect(self.other)) as copy:
            base.backup(copy)

    def refused(self, status, why, *statements):
        """The log is refused behind changes, and the store stays where it was."""
        if statements:
            changed(self.other, *statements)
        found = self.run_words("log", self.path, self.other)
        self.assertEqual((found[0], found[1]), (status, ""))
        self.assertRegex(found[2], rf"\Anpss-registry: .*{why}.*\n\Z")
        self.assertEqual(self.run_words("log", self.path)[1], f"{self.log}\n")

    def test_the_same_log_by_another_name(self):
        self.copied()
        self.assertEqual(self.run_words("log", self.path), (DONE, f"{self.log}\n", ""))
        self.assertEqual(self.run_words("log", self.path, self.other), (DONE, f"{self.other}\n", ""))
        os.unlink(self.log)
        node = self.open(self.path)
        self.assertEqual((node.find("a")[0].owner, node.claim("aa", "x").what), ("x", "registered"))
        self.assertEqual(self.judged(self.path), [])

    def test_a_relative_name_counts_from_the_stores_folder(self):
        self.copied()
        self.assertEqual(self.run_words("log", self.path, "other.log"), (DONE, "other.log\n", ""))
        self.assertEqual(self.open(self.path).claim("aa", "x").what, "registered")

    def test_it_is_told_while_a_node_works(self):
        self.copied()
        node = self.open(self.path)
        self.assertEqual(self.run_words("log", self.path), (DONE, f"{self.log}\n", ""))
        self.refused(AWAY, "another process works on this store")
        node.close()

    def test_a_log_that_has_more(self):
        self.copied()
        node = Registry(self.path)
        node.close()
        changed(self.other, "INSERT INTO record (shard, body) SELECT 0, body FROM record WHERE place = 2")
        self.assertEqual(self.run_words("log", self.path, self.other)[0], DONE)

    def test_a_log_that_lost_its_tail(self):
        self.copied()
        self.refused(FAULTY, "at place 4: shard 0 of this log isn't the one that the store has read", "DELETE FROM record WHERE place = 4")

    def test_a_log_of_another_past(self):
        self.copied()
        self.refused(FAULTY, "isn't the one that the store has read", "UPDATE record SET body = (SELECT body FROM record WHERE place = 3) WHERE place = 2")

    def test_another_registrys_log(self):
        log, self.log = self.log, self.other
        self.store("two")
        self.log = log
        self.refused(FAULTY, "another registry's log")

    def test_no_log(self):
        self.refused(FAULTY, "no log at")
        Path(self.other).write_bytes(b"no database, but a text that is long enough to be one" * 50)
        self.refused(FAULTY, "not a database")

    def test_an_empty_log(self):
        with contextlib.closing(sqlite3.connect(self.other)) as base:
            base.execute("CREATE TABLE record (place INTEGER PRIMARY KEY AUTOINCREMENT, shard INTEGER NOT NULL, body BLOB NOT NULL)")
        self.refused(AWAY, "nothing stands there")

    def test_a_store_that_goes_over(self):
        self.copied()
        changed(self.path, "UPDATE setup SET moving = '/elsewhere'")
        self.refused(FAULTY, "call it again")

    def test_a_store_of_an_earlier_version(self):
        self.copied()
        earlier(self.path, SECOND_LAYOUT)
        changed(self.other, ("UPDATE record SET body = ? WHERE place = 1", b'{"setup":1,"form":"nfc","room":100,"shards":1,"equivalents":false}'))
        found = self.run_words("log", self.path, self.other)
        self.assertEqual(found[0], FAULTY)
        self.assertRegex(found[2], "call `npss-registry status` on it first")

    def test_a_store_that_has_read_nothing(self):
        shutil.copy(self.store("two"), self.folder / "kept")
        self.copied()
        self.assertEqual(self.run_words("log", str(self.folder / "kept"), self.other)[0], DONE)
