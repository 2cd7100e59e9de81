"""Stores and logs that are set up, and whose log it is."""

import os
import shutil
import sqlite3
from dataclasses import replace
from pathlib import Path

from cases import OLD, PROGRAM, Case, version, without_rights
from npss_registry import Differs, LogAway, Registry, StoreError, init
from npss_registry.errors import LogReadOnly, UnknownScheme
from npss_registry.judge import Judge
from npss_registry.logs import open_log
from npss_registry.records import End, Forget, Setup, claim_of, message, read, spelled


class Setups(Case):
    """Stores and logs that are set up."""

    def test_form_room_and_shards_stand_in_the_log(self):
        self.store("one")
        self.assertRaises(Differs, init, str(self.folder / "two"), version(OLD), Setup("nfd", 100, 1, False), self.log)
        found = init(str(self.folder / "two"), version(OLD), None, self.log)
        self.assertEqual((replace(found, name=""), len(found.name)), (self.setup, 32))
        self.assertRaises(StoreError, init, str(self.folder / "two"), version(OLD), None, self.log)
        for setup in (Setup("nfc", 65_537, 1, False), Setup("nfc", -1, 1, False), Setup("nfc", 1, 0, False), Setup("nfc", 1, 1025, False)):
            self.assertRaises(StoreError, init, str(self.folder / "three"), version(OLD), setup, str(self.folder / "others"))
        self.assertFalse((self.folder / "three").exists())

    def test_a_store_that_differs_from_its_log(self):
        path = self.store("one")
        with sqlite3.connect(path) as base:
            base.execute("UPDATE setup SET room = 5")
        self.assertRaises(Differs, Registry, path)

    def test_what_is_no_store(self):
        self.assertRaises(StoreError, Registry, str(self.folder / "none"))
        (self.folder / "text").write_text("no store, but a text that is long enough to be looked at")
        self.assertRaises(StoreError, Registry, str(self.folder / "text"))

    def test_records_are_read_as_they_were_spelled(self):
        for record in (replace(self.setup, name="n", before="b", kept=3), claim_of(message("nfkd", "\u00e2", "a\u0302"), "x"), Forget("\0", 7), End("redis://h/0")):
            self.assertEqual(repr(read(1, spelled(record), 2)), repr(record))
        self.assertEqual(message("nfc", "a\u0302", "\u00e2").hex(), "430000000361cc8200000002c3a2")

    def test_another_registrys_log_in_the_same_place(self):
        path, log = self.store("one"), self.log
        self.log = str(self.folder / "another")
        self.store("two")
        os.replace(self.log, log)
        self.assertRaisesRegex(Differs, "another registry's log", Registry, path)

    def test_a_relative_log_counts_from_the_stores_folder(self):
        stores = []
        for name in ("A", "B"):
            (self.folder / name).mkdir()
            stores.append(str(self.folder / name / "store"))
            init(stores[-1], version(OLD), self.setup, "names.log")
        here = os.getcwd()
        self.addCleanup(os.chdir, here)
        os.chdir(self.folder / "B")
        one = self.open(stores[0])
        self.assertEqual(one.claim("a", "x").what, "registered")
        self.assertEqual(one.store.log, str(self.folder / "A" / "names.log"))
        self.assertEqual(self.open("store").find("a"), [])
        os.chdir(here)
        one.close()
        shutil.copytree(self.folder / "A", self.folder / "C")
        self.assertEqual(self.open(str(self.folder / "C" / "store")).find("a")[0].owner, "x")

    def test_no_log_is_made_but_by_init_and_relog(self):
        path = self.store("one")
        os.unlink(self.log)
        for asked in (lambda: Registry(path), lambda: Judge([path], PROGRAM)):
            with self.assertRaises(StoreError) as caught:
                asked()
            self.assertEqual(str(caught.exception), f"no log at {self.log}")
            self.assertFalse(os.path.exists(self.log))
        Path(self.log).touch()
        self.assertRaisesRegex(StoreError, f"no log at {self.log}", Registry, path)

    def test_a_log_of_no_scheme(self):
        for name in ("http://h/0", "mysql:///names", "file:///log"):
            self.assertRaisesRegex(UnknownScheme, "redis://", open_log, name, "make")
            for words in (("init", str(self.folder / "one"), *OLD), ("relog", str(self.folder / "one"))):
                with self.assertRaises(SystemExit) as caught:
                    self.run_words(*words, "--log", name)
                self.assertEqual(caught.exception.code, 2)
        self.assertEqual(os.listdir(self.folder), [])

    def test_numbers_that_are_bad_words(self):
        for words in (("--shards", "0"), ("--shards", "1025"), ("--room", "-1"), ("--room", "65537"), ("--room", "many")):
            with self.assertRaises(SystemExit) as caught:
                self.run_words("init", str(self.folder / "one"), *OLD, *words)
            self.assertEqual(caught.exception.code, 2)
        self.assertEqual(os.listdir(self.folder), [])

    def test_a_default_log_stands_beside_the_store(self):
        (self.folder / "data").mkdir()
        path = str(self.folder / "data" / "store")
        self.assertEqual(self.run_words("init", path, *OLD)[0], 0)
        self.assertEqual(sorted(os.listdir(self.folder / "data"))[:2], ["store", "store.log"])
        os.unlink(f"{path}.log")
        for words in (("list", path), ("check", path, "--program", PROGRAM), ("claim", path, "a", "--owner", "x")):
            self.assertEqual(self.run_words(*words)[::2], (4, f"npss-registry: no log at {path}.log\n"))
            self.assertFalse(os.path.exists(f"{path}.log"))

    def test_what_may_not_be_looked_at(self):
        self.folder.chmod(0o755)
        room = self.folder / "closed"
        room.mkdir(0o700)
        path = str(room / "store")
        init(path, version(OLD), self.setup, self.log)
        os.chmod(room, 0o000)
        try:
            with without_rights():
                self.assertRaisesRegex(StoreError, "permission denied", Registry, path)
                self.assertRaisesRegex(StoreError, "permission denied", Judge, [path], PROGRAM)
        finally:
            os.chmod(room, 0o700)

    def test_a_log_that_may_not_be_written(self):
        self.folder.chmod(0o755)
        path = self.store("one")
        for end in ("", "-lock"):
            Path(path + end).touch()
            os.chmod(path + end, 0o666)
        os.chmod(self.folder, 0o777)
        os.chmod(self.log, 0o444)
        with without_rights():
            with self.assertRaisesRegex(StoreError, "may not write it") as caught:
                Registry(path)
        self.assertNotIsInstance(caught.exception, LogAway)

    def test_a_log_that_may_not_be_written_any_more(self):
        node = self.node("one")
        node.log._base.execute("PRAGMA query_only = 1")
        with self.assertRaisesRegex(LogReadOnly, "may not write it"):
            node.claim("a", "x")
        self.assertEqual(node.find("a"), [])
