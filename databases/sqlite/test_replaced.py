"""Databases that become others below a connection, and attached ones."""

import contextlib
import os
import sqlite3
import subprocess
import tempfile
from pathlib import Path

from cases import FILES, MARKED, NEW, NEW_COUNT, OLD, OLD_COUNT, YOUNGEST, Case


class Replaced(Case):
    """The record rules, whoever put it there."""

    def other(self, version, name="other"):
        """A database of another version with a table of names."""
        path = f"{self.path}.{name}"
        base = self.connect(path)
        base.execute("SELECT npss_raise(?)", (version,))
        base.execute("CREATE TABLE account (name TEXT NOT NULL)")
        base.execute("CREATE UNIQUE INDEX account_key ON account (npss_nfd(name))")
        return base

    def sibling(self, old="0323;COMBINING DOT BELOW;Mn;220", new="0323;COMBINING DOT BELOW;Mn;240"):
        """Files of as many code points and bytes as NEW, where a dot below comes behind a circumflex; or with another edit."""
        folder = tempfile.TemporaryDirectory()
        self.addCleanup(folder.cleanup)
        for name in FILES:
            text = Path(NEW, name).read_text(encoding="utf-8")
            Path(folder.name, name).write_text(text.replace(old, new), encoding="utf-8")
        return folder.name

    def test_by_the_backup_api(self):
        base = self.with_names(NEW)
        self.assertEqual(self.asked(base, "npss_nfc(?)", MARKED), "\u1ead")
        self.other(OLD).backup(base)
        self.refused("U\\+1E08F at byte 0 is not assigned", base, "INSERT INTO account VALUES (?)", YOUNGEST)
        self.assertEqual(self.asked(base, "npss_version()"), OLD_COUNT)
        base.execute("INSERT INTO account VALUES (?)", (MARKED,))
        self.whole(base)
        # What others wrote is there for each to delete, and keys are those of the record.
        self.assertEqual(self.connect().execute("DELETE FROM account").rowcount, 1)

    def test_by_another_connection(self):
        for mode in ("DELETE", "WAL"):
            path = f"{self.path}.{mode}"
            base, beside = self.connect(path), self.connect(path)
            base.execute(f"PRAGMA journal_mode = {mode}")
            base.execute("SELECT npss_raise(?)", (NEW,))
            self.assertEqual((self.asked(base, "npss_nfc(?)", MARKED), self.asked(beside, "npss_nfc(?)", MARKED)), ("\u1ead", "\u1ead"))
            self.other(OLD, f"{mode}.other").backup(beside)
            # A statement of its own, a question, a key that is stored: each goes by the record.
            self.refused("not assigned", base, "SELECT npss_nfc(?)", YOUNGEST)
            self.assertIsNone(self.asked(base, "npss_try_key(?)", YOUNGEST))
            self.refused("not assigned", base, "INSERT INTO account VALUES (?)", YOUNGEST)
            self.whole(base)

    def test_by_one_of_as_many_code_points(self):
        base = self.with_names(NEW)
        base.execute("INSERT INTO account VALUES (?)", (MARKED,))
        self.assertEqual(self.asked(base, "npss_nfd(?)", MARKED), "a\u0323\u0302")
        self.other(self.sibling()).backup(base)
        base.execute("INSERT INTO account VALUES (?)", (MARKED,))
        self.assertEqual(self.asked(base, "npss_nfd(name) FROM account"), MARKED)
        self.whole(self.connect())

    def test_by_another_raise_behind_one_that_was_rolled_back(self):
        # Both versions extend the first one, and have as many code points.
        letter = "1E030;MODIFIER LETTER CYRILLIC SMALL A;Lm;0;L;<super> 043"
        for is_told in (True, False):
            self.path += f".{is_told}"
            base, beside = self.with_names(OLD), self.connect()
            base.execute("CREATE UNIQUE INDEX account_nfkc ON account (npss_nfkc(name))")
            if not is_told:
                base.execute("CREATE TABLE npss_watch (name TEXT)")
            base.execute("BEGIN")
            base.execute("SELECT npss_raise(?)", (self.sibling(f"{letter}0", f"{letter}1"),))
            self.assertEqual(self.asked(base, "npss_nfkc('\U0001e030')"), "\u0431")
            base.execute("ROLLBACK")
            beside.execute("SELECT npss_raise(?)", (NEW,))
            base.execute("INSERT INTO account VALUES ('\U0001e030')")
            self.refused("UNIQUE constraint", beside, "INSERT INTO account VALUES ('\u0430')")
            self.whole(beside)

    def test_by_the_shells_restore(self):
        base = self.with_names(NEW)
        self.asked(base, "npss_nfc(?)", MARKED)
        self.other(OLD).close()
        subprocess.run(["sqlite3", self.path, f".restore {self.path}.other"], check=True)
        self.refused("not assigned", base, "INSERT INTO account VALUES (?)", YOUNGEST)

    def test_where_no_pragma_may_be_asked(self):
        base = self.with_names(NEW)
        base.set_authorizer(lambda action, *_: sqlite3.SQLITE_DENY if action == sqlite3.SQLITE_PRAGMA else sqlite3.SQLITE_OK)
        base.execute("INSERT INTO account VALUES (?)", (MARKED,))
        self.other(OLD).backup(base)
        self.refused("not assigned", base, "INSERT INTO account VALUES (?)", YOUNGEST)

    def test_by_one_without_a_record(self):
        base = self.with_names(NEW)
        self.asked(base, "npss_nfc(?)", MARKED)
        with contextlib.closing(sqlite3.connect(":memory:")) as empty:
            empty.backup(base)
        self.refused("records no version", base, "SELECT npss_nfc('a')")

    def test_by_a_raise_that_a_shared_cache_showed_too_early(self):
        name = f"file:{self.path}?cache=shared"
        base, reader = self.connect(name), self.connect(name)
        base.execute("SELECT npss_raise(?)", (OLD,))
        base.execute("CREATE TABLE account (name TEXT NOT NULL, key TEXT AS (npss_nfc(name)) STORED)")
        reader.execute("PRAGMA read_uncommitted = 1")
        self.refused("not assigned", reader, "SELECT npss_nfc(?)", YOUNGEST)
        base.execute("BEGIN")
        base.execute("SELECT npss_raise(?)", (NEW,))
        self.assertEqual(self.asked(reader, "npss_nfc(?) FROM npss_record", YOUNGEST), YOUNGEST)
        base.execute("ROLLBACK")
        self.refused("not assigned", reader, "INSERT INTO account (name) VALUES (?)", YOUNGEST)
        self.refused("not assigned", base, "INSERT INTO account (name) VALUES (?)", YOUNGEST)
        # And where the raise is the first that the reader sees of the record.
        fresh = self.connect(name)
        fresh.execute("PRAGMA read_uncommitted = 1")
        base.execute("BEGIN")
        base.execute("SELECT npss_raise(?)", (NEW,))
        self.assertEqual(self.asked(fresh, "npss_nfc(?) FROM npss_record", YOUNGEST), YOUNGEST)
        base.execute("ROLLBACK")
        self.refused("not assigned", fresh, "INSERT INTO account (name) VALUES (?)", YOUNGEST)

    def test_by_a_rollback_beside_a_statement_that_goes_on(self):
        base = self.with_names(OLD)
        base.execute("INSERT INTO account VALUES ('a'), ('b'), ('c'), ('d'), ('e'), ('f')")
        running = base.execute("SELECT npss_try_key(?) FROM account", (YOUNGEST,))
        rows = [running.fetchone()]
        base.execute("BEGIN")
        base.execute("SELECT npss_raise(?)", (NEW,))
        rows += [running.fetchone(), running.fetchone()]
        base.execute("ROLLBACK")
        rows += running.fetchall()
        # Python is up to a row ahead of what it hands over.
        self.assertEqual((rows[0], rows[-2:], (YOUNGEST,) in rows), ((None,), [(None,), (None,)], True), rows)

    def test_by_a_rollback_of_another_statements_record(self):
        # A dump that is taken back: no trigger keeps its record from being written yet.
        base = self.connect()
        base.execute("SELECT npss_open(?)", (OLD,))
        data = [Path(NEW, name).read_bytes() for name in FILES]
        for begins in ("SELECT 1", "BEGIN", "BEGIN IMMEDIATE"):
            base.execute("CREATE TABLE IF NOT EXISTS account (name TEXT, key TEXT AS (npss_nfc(name)) STORED)")
            base.execute("INSERT INTO account (name) VALUES ('a')")
            base.execute("BEGIN")
            base.execute("CREATE TABLE npss_record (one INTEGER PRIMARY KEY, assigned INTEGER, data BLOB, exclusions BLOB)")
            base.execute("INSERT INTO npss_record VALUES (1, ?, ?, ?)", (NEW_COUNT, *data))
            base.execute("INSERT INTO account (name) VALUES (?)", (YOUNGEST,))
            base.execute("ROLLBACK")
            base.execute(begins)
            self.refused("not assigned", base, "INSERT INTO account (name) VALUES (?)", YOUNGEST)
            self.assertEqual(self.asked(base, "npss_version()"), OLD_COUNT)
            if base.in_transaction:
                base.execute("ROLLBACK")


class Looks(Case):
    """How often a connection looks at the record."""

    def looks(self, base, count):
        """The statements that are run beside the inserts of a transaction."""
        statements = []
        base.execute("BEGIN")
        base.set_trace_callback(statements.append)
        base.executemany("INSERT INTO account VALUES (?)", ((f"{MARKED}{at}",) for at in range(count)))
        base.set_trace_callback(None)
        base.execute("COMMIT")
        base.execute("DELETE FROM account")
        return [text for text in statements if not text.startswith("INSERT INTO account")]

    def test_a_load_looks_once(self):
        base = self.with_names(OLD)
        for when in ("behind the first raise", "behind a load", "behind another raise", "behind a load again"):
            self.assertLessEqual(len(self.looks(base, 500)), 8, when)
            if when == "behind a load":
                base.execute("SELECT npss_raise(?)", (NEW,))
        base.execute("BEGIN")
        self.assertEqual(self.asked(base, "npss_raise(?)", NEW), NEW_COUNT)
        base.execute("COMMIT")
        self.assertLessEqual(len(self.looks(base, 500)), 8, "behind a raise within a transaction")
        self.assertLessEqual(len(self.looks(self.connect(), 500)), 8, "of a fresh connection")

    def test_a_load_in_the_transaction_of_a_raise_looks_once(self):
        base, statements = self.with_names(OLD), []
        base.execute("BEGIN")
        base.execute("SELECT npss_raise(?)", (NEW,))
        base.set_trace_callback(statements.append)
        base.executemany("INSERT INTO account VALUES (?)", ((f"{MARKED}{at}",) for at in range(50)))
        base.set_trace_callback(None)
        self.assertLessEqual(len(statements), 50 + 8, statements)

    def test_a_reader_behind_a_raise_looks_once_where_nothing_is_told(self):
        base, statements = self.with_names(OLD), []
        base.execute("CREATE TABLE npss_watch (name TEXT)")
        base.executemany("INSERT INTO account VALUES (?)", ((f"{MARKED}{at}",) for at in range(50)))
        base.execute("BEGIN")
        base.execute("SELECT npss_raise(?)", (NEW,))
        base.execute("COMMIT")
        base.execute("BEGIN")
        base.set_trace_callback(statements.append)
        self.assertEqual(len(base.execute("SELECT npss_nfc(name) FROM account").fetchall()), 50)
        base.set_trace_callback(None)
        self.assertLessEqual(len(statements), 10, statements)

    def test_a_statement_without_tables_keeps_no_transaction_open(self):
        # What it reads there it would hold to its end: another's commit would be in the way of its own.
        base, beside = self.with_names(OLD), self.connect()
        base.execute("PRAGMA journal_mode = WAL")
        self.asked(base, "npss_nfc(?)", MARKED)
        base.execute("BEGIN")
        self.assertEqual(self.asked(base, "npss_nfc(?)", MARKED), "\u1ead")
        beside.execute("INSERT INTO account VALUES ('a')")
        base.execute("INSERT INTO account VALUES ('b')")
        base.execute("COMMIT")
        self.whole(base)

    def test_a_locked_database_gives_keys_of_what_was_seen(self):
        base, beside = self.with_names(OLD), self.connect()
        beside.execute("PRAGMA busy_timeout = 0")
        self.asked(beside, "npss_nfc(?)", MARKED)
        base.execute("BEGIN EXCLUSIVE")
        self.assertEqual(self.asked(beside, "npss_nfc(?)", MARKED), "\u1ead")
        base.execute("COMMIT")


class Attached(Case):
    """Databases that are attached: keys in them are of the main one's version."""

    def setUp(self):
        super().setUp()
        self.beside = self.path + ".beside"

    def attached(self, version, main=NEW):
        base = self.with_names(main)
        with contextlib.closing(self.connect(self.beside)) as other:
            if version:
                other.execute("SELECT npss_raise(?)", (version,))
            other.execute("CREATE TABLE account (name TEXT NOT NULL)")
            other.execute("CREATE UNIQUE INDEX account_key ON account (npss_nfc(name))")
            if version:
                other.execute("INSERT INTO account VALUES (?)", (MARKED,))
        base.execute("ATTACH ? AS other", (self.beside,))
        return base

    def test_of_another_version(self):
        for main, version in ((NEW, OLD), (OLD, NEW)):
            for path in (self.path, self.beside):
                with contextlib.suppress(FileNotFoundError):
                    os.unlink(path)
            base = self.attached(version, main)
            for text in ("INSERT INTO other.account VALUES ('\u00eb')", "UPDATE other.account SET name = '\u00eb'", "DELETE FROM other.account WHERE name > ''",
                         "CREATE INDEX other.more ON account (npss_nfkc(name))"):
                self.refused('attached database .other. records another version', base, text)
            # What is read there may be taken over.
            base.execute("INSERT INTO main.account SELECT name FROM other.account")
            self.assertEqual(base.execute("SELECT name FROM other.account WHERE npss_nfc(name) = npss_nfc('\u1ead')").fetchall(), [(MARKED,)])
            self.whole(base)
            base.close()

    def test_of_other_files_of_as_many_bytes(self):
        sibling = Replaced.sibling(self)
        base = self.attached(sibling)
        self.refused("records another version", base, "INSERT INTO other.account VALUES ('\u00eb')")

    def test_of_the_same_version(self):
        base = self.attached(NEW)
        base.execute("INSERT INTO other.account VALUES (?)", (YOUNGEST,))
        base.execute("BEGIN")
        for at in range(50):
            base.execute("INSERT INTO other.account VALUES (?)", (f"{MARKED}{at}",))
        base.execute("COMMIT")
        self.assertEqual(base.execute("PRAGMA other.integrity_check").fetchall(), [("ok",)])

    def test_in_memory(self):
        base = self.with_names(NEW)
        for version, fits in ((NEW, True), (OLD, False), (NEW, True)):
            base.execute("ATTACH ':memory:' AS other")
            base.execute("CREATE TABLE other.npss_record (one INTEGER, assigned INTEGER, data BLOB, exclusions BLOB)")
            base.execute("INSERT INTO other.npss_record VALUES (1, 0, ?, ?)", [Path(version, name).read_bytes() for name in FILES])
            base.execute("CREATE TABLE other.account (name TEXT)")
            base.execute("CREATE INDEX other.account_key ON account (npss_nfc(name))")
            for begins in ("SELECT 1", "BEGIN"):
                base.execute(begins)
                for name in (MARKED, MARKED + "a"):
                    if fits:
                        base.execute("INSERT INTO other.account VALUES (?)", (name,))
                    else:
                        self.refused("records another version", base, "INSERT INTO other.account VALUES (?)", name)
            base.execute("COMMIT")
            base.execute("DETACH other")

    def test_is_compared_once(self):
        base, statements = self.attached(NEW), []
        base.set_trace_callback(statements.append)
        for at in range(20):
            base.execute("INSERT INTO other.account VALUES (?)", (f"{MARKED}{at}",))
        base.set_trace_callback(None)
        self.assertEqual(sum("a.data = b.data" in text for text in statements), 1)
        # What another connection does to it is looked at.
        beside = self.connect(self.beside)
        for name in ("insert", "update", "delete"):
            beside.execute(f"DROP TRIGGER npss_record_{name}")
        beside.execute("UPDATE npss_record SET data = x'00'")
        self.refused("records another version", base, "INSERT INTO other.account VALUES ('\u00eb')")

    def test_that_is_left_behind_by_a_raise(self):
        base = self.attached(OLD, OLD)
        base.execute("BEGIN")
        base.execute("INSERT INTO other.account VALUES ('\u00eb')")
        base.execute("SELECT npss_raise(?)", (NEW,))
        self.refused("records another version", base, "INSERT INTO other.account VALUES (?)", YOUNGEST)
        base.execute("ROLLBACK")
        base.execute("INSERT INTO other.account VALUES ('\u00eb')")
        base.execute("SELECT npss_raise(?)", (NEW,))
        self.refused("records another version", base, "INSERT INTO other.account VALUES (?)", YOUNGEST)

    def test_of_no_version(self):
        base = self.attached(None)
        base.execute("INSERT INTO other.account VALUES (?)", (YOUNGEST,))
        self.assertEqual(base.execute("SELECT count(*) FROM other.account WHERE npss_nfc(name) = ?", (YOUNGEST,)).fetchone(), (1,))

    def test_below_a_main_database_of_no_version(self):
        self.attached(OLD).close()
        base = self.connect(":memory:")
        base.execute("SELECT npss_open(?)", (OLD,))
        base.execute("ATTACH ? AS \"o\"\"ther\"", (self.beside,))
        self.refused("records another version", base, "INSERT INTO \"o\"\"ther\".account VALUES ('\u00eb')")
