"""Records that are taken back, or that come in place of another one, on one connection: keys are those of the record that is there."""

import contextlib
import itertools
import sqlite3
from pathlib import Path

from cases import FILES, NEW, OLD, fixture_rows
from test_caseless import OLDER_RECORD, Folded


class Undone(Folded):
    """Two versions of as many code points, under which `A` has unlike caseless keys."""

    KEYS = {"v2": "a", "changed": "\u00e2"}

    def setUp(self):
        super().setUp()
        self.room = self.folder()
        for name in self.KEYS:
            fixture_rows.put_toy(self.room / name, name)

    def dump(self, version, path=None):
        """The statements that bring a database of a version back, the record before the accounts, without those around it."""
        base = self.with_accounts(self.room / version, path or f"{self.path}.{version}.{len(self.id())}")
        base.execute("INSERT INTO account VALUES ('A')")
        _, *texts, _ = base.iterdump()
        base.close()
        return texts

    def read(self, base, texts):
        for text in texts:
            base.execute(text)

    def has(self, base, version):
        """That keys are those of a version: of a statement of its own, in the index, and of the index made anew."""
        self.assertEqual(self.asked(base, "npss_caseless_key('A')"), self.KEYS[version])
        self.assertEqual(self.asked(base, "count(*) FROM account WHERE npss_caseless_nfkc(name) = ?", self.KEYS[version]), 1)
        self.whole(base)
        self.assertEqual(self.connect().execute("SELECT npss_caseless_nfkc(name) FROM account").fetchall(), [(self.KEYS[version],)])
        self.whole(self.connect())

    def test_two_dumps_of_which_the_first_is_rolled_back(self):
        dumps = {name: self.dump(name) for name in self.KEYS}
        for opens, begins, (first, second) in itertools.product((False, True), ("SELECT 1", "BEGIN", "SAVEPOINT outer"), itertools.permutations(self.KEYS)):
            with self.subTest(opens=opens, begins=begins, first=first):
                self.path = f"{self.room}/{opens}{begins}{first}"
                base = self.connect()
                if opens:
                    base.execute("SELECT npss_open(?)", (str(self.room / first),))
                base.execute("BEGIN")
                self.read(base, dumps[first])
                self.assertEqual(self.asked(base, "npss_caseless_key('A')"), self.KEYS[first])
                base.execute("ROLLBACK")
                if opens:
                    self.assertEqual(self.asked(base, "npss_caseless_key('A')"), self.KEYS[first])
                    continue
                base.execute(begins)
                self.read(base, dumps[second])
                if base.in_transaction:
                    base.execute("COMMIT")
                self.has(base, second)

    def test_a_first_record_that_is_rolled_back_is_gone(self):
        for fresh in (False, True):
            base = self.connect(f"{self.path}.{fresh}")
            if not fresh:
                self.refused("records no version", base, "SELECT npss_nfc('a')")
            base.execute("BEGIN")
            self.read(base, self.dump("v2", f"{self.path}.{fresh}.dumped"))
            base.execute("ROLLBACK")
            self.refused("records no version", base, "SELECT npss_caseless_key('A')")
            base.execute("BEGIN IMMEDIATE")
            self.refused("records no version", base, "SELECT npss_caseless_key('A')")
            base.execute("COMMIT")

    def test_two_rows_of_one_table_of_which_the_first_is_rolled_back(self):
        # As where the schema came first, and then the rows: no number of the schema changes.
        rows = {name: [text for text in self.dump(name) if text.startswith("INSERT")] for name in self.KEYS}
        self.assertEqual([len(texts) for texts in rows.values()], [2, 2])
        for ends, (first, second) in itertools.product(("ROLLBACK", "ROLLBACK TO here"), itertools.permutations(self.KEYS)):
            with self.subTest(ends=ends, first=first):
                self.path = f"{self.room}/{ends}{first}"
                base = self.connect()
                self.read(base, [OLDER_RECORD.replace("exclusions BLOB", "exclusions BLOB, folding BLOB"), "CREATE TABLE account (name TEXT NOT NULL)",
                                 "CREATE UNIQUE INDEX account_name ON account (npss_caseless_nfkc(name))", "BEGIN", "SAVEPOINT here"])
                for version in (first, second, first):
                    self.read(base, reversed(rows[version]))
                    self.assertEqual(self.asked(base, "npss_caseless_key('A')"), self.KEYS[version])
                    base.execute(ends)
                    if not base.in_transaction:
                        base.execute("BEGIN")
                self.read(base, reversed(rows[second]))
                base.execute("COMMIT")
                self.has(base, second)

    def test_savepoints(self):
        dumps = {name: self.dump(name) for name in self.KEYS}
        for begins, (first, second) in itertools.product(("SELECT 1", "BEGIN"), itertools.permutations(self.KEYS)):
            with self.subTest(begins=begins, first=first):
                self.path = f"{self.room}/{begins}{first}"
                base = self.connect()
                base.execute(begins)
                base.execute("SAVEPOINT here")
                self.read(base, dumps[first])
                self.assertEqual(self.asked(base, "npss_caseless_key('A')"), self.KEYS[first])
                base.execute("ROLLBACK TO here")
                self.read(base, dumps[second])
                self.assertEqual(self.asked(base, "npss_caseless_key('A')"), self.KEYS[second])
                base.execute("RELEASE here")
                if base.in_transaction:
                    base.execute("COMMIT")
                self.has(base, second)

    def test_a_dump_in_place_of_a_database(self):
        for within, commits, asks in itertools.product((False, True), (False, True), ("nothing", "a key", "a key that is stored")):
            with self.subTest(within=within, commits=commits, asks=asks):
                self.path = f"{self.room}/{within}{commits}{asks}"
                base = self.connect()
                self.read(base, self.dump("v2", f"{self.path}.dumped"))
                if within:
                    base.execute("BEGIN")
                if asks == "a key":
                    self.assertEqual(self.asked(base, "npss_caseless_key('A')"), "a")
                elif asks != "nothing":
                    base.execute("INSERT INTO account VALUES ('\uac00')")
                self.read(base, ["DROP TABLE account", "DROP TABLE npss_record", *self.dump("changed", f"{self.path}.other")])
                self.assertEqual(self.asked(base, "npss_caseless_key('A')"), "\u00e2")
                if within:
                    base.execute("COMMIT" if commits else "ROLLBACK")
                base.execute("DELETE FROM account WHERE name = '\uac00'")
                self.has(base, "changed" if commits or not within else "v2")

    def test_a_row_that_comes_alone_behind_opened_tables(self):
        base = self.connect()
        base.execute(OLDER_RECORD.replace("exclusions BLOB", "exclusions BLOB, folding BLOB"))
        base.execute("CREATE TABLE account (name TEXT, key TEXT AS (npss_caseless_nfc(name)) STORED)")
        base.execute("SELECT npss_open(?)", (str(self.room / "changed"),))
        base.execute("BEGIN")
        base.execute("INSERT INTO account (name) VALUES ('A')")
        self.read(base, [text for text in self.dump("v2") if 'INTO "npss_record"' in text])
        self.refused("neither this database's record nor the files of npss_open extend the other", base, "INSERT INTO account (name) VALUES ('a')")

    def test_a_savepoint_within_a_load_is_no_rollback_of_the_record(self):
        # The record was read before the savepoint, so what is rolled back to that leaves it, and no statement reads it anew.
        base, statements = self.with_accounts(self.room / "v2"), []
        base.execute("BEGIN")
        base.execute("SAVEPOINT outer")
        base.execute("SELECT npss_raise(?)", (str(self.room / "v2"),))
        base.execute("INSERT INTO account VALUES ('A')")
        base.execute("RELEASE outer")
        base.set_trace_callback(statements.append)
        for at in range(20):
            base.execute("SAVEPOINT here")
            base.execute("INSERT INTO account VALUES (?)", (chr(0xAC00 + at),))
            with contextlib.suppress(sqlite3.IntegrityError):
                base.execute("INSERT INTO account VALUES ('\ub000'), ('a')")
            base.execute("ROLLBACK TO here")
            base.execute("RELEASE here")
        base.set_trace_callback(None)
        self.assertEqual(sum("data, exclusions" in text for text in statements), 0, statements)
        self.assertEqual(self.asked(base, "npss_caseless_key('A')"), "a")
        base.execute("COMMIT")

    def test_what_a_transaction_leaves_is_not_read_anew(self):
        base, statements = self.with_accounts(self.room / "v2"), []
        base.execute("BEGIN")
        base.execute("SELECT npss_raise(?)", (str(self.room / "v2"),))
        base.execute("INSERT INTO account VALUES ('A')")
        base.execute("COMMIT")
        base.set_trace_callback(statements.append)
        for ends in ("COMMIT", "ROLLBACK", "COMMIT"):
            base.execute("BEGIN")
            base.execute("INSERT INTO account VALUES (?)", (chr(0xAC00 + len(statements)),))
            base.execute(ends)
        base.set_trace_callback(None)
        self.assertEqual(sum("data, exclusions" in text for text in statements), 0, statements)

    def test_where_the_table_that_is_told_may_not_be_used(self):
        # Another table has its name, or an authorizer keeps it away: each key looks at the record.
        for shadows in (False, True):
            base = self.with_accounts(self.room / "v2", f"{self.path}.{shadows}")
            if shadows:
                self.read(base, ["CREATE TABLE npss_watch (name TEXT)", "INSERT INTO npss_watch VALUES ('kept')"])
            else:
                base.set_authorizer(lambda action, name, *_: sqlite3.SQLITE_DENY if (action, name) == (sqlite3.SQLITE_DELETE, "npss_watch") else sqlite3.SQLITE_OK)
            base.execute("BEGIN")
            base.execute("INSERT INTO account VALUES ('\uac00')")
            self.read(base, ["DROP TABLE account", "DROP TABLE npss_record", *self.dump("changed", f"{self.path}.{shadows}.other")])
            self.assertEqual(self.asked(base, "npss_caseless_key('A')"), "\u00e2")
            base.execute("ROLLBACK")
            self.assertEqual(self.asked(base, "npss_caseless_key('A')"), "a")
            # Where the rows alone are taken back, no number tells it.
            self.read(base, [f"DROP TRIGGER npss_record_{name}" for name in ("insert", "update", "delete")])
            self.read(base, ["DELETE FROM npss_record", "BEGIN", *(text for text in self.dump("v2", f"{self.path}.{shadows}.more") if 'INTO "npss_record"' in text)])
            self.assertEqual(self.asked(base, "npss_caseless_key('A')"), "a")
            base.execute("ROLLBACK")
            self.refused("records no version", base, "SELECT npss_caseless_key('A')")
            self.read(base, ["BEGIN", *(text for text in self.dump("v2", f"{self.path}.{shadows}.again") if 'INTO "npss_record"' in text),
                             "INSERT INTO account VALUES ('A')", "COMMIT"])
            if shadows:
                self.assertEqual(base.execute("SELECT name FROM npss_watch").fetchall(), [("kept",)])

    def test_where_the_table_that_is_told_may_be_used_later(self):
        base = self.connect()
        rows = {name: [text for text in self.dump(name) if 'INTO "npss_record"' in text] for name in self.KEYS}
        base.execute(OLDER_RECORD.replace("exclusions BLOB", "exclusions BLOB, folding BLOB"))
        base.set_authorizer(lambda action, name, *_: sqlite3.SQLITE_DENY if (action, name) == (sqlite3.SQLITE_DELETE, "npss_watch") else sqlite3.SQLITE_OK)
        self.read(base, ["BEGIN", *rows["v2"]])
        self.assertEqual(self.asked(base, "npss_caseless_key('A')"), "a")
        base.set_authorizer(None)
        self.assertEqual(self.asked(base, "npss_caseless_key('A')"), "a")
        self.read(base, ["ROLLBACK", "BEGIN", *rows["changed"]])
        self.assertEqual(self.asked(base, "npss_caseless_key('A')"), "\u00e2")

    def test_the_table_that_is_told_has_nothing(self):
        base = self.with_accounts(self.room / "v2")
        self.assertEqual(base.execute("SELECT rowid, * FROM npss_watch").fetchall(), [])
        self.refused("readonly", base, "INSERT INTO npss_watch VALUES (1)")
        base.execute("CREATE VIEW seen AS SELECT * FROM npss_watch")
        self.refused("unsafe use", base, "SELECT * FROM seen")
        # It counts no change, and leaves the last row's number.
        base.execute("BEGIN")
        base.execute("INSERT INTO account VALUES ('A'), ('\uac00')")
        before = self.asked(base, "last_insert_rowid()")
        self.assertEqual((self.asked(base, "changes()"), before), (2, 2))
        base.execute("COMMIT")


class Beneath(Folded):
    """Records of attached databases that come, or are taken back, within a transaction."""

    RECORD = "CREATE TABLE other.npss_record (one INTEGER, assigned INTEGER, data BLOB, exclusions BLOB)"
    WRITE = "INSERT INTO other.account VALUES ('\u00eb')"

    def files(self, version):
        return [Path(version, name).read_bytes() for name in FILES]

    def attached(self, path=None):
        base = self.with_names(NEW)
        base.execute("ATTACH ? AS other", (path or f"{self.path}.beside",))
        base.execute("CREATE TABLE IF NOT EXISTS other.account (name TEXT NOT NULL)")
        base.execute("CREATE INDEX IF NOT EXISTS other.account_key ON account (npss_nfc(name))")
        return base

    def test_that_come_amid_a_transaction(self):
        for main_too, before in itertools.product((False, True), (False, True)):
            base = self.attached(f"{self.path}.{main_too}.{before}")
            if before:
                base.execute(self.RECORD)
            base.execute("BEGIN")
            if main_too:
                base.execute("INSERT INTO main.account VALUES (?)", (f"{before}",))
            base.execute(self.WRITE)
            if not before:
                base.execute(self.RECORD)
            base.execute("INSERT INTO other.npss_record VALUES (1, 0, ?, ?)", self.files(OLD))
            self.refused("attached database 'other' records another version", base, self.WRITE)
            base.execute("ROLLBACK")
            base.execute(self.WRITE)
            base.close()
            Path(self.path).unlink()

    def test_that_come_in_place_of_another_one(self):
        for writes_main in ("never", "before", "behind"):
            base = self.attached(f"{self.path}.{writes_main}")
            self.put(base, NEW)
            base.execute(self.WRITE)
            base.execute("BEGIN")
            if writes_main == "before":
                base.execute("INSERT INTO main.account VALUES ('a')")
            base.execute(self.WRITE)
            base.execute("DROP TABLE other.npss_record")
            self.put(base, OLD)
            if writes_main == "behind":
                base.execute("UPDATE main.account SET name = 'a'")
                base.execute("DROP TABLE IF EXISTS main.none")
            self.refused("records another version", base, self.WRITE)
            base.execute("ROLLBACK")
            base.execute(self.WRITE)
            base.close()
            Path(self.path).unlink()

    def put(self, base, version):
        base.execute(self.RECORD)
        base.execute("INSERT INTO other.npss_record VALUES (1, 0, ?, ?)", self.files(version))

    def test_that_are_taken_back(self):
        base = self.attached()
        for ends in ("ROLLBACK TO here", "ROLLBACK"):
            base.execute("BEGIN")
            base.execute("INSERT INTO main.account VALUES ('a')")
            base.execute("SAVEPOINT here")
            self.put(base, NEW)
            base.execute(self.WRITE)
            base.execute(ends)
            if not base.in_transaction:
                base.execute("BEGIN")
                base.execute("INSERT INTO main.account VALUES ('a')")
            self.put(base, OLD)
            self.refused("records another version", base, self.WRITE)
            base.execute("ROLLBACK")

    def test_whose_rows_alone_are_taken_back(self):
        base = self.attached()
        base.execute(self.RECORD)
        for ends in ("ROLLBACK TO here", "ROLLBACK"):
            for version in (NEW, OLD):
                if not base.in_transaction:
                    base.execute("BEGIN")
                base.execute("INSERT INTO main.account VALUES (?)", (version,))
                base.execute("SAVEPOINT here")
                base.execute("INSERT INTO other.npss_record VALUES (1, 0, ?, ?)", self.files(version))
                if version == NEW:
                    base.execute(self.WRITE)
                    base.execute(ends)
                else:
                    self.refused("records another version", base, self.WRITE)
            base.execute("ROLLBACK")

    def test_that_are_of_another_file(self):
        # The second is attached under the first one's name and path, with all its numbers.
        for begins, beside in itertools.product(("SELECT 1", "BEGIN"), ("raises", "moves")):
            base, path = self.with_names(NEW), f"{self.path}.beside"
            for version in (NEW, OLD):
                if version == NEW or beside == "moves":
                    other = self.connect(path)
                    other.execute("SELECT npss_raise(?)", (version,))
                    other.execute("CREATE TABLE account (name TEXT)")
                    other.execute("CREATE INDEX account_key ON account (npss_nfc(name))")
                    other.close()
                else:
                    self.change(path, OLD)
                base.execute("ATTACH ? AS other", (path,))
                base.execute(begins)
                if version == NEW:
                    base.execute(self.WRITE)
                else:
                    self.refused("records another version", base, self.WRITE)
                if base.in_transaction:
                    base.execute("COMMIT")
                base.execute("DETACH other")
                if beside == "moves":
                    Path(path).unlink()
            base.close()
            Path(self.path).unlink()
            Path(path).unlink(missing_ok=True)

    def change(self, path, version):
        """Puts another version into a record, past its triggers, and leaves the number of the schema."""
        other = self.connect(path)
        number = self.asked(other, "schema_version FROM pragma_schema_version")
        for name in ("insert", "update", "delete"):
            other.execute(f"DROP TRIGGER npss_record_{name}")
        other.execute("UPDATE npss_record SET data = ?, exclusions = ?", self.files(version))
        other.execute(f"PRAGMA schema_version = {number}")
        other.close()

    def test_that_are_of_another_database_in_memory(self):
        # The second has the first one's name, and all its numbers.
        base = self.with_names(NEW)
        for main_too, version in itertools.product((False, True), (NEW, OLD)):
            base.execute("ATTACH ':memory:' AS other")
            self.put(base, version)
            base.execute("CREATE TABLE other.account (name TEXT)")
            base.execute("CREATE INDEX other.account_key ON account (npss_nfc(name))")
            base.execute("BEGIN")
            if main_too:
                base.execute("INSERT INTO main.account VALUES ('a')")
                base.execute("DELETE FROM main.account")
            if version == NEW:
                base.execute(self.WRITE)
                base.execute(self.WRITE)
            else:
                self.refused("records another version", base, self.WRITE)
            base.execute("COMMIT")
            base.execute("DETACH other")
