"""Caseless keys, and records with CaseFolding.txt."""

import itertools
import os
import shutil
import sqlite3
import tempfile
import unicodedata
from pathlib import Path

from cases import CASED_MIDDLE, CASED_NEW, CASED_OLD, FILES, FOLDING, MARKED, MIDDLE, NEW, NEW_COUNT, OLD, Case, fixture_rows

# How the extension made the record before it knew foldings.
OLDER_RECORD = """CREATE TABLE npss_record (one INTEGER PRIMARY KEY CHECK (one = 1), assigned INTEGER NOT NULL, data BLOB NOT NULL, exclusions BLOB NOT NULL)"""
# A capital that is new in 14.0, and its small letter.
CAPITAL, SMALL = "\u2c2f", "\u2c5f"
CALLS = ("npss_caseless_key(?)", "npss_caseless_key(?, 'nfkd')", "npss_try_caseless_key(?)", "npss_caseless_match(?, 'a')",
         *(f"npss_caseless_{form}(?)" for form in fixture_rows.FORMS))
LACKS = "this database's version has no CaseFolding.txt: npss_raise\\(FOLDER\\) takes one"


class Folded(Case):
    """What the tests of caseless keys share."""

    def folder(self, *files):
        """A folder with copies of files."""
        room = tempfile.TemporaryDirectory()
        self.addCleanup(room.cleanup)
        for file in files:
            shutil.copy(file, room.name)
        return Path(room.name)

    def raised(self, folder, path=None):
        base = self.connect(path)
        base.execute("SELECT npss_raise(?)", (str(folder),))
        return base

    def with_accounts(self, folder, path=None):
        base = self.raised(folder, path)
        base.execute("CREATE TABLE account (name TEXT NOT NULL)")
        base.execute("CREATE UNIQUE INDEX account_name ON account (npss_caseless_nfkc(name))")
        return base

    def older(self, files=OLD, path=None):
        """A database as the extension left it before it knew foldings."""
        base = self.connect(path, loads=False)
        base.execute(OLDER_RECORD)
        base.execute("INSERT INTO npss_record VALUES (1, ?, ?, ?)", (283_440, *(Path(files, name).read_bytes() for name in FILES)))
        for event in ("INSERT", "UPDATE", "DELETE"):
            base.execute(f"CREATE TRIGGER npss_record_{event.lower()} BEFORE {event} ON npss_record WHEN NOT npss_is_raising() "
                         "BEGIN SELECT RAISE(ABORT, 'npss: npss_record is written by npss_raise alone'); END")
        base.close()
        return self.connect(path)

    def columns(self, base):
        return [name for name, in base.execute("SELECT name FROM pragma_table_info('npss_record')")]


class Caseless(Folded):
    def test_keys_of_the_fixtures(self):
        bases, room = {}, self.folder()
        for name in ("v1", "v2"):
            bases[name] = self.raised(fixture_rows.put_toy(room / name, name), f"{self.path}.{name}")
        rows = list(fixture_rows.keys())
        self.assertGreater(len(rows), 300)
        for row in rows:
            base = bases[row.version]
            tried = self.asked(base, "npss_try_caseless_key(?, ?)", row.string, row.form)
            if row.refused:
                for call in (f"npss_caseless_{row.form}(?)", f"npss_caseless_key(?, '{row.form}')"):
                    self.refused(f"U\\+{row.refused[0]} at byte {row.refused[1]} is not assigned", base, f"SELECT {call}", row.string)
                self.assertIsNone(tried)
            else:
                answers = [self.asked(base, f"npss_caseless_{row.form}(?)", row.string), self.asked(base, "npss_caseless_key(?, upper(?))", row.string, row.form), tried]
                self.assertEqual(answers, [row.key] * 3, row)
                self.assertEqual(row.form != "nfc" or self.asked(base, "npss_caseless_key(?)", row.string), row.form != "nfc" or row.key)

    def test_matches_of_the_fixtures(self):
        bases, room = {}, self.folder()
        for name in ("v1", "v2"):
            bases[name] = self.raised(fixture_rows.put_toy(room / name, name), f"{self.path}.{name}")
        rows = list(fixture_rows.matches())
        self.assertGreater(len(rows), 40)
        for row in rows:
            self.assertEqual(self.asked(bases[row.version], "npss_caseless_match(?, ?, ?)", row.left, row.right, row.form), int(row.same), row)

    def test_matches_take_what_is_unassigned(self):
        base = self.raised(CASED_OLD)
        for left, right, wanted in ((CAPITAL, CAPITAL, (1, 1)), (CAPITAL, SMALL, (0, 0)), ("\u2121\ufdd0", "TEL\ufdd0", (0, 1)), ("Zo\u00cb", "zoe\u0308", (1, 1))):
            self.assertEqual((self.asked(base, "npss_caseless_match(?, ?)", left, right), self.asked(base, "npss_caseless_match(?, ?, 'nfkc')", left, right)), wanted)
        for call in ("npss_caseless_match(NULL, 'a')", "npss_caseless_match('a', NULL, 'nfd')", "npss_caseless_nfc(NULL)", "npss_try_caseless_key(NULL)"):
            self.assertIsNone(self.asked(base, call))
        self.refused("nfc, nfd, nfkc or nfkd, not 'nfx'", base, "SELECT npss_caseless_match('a', 'b', 'nfx')")

    def test_each_name_is_that_of_python(self):
        base = self.raised(CASED_NEW)
        known = [chr(code) for code in range(0x110000) if unicodedata.category(chr(code)) not in ("Cn", "Cs")]
        texts = [*("".join(known[at:at + 50]) for at in range(0, len(known), 50)), "\u1fb3\u0301", "\u1e9e" * 9_000, "\u212b\u0345" * 9_000]
        for form in fixture_rows.FORMS:
            for text in texts:
                self.assertEqual(self.asked(base, f"npss_caseless_{form}(?)", text), fixture_rows.caseless(form, text))

    def test_names_that_fold_alike_are_one_account(self):
        base = self.with_accounts(CASED_NEW)
        base.execute("INSERT INTO account VALUES ('Zo\u00eb'), ('STRASSE'), ('\u2121')")
        for name in ("ZOE\u0308", "zo\u00eb", "stra\u00dfe", "Stra\u1e9ee", "tel", "\U0001d413EL"):
            self.refused("UNIQUE constraint", base, "INSERT INTO account VALUES (?)", name)
        plan = base.execute("EXPLAIN QUERY PLAN SELECT name FROM account WHERE npss_caseless_nfkc(name) = npss_caseless_nfkc('ZO\u00cb')").fetchone()[3]
        self.assertIn("account_name", plan)
        self.whole(base)

    def test_without_foldings_there_are_no_caseless_keys(self):
        base = self.raised(NEW)
        for call in CALLS:
            self.refused(LACKS, base, f"SELECT {call}", "a")
        self.assertEqual(self.asked(base, "npss_nfc(?)", MARKED), "\u1ead")
        self.assertIsNone(base.execute("SELECT folding FROM npss_record").fetchone()[0])
        self.refused("records no version", self.connect(self.path + "2"), "SELECT npss_caseless_key('a')")


class Foldings(Folded):
    """From record to record."""

    def test_from_version_to_version(self):
        base, beside = self.with_accounts(CASED_OLD), self.connect()
        base.execute("INSERT INTO account VALUES (?), ('\u00c5\u0323'), ('\u13a0'), ('\u1fb3\u0301')", (MARKED,))
        keys = base.execute("SELECT npss_caseless_nfkc(name) FROM account").fetchall()
        self.refused("not assigned", beside, "INSERT INTO account VALUES (?)", CAPITAL)
        for version, young in ((CASED_MIDDLE, CAPITAL), (CASED_NEW, "\U0001e08f")):
            self.assertEqual(self.asked(base, "npss_audit(?)", version), "extends")
            base.execute("SELECT npss_raise(?)", (version,))
            beside.execute("INSERT INTO account VALUES (?)", (young,))
            self.assertEqual(base.execute("SELECT npss_caseless_nfkc(name) FROM account").fetchall()[:len(keys)], keys)
            self.whole(base)
        self.refused("UNIQUE constraint", base, "INSERT INTO account VALUES (?)", SMALL)
        self.refused("do not extend", base, "SELECT npss_raise(?)", CASED_OLD)
        self.assertEqual(base.execute("SELECT folding FROM npss_record").fetchone()[0], Path(CASED_NEW, FOLDING).read_bytes())

    def test_a_version_behind_one_with_foldings_has_some(self):
        base = self.with_accounts(CASED_OLD)
        for version in (OLD, MIDDLE, NEW):
            self.refused("the files have no CaseFolding.txt, which this database's version has", base, "SELECT npss_raise(?)", version)
            self.assertEqual(self.asked(base, "npss_audit(?)", version), "no CaseFolding.txt")
        self.assertEqual(self.asked(base, "npss_caseless_key('A')"), "a")
        self.assertEqual(self.asked(base, "npss_raise(?)", CASED_NEW), NEW_COUNT)

    def test_foldings_that_are_changed(self):
        room = self.folder()
        for name in fixture_rows.TOYS:
            fixture_rows.put_toy(room / name, name)
        for old, new, first in fixture_rows.audits():
            base = self.raised(room / old, f"{self.path}.{old}.{new}")
            self.assertEqual(self.asked(base, "npss_audit(?)", str(room / new)), first, (old, new))
            if first != "extends":
                self.refused(f"do not extend this database's version: {first}", base, "SELECT npss_raise(?)", str(room / new))
        # Comments and lines that aren't used are no change.
        changed = room / "v2" / FOLDING
        changed.write_bytes(b"# more\n" + changed.read_bytes())
        base = self.raised(room / "v1")
        base.execute("SELECT npss_raise(?)", (str(room / "v2"),))

    def test_foldings_that_come_later(self):
        base, beside = self.raised(NEW), self.connect()
        self.refused(LACKS, beside, "SELECT npss_caseless_key('A')")
        self.assertEqual(self.asked(base, "npss_audit(?)", CASED_NEW), "extends")
        base.execute("BEGIN")
        base.execute("SELECT npss_raise(?)", (CASED_NEW,))
        self.assertEqual(self.asked(base, "npss_caseless_key('A')"), "a")
        base.execute("ROLLBACK")
        for one in (base, beside):
            self.refused(LACKS, one, "SELECT npss_caseless_key('A')")
        self.assertEqual(self.asked(base, "npss_raise(?)", CASED_NEW), NEW_COUNT)
        # The other connection finds as many code points, and foldings.
        self.assertEqual((self.asked(beside, "npss_caseless_key('A')"), self.asked(base, "npss_caseless_key('A')")), ("a", "a"))
        self.refused("have no CaseFolding.txt", beside, "SELECT npss_raise(?)", NEW)
        base.execute("BEGIN")
        self.assertEqual(self.asked(base, "npss_raise(?)", CASED_NEW), NEW_COUNT)
        base.execute("ROLLBACK")
        self.assertEqual(self.asked(base, "npss_caseless_key('A')"), "a")

    def test_another_folding_behind_one_that_was_rolled_back(self):
        room = self.folder()
        for name, caseless in (("v2", False), ("changed", True)):
            fixture_rows.put_toy(room / name, name, caseless)
        for mode, begins, is_told in itertools.product(("DELETE", "WAL"), ("SELECT 1", "BEGIN"), (True, False)):
            path = f"{self.path}.{mode}.{begins}.{is_told}"
            base, beside = self.with_accounts(room / "v2", path), self.connect(path)
            base.execute(f"PRAGMA journal_mode = {mode}")
            if not is_told:
                base.execute("CREATE TABLE npss_watch (name TEXT)")
            base.execute("BEGIN")
            base.execute("SELECT npss_raise(?)", (str(room / "changed"),))
            self.assertEqual(self.asked(base, "npss_caseless_key('A')"), "\u00e2")
            base.execute("ROLLBACK")
            beside.execute("SELECT npss_raise(?)", (str(fixture_rows.put_toy(room / f"{mode}.{begins}.{is_told}", "v2")),))
            base.execute(begins)
            self.assertEqual(self.asked(base, "npss_caseless_key('A')"), "a")
            base.execute("INSERT INTO account VALUES ('A')")
            base.commit()
            self.refused("UNIQUE constraint", beside, "INSERT INTO account VALUES ('a')")
            self.whole(beside)

    def test_an_older_database_gains_the_column_at_its_first_raise(self):
        for folder, key in ((MIDDLE, None), (CASED_MIDDLE, "a")):
            path = f"{self.path}.{key}"
            base = self.older(path=path)
            beside = self.connect(path)
            self.assertEqual((self.asked(base, "npss_nfc(?)", MARKED), self.columns(base)), ("\u1ead", ["one", "assigned", "data", "exclusions"]))
            self.refused(LACKS, beside, "SELECT npss_caseless_key('A')")
            base.execute("BEGIN")
            base.execute("SELECT npss_raise(?)", (folder,))
            base.execute("ROLLBACK")
            self.assertEqual(len(self.columns(base)), 4)
            self.refused("not assigned", base, "SELECT npss_nfc(?)", CAPITAL)
            base.execute("SELECT npss_raise(?)", (folder,))
            self.assertEqual(self.columns(base), ["one", "assigned", "data", "exclusions", "folding"])
            for one in (base, beside):
                self.assertEqual(self.asked(one, "npss_nfc(?)", CAPITAL), CAPITAL)
                if key:
                    self.assertEqual(self.asked(one, "npss_caseless_key('A')"), key)
                else:
                    self.refused(LACKS, one, "SELECT npss_caseless_key('A')")
            self.refused("npss_raise alone", base, "UPDATE npss_record SET folding = NULL")
            self.whole(base)

    def test_an_extension_without_foldings_raises_no_more(self):
        # It would leave the folding that there is beside the two files of another version.
        files = [Path(NEW, name).read_bytes() for name in FILES]
        for path in (self.path, self.path + ".older"):
            base = self.connect(path) if path == self.path else self.older(path=path)
            base.execute("SELECT npss_raise(?)", (CASED_OLD,))
            before = self.connect(path, loads=False)
            before.create_function("npss_is_raising", 0, lambda: 1)
            self.refused("no such function: npss_is_raising_folding", before, "UPDATE npss_record SET assigned = ?, data = ?, exclusions = ?", NEW_COUNT, *files)
            self.refused("npss_raise alone", base, "UPDATE npss_record SET assigned = 1")
            self.assertEqual(self.asked(base, "npss_raise(?)", CASED_NEW), NEW_COUNT)
            self.assertEqual(self.asked(base, "npss_caseless_key(?)", CAPITAL), SMALL)

    def test_blobs(self):
        base = self.connect()
        blobs = [Path(CASED_NEW, name).read_bytes() for name in (*FILES, FOLDING)]
        self.assertEqual(self.asked(base, "npss_raise(?, ?, ?)", *blobs), NEW_COUNT)
        self.assertEqual((self.asked(base, "npss_audit(?, ?, ?)", *blobs), self.asked(base, "npss_audit(?, ?)", *blobs[:2])), ("extends", "no CaseFolding.txt"))
        for third in (None, "x"):
            self.refused("two blobs or three", base, "SELECT npss_raise(?, ?, ?)", *blobs[:2], third)
        self.refused("CaseFolding.txt has more than 16777216 bytes", base, "SELECT npss_raise(?, ?, ?)", *blobs[:2], b"\n" * 16_777_217)
        self.assertEqual(self.asked(self.connect(self.path + "2"), "npss_open(?, ?, ?)", *blobs), NEW_COUNT)

    def test_files_that_are_faulty(self):
        folder = self.folder(*(Path(NEW, name) for name in FILES))
        base = self.raised(OLD)
        for content, words in ((b"0041; X; 0061;\n", "CaseFolding.txt, line 1: BadStatus"), (b"", "The three files together: NotFolded at code point U\\+0041"),
                               (b"0378; C; 0061;\n", "The three files together: NotFolded at code point U\\+0041"),
                               (b"\n" * 16_777_217, f"{folder}/CaseFolding.txt is not a file of at most 16777216 bytes")):
            (folder / FOLDING).write_bytes(content)
            for call in ("npss_raise", "npss_audit"):
                self.refused(words, base, f"SELECT {call}(?)", str(folder))
        (folder / FOLDING).unlink()
        (folder / FOLDING).symlink_to(folder / FOLDING)
        self.refused("CaseFolding.txt can't be opened", base, "SELECT npss_raise(?)", str(folder))
        # A folding file of another version.
        (folder / FOLDING).unlink()
        shutil.copy(Path(CASED_OLD, FOLDING), folder)
        self.refused("The three files together: NotFolded at code point U\\+2C2F", base, "SELECT npss_raise(?)", str(folder))
        self.assertEqual(self.asked(base, "npss_nfc(?)", MARKED), "\u1ead")


class Beside(Folded):
    """Dumps, tables of npss_open, and attached databases."""

    def attached(self, main, other):
        """A database of one version with another one attached, which has an index of caseless keys where both have foldings."""
        path = f"{self.path}.{len(str(main))}.{other[-12:].replace('/', '')}"
        self.raised(other, path).execute("CREATE TABLE account (key TEXT)")
        base = self.raised(main, f"{path}.main")
        base.execute("ATTACH ? AS other", (path,))
        return base

    def test_attached_databases_record_the_same_foldings(self):
        for main, other, fits in ((CASED_NEW, CASED_NEW, True), (NEW, NEW, True), (CASED_NEW, NEW, False), (NEW, CASED_NEW, False)):
            base = self.attached(main, other)
            self.assertEqual(self.asked(base, "count(*) FROM other.account"), 0)
            write = "INSERT INTO other.account VALUES (npss_nfc('a'))"
            if fits:
                base.execute(write)
            else:
                self.refused("attached database .other. records another folding than the main one", base, write)

    def test_an_attached_database_of_another_version_and_folding(self):
        for main, other in ((CASED_NEW, CASED_OLD), (CASED_NEW, OLD), (NEW, CASED_OLD)):
            self.refused("records another version of Unicode than the main one", self.attached(main, other), "INSERT INTO other.account VALUES (npss_nfc('a'))")

    def test_attached_databases_of_before(self):
        self.older(NEW, self.path + "2").close()
        for main, fits in ((NEW, True), (CASED_NEW, False)):
            base = self.raised(main, f"{self.path}.{fits}")
            base.execute("ATTACH ? AS other", (self.path + "2",))
            base.execute("CREATE TABLE IF NOT EXISTS other.account (key TEXT)")
            if fits:
                base.execute("INSERT INTO other.account VALUES (npss_nfc('a'))")
            else:
                self.refused("records another folding", base, "INSERT INTO other.account VALUES (npss_nfc('a'))")
            base.close()

    def restored(self, base, opened=None):
        """A dump of a database, come back; behind npss_open, where a folder is named."""
        again = self.connect(self.path + ".again")
        if opened:
            again.execute("SELECT npss_open(?)", (opened,))
        again.executescript("\n".join(base.iterdump()))
        return again

    def test_dumps_carry_the_foldings(self):
        again = self.restored(self.with_accounts(CASED_OLD))
        again.execute("INSERT INTO account VALUES ('A')")
        self.refused("UNIQUE", again, "INSERT INTO account VALUES ('a')")
        self.refused("have no CaseFolding.txt", again, "SELECT npss_raise(?)", NEW)
        self.whole(again)

    def test_a_dump_of_other_foldings_than_opened_tables(self):
        # Keys are made while the rows come back, and an index behind the record.
        room = self.folder()
        for name in fixture_rows.TOYS:
            fixture_rows.put_toy(room / name, name)
        base = self.connect()
        base.execute("CREATE TABLE account (name TEXT, CHECK (npss_caseless_nfc(name) <> ''))")
        base.execute("SELECT npss_raise(?)", (str(room / "v2"),))
        base.execute("CREATE UNIQUE INDEX account_name ON account (npss_caseless_nfkc(name))")
        base.execute("INSERT INTO account VALUES ('A')")
        fits_not = "neither this database's record nor the files of npss_open extend the other"
        with self.assertRaisesRegex(sqlite3.Error, fits_not):
            self.restored(base, str(room / "changed"))
        # Each statement by itself, and a key is asked for between.
        again = self.connect(self.path + ".single")
        again.execute("SELECT npss_open(?)", (str(room / "changed"),))
        _, *texts, index, _ = [text for text in base.iterdump() if "TRIGGER" not in text]
        for text in texts:
            self.assertEqual(self.asked(again, "npss_caseless_key('A')"), "\u00e2")
            again.execute(text)
        self.refused(fits_not, again, index)
        os.unlink(self.path + ".again")
        again = self.restored(base, str(room / "v1"))
        self.assertEqual(self.asked(again, "name FROM account WHERE npss_caseless_nfkc(name) = 'a'"), "A")
        self.whole(self.connect(self.path + ".again"))

    def test_a_dump_without_foldings_behind_tables_that_have_some(self):
        again = self.restored(self.raised(OLD), CASED_OLD)
        self.assertEqual(self.asked(again, "npss_nfc(?)", MARKED), "\u1ead")
        self.refused(LACKS, again, "SELECT npss_caseless_key('A')")

    def test_caseless_keys_of_opened_tables_want_a_record_with_foldings(self):
        base = self.connect()
        base.execute("SELECT npss_open(?)", (CASED_OLD,))
        base.execute("CREATE TABLE account (name TEXT NOT NULL)")
        base.execute("CREATE INDEX account_name ON account (npss_caseless_nfkc(name))")
        base.execute("INSERT INTO account VALUES ('A')")
        self.refused("have no CaseFolding.txt", base, "SELECT npss_open(?)", NEW)
        self.refused("have no CaseFolding.txt", base, "SELECT npss_raise(?)", NEW)
        beside = self.connect()
        beside.execute("BEGIN")
        beside.execute("SELECT npss_raise(?)", (OLD,))
        beside.execute("COMMIT")
        self.refused("neither this database's record nor the files of npss_open extend the other", base, "SELECT npss_nfc('a')")
        beside.execute("SELECT npss_raise(?)", (CASED_OLD,))
        self.assertEqual(self.asked(base, "count(*) FROM account WHERE npss_caseless_nfkc(name) = npss_caseless_nfkc('a')"), 1)
        self.whole(base)

    def test_a_record_with_other_foldings_than_opened_tables(self):
        room = self.folder()
        for name in fixture_rows.TOYS:
            fixture_rows.put_toy(room / name, name)
        for opened, recorded, fits in (("v2", "changed", False), ("changed", "v1", False), ("v1", "v2", True), ("v2", "v1", True)):
            path = f"{self.path}.{opened}.{recorded}"
            base = self.connect(path)
            base.execute("SELECT npss_open(?)", (str(room / opened),))
            self.connect(path).execute("SELECT npss_raise(?)", (str(room / recorded),))
            if fits:
                self.assertEqual(self.asked(base, "npss_caseless_key('A')"), "a")
            else:
                self.refused("neither this database's record", base, "SELECT npss_caseless_key('A')")

    def test_what_is_raised_to_in_a_shared_cache_is_followed(self):
        base, beside = self.with_accounts(CASED_OLD), self.connect()
        beside.execute("BEGIN")
        self.assertEqual(self.asked(beside, "npss_caseless_key(name) FROM (SELECT 'A' AS name, count(*) FROM account)"), "a")
        with self.assertRaises(sqlite3.OperationalError):
            base.execute("PRAGMA busy_timeout = 0")
            base.execute("SELECT npss_raise(?)", (CASED_NEW,))
        beside.execute("COMMIT")
        base.execute("SELECT npss_raise(?)", (CASED_NEW,))
        self.assertEqual(self.asked(beside, "npss_caseless_key(?)", CAPITAL), SMALL)
