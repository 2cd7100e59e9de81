"""From version to version: audits and raises, alone and at once."""

import contextlib
import os
import shutil
import sqlite3
import subprocess
import sys
import tempfile
import threading
import time
from pathlib import Path

from cases import EXTENSION, FILES, MARKED, MIDDLE, NEW, NEW_COUNT, OLD, OLD_COUNT, YOUNG, YOUNGEST, Case


class Raises(Case):
    def test_from_version_to_version(self):
        base, beside = self.with_names(), self.connect()
        names = [name for name in (MARKED, "\u212b", "\u0958", "a\u0327\u0302") for name in (name, name + "x")]
        base.executemany("INSERT INTO account VALUES (?)", [(name,) for name in names])
        keys = base.execute("SELECT npss_nfc(name) FROM account").fetchall()
        for version, young in ((MIDDLE, YOUNG[1] + "a"), (NEW, YOUNGEST)):
            self.refused("not assigned", beside, "INSERT INTO account VALUES (?)", young)
            self.assertEqual(self.asked(base, "npss_audit(?)", version), "extends")
            base.execute("SELECT npss_raise(?)", (version,))
            # The other connection follows before it refuses.
            beside.execute("INSERT INTO account VALUES (?)", (young,))
            self.assertEqual(base.execute("SELECT npss_nfc(name) FROM account").fetchall()[:len(keys)], keys)
            self.whole(base)
        self.assertEqual(self.asked(base, "npss_audit(?)", OLD), "Lost 061D")
        self.refused("do not extend", base, "SELECT npss_raise(?)", OLD)
        self.assertFalse(base.in_transaction)
        self.assertEqual(self.asked(base, "npss_version()"), 288767)

    def test_each_question_follows_another_connection(self):
        base = self.with_names()
        # U+1E030 is new in 15.0, and has a mapping there.
        for ask, wanted in (("npss_normalize(?, 'nfkc')", "\u0430"), ("npss_try_key(?, 'nfkc')", "\u0430"), ("npss_is_normalized(?, 'nfkc')", 0),
                          ("npss_equivalent(?, '\u0430', 'nfkc')", 1), ("npss_equivalent('\u0430', ?, 'nfkc')", 1)):
            path = self.path + str(abs(hash(ask)))
            base, beside = self.connect(path), self.connect(path)
            base.execute("SELECT npss_raise(?)", (OLD,))
            before = self.asked(beside, ask, "\U0001e030")
            base.execute("SELECT npss_raise(?)", (NEW,))
            self.assertEqual((before == wanted, self.asked(beside, ask, "\U0001e030")), (False, wanted), ask)

    def test_audits_and_versions_are_of_the_record(self):
        base, beside = self.with_names(), self.connect()
        self.assertEqual(self.asked(beside, "npss_audit(?)", MIDDLE), "extends")
        base.execute("SELECT npss_raise(?)", (NEW,))
        self.assertEqual(self.asked(beside, "npss_audit(?)", MIDDLE), "Lost 0CF3")
        base, beside = self.connect(self.path + "2"), self.connect(self.path + "2")
        base.execute("SELECT npss_raise(?)", (OLD,))
        before = self.asked(beside, "npss_version()")
        base.execute("SELECT npss_raise(?)", (NEW,))
        self.assertLess(before, self.asked(beside, "npss_version()"))

    def test_a_record_that_another_changed_past_its_triggers(self):
        base, beside = self.with_names(), self.connect(loads=False)
        self.assertEqual(self.asked(base, "npss_key('a')"), "a")
        for name in ("insert", "update", "delete"):
            beside.execute(f"DROP TRIGGER npss_record_{name}")
        beside.execute("UPDATE npss_record SET assigned = 1, data = CAST('x' AS BLOB)")
        for call in ("npss_key(?)", "npss_try_key(?)", "npss_normalize(?)", "npss_is_normalized(?)", "npss_equivalent(?, 'a')", "npss_equivalent('a', ?)"):
            self.refused("UnicodeData.txt, line 1: FieldCount", base, f"SELECT {call}", YOUNG)
        self.refused("UnicodeData.txt, line 1: FieldCount", self.connect(), "SELECT npss_key('a')")
        beside.execute("DELETE FROM npss_record")
        self.refused("records no version", self.connect(), "SELECT npss_key('a')")

    def test_a_first_raise_that_fails_leaves_nothing_behind(self):
        base = self.connect()
        base.setlimit(sqlite3.SQLITE_LIMIT_LENGTH, 1_000_000)
        self.refused("too big", base, "SELECT npss_raise(?)", NEW)
        self.assertEqual(base.execute("SELECT name FROM sqlite_master").fetchall(), [])
        # Within somebody's transaction it takes back what it did itself, and tables of npss_open stay.
        base.execute("SELECT npss_open(?)", (NEW,))
        base.execute("BEGIN")
        base.execute("CREATE TABLE kept (name TEXT)")
        self.refused("too big", base, "SELECT npss_raise(?)", NEW)
        self.assertEqual(self.asked(base, "npss_key(?)", MARKED), "\u1ead")
        base.execute("COMMIT")
        self.assertEqual(base.execute("SELECT name FROM sqlite_master").fetchall(), [("kept",)])
        self.whole(base)

    def test_a_raise_that_fails_leaves_the_record(self):
        base = self.with_names()
        version, record = self.asked(base, "npss_version()"), base.execute("SELECT * FROM npss_record").fetchall()
        base.execute("DROP TRIGGER npss_record_delete")
        base.execute("BEGIN")
        base.setlimit(sqlite3.SQLITE_LIMIT_LENGTH, len(record[0][2]) + 1000)
        self.refused("too big", base, "SELECT npss_raise(?)", NEW)
        # The trigger that the raise would have made anew is gone again.
        self.assertEqual(self.asked(base, "count(*) FROM sqlite_master WHERE type = 'trigger'"), 2)
        base.execute("COMMIT")
        self.assertEqual(base.execute("SELECT * FROM npss_record").fetchall(), record)
        self.assertEqual(self.asked(base, "npss_version()"), version)
        self.whole(base)

    def test_a_raise_that_has_no_room(self):
        base = self.with_names()
        record = base.execute("SELECT * FROM npss_record").fetchall()
        base.execute(f"PRAGMA max_page_count = {self.asked(base, 'page_count FROM pragma_page_count')}")
        self.refused("full", base, "SELECT npss_raise(?)", NEW)
        self.assertEqual(base.execute("SELECT * FROM npss_record").fetchall(), record)
        self.refused("not assigned", base, "SELECT npss_key(?)", YOUNGEST)
        self.whole(base)

    def test_a_database_that_is_locked(self):
        base, beside = self.with_names(), self.connect()
        beside.execute("PRAGMA busy_timeout = 50")
        base.execute("BEGIN EXCLUSIVE")
        self.refused("locked", beside, "SELECT npss_key('a')")
        self.refused("locked", beside, "SELECT npss_raise(?)", NEW)
        base.execute("COMMIT")
        self.assertEqual(self.asked(beside, "npss_key('a')"), "a")
        # A reader is in the way where the raise is committed.
        base.execute("BEGIN")
        version = self.asked(base, "assigned FROM npss_record")
        self.refused("locked", beside, "SELECT npss_raise(?)", NEW)
        self.assertFalse(beside.in_transaction)
        self.assertEqual((self.asked(base, "assigned FROM npss_record"), self.asked(beside, "npss_version()")), (version, version))
        base.execute("COMMIT")
        self.assertEqual(self.asked(beside, "npss_raise(?)", NEW), 288767)
        self.whole(base)

    def test_a_raise_that_was_rolled_back(self):
        base = self.with_names()
        base.execute("BEGIN")
        base.execute("SELECT npss_raise(?)", (NEW,))
        base.execute("INSERT INTO account VALUES (?)", (YOUNGEST,))
        base.execute("ROLLBACK")
        self.refused("not assigned", base, "INSERT INTO account VALUES (?)", YOUNGEST)
        self.whole(base)

    def test_a_first_raise_that_was_rolled_back(self):
        base = self.connect()
        base.execute("BEGIN")
        base.execute("SELECT npss_raise(?)", (NEW,))
        base.execute("ROLLBACK")
        self.refused("records no version", base, "SELECT npss_key('a')")

    def test_the_record_is_written_by_raises_alone(self):
        base = self.with_names()
        for text in ("UPDATE npss_record SET data = x''", "DELETE FROM npss_record", "REPLACE INTO npss_record VALUES (1, 2, x'', x'', x'')"):
            self.refused("npss_raise alone", base, text)

    def test_no_trigger_writes_beside_a_raise(self):
        base = self.with_names()
        record = base.execute("SELECT * FROM npss_record").fetchall()
        for event in ("AFTER UPDATE OF data", "BEFORE UPDATE OF assigned", "AFTER UPDATE"):
            base.execute(f"CREATE TRIGGER zz {event} ON npss_record BEGIN UPDATE npss_record SET data = x'00', assigned = 7; END")
            self.refused("npss_raise alone", base, "SELECT npss_raise(?)", NEW)
            self.assertEqual(base.execute("SELECT * FROM npss_record").fetchall(), record)
            base.execute("DROP TRIGGER zz")
        # One that writes elsewhere may stand beside it.
        base.execute("CREATE TABLE raised (assigned INTEGER)")
        base.execute("CREATE TRIGGER zz AFTER UPDATE OF data ON npss_record BEGIN INSERT INTO raised VALUES (new.assigned); END")
        base.execute("SELECT npss_raise(?)", (NEW,))
        self.assertEqual(base.execute("SELECT assigned FROM raised").fetchall(), [(NEW_COUNT,)])
        self.refused("npss_raise alone", base, "UPDATE npss_record SET assigned = 7")

    def test_the_record_is_that_of_the_main_database(self):
        base, beside = self.with_names(), self.connect()
        temporary = "CREATE TEMP TABLE npss_record (one INTEGER PRIMARY KEY, assigned INTEGER, data BLOB, exclusions BLOB, folding BLOB)"
        base.execute(temporary)
        base.execute("INSERT INTO temp.npss_record VALUES (1, ?, x'', x'', NULL)", (OLD_COUNT,))
        self.assertEqual(self.asked(base, "npss_nfc(?)", MARKED), "\u1ead")
        beside.execute("SELECT npss_raise(?)", (NEW,))
        base.execute("INSERT INTO account VALUES (?)", (YOUNGEST,))
        fresh = self.connect()
        fresh.execute(temporary)
        fresh.execute("INSERT INTO temp.npss_record SELECT 1, ?, readable.data, readable.exclusions, NULL FROM main.npss_record AS readable", (OLD_COUNT,))
        fresh.execute("UPDATE temp.npss_record SET data = x'00'")
        self.assertEqual((self.asked(fresh, "npss_nfc(?)", MARKED), self.asked(fresh, "npss_version()")), ("\u1ead", NEW_COUNT))
        # Where the main one has none, none of another database counts.
        bare = self.connect(self.path + "2")
        bare.execute(temporary)
        bare.execute("INSERT INTO temp.npss_record VALUES (1, ?, x'', x'', NULL)", (OLD_COUNT,))
        bare.execute("ATTACH ? AS other", (self.path,))
        self.refused("records no version", bare, "SELECT npss_nfc('a')")
        self.assertEqual(self.asked(bare, "npss_open(?)", OLD), OLD_COUNT)

    def test_loading_amid_a_statement_says_why_not(self):
        base = self.with_names()
        base.execute("INSERT INTO account VALUES ('a'), ('b')")
        running = base.execute("SELECT npss_nfc(name) FROM account")
        running.fetchone()
        with self.assertRaisesRegex(sqlite3.Error, "npss: .*active statements"):
            base.load_extension(EXTENSION)
        self.assertEqual(running.fetchall(), [("b",)])


class Files(Case):
    """What is raised to."""

    def test_files_that_are_handed_over(self):
        base = self.connect()
        blobs = [Path(NEW, name).read_bytes() for name in FILES]
        self.assertEqual(self.asked(base, "npss_raise(?, ?)", *blobs), 288767)
        self.assertEqual(self.asked(base, "npss_audit(?, ?)", *blobs), "extends")
        for given in (("a", "b"), (blobs[0], "b"), ("a", blobs[1]), (blobs[0], None)):
            self.refused("two blobs", base, "SELECT npss_raise(?, ?)", *given)
        for number in range(2):
            large = [b"\n" * 16_777_217 if at == number else blob for at, blob in enumerate(blobs)]
            self.refused(f"{FILES[number]} has more than 16777216 bytes", base, "SELECT npss_raise(?, ?)", *large)

    def test_files_that_are_faulty(self):
        base = self.connect()
        with tempfile.TemporaryDirectory() as folder:
            self.refused("can't be opened", base, "SELECT npss_raise(?)", folder)
            for data, words in ((b"0041;x\n", "UnicodeData.txt, line 1: FieldCount"), (b"0041;X;Lu;0;L;0042;;;;N;;;;;\n", "MapsToUnassigned at code point U\\+0041"),
                                (b"\n" * 16_777_217, "UnicodeData.txt is not a file of at most 16777216 bytes")):
                Path(folder, FILES[0]).write_bytes(data)
                Path(folder, FILES[1]).write_bytes(b"")
                self.refused(words, base, "SELECT npss_raise(?)", folder)
            Path(folder, FILES[0]).unlink()
            Path(folder, FILES[0]).mkdir()
            self.refused("is not a file of at most", base, "SELECT npss_raise(?)", folder)
        self.refused("a folder is wanted", base, "SELECT npss_raise(NULL)")
        self.refused("records no version", base, "SELECT npss_key('a')")

    def test_what_would_be_waited_for(self):
        code = (f"import sqlite3, sys; base = sqlite3.connect(':memory:'); base.enable_load_extension(True); base.load_extension({EXTENSION!r})\n"
                "try:\n    base.execute('SELECT npss_raise(?)', sys.argv[1:]).fetchall()\nexcept sqlite3.Error as error:\n    print(error)")
        for make in (os.mkfifo, lambda path: os.symlink("/dev/zero", path)):
            for odd in FILES:
                with tempfile.TemporaryDirectory() as folder:
                    for name in FILES:
                        shutil.copy(Path(NEW, name), folder)
                    Path(folder, odd).unlink()
                    make(Path(folder, odd))
                    ran = subprocess.run([sys.executable, "-c", code, folder], stdout=subprocess.PIPE, text=True, timeout=60, check=True)
                    self.assertEqual(ran.stdout, f"npss: {folder}/{odd} is not a file of at most 16777216 bytes\n")

    def test_of_the_greatest_size(self):
        base = self.connect()
        with tempfile.TemporaryDirectory() as folder:
            for name in FILES:
                content = Path(NEW, name).read_bytes()
                Path(folder, name).write_bytes(content + b"\n" * (16_777_216 - len(content)))
            self.assertEqual(self.asked(base, "npss_raise(?)", folder), NEW_COUNT)

    def test_no_file_stays_open(self):
        base = self.with_names(NEW)
        with tempfile.TemporaryDirectory() as folder:
            shutil.copy(Path(NEW, FILES[0]), folder)
            before = len(os.listdir("/proc/self/fd"))
            for _ in range(20):
                self.refused("do not extend", base, "SELECT npss_raise(?)", OLD)
                self.assertEqual(self.asked(base, "npss_raise(?)", NEW), NEW_COUNT)
                self.refused("can't be opened", base, "SELECT npss_raise(?)", folder)
                self.refused("can't be opened", base, "SELECT npss_raise(?)", folder + "/none")
                self.refused("can't be opened", base, "SELECT npss_audit(?)", folder + "/" + FILES[0])
            self.assertEqual(len(os.listdir("/proc/self/fd")), before)


class Waits(Case):
    """Raises beside other connections."""

    def test_a_raise_waits_for_another(self):
        for first, second, answer in ((MIDDLE, NEW, 288767), (NEW, MIDDLE, "do not extend")):
            path = self.path + first[-4:]
            base, answers = self.connect(path), []
            base.execute("SELECT npss_raise(?)", (OLD,))
            base.execute("BEGIN IMMEDIATE")
            base.execute("SELECT npss_raise(?)", (first,))

            comes = threading.Event()

            def other(path=path, second=second, answers=answers, comes=comes):
                with contextlib.closing(sqlite3.connect(path, isolation_level=None, timeout=30)) as beside:
                    beside.enable_load_extension(True)
                    beside.load_extension(EXTENSION)
                    comes.set()
                    try:
                        answers.append(beside.execute("SELECT npss_raise(?)", (second,)).fetchone()[0])
                    except sqlite3.Error as error:
                        answers.append(str(error))

            thread = threading.Thread(target=other)
            thread.start()
            comes.wait()
            time.sleep(1)
            base.execute("COMMIT")
            thread.join()
            self.assertIn(str(answer), str(answers[0]))
            self.assertEqual(self.asked(base, "npss_version()"), 288767)

    def test_two_raises_at_once(self):
        self.with_names()
        ended = []

        def work(version):
            with contextlib.closing(sqlite3.connect(self.path, isolation_level=None, timeout=30)) as base:
                base.enable_load_extension(True)
                base.load_extension(EXTENSION)
                try:
                    ended.append((version, base.execute("SELECT npss_raise(?)", (version,)).fetchone()[0]))
                except sqlite3.Error as error:
                    ended.append((version, str(error)))

        threads = [threading.Thread(target=work, args=(version,)) for version in (MIDDLE, NEW)]
        for thread in threads:
            thread.start()
        for thread in threads:
            thread.join()
        base = self.connect()
        self.assertEqual(self.asked(base, "npss_version()"), 288767, ended)
        self.whole(base)

    def meanwhile(self, text, seconds=None):
        """Another connection is in a transaction, for some seconds from now on or to the test's end."""
        comes, ends = threading.Event(), threading.Event()

        def other():
            with contextlib.closing(sqlite3.connect(self.path, isolation_level=None)) as base:
                for statement in text:
                    base.execute(statement).fetchall()
                comes.set()
                ends.wait(seconds)
                base.execute("COMMIT")

        thread = threading.Thread(target=other)
        thread.start()
        self.addCleanup(thread.join)
        self.addCleanup(ends.set)
        comes.wait()
        return thread

    def test_a_raise_waits_by_itself_where_nobody_said_how_long(self):
        self.with_names().close()
        for text, version in ((["BEGIN IMMEDIATE"], MIDDLE), (["BEGIN", "SELECT assigned FROM npss_record"], NEW)):
            base = self.connect()
            base.execute("PRAGMA busy_timeout = 0")
            thread = self.meanwhile(text, 1)
            count = self.asked(base, "npss_raise(?)", version)
            thread.join()
            self.assertEqual(self.asked(base, "npss_version()"), count)
            self.assertEqual(self.asked(base, "timeout FROM pragma_busy_timeout"), 0)
            self.whole(base)

    def test_a_first_raise_waits_by_itself(self):
        base = self.connect()
        base.execute("CREATE TABLE other (name TEXT)")
        base.execute("PRAGMA busy_timeout = 0")
        self.meanwhile(["BEGIN IMMEDIATE", "INSERT INTO other VALUES ('a')"], 1)
        self.assertEqual(self.asked(base, "npss_raise(?)", NEW), NEW_COUNT)

    def test_a_raise_within_a_transaction_waits_for_nobody(self):
        # The other one may be waiting for this very transaction.
        base = self.with_names()
        base.execute("PRAGMA busy_timeout = 0")
        thread = self.meanwhile(["BEGIN IMMEDIATE"])
        base.execute("BEGIN")
        begun = time.monotonic()
        self.refused("npss: database is locked", base, "SELECT npss_raise(?)", NEW)
        self.assertLess(time.monotonic() - begun, 5)
        self.assertTrue(thread.is_alive())
        base.execute("ROLLBACK")

    def test_a_raise_gives_up(self):
        base = self.with_names()
        base.execute("PRAGMA busy_timeout = 0")
        self.meanwhile(["BEGIN IMMEDIATE"], 40)  # a raise that never gives up ends behind these
        self.refused("npss: database is locked", base, "SELECT npss_raise(?)", NEW)
        self.assertFalse(base.in_transaction)
        self.assertEqual(self.asked(base, "npss_version()"), OLD_COUNT)
