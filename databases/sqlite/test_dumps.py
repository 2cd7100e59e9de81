"""Dumps that come back, and tables that a connection opened for them."""

import os
import subprocess
import tempfile
from pathlib import Path

from cases import EXTENSION, FILES, MARKED, NEW, NEW_COUNT, OLD, YOUNG, YOUNGEST, Case


class Dumps(Case):
    def dumped(self, path):
        return subprocess.run(["sqlite3", path, "-cmd", f".load {EXTENSION}", ".dump"], stdout=subprocess.PIPE, check=True).stdout

    def restored(self, dump, *commands):
        words = ["sqlite3", "-bail", self.path + "2", "-cmd", f".load {EXTENSION}"]
        for command in commands:
            words += ["-cmd", command]
        return subprocess.run(words, input=dump, stdout=subprocess.PIPE, stderr=subprocess.STDOUT, check=False)

    def generated(self, base):
        base.execute("CREATE TABLE file (name TEXT, key TEXT AS (npss_nfc(name)) STORED)")
        base.execute("CREATE INDEX file_key ON file (npss_nfc(name))")
        base.execute("INSERT INTO file (name) VALUES (?)", (MARKED,))

    def test_a_dump_with_the_record_first_comes_back_without_help(self):
        base = self.connect()
        base.execute("SELECT npss_raise(?)", (OLD,))
        self.generated(base)
        back = self.restored(self.dumped(self.path))
        self.assertEqual((back.returncode, back.stdout), (0, b""))
        again = self.connect(self.path + "2")
        self.assertEqual(again.execute("SELECT key FROM file").fetchall(), [("\u1ead",)])
        self.refused("npss_raise alone", again, "DELETE FROM npss_record")
        self.whole(again)

    def test_a_dump_with_the_record_behind_says_what_to_do(self):
        base = self.connect()
        base.execute("SELECT npss_open(?)", (OLD,))
        self.generated(base)
        base.execute("SELECT npss_raise(?)", (OLD,))
        dump = self.dumped(self.path)
        back = self.restored(dump)
        self.assertNotEqual(back.returncode, 0)
        self.assertIn(b"SELECT npss_open(FOLDER) first", back.stdout)
        os.unlink(self.path + "2")
        back = self.restored(dump, f"SELECT npss_open('{OLD}')")
        self.assertEqual(back.returncode, 0, back.stdout)
        again = self.connect(self.path + "2")
        self.assertEqual(again.execute("SELECT key FROM file").fetchall(), [("\u1ead",)])
        self.refused("not assigned", again, "INSERT INTO file (name) VALUES (?)", YOUNG)
        self.whole(again)


class Opened(Case):
    """Tables of a connection's own, while there is no record: stored keys may be of them."""

    def opened(self, folder):
        base = self.connect()
        base.execute("SELECT npss_open(?)", (folder,))
        base.execute("CREATE TABLE account (name TEXT NOT NULL)")
        base.execute("CREATE UNIQUE INDEX account_key ON account (npss_nfd(name))")
        return base

    def changed(self, old, new):
        """Files of NEW with an edit."""
        folder = tempfile.TemporaryDirectory()
        self.addCleanup(folder.cleanup)
        for name in FILES:
            text = Path(NEW, name).read_text(encoding="utf-8")
            if name == FILES[0] and text.count(old) != 1:
                raise ValueError(f"{old} stands {text.count(old)} times")
            Path(folder.name, name).write_text(text.replace(old, new), encoding="utf-8")
        return folder.name

    def test_a_raise_extends_what_was_opened(self):
        base = self.opened(NEW)
        base.execute("INSERT INTO account VALUES (?)", (YOUNGEST,))
        self.refused("do not extend this database's version: Lost", base, "SELECT npss_raise(?)", OLD)
        self.assertEqual(self.asked(base, "npss_raise(?)", NEW), NEW_COUNT)
        self.assertEqual(base.execute("DELETE FROM account").rowcount, 1)
        base.execute("REINDEX")
        self.whole(base)

    def test_a_raise_keeps_the_keys_of_what_was_opened(self):
        base = self.opened(self.changed("00E9;LATIN SMALL LETTER E WITH ACUTE;Ll;0;L;0065 0301", "00E9;LATIN SMALL LETTER E WITH ACUTE;Ll;0;L;"))
        base.execute("INSERT INTO account VALUES ('\u00e9')")
        self.refused("do not extend this database's version: MappingChanged 00E9", base, "SELECT npss_raise(?)", NEW)
        self.assertEqual(self.asked(base, "count(*) FROM account WHERE npss_nfd(name) = npss_nfd('\u00e9')"), 1)
        self.whole(base)

    def test_a_first_raise_that_is_rolled_back_leaves_what_was_opened(self):
        base = self.opened(NEW)
        for end in ("ROLLBACK", "ROLLBACK TO here"):
            base.execute("BEGIN")
            base.execute("SAVEPOINT here")
            base.execute("SELECT npss_raise(?)", (NEW,))
            base.execute("INSERT INTO account VALUES (?)", (YOUNGEST,))
            base.execute(end)
            base.execute("INSERT INTO account VALUES (?)", (YOUNGEST,))
            self.refused("do not extend", base, "SELECT npss_raise(?)", OLD)
            base.execute("DELETE FROM account")
        base.execute("COMMIT")
        self.refused("do not extend", base, "SELECT npss_raise(?)", OLD)
        self.whole(base)

    def test_what_is_opened_next_extends_it(self):
        base = self.opened(OLD)
        base.execute("SELECT npss_open(?)", (NEW,))
        base.execute("INSERT INTO account VALUES (?)", (YOUNGEST,))
        self.refused("do not extend", base, "SELECT npss_open(?)", OLD)
        self.assertEqual(self.asked(base, "npss_version()"), NEW_COUNT)

    def test_a_record_of_another_connection_extends_it_or_is_extended(self):
        for mine, theirs in ((OLD, NEW), (NEW, OLD), (NEW, NEW)):
            path = f"{self.path}.{mine[-4:]}{theirs[-4:]}"
            base = self.connect(path)
            base.execute("SELECT npss_open(?)", (mine,))
            self.assertEqual(self.asked(base, "npss_nfc(?)", MARKED), "\u1ead")
            count = self.asked(self.connect(path), "npss_raise(?)", theirs)
            self.assertEqual(self.asked(base, "npss_version()"), count)

    def test_a_record_that_fits_not_is_refused_by_each_call(self):
        base = self.opened(self.changed("0323;COMBINING DOT BELOW;Mn;220", "0323;COMBINING DOT BELOW;Mn;240"))
        base.execute("INSERT INTO account VALUES (?)", (MARKED,))
        self.assertEqual(self.asked(base, "npss_nfd(?)", MARKED), MARKED)
        self.connect().execute("SELECT npss_raise(?)", (NEW,))
        for text in ("SELECT npss_nfd('a')", "SELECT npss_version()", "INSERT INTO account VALUES ('a')", f"SELECT npss_raise('{NEW}')"):
            self.refused("neither this database's record nor the files of npss_open extend the other", base, text)
        self.assertEqual(self.asked(self.connect(), "npss_nfd(?)", MARKED), "a\u0323\u0302")
