"""The password of a log stands in a file or in the environment, and never in a store."""

import contextlib
import os
import sqlite3
import stat
import unittest
from pathlib import Path
from unittest.mock import patch

from cases import OLD, Case
from log_servers import RedisServer, is_here
from npss_registry import LogAway, Registry, StoreError, init
from npss_registry.errors import PasswordInName
from npss_registry.logs import open_log, shown
from npss_registry.logs.names import address, located, password_in, password_of, with_password_file
from npss_registry.relog import relog
from npss_registry.store import Store

SECRET = "S:ec/r@t%#\u00e9"
SPELLED = "S%3Aec%2Fr%40t%25%23%C3%A9"


class Names(unittest.TestCase):
    """URLs of logs."""

    def test_a_password_is_found(self):
        for url, password in ((f"redis://:{SPELLED}@h:1/0#x", SECRET), (f"redis://u:{SPELLED}@h", SECRET), ("redis://u@h/0#x", None), ("redis://h?password=z#x", "z"),
                              ("unix://u:p@/tmp/s?db=1", "p"), ("redis://h/0#a:b@c", None), ("postgresql://u:p@h,i/d#t", "p"), ("etcd://u:@h", "")):
            self.assertEqual(password_in(url), password, url)

    def test_a_file_takes_its_place(self):
        for url, named in ((f"redis://:{SPELLED}@h:1/0#x", "redis://h:1/0?password-file=a/b#x"), ("redis://u:p@h?db=1", "redis://u@h?db=1&password-file=a/b"),
                           ("redis://h?password=z&db=1", "redis://h?db=1&password-file=a/b")):
            self.assertEqual(with_password_file(url, "a/b"), named)
            self.assertIsNone(password_in(named))
            self.assertEqual(located(named, "/store"), named.replace("a/b", "/store/a/b"))
        self.assertEqual(located("redis://h?password-file=/a", "/store"), "redis://h?password-file=/a")

    def test_people_see_none(self):
        for url in (f"redis://u:{SPELLED}@h/0#x", "redis://h/0?password=z#x"):
            self.assertEqual(shown(url), "redis://h/0#x")
        self.assertEqual(address("redis://u:p@h/0?password-file=f&db=2#x"), "redis://h/0?db=2#x")

    def test_whence_it_is_taken(self):
        with contextlib.ExitStack() as opened:
            opened.enter_context(patch.dict(os.environ))
            os.environ.pop("NPSS_LOG_PASSWORD", None)
            self.assertEqual((password_of("redis://h"), password_of("redis://:p@h")), (None, "p"))
            self.assertRaisesRegex(LogAway, "No such file", password_of, "redis://h?password-file=/no/such/file")
            os.environ["NPSS_LOG_PASSWORD"] = "e"
            self.assertEqual(password_of("redis://:p@h?password-file=/no/such/file"), "e")


@unittest.skipUnless(is_here("redis"), "redis-server or python3-redis is not here")
class Passwords(Case):
    """Stores over a Redis server that asks for a password."""

    def setUp(self):
        super().setUp()
        self.redis = RedisServer(self.folder, requirepass=SECRET)
        self.addCleanup(self.redis.close)
        self.file = self.folder / "password"
        self.file.write_text(f"{SECRET}\n", encoding="utf-8")
        self.log = f"{self.redis.log.partition('#')[0]}?password-file={self.file}#tests"
        # As a store of an earlier version names it.
        self.old = self.redis.log.replace("redis://", f"redis://:{SPELLED}@")

    def bytes_of(self, *paths):
        """All bytes of some stores, with what stands beside them."""
        return b"".join(path.read_bytes() for one in paths for path in self.folder.glob(f"{Path(one).name}*") if not path.name.endswith("-password"))

    def earlier_store(self, name="one"):
        """A store of an earlier version, with the password in it."""
        path = self.store(name)
        node = Registry(path)
        node.claim("a", "x")
        node.close()
        with contextlib.closing(sqlite3.connect(path)) as base, base:
            base.execute("UPDATE setup SET log = ?", (self.old,))
        self.assertIn(SPELLED.encode(), self.bytes_of(path))
        return path

    def test_a_file_has_it(self):
        node = self.node("one")
        self.assertEqual(node.claim("a", "x").what, "registered")
        # It is read anew for each connection.
        self.redis.client(password=SECRET).config_set("requirepass", "another")
        self.redis.client(password="another").client_kill_filter(_type="normal", skipme=True)
        self.assertRaisesRegex(LogAway, "(?i)password|authentication", node.claim, "A", "x")
        self.file.write_text("another", encoding="utf-8")
        self.assertEqual(node.claim("A", "x").what, "registered")
        self.file.unlink()
        self.redis.client(password="another").client_kill_filter(_type="normal", skipme=True)
        self.assertRaisesRegex(LogAway, "its password can't be read from .*: No such file", node.claim, "i", "x")
        self.assertRaisesRegex(LogAway, "its password can't be read", node.claim, "i", "x")

    def test_the_environment_has_it(self):
        self.log = self.redis.log
        with self.assertRaisesRegex(LogAway, "(?i)authentication"):
            self.store("one")
        with patch.dict(os.environ, {"NPSS_LOG_PASSWORD": SECRET}):
            self.assertEqual(self.node("one").claim("a", "x").what, "registered")

    def test_a_file_counts_from_the_stores_folder(self):
        self.log = self.log.replace(str(self.file), "password")
        node = self.node("one")
        self.assertEqual(node.claim("a", "x").what, "registered")
        self.assertIn("password-file=password#", node.store.named_log)

    def test_no_name_has_it(self):
        path = self.store("one")
        for words in (("init", str(self.folder / "other"), *OLD, "--log", self.old), ("relog", path, "--log", self.old), ("log", path, self.old)):
            with self.assertRaises(SystemExit) as caught:
                self.run_words(*words)
            self.assertEqual(caught.exception.code, 2)
        self.assertFalse((self.folder / "other").exists())
        for ask in (lambda: relog([path], self.old), lambda: init(str(self.folder / "other"), Store(path, read_only=True).versions()[0], None, self.old)):
            self.assertRaisesRegex(PasswordInName, r"\?password-file=FILE", ask)

    def test_a_store_that_holds_it_is_read_on_and_loses_it(self):
        path = self.earlier_store()
        with self.assertLogs("npss_registry", "WARNING") as logs:
            node = self.open(path)
        self.assertRegex("\n".join(logs.output), f"{path} held the password of its log; that stands in {path}-password now")
        self.assertEqual(node.find("a")[0].owner, "x")
        self.assertEqual(node.claim("A", "x").what, "registered")
        kept = Path(f"{path}-password")
        self.assertEqual((kept.read_text(encoding="utf-8"), stat.S_IMODE(kept.stat().st_mode)), (f"{SECRET}\n", 0o600))
        self.assertNotIn(SPELLED.encode(), self.bytes_of(path))
        copy = str(self.folder / "copy")
        node.store.backup(copy)
        self.assertNotIn(SPELLED.encode(), self.bytes_of(copy))
        node.close()
        with self.assertNoLogs("npss_registry", "WARNING"):
            self.assertEqual(self.open(path).claim("i", "x").what, "registered")
        self.assertEqual(self.judged(path), [])

    def test_where_it_cannot_be_taken_out_the_store_is_read_on(self):
        path = self.earlier_store()
        Path(f"{path}-password").write_text("somebody else's", encoding="ascii")
        with self.assertNoLogs("npss_registry", "WARNING"):
            node = self.open(path)
        self.assertEqual(node.claim("A", "x").what, "registered")
        node.close()
        self.assertEqual(Path(f"{path}-password").read_text(encoding="ascii"), "somebody else's")
        # What a call has written that was cut off is what it was.
        Path(f"{path}-password").write_text(f"{SECRET}\n", encoding="utf-8")
        with self.assertLogs("npss_registry", "WARNING"):
            self.assertEqual(self.open(path).claim("i", "x").what, "registered")
        self.assertNotIn(SPELLED.encode(), self.bytes_of(path))

    def test_a_log_without_and_with_it_is_one(self):
        path = self.earlier_store()
        with contextlib.closing(sqlite3.connect(path)) as base, base:
            base.execute("UPDATE setup SET moving = ?", (self.old.replace("#tests", "#second"),))
        done = relog([path], self.log.replace("#tests", "#second"))
        self.assertEqual((done.registered, done.lost, done.without_end), (1, [], []))
        self.assertEqual(self.open(path).claim("A", "x").what, "registered")

    def test_a_word_that_no_log_has(self):
        self.assertRaisesRegex(StoreError, "names no server: .*passwordfile", open_log, self.log.replace("password-file", "passwordfile"))
