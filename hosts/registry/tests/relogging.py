"""Stores that go over to another log."""

import contextlib
import os
import shutil
import sqlite3
from unittest import mock

from cases import NEW, OLD, PROGRAM, YOUNG, Case, changed, version, without_rights
from npss_registry import Registry, StoreError, init
from npss_registry.logs import SqliteLog
from npss_registry.records import Setup
from npss_registry.relog import relog
from npss_registry.store import Store


class Killed(BaseException):
    """A process ends at once."""


@contextlib.contextmanager
def killed_at(number, behind):
    """Ends what runs at one of its writes to stores or logs; it is told whether it got that far."""
    left, did = [number], []

    @contextlib.contextmanager
    def write():
        left[0] -= 1
        if left[0] == 0 and not behind:
            did.append(number)
            raise Killed
        yield
        if left[0] == 0:
            did.append(number)
            raise Killed

    def counted(call):
        def one(self, records):
            with write():
                return call(self, records)
        return one

    commit = Store.transaction

    @contextlib.contextmanager
    def transaction(self, again=False):
        with write(), commit(self, again):
            yield

    with mock.patch.object(Store, "transaction", transaction), mock.patch.object(SqliteLog, "append", counted(SqliteLog.append)), \
            mock.patch.object(SqliteLog, "begin", counted(SqliteLog.begin)), contextlib.suppress(Killed):
        yield did


class Relog(Case):
    """Two stores over a log, and another one to which they go over."""

    def setUp(self):
        super().setUp()
        self.new = str(self.folder / "new")

    def two(self):
        """Two closed stores: the second lacks what came last."""
        one, other = self.node("one"), self.node("other")
        for name in ("a", "A"):
            one.claim(name, "x")
        other.catch_up()
        one.claim("i", "x")
        for node in (one, other):
            node.close()
        return [one.store.path, other.store.path]

    def without_tail(self, place):
        changed(self.log, ("DELETE FROM record WHERE place >= ?", place))

    def names(self, path):
        """What a store registers, as it stands."""
        with contextlib.closing(sqlite3.connect(path)) as base:
            return [row[0].decode() for row in base.execute("SELECT string FROM registration WHERE ended IS NULL ORDER BY shard, place")]

    def goes_on(self, paths, names):
        """Each store registers these names, takes more, and is judged."""
        for path in paths:
            node = self.open(path)
            self.assertEqual([row.string for number in range(self.setup.shards) for row in node.store.registrations(number)], names)
            self.assertEqual(sum(len(shard.node) for shard in node.shards), len(names))
            node.close()
        node = self.open(paths[0])
        self.assertEqual(node.claim("f", "x").what, "registered")
        node.close()
        self.assertEqual(self.judged(*paths), [])

    def places(self, path):
        with contextlib.closing(sqlite3.connect(path)) as base:
            return [row[0] for row in base.execute("SELECT place FROM shard")]

    def goes_on_with(self, paths, owners):
        for path in paths:
            node = self.open(path)
            self.assertEqual({row.string: row.owner for row in node.store.registrations(0)}, owners)
            node.close()
        self.assertEqual(self.judged(*paths), [])


class Relogging(Relog):
    """relog, called once and again, and killed."""

    def test_a_new_log_from_what_stores_read(self):
        paths = self.two()
        os.unlink(self.log)
        done = relog(paths, self.new)
        self.assertEqual((done.registered, done.lost, done.without_end), (3, [], [self.log]))
        self.goes_on(paths, ["a", "A", "i"])

    def test_a_new_log_tells_what_is_lost(self):
        one, other = self.node("one"), self.node("other")
        for name in ("a", "A"):
            one.claim(name, "x")
        other.catch_up()
        one.forget("A")
        one.claim("i", "x")
        paths = [one.store.path, other.store.path]
        one.abandon()
        other.abandon()
        os.unlink(self.log)
        changed(paths[1], "UPDATE registration SET owner = 'y' WHERE string = CAST('a' AS BLOB)")
        for _ in range(2):
            done = relog(paths, self.new)
            self.assertEqual((done.registered, [(one.store, one.registration.string, one.registration.owner) for one in done.lost]), (2, [(paths[1], "a", "y")]))

    def test_the_command_says_the_same_again(self):
        one, other = self.node("one"), self.node("other")
        one.claim("a", "x")
        other.catch_up()
        one.claim("A", "x")
        for node in (one, other):
            node.close()
        self.without_tail(3)
        words = ("relog", one.store.path, other.store.path, "--log", self.new, "--from", other.store.path)
        for _ in range(2):
            status, out, _ = self.run_words(*words)
            self.assertEqual((status, out), (1, f"1 strings are registered in the new log, 1 are lost\nlost from {one.store.path}: 3\t'A'\tx\n"))
        self.assertEqual(self.run_words("check", one.store.path, other.store.path, "--program", PROGRAM)[0], 0)

    def test_called_again_it_loses_nothing(self):
        paths = self.two()
        self.without_tail(4)
        relog(paths, self.new)
        self.assertEqual(self.names(paths[1]), ["a", "A", "i"])
        self.assertEqual(relog(paths, self.new).registered, 3)
        done = relog(paths, str(self.folder / "third"))
        self.assertEqual((done.registered, done.lost), (3, []))
        self.goes_on(paths, ["a", "A", "i"])

    def test_killed_at_any_write_it_goes_on(self):
        number, behind, did = 0, False, [0]
        while did:
            number, behind = (number + 1, False) if behind else (number, True) if number else (1, False)
            with self.subTest(number=number, behind=behind):
                paths = self.two()
                self.without_tail(4)
                with killed_at(number, behind) as did:
                    relog(paths, self.new)
                if did:
                    done = relog(paths, self.new)
                    self.assertEqual((done.registered, done.lost), (3, []))
                self.goes_on(paths, ["a", "A", "i"])
                for name in os.listdir(self.folder):
                    os.unlink(self.folder / name)
        self.assertGreater(number, 8)

    def test_killed_and_called_again_for_each_store_by_itself(self):
        for number in range(1, 12):
            paths = self.two()
            self.without_tail(4)
            with killed_at(number, True):
                relog(paths, self.new)
            for path in paths:
                with contextlib.suppress(StoreError):
                    relog([path], self.new)
            done = relog(paths, self.new)
            self.assertEqual((done.registered, done.lost), (3, []), number)
            self.goes_on(paths, ["a", "A", "i"])
            for name in os.listdir(self.folder):
                os.unlink(self.folder / name)

    def test_no_node_opens_a_store_that_goes_over(self):
        paths = self.two()
        with killed_at(6, True) as did:
            relog(paths, self.new)
        self.assertTrue(did)
        for path in paths:
            self.assertRaisesRegex(StoreError, "has not ended; call it again", Registry, path)
        self.assertRaisesRegex(StoreError, "call it again", init, str(self.folder / "late"), version(OLD), None, self.new)

    def test_a_store_that_has_read_nothing_is_refused(self):
        paths = [*self.two(), self.store("fresh")]
        self.assertRaisesRegex(StoreError, "has read nothing", relog, paths, self.new)
        self.assertRaisesRegex(StoreError, "has read nothing", relog, paths[2:], self.new)
        self.assertFalse(os.path.exists(self.new))
        node = self.open(paths[0])  # nothing was done
        self.assertEqual(node.claim("f", "x").what, "registered")

    def test_a_store_that_has_read_some_shards(self):
        self.setup = Setup("nfc", 100, 3, False)
        one, other = self.node("one"), self.node("other")
        one.claim("a", "x")
        other.claim("i", "x")
        other.abandon()
        one.close()
        self.assertEqual(sorted(map(bool, self.places(one.store.path))), [False, False, True])
        self.assertEqual(relog([one.store.path], self.new).registered, 2)
        os.unlink(self.new)
        self.assertEqual(sorted(self.names(one.store.path)), ["a", "i"])

    def test_the_branch_is_chosen(self):
        one, other = self.node("one"), self.node("other")
        one.claim("a", "x")
        other.catch_up()
        for name in ("A", "i", "f"):
            one.claim(name, "lost")
        one.close()
        self.without_tail(3)
        for name in ("f", "fi"):
            other.claim(name, "kept")
        other.close()
        paths = [one.store.path, other.store.path]
        self.assertRaisesRegex(StoreError, "not among", relog, paths, self.new, str(self.folder / "else"))
        done = relog(paths, self.new, paths[1])
        self.assertEqual((done.registered, [row.registration.string for row in done.lost]), (3, ["A", "i", "f"]))
        self.goes_on_with(paths, {"a": "x", "f": "kept", "fi": "kept"})

    def test_a_log_in_which_something_else_stands(self):
        paths, log = self.two(), self.log
        self.log = self.new
        self.store("else")
        self.assertRaisesRegex(StoreError, "name a new one", relog, paths, self.new)
        self.log = log
        link = str(self.folder / "link")
        os.symlink(self.log, link)
        self.assertEqual(relog(paths, link).lost, [])  # it is their own
        shutil.copy(self.log, self.folder / "copied")
        self.assertRaisesRegex(StoreError, "by another name", relog, paths, str(self.folder / "copied"))
        self.goes_on(paths[:1], ["a", "A", "i"])

    def test_parked_names_go_over(self):
        old, new = self.node("old"), self.node("new", NEW)
        for name in ("a", YOUNG):
            new.claim(name, "x")
        for node in (old, new):
            node.catch_up()
            node.close()
        paths = [old.store.path, new.store.path]
        self.assertEqual(relog(paths, self.new).registered, 2)
        node = self.open(paths[0])
        self.assertEqual([row.string for row in node.status()[0].parked], [YOUNG])
        node.close()
        self.assertEqual(self.judged(*paths), [])

    def test_more_names_than_a_batch_in_more_shards(self):
        self.setup = Setup("nfc", 2000, 3, False)
        node = self.node("one")
        names = ["a" * length for length in range(1, 1200)]
        node.claim_many([(name, "x") for name in names])
        node.close()
        with killed_at(8, True) as did:
            relog([node.store.path], self.new)
        self.assertTrue(did)
        self.assertEqual(relog([node.store.path], self.new).registered, len(names))
        self.assertEqual(sorted(self.names(node.store.path)), names)

    def test_a_new_log_has_the_stores_owner_and_rights(self):
        paths = self.two()
        os.chmod(paths[0], 0o640)
        if not os.geteuid():
            os.chown(paths[0], 65534, 65534)
        relog(paths, self.new)
        found, wanted = os.stat(self.new), os.stat(paths[0])
        self.assertEqual((found.st_mode, found.st_uid, found.st_gid), (wanted.st_mode, wanted.st_uid, wanted.st_gid))
        if not os.geteuid():
            self.folder.chmod(0o777)
            for path in self.folder.iterdir():
                os.chown(path, 65534, 65534)
            with without_rights():
                node = self.open(paths[0])
                self.assertEqual(node.claim("f", "x").what, "registered")
                node.close()

    def test_another_log_where_the_first_one_could_not_be_written(self):
        paths = self.two()
        self.without_tail(4)
        with killed_at(5, True) as did:
            relog(paths, self.new)
        self.assertTrue(did)
        done = relog(paths, str(self.folder / "third"))
        self.assertEqual((done.registered, done.lost), (3, []))
        self.assertRaisesRegex(StoreError, "name a new one", relog, paths, self.new)
        self.goes_on(paths, ["a", "A", "i"])

    def test_a_log_that_is_whole_is_the_one(self):
        paths = self.two()
        self.without_tail(4)
        relog(paths[:1], self.new)
        with killed_at(3, False) as did:
            relog(paths[1:], self.new)
        self.assertTrue(did)
        self.assertRaisesRegex(StoreError, "goes over to .*new already", relog, paths[1:], str(self.folder / "third"))
        self.assertEqual(relog(paths, self.new).lost, [])
        self.goes_on(paths, ["a", "A", "i"])
