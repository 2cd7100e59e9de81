"""Logs that are trimmed: what stays, who begins behind it, and who is told."""

import contextlib
import json
import sqlite3
import threading
import time
from dataclasses import replace
from unittest import mock

from cases import NEW, OLD, PROGRAM, YOUNG, Case, changed, first_record, version
from npss_registry import LogBroken, Registry, init
from npss_registry.errors import LogEnded, LogTrimmed, StoreAway
from npss_registry.logs import SqliteLog
from npss_registry.records import Setup, Snapshot, read, spelled
from npss_registry.relog import relog
from npss_registry.trim import trim
from relogging import Killed

DONE, NO, FAULTY, AWAY = 0, 1, 4, 5


@contextlib.contextmanager
def killed_at(number, behind):
    """Ends what runs at one of its writes to the log; it is told whether it got that far."""
    left, did = [number], []

    def counted(call):
        def one(self, *given):
            left[0] -= 1
            if left[0] == 0 and not behind:
                did.append(number)
                raise Killed
            answer = call(self, *given)
            if left[0] == 0:
                did.append(number)
                raise Killed
            return answer
        return one

    with contextlib.ExitStack() as patched:
        for name in ("append", "keep", "trim"):
            patched.enter_context(mock.patch.object(SqliteLog, name, counted(getattr(SqliteLog, name))))
        with contextlib.suppress(Killed):
            yield did


class TrimCase(Case):
    """Stores over a log that is trimmed."""

    def names(self, path):
        """What a store registers, each with its place and owner, read apart from the registry's code."""
        with contextlib.closing(sqlite3.connect(path)) as base:
            return [(string.decode(), place, owner) for string, place, owner in
                    base.execute("SELECT string, place, owner FROM registration WHERE ended IS NULL ORDER BY shard, place")]

    def first(self, shard=0):
        """The log's first record, and its place."""
        place, body = self.bodies(shard)[0]
        return place, read(place, body, 2)

    def trimmed(self, *paths):
        done = trim(paths, PROGRAM)
        self.assertEqual(done.findings, [])
        return done

    def written(self):
        """A closed store over a log with claims and forgets, and what it registers."""
        node = self.node("one")
        for name in ("a", "A", "f", "i"):
            node.claim(name, "x")
        node.forget("A")
        node.claim("f", "y")
        node.claim("A", "z")
        node.close()
        return node.store.path, [("a", 2, "x"), ("f", 4, "x"), ("i", 5, "x"), ("A", 7, "z")]

    def newcomer(self, name="two", files=OLD):
        """A store that is made now, read to the end."""
        path = str(self.folder / name)
        init(path, version(files), None, self.log)
        node = self.open(path)
        node.catch_up()
        return node


class Trimming(TrimCase):
    """What a trim deletes, and what it leaves."""

    def test_names_stay_and_what_stands_before_is_gone(self):
        path, names = self.written()
        done = self.trimmed(path)
        self.assertEqual((done.records, done.names), (7, 4))
        place, first = self.first()
        self.assertEqual((place, first.setup), (8, replace(self.setup, name=first.setup.name)))
        self.assertEqual([place for place, _ in self.bodies()], [8, 9])
        self.assertEqual(self.names(path), names)
        self.assertEqual(self.judged(path), [])
        node = self.open(path)
        self.assertEqual([node.claim(*asked).what for asked in (("a", "x"), ("a", "y"), ("aa", "x"))], ["registered", "taken", "registered"])
        self.assertEqual(node.forget("f").what, "forgotten")
        self.assertEqual(node.claim("f", "q").holder.owner, "q")
        node.close()
        self.assertEqual(self.judged(path), [])

    def test_a_new_store_begins_with_the_snapshot(self):
        path, names = self.written()
        self.trimmed(path)
        node, other = self.newcomer(), self.open(path)
        self.assertEqual(self.names(node.store.path), names)
        self.assertEqual([entry.string for entry in node.shards[0].node], ["a", "f", "i", "A"])
        self.assertEqual(node.forget("f").what, "forgotten")
        self.assertEqual(node.claim("f", "q").what, "registered")
        other.catch_up()
        for one in (node, other):
            one.close()
        self.assertEqual(self.names(path), self.names(node.store.path))
        self.assertEqual(self.judged(path, node.store.path), [])
        again = self.open(node.store.path)
        self.assertEqual(again.find("A")[0].place, 7)

    def test_a_store_that_was_away_is_told(self):
        path, _ = self.written()
        away = self.newcomer("away")
        held = self.newcomer("held")
        away.close()
        node = self.open(path)
        node.claim("aa", "x")
        node.close()
        self.trimmed(path)
        for asked in (lambda: Registry(away.store.path), held.catch_up, lambda: held.claim("ii", "x")):
            with self.assertRaises(LogTrimmed) as caught:
                asked()
            self.assertEqual((caught.exception.place, caught.exception.first), (7, 9))
            self.assertRegex(str(caught.exception), "trimmed.*make it anew by `npss-registry init`")
        held.abandon()
        status, out, err = self.run_words("list", away.store.path)
        self.assertEqual((status, out), (FAULTY, ""))
        self.assertRegex(err, "at place 7: .*trimmed")
        self.assertRegex("\n".join(self.judged(path, away.store.path)), "at place 7: .*trimmed")
        self.assertRegex(self.run_words("log", away.store.path, self.log)[2], "trimmed")
        # Made anew it has all.
        anew = self.newcomer("anew")
        self.assertEqual(self.names(anew.store.path), self.names(path))

    def test_what_a_named_store_lacks_is_not_deleted(self):
        path, _ = self.written()
        held = self.node("held")  # a process that works on it, and doesn't read on
        before = self.bodies()
        with self.assertRaisesRegex(StoreAway, "hasn't read the log on .*nothing was deleted"):
            trim([path, held.store.path], PROGRAM, 0.5)
        self.assertEqual(self.bodies(), before)
        status, _, err = self.run_words("trim", path, held.store.path, "--program", PROGRAM, "--patience", "0.5")
        self.assertEqual(status, AWAY)
        # One that stops reading once the snapshot is written.
        held.catch_up()
        with self.assertRaises(StoreAway):
            trim([path, held.store.path], PROGRAM, 0.5)
        self.assertEqual(self.bodies()[:len(before)], before)
        held.catch_up()
        self.assertEqual(held.claim("aa", "x").what, "registered")
        held.close()
        self.assertEqual(self.judged(path, held.store.path), [])
        # And one that reads on.
        held = self.open(held.store.path)
        reading = threading.Timer(1, lambda: [(held.catch_up(), time.sleep(0.1)) for _ in range(50)])
        reading.start()
        done = trim([path, held.store.path], PROGRAM, 30)
        reading.join()
        self.assertEqual((done.findings, self.first()[0] > len(before)), ([], True))

    def test_where_the_judge_finds_something_nothing_is_written(self):
        path, _ = self.written()
        changed(path, "UPDATE registration SET owner = 'q' WHERE place = 2")
        before = self.bodies()
        status, out, _ = self.run_words("trim", path, "--program", PROGRAM)
        self.assertEqual((status, out.splitlines()[-1]), (NO, "nothing was deleted: 1 differ"))
        self.assertEqual(self.bodies(), before)

    def test_the_command(self):
        path, _ = self.written()
        self.assertEqual(self.run_words("trim", path, "--program", PROGRAM),
                         (DONE, "records deleted: 7; registered names with which the log begins: 4\n", ""))
        self.assertEqual(self.run_words("trim", path, "--program", PROGRAM),
                         (DONE, "records deleted: 2; registered names with which the log begins: 4\n", ""))

    def test_trims_that_are_cut_off_and_called_again(self):
        path, names = self.written()
        for behind in (False, True):
            for number in range(1, 20):
                with killed_at(number, behind) as did:
                    trim([path], PROGRAM)
                self.assertEqual((self.names(path), self.judged(path)), (names, []), (number, behind))
                anew = self.newcomer(f"{number} {behind}")
                self.assertEqual(self.names(anew.store.path), names)
                anew.close()
                self.assertEqual(self.judged(path, anew.store.path), [])
                if not did:
                    break
            self.assertGreater(number, 4)
        self.trimmed(path)
        self.assertEqual(len(self.bodies()), 2)
        with contextlib.closing(sqlite3.connect(self.log)) as base:
            self.assertEqual(base.execute("SELECT DISTINCT place FROM kept").fetchall(), [(self.first()[0],)])

    def test_names_that_are_parked(self):
        new, old = self.node("new", NEW), self.node("old")
        for name in ("a", YOUNG, "A", YOUNG + "A"):
            new.claim(name, "x")
        new.forget(YOUNG + "A")
        for node in (old, new):
            node.catch_up()
            node.close()
        self.trimmed(old.store.path, new.store.path)
        other = self.newcomer("other")
        self.assertEqual([row.string for row in other.status()[0].parked], [YOUNG])
        other.close()
        for path in (old.store.path, other.store.path):
            node = self.open(path)
            self.assertEqual(node.upgrade(version(NEW)), [])
            self.assertIn(YOUNG, node.shards[0].node)
            node.close()
        self.assertEqual(self.judged(old.store.path, other.store.path, new.store.path), [])

    def test_a_parked_claim_that_is_missing(self):
        new, old = self.node("new", NEW), self.node("old")
        new.claim(YOUNG, "x")
        new.claim("a", "x")
        old.catch_up()
        changed(self.log, "DELETE FROM record WHERE place = 2")
        self.assertRaisesRegex(LogBroken, "claim of a parked string is missing", old.upgrade, version(NEW))

    def test_shards_and_long_names(self):
        self.setup = Setup("nfc", 3000, 3, True, most_bytes=65_536)
        node = self.node("one")
        names = ["a" * length for length in range(1, 1500)] + ["A" * length for length in range(60_000, 60_030)]
        node.claim_many([(name, f"owner \u00e9\0 {name[:9]}") for name in names])
        node.claim_many([("\u00e2", "x"), ("a\u0302", "y"), ("", "z")])
        for name in names[:1000:7]:
            node.forget(name)
        node.close()
        self.trimmed(node.store.path)
        with contextlib.closing(sqlite3.connect(self.log)) as base:
            self.assertGreater(base.execute("SELECT count(*) FROM kept").fetchone()[0], 7)
            self.assertLess(max(size for size, in base.execute("SELECT length(part) FROM kept")), 1_000_000)
        other = self.newcomer()
        self.assertEqual(self.names(other.store.path), self.names(node.store.path))
        other.close()
        self.assertEqual(self.judged(node.store.path, other.store.path), [])

    def test_a_registry_that_an_earlier_version_began(self):
        self.old_log(first_record("claim", "a", "a", "x"), first_record("claim", "A", "A", "y"), first_record("forget", "a", 2))
        path = self.store("one")
        self.open(path).close()
        self.trimmed(path)
        node = self.newcomer()
        self.assertEqual(self.names(node.store.path), [("A", 3, "y")])
        self.assertEqual(node.claim("a", "x").what, "registered")
        node.close()
        self.assertEqual(self.judged(path, node.store.path), [])

    def test_earlier_versions_refuse_a_trimmed_log(self):
        fields = json.loads(spelled(Snapshot(self.setup)))
        self.assertEqual((fields["setup"], read(1, spelled(Snapshot(self.setup)))), (3, Snapshot(self.setup)))

    def test_a_backup_from_before_is_told(self):
        path, _ = self.written()
        copy = str(self.folder / "copy")
        node = self.open(path)
        node.store.backup(copy)
        node.claim("aa", "x")
        node.close()
        self.trimmed(path)
        self.assertRaises(LogTrimmed, Registry, copy)

    def test_to_another_log_and_to_another_name(self):
        path, names = self.written()
        self.trimmed(path)
        other = self.newcomer()
        other.close()
        moved = str(self.folder / "moved.log")
        with contextlib.closing(sqlite3.connect(self.log)) as base, contextlib.closing(sqlite3.connect(moved)) as copy:
            base.backup(copy)
        self.assertEqual(self.run_words("log", path, moved), (DONE, f"{moved}\n", ""))
        changed(moved, ("UPDATE record SET body = ? WHERE place = 9", spelled(Snapshot(self.setup))))
        self.assertEqual(self.run_words("log", other.store.path, moved)[0], FAULTY)
        self.assertEqual(self.run_words("log", path, self.log)[0], DONE)
        new = str(self.folder / "new")
        self.assertEqual(relog([path], new).registered, 4)
        self.assertEqual([(name, owner) for name, _, owner in self.names(path)], [(name, owner) for name, _, owner in names])
        with self.assertRaises(LogEnded):
            trim([other.store.path], PROGRAM, 1)
        self.trimmed(path)
        # A store that comes over later begins with the snapshot.
        done = relog([other.store.path], new)
        self.assertEqual((done.registered, done.lost), (4, []))
        self.assertEqual(self.names(other.store.path), self.names(path))
        self.assertEqual(self.judged(path, other.store.path), [])

    def test_a_change_of_a_store_is_seen_behind_a_trim(self):
        path, _ = self.written()
        self.trimmed(path)
        node = self.open(path)
        node.claim("aa", "x")
        node.close()
        for change in ("UPDATE registration SET owner = 'q' WHERE place = 2", "DELETE FROM registration WHERE place = 5",
                       "UPDATE registration SET ended = 4 WHERE place = 2", "UPDATE registration SET ended = 99 WHERE place = 3",
                       "UPDATE registration SET parked = 1 WHERE place = 4", "UPDATE shard SET sum = zeroblob(32)", "UPDATE image SET image = base",
                       "UPDATE image SET base_place = 2", "DELETE FROM journal"):
            copy = str(self.folder / "copy")
            with contextlib.closing(sqlite3.connect(path)) as base, contextlib.closing(sqlite3.connect(copy)) as other:
                base.backup(other)
            changed(copy, change)
            self.assertTrue(self.judged(copy), change)
        self.assertEqual(self.judged(path), [])
