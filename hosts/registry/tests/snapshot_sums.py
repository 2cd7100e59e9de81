"""What is told of a snapshot, and stands beside the log, is compared by each node; and logs that are trimmed while something else goes on."""

import contextlib
import json
import sqlite3
import threading
import zlib
from unittest import mock

from cases import PROGRAM, changed
from npss_registry import LogAway, LogBroken, Registry
from npss_registry.logs import SqliteLog
from npss_registry.records import NOTHING_READ, Name, Setup, Snapshot, SnapshotSum, spelled, sum_of_names
from npss_registry.trim import trim
from trimming import TrimCase


class Snapshots(TrimCase):
    """What is told of a snapshot is compared by each node."""

    def untrue_sum(self, place, **words):
        """A sum's record that tells what isn't so."""
        names = [Name(2, "a", "a", "x"), Name(4, "f", "f", "x"), Name(5, "i", "i", "x"), Name(7, "A", "A", "z")]
        count, made = sum_of_names(names)
        return SnapshotSum(place, **{"names": count, "sum": made, "past": NOTHING_READ, **words})

    def test_a_wrong_sum_stops_each_node(self):
        path, _ = self.written()
        log = SqliteLog(self.log)
        self.addCleanup(log.close)
        at, = log.append([(0, spelled(Snapshot(self.open_setup(path))))])
        for words in ({"names": 3}, {"sum": bytes(32)}):
            place, = log.append([(0, spelled(self.untrue_sum(at, **words)))])
            node = Registry(path)
            with self.assertRaisesRegex(LogBroken, f"at the snapshot at place {at} isn't what the log tells") as caught:
                node.catch_up()
            self.assertEqual(caught.exception.place, place)
            node.abandon()
            self.assertRegex("\n".join(self.judged(path)), f"at place {place}: what the log registers at the snapshot")
            changed(self.log, ("DELETE FROM record WHERE place = ?", place))
        # The past stands in no node's store, and in the judge's ledger.
        place, = log.append([(0, spelled(self.untrue_sum(at)))])
        node = Registry(path)
        node.catch_up()
        node.close()
        self.assertRegex("\n".join(self.judged(path)), "what the log registers at the snapshot")

    def open_setup(self, path):
        node = Registry(path)
        node.close()
        return node.setup

    def test_a_sum_of_no_snapshot_is_nothing(self):
        path, names = self.written()
        log = SqliteLog(self.log)
        self.addCleanup(log.close)
        log.append([(0, spelled(self.untrue_sum(3, sum=bytes(32))))])
        self.open(path).catch_up()
        self.assertEqual((self.names(path), self.judged(path)), (names, []))

    def test_a_snapshot_of_another_setup_stops_the_node(self):
        path, _ = self.written()
        log = SqliteLog(self.log)
        self.addCleanup(log.close)
        place, = log.append([(0, spelled(Snapshot(Setup("nfc", 99, 1, False, "other"))))])
        with self.assertRaisesRegex(LogBroken, "another setup") as caught:
            self.open(path).catch_up()
        self.assertEqual(caught.exception.place, place)

    def test_what_stands_beside_the_log_is_examined(self):
        path, _ = self.written()
        self.trimmed(path)
        at = self.first()[0]
        with contextlib.closing(sqlite3.connect(self.log)) as base:
            (rows,), (end,) = base.execute("SELECT part FROM kept ORDER BY number").fetchall()
        entries, sums = json.loads(zlib.decompress(rows)), json.loads(end)
        self.store("two")

        def part(rows, **words):
            return ("UPDATE kept SET part = ? WHERE number = 0", zlib.compress(json.dumps(rows).encode())), (
                "UPDATE kept SET part = ? WHERE number = 1", json.dumps({**sums, **words}).encode())

        def summed(rows):
            count, made = sum_of_names(Name(place, string, key or string, owner) for place, string, key, owner in rows)
            return part(rows, names=count, sum=made.hex())

        wrong = {"is missing beside the log": [("DELETE FROM kept WHERE number = 1",)],
                 "missing beside": [("DELETE FROM kept",)],
                 "no part": [("UPDATE kept SET part = ? WHERE number = 0", b"x")],
                 "its sum is another one": part(entries[:-1]),
                 "sum is another": part([[2, "a", None, "q"], *entries[1:]]),
                 "places don't rise": summed(entries[::-1]),
                 "don't rise": summed([*entries, [at, "ii", None, "x"]]),
                 "its key": summed([[2, "a", "A", "x"], *entries[1:]]),
                 "one too many": summed([*entries[:-1], [7, "a", None, "x"]]),
                 "is no part": part([[2, "a", None], *entries[1:]]),
                 "is no name": part([[2, "a", None, 7], *entries[1:]])}
        for why, changes in wrong.items():
            kept = self.folder / "kept"
            kept.unlink(missing_ok=True)
            with contextlib.closing(sqlite3.connect(self.log)) as base, contextlib.closing(sqlite3.connect(kept)) as copy:
                base.backup(copy)
            changed(self.log, *changes)
            node = Registry(str(self.folder / "two"))
            with self.assertRaisesRegex(LogBroken, why, msg=why) as caught:
                node.catch_up()
            node.abandon()
            self.assertIn(caught.exception.place, (at, 2))
            self.assertTrue(self.judged(path))
            with contextlib.closing(sqlite3.connect(kept)) as copy, contextlib.closing(sqlite3.connect(self.log)) as base:
                copy.backup(base)
        self.assertEqual(self.judged(path), [])
        node = self.open(str(self.folder / "two"))
        node.catch_up()
        self.assertEqual(self.names(path), self.names(node.store.path))

    def test_a_log_that_is_away_meanwhile(self):
        path, names = self.written()
        for name in ("keep", "trim", "kept"):
            with mock.patch.object(SqliteLog, name, side_effect=LogAway("away")), self.assertRaises(LogAway):
                trim([path], PROGRAM)
            self.assertEqual((self.names(path), self.judged(path)), (names, []))
        self.trimmed(path)

    def test_a_log_that_is_trimmed_while_it_is_judged(self):
        path, _ = self.written()
        again, calls = SqliteLog.read, []

        def read(log, shard, behind, most):
            calls.append(behind)
            if len(calls) == count:
                with mock.patch.object(SqliteLog, "read", again):
                    self.trimmed(path)
            return again(log, shard, behind, most)

        away = 0
        for count in range(1, 30):
            calls.clear()
            with mock.patch.object(SqliteLog, "read", read), mock.patch("npss_registry.logs.protocol.PIECE", 2):
                try:
                    self.assertEqual(self.judged(path), [], count)
                except LogAway:
                    away += 1
            if len(calls) < count:
                break
            node = self.open(path)
            for name in ("aa", "ii"):
                node.claim(name, "x")
                node.forget(name)
            node.close()
        self.assertGreater(away, 3)
        self.assertEqual(self.judged(path), [])

    def test_a_log_that_is_trimmed_while_a_node_begins(self):
        path, _ = self.written()
        self.trimmed(path)
        again, calls = SqliteLog.kept, []

        def kept(log, shard, place, number):
            calls.append(number)
            if len(calls) == count:
                with mock.patch.object(SqliteLog, "kept", again):
                    self.trimmed(path)
            return again(log, shard, place, number)

        for count in (1, 2):
            calls.clear()
            node = self.open(self.store(f"begun {count}"))
            with mock.patch.object(SqliteLog, "kept", kept), self.assertRaisesRegex(LogAway, "ask again"):
                node.catch_up()
            # Nothing of it was taken, and the next call begins where the log does now.
            self.assertEqual(self.names(node.store.path), [])
            node.catch_up()
            self.assertEqual(self.names(node.store.path), self.names(path))
            calls.clear()
            with mock.patch.object(SqliteLog, "kept", kept), self.assertRaisesRegex(LogAway, "ask again"):
                self.judged(path)
            self.assertEqual(self.judged(path), [])

    def test_trims_while_others_claim(self):
        self.setup = Setup("nfc", 5000, 2, False)
        path, other = self.store("one"), self.node("other", setup=Setup("nfc", 5000, 2, False))
        done, failed = threading.Event(), []

        def claim():
            count = 0
            try:
                while not done.is_set():
                    count += 1
                    other.claim("a" * (count % 800 + 1), "x")
                    other.forget("a" * ((count * 7) % 800 + 1))
            except Exception as error:
                failed.append(error)

        claiming = threading.Thread(target=claim)
        claiming.start()
        try:
            for number in range(4):
                self.assertEqual(trim([path, other.store.path], PROGRAM, 30).findings, [])
        finally:
            done.set()
            claiming.join()
        self.assertEqual(failed, [])
        other.close()
        node = self.newcomer()
        node.close()
        self.open(path).catch_up()
        self.assertEqual(self.names(node.store.path), self.names(path))
        self.assertEqual(self.judged(path, other.store.path, node.store.path), [])
