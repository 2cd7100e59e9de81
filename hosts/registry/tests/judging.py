"""What the judge sees, and what it doesn't take for a fault."""

import contextlib
import json
import os
import shutil
import sqlite3
from pathlib import Path

from cases import NEW, PROGRAM, YOUNG, Case, changed, version, without_rights
from npss_registry import StoreError
from npss_registry.judge import Judge
from npss_registry.logs import SqliteLog
from npss_registry.records import NOTHING_READ, Setup, claim_of, message, shard_of, spelled, sum_behind, sum_of


class Judging(Case):
    """The judge sees what a store did wrong."""

    def judged_after(self, path, *changes):
        """What the judge finds in a copy of a store after some changes."""
        copy = str(self.folder / "copy")
        shutil.copy(path, copy)
        changed(copy, *changes)
        try:
            return self.judged(copy)
        finally:
            os.unlink(copy)

    def test_a_change_of_the_store_is_seen(self):
        node = self.node("one")
        for name in ("a\u0302", "A"):
            node.claim(name, "x")
        node.close()
        path = node.store.path
        for change in ("UPDATE registration SET owner = 'y' WHERE place = 2", "DELETE FROM registration WHERE place = 2",
                       "UPDATE registration SET refused = 'full' WHERE place = 3", "UPDATE registration SET ended = 3 WHERE place = 2"):
            self.assertTrue(self.judged_after(path, change), change)
        self.assertEqual(self.judged(path), [])

    def test_a_journal_of_what_the_log_does_not_register(self):
        node = self.node("one")
        node.claim("A", "x")
        copy = str(self.folder / "copy")
        node.store.backup(copy)
        self.open(copy).close()
        body = spelled(claim_of(message("nfc", "a", "a"), "x"))
        changed(self.log, ("UPDATE record SET body = ? WHERE place = 2", body))
        total = sum_behind(sum_behind(NOTHING_READ, 1, sum_of(self.bodies()[0][1])), 2, sum_of(body))
        changed(copy, ("UPDATE shard SET last = ?, sum = ?, image_sum = ?", sum_of(body), total, total))
        self.assertRegex("\n".join(self.judged(copy)), "its node kept what the log doesn't register: 'A'")

    def test_a_long_run_is_judged_in_segments(self):
        node = self.node("one")
        for count in range(1, 60):
            node.claim("a" * count, "x")
            if count % 7 == 0:
                node.forget("a" * (count - 3))
                node.close()
                node = self.open(node.store.path)
        self.assertEqual(self.judged(node.store.path, most_events=60), [])

    def test_what_the_store_says_of_itself(self):
        node = self.node("one")
        node.claim("a\u0302", "x")
        node.close()
        self.open(node.store.path).close()
        path = node.store.path
        for change, why in (("UPDATE setup SET room = 99", "room 99"), ("UPDATE setup SET form = 'nfd'", "form nfd"),
                            ("UPDATE setup SET name = 'another'", "name another"), ("DELETE FROM journal", "journal has 0 events"),
                            ("UPDATE journal SET event = 'restart'", "the last save"), ("UPDATE journal SET event = 'else'", "what no node wrote"),
                            ("UPDATE journal SET version = 7", "no node wrote"), ("UPDATE version SET assigned = 1", "the count of a version"),
                            ("UPDATE version SET data_sum = zeroblob(32)", "the sums"), ("UPDATE shard SET sum = zeroblob(32)", "what this node read before"),
                            ("UPDATE image SET image = base", "its image has"), ("UPDATE image SET image = zeroblob(9)", "the image is damaged|Malformed"),
                            ("UPDATE shard SET place = 1", "another one|another past")):
            self.assertRegex("\n".join(self.judged_after(path, change)), why, change)
        self.assertEqual(self.judged(path), [])

    def test_a_parked_flag_is_compared(self):
        old, new = self.node("old"), self.node("new", NEW)
        new.claim(YOUNG, "x")
        new.claim("A", "x")
        old.catch_up()
        old.close()
        for store, change in ((old, "UPDATE registration SET parked = 0"), (old, "UPDATE registration SET parked = 1 WHERE string = CAST('A' AS BLOB)"),
                              (old, "UPDATE registration SET refused = 'unassigned 1DFB at byte 0' WHERE parked")):
            found = self.judged_after(store.store.path, change)
            self.assertTrue(found, change)
        again = self.open(old.store.path)
        again.upgrade(version(NEW))
        again.close()
        self.assertEqual(self.judged(old.store.path, new.store.path), [])
        found = self.judged_after(old.store.path, f"UPDATE registration SET parked = 1 WHERE string = CAST('{YOUNG}' AS BLOB)")
        self.assertRegex("\n".join(found), "is parked, and has to be not so")

    def test_one_machines_store_with_parked_names(self):
        old, new = self.node("old"), self.node("new", NEW)
        for name in ("a", YOUNG, "A", YOUNG + "A"):
            new.claim(name, "x")
        old.catch_up()
        new.forget(YOUNG)
        old.catch_up()
        old.close()
        judge = Judge([old.store.path], PROGRAM)
        self.assertEqual((judge.run(), judge.unjudged), ([], {YOUNG, YOUNG + "A"}))
        judge.close()
        found = self.judged_after(old.store.path, f"UPDATE registration SET refused = 'unassigned 1DFB at byte 0' WHERE string = CAST('{YOUNG}' AS BLOB)")
        self.assertRegex("\n".join(found), "its version 'unassigned 1DFA at byte 0'")

    def test_names_that_fit_no_schedule_together_are_judged_in_parts(self):
        node = self.node("one")
        names = ["a" * length for length in range(48_000, 48_080)]  # 19 MB as code points, in one stretch without a save
        node.claim_many([(name, "x") for name in names])
        node.forget(names[0])
        self.assertEqual(self.judged(node.store.path), [])
        node.close()
        self.assertEqual(self.judged(node.store.path), [])
        self.assertTrue(self.judged_after(node.store.path, "UPDATE registration SET refused = 'full' WHERE place = 7"))

    def test_parts_have_what_happened_to_their_strings(self):
        node = self.node("one")
        names = ["a" * length for length in range(200, 212)]
        node.claim_many([(name, "x") for name in names])
        for name in names[:6]:
            node.forget(name)
        node.close()
        node = self.open(node.store.path)
        node.claim_many([(name, "y") for name in names[:4]])
        node.close()
        self.assertEqual(self.judged(node.store.path, most_bytes=5_000), [])
        for change in ("UPDATE registration SET refused = 'full' WHERE place = 7", "UPDATE image SET image = base"):
            copy = str(self.folder / "copy")
            shutil.copy(node.store.path, copy)
            changed(copy, change)
            self.assertTrue(self.judged(copy, most_bytes=5_000), change)
            os.unlink(copy)

    def test_a_store_that_is_worked_on_is_judged(self):
        node = self.node("one", NEW)
        node.claim("a", "x")
        judge = Judge([node.store.path], PROGRAM)
        node.claim("A", "x")
        node.forget("a")
        node.close()
        node = self.open(node.store.path)
        self.assertEqual(judge.run(), [])
        judge.close()
        self.assertEqual(self.judged(node.store.path), [])

    def test_a_store_that_cannot_be_read_keeps_no_other_one_from_being_judged(self):
        node, other = self.node("one"), self.node("other")
        node.claim("a", "x")
        for one in (node, other):
            one.close()
        text = str(self.folder / "text")
        Path(text).write_text("no store, but a text that is long enough to be looked at")
        changed(other.store.path, "UPDATE version SET data = zeroblob(9)")
        found = self.judged(text, other.store.path, node.store.path, str(self.folder / "none"))
        self.assertEqual([line.partition(": ")[0] for line in found], [text, other.store.path, str(self.folder / "none")])
        changed(node.store.path, "UPDATE registration SET owner = 'y'")
        self.assertRegex("\n".join(self.judged(text, node.store.path)), "at place 2")
        self.assertRaises(StoreError, self.judged, text, other.store.path)

    def test_a_store_in_a_folder_that_nobody_may_write(self):
        node = self.node("one")
        node.claim("a", "x")
        node.close()
        os.chmod(self.folder, 0o555)
        for name in os.listdir(self.folder):
            os.chmod(self.folder / name, 0o444)
        try:
            with without_rights():
                self.assertEqual(self.judged(node.store.path), [])
        finally:
            os.chmod(self.folder, 0o700)

    def test_a_store_that_is_upgraded_meanwhile(self):
        old, new = self.node("old"), self.node("new", NEW)
        new.claim(YOUNG, "x")
        old.catch_up()
        judge = Judge([old.store.path], PROGRAM)
        old.upgrade(version(NEW))
        old.close()
        self.open(old.store.path)
        self.assertEqual(judge.run(), [])
        judge.close()

    def test_what_no_node_wrote_into_the_log_is_seen(self):
        self.setup = Setup("nfc", 100, 4, False)
        node = self.node("one")
        node.claim("\u00e2", "x")
        node.close()
        shard = shard_of("\u00e2", 4)
        for number, body, why in ((shard, spelled(claim_of(message("nfkc", "\u00e2", "\u00e2"), "y")), "another form"),
                                  (shard, spelled(claim_of(message("nfc", "A", "\u00e2"), "y")), "its key"),
                                  ((shard_of("A", 4) + 1) % 4, spelled(claim_of(message("nfc", "A", "A"), "y")), "belongs to shard")):
            place = node_log(self.log, number, body)
            self.assertRegex("\n".join(self.judged(node.store.path)), f"at place {place}: .*{why}")
            changed(self.log, ("DELETE FROM record WHERE place = ?", place))
        self.assertEqual(self.judged(node.store.path), [])
        setup = json.loads(self.bodies(shard)[0][1])
        changed(self.log, ("UPDATE record SET body = ? WHERE shard = ? AND place <= 4", json.dumps({**setup, "room": 99}).encode(), shard))
        self.assertRegex("\n".join(self.judged(node.store.path)), "room 99|another setup")

    def test_an_index_that_lies(self):
        node = self.node("one")
        for name in ("a" * 40, "A" * 40):
            node.claim(name, "x")
        node.close()
        copy = str(self.folder / "copy")
        shutil.copy(node.store.path, copy)
        with contextlib.closing(sqlite3.connect(copy)) as base:
            page, size = base.execute("SELECT rootpage FROM sqlite_master WHERE name = 'registered'").fetchone()[0], base.execute("PRAGMA page_size").fetchone()[0]
        content = bytearray(Path(copy).read_bytes())
        at = content.index(b"A" * 40, (page - 1) * size, page * size)
        content[at + 3] ^= 1
        Path(copy).write_bytes(content)
        self.assertEqual(self.open(copy).find("A" * 40), [])  # though it is registered
        self.assertRegex("\n".join(self.judged(copy)), "the file is damaged: .*index registered")


def node_log(path, shard, body):
    """Writes a record as no node does; its place."""
    log = SqliteLog(path)
    try:
        return log.append([(shard, body)])[0]
    finally:
        log.close()
