"""Logs that aren't what nodes have read, and what of them a node knows."""

import contextlib
import hashlib
import json
import shutil
import sqlite3
from base64 import b64decode

from cases import FIRST_LAYOUT, NEW, OLD, SECOND_LAYOUT, YOUNG, Case, changed, earlier, first_record, version
from npss_registry import LogBroken, Registry, init
from npss_registry.records import Forget, Setup, claim_of, message, read, spelled


class Pasts(Case):
    """A log whose past is another one is never read on."""

    def test_a_log_that_lost_its_tail_is_not_read_on(self):
        node = self.node("one")
        place = node.claim("A", "x").holder.place
        node.abandon()
        base = sqlite3.connect(self.log)
        with base:
            base.execute("DELETE FROM record WHERE place = ?", (place,))
        self.assertRaisesRegex(LogBroken, "missing", Registry, node.store.path)
        with base:
            base.execute("INSERT INTO record VALUES (?, 0, ?)", (place, spelled(claim_of(message("nfc", "a", "a"), "y"))))
        self.assertRaisesRegex(LogBroken, "another one", Registry, node.store.path)
        base.close()

    def test_a_log_that_loses_its_tail_under_a_node_is_not_read_on(self):
        node = self.node("one")
        place = node.claim("A", "x").holder.place
        with contextlib.closing(sqlite3.connect(self.log)) as base, base:
            base.execute("UPDATE record SET body = ? WHERE place = ?", (spelled(claim_of(message("nfc", "a", "a"), "y")), place))
        with self.assertRaisesRegex(LogBroken, "another one") as caught:
            node.claim("i", "x")
        self.assertEqual(caught.exception.place, place)

    def test_a_tail_that_was_cut_off_and_grown_again_with_the_same_claims(self):
        one, other = self.node("one"), self.node("other")
        for node in (one, other):
            node.claim("i", "x")
        kept = self.folder / "kept"
        with contextlib.closing(sqlite3.connect(self.log)) as base, contextlib.closing(sqlite3.connect(kept)) as copy:
            base.backup(copy)
        self.assertEqual([one.claim(*claim).holder.owner for claim in (("a", "alice"), ("A", "2"))], ["alice", "2"])
        with contextlib.closing(sqlite3.connect(kept)) as copy, contextlib.closing(sqlite3.connect(self.log)) as base:
            copy.backup(base)
        self.assertEqual([other.claim(*claim).holder.owner for claim in (("a", "mallory"), ("A", "2"))], ["mallory", "2"])
        for asked in (one.catch_up, lambda: one.claim("f", "x")):
            self.assertRaisesRegex(LogBroken, "another one", asked)
        one.abandon()
        self.assertRaisesRegex(LogBroken, "another one", Registry, one.store.path)

    def test_each_record_has_random_bytes(self):
        node = self.node("one")
        node.claim("a", "x")
        node.forget("a")
        node.claim("a", "x")
        records = [json.loads(body) for _, body in self.bodies()]
        self.assertEqual({len(b64decode(one["nonce"], validate=True)) for one in records}, {16})
        self.assertEqual(len({one["nonce"] for one in records}), 4)
        claim = claim_of(message("nfc", "a", "a"), "x")
        self.assertNotEqual(spelled(claim), spelled(claim))

    def test_a_record_without_random_bytes_stops_the_node(self):
        node = self.node("one")
        place = node.log.append([(0, first_record("claim", "a", "a", "x"))])[0]
        with self.assertRaisesRegex(LogBroken, "nonce") as caught:
            node.catch_up()
        self.assertEqual(caught.exception.place, place)

    def sums(self, path):
        """The running sum of a store's shard, and that of its image."""
        with contextlib.closing(sqlite3.connect(path)) as base:
            return base.execute("SELECT place, sum, image_place, image_sum FROM shard JOIN image USING (number)").fetchone()

    def running(self, place):
        """The running sum of the log up to a place, made apart from the registry."""
        total = bytes(32)
        for at, body in self.bodies():
            if at <= place:
                total = hashlib.sha256(total + at.to_bytes(8, "big") + hashlib.sha256(body).digest()).digest()
        return total

    def test_the_running_sum_is_over_all_records(self):
        node = self.node("one")
        for round in range(3):
            for count in range(1, 4):
                node.claim("a" * (3 * round + count), "x")
            node.forget("a" * (3 * round + 1))
            place, total, image_place, image_total = self.sums(node.store.path)
            self.assertEqual((place, total, image_total), (5 + 4 * round, self.running(place), self.running(image_place)))
            (node.abandon if round == 1 else node.close)()
            node = self.open(node.store.path)
        other = self.node("other")
        other.catch_up()
        self.assertEqual(self.sums(other.store.path)[:2], self.sums(node.store.path)[:2])

    def test_an_earlier_record_that_changed_stops_the_node_when_it_begins(self):
        node = self.node("one")
        for name in ("a", "A"):
            node.claim(name, "x")
        node.abandon()
        changed(self.log, ("UPDATE record SET body = ? WHERE place = 2", spelled(claim_of(message("nfc", "a", "a"), "y"))))
        self.assertRaisesRegex(LogBroken, "what this node read before", Registry, node.store.path)

    def test_a_judge_sees_an_earlier_record_that_changed(self):
        node = self.node("one")
        node.claim("a", "x")
        node.claim("a", "y")
        node.claim("A", "x")
        node.close()
        # Nobody is registered otherwise by it.
        changed(self.log, ("UPDATE record SET body = ? WHERE place = 2", spelled(claim_of(message("nfc", "a", "a"), "x"))))
        self.assertRegex("\n".join(self.judged(node.store.path)), "another past")


class Examined(Case):
    """Nodes examine each record before they decide, whatever it comes to."""

    setup = Setup("nfc", 100, 4, False)

    def stops(self, shard, body, why):
        """A record stops nodes of both versions at its place, and nothing is registered by it."""
        nodes = [self.node("one"), self.node("two", NEW)]
        nodes[0].claim("\u00e2", "x")
        nodes[1].catch_up()
        place = nodes[0].log.append([(shard, body)])[0]
        for node in nodes:
            with self.assertRaisesRegex(LogBroken, why) as caught:
                node.catch_up()
            self.assertEqual(caught.exception.place, place)
            self.assertEqual([row.string for number in range(4) for row in node.store.registrations(number)], ["\u00e2"])

    def test_a_wrong_key_of_a_claim_that_comes_to_taken(self):
        shard = self.shard("\u00e2")
        self.stops(shard, spelled(claim_of(message("nfc", "A", "\u00e2"), "y")), "its key")

    def test_another_form_of_a_claim_that_comes_to_taken(self):
        self.stops(self.shard("\u00e2"), spelled(claim_of(message("nfkc", "a\u0302", "\u00e2"), "y")), "another form")

    def test_a_claim_in_the_wrong_shard(self):
        self.stops((self.shard("f") + 1) % 4, spelled(claim_of(message("nfc", "f", "f"), "y")), "belongs to shard")

    def test_a_parked_claim_in_the_wrong_shard(self):
        self.stops((self.shard(YOUNG) + 1) % 4, spelled(claim_of(message("nfc", YOUNG, YOUNG), "y")), "belongs to shard")

    def test_a_forget_in_the_wrong_shard(self):
        self.stops((self.shard("f") + 1) % 4, spelled(Forget("f", 1)), "belongs to shard")

    def test_a_string_that_is_too_long_for_a_node(self):
        name = "A" * 65_537
        self.stops(self.shard(name), spelled(claim_of(message("nfc", name, name), "y")), "65,536")

    def test_a_record_that_is_text(self):
        node, other = self.node("one"), self.store("other")
        place = node.claim("a", "x").holder.place
        node.close()
        changed(self.log, ("UPDATE record SET body = CAST(body AS TEXT) WHERE place = ?", place))
        for asked in (lambda: self.open(node.store.path), lambda: self.open(other).catch_up()):
            with self.assertRaisesRegex(LogBroken, "it isn't bytes") as caught:
                asked()
            self.assertEqual(caught.exception.place, place)
        self.assertRegex("\n".join(self.judged(node.store.path)), f"at place {place}: .*it isn't bytes")
        self.assertEqual(self.run_words("list", node.store.path)[0], 4)

    def test_a_place_that_is_no_number(self):
        body = json.loads(spelled(Forget("f", 1)))
        self.stops(self.shard("f"), json.dumps({**body, "place": True}).encode(), "no number")

    def shard(self, key):
        return int.from_bytes(hashlib.sha256(key.encode()).digest()[:8], "big") % 4


class Earlier(Case):
    """Logs and stores of 0.2.0 are read on."""

    RECORDS = (("claim", "a\u0302", "\u00e2", "x"), ("claim", "A", "A", "y"), ("forget", "A", 3), ("claim", "\u00e2", "\u00e2", "y"), ("claim", "i", "i", "z"))

    def old(self, *scripts):
        """A store of an earlier layout over a log of the first one."""
        self.old_log(*(first_record(*words) for words in self.RECORDS))
        node = self.node("one")
        node.catch_up()
        node.close()
        earlier(node.store.path, *scripts)
        return node.store.path

    def test_a_store_and_a_log_are_read_on(self):
        for scripts in ((SECOND_LAYOUT,), (SECOND_LAYOUT, FIRST_LAYOUT)):
            with self.subTest(layouts=len(scripts)):
                path = self.old(*scripts)
                self.assertEqual(self.judged(path), [])  # also before anybody worked on it
                node = self.open(path)
                self.assertEqual([entry.string for entry in node.shards[0].node], ["a\u0302", "i"])
                self.assertEqual([node.claim(name, "y").what for name in ("\u00e2", "A")], ["taken", "registered"])
                node.close()
                with contextlib.closing(sqlite3.connect(path)) as base:
                    place, total = base.execute("SELECT place, sum FROM shard").fetchone()
                self.assertEqual((place, total), (7, Pasts.running(self, 7)))
                self.assertIn("nonce", json.loads(self.bodies()[-1][1]))
                self.assertEqual(self.judged(path), [])
                for name in ("one", "one-lock", "log"):
                    (self.folder / name).unlink()

    def test_a_store_whose_log_lost_its_tail(self):
        path = self.old(SECOND_LAYOUT)
        changed(self.log, "DELETE FROM record WHERE place = 6")
        self.assertRaisesRegex(LogBroken, "missing", Registry, path)

    def test_a_store_whose_log_has_another_past(self):
        for change, why in ((("UPDATE record SET body = ? WHERE place = 2", first_record("claim", "a\u0302", "\u00e2", "y")), "the store has"),
                            (("DELETE FROM record WHERE place = 2",), "ends that don't stand"), (("DELETE FROM record WHERE place = 4",), "ends that don't stand")):
            with self.subTest(change[0]):
                path = self.old(SECOND_LAYOUT)
                changed(self.log, change)
                self.assertRaisesRegex(LogBroken, why, Registry, path)
                for name in ("one", "one-lock", "log"):
                    (self.folder / name).unlink()

    def test_a_relative_log_of_an_earlier_store(self):
        path = self.old(SECOND_LAYOUT)
        shutil.move(self.log, f"{path}.log")
        for typed in ("one.log", "data/one.log"):
            changed(path, ("UPDATE setup SET log = ?", typed))
            node = self.open(path)
            self.assertEqual(node.store.log, f"{path}.log")
            node.close()
            earlier(path, SECOND_LAYOUT)

    def test_a_later_machine_joins(self):
        self.old(SECOND_LAYOUT)
        self.assertEqual(init(str(self.folder / "two"), version(OLD), None, self.log), Setup("nfc", 100, 1, False))
        self.assertEqual(self.open(str(self.folder / "two")).claim("A", "x").what, "registered")
        self.assertEqual(read(1, self.bodies()[0][1]), Setup("nfc", 100, 1, False))
