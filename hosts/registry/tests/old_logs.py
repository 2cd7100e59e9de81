"""The end of an old log, and machines that weren't named by relog."""

import shutil
from pathlib import Path

from cases import PROGRAM, SECOND_LAYOUT, earlier, first_record
from npss_registry import LogBroken, StoreError
from npss_registry.errors import LogEnded
from npss_registry.relog import relog
from relogging import Relog


class OldLogs(Relog):
    """No node goes on over a log that was given up."""

    def test_three_machines_as_the_guide_tells_it(self):
        stores = []
        for name in "ABC":
            (self.folder / name).mkdir()
            stores.append(self.store(f"{name}/store"))
            node = self.open(stores[-1])
            node.claim(name * 2 if name == "A" else "a" * len(stores), "x")
            node.abandon()  # it was killed: what it wrote last stands beside the store
        self.without_tail(4)
        copies = [stores[0], *(str(self.folder / name) for name in ("B copy", "C copy"))]
        for store, copy in zip(stores[1:], copies[1:]):
            self.assertEqual(self.run_words("backup", store, copy)[0], 0)
        self.assertEqual(self.run_words("relog", *copies, "--log", self.new)[:2], (0, "3 strings are registered in the new log, 0 are lost\n"))
        for store, copy in zip(stores[1:], copies[1:]):
            for end in ("", "-wal", "-shm"):
                Path(store + end).unlink(missing_ok=True)
            shutil.copy(copy, store)
        for store in stores:
            self.assertEqual(self.run_words("list", store)[1], "2\t'AA'\tx\n3\t'aa'\tx\n4\t'aaa'\tx\n")
            self.assertEqual(self.run_words("check", store, "--program", PROGRAM)[0], 0)

    def test_the_old_log_is_read_to_its_end_first(self):
        one, other = self.node("one"), self.node("other")
        one.claim("a", "x")
        one.catch_up()
        other.claim("A", "x")
        one.abandon()
        done = relog([one.store.path], self.new)
        self.assertEqual((done.registered, done.lost, done.without_end), (2, [], []))
        self.assertEqual(self.names(one.store.path), ["a", "A"])

    def test_no_node_goes_on_over_the_old_log(self):
        one, other = self.node("one"), self.node("other")
        one.claim("a", "x")
        other.catch_up()
        one.close()
        relog([one.store.path], self.new)
        for asked in (other.catch_up, lambda: other.claim("A", "y")):
            with self.assertRaisesRegex(LogEnded, f"goes on in {self.new}") as caught:
                asked()
            self.assertEqual(caught.exception.place, 3)
        other.abandon()
        again = self.open(other.store.path)
        self.assertRaises(LogEnded, again.catch_up)
        again.abandon()
        # The machine that wasn't named comes over later.
        self.assertEqual(self.open(one.store.path).claim("A", "x").what, "registered")
        done = relog([other.store.path], self.new)
        self.assertEqual((done.registered, done.lost), (2, []))
        self.assertEqual(self.open(other.store.path).claim("A", "y").what, "taken")

    def beside(self, behind):
        """A node that wasn't named, and the path of a store that goes over before, or right behind, what the node writes next."""
        one, other = self.node("one"), self.node("other")
        one.catch_up()
        one.close()
        append = other.log.append

        def beside(records):
            if not behind:
                relog([one.store.path], self.new)
            places = append(records)
            if behind:
                relog([one.store.path], self.new)
            return places

        other.log.append = beside
        return other, one.store.path

    def test_a_claim_before_the_end_is_answered(self):
        node, path = self.beside(behind=True)
        self.assertEqual(node.claim("a", "x").what, "registered")
        self.assertRaises(LogEnded, node.claim, "A", "x")
        self.assertEqual(self.names(path), ["a"])

    def test_a_claim_behind_the_end_is_registered_nowhere(self):
        node, path = self.beside(behind=False)
        self.assertRaises(LogEnded, node.claim, "a", "x")
        self.assertEqual((self.names(path), self.names(node.store.path)), ([], []))

    def test_a_store_that_comes_over_later_tells_what_it_loses(self):
        one, other, third = (self.node(name) for name in ("one", "other", "third"))
        for node, name in ((one, "a"), (one, "A"), (one, "i")):
            node.claim(name, "x")
        third.catch_up()
        one.forget("A")
        for node in (one, third):
            node.close()
        self.without_tail(4)  # a and A are left
        other.catch_up()
        other.close()
        relog([other.store.path], self.new)
        done = relog([third.store.path], self.new)
        self.assertEqual([(row.registration.string, row.registration.owner) for row in done.lost], [("i", "x")])
        self.assertEqual(relog([third.store.path], self.new).lost, done.lost)

    def test_an_old_registry_goes_over(self):
        self.old_log(first_record("claim", "a", "a", "x"), first_record("claim", "A", "A", "y"))
        paths = [self.store("one"), self.store("other")]
        for path in paths:
            node = self.open(path)
            node.catch_up()
            node.close()
            earlier(path, SECOND_LAYOUT)
        self.assertEqual(relog(paths[:1], self.new).registered, 2)
        self.assertRaisesRegex(StoreError, "name a new one", relog, paths[1:], self.new)
        with self.assertRaises(LogEnded):
            self.open(paths[1]).catch_up()
        self.goes_on(paths[:1], ["a", "A"])

    def test_a_log_that_is_silent_is_not_ended(self):
        paths = self.two()
        Path(self.log).write_bytes(b"no log, but a text that is long enough to be looked at" * 100)
        done = relog(paths, self.new)
        self.assertEqual((done.registered, done.without_end), (3, [self.log]))

    def test_what_was_lost_under_a_node_stops_it(self):
        one, other = self.node("one"), self.node("other")
        one.claim("a", "x")
        other.catch_up()
        self.without_tail(2)
        one.abandon()
        relog([one.store.path], self.new)
        self.assertRaises(LogBroken, other.catch_up)
