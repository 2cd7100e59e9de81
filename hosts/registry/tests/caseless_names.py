"""Caseless logs: which names are one, what stands in the log and in stores, and nodes of unlike versions."""

import base64
import json
import sqlite3
from contextlib import closing
from dataclasses import replace
from pathlib import Path

from npss import Unassigned

from cases import FIXTURES, FOLDED_NEW, FOLDED_OLD, NEW, OLD, THIRD_LAYOUT, YOUNG, YOUNG_A, Case, changed, earlier, version
from npss_registry import Differs, LogBroken, NotOneChain, Registry, StoreError, init
from npss_registry.logs import SqliteLog
from npss_registry.records import Forget, Setup, Snapshot, claim_of, message, read, shard_of, spelled

FORMS = ("nfc", "nfd", "nfkc", "nfkd")


def text_of(codes):
    """A string as KEYS.txt spells it."""
    return "" if codes == "-" else "".join(chr(int(code, 16)) for code in codes.split())


def fixture_keys(name, form):
    """The strings of KEYS.txt for a version and a form, each with its caseless key; None where it is refused."""
    for line in (FIXTURES / "caseless" / "KEYS.txt").read_text(encoding="utf-8").splitlines():
        words, *rest = line.split(" / ")
        if words == f"{name} {form}":
            yield text_of(rest[0]), None if rest[1].startswith("unassigned") else text_of(rest[1])


class CaselessCase(Case):
    """Stores of a folder over a caseless log."""

    setup = Setup("nfkc", 1000, 1, False, caseless=True)

    def store(self, name, files=FOLDED_OLD, setup=None):
        return super().store(name, files, setup)

    def node(self, name, files=FOLDED_OLD, setup=None):
        return super().node(name, files, setup)

    def written(self, body, shard=0):
        """Writes a record as no node does; its place."""
        log = SqliteLog(self.log)
        try:
            return log.append([(shard, body)])[0]
        finally:
            log.close()

    def claim(self, string, key, caseless, owner="w"):
        """The bytes of a claim with these keys; without a caseless one where that is None."""
        return spelled(claim_of(message(self.setup.form, string, key), owner, caseless))


class Caseless(CaselessCase):
    """Which names are one."""

    def test_names_are_one_where_their_caseless_keys_are(self):
        for form in FORMS:
            self.log = str(self.folder / form)
            node, held = self.node(f"store {form}", setup=replace(self.setup, form=form)), {}
            for number, (string, key) in enumerate(fixture_keys("v1", form)):
                if key is None:
                    self.assertRaises(Unassigned, node.claim, string, "x")
                    self.assertRaises(Unassigned, node.find, string)
                    continue
                outcome = node.claim(string, f"owner {number}")
                wanted = held.setdefault(key, (string, f"owner {number}"))
                self.assertEqual((outcome.what, outcome.holder.string, outcome.holder.owner), ("registered" if wanted[0] == string and outcome.new else "taken", *wanted))
                self.assertEqual(outcome.new, wanted == (string, f"owner {number}"))
                self.assertEqual([(row.string, row.owner, row.caseless) for row in node.find(string)], [(*wanted, key)])
            self.assertEqual(sum(len(shard.node) for shard in node.shards), len(held))
            self.assertGreater(len(held), 10)
            node.close()
            self.assertEqual(self.judged(node.store.path), [])

    def test_an_owner_asks_again_by_the_same_name(self):
        node = self.node("one")
        asked = ("A", "x"), ("A", "x"), ("a", "x"), ("A", "y")
        self.assertEqual([node.claim(*one).what for one in asked], ["registered", "registered", "taken", "taken"])
        self.assertEqual([node.forget("a").what, node.forget("A", "y").what, node.forget("A").what], ["not registered", "taken", "forgotten"])
        self.assertEqual(node.claim("a", "y").what, "registered")

    def test_many_claims_at_once(self):
        node = self.node("one", setup=replace(self.setup, shards=7))
        outcomes = node.claim_many([("A\u030a", "x"), ("a\u030a", "y"), ("\u212b", "z"), ("\ue000", "x"), ("AA", "y"), (YOUNG, "x"),
                                    (b"\xef\xac\x81", "x"), ("f" * 2, "y")])
        self.assertEqual([getattr(one, "what", type(one)) for one in outcomes],
                         ["registered", "taken", "taken", "registered", "taken", Unassigned, "registered", "taken"])
        for string, key in (("A\u030a", "a\u030a"), ("\ue000", "aa"), ("\ufb01", "ii")):
            self.assertEqual(node.store.holder(shard_of(key, 7), string, key).caseless, key)

    def test_whether_two_names_are_the_same(self):
        node = self.node("one")
        for name in ("A", "aa"):
            node.claim(name, "x")
        for left, right, wanted in (("A", "A", True), ("A", "aa", False), ("A", "a", None), ("i", "A", None)):
            self.assertIs(node.same(left, right), wanted)

    def test_one_key_and_two_caseless_keys(self):
        """A mark that folds to a letter, before what becomes a lower mark: by its key the name is one with the other, and by its caseless key it isn't."""
        data = self.folder / "data"
        data.write_bytes(Path(OLD[0]).read_bytes() + b"FF9E;X;Lm;0;L;<narrow> 093C;;;;N;;;;;\n")
        one, other = "a\u0327\uff9e", "a\u093c\u0327"
        node = self.node("one", [str(data), *FOLDED_OLD[1:]])
        first, second = node.claim(one, "x"), node.claim(other, "y")
        self.assertEqual((first.what, first.holder.key, first.holder.caseless), ("registered", other, "a\u0915\u093c"))
        self.assertEqual((second.what, second.holder.key, second.holder.caseless), ("registered", other, "a\u093c\u0915"))
        self.assertEqual([entry.string for entry in node.shards[0].node], [one, other])
        self.assertEqual([[row.owner for row in node.find(name)] for name in (one, other)], [["x"], ["y"]])
        self.assertIs(node.same(one, other), False)
        node.close()
        self.assertEqual(self.judged(node.store.path), [])
        self.open(node.store.path).forget(one)
        self.assertEqual(self.judged(node.store.path), [])


class CaselessLogs(CaselessCase):
    """What stands in a caseless log, and what doesn't."""

    def test_the_setup_and_claims_tell_it(self):
        node = self.node("one")
        node.claim("\ue000", "x")
        node.forget("\ue000")
        records = [json.loads(body) for _, body in self.bodies()]
        self.assertEqual((records[0]["setup"], records[0]["caseless"], records[1]["caseless"], "caseless" in records[2]), (4, True, "aa", False))
        self.assertEqual(base64.b64decode(records[1]["claim"]), message("nfkc", "\ue000", "\ue000"))
        snapshot = spelled(Snapshot(node.setup))
        self.assertEqual((json.loads(snapshot)["setup"], read(1, snapshot).setup), (5, node.setup))

    def test_other_logs_stay_as_they_are(self):
        self.setup = Setup("nfkc", 100, 1, False)
        path = super().store("one", OLD)
        node = self.open(path)
        node.claim("A", "x")
        self.assertEqual([json.loads(spelled(record))["setup"] for record in (node.setup, Snapshot(node.setup))], [2, 3])
        self.assertEqual([sorted(json.loads(body)) for _, body in self.bodies()], [
            ["before", "equivalents", "form", "kept", "most_bytes", "name", "nonce", "room", "setup", "shards"], ["claim", "nonce", "owner"]])
        # What nodes have passed over so far is passed over.
        self.written(spelled(claim_of(message("nfkc", "a", "a"), "y", "A")))
        node.catch_up()
        self.assertEqual([(row.owner, row.caseless) for row in node.find("a")], [("y", None)])
        node.close()
        self.assertEqual(self.judged(path), [])

    def test_what_is_no_setup(self):
        fields = json.loads(spelled(replace(self.setup, name="n")))
        for words in ({"caseless": 1}, {"caseless": None}, {"caseless": "true"}, {"equivalents": True}):
            self.assertRaisesRegex(LogBroken, "is no record", read, 1, json.dumps({**fields, **words}).encode(), 2)
        self.assertEqual(read(1, json.dumps({**fields, "setup": 2, "caseless": False}).encode(), 2), replace(self.setup, name="n", caseless=False))

    def test_an_older_program_reads_no_setup_of_a_caseless_log(self):
        """It knows the setups 1 to 3, and passes over a word that it doesn't know: so a caseless log has none of them, and another log no other."""
        fields = json.loads(spelled(replace(self.setup, name="n")))
        for number in range(2, 7):
            for caseless, own in ({"caseless": True}, (4, 5)), ({"caseless": False}, (2, 3)), ({}, (2, 3)):
                record = {name: one for name, one in {**fields, "setup": number}.items() if name != "caseless"} | caseless
                if number in own:
                    found = read(1, json.dumps(record).encode(), 2)
                    self.assertIs((found.setup if isinstance(found, Snapshot) else found).caseless, bool(caseless.get("caseless")), record)
                else:
                    self.assertRaisesRegex(LogBroken, "is no record", read, 1, json.dumps(record).encode(), 2)

    def test_a_claim_without_its_caseless_key_is_no_record(self):
        for string, key in (("A", "A"), (YOUNG, YOUNG), (YOUNG_A, YOUNG_A)):
            for words in ({}, {"caseless": None}, {"caseless": 7}, {"caseless": "\ud800"}):
                self.log = str(self.folder / f"{ord(string)} {words!r}")
                node = self.node(f"store {ord(string)} {words!r}")
                place = self.written(json.dumps({**json.loads(self.claim(string, key, None)), **words}).encode())
                with self.assertRaisesRegex(LogBroken, "is no record") as caught:
                    node.catch_up()
                self.assertEqual(caught.exception.place, place)
                node.abandon()
                self.assertRegex("\n".join(self.judged(node.store.path)), f"at place {place}: what stands there is no record")

    def test_a_wrong_caseless_key_stops_each_node_that_can_make_it(self):
        node = self.node("one")
        node.claim("A", "x")
        for string, key, caseless in (("i", "i", "I"), ("a", "a", "A"), ("\ufb01", "fi", "fi"), ("\u212b", "\u00c5", "\u00e5")):
            place = self.written(self.claim(string, key, caseless))
            with self.assertRaisesRegex(LogBroken, "its caseless key is not that of its string") as caught:
                node.catch_up()
            self.assertEqual(caught.exception.place, place)
            node.abandon()
            self.assertRegex("\n".join(self.judged(node.store.path)), f"at place {place}: its caseless key")
            changed(self.log, ("DELETE FROM record WHERE place = ?", place))
            node = self.open(node.store.path)
            node.catch_up()

    def test_a_record_in_the_shard_of_its_key_stops_the_node(self):
        self.setup = replace(self.setup, shards=4)
        node = self.node("one")
        folded = {"A": "a", "f": "i", "\ue001": "aa", "\ue010": "\ue00f"}
        name, caseless = next(pair for pair in folded.items() if shard_of(pair[0], 4) != shard_of(pair[1], 4))
        for body in (self.claim(name, name, caseless), spelled(Forget(name, 1))):
            place = self.written(body, shard_of(name, 4))
            with self.assertRaisesRegex(LogBroken, "belongs to shard") as caught:
                node.catch_up()
            self.assertEqual(caught.exception.place, place)
            node.abandon()
            changed(self.log, ("DELETE FROM record WHERE place = ?", place))
            node = self.open(node.store.path)


class CaselessStores(CaselessCase):
    """Stores over caseless logs, and over others."""

    def test_later_stores_take_it_from_the_log(self):
        self.store("one")
        self.assertEqual(replace(init(str(self.folder / "two"), version(FOLDED_OLD), None, self.log), name=""), self.setup)
        named = replace(self.setup, caseless=False)
        self.assertEqual(replace(init(str(self.folder / "named"), version(FOLDED_OLD), named, self.log), name=""), self.setup)
        for setup in (replace(named, equivalents=True), replace(named, form="nfc")):
            self.assertRaisesRegex(Differs, "caseless", init, str(self.folder / "three"), version(FOLDED_OLD), setup, self.log)
        for setup in (None, self.setup, named):
            self.assertRaisesRegex(StoreError, "third file", init, str(self.folder / "three"), version(OLD), setup, self.log)
        plain = str(self.folder / "plain")
        for setup in (None, Setup("nfkc", 9, 1, False)):
            self.assertRaisesRegex(StoreError, "two files", init, str(self.folder / "three"), version(FOLDED_OLD), setup, plain)
        init(str(self.folder / "four"), version(OLD), None, plain)
        self.assertRaisesRegex(StoreError, "two files", init, str(self.folder / "three"), version(FOLDED_OLD), None, plain)
        self.assertRaises(Differs, init, str(self.folder / "three"), version(FOLDED_OLD), Setup("nfc", 65536, 1, False, caseless=True), plain)
        self.assertFalse((self.folder / "three").exists())

    def test_the_words(self):
        path, log = str(self.folder / "one"), ("--log", self.log)
        for words in (("--caseless", path, *OLD), ("--caseless", "--equivalents", path, *FOLDED_OLD)):
            with self.assertRaises(SystemExit) as caught:
                self.run_words("init", *words, *log)
            self.assertEqual(caught.exception.code, 2)
        output = "form nfkc, caseless, room 65536, shards 1, equivalents refused, names of at most 1024 bytes\n"
        self.assertEqual(self.run_words("init", "--caseless", path, *FOLDED_OLD, "--form", "nfkc", *log), (0, output, ""))
        other = str(self.folder / "two")
        self.assertEqual(self.run_words("init", other, *OLD, *log)[0], 4)
        self.assertRegex(self.run_words("init", other, *OLD, "--form", "nfkc", *log)[2], "third file")
        self.assertRegex(self.run_words("init", other, *FOLDED_OLD, "--equivalents", "--form", "nfkc", *log)[2], "set up otherwise")
        self.assertEqual(self.run_words("init", other, *FOLDED_OLD, *log), (0, output, ""))
        self.assertEqual(self.run_words("init", str(self.folder / "three"), *FOLDED_OLD, "--form", "nfkc", *log), (0, output, ""))
        self.assertEqual(self.run_words("claim", path, "A", "--owner", "x"), (0, "registered 'A' of 'x' at place 2\n", ""))
        self.assertEqual(self.run_words("claim", other, "a", "--owner", "y"), (1, "taken 'A' of 'x' at place 2\n", ""))
        self.assertEqual(self.run_words("find", other, "a"), (0, "2\t'A'\tx\n", ""))
        for files in (OLD, NEW):
            self.assertEqual(self.run_words("upgrade", path, *files)[0], 4)
        self.assertEqual(self.run_words("upgrade", path, *FOLDED_NEW)[0], 0)

    def test_a_store_that_lost_a_file(self):
        node = self.node("one")
        node.close()
        changed(node.store.path, "UPDATE version SET folding = NULL")
        self.assertRaisesRegex(StoreError, "a version has no CaseFolding.txt", Registry, node.store.path)
        changed(node.store.path, "UPDATE setup SET caseless = 0")
        self.assertRaisesRegex(Differs, "caseless", Registry, node.store.path)

    def test_a_store_of_the_layout_before_is_read_on(self):
        self.setup = Setup("nfkc", 100, 2, False)
        node = self.open(super().store("one", OLD))
        for name in ("A", "a", "\ufb01"):
            node.claim(name, "x")
        node.forget("a")
        node.close()
        earlier(node.store.path, THIRD_LAYOUT)
        with self.assertRaisesRegex(StoreError, "earlier one"):
            from npss_registry.store import Store
            Store(node.store.path, read_only=True)
        self.assertEqual(self.judged(node.store.path), [])
        again = self.open(node.store.path)
        self.assertEqual([again.claim("a", "y").what, again.claim("fi", "y").what, again.find("A")[0].caseless], ["registered", "taken", None])
        again.close()
        self.assertEqual(self.judged(node.store.path), [])
        with closing(sqlite3.connect(node.store.path)) as base:
            self.assertEqual(base.execute("SELECT layout, caseless FROM setup").fetchall(), [(4, 0)])


class CaselessVersions(CaselessCase):
    """Nodes of unlike versions over a caseless log."""

    def test_a_lagging_node_counts_the_caseless_key_of_a_parked_name(self):
        old, new = self.node("old"), self.node("new", FOLDED_NEW)
        outcome = new.claim(YOUNG_A, "x")
        self.assertEqual((outcome.holder.key, outcome.holder.caseless), (YOUNG_A, "a"))
        for name in ("a", "A"):
            taken = old.claim(name, "y")
            self.assertEqual((taken.what, taken.holder.string, taken.holder.parked), ("taken", YOUNG_A, True))
            self.assertEqual([row.owner for row in old.find(name)], ["x"])
        self.assertRaises(Unassigned, old.find, YOUNG_A)
        self.assertEqual(old.upgrade(version(FOLDED_NEW)), [])
        self.assertEqual([entry.string for entry in old.shards[0].node], [YOUNG_A])
        self.assertEqual([row.owner for row in old.find(YOUNG_A)], ["x"])
        for node in (old, new):
            node.close()
        self.assertEqual(self.judged(old.store.path, new.store.path), [])

    def test_a_name_that_lags_behind_nothing(self):
        """The young name comes second: who has all and who lags behind say the same."""
        old, new = self.node("old"), self.node("new", FOLDED_NEW)
        old.claim("A", "x")
        self.assertEqual([new.claim(YOUNG_A, "y").what, new.claim("a\u0323", "y").what, new.claim("A" + YOUNG, "z").what], ["taken", "registered", "taken"])
        old.catch_up()
        self.assertEqual([row.string for row in old.store.registrations(0)], ["A", "a\u0323"])

    def test_a_wrong_caseless_key_of_a_parked_name_stops_the_upgrade(self):
        old = self.node("old")
        place = self.written(self.claim(YOUNG_A, YOUNG_A, "i"))
        self.assertEqual(old.claim("f", "y").what, "taken")  # its key is i, as the record has it
        with self.assertRaisesRegex(LogBroken, "its caseless key is not that of its string") as caught:
            old.upgrade(version(FOLDED_NEW))
        self.assertEqual(caught.exception.place, place)
        old.abandon()
        again = self.open(old.store.path)
        self.assertEqual((len(again.store.versions()), [row.string for row in again.status()[0].parked]), (1, [YOUNG_A]))
        again.abandon()
        new = self.node("new", FOLDED_NEW)
        with self.assertRaisesRegex(LogBroken, "its caseless key") as caught:
            new.catch_up()
        self.assertEqual(caught.exception.place, place)

    def test_a_lagging_node_parks_no_caseless_key_that_is_none(self):
        """A caseless key is its own under each earlier version too: so it is examined, as far as the node has its code points."""
        old, new = self.node("old"), self.node("new", FOLDED_NEW)
        for caseless in ("A", "f", "\ufb01", "a\u0302", "\ue010"):
            place = self.written(self.claim(YOUNG + "A", YOUNG + "A", caseless))
            for node in (old, new):
                with self.assertRaisesRegex(LogBroken, "its caseless key is not that of its string") as caught:
                    node.catch_up()
                self.assertEqual(caught.exception.place, place)
                node.abandon()
            self.assertRegex("\n".join(self.judged(old.store.path)), f"at place {place}: its caseless key")
            changed(self.log, ("DELETE FROM record WHERE place = ?", place))
            old, new = self.open(old.store.path), self.open(new.store.path)
        # The old version lacks a code point of this key (KEYS.txt), so it is taken as it is carried.
        new.claim("A\U00016d67", "x")
        old.catch_up()
        self.assertEqual([(row.string, row.caseless) for row in old.status()[0].parked], [("A\U00016d67", "a\U00016d67")])

    def test_a_version_is_audited_with_its_folding(self):
        node = self.node("one")
        node.claim("A", "x")
        for folding, wanted in ((FIXTURES / "caseless" / "changed" / "CaseFolding.txt", ("FoldingChanged", 0x41)), (None, None)):
            if folding is None:
                self.assertRaisesRegex(StoreError, "third file", node.upgrade, version(NEW))
            else:
                with self.assertRaises(NotOneChain) as caught:
                    node.upgrade(version([*NEW, str(folding)]))
                self.assertEqual(caught.exception.first, wanted)
        self.assertEqual((len(node.store.versions()), node.claim("aa", "x").what), (1, "registered"))
        self.assertEqual(node.upgrade(version(FOLDED_NEW)), [])
        self.assertEqual(node.upgrade(version(FOLDED_NEW)), [])
        node.close()
        wanted = [Path(files[2]).read_bytes() for files in (FOLDED_OLD, FOLDED_NEW)]
        self.assertEqual([one.folding for one in self.open(node.store.path).store.versions()], wanted)
        self.assertEqual(self.judged(node.store.path), [])

    def test_a_registry_without_folding_takes_none(self):
        self.setup = Setup("nfkc", 100, 1, False)
        node = self.open(super().store("one", OLD))
        self.assertRaisesRegex(StoreError, "two files", node.upgrade, version(FOLDED_NEW))
        self.assertEqual(node.upgrade(version(NEW)), [])
