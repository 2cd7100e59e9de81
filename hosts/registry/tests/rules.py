"""What becomes of claims and forgets, and nodes of unlike versions."""

from npss import NotUtf8, TooLong, Unassigned

from cases import NEW, OLD, YOUNG, Case, changed, version
from npss_registry import LogBroken, NotOneChain, StoreError
from npss_registry.records import Forget, Setup, shard_of, spelled


class Rules(Case):
    """What becomes of claims and forgets."""

    def test_a_claim_is_registered_once(self):
        one, other = self.node("one"), self.node("other")
        first = one.claim("a\u0302", "x")
        self.assertEqual((first.what, first.new, first.holder.key), ("registered", True, "\u00e2"))
        again = other.claim("a\u0302", "x")
        self.assertEqual((again.what, again.new, again.holder.place), ("registered", False, first.holder.place))
        self.assertEqual(other.claim("a\u0302", "y").what, "taken")
        taken = other.claim("\u00e2", "x")
        self.assertEqual((taken.what, taken.holder.string), ("taken", "a\u0302"))
        self.assertEqual([row.string for row in one.find("\u00e2")], ["a\u0302"])
        self.assertEqual(one.find("A"), [])

    def test_equivalents_where_they_are_allowed(self):
        node = self.node("one", setup=Setup("nfc", 100, 1, True))
        self.assertEqual([node.claim(name, "x").what for name in ("a\u0302", "\u00e2")], ["registered"] * 2)
        self.assertTrue(node.same("a\u0302", "\u00e2"))
        self.assertIsNone(node.same("a\u0302", "A"))
        self.assertEqual(len(node.find("\u00e2")), 2)

    def test_a_full_shard(self):
        node = self.node("one", setup=Setup("nfc", 1, 1, False))
        self.assertEqual([node.claim(name, "x").what for name in ("A", "a", "A")], ["registered", "full", "registered"])
        node.forget("A")
        self.assertEqual(node.claim("a", "x").what, "registered")

    def test_what_is_refused_at_once_writes_no_record(self):
        node = self.node("one")
        before = node.log.lasts(1)[0]
        for name, error in (("A" * 65_537, TooLong), (b"A\xff", NotUtf8), (YOUNG, Unassigned)):
            self.assertRaises(error, node.claim, name, "x")
        self.assertRaises(UnicodeEncodeError, node.claim, "\ud800", "x")
        self.assertEqual(node.claim("A" * 65_536, "x").what, "registered")
        self.assertEqual(node.log.lasts(1)[0], before + 1)

    def test_a_forget_ends_the_registration_that_it_names_alone(self):
        one, other = self.node("one"), self.node("other")
        place = one.claim("A", "x").holder.place
        self.assertEqual(one.forget("A", "y").what, "taken")
        self.assertEqual(one.forget("A", "x").what, "forgotten")
        self.assertEqual(one.forget("A").what, "not registered")
        self.assertEqual(other.claim("A", "y").what, "registered")
        # The forget comes once more, late.
        other.log.append([(0, spelled(Forget("A", place)))])
        for node in (one, other):
            node.catch_up()
            self.assertEqual(node.find("A")[0].owner, "y")

    def test_many_claims_at_once(self):
        node = self.node("one", setup=Setup("nfc", 100, 7, False))
        outcomes = node.claim_many([("a", "x"), ("a\u0302", "x"), ("\u00e2", "y"), ("a", "y"), (YOUNG, "x"), ("A" * 9, "x")])
        self.assertEqual([getattr(one, "what", type(one)) for one in outcomes],
                         ["registered", "registered", "taken", "taken", Unassigned, "registered"])
        self.assertEqual(node.store.holder(shard_of("a", 7), "a", "a").owner, "x")
        self.assertEqual(sum(len(shard.node) for shard in node.shards), 3)


class Versions(Case):
    """Nodes of unlike versions."""

    def test_a_record_with_a_code_point_that_is_missing_is_parked(self):
        old, new = self.node("old"), self.node("new", NEW)
        new.claim(YOUNG, "x")
        self.assertRaises(Unassigned, old.claim, YOUNG, "y")
        self.assertRaises(Unassigned, old.find, YOUNG)
        old.catch_up()
        self.assertEqual((old.status()[0].registered, [row.string for row in old.status()[0].parked], len(old.shards[0].node)), (1, [YOUNG], 0))
        self.assertEqual(old.upgrade(version(NEW)), [])
        self.assertEqual([entry.string for entry in old.shards[0].node], [YOUNG])
        self.assertEqual(old.find(YOUNG)[0].owner, "x")
        self.assertEqual(self.judged(old.store.path, new.store.path), [])

    def test_a_lagging_node_does_not_give_away_a_key_of_a_parked_name(self):
        setup = Setup("nfkc", 100, 1, False)
        # v2 with a compatibility mapping of a code point that v1 lacks.
        data, exclusions = version(NEW).data, version(NEW).exclusions
        young = b"1DFB;X;Ll;0;L;<compat> 0061;;;;N;;;;;\n"
        at = data.index(b"1EA1;")
        newer = self.folder / "data"
        newer.write_bytes(data[:at] + young + data[at:])
        old, new = self.node("old", setup=setup), self.node("new", [str(newer), NEW[1]], setup)
        self.assertEqual(new.claim("\u1dfb", "x").holder.key, "a")
        taken = old.claim("a", "y")
        self.assertEqual((taken.what, taken.holder.string, taken.holder.parked), ("taken", "\u1dfb", True))

    def test_a_name_that_is_marked_as_parked_and_is_not(self):
        node = self.node("one")
        node.claim("a", "x")
        node.close()
        changed(node.store.path, "UPDATE registration SET parked = 1")
        again = self.open(node.store.path)
        with self.assertRaisesRegex(StoreError, f"{node.store.path}: it marks 'a' as parked, which its node keeps; see `npss-registry check`") as caught:
            again.upgrade(version(NEW))
        self.assertNotIsInstance(caught.exception, LogBroken)
        again.abandon()
        changed(node.store.path, "UPDATE registration SET parked = 0")
        self.assertEqual(self.open(node.store.path).upgrade(version(NEW)), [])

    def test_a_version_that_breaks_the_chain_is_refused(self):
        node = self.node("one", NEW)
        with self.assertRaises(NotOneChain) as caught:
            node.upgrade(version(OLD))
        self.assertEqual(caught.exception.first, ("Lost", 0x1DFA))
        self.assertEqual(node.claim("A", "x").what, "registered")
        self.assertEqual(node.upgrade(version(NEW)), [])
        self.assertEqual(len(node.store.versions()), 1)
