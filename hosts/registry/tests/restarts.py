"""Stores that are opened again."""

import contextlib
import os
import shutil
import sqlite3
import tempfile
from pathlib import Path

from cases import OLD, Case, version
from npss_registry import InUse, LogBroken, Registry, RegistryError, StoreError, init
from npss_registry.records import Setup, claim_of, message, spelled


class Restarts(Case):
    """Stores that are opened again."""

    def test_a_store_goes_on_where_it_stood(self):
        node = self.node("one")
        for name in ("a", "A", "i"):
            node.claim(name, "x")
        node.forget("A")
        for end in (node.abandon, lambda: again.close()):
            end()
            again = self.open(node.store.path)
            self.assertEqual([entry.string for entry in again.shards[0].node], ["a", "i"])
        self.assertEqual(self.judged(node.store.path), [])

    def test_a_node_whose_last_save_fails_lets_go(self):
        node = self.node("one")
        node.claim("a", "x")
        with contextlib.closing(sqlite3.connect(node.store.path)) as other:
            other.execute("ALTER TABLE image RENAME TO image_aside")
            with self.assertRaises((RegistryError, sqlite3.Error)):
                node.close()
            other.execute("ALTER TABLE image_aside RENAME TO image")
        self.assertEqual([entry.string for entry in self.open(node.store.path).shards[0].node], ["a"])

    def test_what_a_cut_of_the_power_takes_is_read_again(self):
        node = self.node("one")
        node.claim("a", "x")
        path, name = node.store.path, node.store.node
        kept = {end: Path(path + end).read_bytes() for end in ("", "-wal")}
        node.claim("A", "x")
        node.forget("a")
        node.abandon()
        for end, content in kept.items():
            with open(path + end, "r+b" if os.path.exists(path + end) else "wb") as file:
                file.write(content)
                file.truncate()
        again = self.open(path)
        self.assertEqual([row.string for row in again.store.registrations(0)], ["a"])
        again.catch_up()
        self.assertEqual(([row.string for row in again.store.registrations(0)], again.store.node), (["A"], name))
        again.close()
        self.assertEqual(self.judged(path), [])

    def test_one_process_works_on_a_store(self):
        node = self.node("one")
        self.assertRaises(InUse, Registry, node.store.path)

    def test_no_other_name_of_a_store_gets_round_its_lock(self):
        node = self.node("one")
        other = str(self.folder / "other")
        os.symlink(node.store.path, other)
        self.assertRaises(InUse, Registry, other)
        os.unlink(other)
        os.link(node.store.path, other)
        for path in (other, node.store.path):
            self.assertRaisesRegex(StoreError, "another name besides", Registry, path)
        os.unlink(other)
        self.assertEqual(node.claim("a", "x").what, "registered")
        node.close()
        self.assertEqual(self.judged(node.store.path), [])

    def test_a_symbolic_link_is_the_store(self):
        node = self.node("one")
        node.close()
        link = self.folder / "elsewhere" / "link"
        link.parent.mkdir()
        link.symlink_to(node.store.path)
        again = self.open(str(link))
        self.assertEqual((again.claim("a", "x").what, again.store.node), ("registered", node.store.node))

    def test_a_log_that_no_node_wrote_stops_the_node_at_its_place(self):
        for body in (b"[]", b"\xff", spelled(claim_of(message("nfc", "a\u0302", "a"), "x")), b'{"claim":"Qw==","owner":"x"}',
                     spelled(claim_of(message("nfd", "a", "a"), "x")), spelled(self.setup), spelled(Setup("nfc", 5, 1, False)), b"[" * 100_000, b'{"setup":2}',
                     b'{"claim":"QwAAAAFhAAAAAWE=","owner":"\\ud800"}', b'{"forget":"a","place":1e999}', b'{"forget":"a","place":%d}' % (1 << 63)):
            with self.subTest(body), tempfile.TemporaryDirectory() as folder:
                path, log = os.path.join(folder, "store"), os.path.join(folder, "log")
                init(path, version(OLD), self.setup, log)
                node = Registry(path)
                place = node.log.append([(0, body)])[0]
                with self.assertRaises(LogBroken) as caught:
                    node.claim("A", "x")
                self.assertEqual(caught.exception.place, place)
                self.assertRaises(StoreError, node.claim, "A", "x")
                node.abandon()

    def test_a_backup_that_is_brought_back_gets_another_name(self):
        node = self.node("one")
        node.claim("a", "x")
        copy = str(self.folder / "copy")
        node.store.backup(copy)
        node.claim("A", "x")
        again = self.open(copy)
        self.assertNotEqual(again.store.node, node.store.node)
        again.catch_up()
        self.assertEqual(again.find("A")[0].owner, "x")
        self.assertEqual(self.judged(node.store.path, copy), [])
        again.close()
        name = again.store.node
        self.assertEqual(self.open(copy).store.node, name)

    def test_a_backup_over_the_store_gets_another_name(self):
        node = self.node("one")
        node.claim("a", "x")
        node.close()
        path, name = node.store.path, node.store.node
        kept = Path(path).read_bytes()
        again = self.open(path)
        self.assertEqual(again.store.node, name)
        again.claim("A", "x")
        again.close()
        Path(path).write_bytes(kept)
        back = self.open(path)
        self.assertNotEqual(back.store.node, name)
        back.catch_up()
        self.assertEqual([entry.string for entry in back.shards[0].node], ["a", "A"])
        back.close()
        self.assertEqual(self.judged(path), [])

    def test_a_folder_that_was_copied_whole_gets_another_name(self):
        node = self.node("one")
        node.claim("a", "x")
        node.close()
        name, copy = node.store.node, self.folder / "copy"
        copy.mkdir()
        for end in ("", "-lock"):
            shutil.copy(node.store.path + end, copy / f"one{end}")
        self.assertNotEqual(self.open(str(copy / "one")).store.node, name)
        self.assertEqual(self.open(node.store.path).store.node, name)
