"""Caseless logs: what the judge sees of them, how they are trimmed and given up for another one, backed up and served."""

import json
import re
import sqlite3
import zlib
from contextlib import closing
from pathlib import Path

from cases import FOLDED_NEW, FOLDED_OLD, OLD, PROGRAM, YOUNG, YOUNG_A, changed, version
from caseless_names import CaselessCase
from npss_registry import LogBroken, NotOneChain, Registry, StoreError, init
from npss_registry.caseless import CaselessKeys
from npss_registry.errors import NoProgram
from npss_registry.judge import Judge
from npss_registry.records import Name, Setup, sum_of_names
from npss_registry.relog import relog
from npss_registry.trim import trim
from serving import ServingCase, claim


class CaselessJudging(CaselessCase):
    """The judge holds caseless keys against the log's, and against what the programs make."""

    def beside(self, *lines):
        """The path of a program npss beside which npss_lines is another one: a script of these lines, which has the right one as $LINES."""
        folder = self.folder / "programs"
        folder.mkdir(exist_ok=True)
        for name in ("npss", "npss_caseless"):
            if not (folder / name).exists():
                (folder / name).symlink_to(Path(PROGRAM).with_name(name).resolve())
        script = folder / "npss_lines"
        script.write_text("\n".join(("#!/bin/sh", f"LINES={Path(PROGRAM).with_name('npss_lines').resolve()}", *lines, "")), encoding="utf-8")
        script.chmod(0o755)
        return str(folder / "npss")

    def found(self, path, program):
        """What the judge finds who runs a program."""
        judge = Judge([path], program)
        try:
            return "\n".join(judge.run())
        finally:
            judge.close()

    def test_a_change_of_a_caseless_key_is_seen(self):
        node = self.node("one")
        for name in ("A", "\ue000"):
            node.claim(name, "x")
        node.forget("A")
        node.close()
        path = node.store.path
        self.assertEqual(self.judged(path), [])
        for change in ("UPDATE registration SET caseless = CAST('A' AS BLOB) WHERE place = 2",
                       "UPDATE registration SET caseless = CAST('A' AS BLOB) WHERE place = 3",
                       "UPDATE registration SET caseless = NULL WHERE place = 3", "UPDATE setup SET caseless = 0", "UPDATE version SET folding = NULL",
                       "UPDATE version SET folding_sum = zeroblob(32)", "UPDATE version SET folding_sum = NULL"):
            copy = str(self.folder / "copy")
            Path(copy).unlink(missing_ok=True)
            with closing(sqlite3.connect(path)) as base, closing(sqlite3.connect(copy)) as other:
                base.backup(other)
            changed(copy, change)
            try:
                self.assertTrue(self.judged(copy), change)
            except StoreError as error:  # of the only store that was named
                self.assertRegex(str(error), "caseless|CaseFolding")

    def test_what_another_program_makes_is_seen(self):
        node = self.node("one")
        for name in ("A", "f"):
            node.claim(name, "x")
        node.close()
        self.assertEqual(self.found(node.store.path, self.beside('exec "$LINES" "$@"')), "")
        for change, answer in (("s/^=a$/=A/", "=A"), ("s/^=a$/!not UTF-8 at byte 0/", "!not UTF-8 at byte 0"), ("s/^=i$/!too long/", "!too long")):
            found = self.found(node.store.path, self.beside(f"\"$LINES\" \"$@\" | sed '{change}'"))
            self.assertRegex(found, f"at place [23] '[Af]' with the caseless key '[ai]'; the program answers '{answer}'")
        for script, why in (('"$LINES" "$@"; exit 3', "status 3"), ('"$LINES" "$@" | head -1', "1 answers to 2 names"),
                            ('"$LINES" "$@"; printf x', "2 answers to 2 names")):
            self.assertRaisesRegex(StoreError, why, self.found, node.store.path, self.beside(script))
        Path(self.beside("")).with_name("npss_lines").unlink()
        self.assertRaisesRegex(NoProgram, "npss_lines can't be run: .*--program", self.found, node.store.path, str(self.folder / "programs" / "npss"))

    def test_names_and_caseless_keys_with_line_ends(self):
        data, folding = self.folder / "data", self.folder / "folding"
        controls = "".join(f"{code:04X};<control>;Cc;0;BN;;;;;N;;;;;\n" for code in (0, 10, 13))
        data.write_bytes(controls.encode() + Path(OLD[0]).read_bytes())
        folding.write_bytes(Path(FOLDED_OLD[2]).read_bytes() + b"E020; C; 000A;\nE021; C; 0000;\n")
        files = [str(data), OLD[1], str(folding)]
        names = {"A": "a", "A\n": "a\n", "\n": "\n", "A\n\0": "a\n\0", "\0": "\0", "A\r": "a\r", "\ue020": "\n", "A\ue020": "a\n", "\n\ue021": "\n\0",
                 "\ue020\ue021A": "\n\0a", "": "", "\ue021\ue021": "\0\0"}
        node = self.node("one", files)
        held = {}
        for number, (name, key) in enumerate(names.items()):
            outcome = node.claim(name, str(number))
            self.assertEqual((outcome.holder.string, outcome.holder.caseless), (held.setdefault(key, name), key))
        node.close()
        self.assertEqual(self.judged(node.store.path), [])
        answers = CaselessKeys(PROGRAM, "nfkc", files).answers(names)
        self.assertEqual(answers, {name: f"={key}" for name, key in names.items()})

    def test_a_name_that_the_programs_refuse(self):
        answers = CaselessKeys(PROGRAM, "nfc", FOLDED_OLD).answers([YOUNG, "\n\0", "A"])
        self.assertEqual((answers[YOUNG], answers["A"]), ("!unassigned 1DFA at byte 0", "=a"))
        self.assertRegex(answers["\n\0"], "^!status .*: unassigned 000A at byte 0$")

    def test_names_that_no_version_has_in_full(self):
        old, new = self.node("old"), self.node("new", FOLDED_NEW)
        for name in ("A", YOUNG_A + "\u0302", "i"):
            new.claim(name, "x")
        old.catch_up()
        for node in (old, new):
            node.close()
        judge = Judge([old.store.path], PROGRAM)
        self.assertEqual((judge.run(), judge.unjudged), ([], {YOUNG_A + "\u0302"}))
        judge.close()
        self.assertEqual(self.judged(old.store.path, new.store.path), [])
        # No program makes its caseless key, and the log has it.
        changed(old.store.path, "UPDATE registration SET caseless = CAST('i' AS BLOB) WHERE parked")
        self.assertRegex("\n".join(self.judged(old.store.path)), "at place 3 the log has .*'\u00e2'.*, the store .*'i'")

    def test_stores_of_two_kinds(self):
        one = self.node("one")
        one.claim("A", "x")
        one.close()
        plain = str(self.folder / "plain")
        init(plain, version(OLD), Setup("nfkc", 1000, 1, False), str(self.folder / "other"))
        self.assertRegex("\n".join(self.judged(one.store.path, plain)), f"{plain}: it was set up as form nfkc, room")
        changed(plain, ("UPDATE setup SET log = ?", self.log))
        self.assertRaisesRegex(StoreError, "set up as form nfkc, room .*the log as form nfkc, caseless", self.judged, plain)


class CaselessTrims(CaselessCase):
    """Caseless logs that are trimmed, and that go on in another log."""

    def rows(self, path):
        with closing(sqlite3.connect(path)) as base:
            return [(string.decode(), owner, caseless.decode()) for string, owner, caseless in
                    base.execute("SELECT string, owner, caseless FROM registration WHERE ended IS NULL ORDER BY shard, place")]

    def written(self):
        """Closed stores of both versions over a log with a young name, and what they register."""
        new, old = self.node("new", FOLDED_NEW), self.node("old")
        for name in ("A", "\ue000", "f", YOUNG_A + "\u0302", "\ufb01"):
            new.claim(name, "x")
        new.forget("f")
        old.catch_up()
        for node in (new, old):
            node.close()
        return [new.store.path, old.store.path], [("A", "x", "a"), ("\ue000", "x", "aa"), (YOUNG_A + "\u0302", "x", "\u00e2"), ("\ufb01", "x", "ii")]

    def newcomer(self, name, files=FOLDED_OLD):
        path = str(self.folder / name)
        init(path, version(files), None, self.log)
        node = self.open(path)
        node.catch_up()
        return node

    def test_a_store_begins_with_the_caseless_keys_of_a_snapshot(self):
        paths, rows = self.written()
        self.assertEqual(trim(paths, PROGRAM).findings, [])
        self.assertEqual(json.loads(self.bodies()[0][1])["caseless"], True)
        node = self.newcomer("anew")
        self.assertEqual([self.rows(path) for path in (*paths, node.store.path)], [rows] * 3)
        self.assertEqual([node.claim(name, "y").what for name in ("a", "AA", "\u00e2", "ff", "f")], ["taken", "taken", "taken", "taken", "registered"])
        self.assertEqual(node.upgrade(version(FOLDED_NEW)), [])
        node.close()
        self.assertEqual(self.judged(*paths, node.store.path), [])
        self.assertEqual(trim([*paths, node.store.path], PROGRAM).findings, [])
        self.assertEqual(self.rows(self.newcomer("third", FOLDED_NEW).store.path), [*rows, ("f", "y", "i")])

    def test_what_stands_beside_the_log_has_caseless_keys(self):
        paths, _ = self.written()
        trim(paths, PROGRAM)
        with closing(sqlite3.connect(self.log)) as base:
            (part,), (end,) = base.execute("SELECT part FROM kept ORDER BY number").fetchall()
        entries, sums = json.loads(zlib.decompress(part)), json.loads(end)
        self.assertEqual([row[4] for row in entries], ["a", "aa", "\u00e2", "ii"])
        self.store("anew")

        def changes(rows):
            """What stands there, with its sum."""
            count, made = sum_of_names(Name(place, string, key or string, owner, *caseless) for place, string, key, owner, *caseless in rows)
            return (("UPDATE kept SET part = ? WHERE number = 0", zlib.compress(json.dumps(rows).encode())),
                    ("UPDATE kept SET part = ? WHERE number = 1", json.dumps({**sums, "names": count, "sum": made.hex()}).encode()))

        for rows, why in (([row[:4] for row in entries], "no caseless key"), ([[*entries[0][:4], "i"], *entries[1:]], "its caseless key"),
                          ([[*row[:4], "a"] for row in entries], "its caseless key")):
            changed(self.log, *changes(rows))
            node = Registry(str(self.folder / "anew"))
            self.assertRaisesRegex(LogBroken, why, node.catch_up)
            node.abandon()
            self.assertTrue(self.judged(paths[0]), why)
        changed(self.log, ("UPDATE kept SET part = ? WHERE number = 0", zlib.compress(json.dumps([row[:4] for row in entries]).encode())),
                ("UPDATE kept SET part = ? WHERE number = 1", json.dumps(sums).encode()))
        node = Registry(str(self.folder / "anew"))
        self.assertRaisesRegex(LogBroken, "its sum is another one", node.catch_up)
        node.abandon()

    def test_another_log_has_none_beside_it(self):
        self.setup = Setup("nfkc", 100, 1, False)
        node = self.node("one", OLD)
        node.claim("A", "x")
        node.close()
        trim([node.store.path], PROGRAM)
        rows = [[2, "A", None, "x", "a"]]
        count, made = sum_of_names([Name(2, "A", "A", "x", "a")])
        with closing(sqlite3.connect(self.log)) as base:
            end, = base.execute("SELECT part FROM kept WHERE number = 1").fetchone()
        self.assertEqual(len(json.loads(zlib.decompress(self.part()))[0]), 4)
        changed(self.log, ("UPDATE kept SET part = ? WHERE number = 0", zlib.compress(json.dumps(rows).encode())),
                ("UPDATE kept SET part = ? WHERE number = 1", json.dumps({**json.loads(end), "names": count, "sum": made.hex()}).encode()))
        init(str(self.folder / "two"), version(OLD), None, self.log)
        self.assertRaisesRegex(LogBroken, "a caseless key", self.open(str(self.folder / "two")).catch_up)

    def part(self):
        with closing(sqlite3.connect(self.log)) as base:
            return base.execute("SELECT part FROM kept WHERE number = 0").fetchone()[0]

    def test_to_another_log(self):
        paths, rows = self.written()
        new = str(self.folder / "new.log")
        done = relog(paths, new)
        self.assertEqual((done.registered, done.lost), (4, []))
        self.log = new
        self.assertEqual([json.loads(body).get("caseless") for _, body in self.bodies()], [True, "a", "aa", "\u00e2", "ii"])
        self.assertEqual([self.rows(path) for path in paths], [rows] * 2)
        node = self.open(paths[1])
        self.assertEqual([node.claim(name, "y").what for name in ("a", "\u00e2")], ["taken", "taken"])
        node.close()
        self.assertEqual(relog(paths, new).lost, [])
        self.assertEqual(self.judged(*paths), [])

    def test_a_machine_with_another_folding_file_stops_the_others(self):
        """Its file meets all conditions, so nothing tells at `init` that it is another one. The others go on in a new log, without it."""
        folding = self.folder / "folding"
        lines = Path(FOLDED_OLD[2]).read_text(encoding="utf-8").splitlines(keepends=True)
        folding.write_text("".join(line for line in lines if not line.startswith("E000;")), encoding="utf-8")
        other, right = self.node("other", [*OLD, str(folding)]), [self.node(name) for name in ("one", "two")]
        right[0].claim("A", "x")
        right[1].catch_up()
        place = other.claim("\ue000", "y").holder.place
        for node in right:
            with self.assertRaisesRegex(LogBroken, "its caseless key is not that of its string") as caught:
                node.catch_up()
            self.assertEqual(caught.exception.place, place)
            node.abandon()
        other.close()
        paths, new = [node.store.path for node in right], str(self.folder / "new.log")
        self.assertRaises(NotOneChain, self.open(other.store.path).upgrade, version(FOLDED_OLD))
        self.assertEqual(relog(paths, new).lost, [])
        self.log = new
        self.assertEqual([self.open(path).claim("\ue000", "y").what for path in paths], ["registered"] * 2)
        self.assertEqual(self.judged(*paths), [])

    def test_a_branch_that_is_given_up(self):
        """The same name in another case isn't the same name: it is told as lost."""
        one, other = self.node("one"), self.node("other")
        one.claim("A", "x")
        one.close()
        changed(self.log, "DELETE FROM record WHERE place = 2")
        other.claim("a", "x")
        other.close()
        done = relog([one.store.path, other.store.path], str(self.folder / "new.log"), other.store.path)
        self.assertEqual([row.registration.string for row in done.lost], ["A"])
        self.assertEqual(self.rows(one.store.path), [("a", "x", "a")])

    def test_a_backup(self):
        paths, rows = self.written()
        copy = str(self.folder / "copy")
        self.assertEqual(self.run_words("backup", paths[1], copy)[0], 0)
        node = self.open(copy)
        self.assertEqual((self.rows(copy), node.claim("a", "y").what), (rows, "taken"))
        self.assertEqual(self.run_words("list", paths[0])[1], "".join(f"{place}\t{string!r}\tx\n" for place, (string, _, _) in zip((2, 3, 5, 6), rows)))


class CaselessServing(CaselessCase, ServingCase):
    """A caseless registry over HTTP."""

    def test_names_over_http(self):
        server = self.serve()
        self.assertEqual(self.ask(server, "/claim", claim("A"))[0], 201)
        status, answer = self.ask(server, "/claim", claim("a", "y"))
        self.assertEqual((status, answer["holder"]["name"], answer["holder"]["key"], answer["holder"]["caseless"]), (409, "A", "A", "a"))
        self.assertEqual(self.ask(server, "/find", {"name": "a"}, None)[1][0]["owner"], "x")
        self.assertEqual(self.ask(server, "/same", {"left": "A", "right": "A"}, None), (200, {"same": True}))
        self.assertEqual(self.ask(server, "/same", {"left": "A", "right": "a"}, None), (404, {"same": None}))
        self.assertIs(self.ask(server, "/status", None, None)[1]["caseless"], True)
        self.assertRegex(server.wait_for(r"serves .*; node .*")[0], ", caseless NFKC, version 1 of Unicode")

    def test_pages(self):
        server = self.serve()
        self.ask(server, "/claim", claim("A"))
        self.assertIn("caseless, form NFKC", self.page(server, "/"))
        self.assertIn("0041", self.page(server, "/search", {"name": "a"}))
        why_page = self.page(server, "/why", {"left": "A\u0302", "right": "\u00e2"})
        for words in ("The same name", "their caseless keys under NFKC are equal", "<th>folding</th>", "Capitals and small letters are one"):
            self.assertIn(words, why_page)
        self.assertTrue(re.search(r"0041</span></td><td>X</td>.*<td><span class=\"code\">0061</span></td></tr>", why_page), why_page)
        self.assertNotIn("capitals and small letters,", why_page)
        self.assertIn("their caseless keys under NFKC differ first at code point 1", self.page(server, "/why", {"left": "A", "right": "f"}))
        self.assertIn("can't be told", self.page(server, "/why", {"left": YOUNG_A, "right": "A"}).replace("&#x27;", "'"))
