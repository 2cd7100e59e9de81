#!/usr/bin/env python3
"""bindings/python/test.py DATA EXCLUSIONS DATA2 EXCLUSIONS2: tests the module npss over the fixtures v1 and v2.

The module is one that build.py made, on PYTHONPATH. Ends in a line 'N passed, M failed'.
"""

import copy
import itertools
import os
import pickle
import pydoc
import signal
import sys
import tempfile
import threading
import time
import unittest
import weakref
from pathlib import Path

import npss
from npss import (Accepted, BadEntry, BadTables, Break, Entry, Full, KeyDiffers, Malformed, NoFolding, Node, NotUtf8, OlderTables,
                  OtherForm, Refused, Stream, Tables, TooLong, Unassigned)

V1, V2 = sys.argv[1:3], sys.argv[3:5]
CASELESS = Path(V1[0]).parent.parent / "caseless"
MARKED = "a\u0302\u0323"


class Opening(unittest.TestCase):
    def test_from_names_paths_and_bytes(self):
        data, exclusions = map(Path, V1)
        for tables in (Tables.open(*V1), Tables.open(data, exclusions), Tables.open(data.read_bytes(), exclusions.read_bytes()),
                       Tables.open(data=bytearray(data.read_bytes()), exclusions=memoryview(exclusions.read_bytes()))):
            self.assertEqual(tables.count, 17660)

    def refused(self, *files):
        with self.assertRaises(BadTables) as caught:
            Tables.open(*files)
        return caught.exception

    def test_faults_are_told(self):
        error = self.refused(b"# none\n0041;x\n", b"")
        self.assertEqual((error.file, error.line, error.name, error.code), ("data", 2, "FieldCount", None))
        self.assertEqual(str(error), "data: line 2: FieldCount; data and exclusions may be swapped")
        error = self.refused(b"0041;x\n", b"")
        self.assertEqual((error.path, str(error)), (None, "data: line 1: FieldCount"))
        error = self.refused(b"", b"none")
        self.assertEqual((error.file, error.line, error.name), ("exclusions", 1, "BadCode"))
        error = self.refused(b"0041;X;Lu;0;L;0042;;;;N;;;;;\n", b"")
        self.assertEqual((error.file, error.line, error.name, error.code), ("tables", None, "MapsToUnassigned", 0x41))
        self.assertEqual(str(error), "tables: MapsToUnassigned 0041")
        error = self.refused(b"", b"\n" * 16777217)
        self.assertEqual((error.file, error.line, error.name), ("exclusions", None, "TooLarge"))

    def test_a_fault_names_its_file(self):
        data = V1[0]
        with tempfile.NamedTemporaryFile("w") as file:
            file.write("# CompositionExclusions.txt\n\n0958    #  DEVANAGARI LETTER QA\n")
            file.flush()
            self.assertEqual(Tables.open(data, file.name).count, 17660)
            error = self.refused(file.name, data)
        self.assertEqual((error.file, error.name, error.path), ("data", "FieldCount", file.name))
        self.assertEqual(str(error), f"data: line 3: FieldCount, in {file.name!r}; data and exclusions may be swapped")
        self.assertEqual(str(pickle.loads(pickle.dumps(error))), str(error))
        error = self.refused(data, Path(data))
        self.assertEqual((error.path, str(error)), (Path(data), f"exclusions: line 1: {error.name}, in {data!r}"))
        self.assertEqual(self.refused(data, b"none").path, None)
        with tempfile.NamedTemporaryFile("w") as file:
            file.write("0041;X;Lu;0;L;0042;;;;N;;;;;\n")
            file.flush()
            error = self.refused(file.name, b"")
        self.assertEqual((error.path, str(error)), (None, "tables: MapsToUnassigned 0041"))
        with tempfile.NamedTemporaryFile() as file:
            file.truncate(1 << 40)
            error = self.refused(file.name, b"")
        self.assertEqual((error.path, str(error)), (file.name, f"data: TooLarge, in {file.name!r}"))

    def test_what_is_no_file(self):
        with self.assertRaises(FileNotFoundError):
            Tables.open("/no/such/file", V1[1])
        with self.assertRaises(TypeError):
            Tables.open(3.5, b"")
        with self.assertRaises(TypeError):
            Tables()
        with open(V1[0], "rb") as file:
            self.assertRaisesRegex(TypeError, "a path or bytes are wanted, not .*BufferedReader.*: hand over its name", Tables.open, file, V1[1])
        self.assertRaisesRegex(TypeError, "a path or bytes are wanted, not <class 'NoneType'>$", Tables.open, V1[0], None)

    def test_a_large_file_is_not_read_whole(self):
        with tempfile.NamedTemporaryFile() as file:
            file.truncate(1 << 40)
            error = self.refused(file.name, b"")
        self.assertEqual((error.file, error.name), ("data", "TooLarge"))

    def test_tables_are_not_pickled(self):
        tables = Tables.open(*V1)
        for protocol in range(pickle.HIGHEST_PROTOCOL + 1):
            self.assertRaisesRegex(TypeError, "call Tables.open there", pickle.dumps, tables, protocol)

    def test_a_copy_is_the_same_object(self):
        tables = Tables.open(*V1)
        self.assertIs(copy.copy(tables), tables)
        self.assertIs(copy.deepcopy([tables])[0], tables)

    def test_a_read_that_fails(self):
        self.assertRaises(OSError, Tables.open, "/proc/self/mem", b"")
        self.assertRaises(OSError, Tables.open, os.sep, b"")


class Interpreters(unittest.TestCase):
    def test_each_interpreter_has_classes_of_its_own(self):
        try:
            import _xxsubinterpreters as interpreters
        except ImportError:
            self.skipTest("this Python has no sub-interpreters by this name")
        code = "import npss\ntry: npss.Tables.open(b'', b'none')\nexcept npss.BadTables: pass\nelse: raise SystemError\n"
        for _ in range(3):
            other = interpreters.create()
            interpreters.run_string(other, code)
            interpreters.destroy(other)
        self.assertRaises(BadTables, Tables.open, b"", b"none")


class Signals(unittest.TestCase):
    """Ctrl-C ends a call that takes long."""

    def interrupted(self, call):
        before = signal.signal(signal.SIGALRM, signal.default_int_handler)
        begun = time.monotonic()
        signal.setitimer(signal.ITIMER_REAL, 0.2)
        try:
            self.assertRaises(KeyboardInterrupt, call)
        finally:
            signal.setitimer(signal.ITIMER_REAL, 0)
            signal.signal(signal.SIGALRM, before)
        self.assertLess(time.monotonic() - begun, 5)

    def test_signals(self):
        tables = Tables.open(*V1)
        self.interrupted(lambda: tables.keys(itertools.repeat(MARKED)))
        lines = (MARKED + "\n").encode() * 30_000_000
        self.interrupted(lambda: tables.answers(lines))


class Texts(unittest.TestCase):
    def setUp(self):
        self.tables = Tables.open(*V1)

    def test_forms(self):
        for form, text, made in (("nfd", MARKED, "a\u0323\u0302"), ("nfc", MARKED, "\u1ead"), ("nfkd", "\ufb01", "fi"),
                                 ("nfkc", "\ufb01", "fi"), ("nfc", "\u0958", "\u0915\u093c"), ("nfc", "", "")):
            self.assertEqual(self.tables.key(text, form), made)
            self.assertEqual(self.tables.normalize(text=text, form=form.upper()), made)
            self.assertTrue(self.tables.is_normalized(made, form))
            self.assertEqual(self.tables.is_normalized(text, form), text == made)

    def test_without_a_form_it_is_nfc(self):
        self.assertEqual(self.tables.key(MARKED), "\u1ead")
        self.assertEqual(self.tables.normalize(MARKED), "\u1ead")
        self.assertFalse(self.tables.is_normalized(MARKED))
        self.assertEqual(self.tables.keys([MARKED, "A"]), ["\u1ead", "A"])

    def test_a_text_that_is_its_key_is_answered_itself(self):
        text = "".join(["A", "i", "a"])
        self.assertIs(self.tables.key(text), text)

    def test_unassigned(self):
        text = "\u1ead\U00016d67"
        with self.assertRaises(Unassigned) as caught:
            self.tables.key(text)
        error = caught.exception
        self.assertEqual((error.code, error.place, error.index), (0x16D67, 3, 1))
        self.assertEqual(str(error), "unassigned 16D67 at byte 3")
        self.assertEqual(pickle.loads(pickle.dumps(error)).place, 3)
        self.assertEqual(self.tables.normalize(text), text)
        self.assertIsNone(error.number)
        with self.assertRaises(Unassigned) as caught:
            self.tables.keys(["A", "a", text, "A"])
        self.assertEqual((caught.exception.number, caught.exception.place), (2, 3))

    def test_lone_surrogates(self):
        for call in (self.tables.key, self.tables.normalize, self.tables.is_normalized):
            with self.assertRaisesRegex(UnicodeEncodeError, "surrogates not allowed"):
                call("a\ud800")

    def test_answers_to_lines(self):
        marked, made = MARKED.encode(), "\u1ead".encode()
        for lines, form, answers in ((b"", "nfc", b""), (b"\n", "nfc", b"=\n"), (b"a\n" + marked, "nfc", b"=a\n=" + made + b"\n"),
                                     ("\ufb01\nA\U00016d67\n".encode(), "nfkc", b"=fi\n!unassigned 16D67 at byte 1\n"),
                                     (b"A\nAi\xff", "nfc", b"=A\n!not UTF-8 at byte 2\n")):
            self.assertEqual(self.tables.answers(lines, form), answers)
            self.assertEqual(self.tables.answers(form=form, lines=bytearray(lines), end=b"\n"), answers)
        self.assertEqual(self.tables.answers(marked + b"\n"), b"=" + made + b"\n")
        self.assertEqual(self.tables.answers(b"a\0A", end=b"\0"), b"=a\0=A\0")
        self.assertEqual(self.tables.answers(b"\xff\n" * 100_000), b"!not UTF-8 at byte 0\n" * 100_000)
        long = b"A" * 3_000_000 + b"\n" + marked + b"\n" + b"a" * 65_536
        self.assertEqual(self.tables.answers(long * 2), (b"!too long\n=" + made + b"\n") + b"!too long\n=" + made + b"\n=" + b"a" * 65_536 + b"\n")
        self.assertRaises(TypeError, self.tables.answers, "a")
        self.assertRaises(ValueError, self.tables.answers, b"a", "nfc", b";")
        self.assertRaises(TypeError, self.tables.answers, b"a", "nfc", "\n")

    def test_a_key_that_is_much_longer_than_its_text(self):
        for count in (1, 1_000, 2_000, 100_000):
            self.assertEqual(self.tables.key("\u1ead" * count, "nfd"), "a\u0323\u0302" * count)

    def test_forms_of_any_str(self):
        self.assertEqual(self.tables.key(MARKED, "".join(["n", "f", "d"])), "a\u0323\u0302")

    def test_wrong_arguments(self):
        for call in (lambda: self.tables.key(b"A"), lambda: self.tables.key(), lambda: self.tables.key("A", "nfc", True, 3),
                     lambda: self.tables.key("A", text="A"), lambda: self.tables.key("A", kind="nfc"), lambda: self.tables.keys(3)):
            self.assertRaises(TypeError, call)
        self.assertRaisesRegex(ValueError, "'nfx'", self.tables.key, "A", "nfx")
        for call in (lambda: self.tables.key("A", "nfc\0junk"), lambda: self.tables.key("A", "Nfc")):
            self.assertRaises(ValueError, call)
        for call in (lambda: self.tables.key("A", None), lambda: self.tables.key("A", b"nfc"), lambda: self.tables.answers([97, 10]),
                     lambda: self.tables.answers(5)):
            self.assertRaises(TypeError, call)

    def test_equivalent(self):
        self.assertTrue(self.tables.equivalent(MARKED, "\u1ead"))
        self.assertFalse(self.tables.equivalent("\ufb01", "fi"))
        self.assertTrue(self.tables.equivalent("\ufb01", "fi", compatible=True))

    def test_long_texts(self):
        text = MARKED * 100_000
        self.assertEqual(self.tables.key(text), "\u1ead" * 100_000)
        self.assertEqual(self.tables.key("\u1ead" * 100_000, "nfd"), "a\u0323\u0302" * 100_000)
        self.assertTrue(self.tables.equivalent(text, "\u1ead" * 100_000))
        self.assertTrue(self.tables.is_normalized("\u1ead" * 100_000))
        with self.assertRaises(Unassigned) as caught:
            self.tables.key(text + "\U00016d67")
        self.assertEqual((caught.exception.place, caught.exception.index), (500_000, 300_000))

    def test_threads(self):
        wrong = []

        def work():
            for _ in range(20):
                if self.tables.key(MARKED * 5_000) != "\u1ead" * 5_000:
                    wrong.append("long")
            for _ in range(10_000):
                if self.tables.key(MARKED) != "\u1ead":
                    wrong.append("short")

        threads = [threading.Thread(target=work) for _ in range(5)]
        for thread in threads:
            thread.start()
        for thread in threads:
            thread.join()
        self.assertEqual(wrong, [])


def rows(name):
    """The rows of a file of the caseless fixtures, cut into their parts."""
    lines = (CASELESS / name).read_text(encoding="utf-8").splitlines()
    return [line.split(" / ") for line in lines if line and not line.startswith("#")]


def text_of(codes):
    """The text of code points as the fixtures write them; `-` is the empty one."""
    return "".join(chr(int(code, 16)) for code in codes.split()) if codes != "-" else ""


def with_foldings(files, folder):
    """The tables of a version, with the foldings of a folder of the caseless fixtures."""
    return Tables.open(*files, CASELESS / folder / "CaseFolding.txt")


class Caseless(unittest.TestCase):
    """What the fixtures say is from the definitions of docs/STANDARD.md."""

    def setUp(self):
        self.versions = {"v1": with_foldings(V1, "v1"), "v2": with_foldings(V2, "v2")}
        self.tables = self.versions["v1"]

    def test_keys(self):
        keys = rows("KEYS.txt")
        self.assertEqual(len(keys), 312)
        for head, string, key in keys:
            version, form = head.split()
            tables, text = self.versions[version], text_of(string)
            if key.startswith("unassigned"):
                code, place = int(key.split()[1], 16), int(key.split()[-1])
                with self.assertRaises(Unassigned) as caught:
                    tables.key(text, form, caseless=True)
                self.assertEqual((caught.exception.code, caught.exception.place), (code, place))
                with self.assertRaises(Unassigned) as caught:
                    tables.keys(["A", text], form, caseless=True)
                self.assertEqual((caught.exception.number, caught.exception.place), (1, place))
            else:
                self.assertEqual(tables.key(text, form, caseless=True), text_of(key), (head, string))
                self.assertEqual(tables.keys(form=form.upper(), texts=[text, "A"], caseless=True), [text_of(key), "a"])

    def test_matches(self):
        matches = rows("MATCHES.txt")
        self.assertEqual(len(matches), 52)
        for head, left, right, answer in matches:
            version, form = head.split()
            if answer[0] != "3":  # `compare` refuses what isn't assigned, which is taken here
                self.assertEqual(self.versions[version].caseless_match(text_of(left), text_of(right), form.startswith("nfk")), answer[0] == "0", head)
        self.assertTrue(self.tables.caseless_match("A\U00016d67", "a\U00016d67"))
        self.assertFalse(self.tables.caseless_match(left="A\U00016d67", right="A", compatible=True))
        self.assertRaises(UnicodeEncodeError, self.tables.caseless_match, "\ud800", "a")
        self.assertTrue(self.tables.caseless_match("A" * 100_000, "a" * 100_000))

    def test_without_it_keys_are_as_ever(self):
        for tables in (self.tables, Tables.open(*V1, None), Tables.open(*V1, folding=None)):
            self.assertEqual(tables.key("A"), "A")
            self.assertEqual(tables.key("A", "nfc", False), "A")
            self.assertEqual(tables.keys(["A"], caseless=0), ["A"])
            self.assertEqual(tables.answers(b"A"), b"=A\n")

    def test_a_text_that_is_its_key_is_answered_itself(self):
        text = "".join(["i", "a", "\u00e2"])
        self.assertIs(self.tables.key(text, caseless=True), text)

    def test_long_texts(self):
        self.assertEqual(self.tables.key("A" * 100_000, "nfkd", caseless=True), "a" * 100_000)
        self.assertEqual(self.tables.key("\ue000" * 10_000, caseless=True), "aa" * 10_000)

    def test_without_foldings(self):
        tables = Tables.open(*V1)
        for call in (lambda: tables.key("A", caseless=True), lambda: tables.keys(["A"], caseless=True), lambda: tables.caseless_match("A", "a"),
                     lambda: tables.key("A" * 100_000, caseless=True), lambda: tables.caseless_match("A" * 100_000, "a")):
            self.assertRaisesRegex(NoFolding, "without CaseFolding.txt", call)
        self.assertTrue(issubclass(NoFolding, Refused))
        self.assertEqual(tables.keys([], caseless=True), [])

    def test_files_at_the_edges(self):
        edges = rows("edges/EXPECTED.txt")
        self.assertEqual(len(edges), 104)
        for name, data, _, answer in edges:
            files = (V1[0] if data == "v1" else CASELESS / "edges" / f"{data}.data", V1[1], CASELESS / "edges" / name)
            if not answer.startswith("version"):
                self.assertEqual(Tables.open(*files).key("A", caseless=True), text_of(answer), name)
                continue
            with self.assertRaises(BadTables) as caught:
                Tables.open(*files)
            self.assertEqual(f"version 0 {caught.exception}", f"{answer}, in {str(files[2])!r}", name)
            self.assertEqual((caught.exception.file, caught.exception.path), ("folding", files[2]))
            self.assertNotEqual(caught.exception.line is None, caught.exception.code is None)

    def test_a_large_folding_file_is_not_read_whole(self):
        with tempfile.NamedTemporaryFile() as file, self.assertRaises(BadTables) as caught:
            file.truncate(1 << 40)
            Tables.open(*V1, file.name)
        self.assertEqual((caught.exception.file, caught.exception.line, caught.exception.name), ("folding", None, "TooLarge"))

    def test_what_is_no_file(self):
        self.assertRaises(FileNotFoundError, Tables.open, *V1, "/no/such/file")
        self.assertRaisesRegex(TypeError, "a path or bytes are wanted, not <class 'int'>", Tables.open, *V1, 3)
        self.assertRaises(TypeError, Tables.open, *V1, b"", b"")

    def test_answers_to_lines(self):
        for head, string, key in rows("KEYS.txt"):
            version, form = head.split()
            line, refused = text_of(string), key.startswith("unassigned")
            answer = (f"!{key}" if refused else f"={text_of(key)}").encode()
            if "\n" not in line + text_of("" if refused else key):
                self.assertEqual(self.versions[version].answers(f"{line}\nA".encode(), form, caseless=True), answer + b"\n=a\n", (head, string))
                self.assertEqual(self.versions[version].answers(f"A\0{line}\0".encode(), form, b"\0", True), b"=a\0" + answer + b"\0")
        self.assertEqual(self.tables.answers(b"", caseless=True), b"")
        self.assertEqual(self.tables.answers(b"A\xff\n" + b"A" * 65_537, caseless=True), b"!not UTF-8 at byte 1\n!too long\n")
        self.assertEqual(self.tables.answers(b"A\n" * 1_000_000, "nfkc", caseless=True), b"=a\n" * 1_000_000)
        bare = Tables.open(*V1)
        self.assertRaises(NoFolding, bare.answers, b"A", caseless=True)
        self.assertEqual(bare.answers(b"A", caseless=False), b"=A\n")

    def test_ascii_that_folds(self):
        """A version of ASCII alone, in which each way to a key is taken: letters of ASCII, and U+212A, KELVIN SIGN, which folds to one."""
        lines = [f"{code:04X};X;Lo;0;L;;;;;N;;;;;\n" for code in range(128)] + ["212A;X;Lu;0;L;;;;;N;;;;;\n"]
        pairs = [f"{code:04X}; C; {code + 32:04X};\n" for code in range(0x41, 0x5B)]
        data, folding = "".join(lines).encode(), "".join(pairs).encode() + b"212A; C; 006B;\n"
        tables = Tables.open(data, b"", folding)
        letters = "".join(map(chr, range(128)))
        for form in ("nfc", "nfd", "nfkc", "nfkd"):
            for count in (0, 1, 48, 49, 1_000):
                self.assertEqual(tables.key(letters * count, form, caseless=True), letters.lower() * count)
            self.assertEqual(tables.key("K\u212a", form, caseless=True), "kk")
        text = "".join(["small", "letters"])
        self.assertIs(tables.key(text, caseless=True), text)
        self.assertEqual(tables.keys(["A", "\u212a"], "nfkc", caseless=True), ["a", "k"])
        # where a letter of ASCII has a mapping
        mapped = Tables.open(data.replace(lines[0x7A].encode(), b"007A;X;Lo;0;L;0061;;;;N;;;;;\n"), b"", folding)
        self.assertEqual([mapped.key(text, caseless=True) for text in ("z", "Z", "y")], ["a", "a", "y"])
        # where a letter of ASCII folds to two, or to another one than ASCII, or isn't assigned
        for folded, key in ((b"0041; F; 0061 0061;\n", "aa"), (b"0041; C; 212A;\n", "\u212a")):
            self.assertEqual(Tables.open(data, b"", folded).key("A", caseless=True), key)
        self.assertEqual(Tables.open(data.replace(lines[0x42].encode(), b""), b"", b"0041; C; 0061;\n").key("A", caseless=True), "a")
        self.assertRaises(Unassigned, Tables.open(data.replace(lines[0x42].encode(), b""), b"", b"0041; C; 0061;\n").key, "AB", caseless=True)

    def test_extension(self):
        files = {"v1": V1, "v2": V2, "changed": V2}
        versions = {name: with_foldings(files[name], name) for name in files}
        audits = [row for row in rows("AUDITS.txt") if len(row[0].split()) == 2]
        self.assertEqual(len(audits), 9)
        for head, status, answer in audits:
            old, new = (versions[name] for name in head.split())
            self.assertEqual(new.extends(old, caseless=True), status == "0", head)
            first = new.first_break(old, True)
            self.assertEqual("extends" if first is None else f"{first.kind} {first.code:04X}", answer.split(", ")[0], head)
        self.assertTrue(versions["changed"].extends(older=versions["v1"]))  # by two files
        bare = Tables.open(*V2)
        for call in (lambda: bare.extends(versions["v1"], caseless=True), lambda: versions["v2"].first_break(Tables.open(*V1), caseless=True),
                     lambda: bare.extends(bare, caseless=True)):
            self.assertRaises(NoFolding, call)
        self.assertTrue(versions["v2"].extends(Tables.open(*V1)))
        self.assertTrue(bare.extends(bare))
        self.assertRaises(TypeError, bare.extends)
        self.assertRaises(TypeError, bare.extends, None, caseless=True)

    def test_foldings(self):
        # as the folding file has them: C and F count, S and T don't
        for code, made in (("A", "a"), (0x41, "a"), ("f", "i"), ("\ue000", "aa"), (0xE001, "aa"), (0x327, "\u0915"), ("\ue010", "\ue00f"), ("i", "i"),
                           ("\ue00f", "\ue00f"), ("\u00c5", "a\u030a"), (0xAC01, "\uac01")):
            self.assertEqual(self.tables.folding(code), made)
        self.assertIsNone(self.tables.folding("\U00016d67"))
        for wrong in (0xD800, -1, 0x110000, "ab"):
            self.assertRaises(ValueError, self.tables.folding, wrong)
        self.assertRaises(NoFolding, Tables.open(*V1).folding, "A")

    def test_a_flag_that_has_no_truth(self):
        class Odd:
            def __bool__(self):
                raise LookupError("odd")

        for call in (lambda: self.tables.key("A", caseless=Odd()), lambda: self.tables.keys(["A"], caseless=Odd()),
                     lambda: self.tables.caseless_match("A", "a", Odd()), lambda: self.tables.extends(self.tables, Odd()), lambda: self.tables.answers(b"A", caseless=Odd())):
            self.assertRaises(LookupError, call)

    def test_threads(self):
        wrong = []

        def work():
            for _ in range(200):
                if self.tables.key("A\u0302\u0323" * 3_000, caseless=True) != self.tables.key("a\u0302\u0323" * 3_000):
                    wrong.append("long")
            for _ in range(2_000):
                if self.tables.key("A", caseless=True) != "a":
                    wrong.append("short")

        threads = [threading.Thread(target=work) for _ in range(4)]
        for thread in threads:
            thread.start()
        for thread in threads:
            thread.join()
        self.assertEqual(wrong, [])


class Codes(unittest.TestCase):
    def setUp(self):
        self.tables = Tables.open(*V1)

    def test_properties(self):
        for code, facts in ((0x61, (True, 0, None, False)), ("\u0323", (True, 220, None, False)), (0x1EAD, (True, 0, "canonical", False)),
                           ("\ufb01", (True, 0, "compatibility", False)), (0x958, (True, 0, "canonical", True)), (0xAC01, (True, 0, "canonical", False)),
                           (0x10FFFF, (False, 0, None, False)), (0xD800, (False, 0, None, False)), (0, (False, 0, None, False))):
            self.assertEqual(tuple(self.tables.property(code)), facts, code)
        self.assertEqual(self.tables.property("a").combining_class, 0)
        for wrong in (-1, 0x110000, 2 ** 70, "ab", ""):
            self.assertRaises(ValueError, self.tables.property, wrong)
        self.assertRaises(TypeError, self.tables.property, 1.5)

    def test_decompositions(self):
        for code, compatible, made in (("\u1ead", False, "a\u0323\u0302"), (0xFB01, False, "\ufb01"), (0xFB01, True, "fi"), (0xAC01, False, "\u1100\u1161\u11a8"),
                                       ("a", True, "a"), (0x378, False, "\u0378"), (0x10FFFF, True, "\U0010ffff")):
            self.assertEqual(self.tables.decomposition(code, compatible), made)
        self.assertRaises(ValueError, self.tables.decomposition, 0xD800)
        self.assertRaises(ValueError, self.tables.decomposition, 0x110000)

    def test_composites(self):
        self.assertEqual(self.tables.composite("a", "\u0302"), "\u00e2")
        self.assertEqual(self.tables.composite(0x1100, 0x1161), "\uac00")
        for first, second in (("a", "a"), (0x915, 0x93C), (0xD800, 0x61)):
            self.assertIsNone(self.tables.composite(first, second))
        self.assertRaises(TypeError, self.tables.composite, "a")

    def test_the_first_unassigned(self):
        self.assertIsNone(self.tables.first_unassigned(MARKED))
        first = self.tables.first_unassigned("\u1ead\U00016d67")
        self.assertIsInstance(first, Unassigned)
        self.assertEqual((first.code, first.place, first.index), (0x16D67, 3, 1))


class Streams(unittest.TestCase):
    def setUp(self):
        self.tables = Tables.open(*V1)

    def made(self, pieces, form="nfc"):
        stream = self.tables.stream(form)
        return b"".join([*map(stream.feed, pieces), stream.finish()]), stream.unassigned

    def test_a_text_in_pieces(self):
        text = (MARKED + "\ufb01\u0915\u093c\u1100\u1161\u11a8A") * 3
        whole = text.encode()
        for form in ("nfc", "nfd", "nfkc", "nfkd"):
            made = self.tables.key(text, form).encode()
            for at in range(len(whole) + 1):
                self.assertEqual(self.made([whole[:at], whole[at:]], form), (made, None))
            self.assertEqual(self.made([bytes([byte]) for byte in whole], form), (made, None))
        self.assertEqual(self.made([]), (b"", None))
        self.assertEqual(self.made(["a", "\u0302", ""]), ("\u00e2".encode(), None))

    def test_a_long_text(self):
        made, unassigned = self.made([MARKED * 100_000, "a" + "\u0302" * 100_000])
        self.assertEqual((made.decode(), unassigned), ("\u1ead" * 100_000 + "\u00e2" + "\u0302" * 99_999, None))

    def test_a_text_without_a_key(self):
        made, unassigned = self.made(["\u1ead", "\U00016d67", "A"])
        self.assertEqual(made.decode(), "\u1ead\U00016d67A")
        self.assertEqual((unassigned.code, unassigned.place, unassigned.index), (0x16D67, 3, None))

    def test_what_is_no_text(self):
        stream = self.tables.stream()
        made = stream.feed(b"A\xe1\xba")
        with self.assertRaises(NotUtf8) as caught:
            stream.feed(b"A")
        self.assertEqual(caught.exception.place, 1)
        self.assertRaises(NotUtf8, stream.finish)
        self.assertRaises(ValueError, lambda: stream.unassigned)
        self.assertEqual(made + stream.feed(b"\xad") + stream.finish(), "A\u1ead".encode())
        self.assertRaises(ValueError, stream.feed, "A")
        self.assertRaises(ValueError, stream.finish)

    def test_a_stream_outlives_its_tables(self):
        stream = Tables.open(*V1).stream("nfd")
        self.assertEqual(stream.feed("\u1ead") + stream.finish(), "a\u0323\u0302".encode())
        self.assertRaises(TypeError, type(stream))


class Versions(unittest.TestCase):
    def test_extends(self):
        first, second = Tables.open(*V1), Tables.open(*V2)
        self.assertEqual((first.count, second.count), (17660, 17666))
        self.assertTrue(second.extends(first))
        self.assertIsNone(second.first_break(first))
        self.assertFalse(first.extends(second))
        self.assertEqual(first.first_break(second), ("Lost", 0x1DFA))
        self.assertIsInstance(first.first_break(second), tuple)
        self.assertEqual(first.first_break(second).kind, "Lost")
        self.assertTrue(first.extends(first))
        self.assertRaises(TypeError, first.extends, None)


def field(content):
    """A length and what it counts, as docs/FORMATS.md spells it."""
    return len(content).to_bytes(4, "big") + content


def message(form, string, key):
    """The bytes of a message."""
    return form + field(string.encode()) + field(key.encode())


class Nodes(unittest.TestCase):
    def setUp(self):
        self.old, self.new = Tables.open(*V1), Tables.open(*V2)
        self.node = Node(self.old, "nfc", 4)

    def state(self, node=None):
        return list(self.node if node is None else node)

    def refused(self, kind, call, *given):
        """A refusal changes nothing."""
        before = self.state()
        with self.assertRaises(kind) as caught:
            call(*given)
        self.assertIsInstance(caught.exception, Refused)
        self.assertEqual(self.state(), before)
        self.assertTrue(str(caught.exception))
        return caught.exception

    def test_a_node_begins_with_nothing(self):
        node = Node(self.old)
        self.assertEqual((len(node), node.form, node.room, node.tables, list(node)), (0, "nfc", 65536, self.old, []))
        node = Node(tables=self.old, form="NFKD", room=0)
        self.assertEqual((node.form, node.room), ("nfkd", 0))
        self.assertRaises(Full, node.accept, "")
        for wrong in (-1, 65537, 2 ** 70):
            self.assertRaisesRegex(ValueError, "65536", Node, self.old, "nfc", wrong)
        self.assertRaises(ValueError, Node, self.old, "nfx")
        for words in ((None,), (self.old, 3), (self.old, "nfc", "4"), ()):
            self.assertRaises(TypeError, Node, *words)

    def test_strings_are_kept_beside_their_keys(self):
        self.assertIs(self.node.accept("a\u0302"), Accepted.KEPT)
        self.assertIs(self.node.accept(b"a\xcc\x82"), Accepted.KNOWN)
        self.assertIs(self.node.accept("\u00e2"), Accepted.KEPT)
        self.assertEqual(self.state(), [("a\u0302", "\u00e2"), ("\u00e2", "\u00e2")])
        self.assertIsInstance(self.node[0], Entry)
        self.assertEqual((self.node[0].string, self.node[-1].key), ("a\u0302", "\u00e2"))
        self.assertEqual(self.node[0:9], self.state())
        self.assertEqual(self.node[::-1], self.state()[::-1])
        self.assertEqual(list(reversed(self.node)), self.state()[::-1])
        for wrong in (2, -3, 2 ** 70):
            self.assertRaises(IndexError, self.node.__getitem__, wrong)
        self.assertRaises(TypeError, self.node.__getitem__, "a")
        self.assertEqual(self.node.key("a\u0302"), "\u00e2")
        self.assertIsNone(self.node.key("A"))
        self.assertIsNone(self.node.key(b"\xff"))
        self.assertIn("a\u0302", self.node)
        self.assertIn(b"\xc3\xa2", self.node)
        self.assertNotIn("A", self.node)
        self.assertNotIn("A" * 70_000, self.node)
        self.assertTrue(self.node.same("a\u0302", "\u00e2"))
        self.assertIsNone(self.node.same("a\u0302", "A"))
        self.node.accept("A")
        self.assertFalse(self.node.same("A", b"\xc3\xa2"))
        self.assertRaises(TypeError, self.node.same, "A")

    def test_what_is_refused(self):
        error = self.refused(Unassigned, self.node.accept, "\u1ead\U00016d67")
        self.assertEqual((error.code, error.place, error.index), (0x16D67, 3, 1))
        self.assertEqual(self.refused(NotUtf8, self.node.accept, b"A\xcc").place, 1)
        self.refused(TooLong, self.node.accept, "A" * 65_537)
        self.assertIs(self.node.accept("A" * 65_536), Accepted.KEPT)
        for string in ("a", "i", "\u1ead"):
            self.node.accept(string)
        self.refused(Full, self.node.accept, "A")
        self.assertIs(self.node.accept("a"), Accepted.KNOWN)
        for call in (self.node.accept, self.node.key, self.node.message, self.node.forget, self.node.__contains__):
            self.assertRaises(UnicodeEncodeError, call, "a\ud800")
            self.assertRaises(TypeError, call, 3)

    def test_messages(self):
        self.assertIsNone(self.node.message("a\u0302"))
        self.assertIsNone(self.node.message(""))
        self.node.accept("a\u0302")
        sent = self.node.message("a\u0302")
        self.assertEqual(sent, message(b"C", "a\u0302", "\u00e2"))
        away = Node(self.new, room=4)
        self.assertIs(away.take(sent), Accepted.KEPT)
        self.assertIs(away.take(bytearray(sent)), Accepted.KNOWN)
        self.assertIs(away.take(memoryview(sent)), Accepted.KNOWN)
        self.assertEqual(self.state(away), self.state())
        for wrong in ("text", [67], None):
            self.assertRaises(TypeError, away.take, wrong)

    def test_messages_that_are_refused(self):
        good = message(b"C", "a\u0302", "\u00e2")
        self.refused(KeyDiffers, self.node.take, message(b"C", "a\u0302", "a\u0302"))
        self.refused(OtherForm, self.node.take, b"D" + good[1:])
        self.assertEqual(self.refused(Malformed, self.node.take, good + b"\0").place, len(good))
        self.assertEqual(self.refused(Malformed, self.node.take, b"").place, 0)
        self.assertEqual(self.refused(Malformed, self.node.take, bytes(1000)).place, 0)
        for end in range(1, len(good)):
            self.refused(Malformed, self.node.take, good[:end])
        error = self.refused(Unassigned, self.node.take, message(b"C", "\u1ead\U00016d67", ""))
        self.assertEqual((error.code, error.place, error.index), (0x16D67, 3, 1))
        self.assertEqual(self.refused(NotUtf8, self.node.take, b"C" + field(b"A\xff") + field(b"")).place, 1)
        self.refused(TooLong, self.node.take, message(b"C", "A" * 65_537, ""))
        self.assertEqual(self.node.take(good), Accepted.KEPT)

    def test_forgetting(self):
        for string in ("A", "a", "i"):
            self.node.accept(string)
        self.assertTrue(self.node.forget("a"))
        self.assertFalse(self.node.forget("a"))
        self.assertIsNone(self.node.message("a"))
        self.assertEqual([entry.string for entry in self.node], ["A", "i"])
        self.node.accept("a")
        self.assertEqual([entry.string for entry in self.node], ["A", "i", "a"])

    def image(self, *entries, form=b"C", needs=17660):
        """An image of the second layout."""
        rest = b"".join(field(string.encode()) + (b"\0" if string == key else b"\1" + field(key.encode())) for string, key in entries)
        return b"NPS2" + form + needs.to_bytes(4, "big") + len(entries).to_bytes(4, "big") + rest

    def test_images(self):
        self.node.accept("a\u0302")
        self.node.accept("\u00e2")
        saved = self.node.image()
        self.assertEqual(saved, self.image(("a\u0302", "\u00e2"), ("\u00e2", "\u00e2")))
        for tables in (self.old, self.new):
            again = Node.restore(tables, saved, room=2)
            self.assertEqual((self.state(again), again.room), (self.state(), 2))
        first = b"NPS1C" + (1).to_bytes(4, "big") + field("a\u0302".encode()) + field("\u00e2".encode())
        self.assertEqual(self.state(Node.restore(tables=self.old, image=bytearray(first), form="nfc", room=1)), [("a\u0302", "\u00e2")])

    def test_images_that_are_refused(self):
        good = ("a\u0302", "\u00e2")
        self.assertEqual(self.refused(Malformed, Node.restore, self.old, b"NPS3").place, 0)
        self.assertEqual(self.refused(Malformed, Node.restore, self.old, b"NPS2C" + bytes(4) + (65_536).to_bytes(4, "big")[:3]).place, 9)
        self.refused(Malformed, Node.restore, self.old, b"NPS1C" + (65_536).to_bytes(4, "big") + bytes(3))
        self.refused(OtherForm, Node.restore, self.old, self.image(form=b"D"))
        self.refused(Full, Node.restore, self.old, self.image(good, ("A", "A")), "nfc", 1)
        error = self.refused(OlderTables, Node.restore, self.old, self.image(good, needs=17666))
        self.assertEqual((error.needs, error.has), (17666, 17660))
        error = self.refused(BadEntry, Node.restore, self.old, self.image(good, ("A", "a")))
        self.assertEqual((error.index, type(error.cause)), (1, KeyDiffers))
        error = self.refused(BadEntry, Node.restore, self.old, self.image(good, ("\u1ead\U00016d67", "A"), good))
        self.assertEqual((error.index, error.cause.code, error.cause.place, error.cause.index), (1, 0x16D67, 3, 1))
        error = self.refused(BadEntry, Node.restore, self.old, self.image(good, good))
        self.assertEqual((error.index, type(error.cause), error.cause.place), (1, Malformed, 13 + 14))
        self.assertRaises(TypeError, Node.restore, self.old, "image")

    def test_upgrades(self):
        self.node.accept("a\u0302")
        self.assertIsNone(self.node.upgrade(self.new))
        self.assertIs(self.node.tables, self.new)
        self.assertEqual(self.node.accept("\u1dfa"), Accepted.KEPT)
        before = self.state()
        self.assertEqual(self.node.upgrade(self.old), ("Lost", 0x1DFA))
        self.assertIs(self.node.tables, self.new)
        self.assertEqual(self.state(), before)
        self.assertRaises(TypeError, self.node.upgrade, None)

    def test_a_node_outlives_its_tables(self):
        node = Node(Tables.open(*V1))
        node.accept(MARKED)
        node.upgrade(self.new)
        self.assertEqual(node.key(MARKED), "\u1ead")

    def test_what_is_shown_holds_no_string(self):
        self.node.accept("A")
        self.assertEqual(repr(self.node), "<npss.Node: 1 strings, form 'nfc', room 4>")

    def test_many_entries(self):
        node = Node(self.old)
        strings = [MARKED * count for count in range(1, 2_000)]
        for string in strings:
            node.accept(string)
        self.assertEqual([entry.string for entry in node], strings)
        self.assertEqual(node.key(strings[-1]), "\u1ead" * 1_999)
        self.assertEqual(self.state(Node.restore(self.old, node.image())), self.state(node))


class Habits(unittest.TestCase):
    """What a user of Python expects of any object."""

    def setUp(self):
        self.tables = Tables.open(*V1)

    def test_one_text_is_no_list_of_texts(self):
        self.assertRaisesRegex(TypeError, "key makes the key of one str", self.tables.keys, "abc")
        self.assertRaises(TypeError, self.tables.keys, b"abc")
        self.assertRaisesRegex(TypeError, "bytes are wanted, not <class 'str'>", self.tables.answers, "abc")
        self.assertEqual(self.tables.keys(("a", MARKED)), ["a", "\u1ead"])

    def test_a_refusal_tells_which_text(self):
        with self.assertRaises(Unassigned) as caught:
            self.tables.keys(["a", "", "aA\U0010ffff"])
        self.assertEqual((caught.exception.number, str(caught.exception)), (2, "text 2: unassigned 10FFFF at byte 2"))
        self.assertEqual(str(self.tables.first_unassigned("\U0010ffff")), "unassigned 10FFFF at byte 0")

    def test_errors_are_those_of_the_package(self):
        for name in ("BadEntry", "BadTables", "Full", "KeyDiffers", "Malformed", "NoFolding", "NotUtf8", "OlderTables", "OtherForm", "Refused", "TooLong", "Unassigned"):
            self.assertEqual(getattr(npss, name).__module__, "npss")
        error = self.tables.first_unassigned("\U0010ffff")
        self.assertEqual(pickle.loads(pickle.dumps(error)).args, error.args)

    def test_what_is_shown(self):
        self.assertEqual(repr(self.tables), "<npss.Tables: 17660 code points>")

    def test_weak_references(self):
        for make in (lambda: Tables.open(*V1), lambda: Node(self.tables), lambda: self.tables.stream()):
            kept = make()
            found = weakref.ref(kept)
            self.assertIs(found(), kept)
            del kept
            self.assertIsNone(found())
        self.assertEqual(len(weakref.WeakSet([self.tables])), 1)

    def test_a_node_that_changes_under_an_iterator(self):
        node = Node(self.tables)
        self.assertEqual(list(iter(node)), [])
        for text in ("a", "A", MARKED):
            node.accept(text)
        other = Node(self.tables)
        other.accept("i")
        for change in (lambda: node.accept("f"), lambda: node.forget("a"), lambda: node.take(other.message("i"))):
            entries = iter(node)
            next(entries)
            change()
            self.assertRaisesRegex(RuntimeError, "changed during iteration", next, entries)
        entries = iter(node)
        for change in (lambda: node.accept("A"), lambda: node.forget("none"), lambda: node.upgrade(Tables.open(*V2)), lambda: node.message("A")):
            next(entries)
            change()
        self.assertEqual((list(entries), next(entries, None), list(reversed(node))), ([], None, node[::-1]))
        self.assertEqual([entry.string for entry in node], ["A", MARKED, "f", "i"])
        self.assertEqual((iter(node).__length_hint__(), len(list(iter(node)))), (4, 4))


class Pages(unittest.TestCase):
    def test_each_call_has_a_page(self):
        page = pydoc.render_doc(npss, renderer=pydoc.plaintext)
        for word in ("accept(self, string, /)", "key(self, /, text, form='nfc', caseless=False)", "open(data, exclusions, folding=None)", "stabilized string", "class Unassigned"):
            self.assertIn(word, page)
        stub = Path(npss.__file__).with_name("_npss.pyi").read_text(encoding="utf-8")
        for kind in (Tables, Node, Stream):
            for name in (name for name in dir(kind) if not name.startswith("_")):
                self.assertTrue(getattr(kind, name).__doc__)
                self.assertIn(f"def {name}(", stub)
        self.assertEqual(Break.__doc__.split()[0], "What")


if __name__ == "__main__":
    ran = unittest.main(argv=sys.argv[:1], exit=False, verbosity=0).result
    failed = len(ran.failures) + len(ran.errors)
    print(f"{ran.testsRun - failed} passed, {failed} failed", flush=True)
    sys.exit(1 if failed else 0)
