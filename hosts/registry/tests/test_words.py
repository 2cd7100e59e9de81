"""The command: what it prints, and with which status each of its ways ends. Status 1 means no, and nothing else."""

import contextlib
import os
import re
import shutil
import signal
import socket
import sqlite3
import stat
import subprocess
import sys
import tempfile
import unittest
from pathlib import Path

import npss
from cases import FOLDED_OLD, NEW, OLD, PROGRAM, YOUNG
from serving import TOKEN, ServingCase

DONE, NO, WORDS, REFUSED, FAULTY, AWAY = range(6)


class WordsCase(unittest.TestCase):
    """A folder, and the command as a process in it."""

    def setUp(self):
        room = tempfile.TemporaryDirectory()
        self.addCleanup(room.cleanup)
        self.folder = Path(room.name)

    def run_words(self, *words, before="", behind="", **environment):
        """The command's status, output and error output; `before` and `behind` are a shell's words around it."""
        command = " ".join([before, sys.executable, "-m", "npss_registry", '"$@"', behind])
        ran = subprocess.run(["bash", "-c", command, "bash", *map(os.fsencode, map(str, words))], cwd=self.folder, stdin=subprocess.DEVNULL,
                             stdout=subprocess.PIPE, stderr=subprocess.PIPE, timeout=60, env={**os.environ, **environment}, check=False)
        return ran.returncode, ran.stdout.decode(errors="replace"), ran.stderr.decode(errors="replace")

    def sees(self, status, pattern, *words, **how):
        """The command ends with a status, and tells one sentence and nothing else on its error output."""
        found = self.run_words(*words, **how)
        self.assertEqual(found[0], status, (words, found))
        self.assertNotIn("Traceback", found[2], words)
        self.assertNotIn("a fault of npss-registry", found[2], words)
        if status in (DONE, NO):
            self.assertEqual(found[2], "", words)
        else:
            self.assertRegex(found[2], r"\Anpss-registry: [^\n]+\n\Z", words)
        self.assertTrue(re.search(pattern, found[1] if status in (DONE, NO) else found[2]), (words, found))
        return found

    def store(self, name="store"):
        self.sees(DONE, "form nfc", "init", name, *OLD)
        return name


class Statuses(WordsCase):
    """Each way in which the command ends."""

    def test_done_and_no(self):
        for status, pattern, words in (
                (DONE, r"\Aform nfkc, room 9, shards 2, equivalents refused, names of at most 1024 bytes\n\Z", ("init", "store", *OLD, "--form", "NFKC", "--room", "9", "--shards", "2")),
                (DONE, r"\Aregistered '\ufb01' of 'x' at place 3\n\Z", ("claim", "store", "\ufb01", "--owner", "x")),
                (DONE, "registered", ("claim", "store", "\ufb01", "--owner", "x")), (NO, "taken", ("claim", "store", "fi", "--owner", "y")),
                (DONE, r"\A3\t'\ufb01'\tx\n\Z", ("find", "store", "fi")), (NO, r"\Anot registered\n\Z", ("find", "store", "A")),
                (DONE, r"\Aequal\n\Z", ("same", "store", "\ufb01", "\ufb01")), (NO, "not registered", ("same", "store", "A", "\ufb01")),
                (NO, "different", ("same", "store", "\ufb01", "i")), (DONE, "3\t", ("list", "store")), (DONE, "shard 0: place", ("status", "store")),
                (DONE, "assign 17666", ("upgrade", "store", *NEW)), (NO, "taken", ("forget", "store", "\ufb01", "--owner", "y")),
                (DONE, "forgotten", ("forget", "store", "\ufb01", "--owner", "x")), (NO, "not registered", ("forget", "store", "\ufb01")),
                (DONE, "", ("backup", "store", "copy")), (DONE, "", ("list", "copy")),
                (DONE, "all as they are kept", ("check", "store", "--program", PROGRAM))):
            if words[:2] == ("same", "store") and words[3] == "i":
                self.run_words("claim", "store", "i", "--owner", "x")
            self.sees(status, pattern, *words)
        self.assertEqual(self.run_words("--version"), (DONE, f"npss-registry {npss.__version__}\n", ""))
        for words in (("--help",), ("find", "--help")):
            status, shown, complaints = self.run_words(*words)
            self.assertEqual((status, complaints, shown[:6]), (DONE, "", "usage:"))
        self.assertIn("the file of the store", shown)

    def test_the_wrong_word_is_named(self):
        for words, wrong in ((("fnid", "store"), "'fnid'"), (("init", "store", *OLD, "--form", "nfx"), "'nfx'"), (("list", "store", "--colour"), "--colour")):
            status, shown, complaints = self.run_words(*words)
            self.assertEqual((status, shown), (WORDS, ""))
            self.assertIn(wrong, complaints)

    def test_a_full_shard(self):
        self.sees(DONE, "room 0", "init", "store", *OLD, "--room", "0")
        self.sees(NO, r"\Afull\n\Z", "claim", "store", "A", "--owner", "x")

    def test_bad_words(self):
        store = self.store()
        for words in ((), ("none",), ("claim", store), ("claim", store, "A"), ("init", store, *OLD, "--form", "nfx"), ("init", store, *OLD, "--room", "x"),
                      ("init", store, *OLD, "--room", "-1"), ("init", store, *OLD, "--shards", "0"), ("init", store, *OLD, "--log", "ftp://x"),
                      ("serve", store, "--port", "x"), ("claim", store, "A", "--owner", "\udcff"), ("find", store, "A", "B")):
            self.assertEqual(self.run_words(*words)[0], WORDS, words)

    def test_what_is_refused(self):
        store = self.store()
        for name in ("\udcff", "\u0378", YOUNG):
            self.sees(REFUSED, "", "claim", store, name, "--owner", "x")
            self.sees(REFUSED, "", "find", store, name)
            self.sees(REFUSED, "", "forget", store, name)

    def test_what_is_faulty(self):
        store = self.store()
        (self.folder / "text").write_text("this is no store, and long enough to be looked at by SQLite as a file " * 20, encoding="ascii")
        (self.folder / "empty").write_text("", encoding="ascii")
        for words in (("status", "none"), ("status", "text"), ("status", "empty"), ("status", "."), ("init", store, *OLD), ("upgrade", store, OLD[1], OLD[0]),
                      ("init", "other", OLD[1], OLD[0]),
                      ("init", "other", *OLD, "--log", "store.log", "--form", "nfd"), ("backup", store, store), ("serve", "none", "--port", "0"),
                      ("check", "none", "--program", PROGRAM)):
            self.sees(FAULTY, "", *words)
        self.sees(DONE, "", "upgrade", store, *NEW)
        self.sees(FAULTY, "not one chain", "upgrade", store, *OLD)

    def test_a_program_that_is_missing(self):
        store = self.store()
        self.sees(DONE, "caseless", "init", "folded", *FOLDED_OLD, "--caseless")
        self.sees(DONE, "registered", "claim", "folded", "A", "--owner", "x")
        (self.folder / "npss").symlink_to(Path(PROGRAM).absolute())
        for named, program, missing in ((store, "none", "none"), ("folded", "./none", "npss_lines"), ("folded", "./npss", "npss_lines")):
            for command in ("check", "trim"):
                self.sees(AWAY, f"{missing} can't be run: .*--program", command, named, "--program", program)

    def test_a_damaged_store(self):
        store = self.store()
        self.run_words("claim", store, "A", "--owner", "x")
        for change in ("UPDATE image SET image = x'00'", "UPDATE version SET data = x'00'", "UPDATE registration SET owner = CAST(x'ff' AS TEXT)",
                       "DELETE FROM version", "DROP TABLE journal", "UPDATE setup SET form = 'nfx'", "DELETE FROM image"):
            shutil.copy(self.folder / store, self.folder / "copy")
            with contextlib.closing(sqlite3.connect(self.folder / "copy")) as base, base:
                base.execute(change)
            self.sees(FAULTY, "", "list", "copy")
            if change != "UPDATE registration SET owner = CAST(x'ff' AS TEXT)":
                self.sees(FAULTY, "", "serve", "copy", "--port", "0")
            for left in self.folder.glob("copy*"):
                left.unlink()

    def test_what_is_away(self):
        store = self.store()
        for words in (("upgrade", store, "none", OLD[1]), ("init", "other", "none", OLD[1]), ("init", "other", *OLD, "--log", "redis://127.0.0.1:1/0"),
                      ("backup", store, "none/copy"), ("init", "none/other", *OLD, "--log", "log")):
            self.sees(AWAY, "", *words)

    def test_a_full_disk(self):
        store = self.store()
        # A limit on the size of files is what a full disk is to SQLite; the signal that comes with it is not waited for.
        for blocks, words in ((8, ("claim", store, "A", "--owner", "x")), (36, ("backup", store, "copy")), (8, ("init", "other", *OLD, "--log", "l"))):
            self.sees(AWAY, "", *words, before=f"trap '' XFSZ; ulimit -f {blocks};")
        self.assertFalse(list(self.folder.glob("copy*")))
        self.sees(DONE, "", "claim", store, "A", "--owner", "x")

    def test_outputs_that_fail(self):
        store = self.store()
        self.run_words("claim", store, "A", "--owner", "x")
        self.assertEqual(self.run_words("list", store, behind="> /dev/full"), (AWAY, "", "npss-registry: [Errno 28] No space left on device\n"))
        self.assertEqual(self.run_words("list", store, behind="| (exec <&-; sleep 2); exit ${PIPESTATUS[0]}"), (141, "", ""))
        self.assertEqual(self.run_words("list", store, behind=">&-")[0], DONE)
        self.assertEqual(self.run_words("claim", store, YOUNG, "--owner", "x", behind="2>&-")[0], REFUSED)
        self.assertEqual(self.run_words("claim", store, YOUNG, "--owner", "x", behind="2> /dev/full")[0], REFUSED)

    def test_names_that_the_output_has_no_signs_for(self):
        store = self.store()
        found = self.run_words("claim", store, "\u00e2", "--owner", "\u00e9", PYTHONIOENCODING="ascii", PYTHONUTF8="0")
        self.assertEqual(found, (DONE, "registered '\\xe2' of '\\xe9' at place 2\n", ""))

    def test_an_interruption(self):
        store = self.store()
        os.mkfifo(self.folder / "data")
        # Who runs the tests in the background has their processes ignore an interruption.
        process = subprocess.Popen([sys.executable, "-m", "npss_registry", "upgrade", store, "data", OLD[1]], cwd=self.folder,
                                   stderr=subprocess.PIPE, preexec_fn=lambda: signal.signal(signal.SIGINT, signal.default_int_handler))
        with (self.folder / "data").open("wb"):  # which it reads from now on
            process.send_signal(signal.SIGINT)
            _, stderr = process.communicate(timeout=10)
        self.assertEqual((process.returncode, stderr), (130, b"npss-registry: interrupted\n"))


class Listings(WordsCase):
    """Names and owners are spelled so that none makes a line, or turns one."""

    def test_owners_forge_no_line(self):
        store = self.store()
        self.run_words("claim", store, "A", "--owner", "x\n99\t'admin'\troot\x1b[2J\u202e\\")
        line = "2\t'A'\tx\\n99\\t'admin'\\troot\\x1b[2J\\u202e\\\\\n"
        self.assertEqual(self.run_words("list", store)[1], line)
        self.assertEqual(self.run_words("find", store, "A")[1], line)

    def test_files_are_the_users_own(self):
        store = self.store()
        self.run_words("backup", store, "copy")
        self.run_words("claim", store, "A", "--owner", "x")
        for name in ("store", "store.log", "store-lock", "copy"):
            self.assertEqual(stat.S_IMODE((self.folder / name).stat().st_mode), 0o600, name)


class Serve(WordsCase):
    """What `serve` refuses before it tells that anything is served."""

    def test_what_is_missing(self):
        store = self.store()
        odd = {"empty": b"", "blank": b"\n# no token\n\n", "short": b"short\n", "bytes": b"\xff" * 20, "signs": "\u00e2".encode() * 20, "words": b"a b c d e f\n",
               "twice": b"one " + TOKEN.encode() + b"\ntwo " + TOKEN.encode(), "names": b"one token-of-one-of-them\none token-of-another-one", "large": b"x" * 100_000,
               "control": b"sixteen\x01characters"}
        for name, content in odd.items():
            (self.folder / name).write_bytes(content)
            self.sees(AWAY, f"{name}: ", "serve", store, "--port", "0", "--token-file", name)
        os.mkfifo(self.folder / "pipe")
        self.sees(AWAY, "pipe: nothing came", "serve", store, "--port", "0", "--token-file", "pipe")
        self.sees(AWAY, "there is no token", "serve", store, "--port", "0", "--token-file", "/dev/fd/7", behind="7< <(sleep 1)")
        self.sees(AWAY, "No such file", "serve", store, "--port", "0", "--token-file", "none")
        self.sees(AWAY, "directory", "serve", store, "--port", "0", "--token-file", ".")
        for port in ("70000", "99999", "-1"):
            self.sees(AWAY, "a number from 0 to 65535", "serve", store, "--port", port)
        for host in ("192.0.2.1", "none.invalid", "a..b"):
            self.sees(AWAY, "port 0: ", "serve", store, "--port", "0", "--host", host)
        with socket.create_server(("127.0.0.1", 0)) as taken:
            self.sees(AWAY, "Address already in use", "serve", store, "--port", taken.getsockname()[1])
        self.sees(AWAY, "--token-file", "serve", store, "--port", "0", "--private")

    def test_modules_that_are_missing(self):
        store = self.store()
        for module, package in (("uvicorn", "python3-uvicorn"), ("starlette", "python3-starlette"), ("prometheus_client", "python3-prometheus-client")):
            hidden = self.folder / "hidden" / module
            hidden.mkdir(parents=True)
            (hidden / "__init__.py").write_text(f"raise ModuleNotFoundError('No module named {module}', name='{module}')\n", encoding="ascii")
            path = f"{hidden.parent}:{os.environ.get('PYTHONPATH', '')}"
            self.sees(AWAY, package, "serve", store, "--port", "0", PYTHONPATH=path)
            shutil.rmtree(hidden.parent)
        hidden = self.folder / "hidden"
        hidden.mkdir()
        (hidden / "redis.py").write_text("raise ModuleNotFoundError('No module named redis', name='redis')\n", encoding="ascii")
        with contextlib.closing(sqlite3.connect(self.folder / store)) as base, base:
            base.execute("UPDATE setup SET log = 'redis://127.0.0.1:1/0'")
        self.sees(AWAY, "python3-redis", "serve", store, "--port", "0", PYTHONPATH=f"{hidden}:{os.environ.get('PYTHONPATH', '')}")
        self.sees(AWAY, "python3-redis", "init", "other", *OLD, "--log", "redis://127.0.0.1/0", PYTHONPATH=f"{hidden}:{os.environ.get('PYTHONPATH', '')}")


class Taken(ServingCase):
    """A store that is served already."""

    def test_a_second_server(self):
        path = self.store("store")
        server = self.serve(path)
        self.assertTrue(server.port)
        ran = subprocess.run([sys.executable, "-m", "npss_registry", "serve", path, "--port", "0"], stderr=subprocess.PIPE, text=True, check=False, timeout=30)
        self.assertEqual(ran.returncode, AWAY)
        self.assertRegex(ran.stderr, r"\Anpss-registry: .*another process works on this store.*\n\Z")
