"""Memory that runs out, and what is left open."""

import os
import re
import shutil
import subprocess
import sys
import tempfile
import unittest
from pathlib import Path

from cases import CASED_MIDDLE, CASED_NEW, CASED_OLD, EXTENSION, MIDDLE, NEW, OLD, OLD_COUNT, YOUNGEST, Case, fixture_rows

# What refuses allocations one by one (its first comment says how it is told).
REFUSE = Path(__file__).resolve().parents[2] / "tests" / "program" / "refusals" / "refuse.c"
# How many code points the first toy version assigns.
TOY_COUNT = 17_660


class Memory(Case):
    def test_nothing_is_left_of_what_failed(self):
        base = self.with_names(CASED_NEW)
        before = 0
        for _ in range(2):
            for _ in range(8):
                self.refused("do not extend", base, "SELECT npss_raise(?)", CASED_OLD)
                self.assertEqual(self.asked(base, "npss_audit(?)", CASED_MIDDLE), "Lost 0CF3")
                self.assertIsNone(self.asked(base, "npss_try_key(?)", "\ufdfa" * 20_000 + "\U000e0080"))
                self.assertEqual(self.asked(base, "length(npss_nfkd(?))", "\ufdfa" * 20_000), 360_000)
                self.refused("not assigned", base, "SELECT npss_caseless_nfkc(?)", "\ufdfa" * 20_000 + "\U000e0080")
                self.assertEqual(self.asked(base, "length(npss_caseless_nfkd(?))", "\ufdfa" * 20_000), 360_000)
                self.refused("have no CaseFolding.txt", base, "SELECT npss_raise(?)", NEW)
                beside = self.connect()
                self.assertEqual(self.asked(beside, "npss_caseless_key('A')"), "a")
                beside.close()
            now = int(Path("/proc/self/statm").read_text().split()[1]) * 4096
            before, grown = now, now - before
        # The tables of a version have some 3 MB, and its files 2 MB.
        self.assertLess(grown, 3_000_000)

    def test_memory_that_runs_out_is_told(self):
        # In a process of its own, whose memory is bounded behind its start.
        code = f"""
import resource, sqlite3, sys
base = sqlite3.connect({self.path!r}); base.enable_load_extension(True); base.load_extension({EXTENSION!r})
base.execute("SELECT npss_raise(?)", ({NEW!r},))
used = int(open("/proc/self/statm").read().split()[0]) * 4096
text = "\\u1ead" * 2_000_000
resource.setrlimit(resource.RLIMIT_AS, (used + int(sys.argv[1]),) * 2)
try:
    print(len(base.execute("SELECT npss_nfd(?)", (text,)).fetchone()[0]))
except (sqlite3.Error, MemoryError) as error:
    print(type(error).__name__)
print(base.execute("SELECT npss_nfc('a')").fetchone()[0])
"""
        for room in range(8_000_000, 90_000_000, 6_000_000):
            ran = subprocess.run([sys.executable, "-c", code, str(room)], stdout=subprocess.PIPE, stderr=subprocess.PIPE, check=False)
            self.assertEqual(ran.returncode, 0, ran.stderr)
            self.assertIn(ran.stdout.split()[0], (b"6000000", b"MemoryError", b"OperationalError"))
            self.assertEqual(ran.stdout.split()[1], b"a")

    @unittest.skipUnless(shutil.which("cc") and shutil.which("sqlite3"), "cc or SQLite's shell is not here")
    def test_a_raise_that_was_refused_memory_is_undone(self):
        """Each allocation of a raise within a transaction is refused in turn. Behind the rollback keys are those of before."""
        self.raised_and_undone((OLD, NEW), f"npss_try_key('{YOUNGEST}')", OLD_COUNT)

    @unittest.skipUnless(shutil.which("cc") and shutil.which("sqlite3"), "cc or SQLite's shell is not here")
    def test_a_raise_with_foldings_that_was_refused_memory_is_undone(self):
        # The published foldings take an allocation for each code point, so these are the toy versions.
        with tempfile.TemporaryDirectory() as name:
            toys = [fixture_rows.put_toy(Path(name, version), version) for version in ("v1", "v2")]
            self.raised_and_undone(toys, "npss_try_caseless_key('\U00016d67')", TOY_COUNT)

    def raised_and_undone(self, versions, call, count):
        before = [f".load {EXTENSION}", f"SELECT npss_raise('{versions[0]}');", "BEGIN;"]
        raised = [f"SELECT npss_raise('{versions[1]}');"]
        behind = [f"SELECT {call};", "ROLLBACK;", f"SELECT 'end', npss_version(), {call} IS NULL;"]
        with tempfile.TemporaryDirectory() as name:
            shim = Path(name, "refuse.so")
            subprocess.run(["cc", "-O2", "-shared", "-fPIC", "-o", shim, REFUSE], check=True)
            first, last = (self.allocations(shim, Path(name), statements) for statements in (before, before + raised))
            self.assertGreater(last, first)
            ends = self.refused_each(shim, Path(name), before + raised + behind, first - 20)
        # Where the statement was refused that begins the transaction, or the one that undoes it, nothing is undone.
        lines = [out.splitlines()[-1] for out, err in ends if not re.search("line [36]: out of memory", err) and "\nend|" in f"\n{out}"]
        self.assertGreater(len(lines), (last - first) // 2)
        self.assertEqual(set(lines), {f"end|{count}|1"})

    def shell(self, shim, folder, statements, **variables):
        """A run of SQLite's shell over a database in memory, with the shim that is told so; what it wrote."""
        with open(folder / "given", "w+", encoding="utf-8") as given, open(folder / "out", "w", encoding="utf-8") as out, open(folder / "err", "w") as err:
            given.write("\n".join(statements) + "\n")
            given.seek(0)
            subprocess.run(["sqlite3", "-batch", ":memory:"], stdin=given, stdout=out, stderr=err, env={**os.environ, "LD_PRELOAD": str(shim), **variables},
                           timeout=600, check=False)

    def allocations(self, shim, folder, statements):
        """How many allocations a run makes."""
        self.shell(shim, folder, statements, REFUSE_COUNTS=str(folder / "counts"))
        return int((folder / "counts").read_text().split()[0])

    def refused_each(self, shim, folder, statements, first):
        """What copies of a run wrote to both outputs, each of which was refused one allocation, from a place on."""
        self.shell(shim, folder, statements, REFUSE="memory:0:", REFUSE_EACH=f"{first}:1", REFUSE_ENDS=str(folder / "ends"))
        written, found = (folder / "ends").read_bytes(), []
        while written:
            line, _, written = written.partition(b"\n")
            *_, out, err = map(int, line.split())
            found.append((written[:out].decode(), written[out:out + err].decode()))
            written = written[out + err:]
        return found

    @unittest.skipUnless(shutil.which("valgrind"), "valgrind is not here")
    def test_nothing_is_touched_out_of_bounds(self):
        # Results around the room, and around each remainder of 8 above it, since memory is handed out in eights.
        lengths = [*range(4094, 4108), *range(20_000, 20_009)]
        statements = [f"SELECT npss_raise('{OLD}');", *(f"SELECT length(npss_nfc(printf('%.*c', {length - 2}, 'x') || '\u00eb'));" for length in lengths),
                      "SELECT npss_nfd('\u1ead'), npss_try_key('\u1df9'), npss_is_normalized('e\u0308'), npss_equivalent('a', '\u1ead', 'nfkd');",
                      f"SELECT npss_audit('{MIDDLE}');", f"SELECT npss_raise('{NEW}');", f"SELECT npss_raise('{OLD}');", "SELECT npss_raise('/none');",
                      f"SELECT npss_raise('{CASED_NEW}');", f"SELECT npss_raise('{NEW}');", f"SELECT npss_audit('{CASED_OLD}');",
                      *(f"SELECT length(npss_caseless_nfkc(printf('%.*c', {length - 2}, 'X') || '\u00cb'));" for length in lengths),
                      "SELECT npss_caseless_nfd('\u1e9e'), npss_try_caseless_key('\U000e0080'), npss_caseless_match('A', '\u1ead', 'nfkd');",
                      f"ATTACH '{self.path}' AS other;", "CREATE TABLE other.npss_record (data, exclusions);", "INSERT INTO other.npss_record VALUES (x'00', x'00');",
                      "CREATE TABLE other.account (key TEXT);", "INSERT INTO other.account VALUES (npss_nfc('\u1ead'));", "DELETE FROM other.npss_record;",
                      "INSERT INTO other.account VALUES (npss_nfc('\u1ead'));", "DETACH other;",
                      "BEGIN;", f"SELECT npss_raise('{CASED_NEW}');", "SAVEPOINT here;", "DROP TABLE npss_record;", "SELECT npss_nfc('\u1ead');", "ROLLBACK TO here;",
                      "SELECT npss_nfc('\u1ead');", f".load {EXTENSION}", "SELECT npss_nfc('\u1ead');", "ROLLBACK;", "SELECT npss_nfc('\u1ead');", "BEGIN;", "CREATE TABLE kept (key);", "SELECT npss_nfc('\u1ead');"]
        words = ["valgrind", "-q", "--leak-check=full", "--show-leak-kinds=definite", "--errors-for-leak-kinds=definite", "--error-exitcode=9",
                 "sqlite3", "-cmd", f".load {EXTENSION}", ":memory:"]
        ran = subprocess.run(words, input="\n".join(statements), stdout=subprocess.PIPE, stderr=subprocess.PIPE, text=True, check=False)
        self.assertNotEqual(ran.returncode, 9, ran.stderr)
        self.assertNotIn("==", ran.stderr)
        self.assertEqual(ran.stdout.split()[1:len(lengths) + 1], [str(length - 1) for length in lengths])
        self.assertIn("records another version", ran.stderr)
        self.assertNotIn("unable to close", ran.stderr)
