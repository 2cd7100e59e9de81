"""Time and memory that run out, and what valgrind sees."""

import os
import re
import shutil
import subprocess
import time
import unittest
from pathlib import Path

from cases import CASED, FOLDING, MARKED, YOUNG, Case, copied
from server import own, run, words_as_user


class Bounds(Case):
    """Time and memory that run out."""

    @classmethod
    def more_versions(cls):
        copied(cls.versions, {"cased": CASED / "15.0"})

    def test_a_long_text_ends_with_its_statement(self):
        base = self.base("bounds", "15.0")
        self.server.sql("CREATE TABLE long (body text); ALTER TABLE long ALTER body SET STORAGE EXTERNAL;"
                        f"INSERT INTO long VALUES (repeat('{MARKED}', 36000000))", base)
        session = self.session(base)
        for call in ("npss_nfc(body)", "npss_normalize(body)", "npss_is_normalized(body)", "npss_equivalent(body, body)", "npss_equivalent('a', body)"):
            self.ends_early(session, f"SELECT {call} IS NULL FROM long")

    def test_a_long_caseless_key_ends_with_its_statement(self):
        base = self.base("caseless", "cased")
        self.server.sql("CREATE TABLE long (body text); ALTER TABLE long ALTER body SET STORAGE EXTERNAL;"
                        f"INSERT INTO long VALUES (repeat('\u1e9e{MARKED}', 4000000))", base)
        session = self.session(base)
        for call in ("npss_caseless_nfc(body)", "npss_caseless_nfkd(body)", "npss_caseless_match(body, 'a')", "npss_caseless_match('a', body, 'nfkc')"):
            self.ends_early(session, f"SELECT {call} IS NULL FROM long")

    def test_a_comparison_ends_where_one_text_is_long(self):
        # The short text is made eleven times as long. What stands behind the comparison isn't reached, and shows where it ended.
        base = self.base("compared", "15.0")
        self.server.sql("CREATE SEQUENCE calls; CREATE TABLE pair AS SELECT repeat(letter, 340000) AS short, repeat(npss_nfkd(letter), 340000) AS long "
                        "FROM (VALUES ('\ufdfa')) AS of (letter)", base)
        for pair in ("short, long", "long, short"):
            session = self.session(base)
            session.ask("SELECT npss_nfc('\u1ead'), nextval('calls')")
            before = self.server.sql("SELECT last_value FROM calls", base)
            own = self.spent(session, "SELECT short < long FROM pair")[0]
            whole, answer = self.spent(session, f"SELECT npss_equivalent({pair}, 'nfkd') FROM pair")
            self.assertEqual(answer, "t")
            session.ask(f"SET statement_timeout = {max(1, round(1000 * (own + (whole - own) / 8)))}")
            self.assertIn("57014", session.ask(f"SELECT npss_equivalent({pair}, 'nfkd') AND nextval('calls') > 0 FROM pair"))
            self.assertEqual(self.server.sql("SELECT last_value FROM calls", base), before)

    def ends_early(self, session, text, before=None):
        """A timeout ends the statement before the middle of what it takes behind its beginning, which PostgreSQL itself does."""
        session.ask("SET statement_timeout = 0")
        own = self.spent(session, before)[0] if before else 0
        whole, answer = self.spent(session, text)
        self.assertNotIn("ERROR", answer)
        # No statement is done in less time than it takes of a processor, however busy the machine was.
        session.ask(f"SET statement_timeout = {max(1, round(1000 * (own + (whole - own) / 8)))}")
        took, answer = self.spent(session, text)
        self.assertIn("57014", answer)
        self.assertLess(took, own + (whole - own) / 2, text)

    def spent(self, session, text):
        """How many seconds of a processor a statement takes, and what it answers."""
        before = self.processor_time(session)
        answer = session.ask(text)
        return self.processor_time(session) - before, answer

    def processor_time(self, session):
        """The seconds of a processor that a session's process has had."""
        fields = Path(f"/proc/{session.pid}/stat").read_text().rpartition(")")[2].split()
        return (int(fields[11]) + int(fields[12])) / os.sysconf("SC_CLK_TCK")

    def test_questions_of_a_long_text_end_with_their_statement(self):
        base = self.base("questions", "15.0")
        self.server.sql(f"CREATE TABLE long AS SELECT repeat('{MARKED}', 1000000) AS body", base)
        session = self.session(base)
        self.ends_early(session, "SELECT count(*) FROM long, npss_why(body)")

    def test_a_search_ends_within_its_text(self):
        # A search is short beside what makes its text, so there are many in one expression, and another session says when they end.
        base = self.base("searched", "15.0")
        self.server.sql("CREATE SEQUENCE begun; CREATE SEQUENCE ended", base)
        session, beside = self.session(base), self.session(base)
        searches = " AND ".join(["npss_first_unassigned(body) IS NULL"] * 20)
        session.send(f"SELECT nextval('begun') > 0 AND {searches} AND nextval('ended') > 0 FROM (SELECT repeat('{MARKED}', 36000000) AS body OFFSET 0) AS made")
        until = time.monotonic() + 120
        while beside.ask("SELECT is_called FROM begun") != "t" and time.monotonic() < until:
            time.sleep(0.01)
        beside.ask(f"SELECT pg_cancel_backend({session.pid})")
        self.assertIn("57014", session.receive())
        self.assertEqual(beside.ask("SELECT a.is_called, b.is_called FROM begun AS a, ended AS b"), "t|f")

    def test_what_is_made_is_too_long(self):
        # Each sign is made eleven times as long.
        base = self.base("longest", "15.0")
        refusal = self.refused("54000", "SELECT npss_nfkd(repeat('\ufdfa', 33000000))", base)
        self.assertIn("the text is too long", refusal)

    def used(self, session):
        """The bytes that a session's process has mapped, and those of them that are in memory."""
        return [int(number) * 4096 for number in Path(f"/proc/{session.pid}/statm").read_text().split()[:2]]

    def test_nothing_is_left_of_what_failed(self):
        base = self.base("leaks", "15.0")
        session = self.session(base)
        before = 0
        for _ in range(2):
            for _ in range(8):
                self.assertIn("55000", session.ask("SELECT npss_raise('13.0')"))
                self.assertEqual(session.ask("SELECT npss_audit('14.0')"), "Lost 0CF3")
                self.assertEqual(session.ask("SELECT ready FROM npss_ready('14.0')"), "t")
            now = self.used(session)[1]
            before, grown = now, now - before
        # The tables of a version have some 3 MB.
        self.assertLess(grown, 3_000_000)

    def test_memory_that_runs_out_where_tables_are_opened(self):
        base = self.base("opening", "15.0")
        ends = set()
        for room in range(500_000, 20_000_000, 1_500_000):
            session = self.session(base)
            session.ask("SELECT npss_nfc('a')")
            run(["prlimit", "--pid", session.pid, f"--as={self.used(session)[0] + room}:"])
            answer = session.ask(f"SELECT npss_nfc('{MARKED}') = '\u1ead'")
            ends.add(answer if answer == "t" else re.search(r"\d{5}", answer)[0])
            run(["prlimit", "--pid", session.pid, "--as=unlimited:"])
            self.assertEqual(session.ask(f"SELECT npss_nfc('{MARKED}') = '\u1ead'"), "t")
        self.assertEqual(ends, {"t", "53200"})

    def test_memory_that_runs_out(self):
        base = self.base("memory", "15.0")
        session = self.session(base)
        session.ask(f"SELECT npss_nfc('{MARKED}');")
        used = self.used(session)[0]
        ends = set()
        for room in range(1_000_000, 40_000_000, 3_000_000):
            run(["prlimit", "--pid", session.pid, f"--as={used + room}:"])
            answer = session.ask("SELECT length(npss_nfd(repeat('\u1ead', 900000)));")
            ends.add("made" if answer == "2700000" else re.search(r"\d{5}", answer)[0])
            self.assertEqual(session.ask(f"SELECT npss_nfc('{MARKED}') = '\u1ead';"), "t")
        self.assertLessEqual(ends, {"made", "53200"})
        self.assertIn("53200", ends)

    def test_keys_that_no_index_holds(self):
        base = self.base("wide", "15.0")
        self.server.sql("CREATE EXTENSION pgcrypto; CREATE TABLE account (name text); CREATE INDEX ON account (npss_nfc(name));"
                        "CREATE TABLE hashed (name text, EXCLUDE USING hash (npss_nfc(name) WITH =))", base)
        wide = "(SELECT string_agg(encode(gen_random_bytes(900), 'hex'), '') FROM generate_series(1, 3))"
        self.refused("54000", f"INSERT INTO account SELECT {wide}", base)
        self.server.sql(f"INSERT INTO hashed SELECT {wide}", base)
        self.refused("23P01", "INSERT INTO hashed SELECT name FROM hashed", base)


class Memory(Case):
    """One session of everything under valgrind: nothing that this extension touches is out of bounds."""

    @unittest.skipUnless(shutil.which("valgrind"), "valgrind is not here")
    def test_under_valgrind(self):
        for label in ("14.0", "15.0"):
            (self.versions / label / FOLDING).write_bytes((CASED / label / FOLDING).read_bytes())
        base = self.base("checked", "13.0")
        self.server.stop()
        statements = [f"SELECT npss_nfc('{MARKED}'), npss_key('\ufb01', 'nfkd'), npss_try_key('{YOUNG}'), npss_is_normalized('{MARKED}')",
                      f"SELECT npss_equivalent('{MARKED}', '\u1ead'), npss_first_unassigned('a{YOUNG}'), npss_normalize('{YOUNG}')",
                      f"SELECT count(*) FROM npss_why('{MARKED}\uac01\ufb01')", f"SELECT npss_nfc('{YOUNG}')", "SELECT npss_audit('15.0')",
                      "SELECT npss_caseless_nfc('A')", "SELECT npss_raise('15.0')", "SELECT npss_raise('13.0')",
                      f"SELECT npss_caseless_nfkc('\u2121'), npss_caseless_key('{MARKED}', 'nfd'), npss_try_caseless_key('\ufdd0'), npss_caseless_match('A', 'a')",
                      "SELECT length(npss_caseless_nfkd(repeat('\u1e9e', 400000)))", "SELECT npss_caseless_match(repeat('\u1e9e', 400000), 'a', 'nfkc')",
                      "SELECT npss_caseless_nfc(repeat('\u1e9e', 400000) || '\ufdd0')", "SELECT npss_raise('none')", f"SELECT npss_nfc('{YOUNG}')",
                      "SELECT length(npss_nfd(repeat('\u1ead', 400000)))", "SELECT npss_ready('14.0'), npss_ready('none')",
                      "CREATE CAST (bytea AS text) WITHOUT FUNCTION"]
        # Results around the room, and of each remainder of 8 above it, since memory is handed out in eights.
        statements += [f"SELECT length(npss_nfc(repeat('x', {length - 2}) || '\u00eb'))" for length in (*range(65_534, 65_550), 100_000)]
        statements += [f"SELECT length(npss_caseless_nfc(repeat('X', {length - 2}) || '\u00cb'))" for length in (*range(65_534, 65_550), 100_000)]
        # Streams that end at an error, and versions that end with a call.
        statements += ["SELECT npss_normalize(decode(repeat('61', 1500000) || 'ff', 'hex')::text)", "SELECT npss_audit('14.0')"] * 4
        room = self.folder / "valgrind"
        room.mkdir()
        own(room)
        words = ["valgrind", "-q", "--leak-check=full", "--show-leak-kinds=definite", f"--log-file={room}/log", "--num-callers=20",
                 self.programs / "postgres", "--single", "-D", self.server.data, base]
        try:
            ran = subprocess.run(words_as_user(words), input="\n".join(statements) + "\n", stdout=subprocess.PIPE, stderr=subprocess.STDOUT, text=True, cwd="/",
                                 check=False)
        finally:
            self.server.start()
        self.assertEqual(ran.returncode, 0, ran.stdout[-2000:])
        self.assertIn("\u1ead", ran.stdout)
        self.assertIn('length = "65548"', ran.stdout)
        errors = re.split(r"\n==\d+== \n", (room / "log").read_text())
        self.assertEqual([error for error in errors if "npss" in error], [])
