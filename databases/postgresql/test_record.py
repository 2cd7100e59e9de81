"""The record of versions: from version to version, processes that are killed, a standby, dumps and upgrades of the server."""

import os
import re
import shutil
import signal
import subprocess
import time
import unicodedata

from cases import FILES, MARKED, VERSIONS, YOUNG, YOUNGEST, Case, copied
from server import Server, Session, SqlError, run, words_as_user


class Upgrades(Case):
    """From version to version, beside open sessions and at once."""

    def names(self):
        """Names with code points of each age that Python knows, half of them decomposed."""
        known = [chr(code) for code in range(0xA0, 0x20000) if unicodedata.category(chr(code))[0] in "LM"]
        names = [f"n{number}{one}{known[-number]}" for number, one in enumerate(known[::17], start=1)]
        return [unicodedata.normalize("NFD", name) if at % 2 else name for at, name in enumerate(names)]

    def test_beside_an_open_session(self):
        base = self.base("upgrades", "13.0")
        self.server.sql("CREATE EXTENSION amcheck; CREATE TABLE account (name text NOT NULL);"
                        'CREATE UNIQUE INDEX account_key ON account (npss_nfc(name) COLLATE "C")', base)
        beside = self.session(base)
        rows = ",".join(f"({self.quoted(name)})" for name in self.names())
        self.server.sql(f"INSERT INTO account SELECT n FROM (VALUES {rows}) of (n) WHERE npss_try_key(n) IS NOT NULL", base)
        kept = int(self.server.sql("CREATE TABLE kept AS SELECT name, npss_nfc(name) AS key FROM account; SELECT count(*) FROM kept", base))
        self.assertGreater(kept, 2_000)
        for label, young in (("14.0", YOUNG), ("15.0", YOUNGEST)):
            self.assertIn("22021", beside.ask(f"INSERT INTO account VALUES ('{young}')"))
            self.assertEqual(self.server.sql(f"SELECT npss_audit('{label}')", base), "extends")
            self.server.sql(f"SELECT npss_raise('{label}')", base)
            self.assertEqual(beside.ask(f"INSERT INTO account VALUES ('{young}')"), "")
            self.server.sql(f"INSERT INTO account SELECT n FROM (VALUES {rows}) of (n) WHERE npss_try_key(n) IS NOT NULL ON CONFLICT DO NOTHING", base)
            self.assertEqual(self.server.sql("SELECT count(*) FROM kept WHERE npss_nfc(name) <> key", base), "0")
            self.assertEqual(self.server.sql("SELECT bt_index_check('account_key', true)", base), "")
        self.assertGreater(int(self.server.sql("SELECT count(*) FROM account", base)), kept)
        # The session holds the version in force, and no earlier one.
        self.assertEqual(beside.ask("SELECT count(*) FROM pg_backend_memory_contexts WHERE name = 'npss version'"), "1")

    def test_beside_a_session_that_missed_what_happened(self):
        base = self.base("missed", "13.0")
        beside, holder = self.session(base), self.session(base)
        self.assertIn("22021", beside.ask(f"SELECT npss_nfc('{YOUNG}')"))
        holder.ask("SELECT pg_advisory_lock(1)")
        beside.send("SELECT pg_advisory_lock(1)")
        self.server.sql("SELECT npss_raise('14.0')", base)
        # More than the queue of invalidations holds.
        self.server.sql("DO $$ BEGIN FOR number IN 1..3000 LOOP CREATE TEMP TABLE made (); DROP TABLE made; END LOOP; END $$", base)
        holder.ask("SELECT pg_advisory_unlock(1)")
        beside.receive()
        self.assertEqual(beside.ask(f"SELECT npss_nfc('{YOUNG}') = '{YOUNG}'"), "t")

    def test_two_raises_at_once(self):
        for first, second, state in (("14.0", "15.0", ""), ("15.0", "14.0", "55000")):
            base = self.base("raises", "13.0")
            one, other = Session(self.server, base), Session(self.server, base)
            one.ask(f"BEGIN; SELECT npss_raise('{first}');")
            other.send(f"SELECT npss_raise('{second}');")
            time.sleep(0.3)
            one.ask("COMMIT;")
            self.assertIn(state, other.receive())
            self.assertEqual(self.server.sql("SELECT label FROM npss_version()", base), "15.0")
            one.close()
            other.close()

    def test_two_raises_that_have_come_equally_far(self):
        # Both have the lock of their INSERT before either is audited.
        base = self.base("locked", "13.0")
        one, other = self.session(base), self.session(base)
        for session in (one, other):
            session.ask("BEGIN; LOCK TABLE npss_record IN ROW EXCLUSIVE MODE")
        one.send("SELECT npss_raise('14.0')")
        time.sleep(0.3)
        other.send("SELECT npss_raise('15.0'); COMMIT")
        time.sleep(0.3)
        self.assertEqual((one.receive(), one.ask("COMMIT"), other.receive()), ("14.0", "", "15.0"))
        self.assertEqual(self.server.sql("SELECT count(*) FROM npss_record", base), "3")

    def test_two_rows_in_one_statement(self):
        base = self.base("rows", "13.0")
        self.server.sql("INSERT INTO npss_record (label) VALUES ('14.0'), ('15.0')", base)
        self.assertEqual(self.server.sql("SELECT count(*) FROM npss_record", base), "3")
        self.refused("55000", "INSERT INTO npss_record (label) VALUES ('15.0'), ('13.0')", self.base("rows", "14.0"))
        # Each of the two extends 13.0, and neither the other one.
        data = copied(self.versions, {"sibling": VERSIONS / "15.0"}) / "sibling" / FILES[0]
        self.addCleanup(shutil.rmtree, data.parent)
        data.write_text(re.sub("\n1DFA;[^\n]*", "", data.read_text()))
        base = self.base("rows", "13.0")
        self.assertEqual(self.server.sql("SELECT npss_audit('14.0'), npss_audit('sibling')", base), "extends|extends")
        self.assertIn("Lost 1DFA", self.refused("55000", "INSERT INTO npss_record (label) VALUES ('14.0'), ('sibling')", base))

    def test_files_that_are_recorded_already_under_another_name(self):
        base = self.base("names", "14.0")
        self.server.sql("SELECT npss_raise('15.0')", base)
        copied(self.versions, {"15.0.0": VERSIONS / "15.0"})
        self.addCleanup(shutil.rmtree, self.versions / "15.0.0")
        self.assertEqual(self.server.sql("SELECT npss_raise('15.0.0')", base), "15.0")
        self.assertIn('NOTICE:  00000: the files of Unicode version "15.0.0" are recorded already as "15.0"', self.server.stderr)
        self.assertEqual(self.server.sql("SELECT npss_raise('15.0')", base), "15.0")
        self.assertNotIn("NOTICE", self.server.stderr)
        self.assertEqual(self.server.sql("SELECT count(*) FROM npss_record", base), "2")

    def test_an_index_is_built_by_the_first_statement_of_a_session(self):
        base = self.base("firsts", "15.0")
        self.server.sql("CREATE TABLE account AS SELECT 'a' || chr(770) || n AS name FROM generate_series(1, 60000) n", base)
        self.server.sql("SET min_parallel_table_scan_size = 0; CREATE INDEX ON account (npss_nfc(name)); REINDEX TABLE account", base)
        self.assertEqual(self.server.stderr, "")

    def test_parallel_builds_and_scans(self):
        base = self.base("parallels", "15.0")
        self.server.sql("CREATE TABLE account AS SELECT 'a' || chr(770) || n AS name FROM generate_series(1, 60000) n;"
                        "ALTER TABLE account SET (parallel_workers = 4)", base)
        parallel = "SET max_parallel_maintenance_workers = 4; SET min_parallel_table_scan_size = 0; SET parallel_setup_cost = 0; SET parallel_tuple_cost = 0;"
        self.server.sql(parallel + 'CREATE UNIQUE INDEX account_key ON account (npss_nfc(name) COLLATE "C")', base)
        plan = self.server.sql(parallel + "EXPLAIN (COSTS OFF) SELECT count(npss_nfc(name)) FROM account", base)
        self.assertIn("Parallel", plan)
        self.assertEqual(self.server.sql(parallel + "SELECT count(DISTINCT npss_nfc(name)) FROM account", base), "60000")
        self.server.sql("CREATE EXTENSION amcheck", base)
        self.assertEqual(self.server.sql("SELECT bt_index_check('account_key', true)", base), "")


class Ends(Case):
    """Processes that are killed."""

    def killed(self, base, text, after):
        """Kills the process of a statement."""
        session = Session(self.server, base)
        session.send(text)
        time.sleep(after)
        os.kill(session.pid, signal.SIGKILL)
        session.receive()
        session.close()
        for _ in range(100):
            try:
                return self.server.sql("SELECT 1", base)
            except SqlError:
                time.sleep(0.1)
        return self.fail("the server doesn't come back")

    def test_in_the_middle_of_inserts_and_raises(self):
        base = self.base("ends", "14.0")
        self.server.sql("CREATE EXTENSION amcheck; CREATE TABLE account (name text);"
                        'CREATE UNIQUE INDEX account_key ON account (npss_nfc(name) COLLATE "C")', base)
        for after in (0.1, 0.5):
            self.killed(base, "INSERT INTO account SELECT 'a' || chr(770) || n FROM generate_series(1, 3000000) n;", after)
            self.assertEqual(self.server.sql("SELECT count(*) FROM account", base), "0")
            self.killed(base, "BEGIN; SELECT npss_raise('15.0'); SELECT pg_sleep(9);", after)
            self.assertEqual(self.server.sql("SELECT label FROM npss_version()", base), "14.0")
            self.assertEqual(self.server.sql("SELECT bt_index_check('account_key', true)", base), "")
        self.server.sql("SELECT npss_raise('15.0')", base)
        self.server.sql(f"INSERT INTO account VALUES ('{YOUNGEST}')", base)


class Standby(Case):
    """A replica whose files come late."""

    labels = ("13.0", "15.0")

    def test_a_standby_that_lags(self):
        base = self.base("replicated", "13.0")
        self.server.sql("CREATE TABLE account (name text); INSERT INTO account VALUES ('\u1ead')", base)
        versions = copied(self.folder / "late", {"13.0": VERSIONS / "13.0"})
        standby = Server(self.programs, self.folder / "standby", versions)
        run([self.programs / "pg_basebackup", "-h", self.server.folder, "-U", "postgres", "-D", standby.data, "-R", "-X", "stream", "-c", "fast"])
        standby.configure().start()
        self.addCleanup(standby.stop, "immediate")
        self.assertEqual(standby.sql("SELECT npss_nfd(name) FROM account", base), "a\u0323\u0302")
        session = Session(standby, base)
        self.addCleanup(session.close)
        session.ask("SELECT npss_nfc('\u1ead');")
        self.assertEqual(standby.sql("SELECT ready FROM npss_ready('15.0')", base), "f")
        self.server.sql(f"SELECT npss_raise('15.0'); INSERT INTO account VALUES ('{YOUNGEST}')", base)
        self.wait(standby, base)
        # Its keys are the same, and it refuses more, with a warning.
        self.assertIn("WARNING", session.ask("SELECT npss_nfd('\u1ead');"))
        self.assertIn("22021", session.ask(f"SELECT npss_nfc('{YOUNGEST}');"))
        copied(versions, {"15.0": VERSIONS / "15.0"})
        self.assertEqual(standby.sql("SELECT ready FROM npss_ready('15.0')", base), "t")
        self.assertEqual(session.ask(f"SELECT npss_nfc('{YOUNGEST}') = '{YOUNGEST}';"), "t")

    def test_questions_of_a_standby_that_lags(self):
        base = self.base("asked", "13.0")
        versions = copied(self.folder / "later", {"13.0": VERSIONS / "13.0"})
        standby = Server(self.programs, self.folder / "asked", versions)
        run([self.programs / "pg_basebackup", "-h", self.server.folder, "-U", "postgres", "-D", standby.data, "-R", "-X", "stream", "-c", "fast"])
        standby.configure().start()
        self.addCleanup(standby.stop, "immediate")
        # U+1E030 is new in 15.0, and has a mapping there.
        asked = {"SELECT code_point FROM npss_first_unassigned('\U0001e030')": ("U+1E030", ""), "SELECT npss_normalize('\U0001e030', 'nfkc')": ("\U0001e030", "\u0430"),
                 "SELECT npss_is_normalized('\U0001e030', 'nfkc')": ("t", "f"), "SELECT npss_equivalent('\U0001e030', '\u0430', 'nfkc')": ("f", "t"),
                 "SELECT assigned FROM npss_why('\U0001e030')": ("f", "t"), "SELECT npss_try_key('\U0001e030', 'nfkc')": ("", "\u0430"),
                 "SELECT label, lags FROM npss_version()": ("13.0|t", "15.0|f")}
        sessions = {text: Session(standby, base) for text in asked}
        auditor = Session(standby, base)
        for session in (*sessions.values(), auditor):
            self.addCleanup(session.close)
            session.ask("SELECT npss_nfc('\u1ead')")
        self.assertEqual(self.server.sql("SELECT label, lags FROM npss_version()", base), "13.0|f")
        self.server.sql("SELECT npss_raise('15.0')", base)
        self.wait(standby, base)
        for text, session in sessions.items():
            session.ask("SELECT npss_nfc('\u1ead')")  # which warns
            self.assertEqual(session.ask(text), asked[text][0], text)
            self.assertEqual(session.ask(text), asked[text][0], text)
        answer = auditor.ask("SELECT npss_audit('13.0')")
        self.assertIn('audited against Unicode version "13.0", not against "15.0", which is in force', answer)
        copied(versions, {"15.0": VERSIONS / "15.0"})
        for text, session in sessions.items():
            self.assertEqual(session.ask(text), asked[text][1], text)
        self.assertEqual(auditor.ask("SELECT npss_audit('13.0')"), "Lost 061D")

    def wait(self, standby, base):
        """Until the standby has what the server has."""
        place = self.server.sql("SELECT pg_current_wal_lsn()")
        for _ in range(300):
            if standby.sql(f"SELECT pg_last_wal_replay_lsn() >= '{place}'", base) == "t":
                return
            time.sleep(0.1)
        self.fail("the standby doesn't come after")


class Dumps(Case):
    """Dumps that come back, and upgrades of the server."""

    def filled(self):
        base = self.base("dumped", "13.0")
        self.server.sql("SELECT npss_raise('14.0')", base)
        self.server.sql('CREATE TABLE account (name text, key text COLLATE "C" GENERATED ALWAYS AS (npss_nfkc(name)) STORED UNIQUE);'
                        f"CREATE INDEX account_name ON account (npss_nfd(name)); INSERT INTO account VALUES ('{MARKED}'), ('\ufb01'), ('{YOUNG}')", base)
        return base

    def restored(self, settings=""):
        dump = run([self.programs / "pg_dump", "-h", self.server.folder, "-U", "postgres", "dumped"])
        self.base("back")
        self.server.sql(dump, "back", settings)
        stderr = self.server.stderr
        self.assertEqual(self.server.sql("SELECT count(*) FROM account WHERE key = npss_nfkc(name)", "back"), "3")
        return stderr

    def test_a_dump_tells_which_version_it_took(self):
        self.filled()
        stderr = self.restored()
        self.assertIn('this database uses Unicode version "15.0", the newest in npss.folder', stderr)
        self.assertIn('the dump comes from Unicode version "14.0", and this database uses "15.0"', stderr)
        self.assertNotIn("13.0", stderr)
        self.assertEqual(self.server.sql("SELECT label FROM npss_version()", "back"), "15.0")

    def test_a_dump_that_stays_with_its_version(self):
        self.filled()
        stderr = self.restored("-c npss.version=14.0")
        self.assertNotIn("WARNING", stderr)
        self.assertEqual(self.server.sql("SELECT label FROM npss_version()", "back"), "14.0")
        self.refused("22021", f"INSERT INTO account VALUES ('{YOUNGEST}')", "back")

    def test_a_dump_that_the_owner_of_a_database_restores(self):
        self.filled()
        dump = run([self.programs / "pg_dump", "-h", self.server.folder, "-U", "postgres", "--no-owner", "dumped"])
        self.server.sql("DROP DATABASE IF EXISTS owned; DROP ROLE IF EXISTS owner; CREATE ROLE owner LOGIN; ")
        self.server.sql("CREATE DATABASE owned TEMPLATE template0 OWNER owner LOCALE 'C'")
        # A superuser makes the extension before; what the dump says of the record is refused then, and nothing else.
        self.server.sql("SET npss.version = '14.0'; CREATE EXTENSION npss", "owned")
        self.server.sql("\\set ON_ERROR_STOP off\n\\c - owner\n" + dump, "owned")
        refused = re.findall(r"ERROR:  42501: (.*)", self.server.stderr)
        self.assertEqual(self.server.stderr.count("ERROR:"), len(refused), self.server.stderr)
        self.assertTrue(all("extension npss" in one or "npss_record" in one for one in refused), refused)
        self.assertEqual(self.server.sql("SELECT count(*) FROM account WHERE key = npss_nfkc(name)", "owned"), "3")
        self.assertEqual(self.server.sql("SELECT label FROM npss_record", "owned"), "14.0")

    def test_data_alone_comes_behind_its_raise(self):
        self.filled()
        dump = run([self.programs / "pg_dump", "-h", self.server.folder, "-U", "postgres", "--data-only", "dumped"])
        for raised, count in (("", "0"), ("SELECT npss_raise('14.0')", "3")):
            self.base("late", "13.0")
            self.server.sql('CREATE TABLE account (name text, key text COLLATE "C" GENERATED ALWAYS AS (npss_nfkc(name)) STORED UNIQUE)', "late")
            self.server.sql(f"{raised};\n\\set ON_ERROR_STOP off\n{dump}", "late")
            self.assertEqual(self.server.sql("SELECT count(*) FROM account", "late"), count)

    def test_a_dump_comes_into_an_empty_cluster(self):
        self.filled()
        dump = run([self.programs / "pg_dump", "--create", "-h", self.server.folder, "-U", "postgres", "dumped"])
        # The files of 13.0, which the database has left, needn't be there.
        versions = copied(self.folder / "fewer", {label: VERSIONS / label for label in ("14.0", "15.0")})
        empty = Server(self.programs, self.folder / "empty", versions).create().start()
        self.addCleanup(empty.stop, "immediate")
        empty.sql(dump)
        self.assertIn("WARNING", empty.stderr)
        self.assertEqual(empty.sql("SELECT count(*) FROM account WHERE key = npss_nfkc(name)", "dumped"), "3")
        self.assertEqual(empty.sql("SELECT label FROM npss_record ORDER BY assigned", "dumped"), "14.0\n15.0")

    def test_an_upgrade_of_the_server(self):
        self.filled()
        newer = Server(self.programs, self.folder / "newer", self.versions).create()
        self.server.stop()
        try:
            words = [self.programs / "pg_upgrade", "-b", self.programs, "-B", self.programs, "-d", self.server.data, "-D", newer.data, "-U", "postgres",
                     "-s", self.server.folder]
            ran = subprocess.run(words_as_user(words), cwd=self.server.folder, stdout=subprocess.PIPE, stderr=subprocess.STDOUT, text=True, check=False)
            self.assertEqual(ran.returncode, 0, ran.stdout[-2000:])
            newer.start()
            self.assertEqual(newer.sql("SELECT label FROM npss_version()", "dumped"), "14.0")
            self.assertEqual(newer.sql("SELECT count(*) FROM account WHERE key = npss_nfkc(name)", "dumped"), "3")
            newer.stop()
        finally:
            self.server.start()
