"""What cleans up and counts by itself, where files are missing: ANALYZE goes on without keys, and nothing else does."""

import time

from cases import MARKED, YOUNGEST, Case

# Autovacuum comes for any change of a table.
EAGER = "autovacuum_vacuum_insert_threshold = 1, autovacuum_vacuum_insert_scale_factor = 0, autovacuum_analyze_threshold = 1, autovacuum_analyze_scale_factor = 0"


class Vacuums(Case):
    """Files that are away while autovacuum comes."""

    def setUp(self):
        self.away = self.folder / "away"
        self.hidden = []
        self.before = len(self.log())

    def tearDown(self):
        self.come_back()
        self.server.configure(autovacuum_naptime="1min")
        self.server.control("reload")
        for name in self.server.sql("SELECT datname FROM pg_database WHERE NOT datistemplate AND datname <> 'postgres'").split():
            self.server.sql(f"DROP DATABASE {name} WITH (FORCE)")  # so that no later test finds it in the log

    def hide(self, *labels):
        """Moves the folders of versions away, and then has autovacuum come each second."""
        self.away.mkdir(exist_ok=True)
        for label in labels or self.labels:
            (self.versions / label).rename(self.away / label)
            self.hidden.append(label)

    def come_back(self):
        for label in self.hidden:
            (self.away / label).rename(self.versions / label)
        self.hidden = []

    def have_autovacuum(self):
        self.server.configure(autovacuum_naptime="1s")
        self.server.control("reload")

    def log(self):
        return (self.server.folder / "log").read_text(encoding="utf-8")

    def is_told(self):
        """Whether the log tells of this test that a file couldn't be opened."""
        return "npss: could not open file" in self.log()[self.before:]

    def until(self, comes, what):
        for _ in range(200):
            if comes():
                return
            time.sleep(0.3)
        self.fail(f"{what} doesn't come")

    def counted(self, base, count):
        asked = f"SELECT {count} > 0 FROM pg_stat_user_tables WHERE relname = 'account'"
        return lambda: self.server.sql(asked, base) == "t"

    def ranges(self, base, options, more=""):
        """A table with a BRIN index, none of whose ranges is summarized, and a session that goes on to fill it without files."""
        self.server.sql(f"CREATE TABLE account (name text) WITH ({more or EAGER});"
                        f'CREATE INDEX account_key ON account USING brin (npss_nfkc(name) COLLATE "C") WITH (pages_per_range = 2{options})', base)
        session = self.session(base)
        self.assertEqual(session.ask("SELECT npss_nfkc('Zoe\u0308')"), "Zo\u00eb")
        self.hide()
        self.assertEqual(session.ask("INSERT INTO account SELECT 'Zoe' || chr(776) || repeat('x', 200) || n FROM generate_series(1, 2000) n"), "")

    def same_answers(self, base):
        """The index finds what the table has."""
        name = "npss_nfkc('Zo\u00eb' || repeat('x', 200) || 77)"
        plan = self.server.sql("SET enable_seqscan = off; EXPLAIN (COSTS OFF) SELECT count(*) FROM account WHERE "
                               f'npss_nfkc(name) COLLATE "C" = {name}', base)
        self.assertIn("account_key", plan)
        for off in ("seqscan", "bitmapscan"):
            self.assertEqual(self.server.sql(f'SET enable_{off} = off; SELECT count(*) FROM account WHERE npss_nfkc(name) COLLATE "C" = {name}', base), "1")

    def test_ranges_are_not_summarized_by_an_autovacuum_without_files(self):
        base = self.base("ranges", "15.0")
        self.ranges(base, "")
        self.have_autovacuum()
        self.until(self.is_told, "autovacuum")
        time.sleep(2)  # one that goes on is done by then
        self.come_back()
        self.same_answers(base)
        # With the files it sums up what it left.
        self.until(self.counted(base, "autovacuum_count"), "another autovacuum")
        self.same_answers(base)

    def test_ranges_are_not_summarized_one_by_one_without_files(self):
        base = self.base("summaries", "15.0")
        self.ranges(base, ", autosummarize = on", "autovacuum_enabled = off")
        self.have_autovacuum()
        self.until(self.is_told, "a summary")
        time.sleep(2)
        self.come_back()
        self.same_answers(base)

    def test_a_vacuum_without_files_tells_so(self):
        base = self.base("byhand", "15.0")
        self.ranges(base, "", "autovacuum_enabled = off")
        for text in ("VACUUM account", "SELECT brin_summarize_new_values('account_key')", "VACUUM ANALYZE account"):
            self.refused("58P01", text, base)
        # ANALYZE alone stores nothing there.
        self.server.sql("ANALYZE account", base)
        self.assertIn("WARNING", self.server.stderr)
        self.come_back()
        self.same_answers(base)
        self.server.sql("VACUUM account", base)
        self.same_answers(base)

    def test_an_analyze_that_failed_leaves_no_trace(self):
        # What it tells of itself is taken back, also within a block that catches its error.
        base = self.base("caught", "15.0")
        self.server.sql(f"CREATE FUNCTION fails(text) RETURNS text IMMUTABLE LANGUAGE plpgsql AS $$ BEGIN IF $1 = 'x' THEN RAISE 'failed'; END IF; RETURN $1; END $$;"
                        f"CREATE TABLE other (name text); CREATE INDEX ON other (fails(name)) WHERE name <> 'x'; CREATE TABLE account (name text);"
                        f"CREATE STATISTICS kept ON fails(name), name FROM other; INSERT INTO other VALUES ('x'), ('a')", base)
        session = self.session(base)
        self.hide()
        answer = session.ask("DO $$ BEGIN ANALYZE other; EXCEPTION WHEN OTHERS THEN RAISE NOTICE '%', sqlerrm; END $$")
        self.assertIn("failed", answer)
        self.assertIn("58P01", session.ask(f"SELECT npss_nfc('{MARKED}')"))

    def test_autovacuum_analyzes_without_files(self):
        base = self.base("vacuumed", "15.0")
        self.server.sql(f"CREATE TABLE account (name text) WITH ({EAGER}); CREATE INDEX account_key ON account (npss_nfc(name))", base)
        self.server.sql(f"INSERT INTO account SELECT '{MARKED}' || n FROM generate_series(1, 1000) n", base)
        self.hide()
        self.have_autovacuum()
        self.until(self.counted(base, "autoanalyze_count"), "an autoanalyze")

    def test_analyze_on_a_server_that_lags(self):
        base = self.base("lagging", "14.0")
        self.server.sql(f"CREATE TABLE account (name text) WITH ({EAGER}); CREATE INDEX account_key ON account (npss_nfc(name)); SELECT npss_raise('15.0');"
                        f"INSERT INTO account SELECT name || n FROM (VALUES ('{MARKED}'), ('{YOUNGEST}')) AS of (name), generate_series(1, 1000) n", base)
        self.hide("15.0")
        for text in ("ANALYZE account", "VACUUM ANALYZE account"):
            self.server.sql(text, base)
            stderr = self.server.stderr
            self.assertEqual(stderr.count('ANALYZE leaves out names that are new in Unicode version "15.0"'), 1, stderr)
            self.assertLess(stderr.count("WARNING"), 5, stderr)
        # What isn't ANALYZE is refused all the same.
        self.refused("22021", "REINDEX TABLE account", base)
        self.server.sql("DELETE FROM account WHERE ctid IN (SELECT ctid FROM account LIMIT 10)", base)
        self.have_autovacuum()
        self.until(self.counted(base, "autoanalyze_count"), "an autoanalyze")
        self.come_back()
        self.server.sql("REINDEX TABLE account; ANALYZE account", base)
        self.assertNotIn("WARNING", self.server.stderr)
