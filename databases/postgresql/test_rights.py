"""Who may set, see and write what."""

import os

from cases import FILES, MARKED, VERSIONS, Case, copied
from server import SqlError


class Rights(Case):
    """Roles that are no superuser's."""

    @classmethod
    def setUpClass(cls):
        super().setUpClass()
        cls.server.sql("CREATE ROLE joe LOGIN; CREATE ROLE gran LOGIN")

    def as_role(self, role, text, base, settings=""):
        return self.server.sql(f"SET SESSION AUTHORIZATION {role};\n{text}", base, settings)

    def refused_to(self, role, state, text, base):
        return self.refused(state, f"SET SESSION AUTHORIZATION {role};\n{text}", base)

    def test_settings(self):
        base = self.base("settings", "15.0")
        loaded = f"SELECT npss_nfc('{MARKED}');"
        for text in ("SHOW npss.folder", "SELECT current_setting('npss.folder')", "SET npss.folder = '/'", "SET npss.version = '14.0'", "SET LOCAL npss.version = ''"):
            self.refused_to("joe", "42501", loaded + text, base)
        self.assertEqual(self.as_role("joe", loaded + "SELECT count(*) FROM pg_settings WHERE name = 'npss.folder'", base).splitlines()[1], "0")
        for role in ("joe", "postgres"):
            self.refused_to(role, "42602", loaded + "SET npss.other = '1'", base)

    def test_what_the_package_tells_of_itself(self):
        answer = self.server.sql("SELECT DISTINCT superuser, trusted, relocatable FROM pg_available_extension_versions WHERE name = 'npss'")
        self.assertEqual(answer, "t|f|f")
        base = self.base("trusted")
        self.server.sql(f"ALTER DATABASE {base} OWNER TO joe", base)
        self.refused_to("joe", "42501", "CREATE EXTENSION npss", base)

    def test_the_record_tells_who_came(self):
        base = self.base("comes", "13.0")
        self.server.sql("GRANT EXECUTE ON FUNCTION npss_raise(text) TO gran; GRANT INSERT (label) ON npss_record TO gran; GRANT gran TO joe", base)
        self.as_role("joe", "SET ROLE gran; SELECT npss_raise('14.0')", base)
        self.assertEqual(self.server.sql("SELECT by_whom, since > now() - interval '1 hour' FROM npss_record WHERE label = '14.0'", base), "joe|t")
        # And that is all that the right to raise gives.
        for row in ("(label, by_whom) VALUES ('15.0', 'postgres')", "(label, since) VALUES ('15.0', '1999-01-01')", "(label, assigned) VALUES ('15.0', 9)",
                    "VALUES ('15.0', repeat('0', 64), 9, true)"):
            self.refused_to("gran", "42501", f"INSERT INTO npss_record {row}", base)
        self.assertEqual(self.as_role("gran", "SELECT npss_raise('15.0')", base), "15.0")
        for text in ("UPDATE npss_record SET label = 'x'", "DELETE FROM npss_record", "TRUNCATE npss_record"):
            self.refused_to("gran", "42501", text, base)

    def test_the_folder_is_told_to_nobody(self):
        base = self.base("folder", "15.0")
        away = self.folder / "away"
        (self.versions / "15.0").rename(away)
        try:
            refusal = self.refused_to("joe", "58P01", f"SELECT npss_nfc('{MARKED}')", base)
            self.assertIn('could not open file "15.0/UnicodeData.txt" of npss.folder', refusal)
            self.assertNotIn(str(self.versions), refusal)
        finally:
            away.rename(self.versions / "15.0")
        self.assertIn(f'npss.folder is "{self.versions}".', (self.server.folder / "log").read_text())
        self.server.sql("ALTER ROLE joe SET client_min_messages = 'debug5'")
        self.assertEqual(self.as_role("joe", f"SELECT npss_nfc('{MARKED}')", base), "\u1ead")

    def test_an_index_that_is_built_in_parallel_reads_nobodys_folder(self):
        base = self.base("evil", "15.0")
        evil = self.folder / "evil"
        copied(evil, {"15.0": VERSIONS / "15.0"})
        (evil / "15.0" / FILES[0]).write_text("0041;x\n")
        os.chmod(evil, 0o755)
        self.server.sql("GRANT CREATE ON SCHEMA public TO joe", base)
        self.as_role("joe", f"CREATE TABLE jb AS SELECT '{MARKED}' || n AS name FROM generate_series(1, 20000) n; ALTER TABLE jb SET (parallel_workers = 2)", base)
        build = 'SET min_parallel_table_scan_size = 0; SET client_min_messages = error; CREATE INDEX ON jb (npss_nfkc(name) COLLATE "C");'
        # He sets it, also by the options of his connection: it is refused by the first or by a worker, and never looked at.
        for front, settings in ((f"SET npss.folder = '{evil}';", ""), (f"SET npss.folder = '{self.folder}/none';", ""), ("", f"-c npss.folder={evil}")):
            try:
                self.server.sql(f"\\c - joe\n{front}{build}", base, settings)
            except SqlError as error:
                self.assertIn(error.state, ("42501", "55000"), error)
                self.assertNotIn(str(self.folder), str(error))
        # Where no worker comes to help, what the server's file says counts.
        self.server.sql(f"\\c - joe\nSET npss.folder = '{evil}'; SET max_parallel_workers = 0;{build}", base)
        self.assertNotIn("faulty", (self.server.folder / "log").read_text())
        # What the server's own file says holds, and a superuser's word does.
        self.server.sql(f"\\c - joe\n{build}", base)
        self.assertEqual(self.as_role("joe", "SELECT count(*) FROM pg_indexes WHERE tablename = 'jb' AND indexdef LIKE '%npss_nfkc%'", base) > "0", True)
        self.refused("F0000", f"SET npss.folder = '{evil}';" + build, base)
