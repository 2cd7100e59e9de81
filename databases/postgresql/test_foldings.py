"""The foldings of the record: rows that get theirs later, servers without the third file, dumps, what is preloaded."""

import hashlib
import os
import shutil

from cases import CASED, FILES, FOLDING, MARKED, VERSIONS, YOUNGEST, Case, copied
from server import Server, Session, SqlError, run

# Of the calls one each that wants foldings.
CALLS = ("npss_caseless_nfkc('A')", "npss_caseless_key('A', 'nfd')", "npss_try_caseless_key('A')", "npss_caseless_match('A', 'a')")


def digest_of(label):
    return hashlib.sha256((CASED / label / FOLDING).read_bytes()).hexdigest()


class Apart(Case):
    """What the tests of foldings share."""

    def put(self, label, content=None, to=None):
        """Puts a CaseFolding.txt into a version's folder, that of the version where no other one is given; it goes with the test."""
        path = (to or self.versions) / label / FOLDING
        path.write_bytes((CASED / label / FOLDING).read_bytes() if content is None else content)
        self.addCleanup(path.unlink, missing_ok=True)
        return path

    def recorded(self, base):
        """The foldings of the record, by labels from the least version."""
        return self.server.sql("SELECT label, coalesce(folding, 'none') FROM npss_record ORDER BY assigned", base).split()

    def without(self, base, why="was recorded without CaseFolding.txt", server=None):
        """Caseless keys are refused, and keys are made."""
        for call in CALLS:
            with self.assertRaises(SqlError) as caught:
                (server or self.server).sql(f"SELECT {call}", base)
            self.assertEqual(caught.exception.state, "55000")
            self.assertIn(why, str(caught.exception))
        self.assertEqual((server or self.server).sql(f"SELECT npss_nfc('{MARKED}')", base), "\u1ead")


class Foldings(Apart):
    """Rows that were recorded without foldings."""

    def test_the_row_in_force_gets_its_foldings_later(self):
        base = self.base("later", "15.0")
        self.without(base)
        beside = self.session(base)
        self.assertIn("55000", beside.ask("SELECT npss_caseless_nfkc('A')"))
        self.put("15.0")
        self.without(base)  # it is here, and isn't recorded yet
        self.assertEqual(self.server.sql("SELECT npss_audit('15.0'), npss_ready('15.0')", base), "extends|(t,)")
        session = self.session(base)
        self.assertEqual(session.ask("BEGIN; SELECT npss_raise('15.0'); SELECT npss_caseless_nfkc('A'); ROLLBACK"), "15.0\na")
        self.assertIn("55000", session.ask("SELECT npss_caseless_nfkc('A')"))
        self.assertEqual(self.recorded(base), ["15.0|none"])
        self.assertEqual(self.server.sql("SELECT npss_raise('15.0')", base), "15.0")
        self.assertEqual(self.recorded(base), [f"15.0|{digest_of('15.0')}"])
        for one in (beside, session):
            self.assertEqual(one.ask("SELECT npss_caseless_nfkc('ZO\u00cb')"), "zo\u00eb")
        self.assertEqual(self.server.sql("SELECT npss_raise('15.0'); SELECT count(*) FROM npss_record", base), "15.0\n1")

    def test_who_may_raise_may_record_foldings(self):
        base = self.base("rights", "15.0")
        self.put("15.0")
        self.server.sql("CREATE ROLE folder LOGIN; GRANT EXECUTE ON FUNCTION npss_raise(text) TO folder; GRANT INSERT (label) ON npss_record TO folder", base)
        self.addCleanup(self.server.sql, "DROP OWNED BY folder; DROP ROLE folder", base)
        role = "SET SESSION AUTHORIZATION folder; "
        for text in (f"UPDATE npss_record SET folding = '{digest_of('15.0')}'", f"INSERT INTO npss_record (label, folding) VALUES ('15.0', '{digest_of('15.0')}')"):
            self.refused("42501", role + text, base)
        self.assertEqual(self.server.sql(role + "SELECT npss_raise('15.0'); SELECT current_user", base), "15.0\nfolder")
        self.assertEqual(self.recorded(base), [f"15.0|{digest_of('15.0')}"])

    def test_which_updates_are_refused(self):
        base = self.base("updates", "14.0")
        right = digest_of("14.0")
        self.refused("55000", f"UPDATE npss_record SET folding = '{right}'", base)  # the file isn't here
        self.put("14.0")
        others = ("label = 'x'", "digest = repeat('0', 64)", "assigned = assigned + 1", "ascii = NOT ascii", "since = now() - interval '1 day'", "by_whom = 'x'")
        for text in (*others, *(f"folding = '{right}', {other}" for other in others), "folding = NULL", "folding = repeat('0', 64)", "folding = ''",
                     f"folding = upper('{right}')", f"folding = '{right}x'", "label = label"):
            self.assertIn("npss_record only grows", self.refused("55000", f"UPDATE npss_record SET {text}", base), text)
        self.server.sql(f"UPDATE npss_record SET folding = '{right}'", base)
        for text in ("folding = NULL", "folding = repeat('0', 64)", f"folding = '{right}'", "since = now()"):
            self.refused("55000", f"UPDATE npss_record SET {text}", base)
        self.refused("55000", "SET session_replication_role = replica; UPDATE npss_record SET folding = NULL", base)
        other = (CASED / "14.0" / FOLDING).read_bytes() + b"# more\n"
        self.put("14.0", other)
        self.refused("55000", f"UPDATE npss_record SET folding = '{hashlib.sha256(other).hexdigest()}'", base)
        self.put("14.0")
        for text in ("DELETE FROM npss_record", "TRUNCATE npss_record"):
            self.refused("55000", text, base)
        self.assertEqual(self.server.sql("SELECT npss_caseless_nfc('A')", base), "a")

    def test_no_row_but_that_in_force_gets_foldings(self):
        base = self.base("force", "13.0")
        self.server.sql("SELECT npss_raise('14.0')", base)
        for label in ("13.0", "14.0"):
            self.put(label)
        text = f"UPDATE npss_record SET folding = '{digest_of('13.0')}' WHERE label = '13.0'"
        self.assertIn("npss_record only grows", self.refused("55000", text, base))
        self.assertIn('Unicode version "13.0" is older than "14.0"', self.refused("55000", "SELECT npss_raise('13.0')", base))
        self.server.sql("SELECT npss_raise('14.0')", base)
        self.assertIn("npss_record only grows", self.refused("55000", text, base))
        self.assertEqual(self.recorded(base), ["13.0|none", f"14.0|{digest_of('14.0')}"])
        # And from then on each version has some.
        self.assertIn("version 15.0 has no CaseFolding.txt, which version 14.0 has", self.refused("55000", "SELECT npss_raise('15.0')", base))
        self.put("15.0")
        self.assertEqual(self.server.sql("SELECT npss_raise('15.0')", base), "15.0")

    def test_of_two_versions_with_as_many_code_points_that_with_foldings_is_in_force(self):
        base = self.base("equal", "15.0")
        folder = copied(self.versions, {"15.0b": CASED / "15.0"}) / "15.0b"
        self.addCleanup(shutil.rmtree, folder)
        exclusions = folder / FILES[1]
        exclusions.write_bytes(exclusions.read_bytes() + b"# the same\n")
        self.assertEqual(self.server.sql("SELECT npss_audit('15.0b')", base), "extends")
        self.server.sql("SELECT npss_raise('15.0b')", base)
        self.put("15.0", (CASED / "15.0" / FOLDING).read_bytes() + b"# the same\n")
        for _ in range(2):
            self.assertEqual(self.server.sql("SELECT npss_caseless_nfc('A')", base), "a")
            self.assertEqual(self.server.sql("SELECT npss_raise('15.0')", base), "15.0")
        self.assertEqual(sorted(self.recorded(base)), ["15.0b|" + digest_of("15.0"), "15.0|none"])

    def test_foldings_under_another_name(self):
        base = self.base("named", "15.0")
        copied(self.versions, {"15.0.0": CASED / "15.0"})
        self.addCleanup(shutil.rmtree, self.versions / "15.0.0")
        self.assertEqual(self.server.sql("SELECT npss_raise('15.0.0')", base), "15.0")
        self.assertEqual(self.recorded(base), ["15.0|none"])

    def test_other_foldings_than_were_recorded(self):
        content = (CASED / "14.0" / FOLDING).read_bytes()
        path = self.put("14.0")
        base = self.base("others", "14.0")
        self.assertEqual(self.recorded(base), [f"14.0|{digest_of('14.0')}"])
        for other in (content + b"# the same\n", b"", content[:1_000], (CASED / "13.0" / FOLDING).read_bytes()):
            path.write_bytes(other)
            self.without(base, "is not the one that this database recorded")
            if other.startswith(content):
                self.assertIn("is not the one that was recorded", self.refused("55000", "SELECT npss_raise('14.0')", base))
                self.assertEqual(self.server.sql("SELECT * FROM npss_ready('14.0')", base), 'f|its CaseFolding.txt is not the one that this database recorded as "14.0", or is not here')
        path.unlink()
        for make in (path.mkdir, lambda: os.mkfifo(path)):
            make()
            self.without(base, "is not the one that this database recorded, or is not here")
            (path.rmdir if path.is_dir() else path.unlink)()
        self.without(base, "is not the one that this database recorded, or is not here")
        self.assertIn("is not the one that was recorded, or is not here", self.refused("55000", "SELECT npss_raise('14.0')", base))
        self.assertEqual(self.server.sql("SELECT ready FROM npss_ready('14.0')", base), "f")
        # No version is audited against foldings that aren't here.
        copied(self.versions, {"next": CASED / "15.0"})
        self.addCleanup(shutil.rmtree, self.versions / "next")
        self.assertIn("is not the one that was recorded, or is not here", self.refused("55000", "SELECT npss_raise('next')", base))

    def test_foldings_that_nobody_recorded_are_not_looked_at(self):
        base = self.base("unseen", "15.0")
        self.put("15.0", b"0041; X; 0061;\n")
        self.without(base)
        self.assertIn("CaseFolding.txt, line 1: BadStatus", self.refused("F0000", "SELECT npss_raise('15.0')", base))

    def test_from_earlier_versions_of_the_extension(self):
        self.put("15.0")
        self.put("14.0")
        for version in ("0.2", "0.3"):
            base = self.base("earlier" + version.replace(".", "_"))
            self.server.sql(f"SET npss.version = '14.0'; CREATE EXTENSION npss VERSION '{version}'", base)
            # The library serves the SQL of before, which knows no foldings.
            self.assertEqual(self.server.sql(f"SELECT npss_raise('15.0'), npss_nfc('{MARKED}')", base), "15.0|\u1ead")
            beside = self.session(base)
            self.assertEqual(beside.ask(f"SELECT npss_nfc('{YOUNGEST}') = '{YOUNGEST}'"), "t")
            self.server.sql("ALTER EXTENSION npss UPDATE", base)
            self.assertEqual(self.recorded(base), ["14.0|none", "15.0|none"])
            self.without(base)
            self.server.sql("SELECT npss_raise('15.0')", base)
            self.assertEqual(self.recorded(base), ["14.0|none", f"15.0|{digest_of('15.0')}"])
            self.assertEqual(beside.ask("SELECT npss_caseless_nfc('A')"), "a")
        self.server.sql("SET npss.version = '14.0'; CREATE EXTENSION npss", self.base("fresh"))
        self.assertEqual(self.recorded("fresh"), [f"14.0|{digest_of('14.0')}"])

    def test_two_rows_in_one_statement(self):
        base = self.base("rows", "13.0")
        self.put("14.0")
        self.assertIn("version 15.0 has no CaseFolding.txt, which version 14.0 has", self.refused("55000", "INSERT INTO npss_record (label) VALUES ('14.0'), ('15.0')", base))
        self.put("15.0")
        self.server.sql("INSERT INTO npss_record (label) VALUES ('14.0'), ('15.0')", base)
        self.assertEqual(self.recorded(base), ["13.0|none", f"14.0|{digest_of('14.0')}", f"15.0|{digest_of('15.0')}"])


class FoldingsAway(Apart):
    """Servers and sessions whose folder lacks the third file."""

    source = CASED

    def standby(self, base, versions):
        standby = Server(self.programs, versions.parent / f"{versions.name}_server", versions)
        run([self.programs / "pg_basebackup", "-h", self.server.folder, "-U", "postgres", "-D", standby.data, "-R", "-X", "stream", "-c", "fast"])
        standby.configure().start()
        self.addCleanup(standby.stop, "immediate")
        return standby

    def test_a_standby_without_the_third_file(self):
        base = self.base("replicated", "15.0")
        self.server.sql('CREATE TABLE account (name text); CREATE UNIQUE INDEX ON account (npss_caseless_nfkc(name) COLLATE "C"); INSERT INTO account VALUES (\'Zo\u00eb\')', base)
        versions = copied(self.folder / "two", {"15.0": VERSIONS / "15.0"})
        standby = self.standby(base, versions)
        self.without(base, "is not the one that this database recorded, or is not here", standby)
        self.assertEqual(standby.sql("SELECT npss_nfd(name) = 'Zoe\u0308', lags FROM account, npss_version()", base), "t|f")
        self.assertEqual(standby.sql("SELECT ready FROM npss_ready('15.0')", base), "f")
        session = Session(standby, base)
        self.addCleanup(session.close)
        asked = "SELECT count(*) FROM account WHERE npss_caseless_nfkc(name) COLLATE \"C\" = npss_caseless_nfkc('ZO\u00cb')"
        self.assertIn("55000", session.ask(asked))
        self.assertIn("audited without the recorded CaseFolding.txt", session.ask("SELECT npss_audit('15.0')"))
        # Another one is refused too, and the right one is taken by sessions that are open.
        (versions / "15.0" / FOLDING).write_bytes((CASED / "14.0" / FOLDING).read_bytes())
        self.assertIn("55000", session.ask(asked))
        shutil.copy(CASED / "15.0" / FOLDING, versions / "15.0")
        self.assertEqual(session.ask(asked), "1")
        self.assertEqual(standby.sql("SELECT ready FROM npss_ready('15.0')", base), "t")

    def test_a_standby_that_lags_makes_the_same_caseless_keys(self):
        base = self.base("late", "13.0")
        versions = copied(self.folder / "late", {"13.0": CASED / "13.0"})
        standby = self.standby(base, versions)
        self.server.sql("SELECT npss_raise('15.0'); CREATE TABLE made AS SELECT npss_caseless_nfkc('ZO\u00cb') AS key", base)
        for _ in range(300):
            if standby.sql("SELECT count(*) FROM pg_class WHERE relname = 'made'", base) == "1":
                break
        self.assertEqual(standby.sql("SELECT key = npss_caseless_nfkc('zOe\u0308'), lags FROM made, npss_version()", base), "t|t")
        with self.assertRaises(SqlError) as caught:
            standby.sql("SELECT npss_caseless_nfkc('\u2c2f')", base)
        self.assertEqual(caught.exception.state, "22021")
        copied(versions, {"15.0": CASED / "15.0"})
        self.assertEqual(standby.sql("SELECT npss_caseless_nfkc('\u2c2f') = '\u2c5f', lags FROM npss_version()", base), "t|f")

    def test_analyze_goes_on(self):
        base = self.base("analyzed", "15.0")
        self.server.sql("CREATE TABLE account (name text); CREATE INDEX account_key ON account (npss_caseless_nfc(name)); INSERT INTO account VALUES ('A'), ('B')", base)
        path = self.versions / "15.0" / FOLDING
        away = path.rename(self.folder / "away")
        try:
            self.server.sql("ANALYZE account", base)
            self.assertEqual(self.server.stderr.count("WARNING"), 1, self.server.stderr)
            self.refused("55000", "INSERT INTO account VALUES ('C')", base)
            self.refused("55000", "REINDEX INDEX account_key", base)
        finally:
            away.rename(path)
        self.server.sql("ANALYZE account; INSERT INTO account VALUES ('C')", base)
        self.assertEqual(self.server.stderr, "")


class FoldingsDumped(Apart):
    """Dumps carry the digest."""

    source = CASED

    def dumped(self, base, *words):
        return run([self.programs / "pg_dump", *words, "-h", self.server.folder, "-U", "postgres", base])

    def with_accounts(self, name, version):
        base = self.base(name, version)
        self.server.sql('CREATE TABLE account (name text, key text COLLATE "C" GENERATED ALWAYS AS (npss_caseless_nfkc(name)) STORED UNIQUE);'
                        "CREATE INDEX account_name ON account (npss_caseless_nfd(name)); INSERT INTO account VALUES ('Zo\u00eb'), ('\u2121')", base)
        return base

    def test_a_dump_comes_back_with_its_foldings(self):
        dump = self.dumped(self.with_accounts("dumped", "14.0"))
        self.assertIn(digest_of("14.0"), dump)
        for version, labels in (("14.0", ["14.0"]), ("15.0", ["14.0", "15.0"])):
            self.server.sql(dump, self.base("back"), f"-c npss.version={version}")
            self.assertEqual(self.recorded("back"), [f"{label}|{digest_of(label)}" for label in labels])
            self.assertEqual(self.server.sql("SELECT count(*) FROM account WHERE key = npss_caseless_nfkc(name)", "back"), "2")

    def test_a_server_with_other_foldings_refuses_a_dump(self):
        dump = self.dumped(self.with_accounts("dumped", "15.0"), "--create")
        content = (CASED / "15.0" / FOLDING).read_bytes()
        for name, folding in (("more", content + b"# more\n"), ("none", None)):
            versions = copied(self.folder / name, {"15.0": VERSIONS / "15.0"})
            if folding:
                (versions / "15.0" / FOLDING).write_bytes(folding)
            empty = Server(self.programs, self.folder / f"{name}_server", versions).create().start()
            self.addCleanup(empty.stop, "immediate")
            with self.assertRaises(SqlError) as caught:
                empty.sql(dump)
            self.assertEqual(caught.exception.state, "55000")
            self.assertIn("CaseFolding.txt" if folding is None else "is not the one that was recorded", str(caught.exception))

    def test_a_dump_without_foldings(self):
        base = self.base("plain")
        self.server.sql("SET npss.version = '14.0'; CREATE EXTENSION npss VERSION '0.3'; ", base)
        self.server.sql(f"ALTER EXTENSION npss UPDATE; CREATE TABLE account (name text, key text GENERATED ALWAYS AS (npss_nfkc(name)) STORED);"
                        f"INSERT INTO account VALUES ('{MARKED}')", base)
        dump = self.dumped(base)
        # A fresh database has the foldings that are here, whatever the dump had.
        for version, labels in (("13.0", ["13.0", "14.0"]), ("14.0", ["14.0"]), ("15.0", ["14.0", "15.0"])):
            self.server.sql(dump, self.base("back"), f"-c npss.version={version}")
            recorded = self.recorded("back")
            self.assertEqual([line.partition("|")[0] for line in recorded], labels)
            self.assertEqual(recorded[-1], f"{labels[-1]}|{digest_of(labels[-1])}")
            self.assertEqual(self.server.sql("SELECT count(*), min(npss_caseless_nfc('A')) FROM account", "back"), "1|a")

    def test_a_dump_into_a_database_without_foldings(self):
        dump = self.dumped(self.with_accounts("dumped", "14.0"))
        base = self.base("back")
        self.server.sql("SET npss.version = '15.0'; CREATE EXTENSION npss VERSION '0.3'", base)
        self.server.sql("ALTER EXTENSION npss UPDATE", base)
        # Its foldings would come before those of a version that has none: caseless keys couldn't be made.
        self.assertIn("was recorded without CaseFolding.txt", self.refused("55000", dump, base))
        self.server.sql("SELECT npss_raise('15.0')", base)
        self.server.sql("DROP TABLE IF EXISTS account", base)
        self.server.sql(dump, base)
        self.assertEqual(self.recorded(base), [f"{label}|{digest_of(label)}" for label in ("14.0", "15.0")])


class FoldingsPreloaded(Apart):
    """Versions that the postmaster opened with their foldings."""

    source = CASED
    settings = "shared_preload_libraries = 'npss'\n"

    @classmethod
    def more_versions(cls):
        copied(cls.versions, {"plain": VERSIONS / "14.0", "odd": VERSIONS / "13.0"})
        (cls.versions / "odd" / FOLDING).write_bytes(b"x\n")
        exclusions = cls.versions / "odd" / FILES[1]
        exclusions.write_bytes(exclusions.read_bytes() + b"# the same\n")

    def test_sessions_share_them(self):
        base = self.base("preloaded", "15.0")
        self.assertEqual(self.server.sql("SELECT npss_caseless_nfkc('ZO\u00cb'), preloaded FROM npss_version()", base), "zo\u00eb|t")
        self.assertIn("the files of Unicode version \"odd\" are faulty", (self.server.folder / "log").read_text(encoding="utf-8"))

    def test_a_version_whose_foldings_are_faulty_is_shared_without(self):
        base = self.base("odd")
        self.server.sql("SET npss.version = 'odd'; CREATE EXTENSION npss VERSION '0.3'", base)
        self.server.sql("ALTER EXTENSION npss UPDATE", base)
        self.without(base)
        self.assertEqual(self.server.sql("SELECT label, preloaded FROM npss_version()", base), "odd|t")
        self.refused("F0000", "SELECT npss_raise('odd')", base)

    def test_a_database_without_foldings_makes_no_caseless_key_by_them(self):
        base = self.base("without")
        self.server.sql("SET npss.version = '13.0'; CREATE EXTENSION npss VERSION '0.3'", base)
        self.server.sql("ALTER EXTENSION npss UPDATE", base)
        self.without(base)
        self.assertEqual(self.server.sql("SELECT npss_raise('plain')", base), "plain")
        self.without(base)
        self.assertEqual(self.recorded(base), ["13.0|none", "plain|none"])
        self.assertEqual(self.server.sql("SELECT preloaded FROM npss_version()", base), "t")
