"""Sessions, plans and subscribers that follow the record: to foldings, and back from a raise that was rolled back."""

import hashlib
import shutil
import time

from cases import CASED, FILES, FOLDING, YOUNGEST, copied
from test_foldings import CALLS, Apart, digest_of

ANSWERS = ("a", "a", "a", "t")


class Following(Apart):
    """Sessions whose plans and versions are left behind."""

    def test_nothing_keeps_a_key_of_a_raise_that_was_rolled_back(self):
        lines = (CASED / "13.0" / FOLDING).read_text(encoding="utf-8").splitlines(True)
        other = "".join(line for line in lines if not line.startswith("00DF;")).encode()
        asked = "SELECT count(*) FROM account WHERE npss_caseless_nfkc(name) = npss_caseless_nfkc('Stra\u00dfe')"
        for begin, end in (("BEGIN", "ROLLBACK"), ("BEGIN; SAVEPOINT one", "ROLLBACK TO one; COMMIT")):
            base = self.base("plans", "13.0")
            self.server.sql("CREATE TABLE account (name text); CREATE UNIQUE INDEX ON account (npss_caseless_nfkc(name));"
                            "CREATE DOMAIN street AS text CHECK (npss_caseless_nfkc(VALUE) <> npss_caseless_nfkc('Stra\u00dfe'));"
                            f"CREATE FUNCTION asked() RETURNS bigint LANGUAGE plpgsql AS $$ BEGIN RETURN ({asked}); END $$", base)
            session = self.session(base)
            self.put("13.0", other)
            self.assertEqual(session.ask(f"PREPARE asked AS {asked}; {begin}; SELECT npss_raise('13.0'); EXECUTE asked; SELECT asked();"
                                         f"SELECT 'STRASSE'::street; {end}"), "13.0\n0\n0\nSTRASSE")
            self.put("13.0")
            self.assertEqual(session.ask("SELECT npss_raise('13.0'); INSERT INTO account VALUES ('Stra\u00dfe')"), "13.0")
            self.assertEqual(session.ask(f"EXECUTE asked; SELECT asked(); {asked}"), "1\n1\n1", end)
            self.assertIn("23514", session.ask("SELECT 'STRASSE'::street"))
            self.doCleanups()

    def test_two_dumps_in_one_session_of_which_the_first_is_rolled_back(self):
        lines = (CASED / "13.0" / FOLDING).read_text(encoding="utf-8").splitlines(True)
        other = "".join(line for line in lines if not line.startswith("00DF;")).encode()
        brings = ("CREATE EXTENSION npss; CREATE TABLE account (name text); CREATE UNIQUE INDEX ON account (npss_caseless_nfkc(name) COLLATE \"C\");"
                  "INSERT INTO account VALUES ('Stra\u00dfe'); SELECT npss_caseless_nfkc(name) FROM account")
        for begin, end in (("BEGIN", "ROLLBACK; BEGIN"), ("BEGIN; SAVEPOINT one", "ROLLBACK TO one")):
            for first, second, keys in ((other, None, "stra\u00dfe\nstrasse"), (None, other, "strasse\nstra\u00dfe")):
                base = self.base("dumps")
                session = self.session(base)
                session.ask("SET npss.version = '13.0'; SET client_min_messages = warning")
                self.put("13.0", first)
                answer = session.ask(f"{begin}; {brings}; {end}")
                self.put("13.0", second)
                self.assertEqual(f"{answer}\n" + session.ask(f"{brings}; COMMIT"), keys, (begin, keys))
                key = keys.split()[1]
                self.assertEqual(self.server.sql(f"SET enable_seqscan = off; SELECT count(*) FROM account WHERE npss_caseless_nfkc(name) COLLATE \"C\" = '{key}'", base), "1")
                self.doCleanups()

    def test_a_session_that_lags_follows_by_caseless_calls(self):
        base = self.base("lagging", "13.0")
        self.put("15.0")
        self.server.sql("SELECT npss_raise('15.0')", base)
        away = (self.versions / "15.0").rename(self.folder / "away")
        try:
            sessions = [self.session(base) for _ in CALLS]
            for session, call in zip(sessions, CALLS):
                for _ in range(2):
                    refusal = session.ask(f"SELECT {call}")
                    self.assertIn('55000: npss: the files of Unicode version "15.0" are not here, and "13.0" was recorded without CaseFolding.txt', refusal)
                    self.assertNotIn("npss_raise", refusal)
                self.assertEqual(session.ask(f"SELECT npss_nfc('{YOUNGEST}') IS NULL").count("22021"), 1)
        finally:
            away.rename(self.versions / "15.0")
        for session, call, answer in zip(sessions, CALLS, ANSWERS):
            self.assertEqual(session.ask(f"SELECT {call}"), answer)

    def test_a_session_that_lags_behind_a_version_without_foldings(self):
        base = self.base("behind", "13.0")
        self.server.sql("SELECT npss_raise('15.0')", base)
        away = (self.versions / "15.0").rename(self.folder / "away")
        self.addCleanup(away.rename, self.versions / "15.0")
        refusal = self.refused("55000", "SELECT npss_caseless_nfc('A')", base)
        self.assertIn('Unicode version "15.0" was recorded without CaseFolding.txt, and makes no caseless keys', refusal)
        self.assertIn("npss_raise('15.0') takes it", refusal)

    def test_a_session_follows_to_a_version_with_as_many_code_points(self):
        base = self.base("as_many", "13.0")
        folder = copied(self.versions, {"13.0.0": CASED / "13.0"}) / "13.0.0"
        self.addCleanup(shutil.rmtree, folder)
        exclusions = folder / FILES[1]
        exclusions.write_bytes(exclusions.read_bytes() + b"# the same\n")
        self.assertEqual(self.server.sql("SELECT npss_raise('13.0.0')", base), "13.0.0")
        self.assertEqual(self.server.sql("SELECT label, lags FROM npss_version()", base), "13.0.0|f")
        away = folder.rename(self.folder / "away")
        try:
            sessions = [self.session(base) for _ in (*CALLS, "npss_version()")]
            for session in sessions:
                self.assertIn("and \"13.0\" was recorded without", session.ask("SELECT npss_caseless_nfc('A')"))
                self.assertEqual(session.ask("SELECT label, lags FROM npss_version()"), "13.0|t")
        finally:
            away.rename(folder)
        self.assertEqual(sessions.pop().ask("SELECT label, lags FROM npss_version()"), "13.0.0|f")
        for session, call, answer in zip(sessions, CALLS, ANSWERS):
            self.assertEqual(session.ask(f"SELECT {call}"), answer)


class Replica(Apart):
    """What a session writes as a subscriber does."""

    def written(self, columns, base, label="13.0"):
        return self.server.sql(f"SET session_replication_role = replica; UPDATE npss_record SET {columns} WHERE label = '{label}' RETURNING label", base)

    def test_a_replica_takes_foldings_alone(self):
        base = self.base("replica", "13.0")
        self.put("13.0")
        asked = "SELECT label, digest, assigned, ascii, since, by_whom FROM npss_record"
        own, folding = self.server.sql(asked, base), f"folding = '{digest_of('13.0')}'"
        for columns in ("since = now()", "label = label", "folding = ''", "folding = repeat('0', 64)", f"{folding}, digest = repeat('0', 64)"):
            self.assertIn("npss_record only grows", self.refused("55000", f"SET session_replication_role = replica; UPDATE npss_record SET {columns}", base))
        more = "label = 'x', assigned = 1, ascii = NOT ascii, since = now(), by_whom = 'x'"
        self.assertEqual(self.written(f"{folding}, {more}", base), "13.0")
        self.assertEqual(self.written(f"{folding}, {more}", base), "")  # it has them already
        self.assertEqual((self.server.sql(asked, base), self.recorded(base)), (own, [f"13.0|{digest_of('13.0')}"]))
        self.refused("55000", f"SET session_replication_role = replica; UPDATE npss_record SET {more}, folding = repeat('0', 64)", base)

    def test_a_replica_takes_foldings_of_a_row_that_it_has_left(self):
        base = self.base("left_behind", "13.0")
        self.put("15.0")
        self.server.sql("SELECT npss_raise('15.0')", base)
        lines = (CASED / "13.0" / FOLDING).read_bytes().splitlines(True)
        other = b"".join(line for line in lines if not line.startswith(b"00DF;"))
        self.put("13.0", other)
        text = f"UPDATE npss_record SET folding = '{hashlib.sha256(other).hexdigest()}' WHERE label = '13.0'"
        self.assertIn("does not extend", self.refused("55000", f"SET session_replication_role = replica; {text}", base))
        self.put("13.0")
        self.assertEqual(self.written(f"folding = '{digest_of('13.0')}'", base), "13.0")
        self.assertEqual(self.recorded(base), [f"{label}|{digest_of(label)}" for label in ("13.0", "15.0")])


class Publication(Apart):
    """A subscriber that has the publisher's record."""

    settings = "wal_level = logical\nwal_retrieve_retry_interval = '200ms'\n"

    def published(self):
        """A publisher and a subscriber with accounts, both under 13.0 without foldings."""
        for base in ("publisher", "subscriber"):
            self.server.sql("CREATE TABLE account (name text PRIMARY KEY)", self.base(base, "13.0"))
        self.server.sql("CREATE PUBLICATION everything FOR ALL TABLES; SELECT pg_create_logical_replication_slot('followed', 'pgoutput')", "publisher")
        self.server.sql(f"CREATE SUBSCRIPTION followed CONNECTION 'host={self.server.folder} dbname=publisher user=postgres' PUBLICATION everything"
                        " WITH (create_slot = false)", "subscriber")
        self.addCleanup(self.server.sql, "DROP SUBSCRIPTION followed", "subscriber")
        self.comes("SELECT bool_and(srsubstate = 'r')", "FROM pg_subscription_rel")

    def comes(self, asked, more):
        """Waits until the subscriber answers yes."""
        for _ in range(100):
            if self.server.sql(f"{asked} {more}", "subscriber") == "t":
                return
            time.sleep(0.1)
        self.fail(f"{asked} {more}: {(self.server.folder / 'log').read_text(encoding='utf-8')[-1500:]}")

    def follows(self, name, labels):
        """The subscriber gets a new name, and has the record of these labels."""
        self.server.sql(f"INSERT INTO account VALUES ('{name}')", "publisher")
        self.comes("SELECT count(*) = 1", f"FROM account WHERE name = '{name}'")
        self.assertEqual(self.recorded("subscriber"), [f"{label}|{digest_of(label)}" for label in labels])

    def test_foldings_that_come_late_to_a_subscriber_that_is_ahead(self):
        self.published()
        for label in ("13.0", "15.0"):
            self.put(label)
        self.server.sql("SELECT npss_raise('15.0')", "subscriber")
        self.server.sql("SELECT npss_raise('13.0')", "publisher")
        self.follows("Zo\u00eb", ["13.0", "15.0"])
        self.server.sql("SELECT npss_raise('15.0')", "publisher")
        self.follows(YOUNGEST, ["13.0", "15.0"])

    def test_foldings_that_come_late(self):
        for raised in (["publisher"], ["subscriber", "publisher"]):
            self.published()
            own = self.server.sql("SELECT since, label FROM npss_record", "subscriber")
            self.put("13.0")
            for base in raised:
                self.server.sql("SELECT npss_raise('13.0')", base)
            self.follows("Zo\u00eb", ["13.0"])
            self.assertEqual(self.server.sql("SELECT since, label FROM npss_record", "subscriber"), own)
            self.assertEqual(self.server.sql("SELECT npss_caseless_nfkc(name) FROM account", "subscriber"), "zo\u00eb")
            self.put("15.0")
            self.server.sql("SELECT npss_raise('15.0')", "publisher")
            self.follows(YOUNGEST, ["13.0", "15.0"])
            self.assertNotIn("npss_record only grows", (self.server.folder / "log").read_text(encoding="utf-8"))
            self.doCleanups()
