"""A log of a PostgreSQL cluster: what it loses, and what it doesn't, where servers end."""

import contextlib
import os
import secrets
import shutil
import tempfile
import threading
import time
import unittest
from pathlib import Path
from unittest.mock import patch

from cases import NEW, YOUNG, Case, version
from log_servers import Postgres, is_here, send, waited
from npss_registry import LogAway, LogBroken, StoreError
from npss_registry.errors import LogUnsafe, NoLog
from npss_registry.logs import open_log, record_at
from npss_registry.records import Setup
from npss_registry.relog import relog

HANGING = "SELECT count(*) FROM pg_stat_activity WHERE wait_event = 'SyncRep' AND application_name NOT LIKE 'p_'"
# How long a call may take over servers that are silent, and until another primary answers.
PATIENCE, FAIL_OVER = 2.0, 10.0


@unittest.skipUnless(is_here("postgres"), "PostgreSQL or python3-psycopg is not here")
class PostgresCase(Case):
    """A table of its own in a primary with two standbys, which all tests of a class share."""

    @classmethod
    def setUpClass(cls):
        folder = Path(tempfile.mkdtemp())
        cls.addClassCleanup(shutil.rmtree, folder)
        folder.chmod(0o755)
        cls.servers = Postgres(folder)
        cls.addClassCleanup(cls.servers.close)

    def setUp(self):
        super().setUp()
        waited(self.servers.synchronous)
        self.table = f"t{secrets.token_hex(4)}"
        self.log = self.servers.name(self.table)

    def opened(self, how="make", patience=PATIENCE, name=None):
        from npss_registry.logs.postgres_log import PostgresLog

        made = PostgresLog(name or self.log, how, patience)
        self.addCleanup(made.close)
        return made

    def goes_on(self, log, body, seconds=FAIL_OVER):
        """The log takes a record within so many seconds."""
        end = time.monotonic() + seconds
        while True:
            try:
                place, = log.append([(0, body)])
                self.assertEqual(record_at(log, 0, place), body)
                return place
            except LogAway as error:
                self.assertLess(time.monotonic(), end, error)
                time.sleep(0.05)

    @contextlib.contextmanager
    def without_standbys(self):
        """Both standbys are down."""
        others = self.servers.others()
        for number in others:
            self.servers.stop(number)
        try:
            yield
        finally:
            for number in others:
                self.servers.start(number)
            waited(self.servers.synchronous)

    @contextlib.contextmanager
    def set(self, name, value):
        self.servers.set(name, value)
        try:
            yield
        finally:
            self.servers.set(name, None)
            waited(self.servers.synchronous)

    def bodies(self):
        """What the primary shows to whoever asks it by SQL."""
        return self.servers.ask(self.servers.primary, f"SELECT array_agg(body ORDER BY place) FROM {self.table}")


class PostgresSettings(PostgresCase):
    """Servers that may lose what they answered, and names."""

    def test_a_primary_that_waits_for_nobody(self):
        log = self.opened()
        log.append([(0, b"before")])
        with self.set("synchronous_standby_names", ""):
            waited(lambda: self.servers.ask(self.servers.primary, "SHOW synchronous_standby_names") == "")
            for how in ("make", "use", "read"):
                self.assertRaisesRegex(LogUnsafe, "waits for no standby: set synchronous_standby_names", self.opened, how)
            self.assertRaisesRegex(LogAway, "waits for no standby", log.append, [(0, b"lost perhaps")])
            self.assertRaisesRegex(LogAway, "waits for no standby", log.lasts, 1)
            single = self.opened("use", name=f"{self.log},single")
            single.append([(0, b"single")])
        self.goes_on(log, b"behind")
        self.assertEqual([body for _, body in log.read(0, 0, 9)], [b"before", b"single", b"behind"])

    def test_a_primary_that_writes_nothing_to_its_disk(self):
        log = self.opened()
        with self.set("fsync", "off"):
            waited(lambda: self.servers.ask(self.servers.primary, "SHOW fsync") == "off")
            self.assertRaisesRegex(LogUnsafe, "set fsync on", self.opened)
            self.assertRaisesRegex(LogAway, "set fsync on", log.append, [(0, b"lost perhaps")])
        self.goes_on(log, b"behind")

    def test_whatever_a_role_says_a_commit_waits(self):
        for value, kept in (("off", "on"), ("local", "on"), ("remote_write", "on"), ("remote_apply", "remote_apply")):
            self.servers.ask(self.servers.primary, f"ALTER ROLE npss SET synchronous_commit = {value}")
            try:
                self.assertEqual(self.opened()._base.execute("SHOW synchronous_commit").fetchone()[0], kept)
            finally:
                self.servers.ask(self.servers.primary, "ALTER ROLE npss RESET synchronous_commit")

    def test_only_who_makes_a_log_makes_it(self):
        for how in ("use", "read"):
            self.assertRaises(NoLog, self.opened, how)
        self.opened().begin([(0, b"first")])
        self.assertEqual(self.opened("read").read(0, 0, 9), [(1, b"first")])

    def test_names(self):
        for name in ("postgresql://h/d?nothing=1#t", "postgresql://h/d#t,double", "postgresql://h:port/d"):
            self.assertRaises(StoreError, self.opened, name=name)
        # A name is one, whatever stands in it.
        log = self.opened(name=self.servers.name('of "people"; DROP'))
        log.begin([(0, b"first")])
        self.assertEqual(log.read(0, 0, 1), [(1, b"first")])

    def test_a_password(self):
        hba = self.servers.path(self.servers.primary) / "pg_hba.conf"
        before = hba.read_text(encoding="ascii")
        hba.write_text(f"host all alice 127.0.0.1/32 scram-sha-256\n{before}", encoding="ascii")
        self.servers.ask(self.servers.primary, "CREATE ROLE alice LOGIN PASSWORD 'secret'")
        self.servers.ask(self.servers.primary, "GRANT CREATE ON SCHEMA public TO alice")
        self.servers.control(self.servers.primary, "reload")
        file = self.folder / "password"
        name = self.log.replace("npss@", "alice@").replace("#", f"?password-file={file}#")
        self.assertRaisesRegex(LogAway, "its password can't be read from", self.opened, name=name)
        file.write_text("wrong\n", encoding="ascii")
        self.assertRaisesRegex(LogAway, "password authentication failed", self.opened, name=name)
        file.write_text("secret\n", encoding="ascii")
        self.opened(name=name).append([(0, b"a")])
        with patch.dict(os.environ, {"NPSS_LOG_PASSWORD": "secret"}):
            self.assertEqual(self.opened("use", name=self.log.replace("npss@", "alice@")).read(0, 0, 9), [(1, b"a")])
        own = self.folder / "pgpass"
        own.write_text("*:*:*:alice:secret\n", encoding="ascii")
        own.chmod(0o600)
        self.opened("use", name=self.log.replace("npss@", "alice@").replace("#", f"?passfile={own}#")).append([(0, b"b")])
        hba.write_text(before, encoding="ascii")
        self.servers.control(self.servers.primary, "reload")


class PostgresFaults(PostgresCase):
    """Servers that end, stop, or are cut off from one another."""

    def test_what_no_standby_has_is_not_read(self):
        log = self.opened()
        log.append([(0, b"before")])
        with self.without_standbys():
            self.assertRaises(LogAway, log.append, [(0, b"alone")])
            self.servers.kill(self.servers.primary)
            self.servers.start(self.servers.primary)
            # The server shows it behind its restart.
            self.assertEqual(self.bodies(), [b"before", b"alone"])
            for ask in (lambda: log.read(0, 0, 9), lambda: log.lasts(1), lambda: log.news([1], 1), lambda: self.opened("use"), lambda: self.opened("read")):
                self.assertRaises(LogAway, ask)
        self.goes_on(log, b"behind")
        self.assertEqual([body for _, body in log.read(0, 0, 9)], [b"before", b"alone", b"behind"])

    def test_a_wait_that_somebody_cancels_is_no_answer(self):
        log, outcomes = self.opened(patience=20), []
        log.append([(0, b"before")])
        with self.without_standbys():
            def write():
                try:
                    outcomes.append(log.append([(0, b"alone")]))
                except LogAway as error:
                    outcomes.append(str(error))

            writing = threading.Thread(target=write)
            writing.start()
            waited(lambda: self.servers.ask(self.servers.primary, HANGING) == 1)
            self.servers.ask(self.servers.primary, "SELECT count(pg_cancel_backend(pid)) FROM pg_stat_activity WHERE wait_event = 'SyncRep'")
            writing.join()
        self.assertEqual(len(outcomes), 1)
        self.assertRegex(str(outcomes[0]), "whether a standby has it isn't known: canceling")

    def test_while_standbys_are_away_one_process_of_the_server_waits(self):
        logs = [self.opened() for _ in range(3)]
        with self.without_standbys():
            for log in logs * 2:
                self.assertRaises(LogAway, log.append, [(0, b"alone")])
            self.assertLessEqual(self.servers.ask(self.servers.primary, HANGING), 1)
        for log in logs:
            self.goes_on(log, b"behind")

    def test_a_host_that_is_silent_is_passed_over(self):
        number = self.servers.others()[0]
        stopped = self.servers.processes(number)
        send(stopped, 19)
        try:
            for _ in range(6):  # hosts are tried in any order
                begun = time.monotonic()
                self.opened(patience=6).append([(0, b"a")])
                self.assertLess(time.monotonic() - begun, 6)
        finally:
            send(stopped, 18)

    def test_a_primary_ends_and_another_is_promoted(self):
        logs = [self.opened() for _ in range(2)]
        known = [logs[0].append([(0, b"%d" % count)])[0] for count in range(20)]
        self.servers.kill(self.servers.primary)
        with self.assertRaises(LogAway):
            while True:  # a process of the old primary answers until it notices, and what it answered is kept
                known.append(logs[0].append([(0, b"20")])[0])
        old = self.servers.promote()
        try:
            found = []
            for log in logs:
                self.goes_on(log, b"behind")
                found.append([place for place, body in log.read(0, 0, 1_000_000) if body.isdigit()])
            # The last one got no answer, so it isn't known whether it was written; but all see the same.
            self.assertIn(found[0], (known, [*known, known[-1] + 1]))
            self.assertEqual(found[0], found[1])
        finally:
            self.servers.clone(old)
            waited(self.servers.synchronous)

    def test_a_primary_that_is_killed_and_comes_back(self):
        log = self.opened()
        log.append([(0, b"before")])
        self.servers.kill(self.servers.primary)
        self.servers.start(self.servers.primary)
        self.goes_on(log, b"behind", 30)

    def test_an_old_primary_beside_a_new_one_answers_nothing(self):
        log = self.opened()
        log.append([(0, b"before")])
        old = self.servers.primary
        frozen = self.servers.processes(old)
        send(frozen, 19)
        self.servers.promote()
        send(frozen, 18)
        # The standby that counted for the old one follows the new one.
        waited(self.servers.synchronous)
        self.goes_on(log, b"behind", 30)
        self.assertEqual([bytes(body) for body in self.bodies()][-1], b"behind")
        self.servers.stop(old)
        self.servers.clone(old)
        waited(self.servers.synchronous)

    def test_an_old_primary_is_left_where_nothing_is_written(self):
        from npss_registry.logs import postgres_log

        log = self.opened()
        log.append([(0, b"before")])
        old = self.servers.primary
        frozen = self.servers.processes(old)
        send(frozen, 19)
        self.servers.promote()
        send(frozen, 18)
        waited(self.servers.synchronous)
        self.opened("use").append([(0, b"behind")])
        with patch.object(postgres_log, "TRUSTED", 0.0):
            end = time.monotonic() + 30
            while True:
                with contextlib.suppress(LogAway):
                    if [body for _, body in log.read(0, 0, 9)][-1] == b"behind":
                        break
                self.assertLess(time.monotonic(), end)
        self.servers.stop(old)
        self.servers.clone(old)
        waited(self.servers.synchronous)


class PostgresNodes(PostgresCase):
    """Nodes over a cluster."""

    def test_claims_through_a_cluster(self):
        one, other = self.node("one", setup=Setup("nfc", 9, 3, False)), self.node("other", NEW, Setup("nfc", 9, 3, False))
        self.assertEqual(one.claim("a\u0302", "x").what, "registered")
        self.assertEqual(other.claim("\u00e2", "y").what, "taken")
        self.assertEqual(other.claim(YOUNG, "y").what, "registered")
        self.assertEqual(one.forget("a\u0302").what, "forgotten")
        one.catch_up()
        one.abandon()
        again = self.open(one.store.path)
        again.upgrade(version(NEW))
        self.assertEqual(again.find(YOUNG)[0].owner, "y")
        self.assertEqual(self.judged(one.store.path, other.store.path), [])

    def test_a_standby_that_lacked_the_tail_stops_the_node(self):
        node = self.node("one")
        node.claim("a", "x")
        late, kept = self.servers.others()
        self.servers.stop(late)
        lost = node.claim("A", "x").holder.place
        # As somebody does who promotes the wrong one: the tail stands on the primary and on the other standby alone.
        for number in (kept, self.servers.primary):
            self.servers.stop(number)
        wrong = [kept, self.servers.primary]
        settings = self.servers.path(late) / "postgresql.auto.conf"
        self.servers.start(late)
        self.servers.primary = late
        self.servers.control(late, "promote")
        for number in wrong:
            self.servers.clone(number)
        waited(self.servers.synchronous)
        self.assertTrue(settings.exists())
        with self.assertRaises(LogBroken) as caught:
            for _ in range(20):
                with contextlib.suppress(LogAway):
                    node.catch_up()
        self.assertEqual(caught.exception.place, lost)
        node.abandon()
        done = relog([node.store.path], self.servers.name(f"{self.table}2"))
        self.assertEqual((done.registered, done.lost), (2, []))
        self.assertEqual(self.open(node.store.path).claim("A", "x").what, "registered")

    def test_a_table_that_was_brought_back_older_stops_the_node(self):
        node, other = self.node("one"), self.node("other")
        node.claim("a", "x")
        other.catch_up()
        place = node.claim("A", "x").holder.place
        self.servers.ask(self.servers.primary, f"DELETE FROM {self.table} WHERE place >= {place}")
        self.assertEqual(other.claim("A", "x").what, "registered")  # at the same place, in another record
        with self.assertRaises(LogBroken) as caught:
            node.catch_up()
        self.assertEqual(caught.exception.place, place)

    def test_what_no_node_wrote_stops_the_node(self):
        node = self.node("one")
        self.servers.ask(self.servers.primary, f"INSERT INTO {self.table} VALUES (7, 0, 'no record')")
        self.assertRaisesRegex(LogBroken, "at place 7", node.catch_up)

    def test_the_address_is_changed(self):
        path = self.store("one")
        node = self.open(path)
        node.claim("a", "x")
        node.close()
        hosts = self.log.replace(self.servers.hosts, f"127.0.0.1:{self.servers.ports[self.servers.primary]}")
        self.assertEqual(self.run_words("log", path), (0, f"{self.log}\n", ""))
        self.assertEqual(self.run_words("log", path, hosts), (0, f"{hosts}\n", ""))
        self.assertEqual(self.open(path).claim("A", "x").what, "registered")
        self.assertEqual(open_log(hosts).lasts(1), [3])
