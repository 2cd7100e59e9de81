"""What each kind of log has to keep, over the real servers: one suite of tests, which each kind passes."""

import contextlib
import secrets
import shutil
import tempfile
import threading
import time
from pathlib import Path

from cases import FOLDED_NEW, FOLDED_OLD, PROGRAM, YOUNG_A, version
from log_trims import LogTrims
from npss_registry import LogAway, Registry, init
from npss_registry.judge import Judge
from npss_registry.logs import open_log, record_at
from npss_registry.logs.protocol import MOST_READ
from npss_registry.records import Setup
from npss_registry.trim import trim

WRITERS, BATCHES = 4, 25
# So many seconds a log may take until it says that it is away, where it answers within one by itself.
PATIENCE = 2.0


class EveryLog(LogTrims):
    """What a log has to keep, whatever keeps it. A kind tells how its logs are named, silenced, filled and brought back."""

    @classmethod
    def setUpClass(cls):
        cls.folder = Path(tempfile.mkdtemp())
        cls.addClassCleanup(shutil.rmtree, cls.folder)
        cls.folder.chmod(0o755)
        cls.begin_servers()

    def setUp(self):
        self.log = self.name(f"t{secrets.token_hex(4)}")

    def opened(self, name=None, how="make", **words):
        made = open_log(name or self.log, how, **words) if not words else self.kind()(name or self.log, how, **words)
        self.addCleanup(made.close)
        return made

    @staticmethod
    def kind():
        raise NotImplementedError

    def test_an_empty_log(self):
        log = self.opened()
        self.assertEqual((log.lasts(3), log.read(0, 0, 10), record_at(log, 0, 1), record_at(log, 0, 0)), ([0, 0, 0], [], None, None))

    def test_a_log_is_begun_once(self):
        shards, logs, begun = 130, [self.opened() for _ in range(2)], threading.Barrier(2)

        def begin(number):
            begun.wait()
            logs[number].begin([(shard, b"%d of %d" % (shard, number)) for shard in range(shards)])

        threads = [threading.Thread(target=begin, args=(number,)) for number in range(2)]
        for thread in threads:
            thread.start()
        for thread in threads:
            thread.join()
        found = [[log.read(shard, 0, 9) for shard in range(shards)] for log in logs]
        self.assertEqual(found[0], found[1])
        self.assertEqual({len(piece) for piece in found[0]}, {1})
        # One of both, whole.
        first = found[0][0][0][1].rpartition(b" ")[2]
        self.assertEqual([piece[0][1] for piece in found[0]], [b"%d of %s" % (shard, first) for shard in range(shards)])
        logs[1].begin([(shard, b"later") for shard in range(shards)])
        self.assertEqual(logs[0].read(5, 0, 9), found[0][5])

    def test_what_is_written_is_read(self):
        log, other = self.opened(), self.opened()
        log.begin([(shard, b"first %d" % shard) for shard in range(3)])
        bodies = [b"a", b"", bytes(range(256)), b"b" * 70_000]
        places = log.append([(0, bodies[0]), (1, b"other"), *((0, body) for body in bodies[1:])])
        mine = [place for index, place in enumerate(places) if index != 1]
        first = other.read(0, 0, 1)[0]
        self.assertEqual(first[1], b"first 0")
        self.assertEqual(sorted({first[0], *mine}), [first[0], *mine])
        rows = [first, *zip(mine, bodies)]
        self.assertEqual(other.read(0, 0, 9), rows)
        for behind, _ in [(0, b""), *rows]:
            for most in range(1, 7):
                self.assertEqual(other.read(0, behind, most), [row for row in rows if row[0] > behind][:most], (behind, most))
        self.assertEqual((other.lasts(4), other.read(1, places[1], 9), record_at(other, 0, mine[1])), ([mine[-1], places[1], other.lasts(3)[2], 0], [], b""))
        self.assertIsNone(record_at(other, 0, mine[-1] + 1))

    def test_records_become_visible_in_their_order(self):
        log, appended, failed = self.opened(), [], []
        log.begin([(shard, b"first") for shard in range(10)])
        before = log.lasts(6)[5]

        def write(number):
            try:
                mine = self.opened(how="use")
                for turn in range(BATCHES):
                    batch = [(5, b"%d %d %d" % (number, turn, one)) for one in range(3)] + [(6 + number, b"x")]
                    appended.extend(zip(mine.append(batch)[:3], (body for _, body in batch[:3])))
            except Exception as error:
                failed.append(repr(error))

        threads = [threading.Thread(target=write, args=(number,)) for number in range(WRITERS)]
        for thread in threads:
            thread.start()
        seen, at = [], before
        while any(thread.is_alive() for thread in threads) or log.lasts(6)[5] > at:
            piece = log.read(5, at, 7)
            seen += piece
            at = piece[-1][0] if piece else at
        self.assertEqual(failed, [])
        self.assertEqual(len(seen), WRITERS * BATCHES * 3)
        self.assertEqual(seen, sorted(appended))
        self.assertEqual(seen, self.opened(how="use").read(5, before, 10_000))

    def test_many_records(self):
        log, other = self.opened(), self.opened()
        log.begin([(shard, b"first") for shard in range(100)])
        many = [(number % 100, secrets.token_bytes(40)) for number in range(3000)]
        places = log.append(many)
        for shard in (0, 50, 99):
            wanted = [(place, body) for place, (one, body) in zip(places, many) if one == shard]
            self.assertEqual(other.read(shard, wanted[0][0] - 1, 10_000), wanted)
            self.assertEqual(other.lasts(100)[shard], wanted[-1][0])
        # And one by one, as a few clients write.
        for number in range(300):
            log.append([(7, b"%d" % number)])
        self.assertEqual([body for _, body in other.read(7, places[-1], 1000)][-200:], [b"%d" % number for number in range(100, 300)])

    def test_large_records_are_read_a_few_at_a_time(self):
        log, other = self.opened(), self.opened()
        log.begin([(0, b"first")])
        bodies = [secrets.token_bytes(175_000) for _ in range(60)]
        places = [place for at in range(0, 60, 5) for place in log.append([(0, body) for body in bodies[at:at + 5]])]
        at, found, pieces = places[0] - 1, [], 0
        while piece := other.read(0, at, 1000):
            self.assertLess(sum(len(body) for _, body in piece[:-1]), MOST_READ)
            at, found, pieces = piece[-1][0], found + piece, pieces + 1
        self.assertEqual(found, list(zip(places, bodies)))
        self.assertGreater(pieces, 1)
        # Two at least, however large they are.
        self.assertEqual(len(other.read(0, places[3] - 1, 2)), 2)

    def test_news(self):
        log, other = self.opened(), self.opened()
        log.begin([(shard, b"first") for shard in range(3)])
        known = log.lasts(3)
        begun = time.monotonic()
        self.assertEqual(log.news(known, 0.3), known)
        self.assertGreaterEqual(time.monotonic() - begun, 0.29)
        self.assertEqual(log.news([0, 0, 0], 5), known)
        written = []
        writing = threading.Timer(0.5, lambda: written.append((other.append([(2, b"record")]), time.monotonic())))
        writing.start()
        lasts, heard = log.news(known, 5), time.monotonic()
        writing.join()
        self.assertEqual(lasts, [*known[:2], written[0][0][0]])
        self.assertLess(heard - written[0][1], 1)

    def test_a_silent_log_is_away_within_its_patience(self):
        log = self.opened(patience=PATIENCE)
        log.begin([(0, b"first"), (1, b"first")])
        log.append([(0, b"before")])
        with self.silent():
            for ask in self.asked_while_silent(log):
                begun = time.monotonic()
                self.assertRaises(LogAway, ask)
                self.assertLess(time.monotonic() - begun, 2 * PATIENCE + 1)
        self.answers_again(log, b"behind")

    def asked_while_silent(self, log):
        return [lambda: log.append([(0, b"meanwhile")]), lambda: log.lasts(2), lambda: log.read(0, 0, 9), lambda: log.news([0, 0], 1),
                lambda: log.keep(0, 1, 0, b"part"), lambda: log.kept(0, 1, 0), lambda: log.trim(0, 1)]

    def answers_again(self, log, body):
        """The log is there again, and takes a record."""
        end = time.monotonic() + 30
        while True:
            try:
                place, = log.append([(1, body)])
                break
            except LogAway:
                self.assertLess(time.monotonic(), end)
                time.sleep(0.1)
        self.assertEqual(record_at(log, 1, place), body)

    def test_what_got_no_answer_is_written_once_or_not(self):
        if not hasattr(self, "through"):
            self.skipTest("nothing stands between a file and who writes it")
        log, direct = self.through(patience=PATIENCE), self.opened()
        direct.begin([(0, b"first")])
        bodies = []
        for count in range(6):
            self.proxy.swallows = count % 2 == 1
            with contextlib.suppress(LogAway):
                bodies.append(b"%d" % count)
                log.append([(0, bodies[-1])])
            self.proxy.swallows = False
        self.answers_again(self.opened(), b"a sign")
        found = [body for _, body in direct.read(0, 0, 100)][1:]
        self.assertEqual([body for body in found if found.count(body) > 1], [])
        self.assertEqual([body for body in found if body in bodies[::2]], bodies[::2])

    def test_a_caseless_registry(self):
        """Two machines, one of which lags behind: their names, behind a trim too."""
        setup, paths = Setup("nfkc", 100, 2, False, caseless=True), []
        for files in (FOLDED_OLD, FOLDED_NEW):
            paths.append(f"{tempfile.mkdtemp(dir=self.folder)}/store")
            init(paths[-1], version(files), setup, self.log)
        old, new = map(self.node, paths)
        self.assertEqual([new.claim(name, "x").what for name in (YOUNG_A, "\u212b", "f")], ["registered"] * 3)
        self.assertEqual([old.claim(name, "y").what for name in ("A", "a\u030a", "i", "aa")], ["taken", "taken", "taken", "registered"])
        self.assertEqual([row.string for shard in old.status() for row in shard.parked], [YOUNG_A])
        new.catch_up()
        for node in (old, new):
            node.close()
        self.assertEqual(trim(paths, PROGRAM).findings, [])
        third = f"{tempfile.mkdtemp(dir=self.folder)}/store"
        init(third, version(FOLDED_NEW), None, self.log)
        node = self.node(third)
        self.assertEqual([node.claim(name, "z").holder.string for name in ("A", "A\u030a", "f", "AA", "i")], [YOUNG_A, "\u212b", "f", "aa", "f"])
        node.close()
        judge = Judge([*paths, third], PROGRAM)
        self.addCleanup(judge.close)
        self.assertEqual(judge.run(), [])

    def node(self, path):
        made = Registry(path)
        self.addCleanup(made.abandon)
        return made

    def test_a_full_log_takes_nothing_and_is_read(self):
        log = self.opened()
        log.begin([(0, b"first"), (1, b"first")])
        log.append([(0, b"before")])
        large = [secrets.token_bytes(100_000) for _ in range(4)]
        with self.full(log):
            with self.assertRaises(LogAway):
                for _ in range(60):
                    log.append([(0, body) for body in large])
            self.assertEqual([body for _, body in log.read(0, 0, 2)], [b"first", b"before"])
        self.answers_again(log, b"behind")
