"""What each kind of log keeps beside its records, and what it deletes: a part of the suite of every_log.py."""

import contextlib
import secrets
import threading
from unittest.mock import patch

from cases import OLD, PROGRAM, version
from npss_registry import LogAway, Registry, init
from npss_registry.errors import LogTrimmed
from npss_registry.judge import Judge
from npss_registry.logs import record_at, whole
from npss_registry.records import Setup
from npss_registry.trim import trim


class LogTrims:
    """What stands beside a log, and trims. `opened` is another opening of the log of a test."""

    def test_what_stands_beside_a_log(self):
        log, other = self.opened(), self.opened(how="use")
        log.begin([(shard, b"first") for shard in range(2)])
        self.assertIsNone(other.kept(0, 1, 0))
        parts = {(0, 1, 0): b"a", (0, 1, 1): b"", (0, 2, 0): secrets.token_bytes(1_000_000), (1, 1, 0): bytes(range(256))}
        for (shard, place, number), part in parts.items():
            log.keep(shard, place, number, part)
        log.keep(0, 1, 0, b"b")
        self.assertEqual({at: other.kept(*at) for at in parts}, {**parts, (0, 1, 0): b"b"})
        for at in ((0, 1, 2), (0, 3, 0), (1, 2, 0), (2, 1, 0)):
            self.assertIsNone(other.kept(*at), at)
        self.assertEqual([other.read(shard, 0, 9) for shard in range(2)], [log.read(shard, 0, 9) for shard in range(2)])

    def test_what_is_trimmed_is_gone_and_nothing_else(self):
        log, other = self.opened(), self.opened(how="use")
        log.begin([(shard, b"first") for shard in range(3)])
        places = [log.append([(0, b"%d" % count), (1, b"%d" % count), (0, b"%d more" % count)])[0] for count in range(6)]
        rows = [other.read(shard, 0, 99) for shard in range(3)]
        lasts = other.lasts(3)
        for at in (places[1], places[3], places[4]):
            log.keep(0, at, 0, b"part of %d" % at)
        log.keep(1, 1, 0, b"of another shard")
        at = places[3]
        for again in range(2):
            log.trim(0, at)
            new = self.opened(how="read")
            self.assertEqual([new.read(shard, 0, 99) for shard in range(3)], [[row for row in rows[0] if row[0] >= at], *rows[1:]], again)
        for behind, _ in rows[0]:
            wanted = [row for row in rows[0] if row[0] > behind and row[0] >= at]
            for most in (1, 3, 99):
                self.assertEqual(new.read(0, behind, most), wanted[:most], (behind, most))
        self.assertEqual((new.lasts(3), record_at(new, 0, at), record_at(new, 0, places[2])), (lasts, b"3", None))
        self.assertEqual([new.kept(0, one, 0) for one in (places[1], at, places[4])], [None, b"part of %d" % at, b"part of %d" % places[4]])
        self.assertEqual(new.kept(1, 1, 0), b"of another shard")
        # It goes on, with places of its own, and isn't begun anew.
        log.begin([(shard, b"later") for shard in range(3)])
        place, = log.append([(0, b"behind")])
        self.assertGreater(place, lasts[0])
        self.assertEqual([other.read(0, lasts[0], 9), other.lasts(3)], [[(place, b"behind")], [place, *lasts[1:]]])

    def test_a_trim_in_the_midst_of_what_was_written_together(self):
        log = self.opened()
        log.begin([(0, b"first")])
        places = log.append([(0, b"%d" % count) for count in range(9)])
        behind = log.append([(0, b"behind")])
        log.trim(0, places[4])
        for one in (log, self.opened(how="use")):
            self.assertEqual(one.read(0, 0, 99), list(zip([*places[4:], *behind], [b"4", b"5", b"6", b"7", b"8", b"behind"])))
            self.assertEqual([body for _, body in one.read(0, places[6], 1)], [b"7"])
        log.trim(0, behind[0])
        self.assertEqual(log.read(0, 0, 99), [(behind[0], b"behind")])
        self.assertEqual(log.append([(0, b"more")])[0], log.lasts(1)[0])

    def test_many_records_are_trimmed_while_others_are_written(self):
        log, other, failed = self.opened(), self.opened(how="use"), []
        log.begin([(shard, b"first") for shard in range(2)])
        for _ in range(5):
            places = log.append([(0, b"x" * 40)] * 1000)
        done = threading.Event()

        def write():
            try:
                while not done.is_set():
                    other.append([(0, b"meanwhile"), (1, b"meanwhile")])
            except Exception as error:
                failed.append(error)

        writing = threading.Thread(target=write)
        writing.start()
        try:
            for place in (places[0], places[500], places[-1]):
                log.trim(0, place)
                self.assertEqual(log.read(0, 0, 1), [(place, b"x" * 40)])
        finally:
            done.set()
            writing.join()
        self.assertEqual(failed, [])
        found = self.opened(how="use").read(0, 0, 100_000)
        self.assertEqual({body for _, body in found[1:]}, {b"meanwhile"})
        self.assertEqual(len(found) - 1, len(self.opened(how="use").read(1, 0, 100_000)) - 1)

    def test_a_log_that_is_trimmed_while_it_is_read(self):
        log, other = self.opened(), self.opened(how="use")
        log.begin([(0, b"first")])
        places = [log.append([(0, b"%d" % count)])[0] for count in range(9)]
        rows = other.read(0, 0, 99)
        with patch("npss_registry.logs.protocol.PIECE", 2):
            self.assertEqual(list(whole(other, 0)), rows)
            reading = whole(self.opened(how="read"), 0)
            found = [next(reading)]
            log.trim(0, places[6])
            # Whoever had read it all by then goes on; nobody reads over what is gone.
            with contextlib.suppress(LogAway):
                found += reading
            self.assertEqual(found, rows[:len(found)])
            self.assertEqual(list(whole(self.opened(how="read"), 0)), rows[7:])

    def test_stores_over_a_log_that_is_trimmed(self):
        paths = [str(self.folder / f"{self.log.rpartition('/')[2].rpartition('#')[2]} {name}") for name in ("one", "two", "away")]
        setup = Setup("nfc", 100, 2, False)
        for path in paths:
            init(path, version(OLD), setup, self.log)
        nodes = [Registry(path) for path in paths[:2]]
        names = ["a", "A", "f", "i", "aa"]
        for count, name in enumerate(names):
            nodes[count % 2].claim(name, "x")
        nodes[0].forget("f")
        Registry(paths[2]).close()
        away = Registry(paths[2])
        away.catch_up()
        away.close()
        nodes[1].claim("AA", "y")
        for node in nodes:
            node.catch_up()
            node.close()
        self.assertEqual(trim(paths[:2], PROGRAM).findings, [])
        with self.assertRaises(LogTrimmed):
            Registry(paths[2]).catch_up()
        anew = f"{paths[2]} anew"
        init(anew, version(OLD), None, self.log)
        found = []
        for path in (*paths[:2], anew):
            node = Registry(path)
            node.claim(f"ii{'i' * len(found)}", "z")
            found.append(node)
        for node in found:
            node.catch_up()
        rows = [sorted((row.string, row.place, row.owner) for shard in range(2) for row in node.store.registrations(shard)) for node in found]
        for node in found:
            node.close()
        self.assertEqual(rows, [rows[0]] * 3)
        self.assertEqual([name for name, _, _ in rows[0]], ["A", "AA", "a", "aa", "i", "ii", "iii", "iiii"])
        judge = Judge([*paths[:2], anew], PROGRAM)
        self.assertEqual(judge.run(), [])
        judge.close()
