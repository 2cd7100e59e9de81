"""What a server knows of its log and its store, when it is told, and when it is answered."""

import threading
from unittest.mock import patch

from npss_registry import LogAway
from npss_registry.health import Health, Trouble
from npss_registry.worker import Worker
from serving import ServingCase

SECONDS = 20


class Healths(ServingCase):
    """Who is answered, or reads a line, finds the health so."""

    def worker(self):
        health = Health()
        worker = Worker(self.store("store"), health)
        self.addCleanup(worker.close, 10)
        worker.start()
        return worker, health

    def slowly(self, worker, health, work):
        """What is asked while the worker is at something else, and whether claims can be expected at the moment when it is answered."""
        at, go = threading.Event(), threading.Event()
        worker.work(lambda _: [at.set(), go.wait(SECONDS)] and [])
        at.wait(SECONDS)
        asked, found = work(), []
        asked.add_done_callback(lambda _: found.append(health.claims))
        go.set()
        self.until(lambda: found)
        return asked, found[0]

    def test_an_answer_comes_behind_what_it_tells_of_the_log(self):
        worker, health = self.worker()
        health.records.begin("it was full")
        self.assertFalse(health.claims)
        asked, claims = self.slowly(worker, health, lambda: worker.claim("A", "x"))
        self.assertEqual((asked.result(0).what, claims), ("registered", True))
        health.records.begin("it was full")
        asked, claims = self.slowly(worker, health, lambda: worker.work(lambda registry: registry.forget("A")))
        self.assertEqual((asked.result(0).what, claims), ("forgotten", True))

    def test_an_answer_that_wrote_nothing_tells_nothing_of_the_log(self):
        worker, health = self.worker()
        self.assertEqual(worker.claim("A", "x").result(SECONDS).what, "registered")
        health.records.begin("it was full")
        for work in (lambda: worker.claim("A", "x"), lambda: worker.claim("A", "y"), lambda: worker.work(lambda registry: registry.forget("a"))):
            self.assertFalse(self.slowly(worker, health, work)[1])

    def test_a_failure_comes_behind_what_it_tells_of_the_log(self):
        worker, health = self.worker()
        with patch.object(worker.registry.log, "append", side_effect=LogAway("full")):
            asked, claims = self.slowly(worker, health, lambda: worker.claim("A", "x"))
        self.assertEqual((str(asked.exception(0)), claims), ("full", False))

    def test_threads_that_tell_it_at_once(self):
        trouble, lines = Trouble("begins", "over"), []
        with patch("npss_registry.health.LOGGER") as logger:
            logger.warning.side_effect = lambda *_: lines.append("begins")
            logger.info.side_effect = lambda *_: lines.append("over")
            threads = [threading.Thread(target=lambda act=act: [act() for _ in range(300)]) for act in 4 * (lambda: trouble.begin("why"), trouble.end)]
            for thread in threads:
                thread.start()
            for thread in threads:
                thread.join()
        self.assertGreater(len(lines), 0)
        self.assertEqual(lines, [("begins", "over")[count % 2] for count in range(len(lines))])
