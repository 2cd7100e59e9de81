"""The one thread that works on a registry while a server serves it: it gathers what is asked, and reads the log on."""

import logging
import threading
import time
from collections import deque
from collections.abc import Callable, Sequence
from concurrent.futures import Future
from dataclasses import dataclass, field
from typing import Any, Optional, Union

from npss import Refused

from npss_registry.errors import InUse, LogAway, LogUnsafe, NoLog, NotTried, StoreAway
from npss_registry.failures import plainly
from npss_registry.health import Health
from npss_registry.opening import opened, opening
from npss_registry.registry import Registry
from npss_registry.shards import Outcome
from npss_registry.store import Store

LOGGER = logging.getLogger("npss_registry")
# So many claims that wait are published together, or until their names have so many characters.
BATCH, CHARACTERS = 1000, 1 << 20
WORK = 1 << 16
# So many shards with news are read on at a time, between what is asked.
SHARDS = 32
# A registry that can't be begun is tried again after so many seconds, at first and at most.
FIRST_PAUSE, MOST_PAUSE = 0.25, 30.0
# What is wrong with a log that somebody may mend.
AWAY = (LogAway, LogUnsafe, NoLog)


@dataclass
class _Task:
    """A claim, or any other work on the registry, and when it was asked."""

    claim: Optional[tuple[Union[str, bytes], str]] = None
    work: Optional[Callable[[Registry], Any]] = None
    answer: "Future[Any]" = field(default_factory=Future)
    moment: float = field(default_factory=time.monotonic)

    @property
    def size(self) -> int:
        """How long a claimed name is; other work counts as one of the longest, since it isn't published together."""
        return WORK if self.claim is None else len(self.claim[0])


class Worker:
    """Serves many threads over the store of a path, which it has for itself from the beginning.

    The registry begins by `start`, at once or, where the log is away, once that is back.
    """

    def __init__(self, path: str, health: Health):
        self._path = path
        self._health = health
        self.registry: Optional[Registry] = None
        self.failure: Optional[BaseException] = None
        # What is called once where the registry stops.
        self.on_failure: Callable[[], None] = lambda: None
        with opening(path):
            self._store: Optional[Store] = Store(path)
        self.setup, self.log, self.node = self._store.setup, self._store.log, self._store.node
        # How many versions the store had when it was served last.
        self.served = self._store.served
        self._condition = threading.Condition()
        self._waiting: deque[_Task] = deque()
        self._unread: dict[int, None] = {}
        self._ending = False
        self._pause = FIRST_PAUSE
        self._attempt = 0.0
        # When the log or the store failed last, and why.
        self._failed: tuple[float, BaseException] = 0.0, LogAway("the log")
        self._thread = threading.Thread(target=self._run, name="registry", daemon=True)

    def start(self) -> None:
        """Begins. What is wrong with the store, or with what stands in the log, is raised; a log that is away is waited for."""
        try:
            self._open()
        except (LogAway, NoLog, StoreAway) as error:
            self._retry(error)
        self._thread.start()

    # ---- what other threads ask

    def claim(self, string: Union[str, bytes], owner: str) -> "Future[Outcome]":
        """A claim, which goes to the log with those that wait beside it."""
        return self._ask(_Task(claim=(string, owner)))

    def work(self, work: Callable[[Registry], Any]) -> "Future[Any]":
        """Any other work that wants the log."""
        return self._ask(_Task(work=work))

    def _ask(self, asked: _Task) -> "Future[Any]":
        with self._condition:
            refusal = self._refusal()
            if refusal is None:
                self._waiting.append(asked)
                self._condition.notify()
        if refusal is not None:
            asked.answer.set_exception(refusal)
        return asked.answer

    def _refusal(self) -> Optional[BaseException]:
        """Why nothing is worked on now, so that nobody waits for what is known to be away."""
        if self.failure is not None:
            return self.failure
        if self._ending:
            return NotTried("the server ends")
        if self._health.log.why is not None:
            return NotTried(self._health.log.why)
        if self._health.store.why is not None:
            return NotTried(self._health.store.why)
        return None

    def news(self, lasts: Sequence[int]) -> None:
        """The log's last places are these: what isn't read so far is read on."""
        with self._condition:
            registry = self.registry
            if registry is not None:
                for shard, last in zip(registry.shards, lasts):
                    if shard.place != last:
                        self._unread[shard.number] = None
            elif self._health.store.why is None:
                self._attempt = 0.0
            self._condition.notify()

    def close(self, patience: float) -> bool:
        """Ends the thread behind what was asked, and lets the registry go; whether that was done within so many seconds.

        A thread that is left behind ends with its process, which harms the store as little as a cut of the power does.
        """
        with self._condition:
            self._ending = True
            self._condition.notify()
        self._thread.join(patience)
        return not self._thread.is_alive()

    # ---- the thread

    def _run(self) -> None:
        try:
            while self._turn():
                pass
            self._end()
        except BaseException as error:  # a broken log or store: nothing more is served
            with self._condition:
                self.failure = error
            self._answer_all(list(self._waiting), error)
            self._let_go()
            self.on_failure()

    def _turn(self) -> bool:
        """Serves what waits, and reads on; whether more may come."""
        with self._condition:
            self._condition.wait_for(self._is_due, None if self.registry else max(0.0, self._attempt - time.monotonic()))
            batch = self._first_waiting()
            if self._ending and not batch:
                return False
        batch = [asked for asked in batch if asked.answer.set_running_or_notify_cancel()]  # nobody gives it up from now on
        # What was asked before the log failed last has waited for it long enough.
        self._answer_all([asked for asked in batch if asked.moment < self._failed[0]], self._failed[1])
        batch = [asked for asked in batch if not asked.answer.done()]
        try:
            if self.registry is None:
                self._begin_again(batch)
            if self.registry is not None:
                with plainly(self._path):
                    self._serve(self.registry, batch)
                    self._read_on(self.registry)
        except (StoreAway, MemoryError) as error:  # the nodes are ahead of the store, which has to be opened anew
            away = StoreAway(str(error) or "out of memory")
            self._answer_all(batch, away)
            self._let_go()
            self._retry(away)
        except BaseException as error:
            self._answer_all(batch, error)
            raise
        return True

    def _first_waiting(self) -> list[_Task]:
        batch: list[_Task] = []
        left = CHARACTERS
        while self._waiting and len(batch) < BATCH and left > 0:
            batch.append(self._waiting.popleft())
            left -= batch[-1].size
        return batch

    def _is_due(self) -> bool:
        if self._waiting or self._ending:
            return True
        return bool(self._unread) if self.registry else time.monotonic() >= self._attempt

    @staticmethod
    def _answer_all(batch: Sequence[_Task], error: BaseException) -> None:
        for asked in batch:
            if not asked.answer.done():
                asked.answer.set_exception(error)

    # ---- beginning and ending

    def _open(self) -> None:
        if self._store is None:
            with opening(self._path):
                self._store = Store(self._path)
        try:
            self.registry = opened(self._path, self._store)
            with plainly(self._path):
                self._store.note_served(len(self._store.version_sums()))
        except AWAY:
            raise
        except BaseException:
            self._let_go()
            raise
        self.node = self.registry.store.node
        self._health.log.end()
        self._health.store.end()
        self._pause = FIRST_PAUSE

    def _begin_again(self, batch: Sequence[_Task]) -> None:
        """Begins the registry where it is time; else what was asked is told why not."""
        if time.monotonic() >= self._attempt:
            try:
                self._open()
                return
            except InUse as error:  # somebody works on it between two attempts
                self._retry(StoreAway(str(error)))
            except (*AWAY, StoreAway) as error:
                self._retry(error)
        self._answer_all(batch, self._failed[1])

    def _retry(self, error: BaseException) -> None:
        (self._health.log if isinstance(error, AWAY) else self._health.store).begin(str(error))
        self._failed = time.monotonic(), NotTried(str(error))
        self._attempt = time.monotonic() + self._pause
        self._pause = min(2 * self._pause, MOST_PAUSE)

    def _let_go(self) -> None:
        if self.registry is not None:
            self.registry.abandon()
        elif self._store is not None:
            self._store.close()
        self.registry = self._store = None
        self._unread.clear()

    def _end(self) -> None:
        if self.registry is None:
            self._let_go()
        else:
            with plainly(self._path):
                self.registry.close()

    # ---- work

    def _serve(self, registry: Registry, batch: Sequence[_Task]) -> None:
        self._claim_all(registry, [asked for asked in batch if asked.claim is not None])
        for asked in batch:
            if asked.work is not None:
                self._reached([asked], lambda: [asked.work(registry)] if asked.work else [])

    def _claim_all(self, registry: Registry, claims: Sequence[_Task]) -> None:
        if claims:
            self._reached(claims, lambda: registry.claim_many([asked.claim for asked in claims if asked.claim is not None]))

    def _reached(self, asked: Sequence[_Task], work: Callable[[], Sequence[Any]]) -> None:
        """Answers with what work comes to."""
        try:
            outcomes = work()
            # Who is answered finds the health so.
            if any(isinstance(outcome, Outcome) and (outcome.new or outcome.what == "forgotten") for outcome in outcomes):
                self._health.records.end()
            for one, outcome in zip(asked, outcomes):
                if isinstance(outcome, Refused):
                    one.answer.set_exception(outcome)
                else:
                    one.answer.set_result(outcome)
        except LogAway as error:
            self._failed = time.monotonic(), error
            self._health.records.begin(str(error))
            self._answer_all(asked, error)
        except Refused as error:
            self._answer_all(asked, error)

    def _read_on(self, registry: Registry) -> None:
        """Reads on a few of the shards that have news, the one that waits longest first."""
        with self._condition:
            numbers = list(self._unread)[:SHARDS]
            for number in numbers:
                del self._unread[number]
        if numbers and self._health.log.why is None:
            try:
                registry.catch_up(numbers)
            except LogAway as error:
                self._failed = time.monotonic(), error
