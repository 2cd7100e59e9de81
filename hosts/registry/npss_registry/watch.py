"""The thread that waits for news of the log, over a connection of its own, so that nobody else waits for a silent log."""

import threading
import time
from collections.abc import Callable, Sequence
from contextlib import suppress
from typing import Optional

from npss_registry.errors import LogBroken, LogUnsafe, NoLog, RegistryError, StoreError
from npss_registry.health import Health
from npss_registry.logs import Log, open_log

# The log is asked anew after so many seconds without news.
PATIENCE = 2.0
# A log that is away is tried again after so many seconds, at first and at most.
FIRST_PAUSE, MOST_PAUSE = 0.25, 5.0


class Watch:
    """Knows the last place of each shard of a log. `tell` is called with them after each look."""

    def __init__(self, log: str, shards: int, health: Health, tell: Callable[[Sequence[int]], None]):
        self._name = log
        self._shards = shards
        self._health = health
        self._tell = tell
        self._log: Optional[Log] = None
        self._ended = threading.Event()
        self._known: Optional[tuple[float, list[int]]] = None
        self._thread = threading.Thread(target=self._run, name="watch", daemon=True)

    def start(self) -> None:
        self._thread.start()

    def stop(self) -> None:
        """Ends the thread once its look is over, which isn't waited for."""
        self._ended.set()

    def lasts(self) -> Optional[list[int]]:
        """The last place of each shard, as far as it is known; None where the log was never reached."""
        return None if self._known is None else self._known[1]

    def age(self) -> Optional[float]:
        """How many seconds ago the log told them."""
        return None if self._known is None else time.monotonic() - self._known[0]

    def _run(self) -> None:
        pause = 0.0
        while not self._ended.wait(pause):
            try:
                lasts = self._look()
                self._known = time.monotonic(), lasts
                self._health.log.end()
                self._tell(lasts)
                pause = 0.0
            except Exception as error:
                self._failed(error)
                pause = min(max(FIRST_PAUSE, 2 * pause), MOST_PAUSE)

    def _failed(self, error: Exception) -> None:
        """The look failed. Who waits for news goes on with the next one, whatever it was."""
        if self._log is not None:
            with suppress(Exception):
                self._log.close()
            self._log = None
        if isinstance(error, (LogBroken, StoreError)) and not isinstance(error, (LogUnsafe, NoLog)):  # it is no log any more, which the registry finds where it reads on
            self._tell([-1] * self._shards)
        else:
            self._health.log.begin(str(error) if isinstance(error, RegistryError) else f"{type(error).__name__}: {error}")

    def _look(self) -> list[int]:
        if self._log is None:
            self._log = open_log(self._name, "read")
            return self._log.lasts(self._shards)
        return self._log.news(self.lasts() or [0] * self._shards, PATIENCE)
