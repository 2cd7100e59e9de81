"""What a server knows of its log and its store, told once where it begins and once where it is over."""

import logging
import threading
import time
from typing import Optional

LOGGER = logging.getLogger("npss_registry")


class Trouble:
    """Something that comes and goes. Threads may tell it at once; who reads its line finds it so."""

    def __init__(self, begun: str, over: str):
        self._begun, self._over = begun, over
        self._lock = threading.Lock()
        self._since = 0.0
        self.why: Optional[str] = None

    def begin(self, why: str) -> None:
        """It is there, for a reason."""
        with self._lock:
            before, self.why = self.why, why
            if before is None:
                self._since = time.monotonic()
                LOGGER.warning("%s: %s", self._begun, why)

    def end(self) -> None:
        """It isn't there."""
        with self._lock:
            before, self.why = self.why, None
            if before is not None:
                LOGGER.info("%s after %.1f s", self._over, time.monotonic() - self._since)


class Health:
    """The log can be reached or not, it takes records or not, the store can be worked on or not."""

    def __init__(self) -> None:
        self.log = Trouble("the log is away", "the log is back")
        self.records = Trouble("the log takes no records", "the log takes records again")
        self.store = Trouble("the store can't be worked on", "the store can be worked on again")

    @property
    def claims(self) -> bool:
        """Whether claims can be expected to be registered."""
        return self.log.why is None and self.records.why is None and self.store.why is None
