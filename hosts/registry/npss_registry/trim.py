"""Deletes what stands in a log before a snapshot, once all that is needed of it stands beside the log, and each named store is behind it.

It goes in steps, and each leaves a log that is whole: the judge looks at the stores; a snapshot is written into each shard; what
was registered there is written beside the log, and its sum into the log, which each node compares with its own; the named
stores read on up to there; then what stands before the snapshots is deleted. A call that was cut off is made again from its
beginning.
"""

import time
from collections.abc import Sequence
from contextlib import suppress
from dataclasses import dataclass

from npss_registry import records, snapshots
from npss_registry.errors import InUse, LogBroken, LogEnded, StoreAway, StoreError
from npss_registry.examine import Examiner
from npss_registry.judge import Judge
from npss_registry.ledger import Ledger
from npss_registry.logs import Log, last_bodies, open_log
from npss_registry.opening import opened
from npss_registry.records import End, Snapshot, SnapshotSum
from npss_registry.store import Store

# A store that another process works on is looked at again after so many seconds.
LOOK = 0.2
# It has to have read on within so many seconds.
PATIENCE = 60.0


@dataclass(frozen=True)
class Trimmed:
    """What the judge found, behind which nothing was deleted; else how many records were, and how many names are registered."""

    findings: Sequence[str]
    records: int = 0
    names: int = 0


def trim(paths: Sequence[str], program: str = "npss", patience: float = PATIENCE) -> Trimmed:
    """Trims the log of some stores. Only where the judge, which runs PROGRAM, finds nothing wrong with any of them.

    StoreAway where a store doesn't read on within so many seconds: then nothing was deleted. LogEnded of a log that relog has
    given up.
    """
    judge = Judge(paths, program)
    try:
        findings = judge.run()
        if findings:
            return Trimmed(findings)
        examiners = [judge.examiner(shard) for shard in range(judge.setup.shards)]
    finally:
        judge.close()
    store = Store(paths[0], read_only=True)
    try:
        log = open_log(store.log)
    finally:
        store.close()
    try:
        return _Trimming(paths, log, examiners, patience).run()
    finally:
        log.close()


class _Trimming:
    """A log that is trimmed for some stores."""

    def __init__(self, paths: Sequence[str], log: Log, examiners: Sequence[Examiner], patience: float):
        self._paths, self._log, self._examiners, self._patience = paths, log, examiners, patience

    def run(self) -> Trimmed:
        """Does all steps."""
        self._check_end()
        # Nothing is written where a store isn't there.
        self._bring(self._log.lasts(len(self._examiners)))
        places = self._log.append([(one.shard, records.spelled(Snapshot(one.setup))) for one in self._examiners])
        kept = [self._keep(one, place) for one, place in zip(self._examiners, places)]
        sums = [snapshot for snapshot, _ in kept]
        self._bring(self._log.append([(shard, records.spelled(snapshot)) for shard, snapshot in enumerate(sums)]))
        for shard, snapshot in enumerate(sums):
            if snapshots.load(self._log, shard, snapshot.place).snapshot != snapshot:
                raise StoreError("another snapshot stands beside the log: nothing was deleted")
            self._log.trim(shard, snapshot.place)
        return Trimmed([], sum(before for _, before in kept), sum(snapshot.names for snapshot in sums))

    def _check_end(self) -> None:
        for shard, (place, body) in enumerate(last_bodies(self._log, len(self._examiners))):
            last = None if body is None else records.read(place, body)
            if isinstance(last, End):
                raise LogEnded(place, last.log)

    def _keep(self, examiner: Examiner, place: int) -> tuple[SnapshotSum, int]:
        """Writes what the log registers at a snapshot beside it; its sum, and how many records stand before it."""
        ledger = Ledger(examiner, self._log, until=place)
        if place not in ledger.snapshots:
            raise LogBroken(place, "the log has ended before it, the registry goes on in another log; nothing was deleted")
        snapshots.keep(self._log, examiner.shard, ledger.names(), ledger.snapshots[place])
        return ledger.snapshots[place], ledger.count - 1

    def _bring(self, places: Sequence[int]) -> None:
        """Waits until each store has read each shard up to a place; one that nobody works on is read on here."""
        end = time.monotonic() + self._patience
        for path in self._paths:
            while True:
                with suppress(InUse):
                    _read_on(path)
                if _has_read(path, places):
                    break
                if time.monotonic() > end:
                    raise StoreAway(f"{path}: the process that works on it hasn't read the log on within {self._patience:g} s; nothing was deleted")
                time.sleep(LOOK)


def _read_on(path: str) -> None:
    """Reads a store on. InUse where another process works on it."""
    registry = opened(path)
    try:
        registry.catch_up()
    except BaseException:
        registry.abandon()
        raise
    registry.close()


def _has_read(path: str, places: Sequence[int]) -> bool:
    store = Store(path, read_only=True)
    try:
        return all(stood >= place for stood, place in zip(store.places(), places))
    finally:
        store.close()
