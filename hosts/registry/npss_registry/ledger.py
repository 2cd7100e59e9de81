"""What a log registers by itself, apart from each store: the judge holds the stores against it."""

from bisect import bisect_right
from collections.abc import Collection
from dataclasses import dataclass
from typing import NamedTuple, Optional

from npss_registry import records, snapshots
from npss_registry.errors import LogBroken
from npss_registry.examine import Examiner
from npss_registry.logs import Log, whole
from npss_registry.records import Claim, End, Forget, Name, Snapshot, SnapshotSum


@dataclass
class Registered:
    """A registration as the log alone has it: its number among all, the place that ended it, and its caseless key in a caseless log."""

    number: int
    place: int
    string: str
    key: str
    owner: str
    ended: Optional[int] = None
    caseless: Optional[str] = None

    @property
    def unique(self) -> str:
        """Its unique key."""
        return self.key if self.caseless is None else self.caseless


class Step(NamedTuple):
    """What the record at a place did: a registration began, or it ended."""

    place: int
    begins: bool
    one: Registered


class Ledger:
    """What is registered by a log alone, by plain dictionaries: registrations and their ends, in the log's order.

    `begin` is the place of the first record where that is a snapshot, else 0; `count` how many records there are. `sums` has the
    running sums behind those of some places that are places of records; `snapshots` what was registered at each snapshot.
    It goes up to a place where one is told. LogBroken of what no node wrote.
    """

    def __init__(self, examiner: Examiner, log: Log, places: Collection[int] = (), until: Optional[int] = None):
        self._setup = examiner.setup
        self._by_string: dict[str, Registered] = {}
        self._keys: dict[str, int] = {}
        self.all: list[Registered] = []
        self.steps: list[Step] = []
        self.begin = self.count = 0
        self.sums = {0: records.NOTHING_READ}
        self.snapshots: dict[int, SnapshotSum] = {}
        total = records.NOTHING_READ
        for place, body in whole(log, examiner.shard):
            first = total == records.NOTHING_READ
            record = examiner.record(place, body, first)
            if isinstance(record, End):
                break
            total = records.sum_behind(total, place, records.sum_of(body))
            if isinstance(record, Snapshot):
                total = self._begun(log, examiner, place) if first else total
                self.snapshots[place] = SnapshotSum(place, *records.sum_of_names(self.names()), total)
            if place in places:
                self.sums[place] = total
            self._add(place, record)
            self.count += 1
            if place == until:
                break

    def _begun(self, log: Log, examiner: Examiner, place: int) -> bytes:
        """Begins with what was registered at the log's first record; the running sum there."""
        self.begin = place
        names, snapshot = snapshots.load(log, examiner.shard, place)
        for name in names:
            claim = Claim(records.message(self._setup.form, name.string, name.key), name.owner, name.string, name.key, name.caseless)
            examiner.claim(name.place, claim)
            self._claim(name.place, claim)
        if len(self.all) != len(names):
            raise LogBroken(place, "what stands beside the log as registered there can't be so at once: some names are too many")
        return snapshot.past

    def names(self) -> list[Name]:
        """What is registered in the end, in the order of its places."""
        return [Name(one.place, one.string, one.key, one.owner, one.caseless) for one in self._by_string.values()]

    def _add(self, place: int, record: records.RegistryRecord) -> None:
        if isinstance(record, Claim):
            self._claim(place, record)
        elif isinstance(record, SnapshotSum):
            if self.snapshots.get(record.place, record) != record:
                raise LogBroken(place, f"what the log registers at the snapshot at place {record.place} isn't what is told of it")
        elif isinstance(record, Forget):
            found = self._by_string.get(record.string)
            if found and found.place == record.place:
                del self._by_string[record.string]
                self._keys[found.unique] -= 1
                found.ended = place
                self.steps.append(Step(place, False, found))

    def _claim(self, place: int, claim: Claim) -> None:
        string, unique = claim.string, claim.unique
        full = len(self._by_string) >= self._setup.room
        alike = not self._setup.equivalents and self._keys.get(unique, 0) > 0
        if string in self._by_string or alike or full:
            return
        new = Registered(len(self.all), place, string, claim.key, claim.owner, caseless=claim.caseless)
        self.all.append(new)
        self._by_string[string] = new
        self._keys[unique] = self._keys.get(unique, 0) + 1
        self.steps.append(Step(place, True, new))

    def active(self, place: int) -> dict[str, Registered]:
        """What is registered behind the record at a place, by its string."""
        return {one.string: one for one in self.all if one.place <= place and (one.ended is None or one.ended > place)}

    def between(self, behind: int, until: int) -> list[Step]:
        """What the records behind a place did, up to another."""
        return self.steps[self._step(behind):self._step(until)]

    def _step(self, place: int) -> int:
        return bisect_right(self.steps, place, key=lambda step: step.place)
