"""What stands in a store, for who only looks: it waits for nobody, and reads what was committed last."""

from dataclasses import dataclass
from typing import Optional

from npss_registry.failures import plainly
from npss_registry.opening import opening
from npss_registry.records import shard_of
from npss_registry.store import Registration, Store

# So many parked names are told.
MOST_PARKED = 100


@dataclass(frozen=True)
class Parked:
    """How many names are parked, by their shards, and the first of them, each with its shard."""

    counts: dict[int, int]
    first: list[tuple[int, str]]


class Reader:
    """A store that is read. One thread at a time asks."""

    def __init__(self, path: str):
        self._path = path
        with opening(path):
            self._store = Store(path, read_only=True)
            versions = self._store.versions()
            self.versions, self.newest = len(versions), versions[-1]
            self.tables = self.newest.tables()
            # How many code points each version assigns.
            self.counts = [assigned for _, assigned in self._store.version_sums()]
        self.setup = self._store.setup
        self._parked: Optional[tuple[int, Parked]] = None
        self._stood: Optional[tuple[int, list[tuple[int, int]]]] = None

    def find(self, name: str) -> list[Registration]:
        """The registrations whose unique keys are equal to that of a name. Raises Refused of one that has none."""
        unique = self._unique_of(name)
        with plainly(self._path):
            return self._store.with_key(shard_of(unique, self.setup.shards), unique)

    def same(self, left: str, right: str) -> Optional[bool]:
        """Whether two registered names are one, by their unique keys; None where one of them isn't registered."""
        keys = [self._unique_of(name) for name in (left, right)]
        with plainly(self._path):
            held = [self._store.holder(shard_of(key, self.setup.shards), name, key) for name, key in zip((left, right), keys)]
        return keys[0] == keys[1] if all(held) else None

    def _unique_of(self, name: str) -> str:
        """The key by which names are one: the caseless one in a caseless log."""
        return self.tables.key(name, self.setup.form, self.setup.caseless)

    def parked(self) -> Parked:
        """What is parked, which is looked for anew where somebody wrote to the store."""
        with plainly(self._path):
            version = self._store.data_version
            if self._parked is None or self._parked[0] != version:
                self._parked = version, Parked(self._store.parked_counts(), self._store.first_parked(MOST_PARKED))
            return self._parked[1]

    def stood(self) -> list[tuple[int, int]]:
        """How far each shard was read, and how many names it registers."""
        with plainly(self._path):
            version = self._store.data_version
            if self._stood is None or self._stood[0] != version:
                counts = self._store.registered_counts()
                self._stood = version, [(place, counts.get(shard, 0)) for shard, place in enumerate(self._store.places())]
            return self._stood[1]

    def close(self) -> None:
        self._store.close()
