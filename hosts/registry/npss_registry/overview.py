"""How a server's node stands, as far as that is known without asking the log."""

from dataclasses import dataclass
from typing import Optional

from npss_registry.health import Health
from npss_registry.reader import Reader
from npss_registry.watch import Watch
from npss_registry.worker import Worker


@dataclass(frozen=True)
class ShardState:
    """How far a shard was read, the last place that the log told, and how many names are registered, and parked.

    `last` is None where the log told none since the server began, `behind` also where the log is away.
    """

    shard: int
    place: int
    last: Optional[int]
    behind: Optional[int]
    registered: int
    parked: int


@dataclass(frozen=True)
class Overview:
    """All of a node. `age` is how many seconds ago the log told its last places; `log_away` and `store_away` are reasons."""

    node: str
    form: str
    caseless: bool
    room: int
    most_bytes: int
    assigned: int
    versions: int
    claims: bool
    log_away: Optional[str]
    store_away: Optional[str]
    age: Optional[float]
    shards: list[ShardState]
    parked: list[tuple[int, str]]


class Overlook:
    """Puts an overview together from what reader, worker and watch know."""

    def __init__(self, reader: Reader, worker: Worker, watch: Watch, health: Health):
        self._reader, self._worker, self._watch, self._health = reader, worker, watch, health

    def overview(self) -> Overview:
        health, setup, parked = self._health, self._reader.setup, self._reader.parked()
        return Overview(self._worker.node, setup.form, setup.caseless, setup.room, setup.most_bytes, self._reader.tables.count, self._reader.versions,
                        health.claims and self._worker.failure is None, health.log.why, health.store.why, self._watch.age(),
                        self._shards(parked.counts), parked.first)

    def _shards(self, parked: dict[int, int]) -> list[ShardState]:
        registry, lasts = self._worker.registry, self._watch.lasts()
        if registry is not None:
            stood = [(shard.place, shard.count) for shard in registry.shards]
        else:
            stood = self._reader.stood()
        shards = []
        for number, (place, registered) in enumerate(stood):
            last = None if lasts is None else max(lasts[number], place)
            behind = None if last is None or self._health.log.why is not None else last - place
            shards.append(ShardState(number, place, last, behind, registered, parked.get(number, 0)))
        return shards
