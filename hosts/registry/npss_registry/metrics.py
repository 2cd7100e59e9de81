"""What the server counts, in the text form of Prometheus."""

import threading
from collections.abc import Callable, Iterable
from dataclasses import dataclass
from typing import Optional

from prometheus_client import CollectorRegistry, Counter, Histogram, ProcessCollector, generate_latest
from prometheus_client.core import GaugeMetricFamily, Metric
from prometheus_client.registry import Collector

from npss_registry.overview import Overview, ShardState

BUCKETS = (0.001, 0.0025, 0.005, 0.01, 0.025, 0.05, 0.1, 0.25, 0.5, 1, 2.5, 5, 10)


@dataclass(frozen=True)
class _Row:
    """A gauge of each shard."""

    name: str
    what: str
    value: Callable[[ShardState], Optional[int]]


_ROWS = (_Row("place", "The place up to which a shard was read.", lambda one: one.place),
         _Row("behind", "How many places a shard lies behind the log, as far as that is known.", lambda one: one.behind),
         _Row("registered", "How many names of a shard are registered.", lambda one: one.registered),
         _Row("parked", "How many names of a shard are parked.", lambda one: one.parked))


class _Gauges(Collector):
    """What stands where, as it is at the moment when it is asked for."""

    def __init__(self, overview: Callable[[], Overview]):
        self._overview = overview

    def collect(self) -> Iterable[Metric]:
        overview = self._overview()
        for row in _ROWS:
            gauge = GaugeMetricFamily(f"npss_registry_{row.name}", row.what, labels=["shard"])
            for one in overview.shards:
                value = row.value(one)
                if value is not None:
                    gauge.add_metric([str(one.shard)], value)
            yield gauge
        for name, what, state in (("log_up", "Whether the log can be reached.", overview.log_away is None),
                                  ("claims_up", "Whether claims can be expected to be registered.", overview.claims),
                                  ("log_age_seconds", "How long ago the log told its last places.", overview.age),
                                  ("versions", "How many versions of Unicode the store has used.", overview.versions),
                                  ("assigned_code_points", "How many code points the version in use assigns.", overview.assigned)):
            if state is not None:
                yield GaugeMetricFamily(f"npss_registry_{name}", what, value=float(state))


class Metrics:
    """Counters of one server."""

    def __init__(self, overview: Callable[[], Overview]):
        self._registry = CollectorRegistry()
        self._outcomes = Counter("npss_registry_outcomes", "Claims and forgets by what became of them.", ["request", "outcome", "token"],
                                 registry=self._registry)
        self._refused = Counter("npss_registry_refused", "Requests that were refused, by kind.", ["kind"], registry=self._registry)
        self._seconds = Histogram("npss_registry_request_seconds", "Seconds until a request was answered.", ["path"], buckets=BUCKETS,
                                  registry=self._registry)
        ProcessCollector(registry=self._registry)
        self._registry.register(_Gauges(overview))
        self._lock = threading.Lock()
        self._untold: dict[str, int] = {}

    def outcome(self, request: str, outcome: str, token: str) -> None:
        """What became of a claim or a forget, of who came with a token of this name."""
        self._outcomes.labels(request, outcome, token).inc()

    def refused(self, kind: str) -> None:
        """A request was refused."""
        self._refused.labels(kind).inc()
        with self._lock:
            self._untold[kind] = self._untold.get(kind, 0) + 1

    def observe_seconds(self, path: str, seconds: float) -> None:
        """How long a request took."""
        self._seconds.labels(path).observe(seconds)

    def untold(self) -> dict[str, int]:
        """What was refused since this was asked last, by kind."""
        with self._lock:
            counts, self._untold = self._untold, {}
        return counts

    def text(self) -> bytes:
        return generate_latest(self._registry)
