"""A log in an etcd cluster, which goes on while most of its members do.

`P/batch/SHARD/LAST` has the records of one append, behind a random word, under the place of their last one. `P/tail/SHARD`
has that word and that place. A transaction names the tails that it knows, and is refused where others have written meanwhile.
So one that got no answer is tried again: it is done once, since its word tells that the first try did it.
`P/kept/SHARD/PLACE/NUMBER` has the parts of what belongs to a record.
"""

import json
import secrets
import struct
import time
import zlib
from collections.abc import Iterator, Sequence
from contextlib import suppress
from typing import Any, Optional

from npss_registry.errors import LogAway, LogBroken
from npss_registry.logs.etcd_cluster import Cluster, Pair, delete, get, pairs, put, spelled, unchanged
from npss_registry.logs.protocol import MOST_READ, PATIENCE, How, bounded, size_of

# etcd takes 128 operations a transaction, of which a shard wants two, and 1.5 MiB a request, which a batch reaches
# but for its packing.
SHARDS, BYTES = 60, 1_000_000
# So many batches are read at once, at first and at most, while they have fewer bytes.
_BATCHES, _MOST_BATCHES, _BYTES_READ = 8, 256, 1 << 20
# So many records of a shard are kept beside its tail, and so many bytes.
_KEPT, _BYTES_KEPT = 1_024, 1 << 17
_WORD = 16
_LAST_PLACE = (1 << 63) - 1
_MISSING = "the record is missing; see `npss-registry relog`"

_PlacedBody = tuple[int, bytes]


def _packed(word: bytes, bodies: Sequence[bytes]) -> bytes:
    """The value of a batch."""
    return word + zlib.compress(b"".join(struct.pack(">I", len(body)) + body for body in bodies), 1)


def _unpacked(last: int, value: bytes) -> list[_PlacedBody]:
    """The records of a batch, with their places."""
    try:
        text, bodies, at = zlib.decompress(value[_WORD:]), [], 0
        while at < len(text):
            size = struct.unpack_from(">I", text, at)[0]
            bodies.append(text[at + 4:at + 4 + size])
            at += 4 + size
    except (zlib.error, struct.error) as error:
        raise LogBroken(last, f"what stands there is no batch: {error}") from error
    return list(zip(range(last - len(bodies) + 1, last + 1), bodies))


def _place_of(key: bytes) -> int:
    """The place of a batch's last record, by its key."""
    return int(key[-16:], 16)


def _last_of(tail: Optional[bytes]) -> int:
    """The last place that a tail tells; 0 where there is none."""
    if tail is None:
        return 0
    if not tail[_WORD:].isdigit():
        raise LogBroken(0, "what stands in a shard's tail is none")
    return int(tail[_WORD:])


class EtcdLog:
    """A log of many machines: batches and tails in an etcd cluster (3.4 or later).

    The name is etcd://HOST:PORT,HOST:PORT#PREFIX, with NAME@ before the hosts where etcd asks who it is; and
    etcds://HOST:PORT?ca=FILE&cert=FILE&key=FILE#PREFIX for TLS.
    """

    def __init__(self, url: str, how: How = "use", patience: float = PATIENCE):
        address, _, prefix = url.partition("#")
        self._prefix = (prefix or "npss").encode()
        self._cluster, self._hearing = Cluster(address, patience), Cluster(address, patience)
        self._patience = patience
        # The keys of all tails.
        self._tails = {"key": spelled(self._prefix + b"/tail/"), "range_end": spelled(self._prefix + b"/tail0")}
        # Of each shard the tail that was seen last, and the last records up to it.
        self._seen: dict[int, tuple[Optional[bytes], list[_PlacedBody]]] = {}
        self._range(self._tail_key(0))

    def _tail_key(self, shard: int) -> bytes:
        return b"%s/tail/%04x" % (self._prefix, shard)

    def _key(self, shard: int, place: int) -> bytes:
        return b"%s/batch/%04x/%016x" % (self._prefix, shard, place)

    def _range(self, key: bytes, to: Optional[bytes] = None, limit: int = 1) -> list[Pair]:
        """Keys and values, as most members have them: what one alone tells may lack the last records."""
        return list(pairs(self._cluster.ask("/v3/kv/range", {"key": spelled(key), "limit": limit, **({"range_end": spelled(to)} if to else {})})))

    def _tail(self, shard: int) -> Optional[bytes]:
        found = self._range(self._tail_key(shard))
        return found[0][1] if found else None

    # ---- writing

    def append(self, records: Sequence[tuple[int, bytes]]) -> list[int]:
        places = [0] * len(records)
        for part in _parts(records):
            batches: dict[int, list[bytes]] = {}
            for index in part:
                batches.setdefault(records[index][0], []).append(records[index][1])
            at = self._append(batches)
            for index in part:
                at[records[index][0]] += 1
                places[index] = at[records[index][0]]
        return places

    def _append(self, batches: dict[int, list[bytes]]) -> dict[int, int]:
        """Writes a batch for each shard; answers the places behind which they stand."""
        by = time.monotonic() + self._patience
        word = secrets.token_bytes(_WORD)
        values = {shard: _packed(word, bodies) for shard, bodies in batches.items()}
        tails = {shard: self._seen[shard][0] if shard in self._seen else self._tail(shard) for shard in batches}
        while time.monotonic() < by:
            lasts = {shard: _last_of(tails[shard]) + len(bodies) for shard, bodies in batches.items()}
            found = self._try(word, values, tails, lasts, by)
            if found is None:
                self._keep(batches, word, tails, lasts)
                return {shard: lasts[shard] - len(bodies) for shard, bodies in batches.items()}
            tails = found
        raise LogAway("the log: other nodes were always sooner")

    def _try(self, word: bytes, values: dict[int, bytes], tails: dict[int, Optional[bytes]], lasts: dict[int, int],
             by: float) -> Optional[dict[int, Optional[bytes]]]:
        """Writes batches where the tails are these still. None where that is done; else the tails as they are."""
        first = next(iter(values))
        answer = self._cluster.ask("/v3/kv/txn", {
            "compare": [unchanged(self._tail_key(shard), tail) for shard, tail in tails.items()],
            "success": [one for shard, value in values.items() for one in
                        (put(self._key(shard, lasts[shard]), value), put(self._tail_key(shard), word + b"%d" % lasts[shard]))],
            "failure": [get(self._key(first, lasts[first])), *(get(self._tail_key(shard)) for shard in values)]}, by)
        if answer.get("succeeded"):
            return None
        own, *found = (list(pairs(one["response_range"])) for one in answer["responses"])
        if own and own[0][1][:_WORD] == word:
            return None  # an earlier try did it
        return {shard: tail[0][1] if tail else None for shard, tail in zip(values, found)}

    def _keep(self, batches: dict[int, list[bytes]], word: bytes, tails: dict[int, Optional[bytes]], lasts: dict[int, int]) -> None:
        """Keeps what was written beside its tails."""
        for shard, bodies in batches.items():
            new = list(zip(range(lasts[shard] - len(bodies) + 1, lasts[shard] + 1), bodies))
            tail, kept = self._seen.get(shard, (None, []))
            self._seen[shard] = word + b"%d" % lasts[shard], _last_records((kept if tail == tails[shard] else []) + new)

    def begin(self, records: Sequence[tuple[int, bytes]]) -> None:
        # The first setup that is written whole stands; each shard's first record is copied from it, by whoever comes.
        key, word = self._prefix + b"/begun", secrets.token_bytes(_WORD)
        setups = json.dumps([[shard, body.decode("latin-1")] for shard, body in records]).encode()
        self._cluster.ask("/v3/kv/txn", {"compare": [unchanged(key, None)], "success": [put(key, setups)]})
        begun = [(int(shard), str(body).encode("latin-1")) for shard, body in json.loads(self._range(key)[0][1])]
        # That of the first shard, by which a log is known to be begun, comes last.
        for at in reversed(range(0, len(begun), SHARDS)):
            some = begun[at:at + SHARDS]
            self._cluster.ask("/v3/kv/txn", {"compare": [unchanged(self._tail_key(shard), None) for shard, _ in some],
                                             "success": [one for shard, body in some for one in (
                                                 put(self._key(shard, 1), _packed(word, [body])), put(self._tail_key(shard), word + b"1"))]})

    # ---- reading

    def read(self, shard: int, behind: int, most: int) -> list[tuple[int, bytes]]:
        tail = self._tail(shard)
        seen, kept = self._seen.get(shard, (None, []))
        if tail is None or _last_of(tail) <= behind:
            return []
        if tail != seen or kept[0][0] > behind + 1:
            kept = self._read(shard, behind, most, tail)
        return bounded([record for record in kept if record[0] > behind][:most])

    def _read(self, shard: int, behind: int, most: int, tail: bytes) -> list[_PlacedBody]:
        """Reads the batches behind a place, and keeps the last records where the tail is reached."""
        found: list[_PlacedBody] = []
        at, last, limit = behind, _last_of(tail), _BATCHES
        while at < last and at - behind < most and (len(found) < 2 or size_of(found) < MOST_READ):
            batches = self._range(self._key(shard, at + 1), self._key(shard, _LAST_PLACE), limit)
            if not batches:
                raise LogBroken(at + 1, _MISSING)
            if found and self._begins_later(shard, batches[0], at):
                break
            for key, value in batches:
                found += self._batch(shard, (key, value), at, not found)
                at = found[-1][0]
                if at == last and value[:_WORD] == tail[:_WORD]:
                    self._seen[shard] = tail, _last_records(found)
            limit = min(2 * limit, _MOST_BATCHES) if sum(len(value) for _, value in batches) < _BYTES_READ else limit
        return found

    def _batch(self, shard: int, pair: Pair, at: int, is_first: bool) -> list[_PlacedBody]:
        """The records of a batch, which follow a place; of the first one some may stand before it, or none before the log's first one."""
        batch = _unpacked(_place_of(pair[0]), pair[1])
        if not batch or (batch[0][0] != at + 1 and not is_first) or (batch[0][0] > at + 1 and self._range(self._key(shard, 0), pair[0])):
            raise LogBroken(at + 1, _MISSING)
        return batch

    def _begins_later(self, shard: int, pair: Pair, at: int) -> bool:
        """Whether the log begins with this batch now, which leaves some behind a place out: they were deleted since what stands before was read."""
        batch = _unpacked(_place_of(pair[0]), pair[1])
        return bool(batch) and batch[0][0] > at + 1 and not self._range(self._key(shard, 0), pair[0])

    def lasts(self, shards: int) -> list[int]:
        return self._lasts(shards)[0]

    def _lasts(self, shards: int) -> tuple[list[int], int]:
        """The last places, and the cluster's revision at which they were so."""
        answer = self._cluster.ask("/v3/kv/range", self._tails)
        tails = dict(pairs(answer))
        return [_last_of(tails.get(self._tail_key(shard))) for shard in range(shards)], int(answer["header"]["revision"])

    def news(self, known: Sequence[int], patience: float) -> list[int]:
        end = time.monotonic() + patience
        while True:
            lasts, revision = self._lasts(len(known))
            if lasts != list(known) or time.monotonic() >= end:
                return lasts
            self._hearing.heard({**self._tails, "start_revision": revision + 1}, end)

    # ---- what belongs to records, and what is deleted

    def _kept_key(self, shard: int, place: int, number: int = 0) -> bytes:
        return b"%s/kept/%04x/%016x/%08x" % (self._prefix, shard, place, number)

    def keep(self, shard: int, place: int, number: int, part: bytes) -> None:
        self._cluster.ask("/v3/kv/txn", {"success": [put(self._kept_key(shard, place, number), part)]})

    def kept(self, shard: int, place: int, number: int) -> Optional[bytes]:
        found = self._range(self._kept_key(shard, place, number))
        return found[0][1] if found else None

    def trim(self, shard: int, place: int) -> None:
        by = time.monotonic() + self._patience
        while (answer := self._try_trim(shard, place, by)).get("succeeded") is None:
            if time.monotonic() > by:
                raise LogAway("the log: other nodes were always sooner")
        self._seen.pop(shard, None)
        # Without this the cluster keeps what was deleted until it compacts by itself.
        with suppress(LogAway):
            self._cluster.ask("/v3/kv/compaction", {"revision": answer["header"]["revision"]})

    def _try_trim(self, shard: int, place: int, by: float) -> dict[str, Any]:
        """Deletes what stands before a place, where the batch that has it is this still. What was written together is cut in two."""
        found = self._range(self._key(shard, place), self._key(shard, _LAST_PLACE))
        if not found:
            raise LogBroken(place, _MISSING)
        key, value = found[0]
        batch = _unpacked(_place_of(key), value)
        left = [body for at, body in batch if at >= place]
        cut = [put(key, _packed(value[:_WORD], left))] if len(left) < len(batch) else []
        return self._cluster.ask("/v3/kv/txn", {"compare": [unchanged(key, value)], "success": [
            delete(self._key(shard, 0), key), delete(self._kept_key(shard, 0), self._kept_key(shard, place)), *cut]}, by)

    def close(self) -> None:
        self._cluster.close()
        self._hearing.close()


def _last_records(records: list[_PlacedBody]) -> list[_PlacedBody]:
    """The last of some records, as many as are kept; one at least."""
    size, first = 0, len(records)
    while first > 0 and len(records) - first < _KEPT and (size == 0 or size + len(records[first - 1][1]) <= _BYTES_KEPT):
        first -= 1
        size += len(records[first][1]) + 1
    return records[first:]


def _parts(records: Sequence[tuple[int, bytes]]) -> Iterator[list[int]]:
    """The indices of records in parts that a transaction takes."""
    part: list[int] = []
    size, shards = 0, set[int]()
    for index, (shard, body) in enumerate(records):
        if part and (size + len(body) > BYTES or len(shards | {shard}) > SHARDS):
            yield part
            part, size, shards = [], 0, set()
        part.append(index)
        size += len(body)
        shards.add(shard)
    if part:
        yield part
