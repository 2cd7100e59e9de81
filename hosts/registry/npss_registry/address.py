"""The address of a store's log: it is told, and changed where members of a cluster or a password have."""

from npss_registry import records, snapshots
from npss_registry.errors import Differs, LogAway, LogBroken, LogTrimmed, StoreError
from npss_registry.logs import Log, check_name, located, open_log, shown, whole
from npss_registry.logs.names import password_in, scheme_of
from npss_registry.registry import setup_of
from npss_registry.store import Store


def address_of(path: str) -> str:
    """The log of a store as it was named, without a password."""
    store = Store(path, read_only=True)
    try:
        name: str = store.named_log
        return shown(name) if scheme_of(name) and password_in(name) is not None else name
    finally:
        store.close()


def change_address(path: str, name: str) -> None:
    """Goes on over the same log by another name, once all that the store has read of each shard stands there.

    Differs where it is another registry's log, LogBroken where it isn't the one that was read, StoreError where `relog` has begun
    or the store is one of an earlier version that hasn't been opened since.
    """
    check_name(name)
    store = Store(path)
    try:
        if store.moving is not None:
            raise StoreError(f"{path}: `npss-registry relog` into {shown(store.moving)} was begun and has not ended; call it again")
        log = open_log(located(name, store.folder))
        try:
            _check(store, log, name)
        finally:
            log.close()
        store.rename_log(name)
    finally:
        store.close()


def _check(store: Store, log: Log, name: str) -> None:
    """The log is the one that the store has read."""
    found = setup_of(log, 0)
    if found is None:
        raise LogAway(f"{shown(name)}: nothing stands there; to begin a new log see `npss-registry relog`")
    if found != store.setup:
        raise Differs(f"{shown(name)} is another registry's log; see `npss-registry relog`")
    for shard, place in enumerate(store.places()):
        if place:
            _check_shard(store, log, shard, place)


def _check_shard(store: Store, log: Log, shard: int, place: int) -> None:
    """All records of a shard up to a place are those that the store has read."""
    wanted = store.shard(shard).sum
    if wanted is None:
        raise StoreError(f"{store.path}: it is one of an earlier version; call `npss-registry status` on it first")
    begin = snapshots.trimmed_to(log, shard)
    if begin is not None and begin > place:
        raise LogTrimmed(place, begin)
    total = records.NOTHING_READ
    for at, body in whole(log, shard):
        total = snapshots.load(log, shard, at).snapshot.past if at == begin else records.sum_behind(total, at, records.sum_of(body))
        if at >= place:
            break
    if total != wanted:
        raise LogBroken(place, f"shard {shard} of this log isn't the one that the store has read; see `npss-registry relog`")
