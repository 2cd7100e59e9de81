"""A shard: the registered strings of its log, and the proved node that holds those that its version assigns."""

from collections.abc import Iterator, Sequence
from typing import NamedTuple, Optional, Union

from npss import Accepted, Node, Refused, Tables, Unassigned

from npss_registry import records, snapshots
from npss_registry.errors import LogBroken, LogEnded, LogTrimmed, NotOneChain, StoreError
from npss_registry.examine import Examiner
from npss_registry.logs import PIECE, Log, may_go_on, record_at
from npss_registry.records import Claim, End, Forget, Name, RegistryRecord, Snapshot, SnapshotSum
from npss_registry.store import Event, Registration, Store

# An image is saved when so many records were read behind the last one.
SAVE_AFTER = 4096


class Outcome(NamedTuple):
    """What became of a record: `registered`, `taken`, `full`, `forgotten` or `not registered`.

    `holder` is the registration that has the string, or one whose unique key is equal; it is `new` where this record made it.
    """

    what: str
    holder: Optional[Registration] = None
    new: bool = False


def lacks(error: Unassigned) -> str:
    """What a node answered to a string with a code point that its version lacks."""
    return f"unassigned {error.code:04X} at byte {error.place}"


class Shard:
    """The shard of a number, worked on by one thread at a time."""

    def __init__(self, number: int, store: Store, log: Log, tables: Tables, version: int):
        self.number = number
        self._store = store
        self._log = log
        self._version = version
        self._examiner = Examiner(store.setup, number, tables)
        row = store.shard(number)
        self.place = row.place
        self._base_place = row.base_place
        self._behind = 0
        self._count = store.count(number)
        self._last, self._sum = row.last, row.sum or records.NOTHING_READ
        # Whether the log may have more behind what was read last.
        self.more = False
        # Behind which record the shard ends, and where the registry goes on.
        self.end: Optional[tuple[int, str]] = None
        # What was registered at the log's first record, where that is a snapshot and nothing was read so far.
        self._begins: Optional[snapshots.Kept] = None
        # The running sums that a store of an earlier layout has not yet: that of the place, and that of the image's.
        self._established: Optional[tuple[bytes, bytes]] = None
        try:
            self.node = Node.restore(tables, row.image, store.setup.form, store.setup.room)
        except Refused as error:
            raise StoreError(f"{store.path}: shard {number}: the image is damaged: {type(error).__name__}: {error}") from error
        self._check_last(record_at(log, number, self.place))
        if row.sum is None or row.image_sum is None:
            self._establish(row.image_place)
        else:
            self._redo(row.image_place, row.image_sum)

    def _check_last(self, found: Optional[bytes]) -> None:
        """A log that lost its tail, or another log, is never read on."""
        if self.place and (found is None or records.sum_of(found) != self._last):
            first = snapshots.trimmed_to(self._log, self.number) if found is None else None
            if first is not None and first > self.place:
                raise LogTrimmed(self.place, first)
            raise LogBroken(self.place, "the record that this node read last is "
                            + ("missing" if found is None else "another one") + "; see `npss-registry relog`")

    def _read_again(self, at: int) -> Iterator[tuple[int, bytes]]:
        """The records behind a place, up to that where the store stands."""
        while at < self.place:
            piece = self._log.read(self.number, at, PIECE)
            if not piece:
                raise LogBroken(at, "what stood behind it is missing")
            yield from (one for one in piece if one[0] <= self.place)
            at = piece[-1][0]

    def _redo(self, at: int, total: bytes) -> None:
        """Takes what stands between the image's place and the one where the store stands, whose running sum is known."""
        for place, body in self._read_again(at):
            record = self._record(place, body, first=total == records.NOTHING_READ)
            total = records.sum_behind(total, place, records.sum_of(body))
            self._redo_one(place, record)
        if total != self._sum:
            raise LogBroken(self.place, "what this node read before it was another one; see `npss-registry relog`")

    def _establish(self, image_place: int) -> None:
        """Makes the running sums of a store that has none by reading the log once more from its beginning.

        Since no sum tells that this is what was read then, each record is held against what the store made of it.
        """
        total = image_total = records.NOTHING_READ
        made = ended = 0
        for place, body in self._read_again(0):
            record = self._record(place, body, first=total == records.NOTHING_READ)
            total = records.sum_behind(total, place, records.sum_of(body))
            image_total = total if place <= image_place else image_total
            row = self._store.at(self.number, record.place if isinstance(record, Forget) else place)
            if isinstance(record, Forget):
                ended += row is not None and row.ended == place
            elif row is not None:
                if not isinstance(record, Claim) or self._claim_made(row) != record:
                    raise LogBroken(place, f"the store has {row.string!r} of {row.owner!r} from it; see `npss-registry relog`")
                made += 1
            if place > image_place:
                self._redo_one(place, record)
        if (made, ended) != self._store.counts(self.number):
            raise LogBroken(self.place, "the store has registrations and ends that don't stand before it; see `npss-registry relog`")
        self._sum = total
        self._established = total, image_total

    def _record(self, place: int, body: bytes, first: bool = False) -> RegistryRecord:
        """The record of bytes at a place, which was examined."""
        return self._examiner.record(place, body, first)

    def _redo_one(self, place: int, record: RegistryRecord) -> None:
        if isinstance(record, Claim):
            if self._store.at(self.number, place):
                self._take_claim(place, record)
        elif isinstance(record, Forget):
            named = self._store.at(self.number, record.place)
            if named and named.ended == place:
                self.node.forget(record.string)

    @property
    def count(self) -> int:
        """How many strings are registered."""
        return self._count

    @property
    def waiting(self) -> int:
        """How many bytes, about, the names have with which the shard begins once what was read is applied."""
        return 0 if self._begins is None else self._begins.size

    # ---- records

    def read(self) -> list[tuple[int, bytes]]:
        """The next records of the log, at most a piece of them, behind the one that was read last."""
        if not self.place:
            found = self._log.read(self.number, 0, PIECE)
            self.more = may_go_on(found, PIECE)
            if found and isinstance(self._record(*found[0], first=True), Snapshot):
                self._begins = snapshots.load(self._log, self.number, found[0][0])
            return found
        found = self._log.read(self.number, self.place - 1, PIECE + 1)
        self.more = may_go_on(found, PIECE + 1)
        self._check_last(found[0][1] if found and found[0][0] == self.place else None)
        return found[1:]

    def apply(self, piece: Sequence[tuple[int, bytes]]) -> dict[int, Outcome]:
        """Applies the next records up to the shard's end, within a transaction of the store, and tells what became of each."""
        outcomes: dict[int, Outcome] = {}
        for place, body in piece:
            record = self._record(place, body, first=not self.place)
            if isinstance(record, End):
                self.end = place, record.log
                break
            outcomes[place] = self._apply_one(place, record)
            self.place, self._last = place, records.sum_of(body)
            self._sum = records.sum_behind(self._sum, place, self._last)
            self._behind += 1
            if isinstance(record, Snapshot):
                self._begin_here(self._last)
        if outcomes and self._last is not None:
            self._store.applied(self.number, self.place, self._last, self._sum)
        if self._behind >= SAVE_AFTER:
            self.save()
        return outcomes

    def _begin_here(self, last: bytes) -> None:
        """Begins the journal behind a snapshot, since what stands before it may be trimmed."""
        if self._begins is not None:
            for name in self._begins.names:
                self._register(name)
            self._sum, self._begins = self._begins.snapshot.past, None
        self._store.applied(self.number, self.place, last, self._sum)
        self.begin_journal()

    def _register(self, name: Name) -> None:
        """Registers a name as the log did at its place, where the record isn't any more."""
        claim = self._claim_made(name)
        self._examiner.claim(name.place, claim)
        if self.decided(claim):
            raise LogBroken(self.place, f"what stands beside the log as registered there can't be so at once: {name.string!r} is one too many")
        self._add(name.place, claim)

    def _claim_made(self, of: Union[Name, Registration]) -> Claim:
        """The claim of which a record was."""
        return Claim(records.message(self._store.setup.form, of.string, of.key), of.owner, of.string, of.key, of.caseless)

    def _check_sum(self, place: int, snapshot: SnapshotSum) -> None:
        """What this node registered at its last snapshot is what the log tells of it."""
        if snapshot.place == self._base_place:
            rows = self._store.registered_at(self.number, snapshot.place)
            if records.sum_of_names(Name(*row[:4], row.caseless) for row in rows) != (snapshot.names, snapshot.sum):
                raise LogBroken(place, f"what this node registered at the snapshot at place {snapshot.place} isn't what the log tells of it")

    def check_end(self) -> None:
        """LogEnded where the shard was read to its end."""
        if self.end is not None:
            raise LogEnded(*self.end)

    def _apply_one(self, place: int, record: RegistryRecord) -> Outcome:
        if isinstance(record, Claim):
            return self._claim(place, record)
        if isinstance(record, Forget):
            return self._forget(place, record)
        if isinstance(record, SnapshotSum):
            self._check_sum(place, record)
        return Outcome("set up")

    def decided(self, claim: Claim) -> Optional[Outcome]:
        """What a claim comes to without being registered; None where it would be."""
        holder = self._holder(claim)
        if holder:
            return Outcome("registered" if (holder.string, holder.owner) == (claim.string, claim.owner) else "taken", holder)
        return Outcome("full") if self._count >= self._store.setup.room else None

    def _holder(self, claim: Claim) -> Optional[Registration]:
        """The registration that has a claim's string, or one whose unique key is equal where that is refused."""
        if self._store.setup.equivalents:
            return self._store.holder(self.number, claim.string, claim.unique)
        return self._store.holder_of_key(self.number, claim.unique)

    def _claim(self, place: int, claim: Claim) -> Outcome:
        return self.decided(claim) or Outcome("registered", self._add(place, claim), new=True)

    def _add(self, place: int, claim: Claim) -> Registration:
        """Registers a claim."""
        refused = self._take_claim(place, claim)
        new = Registration(place, claim.string, claim.key, claim.owner, refused, refused is not None, None, claim.caseless)
        self._store.register(self.number, new)
        self._count += 1
        return new

    def _take_claim(self, place: int, claim: Claim) -> Optional[str]:
        """Hands a claim's message to the node; why it is parked, where the node lacks a code point."""
        try:
            accepted = self.node.take(claim.message)
        except Unassigned as error:
            return lacks(error)
        except Refused as error:
            raise LogBroken(place, f"the node refuses the message: {type(error).__name__}: {error}") from error
        if accepted is not Accepted.KEPT:
            raise LogBroken(place, "the node keeps the string already")
        return None

    def _forget(self, place: int, forget: Forget) -> Outcome:
        ending = self._store.at(self.number, forget.place)
        if ending is None or ending.ended is not None or ending.string != forget.string:
            return Outcome("not registered")
        self._store.end(self.number, ending.place, place)
        self._count -= 1
        if not ending.parked:
            self.node.forget(forget.string)
        return Outcome("forgotten", ending)

    # ---- what a machine does

    def save(self) -> None:
        """Writes the node's image, within a transaction of the store."""
        self._store.save(self.number, self.node.image(), self.place, self._version)
        self._behind = 0

    def note_restart(self) -> None:
        """Writes that the node began again with its image."""
        self._write_established()
        self._store.note(self.number, Event("restart", self.place, self._version))

    def begin_journal(self) -> None:
        """Begins the journal anew, with what the node keeps."""
        self._write_established()
        self._store.begin_journal(self.number, self.node.image(), self.place, self._version)
        self._behind, self._base_place = 0, self.place

    def _write_established(self) -> None:
        if self._established is not None:
            self._store.established(self.number, *self._established)
            self._established = None

    def parked_claims(self) -> list[tuple[int, Claim]]:
        """The claims of the strings that are parked, from the log where they aren't trimmed, with their places."""
        return [(parked.place, self._claim_at(parked)) for parked in self._store.parked(self.number)]

    def _claim_at(self, parked: Registration) -> Claim:
        body = record_at(self._log, self.number, parked.place)
        if body is None and parked.place < self._base_place and parked.place < (snapshots.trimmed_to(self._log, self.number) or 0):
            return self._claim_made(parked)
        claim = None if body is None else self._record(parked.place, body)
        if not isinstance(claim, Claim):
            raise LogBroken(parked.place, "the claim of a parked string is missing")
        return claim

    def upgrade(self, tables: Tables, version: int, parked: Sequence[tuple[int, Claim]]) -> list[Registration]:
        """Goes on to a version, takes what was parked, and saves; answers what is still parked."""
        first = self.node.upgrade(tables)
        if first is not None:
            raise NotOneChain(first)
        self._version = version
        self._examiner.tables = tables
        self._store.note(self.number, Event("upgrade", self.place, version))
        for place, claim in parked:
            if claim.string in self.node:
                raise StoreError(f"{self._store.path}: it marks {claim.string!r} as parked, which its node keeps; see `npss-registry check`")
            self._examiner.claim(place, claim)
            if self._take_claim(place, claim) is None:
                self._store.unpark(self.number, place)
                self._store.note(self.number, Event("taken", place, version))
        self.save()
        return self._store.parked(self.number)
