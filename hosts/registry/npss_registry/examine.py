"""What a node examines of a record before anything is decided by it."""

from typing import Optional

from npss import Tables, Unassigned

from npss_registry import records
from npss_registry.errors import LogBroken
from npss_registry.records import Claim, Forget, RegistryRecord, Setup, Snapshot


class Examiner:
    """Examines the records of a shard, whatever they will come to. LogBroken of one that no node wrote."""

    def __init__(self, setup: Setup, shard: int, tables: Tables):
        self.setup = setup
        self.shard = shard
        # By which keys are made anew.
        self.tables = tables
        self._form_byte = records.form_byte(setup.form)
        self._layout = 2 if setup.name else 1

    def record(self, place: int, body: bytes, first: bool) -> RegistryRecord:
        """The record of bytes at a place. `first` is whether it is the shard's first one."""
        record = records.read(place, body, self._layout, self.setup.caseless)
        if isinstance(record, Claim) and not first:
            self.claim(place, record)
        elif first or isinstance(record, (Setup, Snapshot)):
            self._check_setup(place, record, first)
        elif isinstance(record, Forget):
            self._check_shard(place, self._made(self.setup.caseless, record.string))
        return record

    def _check_setup(self, place: int, record: RegistryRecord, first: bool) -> None:
        setup = record.setup if isinstance(record, Snapshot) else record
        if not isinstance(setup, Setup):
            raise LogBroken(place, "no setup stands before it")
        if not first and not isinstance(record, Snapshot):
            raise LogBroken(place, "a second setup")
        if setup != self.setup:
            raise LogBroken(place, "another setup than the store's")

    def claim(self, place: int, claim: Claim) -> None:
        """Examines a claim."""
        if claim.message[:1] != self._form_byte:
            raise LogBroken(place, "its message is of another form")
        most = self.setup.most_bytes
        if len(claim.message) > most and len(claim.string.encode()) > most:
            raise LogBroken(place, f"its string has more than {most:,} bytes")
        # The key of a string with code points that this version lacks can't be made: the record's own is gone by.
        if self._made(False, claim.string) not in (None, claim.key):
            raise LogBroken(place, "its key is not that of its string")
        self._check_caseless(place, claim)
        self._check_shard(place, claim.unique)

    def _check_caseless(self, place: int, claim: Claim) -> None:
        if (claim.caseless is None) is self.setup.caseless:
            raise LogBroken(place, f"it has {'no' if self.setup.caseless else 'a'} caseless key")
        if claim.caseless is None:
            return
        made = self._made(True, claim.string)
        if made is None:  # this version lacks a code point of the string; but each caseless key is its own
            made = self._made(True, claim.caseless)
        if made not in (None, claim.caseless):
            raise LogBroken(place, "its caseless key is not that of its string")

    def _check_shard(self, place: int, unique: Optional[str]) -> None:
        if unique is not None and self.setup.shards > 1:
            shard = records.shard_of(unique, self.setup.shards)
            if shard != self.shard:
                raise LogBroken(place, f"it stands in shard {self.shard} and belongs to shard {shard}")

    def _made(self, caseless: bool, string: str) -> Optional[str]:
        """The key of a string, or its caseless one; None where this version lacks a code point of it."""
        try:
            return self.tables.key(string, self.setup.form, caseless)
        except Unassigned:
            return None
