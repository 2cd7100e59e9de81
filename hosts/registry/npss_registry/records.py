"""What stands in a log: the setup of a shard, claims, forgets, snapshots and an end, and how they are spelled.

Records have two layouts. In the second one 16 random bytes stand in each, so that no record comes twice; the setup tells
the log's name. A log that begins with a setup of the first layout may have records of both.
"""

import base64
import hashlib
import json
import secrets
from collections.abc import Iterable
from dataclasses import dataclass, field, replace
from typing import NamedTuple, Optional, Union

from npss import Form

from npss_registry.errors import LogBroken

# A message is the form's byte, the length of the string in four bytes, the string, and its key likewise.
_LENGTH = 4
# So many random bytes stand in a record, and so many characters tell them.
_NONCE, _SPELLED_NONCE = 16, 24
# A string may have so many bytes, whatever a registry allows.
MOST_BYTES = 65_536
# The running sum of a shard of which nothing was read.
NOTHING_READ = bytes(32)
# The number of a setup of the second layout, and that of a snapshot: of another log, and of a caseless one, which a program that
# knows of no caseless keys has to refuse.
_SETUP, _SNAPSHOT = (2, 4), (3, 5)
_FORM_BYTES = {"nfd": b"D", "nfc": b"C", "nfkd": b"d", "nfkc": b"c"}
FORMS: tuple[Form, ...] = ("nfc", "nfd", "nfkc", "nfkd")
_ENCODER, _DECODER = json.JSONEncoder(ensure_ascii=False, separators=(",", ":")), json.JSONDecoder()


@dataclass(frozen=True)
class Setup:
    """What all stores of a log share. It is each shard's first record.

    A name has at most `most_bytes` bytes of UTF-8; of a log that tells none, as many as a node takes. In a `caseless` log two
    names are one where their caseless keys are equal, else where their keys are.

    `name` is random, and no other log has it; a log whose setup is of the first layout has none. Where the log goes on
    from an earlier one, `before` is the name of that, and `kept` how many claims were carried over from it: they stand
    right behind the setup.
    """

    form: Form
    room: int
    shards: int
    equivalents: bool
    name: str = ""
    before: str = field(default="", compare=False)
    kept: int = field(default=0, compare=False)
    most_bytes: int = MOST_BYTES
    caseless: bool = False


class Claim(NamedTuple):
    """Somebody claims a string. The message of a node holds the string and its key; of a caseless log the record holds its caseless key too."""

    message: bytes
    owner: str
    string: str
    key: str
    caseless: Optional[str] = None

    @property
    def unique(self) -> str:
        """Its unique key, by which names are one: its caseless key in a caseless log, else its key."""
        return self.key if self.caseless is None else self.caseless


class Forget(NamedTuple):
    """A string is given up. `place` is that of the registration that it ends, so that a repeated one harms nothing."""

    string: str
    place: int


class End(NamedTuple):
    """The shard ends here: the registry goes on in another log, which is told to people."""

    log: str


class Snapshot(NamedTuple):
    """What stands before it may be trimmed. It tells the setup once more, so that a node can begin here."""

    setup: Setup


class SnapshotSum(NamedTuple):
    """What was registered at a snapshot's place: how many names, their sum, and the running sum behind that record."""

    place: int
    names: int
    sum: bytes
    past: bytes


class Name(NamedTuple):
    """A registered name, as the log alone has it, with the place at which it was registered, and its caseless key in a caseless log."""

    place: int
    string: str
    key: str
    owner: str
    caseless: Optional[str] = None


RegistryRecord = Union[Setup, Claim, Forget, End, Snapshot, SnapshotSum]


def form_byte(form: Form) -> bytes:
    """The byte with which the messages of a form begin."""
    return _FORM_BYTES[form]


def message(form: Form, string: str, key: str) -> bytes:
    """The message of a string and its key, as a node spells it (docs/FORMATS.md, "Message")."""
    parts = (string.encode(), key.encode())
    return form_byte(form) + b"".join(len(part).to_bytes(_LENGTH, "big") + part for part in parts)


def claim_of(message: bytes, owner: str, caseless: Optional[str] = None) -> Claim:
    """The claim of a message, in a caseless log with its caseless key. ValueError where the message doesn't end with its key."""
    at = 1 + _LENGTH
    end = at + int.from_bytes(message[1:at], "big")
    behind = end + _LENGTH
    if len(message) != behind + int.from_bytes(message[end:behind], "big"):
        raise ValueError("the message doesn't end with its key")
    return Claim(message, owner, message[at:end].decode(), message[behind:].decode(), caseless)


def form_of(name: object) -> Form:
    """The form of a name; ValueError where it is none."""
    for form in FORMS:
        if name == form:
            return form
    raise ValueError(f"{name!r} is no form")


def spelled(record: RegistryRecord) -> bytes:
    """The bytes of a record, JSON that a person can read. No two calls answer the same bytes."""
    if isinstance(record, Claim):
        fields: dict[str, object] = {"claim": base64.b64encode(record.message).decode(), "owner": record.owner}
        if record.caseless is not None:
            fields["caseless"] = record.caseless
    elif isinstance(record, Forget):
        fields = {"forget": record.string, "place": record.place}
    elif isinstance(record, End):
        fields = {"end": record.log}
    elif isinstance(record, SnapshotSum):
        fields = {"snapshot": record.place, "names": record.names, "sum": record.sum.hex(), "past": record.past.hex()}
    elif isinstance(record, Snapshot):
        fields = {**_fields_of(record.setup), "setup": _SNAPSHOT[record.setup.caseless]}
    else:
        fields = {**_fields_of(record), "setup": _SETUP[record.caseless], "kept": record.kept}
    fields["nonce"] = base64.b64encode(secrets.token_bytes(_NONCE)).decode()
    return _ENCODER.encode(fields).encode()


def _fields_of(setup: Setup) -> dict[str, object]:
    """What a setup tells, and a snapshot once more."""
    fields: dict[str, object] = {"setup": 0, "form": setup.form, "room": setup.room, "shards": setup.shards, "equivalents": setup.equivalents,
                                 "name": setup.name, "before": setup.before, "most_bytes": setup.most_bytes}
    return {**fields, "caseless": True} if setup.caseless else fields


def read(place: int, body: bytes, layout: int = 1, caseless: bool = False) -> RegistryRecord:
    """The record of bytes at a place of a log that begins with a setup of a layout. LogBroken where they are none.

    In a `caseless` log a claim without its caseless key is none. In another log what stands there of it isn't read.
    """
    try:
        text = body.decode()
        fields, end = _DECODER.raw_decode(text)
        if end != len(text):
            raise ValueError("more stands behind it")
        if layout != 1:
            _check_nonce(fields)
        return _record(fields, caseless)
    except (KeyError, RecursionError, TypeError, ValueError) as error:
        raise LogBroken(place, f"what stands there is no record: {error!r}") from error


def _record(fields: dict[str, object], caseless: bool) -> RegistryRecord:
    """The record of what was spelled. KeyError, TypeError or ValueError where it is none."""
    if "claim" in fields:
        key = _text(fields["caseless"]) if caseless else None
        return claim_of(base64.b64decode(_text(fields["claim"]), validate=True), _text(fields["owner"]), key)
    if "forget" in fields:
        return Forget(_text(fields["forget"]), _number(fields["place"]))
    if "end" in fields:
        _check_nonce(fields)
        return End(_text(fields["end"]))
    if "snapshot" in fields:
        _check_nonce(fields)
        return SnapshotSum(_number(fields["snapshot"]), _number(fields["names"]), _sum(fields["sum"]), _sum(fields["past"]))
    return _setup(fields)


def _setup(fields: dict[str, object]) -> Union[Setup, Snapshot]:
    if not isinstance(fields["equivalents"], bool):
        raise TypeError(f"{fields['equivalents']!r} is neither true nor false")
    first = Setup(form_of(fields["form"]), _number(fields["room"]), _number(fields["shards"]), fields["equivalents"])
    if fields["setup"] == 1:
        return first
    caseless = _is_caseless(fields, first)
    if fields["setup"] not in (_SETUP[caseless], _SNAPSHOT[caseless]):
        raise ValueError("the setup is of another layout")
    _check_nonce(fields)
    most = _number(fields.get("most_bytes", MOST_BYTES))
    if not 0 < most <= MOST_BYTES:
        raise ValueError(f"a name has 1 to {MOST_BYTES} bytes at most, not {most}")
    found = replace(first, name=_text(fields["name"]), before=_text(fields["before"]), most_bytes=most, caseless=caseless)
    if fields["setup"] == _SNAPSHOT[caseless]:  # of a log whose setup is of the first layout too, which has no name
        return Snapshot(found)
    if not found.name:
        raise ValueError("the log's name is empty")
    return replace(found, kept=_number(fields["kept"]))


def _is_caseless(fields: dict[str, object], first: Setup) -> bool:
    """Whether a setup is that of a caseless log, which refuses equivalents."""
    found = fields.get("caseless", False)
    if not isinstance(found, bool):
        raise TypeError(f"{found!r} is neither true nor false")
    if found and first.equivalents:
        raise ValueError("a caseless log allows no equivalents")
    return found


def _check_nonce(fields: dict[str, object]) -> None:
    """Random bytes stand in a record. Nothing is read from them."""
    nonce = fields["nonce"]
    if not isinstance(nonce, str) or len(nonce) != _SPELLED_NONCE:
        raise ValueError("its random bytes are not whole")


def _text(value: object) -> str:
    """A text of a record, which a store can hold."""
    if not isinstance(value, str):
        raise TypeError(f"{value!r} is no text")
    value.encode()
    return value


def _number(value: object) -> int:
    """A number of a record, which a store can hold."""
    if not isinstance(value, int) or isinstance(value, bool) or not 0 <= value < 1 << 63:
        raise ValueError(f"{value!r} is no number")
    return value


def _sum(value: object) -> bytes:
    """A sum of a record."""
    found = bytes.fromhex(_text(value))
    if len(found) != len(NOTHING_READ):
        raise ValueError(f"{value!r} is no sum")
    return found


def sum_of(body: bytes) -> bytes:
    """The sum by which a node knows its last record again."""
    return hashlib.sha256(body).digest()


def sum_behind(before: bytes, place: int, last: bytes) -> bytes:
    """The running sum of a shard behind a record of a sum, from that before it: it tells all records up to here, with their places."""
    return hashlib.sha256(before + place.to_bytes(8, "big") + last).digest()


def sum_of_names(names: Iterable[Name]) -> tuple[int, bytes]:
    """How many names there are, and their sum, which tells all of them in their order."""
    count, made = 0, hashlib.sha256()
    for count, name in enumerate(names, start=1):
        parts = [text.encode() for text in name[1:] if text is not None]
        made.update(b"".join([name.place.to_bytes(8, "big"), *(len(part).to_bytes(8, "big") + part for part in parts)]))
    return count, made.digest()


def shard_of(key: str, shards: int) -> int:
    """The shard of a key, which no version changes: the first 8 bytes of its SHA-256, modulo their number."""
    return int.from_bytes(hashlib.sha256(key.encode()).digest()[:8], "big") % shards
