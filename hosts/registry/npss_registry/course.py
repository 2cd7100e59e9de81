"""The course of a store's node: what the journal says that it did, and what it has to answer and to keep by it."""

from collections.abc import Sequence
from dataclasses import dataclass, field
from typing import NamedTuple, Optional

from npss_registry.ledger import Ledger, Registered, Step
from npss_registry.store import Event, Registration

KINDS = ("save", "restart", "upgrade", "taken")


class Move(NamedTuple):
    """A move of the log's node or of the store's: `accept` and `end` are the log's, the others the store's.

    `one` is the registration that a move is about; `reply` what it has to be answered; `version` that of an upgrade or a restart.
    """

    what: str
    reply: str
    one: Optional[Registered] = None
    version: int = 0


@dataclass
class Judged:
    """A store of a shard, as it has to be held against its log."""

    rows: dict[int, Registration]
    journal: list[Event]
    place: int
    # The places in the whole chain of the store's own versions, by their numbers.
    chain: list[int]
    base_version: int
    base_place: int
    # The strings that its journal began with, in the order in which its node kept them.
    base: list[str]


@dataclass
class Stretch:
    """A part of a course, from its beginning or from a save on to another save or to its end."""

    version: int
    # What the store's node keeps at the beginning, in the order in which it was kept, and what else the log registers then.
    held: list[Registered]
    others: list[Registered]
    moves: list[Move] = field(default_factory=list)
    end: list[Registered] = field(default_factory=list)


class Course:
    """Follows the journal of a store. `most` is how many moves a stretch has at most before its next save ends it."""

    def __init__(self, store: Judged, ledger: Ledger, most: int):
        self._store, self._ledger, self._most = store, ledger, most
        self._by_place = {one.place: one for one in ledger.all}
        self._active = ledger.active(store.base_place)
        self._held = {string: self._active[string] for string in store.base}
        self._place = store.base_place
        self._version = store.chain[store.base_version]
        self.saved, self.saved_place = dict(self._held), self._place
        self.stretches = [self._begun()]
        for event in store.journal:
            self._event(event)
        self._advance(store.place)
        self._end()

    @property
    def held(self) -> list[Registered]:
        """What the node keeps in the end."""
        return list(self._held.values())

    def _begun(self) -> Stretch:
        others = [one for string, one in self._active.items() if string not in self._held]
        return Stretch(self._version, list(self._held.values()), others)

    def _end(self) -> None:
        self.stretches[-1].end = list(self._held.values())

    def _move(self, what: str, reply: str, one: Optional[Registered] = None, version: int = 0) -> None:
        self.stretches[-1].moves.append(Move(what, reply, one, version))

    def _event(self, event: Event) -> None:
        """One event of the journal, with the records before it."""
        version = self._store.chain[event.version]
        if event.event == "taken":
            self._deliver(self._by_place[event.place], "kept")
            return
        self._advance(event.place)
        if event.event == "upgrade":
            self._upgrade(version)
        elif event.event == "save":
            self._save()
        else:
            self._move("restart", "restarted", version=version)
            self._version = version
            self._held = dict(self.saved)
            self._apply(self._ledger.between(self.saved_place, self._place))

    def _save(self) -> None:
        self._move("save", "saved")
        self.saved, self.saved_place = dict(self._held), self._place
        if len(self.stretches[-1].moves) >= self._most:
            self._end()
            self.stretches.append(self._begun())

    def _upgrade(self, to: int) -> None:
        while self._version < to:
            self._version += 1
            self._move("upgrade", f"version {self._version}", version=self._version)

    def _advance(self, place: int) -> None:
        """The records up to a place: the log's node goes on, and the store's behind it."""
        if place <= self._place:
            return
        steps = self._ledger.between(self._place, place)
        for step in steps:
            self._log_step(step)
        self._place = place
        self._apply(steps)

    def _log_step(self, step: Step) -> None:
        self._move("accept" if step.begins else "end", "kept" if step.begins else "forgotten", step.one)
        if step.begins:
            self._active[step.one.string] = step.one
        else:
            self._active.pop(step.one.string, None)

    def _apply(self, steps: Sequence[Step]) -> None:
        for step in steps:
            if step.begins:
                row = self._store.rows.get(step.one.place)
                self._deliver(step.one, row.refused if row and row.refused else "kept")
            else:
                kept = self._held.pop(step.one.string, None)
                self._move("forget", "not kept" if kept is None else "forgotten", step.one)

    def _deliver(self, one: Registered, reply: str) -> None:
        self._move("deliver", reply, one)
        if reply == "kept":
            self._held[one.string] = one
