"""Schedules of a store's course, and the proved `npss replay` that runs them.

Node 0 of a schedule stands for the log, under the chain's last version: it accepts what is registered, in the log's order,
and forgets what is given up. Node 1 is the store. What doesn't fit one schedule is cut by strings: a node keeps each string
whatever it keeps besides, so a part has all that happened to its strings, and nothing of the others.
"""

import os
import subprocess
from collections.abc import Collection, Iterator, Sequence
from dataclasses import dataclass, field
from typing import Optional

from npss import Form

from npss_registry.course import Move, Stretch
from npss_registry.errors import NoProgram, StoreError
from npss_registry.ledger import Registered

# What a schedule may have (docs/FORMATS.md, "Schedule").
MOST_EVENTS = 1_000_000
MOST_BYTES = 16_777_216
# Room for the first two lines of a schedule, and for the longest line that is no string's.
_HEAD = 1024
_LINE = 32


@dataclass(frozen=True)
class Limits:
    """How many events and bytes a schedule has at most."""

    events: int = MOST_EVENTS
    size: int = MOST_BYTES


@dataclass
class Schedule:
    """A schedule as it is written, with the reply that each event has to have."""

    lines: list[str] = field(default_factory=list)
    replies: list[str] = field(default_factory=list)
    messages: dict[int, int] = field(default_factory=dict)

    def add(self, line: str, reply: str) -> None:
        self.lines.append(line)
        self.replies.append(reply)

    def accept(self, one: Registered) -> None:
        """The log's node registers a string, and tells it in a message."""
        self.messages[one.number] = len(self.messages)
        self.add(_line("accept 0", one.string), f"kept {self.messages[one.number]}")

    def move(self, move: Move) -> None:
        one = move.one
        if one is None:
            self.add(f"restart 1 {move.version}" if move.what == "restart" else f"{move.what} 1", move.reply)
        elif move.what == "accept":
            self.accept(one)
        elif move.what == "deliver":
            self.add(f"deliver 1 {self.messages[one.number]}", move.reply)
        else:
            self.add(_line("forget 0" if move.what == "end" else "forget 1", one.string), move.reply)


def codes(string: str) -> str:
    """A string as a schedule spells it."""
    return " ".join(f"{ord(character):04X}" for character in string)


def _line(words: str, string: str) -> str:
    return f"{words} {codes(string)}" if string else words


def scheduled(stretch: Stretch, strings: Collection[str]) -> Schedule:
    """The schedule of what happened to some strings."""
    schedule = Schedule()
    for one in (*stretch.held, *stretch.others):
        if one.string in strings:
            schedule.accept(one)
    for one in stretch.held:
        if one.string in strings:
            schedule.add(f"deliver 1 {schedule.messages[one.number]}", "kept")
    schedule.add("save 1", "saved")
    for move in stretch.moves:
        if move.one is None or move.one.string in strings:
            schedule.move(move)
    return schedule


def parts(stretch: Stretch, strings: Collection[str], limits: Limits) -> Iterator[set[str]]:
    """Some strings, by parts whose schedules fit. Of a stretch of no strings one empty part."""
    rest = 1 + sum(move.one is None for move in stretch.moves)
    events, size = _weights(stretch, strings)
    part: set[str] = set()
    part_events, part_size = rest, _HEAD + rest * _LINE
    for string, weight in events.items():
        if part and (part_events + weight > limits.events or part_size + size[string] > limits.size):
            yield part
            part, part_events, part_size = set(), rest, _HEAD + rest * _LINE
        part.add(string)
        part_events += weight
        part_size += size[string]
    yield part


def _weights(stretch: Stretch, strings: Collection[str]) -> tuple[dict[str, int], dict[str, int]]:
    """How many events and bytes each string has in a schedule."""
    events: dict[str, int] = {}
    size: dict[str, int] = {}

    def weigh(string: str, lines: int, texts: int) -> None:
        if string in strings:
            events[string] = events.get(string, 0) + lines
            size[string] = size.get(string, 0) + lines * _LINE + texts * len(codes(string))

    for one in stretch.held:
        weigh(one.string, 2, 1)
    for one in stretch.others:
        weigh(one.string, 1, 1)
    for move in stretch.moves:
        if move.one is not None:
            weigh(move.one.string, 1, 0 if move.what == "deliver" else 1)
    return events, size


@dataclass(frozen=True)
class Replay:
    """The program npss, over the files of a chain of versions that stand in a folder."""

    program: str
    folder: str
    form: Form
    room: int
    files: Sequence[str]

    def run(self, schedule: Schedule, version: int) -> tuple[list[str], list[tuple[str, str]]]:
        """The reply to each event, and what node 1 keeps in the end. It begins under the version at a place of the chain."""
        path = os.path.join(self.folder, "schedule")
        with open(path, "w", encoding="ascii") as file:
            file.write(f"room {self.room}\nnodes {len(self.files) // 2 - 1} {version}\n")
            file.writelines(line + "\n" for line in schedule.lines)
        try:
            ran = subprocess.run([self.program, "replay", "--form", self.form, path, *self.files],
                                 stdout=subprocess.PIPE, stderr=subprocess.PIPE, stdin=subprocess.DEVNULL, check=False)
        except OSError as error:
            raise NoProgram(f"the program {self.program} can't be run: {error.strerror}; name it by --program") from error
        if ran.returncode:
            raise StoreError(f"{self.program} replay: {ran.stderr.decode(errors='replace').strip()}")
        lines = ran.stdout.decode("ascii").splitlines()
        replies = [_reply(number, line) for number, line in enumerate(lines[:len(schedule.lines)])]
        return replies, _entries(lines[len(schedule.lines):])


def _reply(number: int, line: str) -> str:
    """A line of a report, without its number."""
    return line.removeprefix(f"{number} ")


def _entries(lines: Sequence[str]) -> list[tuple[str, str]]:
    """What node 1 keeps in the end, by a report."""
    at = next(number for number, line in enumerate(lines) if line.startswith("node 1 "))
    spelled = (line.removeprefix("entry ").partition(" / ") for line in lines[at + 1:])
    return [(_text(string), _text(key)) for string, _, key in spelled]


def _text(spelled: str) -> str:
    return "" if spelled == "-" else "".join(chr(int(code, 16)) for code in spelled.split(" "))


def first_apart(found: Sequence[tuple[str, str]], wanted: Sequence[tuple[str, str]]) -> Optional[str]:
    """Where two lists of entries differ first; None where they don't."""
    if found == wanted:
        return None
    at = next((i for i, (one, other) in enumerate(zip(found, wanted)) if one != other), min(len(found), len(wanted)))
    return f"{len(found)} entries for {len(wanted)}; they differ from entry {at} on: {found[at:at + 1]} for {wanted[at:at + 1]}"
