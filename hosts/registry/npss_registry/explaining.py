"""Why two names are the same or not: what a version says of each of their code points, and where their keys part."""

from bisect import bisect_right
from dataclasses import dataclass
from typing import Optional

from npss import Tables, Unassigned

from npss_registry.records import Setup
from npss_registry.store import Version


# So many code points of a name are told of.
MOST_ROWS = 1000


class Names:
    """The names of code points, as UnicodeData.txt has them."""

    def __init__(self, version: Version):
        self._single: dict[int, str] = {}
        self._firsts: list[int] = []
        self._ranges: list[tuple[int, str]] = []
        first = 0
        for line in version.data.decode(errors="replace").splitlines():
            code, _, rest = line.partition(";")
            name = rest.partition(";")[0]
            if not code or code.startswith("#"):
                continue
            if name.endswith(", First>"):
                first = int(code, 16)
            elif name.endswith(", Last>"):
                self._firsts.append(first)
                self._ranges.append((int(code, 16), f"{name.removesuffix(', Last>')}>"))
            else:
                self._single[int(code, 16)] = name

    def name(self, code: int) -> str:
        """The name of a code point, or of its range; empty where it isn't assigned."""
        found = self._single.get(code)
        if found is not None:
            return found
        at = bisect_right(self._firsts, code) - 1
        return self._ranges[at][1] if at >= 0 and code <= self._ranges[at][0] else ""


@dataclass(frozen=True)
class Row:
    """What a version says of one code point of a name; what it folds to in a caseless log alone."""

    code: int
    name: str
    assigned: bool
    combining_class: int
    mapping: Optional[str]
    decomposition: str
    folding: str


@dataclass(frozen=True)
class Side:
    """A name, its first code points one by one, and its unique key; none where a code point isn't assigned."""

    text: str
    rows: list[Row]
    key: Optional[str]
    refusal: Optional[Unassigned]


@dataclass(frozen=True)
class Verdict:
    """Two names beside one another. `place` is the first code point, from 0, where their keys differ."""

    left: Side
    right: Side
    same: Optional[bool]
    place: Optional[int]


def hex_of(code: int) -> str:
    return f"{code:04X}"


def _others(character: str, mapped: Optional[str]) -> str:
    """The code points of what is told of a character, where that isn't the character itself."""
    return " ".join(hex_of(ord(one)) for one in mapped) if mapped is not None and mapped != character else ""


def side(tables: Tables, names: Names, setup: Setup, text: str) -> Side:
    """A name as the page shows it."""
    rows = []
    for character in text[:MOST_ROWS]:
        facts = tables.property(character)
        decomposition = tables.decomposition(character, setup.form in ("nfkd", "nfkc"))
        folding = tables.folding(character) if setup.caseless else None
        rows.append(Row(ord(character), names.name(ord(character)), facts.assigned, facts.combining_class, facts.mapping,
                        _others(character, decomposition), _others(character, folding)))
    try:
        return Side(text, rows, tables.key(text, setup.form, setup.caseless), None)
    except Unassigned as error:
        return Side(text, rows, None, error)


def compared(tables: Tables, names: Names, setup: Setup, left: str, right: str) -> Verdict:
    """Why two names are the same or not, by what the log was set up with."""
    one, other = side(tables, names, setup, left), side(tables, names, setup, right)
    if one.key is None or other.key is None:
        return Verdict(one, other, None, None)
    if one.key == other.key:
        return Verdict(one, other, True, None)
    place = next((at for at, (a, b) in enumerate(zip(one.key, other.key)) if a != b), min(len(one.key), len(other.key)))
    return Verdict(one, other, False, place)
