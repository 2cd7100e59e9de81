"""What was answered in chaos, over time, and what of it can't be: written apart from the registry, whose code it doesn't call.

Each answer stands with the times between which it was made. A name is registered at some moment of its answer, and given
up at some moment of a forget whose answer said so, or that had none: then at any time behind its question, or never.
"""

import threading
from collections import defaultdict
from typing import NamedTuple, Optional

FOREVER = float("inf")


class Registered(NamedTuple):
    """A claim that was answered `registered`."""

    begun: float
    ended: float
    node: int
    name: str
    owner: str


class Forgotten(NamedTuple):
    """A forget that may have given a name up."""

    begun: float
    ended: float
    name: str


class Found(NamedTuple):
    """What a node told of a name."""

    begun: float
    ended: float
    node: int
    name: str
    holders: frozenset


class History:
    """Gathers answers of many nodes."""

    def __init__(self):
        self._lock = threading.Lock()
        self.registered, self.forgotten, self.found = [], [], []

    def add(self, node, times, asked, answer):
        """An answer between two times; None where it was lost."""
        begun, ended = times
        what = answer["what"] if answer else None
        with self._lock:
            if asked["do"] == "claim" and what == "registered":
                self.registered.append(Registered(begun, ended, node, asked["name"], asked["owner"]))
            elif asked["do"] == "forget" and what != "not registered":
                self.forgotten.append(Forgotten(begun, ended if what == "forgotten" else FOREVER, asked["name"]))
            elif asked["do"] == "find" and what == "found":
                self.found.append(Found(begun, ended, node, asked["name"], frozenset(map(tuple, answer["holders"]))))

    def names(self):
        """All names of which something was answered."""
        return sorted({one.name for answers in (self.registered, self.found) for one in answers})

    def violations(self, keys, equivalents, final):
        """What can't be: a line for each. `keys` has the key of each name, and `final` the owners of the names in the end.

        `equivalents` is whether names of equal keys stand side by side.
        """
        forgets = defaultdict(list)
        for forget in self.forgotten:
            forgets[forget.name].append(forget)
        return [*_holders(self.registered, forgets, keys, equivalents), *_gone(self.registered, forgets, final), *_unseen(self, forgets, keys, equivalents)]


def _given_up(forgets, name, begun, ended):
    """Whether a name may have been given up between two times."""
    return any(forget.begun <= ended and forget.ended >= begun for forget in forgets[name])


def _holders(registered, forgets, keys, equivalents):
    """Each key has one holder at each moment: between two holders the first one was given up."""
    by_key = defaultdict(list)
    for one in registered:
        by_key[one.name if equivalents else keys[one.name]].append(one)
    for answers in by_key.values():
        answers.sort()
        for one, other in zip(answers, answers[1:]):
            if (one.name, one.owner) == (other.name, other.owner):
                continue
            begun, ended = one.begun, max(one.ended, other.ended)
            either = _given_up(forgets, one.name, begun, ended) or one.ended >= other.begun and _given_up(forgets, other.name, begun, ended)
            if not either:
                yield f"two holders of one key: {one}, {other}"


def _gone(registered, forgets, final):
    """What was answered `registered` isn't gone without a forget."""
    for one in registered:
        if final.get(one.name) != one.owner and not _given_up(forgets, one.name, one.begun, FOREVER):
            yield f"gone: {one}, in the end {final.get(one.name)!r}"


def _unseen(history, forgets, keys, equivalents):
    """Who claimed finds it at the same node, and finds one holder of a key."""
    registered = defaultdict(list)
    for one in history.registered:
        registered[one.node, keys[one.name]].append(one)
    for found in history.found:
        if len(found.holders) > 1 and not equivalents:
            yield f"two holders: {found}"
        for one in registered[found.node, keys[found.name]]:
            lost = one.ended <= found.begun and (one.name, one.owner) not in found.holders
            if lost and not _given_up(forgets, one.name, one.begun, found.ended):
                yield f"not found: {one}, by {found}"


def keys_of(names, answered) -> Optional[dict]:
    """The key of each name from what npss_lines answered; of one that is refused the name itself, which nobody registers."""
    lines = answered.split(b"\0")[:-1]
    if len(lines) != len(names):
        return None
    return {name: line[1:].decode() if line.startswith(b"=") else name for name, line in zip(names, lines)}


def try_checker(tally):
    """Histories of one answer after another, each with what has to be found in it."""
    one, other = ({"do": "claim", "name": name, "owner": owner} for name, owner in (("a", "x"), ("b", "y")))
    forget, find = {"do": "forget", "name": "a"}, {"do": "find", "name": "b"}
    yes, found, none = {"what": "registered"}, {"what": "found", "holders": [["a", "x"]]}, {"what": "found", "holders": []}
    keys = {"a": "k", "b": "k"}
    for answers, final, wanted in (([(one, yes), (one, yes), (find, found)], {"a": "x"}, None), ([(one, yes), (other, yes)], {"b": "y"}, "two holders of one key"),
                                   ([(one, yes), (forget, {"what": "forgotten"}), (other, yes)], {"b": "y"}, None), ([(one, yes), (forget, None), (other, yes)], {"b": "y"}, None),
                                   ([(one, yes), (forget, {"what": "not registered"})], {}, "gone"), ([(one, yes), (one, None)], {"a": "z"}, "gone"),
                                   ([(one, yes), (find, none)], {"a": "x"}, "not found"), ([(forget, {"what": "forgotten"}), (one, yes)], {}, "gone")):
        history = History()
        for time, (asked, answer) in enumerate(answers):
            history.add(0, (2 * time, 2 * time + 1), asked, answer)
        violations = history.violations(keys, False, final)
        tally.check(f"what is found in {answers}", any(wanted in line for line in violations) if wanted else not violations, violations)
