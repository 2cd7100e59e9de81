"""What a node does with names, from Python: beside a dict of unicodedata's forms that does the same work."""

import gc
import time
import unicodedata

COUNT = 65_536
STEPS = ("accepted", "taken", "saved", "restored", "looked-up")


def key_of(name):
    """The key of a name; an error where a code point is unassigned."""
    for character in name:
        if unicodedata.category(character) == "Cn":
            raise ValueError(name)
    return unicodedata.normalize("NFC", name)


def field(content):
    return len(content).to_bytes(4, "big") + content


def fields(message):
    """The name and the key of a message."""
    length = int.from_bytes(message[:4], "big")
    return message[4:4 + length].decode(), message[8 + length:].decode()


class Dict:
    """A dict of names and keys that does what a node does."""

    def __init__(self):
        self.kept = {}

    def accept(self, name):
        if name not in self.kept:
            self.kept[name] = key_of(name)

    def message(self, name):
        return field(name.encode()) + field(self.kept[name].encode())

    def take(self, message):
        name, sent_key = fields(message)
        key = key_of(name)
        if key != sent_key:
            raise ValueError(name)
        self.kept[name] = key

    def image(self):
        return [self.message(name) for name in self.kept]

    def restore(self, image):
        for message in image:
            self.take(message)

    def key(self, name):
        return self.kept[name]


def best(runs, before, step):
    """Nanoseconds for one name, of the shortest run."""
    took = []
    for _ in range(runs):
        made = before()
        gc.disable()
        begun = time.perf_counter()
        step(made)
        took.append(time.perf_counter() - begun)
        gc.enable()
    return min(took) / COUNT * 1e9


def each(call):
    """A call for each of some values."""
    def step(values):
        for value in values:
            call(value)
    return step


def rows(tables, names, runs):
    """For each step the nanoseconds by a node and by a dict."""
    from npss import Node

    def fresh():
        """Other objects in each run, so that none keeps its UTF-8."""
        return [name.encode().decode() for name in names]

    filled, plain = Node(tables), Dict()
    for name in names:
        filled.accept(name)
        plain.accept(name)
    messages, plain_messages = ([one.message(name) for name in names] for one in (filled, plain))
    took = {}
    for which, make, sent, full in ((0, lambda: Node(tables), messages, filled), (1, Dict, plain_messages, plain)):
        image = full.image()
        restore = (lambda _: Node.restore(tables, image)) if which == 0 else (lambda _: Dict().restore(image))
        steps = (("accepted", fresh, lambda values: each(make().accept)(values)), ("taken", lambda: sent, lambda values: each(make().take)(values)),
                 ("saved", lambda: None, lambda _: full.image()), ("restored", lambda: None, restore),
                 ("looked-up", fresh, lambda values: each(full.key)(values)))
        for name, before, step in steps:
            took.setdefault(name, []).append(best(runs, before, step))
    return took
