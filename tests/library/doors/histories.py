#!/usr/bin/env python3
"""histories.py FORM SCHEDULE FILES..: runs a schedule by the module's Node objects, and prints the report of docs/FORMATS.md.

What it prints has to be what `npss replay --form FORM SCHEDULE FILES..` prints. The module npss is on PYTHONPATH. Each event is
the call that np_world/specs/Calls has for it, and a World keeps what a host keeps ('For a host' of docs/PROMISES.md).
"""

import sys

from npss import (Accepted, Full, KeyDiffers, Malformed, Node, NotUtf8, OlderTables, OtherForm, Refused, Tables, TooLong,
                  Unassigned)


def text_of(words):
    return "".join(chr(int(word, 16)) for word in words)


def codes_of(text):
    return " ".join(f"{ord(character):04X}" for character in text) or "-"


def refusal_of(error):
    """A refusal as a report has it."""
    if isinstance(error, Unassigned):
        return f"unassigned {error.code:04X} at byte {error.place}"
    if isinstance(error, NotUtf8):
        return f"not UTF-8 at byte {error.place}"
    if isinstance(error, Malformed):
        return f"malformed at {error.place}"
    if isinstance(error, OlderTables):
        return f"older tables {error.needs} {error.has}"
    return {Full: "full", TooLong: "too long", OtherForm: "other form", KeyDiffers: "key differs"}[type(error)]


class World:
    """The nodes of a schedule, the messages that they sent, and what they saved last."""

    def __init__(self, form, chain, room, starts):
        self.form, self.chain, self.room = form, chain, room
        self.versions = list(starts)
        self.nodes = [Node(chain[version], form, room) for version in starts]
        self.saved = [None] * len(self.nodes)
        self.sent = []

    def happen(self, line):
        """The reply to the event of a line."""
        name, number, *words = line.split()
        try:
            return getattr(self, name)(int(number), *words)
        except Refused as error:
            return refusal_of(error)

    def accept(self, number, *codes):
        string = text_of(codes)
        if self.nodes[number].accept(string) is Accepted.KNOWN:
            return "known"
        self.sent.append(self.nodes[number].message(string))
        return f"kept {len(self.sent) - 1}"

    def deliver(self, number, message):
        if int(message) >= len(self.sent):
            return "no message"
        return self.nodes[number].take(self.sent[int(message)]).value

    def forge(self, number, data=""):
        return self.nodes[number].take(bytes.fromhex(data)).value

    def upgrade(self, number):
        if self.versions[number] + 1 == len(self.chain):
            return "last version"
        self.versions[number] += 1
        broken = self.nodes[number].upgrade(self.chain[self.versions[number]])
        return f"version {self.versions[number]}" if broken is None else f"broken {broken}"

    def save(self, number):
        self.saved[number] = self.nodes[number].image()
        return "saved"

    def restart(self, number, version=None):
        version = self.versions[number] if version is None else int(version)
        tables, image = self.chain[version], self.saved[number]
        again = Node(tables, self.form, self.room) if image is None else Node.restore(tables, image, self.form, self.room)
        self.nodes[number], self.versions[number] = again, version
        return "restarted"

    def forget(self, number, *codes):
        return "forgotten" if self.nodes[number].forget(text_of(codes)) else "not kept"

    def ask(self, number, *words):
        middle = words.index("/")
        same = self.nodes[number].same(text_of(words[:middle]), text_of(words[middle + 1:]))
        return {None: "not kept", True: "equal", False: "different"}[same]

    def lines(self):
        """The lines of the nodes."""
        for number, (node, version) in enumerate(zip(self.nodes, self.versions)):
            yield f"node {number} version {version} entries {len(node)}"
            for entry in node:
                yield f"entry {codes_of(entry.string)} / {codes_of(entry.key)}"


def main():
    form, schedule, *files = sys.argv[1:]
    chain = [Tables.open(*files[at:at + 2]) for at in range(0, len(files), 2)]
    with open(schedule, encoding="ascii") as file:
        read = [line for line in file.read().split("\n") if line.split() and not line.startswith("#")]
    world = World(form, chain, int(read[0].split()[1]), [int(word) for word in read[1].split()[1:]])
    for number, line in enumerate(read[2:]):
        print(number, world.happen(line))
    for line in world.lines():
        print(line)


if __name__ == "__main__":
    main()
