"""What nodes keep over a history: a small model beside `replay`, of nodes that keep strings alone.

It is written from docs/NODES.md and docs/FORMATS.md, and shares nothing with the program: no key is
kept, no message is made and no image saved. Where a reply or the report needs the key of a string,
the function that was handed in is asked for it.
"""

FORM_BYTES = {"nfd": b"D", "nfc": b"C", "nfkd": b"d", "nfkc": b"c"}
MOST_BYTES = 65_536


def string_of(codes):
    """The string of words in hex."""
    return "".join(chr(int(code, 16)) for code in codes)


def codes_of(string):
    """The code points of a string in hex, with a space between; a dash where there are none."""
    return " ".join(f"{ord(c):04X}" for c in string) or "-"


def field_at(data, at):
    """The bytes behind a length at this place, the place behind them, and where that is faulty."""
    if len(data) < at + 4:
        return None, None, at
    end = at + 4 + int.from_bytes(data[at:at + 4], "big")
    return (data[at + 4:end], end, None) if end <= len(data) else (None, None, at + 4)


def message_in(data):
    """The form's byte, the string and the key of a message, and where the bytes are none."""
    if data[:1] not in FORM_BYTES.values():
        return None, 0
    string, at, fault = field_at(data, 1)
    if fault is None:
        key, at, fault = field_at(data, at)
    if fault is None and at < len(data):
        fault = at
    return ((data[:1], string, key), None) if fault is None else (None, fault)


class Node:
    """The place of its version, the strings in their order, those that were saved last, and the place of
    the version under which they were."""

    def __init__(self, index):
        self.index = index
        self.strings = {}
        self.saved = ()
        self.saved_at = None


class World:
    """Nodes and all strings that were ever sent. `versions` has for each version the code points that
    it assigns, and `key` gives a string's key."""

    def __init__(self, versions, form, key, room, starts):
        self.versions, self.form, self.key, self.room = versions, form, key, room
        self.nodes = [Node(index) for index in starts]
        self.sent = []

    def happen(self, line):
        """The reply to the event of a line."""
        name, number, *words = line.split()
        return getattr(self, name)(self.nodes[int(number)], *words)

    def refusal(self, node, string):
        """Why a string of at most so many bytes isn't kept, or None."""
        for at, c in enumerate(string):
            if ord(c) not in self.versions[node.index]:
                return f"unassigned {ord(c):04X} at byte {len(string[:at].encode())}"
        if string in node.strings:
            return "known"
        return "full" if len(node.strings) == self.room else None

    def kept(self, node, string):
        """Whether the string is kept from now on, or why not."""
        refusal = self.refusal(node, string)
        if refusal is None:
            node.strings[string] = None
        return refusal or "kept"

    def accept(self, node, *codes):
        string = string_of(codes)
        if len(string.encode()) > MOST_BYTES:
            return "too long"
        reply = self.kept(node, string)
        if reply != "kept":
            return reply
        self.sent.append(string)
        return f"kept {len(self.sent) - 1}"

    def deliver(self, node, number):
        number = int(number)
        return self.kept(node, self.sent[number]) if number < len(self.sent) else "no message"

    def forge(self, node, data=""):
        message, fault = message_in(bytes.fromhex(data))
        if message is None:
            return f"malformed at {fault}"
        form, string, key = message
        if form != FORM_BYTES[self.form]:
            return "other form"
        if len(string) > MOST_BYTES:
            return "too long"
        try:
            string = string.decode()
        except UnicodeDecodeError as invalid:
            return f"not UTF-8 at byte {invalid.start}"
        refusal = self.refusal(node, string)
        if refusal and refusal.startswith("unassigned"):
            return refusal
        return self.kept(node, string) if key == self.key(string).encode() else "key differs"

    def upgrade(self, node):
        if node.index + 1 == len(self.versions):
            return "last version"
        node.index += 1
        return f"version {node.index}"

    def save(self, node):
        node.saved, node.saved_at = tuple(node.strings), node.index
        return "saved"

    def restart(self, node, place=None):
        """Under the node's own version, or under that of the place."""
        if place is not None:
            need = 0 if node.saved_at is None else len(self.versions[node.saved_at])
            have = len(self.versions[int(place)])
            if have < need:
                return f"older tables {need} {have}"
            node.index = int(place)
        node.strings = dict.fromkeys(node.saved)
        return "restarted"

    def forget(self, node, *codes):
        string = string_of(codes)
        if string not in node.strings:
            return "not kept"
        del node.strings[string]
        return "forgotten"

    def ask(self, node, *words):
        middle = words.index("/")
        left, right = string_of(words[:middle]), string_of(words[middle + 1:])
        if not (left in node.strings and right in node.strings):
            return "not kept"
        return "equal" if self.key(left) == self.key(right) else "different"

    def lines(self):
        """The lines of the nodes in a report."""
        for number, node in enumerate(self.nodes):
            yield f"node {number} version {node.index} entries {len(node.strings)}"
            for string in node.strings:
                yield f"entry {codes_of(string)} / {codes_of(self.key(string))}"


def report_of(schedule, versions, form, key):
    """The report on a schedule that is well formed."""
    read = [line for line in schedule.splitlines() if line.split() and not line.startswith("#")]
    room, starts, events = int(read[0].split()[1]), map(int, read[1].split()[1:]), read[2:]
    world = World(versions, form, key, room, starts)
    replies = [f"{number} {world.happen(line)}" for number, line in enumerate(events)]
    return "".join(f"{line}\n" for line in [*replies, *world.lines()])
