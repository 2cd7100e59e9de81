"""A schedule of many events of short strings, for the bench, from code alone."""

import random

EVENTS = 1_000_000
NODES = 8
ROOM = 65_536
SEED = 7

LETTERS = [f"{code:04X}" for code in (*range(0x61, 0x7B), *range(0xE0, 0xF7), *range(0xC5, 0xCF), *range(0xAC00, 0xAC40),
                                      *range(0x1EA0, 0x1ED0))]
NON_STARTERS = [f"{code:04X}" for code in (0x300, 0x301, 0x302, 0x303, 0x308, 0x323)]


def drawn_string(source):
    """Two letters or a letter and a non-starter, now and then a letter alone: some hundred thousand strings, of
    which some are equivalent."""
    chance = source.random()
    letter = source.choice(LETTERS)
    return letter if chance < 0.25 else f"{letter} {source.choice(NON_STARTERS if chance < 0.4 else LETTERS)}"


def drawn_event(source, sent):
    """An event where about so many messages were sent."""
    node, chance = source.randrange(NODES), source.random()
    if chance < 0.34:
        return f"accept {node} {drawn_string(source)}"
    if chance < 0.82:
        return f"deliver {node} {source.randrange(sent + 2)}"
    if chance < 0.92:
        return f"ask {node} {source.choice(LETTERS)} / {source.choice(LETTERS)}"
    if chance < 0.9202:
        return f"forget {node} {drawn_string(source)}"
    return f"upgrade {node}" if chance < 0.9999 else f"{source.choice(('save', 'restart'))} {node}"


def schedule(events=EVENTS):
    """The schedule, for one version."""
    source = random.Random(SEED)
    lines = [f"room {ROOM}", f"nodes{' 0' * NODES}"]
    lines += [drawn_event(source, number // 5) for number in range(events)]
    return "".join(f"{line}\n" for line in lines).encode()
