"""The cases of `replay`: schedules, and the report or the line that the program has to answer."""

from program.cases import BAD_TEXT, DEVICE, DIFFERENT, USAGE, WRONG_WORDS, Case, refused
from harness import ROOT
from versions import GROWN, LIMIT, V1, V2, filled

# The most events of a schedule, the most nodes, and the most bytes of a string.
EVENTS, NODES, MOST_BYTES = 1_000_000, 64, 65_536

# The scripts under fixtures/scripts: name, versions and form.
SCRIPTS = [
    ("exchange", (*V1, *V2), "nfc"),
    ("restart", (*V1, *V2), "nfc"),
    ("forged", V1, "nfc"),
    ("older", (*V1, *V2), "nfc"),
    ("forgetting", V1, "nfc"),
]

HEAD = "room 4\nnodes 0\n"

# Schedules over V1 with their reports: name, schedule, report.
GOOD = [
    ("no-events", "room 4\nnodes 0\n", "node 0 version 0 entries 0\n"),
    ("no-last-line-end", "room 4\nnodes 0\nsave 0", "0 saved\nnode 0 version 0 entries 0\n"),
    ("crlf-and-comments", "# a schedule\r\n\r\nroom 4\r\n \t\r\nnodes\t0  0 \r\n#\r\n  accept 1 \t0061 0302\r\ndeliver 0 0\r\n",
     "0 kept 0\n1 kept\nnode 0 version 0 entries 1\nentry 0061 0302 / 00E2\n"
     "node 1 version 0 entries 1\nentry 0061 0302 / 00E2\n"),
    ("nothing-sent", HEAD + "deliver 0 0\ndeliver 0 999999999\n",
     "0 no message\n1 no message\nnode 0 version 0 entries 0\n"),
    ("no-room", "room 0\nnodes 0\naccept 0\naccept 0 0061\nask 0 / 0061\n",
     "0 full\n1 full\n2 not kept\nnode 0 version 0 entries 0\n"),
    ("empty-strings", HEAD + "accept 0\naccept 0\nask 0 /\nask 0 0061 /\n",
     "0 kept 0\n1 known\n2 equal\n3 not kept\nnode 0 version 0 entries 1\nentry - / -\n"),
    ("never-saved", HEAD + "accept 0 0041\nrestart 0\naccept 0 0041\n",
     "0 kept 0\n1 restarted\n2 kept 1\nnode 0 version 0 entries 1\nentry 0041 / 0041\n"),
    ("repeats-and-losses", "room 2\nnodes 0 0\naccept 0 0041\naccept 0 0061\naccept 0 0066\ndeliver 1 1\ndeliver 1 1\n",
     "0 kept 0\n1 kept 1\n2 full\n3 kept\n4 known\n"
     "node 0 version 0 entries 2\nentry 0041 / 0041\nentry 0061 / 0061\n"
     "node 1 version 0 entries 1\nentry 0061 / 0061\n"),
    ("places-in-bytes", HEAD + "accept 0 00C5 E000 0062\naccept 0 10FFFF\n",
     "0 unassigned 0062 at byte 5\n1 unassigned 10FFFF at byte 0\nnode 0 version 0 entries 0\n"),
    ("lower-case-codes", HEAD + "accept 0 00e2\naccept 0 0061 0302\nask 0 00E2 / 0061 0302\nask 0 00E2 / 0061\n",
     "0 kept 0\n1 kept 1\n2 equal\n3 not kept\nnode 0 version 0 entries 2\nentry 00E2 / 00E2\nentry 0061 0302 / 00E2\n"),
    ("most-nodes", f"room 1\nnodes{' 0' * NODES}\nsave 63\n",
     "0 saved\n" + "".join(f"node {node} version 0 entries 0\n" for node in range(NODES))),
    ("greatest-room", "room 65536\nnodes 0\n", "node 0 version 0 entries 0\n"),
    ("longest-string", HEAD + f"accept 0{' 0061' * MOST_BYTES}\naccept 0{' 0061' * (MOST_BYTES + 1)}\n",
     f"0 kept 0\n1 too long\nnode 0 version 0 entries 1\nentry {' '.join(['0061'] * MOST_BYTES)} / {' '.join(['0061'] * MOST_BYTES)}\n"),
    # A code point of three bytes at the end decides by its last byte.
    ("longest-by-bytes", HEAD + f"accept 0{' 0061' * (MOST_BYTES - 3)} AC00\naccept 0{' 0061' * (MOST_BYTES - 2)} AC00\n"
     f"forget 0{' 0061' * (MOST_BYTES - 2)} AC00\n",
     f"0 kept 0\n1 too long\n2 not kept\nnode 0 version 0 entries 1\n"
     f"entry {' '.join(['0061'] * (MOST_BYTES - 3))} AC00 / {' '.join(['0061'] * (MOST_BYTES - 3))} AC00\n"),
    ("forget-what-is-not-kept", HEAD + "forget 0\nforget 0 0061\nforget 0 0378\naccept 0\nforget 0\nforget 0\n",
     "0 not kept\n1 not kept\n2 not kept\n3 kept 0\n4 forgotten\n5 not kept\nnode 0 version 0 entries 0\n"),
    ("forget-keeps-the-order", HEAD + "accept 0 0061\naccept 0 0041\naccept 0 0066\nforget 0 0061\naccept 0 0061\ndeliver 0 0\n",
     "0 kept 0\n1 kept 1\n2 kept 2\n3 forgotten\n4 kept 3\n5 known\nnode 0 version 0 entries 3\n"
     "entry 0041 / 0041\nentry 0066 / 0066\nentry 0061 / 0061\n"),
    ("forget-a-spelling", HEAD + "accept 0 00E2\naccept 0 0061 0302\nforget 0 00E2\nask 0 00E2 / 0061 0302\n",
     "0 kept 0\n1 kept 1\n2 forgotten\n3 not kept\nnode 0 version 0 entries 1\nentry 0061 0302 / 00E2\n"),
    ("forget-and-accept-in-turn", HEAD + "accept 0 0066\n" + "accept 0 0061\nforget 0 0061\n" * 1000 + "accept 0 0061\n",
     "0 kept 0\n" + "".join(f"{2 * turn + 1} kept {turn + 1}\n{2 * turn + 2} forgotten\n" for turn in range(1000))
     + "2001 kept 1001\nnode 0 version 0 entries 2\nentry 0066 / 0066\nentry 0061 / 0061\n"),
    ("restart-before-any-save", HEAD + "accept 0 0041\nrestart 0 0\naccept 0 0041\n",
     "0 kept 0\n1 restarted\n2 kept 1\nnode 0 version 0 entries 1\nentry 0041 / 0041\n"),
    ("forged", HEAD + "forge 0 430000000361cc8200000002c3a2\nforge 0 430000000361CC820000000361CC82\n"
     "forge 0 43ffffffff\nforge 0 000000000000000000\nforge 0 430000000361cc8200000002c3a200\n",
     "0 kept\n1 key differs\n2 malformed at 5\n3 malformed at 0\n4 malformed at 14\n"
     "node 0 version 0 entries 1\nentry 0061 0302 / 00E2\n"),
    ("most-events", HEAD + "save 0\n" * EVENTS,
     "".join(f"{event} saved\n" for event in range(EVENTS)) + "node 0 version 0 entries 0\n"),
]

# Schedules over V1 that can't stand: name, schedule, the first faulty line.
BAD = [
    ("empty-schedule", "", 1),
    ("comments-alone", "# one\n\n", 3),
    ("room-alone", "room 4\n", 2),
    ("room-without-end", "room 4", 2),
    ("too-much-room", "room 70000\n", 1),
    ("a-little-too-much-room", "room 65537\nnodes 0\n", 1),
    ("no-room-line", "nodes 0\nroom 4\n", 1),
    ("no-nodes", "room 4\nnodes\n", 2),
    ("too-many-nodes", f"room 4\nnodes{' 0' * (NODES + 1)}\n", 2),
    ("no-such-version", "room 4\nnodes 0 1\n", 2),
    ("ask-for-one", HEAD + "ask 0 0061\n", 3),
    ("ask-for-three", HEAD + "ask 0 0061 / 0061 / 0061\n", 3),
    ("accept-a-surrogate", HEAD + "accept 0 D800\n", 3),
    ("accept-no-code", HEAD + "accept 0 61\n", 3),
    ("ten-digits", HEAD + "deliver 0 1234567890\n", 3),
    ("no-such-node", HEAD + "save 1\n", 3),
    ("one-word-more", HEAD + "save 0 0\n", 3),
    ("restart-under-no-version", HEAD + "restart 0 1\n", 3),
    ("restart-under-two", HEAD + "restart 0 0 0\n", 3),
    ("restart-under-a-word", HEAD + "restart 0 x\n", 3),
    ("upgrade-to-one", HEAD + "upgrade 0 0\n", 3),
    ("forget-no-code", HEAD + "forget 0 61\n", 3),
    ("forget-a-surrogate", HEAD + "forget 0 D800\n", 3),
    ("forget-alone", HEAD + "forget\n", 3),
    ("no-such-event", HEAD + "send 0\n", 3),
    ("capital-event", HEAD + "Save 0\n", 3),
    ("second-room", HEAD + "room 4\n", 3),
    ("odd-hex", HEAD + "forge 0 abc\n", 3),
    ("two-words-of-hex", HEAD + "forge 0 ab cd\n", 3),
    ("first-of-two", HEAD + "save 0\n\n# here\nsave 2\nsave 3\n", 6),
    ("one-event-more", HEAD + "save 0\n" * (EVENTS + 1), EVENTS + 3),
    ("a-page", "<!DOCTYPE html>\n", 1),
    ("marked-schedule", "\ufeff" + HEAD, 1),
]


def schedules():
    """The schedules that are no fixtures, by file name."""
    texts = {f"{name}.schedule": text for name, text, _ in [*GOOD, *BAD]}
    texts["at-limit.schedule"] = filled(HEAD, LIMIT)
    texts["too-large.schedule"] = filled("room 70000\n", LIMIT + 1)
    return texts


def replay(schedule, *files, form="nfc"):
    """The words of a replay."""
    return ["replay", "--form", form, schedule, *files]


def script_cases():
    """Each script gives its report."""
    for name, versions, form in SCRIPTS:
        report = (ROOT / "fixtures" / "scripts" / f"{name}.report").read_bytes()
        yield Case(replay(f"scripts/{name}.schedule", *versions, form=form), out=report)


def schedule_cases():
    """Schedules that stand, and schedules that don't."""
    for name, _, report in GOOD:
        yield Case(replay(f"{name}.schedule", *V1), out=report.encode())
    for name, _, line in BAD:
        yield refused(replay(f"{name}.schedule", *V1), f"schedule: line {line}", BAD_TEXT)
    yield Case(replay("at-limit.schedule", *V1), out=b"node 0 version 0 entries 0\n")
    yield refused(replay("too-large.schedule", *V1), "schedule: TooLarge", BAD_TEXT)
    yield refused(replay("folder", *V1), "schedule: ReadFailed", DEVICE)
    yield refused(replay("nothing", *V1), "cannot open nothing", DEVICE)


def chain_cases():
    """Versions in a row, and the place of one that is refused."""
    none = b"node 0 version 0 entries 0\n"
    yield Case(replay("no-events.schedule", *V1, *V2, *V2), out=none)
    yield refused(replay("no-events.schedule", *V2, *V1), "not an extension: version 1 Lost 1DFA", DIFFERENT)
    yield refused(replay("no-events.schedule", *V1, *V2, *V1), "not an extension: version 2 Lost 1DFA", DIFFERENT)
    yield refused(replay("no-events.schedule", *V1, "new-composite.data", V1[1]),
                  "not an extension: version 1 NewComposite 00C1", DIFFERENT)
    # each version is read from its own files
    grown = [(f"grown-{place}.data", "empty") for place in range(GROWN)]
    yield Case(replay("no-events.schedule", *sum(grown, ())), out=none)
    for place in range(1, GROWN):
        files = [*grown[:place], (f"lossy-{place}.data", "empty"), *grown[place + 1:]]
        yield refused(replay("no-events.schedule", *sum(files, ())),
                      f"not an extension: version {place} Lost {0x60 + place:04X}", DIFFERENT)
    for place in range(3):
        files = [*V1] * place
        yield refused(replay("no-events.schedule", *files, "page.bad", V1[1], *V1),
                      f"version {place} data: line 1: FieldCount", BAD_TEXT)
        yield refused(replay("no-events.schedule", *files, V1[0], "falling.excl", *V1),
                      f"version {place} exclusions: line 1: BadCode", BAD_TEXT)
        yield refused(replay("no-events.schedule", *files, "one-jamo.data", "empty", *V1),
                      f"version {place} tables: HangulWrong 1101", BAD_TEXT)
        yield refused(replay("no-events.schedule", *files, "too-large", V1[1]), f"version {place} data: TooLarge", BAD_TEXT)
        yield refused(replay("no-events.schedule", *files, V1[0], "folder"),
                      f"version {place} exclusions: ReadFailed", DEVICE)


def replay_order_cases():
    """Where several things are wrong, the first of the order is told."""
    yield refused(replay("a-page.schedule", "page.bad", V1[1], *V1, "nothing", V1[1]), "cannot open nothing", DEVICE)
    yield refused(replay("nothing", "never", V1[1]), "cannot open nothing", DEVICE)
    yield refused(replay("a-page.schedule", *V1, V2[0], "nothing", "never", V1[1]), "cannot open nothing", DEVICE)
    yield refused(replay("a-page.schedule", *V2, *V1), "not an extension: version 1 Lost 1DFA", DIFFERENT)
    yield refused(replay("a-page.schedule", *V2, *V1, "page.bad", V1[1]), "version 2 data: line 1: FieldCount", BAD_TEXT)
    yield refused(replay("folder", "page.bad", V1[1]), "version 0 data: line 1: FieldCount", BAD_TEXT)


def replay_usage_cases():
    """Words that ask for no replay: no form, another one, and files that are no pairs."""
    for words in ("replay", "replay S", "replay S D E", "replay --form nfc", "replay --form nfc S", "replay --form nfc S D",
                  "replay --form nfc S D E F", "replay --form nfx S D E", "replay --form NFC S D E"):
        yield Case(words.split(), err=USAGE, status=WRONG_WORDS)


def replay_cases():
    """All of them."""
    for group in (script_cases, schedule_cases, chain_cases, replay_order_cases, replay_usage_cases):
        yield from group()
