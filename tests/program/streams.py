"""Runs of the program with standard streams closed, and with words that are no text."""

import os
import resource
from itertools import combinations

from program.cases import DEVICE, DIFFERENT, USAGE, WRONG_WORDS, text
from harness import run
from versions import V1, V2

# How a shell closes each of the standard streams.
CLOSINGS = ("<&-", ">&-", "2>&-")

# The words of each command, its input, its output and its status.
RUNS = [
    ([], b"", USAGE.encode(), 0),
    (["nothing"], b"", b"", WRONG_WORDS),
    (["key", "--form", "nfc", *V1], text("0061 0302 0323"), text("1EAD"), 0),
    (["key", "--form", "nfc", "--check-under", *V1, *V2], text("16D67"), b"own form, unassigned 16D67 at byte 0\n", 0),
    (["normalize", "--form", "nfd", *V1], text("1EAD"), text("0061 0323 0302"), 0),
    (["compare", "--form", "nfc", *V1], b"A\na\n", b"different\n", DIFFERENT),
    (["audit", *V1, *V1], b"", b"extends\n", 0),
    (["replay", "--form", "nfc", "no-events.schedule", *V1], b"", b"node 0 version 0 entries 0\n", 0),
    (["key", "--form", "nfc", "nothing", V1[1]], b"a", b"", DEVICE),
]


def run_closed(program, words, stdin, folder, closed):
    """The run with these standard streams closed."""
    line = 'exec "$0" "$@" ' + " ".join(CLOSINGS[stream] for stream in closed)
    return run("sh", ["-c", line, str(program), *words], stdin, folder)


def wanted(words, out, status, closed):
    """What a run answers with these streams closed: status, output and error."""
    reads = words[:1] in (["key"], ["normalize"], ["compare"])
    if words == ["nothing"]:
        stderr = USAGE.encode()
    elif "nothing" in words:
        stderr = b"cannot open nothing\n"
    elif 0 in closed and reads:
        status, out, stderr = DEVICE, b"", b"input: ReadFailed\n"
    elif 1 in closed:
        status, out, stderr = DEVICE, b"", b"output: WriteFailed\n"
    else:
        stderr = b""
    return status, b"" if 1 in closed else out, b"" if 2 in closed else stderr


def check_closed(tally, program, folder):
    """Each command with each choice of closed streams: a closed input can't be read, a closed output
    can't be written, and no named file takes the place of either."""
    for words, stdin, out, status in RUNS:
        for closed in (choice for count in range(4) for choice in combinations(range(3), count)):
            got = run_closed(program, words, stdin, folder, closed)
            tally.same(f"{' '.join(words)} with {closed} closed", got, wanted(words, out, status, closed))


def close_input():
    """In the program's process, before it begins: its input is closed, and one descriptor more may be opened."""
    os.close(0)
    resource.setrlimit(resource.RLIMIT_NOFILE, (3, 3))


def check_closed_input(tally, program, folder):
    """A closed input takes no descriptor and names no file: where one file alone can be opened, the second word that
    names one is told."""
    got = run(program, ["key", "--form", "nfc", *V1], b"", folder, preexec_fn=close_input)
    tally.same("key with its input closed and one descriptor free", got, (DEVICE, b"", f"cannot open {V1[1]}\n".encode()))


def check_words(tally, program, folder):
    """A word that is no UTF-8 asks for nothing that there is."""
    for words in ([b"key", b"--form", b"nfc", b"d\xff", b"e"], [b"\xff"], [b"key\xc3"]):
        tally.same(f"words {words}", run(program, words, b"", folder), (WRONG_WORDS, b"", USAGE.encode()))
