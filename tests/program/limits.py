"""Runs of the program under a bound on its memory, and into devices that take nothing.

Under each bound a run ends as it does with ample memory, or with the status and the line for want of
memory and no output; or the C library can't start it at all. Both of the first two have to come.
"""

import resource

from program.cases import DEVICE, text
from harness import ROOT, run, shown
from versions import LIMIT, V1, V2

MEMORY = 6
WANT = (MEMORY, b"", b"out of memory\n")

# The bounds on the address space, in KiB: the least at which a program that needs the C library alone starts,
# and the greatest, at which each of these runs has ample memory.
BOUNDS = range(1536, 16384, 160)

# The address space in which the longest input has its key, in KiB: its text and its key, each in a list that doubled.
LONGEST = 96 * 1024

# Words of this length are copied by the program before it knows what they ask for.
LONG = 120_000


def bounded_runs():
    """Words, input and the answer with ample memory."""
    given = text("0061 0302 0323")
    yield ["key", "--form", "nfc", *V1], given, (0, text("1EAD"), b"")
    yield ["key", "--form", "nfc", "--check-under", *V1, *V2], given, (0, b"own form\n", b"")
    yield ["normalize", "--form", "nfd", *V1], given, (0, text("0061 0323 0302"), b"")
    yield ["compare", "--form", "nfc", *V1], given + b"\n" + given, (0, b"equal\n", b"")
    yield ["audit", *V1, *V1], b"", (0, b"extends\n", b"")
    report = (ROOT / "fixtures" / "scripts" / "restart.report").read_bytes()
    yield ["replay", "--form", "nfc", "scripts/restart.schedule", *V1, *V2], b"", (0, report, b"")
    yield (["key", "--form", "nfc", "d" * LONG, "e" * LONG], b"",
           (DEVICE, b"", b"cannot open " + b"d" * LONG + b"\n"))


def under(kibibytes):
    """Sets the bound, in the program's own process."""
    def bound():
        resource.setrlimit(resource.RLIMIT_AS, (kibibytes * 1024, kibibytes * 1024))
    return bound


def started(got):
    """Whether the loader could start the program: else it is killed, or the loader tells why."""
    status, _, err = got
    return status is not None and status >= 0 and (status != 127 or b"error while loading" not in err)


def check_memory(tally, program, folder):
    """Each run under each bound."""
    for words, stdin, ample in bounded_runs():
        name = " ".join(word[:20] for word in words)
        runs = [(bound, run(program, words, stdin, folder, preexec_fn=under(bound))) for bound in BOUNDS]
        ends = [(bound, got) for bound, got in runs if started(got)]
        wrong = [(bound, got) for bound, got in ends if got not in (WANT, ample)]
        tally.check(f"{name} under a bound on memory", not wrong, f"got {shown(wrong[:1])}")
        tally.check(f"{name} wants memory", WANT in (got for _, got in ends), "no bound was too small")
        tally.check(f"{name} has memory", ample in (got for _, got in ends), "no bound was large enough")


def check_longest(tally, program, folder):
    """The longest input, one that is its own key and two whose keys are longer and shorter, in memory of a few times its
    length."""
    for form, given, wanted in (("nfc", "0061", "0061"), ("nfd", "00E2", "0061 0302"), ("nfc", "0061 0302", "00E2")):
        given, wanted = text(given), text(wanted)
        count = LIMIT // len(given)
        status, out, err = run(program, ["key", "--form", form, *V1], given * count, folder, preexec_fn=under(LONGEST))
        tally.check(f"the longest input of {shown(given)} under a bound on memory", (status, out == wanted * count, err) == (0, True, b""),
                    f"{status} {len(out)} {err}")


def check_usage(tally, program, folder):
    """The usage text into a device that takes nothing, asked for and not."""
    with open("/dev/full", "wb") as full:
        got = run(program, [], b"", folder, stdout=full)
        tally.same("no words into a full device", got, (DEVICE, b"", b"output: WriteFailed\n"))
