"""Runs of the program near its limits and far beyond what one piece of memory or one page of a table holds.

What is wanted is made here by the rules of docs/FORMATS.md and of UAX #15, not by another run of the program.
"""

from program.cases import text
from models.history_model import report_of
from harness import run, shown
from versions import V1, record

# The most strings of a node, and of messages that are sent here.
ROOM = 65_536
# The first syllable, and how many are combined in pairs.
SYLLABLE = 0xAC00
SIDE = 256
# More code points with long mappings than a MiB of their spellings has room for.
MAPPED = 15_000
SPELLED = 32


def same(tally, name, got, wanted):
    """Compares a run, of which no more than its beginning is shown."""
    tally.check(name, got == wanted, f"got {shown(got)}, want {shown(wanted)}")


def check_texts(tally, program, folder):
    """A key of more than 64 KiB, a text of more than 32 MiB, and 2,000,000 non-starters behind one starter."""
    same(tally, "a key of 400,000 bytes", run(program, ["key", "--form", "nfc", *V1], text("212B") * 200_000, folder),
         (0, text("00C5") * 200_000, b""))
    same(tally, "a text of 36 MB", run(program, ["normalize", "--form", "nfc", *V1], text("212B") * 12_000_000, folder),
         (0, text("00C5") * 12_000_000, b""))
    given = b"a" + text("0302 0323") * 1_000_000
    # a non-starter composes with the starter over those of lower class between them
    for form, first, above in (("nfd", text("0061 0323"), 1_000_000), ("nfc", text("1EAD"), 999_999)):
        wanted = first + text("0323") * 999_999 + text("0302") * above
        same(tally, f"2,000,000 non-starters, {form}", run(program, ["normalize", "--form", form, *V1], given, folder), (0, wanted, b""))
        same(tally, f"a key of 2,000,000 non-starters, {form}", run(program, ["key", "--form", form, *V1], given, folder), (0, wanted, b""))


def check_spellings(tally, program, folder):
    """A table whose mappings have more than a MiB."""
    codes = range(0x20000, 0x20000 + MAPPED)
    mapping = "<compat> " + " ".join(["4E00"] * SPELLED)
    path = folder.parent / "long-mappings.data"
    path.write_text(record("4E00") + "".join(record(f"{code:04X}", mapping=mapping) for code in codes), encoding="ascii")
    given = "".join(map(chr, codes)).encode()
    for form in ("nfkd", "nfkc"):
        same(tally, f"mappings of a MiB, {form}", run(program, ["normalize", "--form", form, str(path), V1[1]], given, folder),
             (0, text("4E00") * SPELLED * MAPPED, b""))
        same(tally, f"mappings of a MiB, key, {form}", run(program, ["key", "--form", form, str(path), V1[1]], given, folder),
             (0, text("4E00") * SPELLED * MAPPED, b""))
    same(tally, "mappings of a MiB, nfd", run(program, ["normalize", "--form", "nfd", str(path), V1[1]], given, folder), (0, given, b""))
    path.unlink()


def syllables(number):
    """A string of two syllables, another one for each number."""
    return f"{SYLLABLE + number // SIDE:04X} {SYLLABLE + number % SIDE:04X}"


def full_node():
    """A node that is filled to its last place, saved and restarted, and another that is told each string."""
    yield f"room {ROOM}"
    yield "nodes 0 0"
    for number in range(ROOM):
        yield f"accept 0 {syllables(number)}"
    yield "accept 0 0061"
    for number in range(ROOM):
        yield f"deliver 1 {number}"
    yield f"deliver 1 {ROOM}"
    yield "accept 1 0061"
    for node in (0, 1):
        yield f"save {node}"
        yield f"restart {node}"
    yield f"ask 0 {syllables(0)} / {syllables(0)}"
    yield f"ask 1 {syllables(1)} / {syllables(ROOM - 1)}"


def large_image():
    """A node whose image has more than 16 MiB: its strings are as long as they may be."""
    yield "room 200"
    yield "nodes 0"
    for number in range(140):
        yield f"accept 0 {SYLLABLE + number:04X} " + " ".join([f"{SYLLABLE:04X}"] * 21_844)
    yield f"accept 0 {SYLLABLE:04X} " + " ".join([f"{SYLLABLE:04X}"] * 21_845)
    yield "save 0"
    yield "restart 0"


def check_nodes(tally, program, folder):
    """Full nodes and large images."""
    assigned = {int(line.split(";")[0], 16) for line in (folder / V1[0]).read_text(encoding="ascii").splitlines() if line}
    assigned.update(range(SYLLABLE, SYLLABLE + 11_172))
    path = folder.parent / "large.schedule"
    for name, events in (("full nodes", full_node()), ("an image of more than 16 MiB", large_image())):
        schedule = "".join(f"{line}\n" for line in events)
        path.write_text(schedule, encoding="ascii")
        # syllables are their own keys under this form
        wanted = report_of(schedule, [assigned], "nfc", lambda string: string)
        same(tally, name, run(program, ["replay", "--form", "nfc", str(path), *V1], b"", folder), (0, wanted.encode(), b""))
    path.unlink()


def check_large(tally, program, folder):
    """All of them."""
    check_texts(tally, program, folder)
    check_spellings(tally, program, folder)
    check_nodes(tally, program, folder)
