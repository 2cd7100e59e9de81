#!/usr/bin/env python3
"""Refuses allocations, reads and writes in turn: tests/program/refusals.py PROGRAM CASELESS [TEST_PROGRAM..].

Each command of the program, and of npss_caseless, runs over the fixtures once for each of its allocations, and that one is
refused, or that one and all behind it; then once for each of its reads and writes, in each way in which these
fail. Each run has to end as it does with ample memory and devices that work, or in the status and the line of
the refusal, with nothing on standard output, or, where a write failed, a prefix of the output; and no device is
called again behind its failure. The unit tests of a crate, as `rt ci` leaves them in out/NAME_tests, run once
for each of their allocations too. Those named `a_refused_..` look at what a refused call left, and call again:
each of them passes, or tells that memory ran out. Any other test may fail by what it wants to see, but not die.
What comes before a refused call is run once: there the process makes a copy of itself, to which it is refused.

For each call that can answer that memory ran out (CALLS, COMMANDS) it is printed how many of its own allocations
were refused, each of which its test or its command told and survived. A call that has no test is a failure.

tests/program/refusals/refuse.c is what refuses; it is compiled with `cc`. Where there is none that is told, and
nothing is tried. Ends in a line 'N passed, M failed'.
"""

import os
import shutil
import signal
import subprocess
import sys
import tempfile
from concurrent.futures import ThreadPoolExecutor
from pathlib import Path

# Nothing is written into the tree.
sys.dont_write_bytecode = True
sys.path.insert(0, str(Path(__file__).resolve().parent.parent))

from program.cases import DEVICE, text
from harness import ROOT, Tally, run, shown
from versions import V1, V2, write_all

FIXTURES = ROOT / "fixtures"
MEMORY = (6, b"", b"out of memory\n")
# The status of a unit test that failed by its result.
FAILED = 101

# The calls that can answer that memory ran out, by the modules of their tests: in the crates of examples these have
# the libraries' names. Each has one test whose name begins with `a_refused_` and the call's name: it makes the call a
# second time where memory was refused to the first.
CALLS = {
    "code_points": ("chars_of", "string_of", "write_code"),
    "ucd": ("read_rows", "read_row_list", "of_rows", "read_exclusions"),
    "tables": ("build", "row_table", "page_table"),
    "forms": ("form", "npss", "lend_npss", "into_npss", "make_form", "make_npss", "is_form", "equivalent", "feed", "finish", "feed_text", "finish_text",
              "full_decomposition", "run"),
    "chain": ("audit",),
    "lines": ("answer_lines", "answer_bytes"),
    "node": ("accept", "keep_string", "spell", "take", "image", "restore"),
    "world": ("read_schedule", "replay", "report_text"),
    "jobs": ("parse",),
    "lines_job": ("parse_lines",),
    # those of foldings and caseless keys, whose tests have no module for each library
    "refused": ("read_foldings", "lowercases_of", "fold_text", "build", "caseless_form", "caseless_key", "caseless_match", "audit"),
}
# The commands of the program, each of which is one call of the crate; with its flag `key` is another call.
FLAG = "--check-under"
COMMANDS = ("normalize", "key", f"key {FLAG}", "compare", "audit", "replay")
CASELESS_COMMANDS = ("key", f"key {FLAG}", "compare", "audit")
# Tests that hand over counts and lengths for which nothing is there pass with each allocation refused that is
# larger than this, in bytes.
PROMISING = "::each_cut_and_forged_"
LARGE = 1 << 20
# At so many places, spread over all of them, an allocation is refused to a test that is no `a_refused_..`.
MOST = 1000

# The kinds of calls, as the shim tells their numbers; and how a read or a write fails.
KINDS = ("memory", "read", "write")
WAYS = {"read": ("error", "interrupt"), "write": ("error", "interrupt", "nothing")}
# So many runs at once make copies; a run with all of its copies is waited for so many seconds.
LANES = os.cpu_count() or 1
PATIENCE = 3600
# Where no copy was made at a place.
NO_END = ((None, b"", b"no end was told"), dict.fromkeys(KINDS, 0))


def runs():
    """The words and the input of a run of each command, and of one that can't open a file."""
    given = text("0061 0302 0323")
    for form in ("nfd", "nfc"):
        yield ["key", "--form", form, *V1], given
        yield ["normalize", "--form", form, *V1], given
    yield ["normalize", "--form", "nfc", *V1], given + text("0041")
    for form in ("nfc", "nfkc"):
        yield ["compare", "--form", form, *V1], text("FB01") + b"\n" + text("0066 0069") + b"\n"
    yield ["key", "--form", "nfc", *V1], text("0041 16D67")
    for given in ("0061 0302 0323", "16D67 16D67", "FFFE"):
        yield ["key", "--form", "nfc", FLAG, *V1, *V2], text(given)
    yield ["key", "--form", "nfc", FLAG, *V2, *V1], b"a"
    yield ["audit", *V1, *V1], b""
    yield ["audit", *V1, "new-composite.data", V1[1]], b""
    yield ["audit", *V1, "new-composite.data", "with-00c1.excl"], b""
    yield ["audit", *V2, *V1], b""
    yield ["key", "--form", "nfc", "nothing", V1[1]], b""
    for script, form in (("exchange", "nfc"), ("restart", "nfc"), ("forged", "nfkd")):
        yield ["replay", "--form", form, f"scripts/{script}.schedule", *V1, *V2], b""
    yield ["replay", "--form", "nfc", "scripts/exchange.schedule", *V2, *V1], b""
    yield ["nothing"], b""
    yield [], b""


def caseless_runs():
    """The same of npss_caseless, over the three files of the toy versions."""
    first, second, changed = ([*files, f"caseless/{name}/CaseFolding.txt"] for files, name in ((V1, "v1"), (V2, "v2"), (V2, "changed")))
    for form in ("nfd", "nfkc"):
        yield ["key", "--form", form, *first], text("0041 00C5 0327 0301 FB01")
    yield ["key", "--form", "nfc", *first], text("0041 16D67")
    yield ["key", "--form", "nfc", *first[:2], first[0]], b"A"
    yield ["key", "--form", "nfc", *second[:2], "caseless/edges/nothing"], b"A"
    for given in ("0041 00C5", "16D67 16D67", "FFFE"):
        yield ["key", "--form", "nfc", FLAG, *first, *second], text(given)
    yield ["key", "--form", "nfc", FLAG, *second, *changed], b"A"
    for form in ("nfc", "nfkc"):
        yield ["compare", "--form", form, *first], text("FB01") + b"\n" + text("0066 0069") + b"\n"
    yield ["audit", *first, *second], b""
    yield ["audit", *second, *changed], b""
    yield ["nothing"], b""
    yield [], b""


class Refusals:
    """Runs with calls refused."""

    def __init__(self, shim, folder):
        self.shim = shim
        self.folder = folder

    def run(self, program, words, stdin, **calls):
        """The run with the shim loaded, which is told what to do by these variables. Its input stands in a file: how
        many reads a pipe takes would go by who is quicker."""
        with tempfile.TemporaryFile() as given:
            given.write(stdin)
            given.seek(0)
            return run(program, words, given, self.folder, env={**os.environ, "LD_PRELOAD": str(self.shim), **calls})

    def counted(self, program, words, stdin):
        """The run with nothing refused, and its numbers of allocations, reads and writes."""
        with tempfile.NamedTemporaryFile(dir=self.folder.parent) as counts:
            got = self.run(program, words, stdin, REFUSE_COUNTS=counts.name)
            # the program writes the file anew
            numbers = Path(counts.name).read_text(encoding="ascii").split()
        return got, dict(zip(KINDS, map(int, numbers)))

    def copies(self, program, words, stdin, asked):
        """The ends of the copies of one run, of which each is refused the call of one of the places, with their numbers
        of calls, by place."""
        kind, places, way = asked
        with (tempfile.TemporaryFile() as given, tempfile.TemporaryFile() as out, tempfile.TemporaryFile() as err,
              tempfile.NamedTemporaryFile(dir=self.folder.parent) as ends):
            given.write(stdin)
            given.seek(0)
            calls = {"LD_PRELOAD": str(self.shim), "REFUSE": f"{kind}:0:{way}",
                     "REFUSE_EACH": f"{places.start}:{places.step}", "REFUSE_ENDS": ends.name}
            subprocess.run([program, *words], cwd=self.folder, stdin=given, stdout=out, stderr=err,
                           env={**os.environ, **calls}, timeout=PATIENCE, check=False)
            return dict(ends_in(Path(ends.name).read_bytes()))

    def ends(self, program, words, stdin, asked):
        """The place that is refused, the end of the run with that, and its calls, for each place; of calls of a kind, in
        a way."""
        kind, places, way = asked
        lanes = [(kind, places[lane::LANES], way) for lane in range(min(LANES, len(places)))]
        found = {}
        with ThreadPoolExecutor(LANES) as pool:
            for some in pool.map(lambda it: self.copies(program, words, stdin, it), lanes):
                found |= some
        return [(place, *found.get(place, NO_END)) for place in places]


def ends_in(written):
    """Each place with the end of its copy and its numbers of calls, of what the shim told of copies."""
    while written:
        line, _, written = written.partition(b"\n")
        place, status, *calls, out, err = map(int, line.split())
        got = os.waitstatus_to_exitcode(status), written[:out], written[out:out + err]
        yield place, (got, dict(zip(KINDS, calls)))
        written = written[out + err:]


def each(kind, count, way=""):
    """What is asked to refuse each call of a kind: the kind, the places and the way."""
    return kind, range(1, count + 1), way


def is_read_failure(got):
    """Whether a run ended in a failed read, told in its line."""
    status, out, err = got
    return (status, out) == (DEVICE, b"") and err.endswith(b": ReadFailed\n") and err.count(b"\n") == 1


def is_want(got, ample, words):
    """Whether a run ends well for want of memory: with nothing written, or, as `normalize` does, a prefix of the
    form."""
    status, out, err = got
    return got == MEMORY or (words[:1] == ["normalize"] and (status, err) == (MEMORY[0], MEMORY[2])
                             and ample[1].startswith(out))


def is_read_failed(got, ample, words):
    """Whether a run ends well after a failed read: in its line, with nothing written, or as `normalize`
    does, a prefix of the form."""
    status, out, err = got
    if words[:1] == ["normalize"] and err == b"input: ReadFailed\n":
        return status == DEVICE and ample[1].startswith(out)
    return is_read_failure(got)


def is_write_failed(got, ample):
    """Whether a run ends well after a failed write: a prefix of the output is written and the line told; or,
    where the write was that of the line, nothing is told and the status is the same."""
    status, out, err = got
    if ample[2]:
        return (status, out) == ample[:2] and ample[2].startswith(err)
    return status == DEVICE and err == b"output: WriteFailed\n" and ample[1].startswith(out)


def is_hint_lost(got, ample):
    """Whether all is told but the line that names the refused word, which may lack memory or a write by itself."""
    status, out, err = got
    return (status, out) == ample[:2] and err.startswith(b"usage: ") and ample[2].partition(b"\n")[2] == err


def check_memory(tally, refusals, program, words, stdin, ample, count):
    """Each allocation refused in turn, and all from it on. How many refusals were told."""
    times = 0
    for way in ("", "rest"):
        ends = refusals.ends(program, words, stdin, each("memory", count, way))
        wrong = [(asked, got) for asked, got, _ in ends if got != ample and not is_want(got, ample, words) and not is_hint_lost(got, ample)]
        tally.check(f"{' '.join(words)} with each of {count} allocations refused {way}", not wrong,
                    f"got {shown(wrong[:1])}")
        times += sum(got != ample for _, got, _ in ends) if not way else 0
    return times


def is_last_call(kind, asked, got, calls, ample):
    """Whether no read came behind the one that failed; behind a failed write, none but that of the line, or of the usage text
    where the refused word's line was lost."""
    return calls[kind] == asked + (kind == "write" and (not ample[2] or is_hint_lost(got, ample)))


def check_devices(tally, refusals, program, words, stdin, ample, counts):
    """Each read and each write failed in turn, in each way; and all of one byte."""
    for kind, ways in WAYS.items():
        for way in ways:
            ends = refusals.ends(program, words, stdin, each(kind, counts[kind], way))
            name = f"{' '.join(words)} with each of {counts[kind]} {kind}s failed by {way}"
            wrong = [(asked, got) for asked, got, _ in ends
                     if not (is_read_failed(got, ample, words) if kind == "read" else is_write_failed(got, ample) or is_hint_lost(got, ample))]
            tally.check(name, not wrong, f"got {shown(wrong[:1])}")
            wrong = [(asked, calls) for asked, got, calls in ends if not is_last_call(kind, asked, got, calls, ample)]
            tally.check(f"{name}, and no call behind it", not wrong, f"got {shown(wrong[:1])}")
        got = refusals.run(program, words, stdin, REFUSE=f"{kind}:0:one")
        tally.same(f"{' '.join(words)} with {kind}s of one byte", got, ample)


def spread(asked):
    """At most MOST of these places, with equal steps between them."""
    kind, places, way = asked
    return kind, places[::max(-(-len(places) // MOST), 1)], way


def tests_of(program):
    """The names of the unit tests of a program."""
    listed = subprocess.run([program, "--list"], capture_output=True, text=True, check=False).stdout
    return [line.removesuffix(": test") for line in listed.splitlines() if line.endswith(": test")]


def check_tests(tally, refusals, program):
    """Each unit test with each of its allocations refused in turn. How many refusals each survived."""
    names = tests_of(program)
    tally.check(f"{program.name} has tests", names, "it lists none")
    survived = {}
    for name in names:
        got, counts = refusals.counted(program, [name], b"")
        tally.check(f"{name} with memory", got[0] == 0, f"got {shown(got)}")
        ways = ("", "rest") if "::a_refused_" in name else ("",)
        for way in ways:
            asked = each("memory", counts["memory"], way)
            if len(ways) == 1:
                asked = spread(asked)
            ends = refusals.ends(program, [name], b"", asked)
            wrong = [(asked, got) for asked, got, _ in ends if not is_test_end(name, got)]
            tally.check(f"{name} with {len(ends)} of {counts['memory']} allocations refused {way}", not wrong,
                        f"got {shown(wrong[:1])}")
            if way:
                # so does a call that answers that memory ran out whatever there is
                passed = [(asked, got) for asked, got, _ in ends if got[0] == 0]
                tally.check(f"{name} fails where memory stays refused", not passed, f"got {shown(passed[:1])}")
            else:
                survived[name] = sum(got[0] == 0 for _, got, _ in ends)
        if PROMISING in name:
            got = refusals.run(program, [name], b"", REFUSE=f"memory:{LARGE}:larger")
            tally.check(f"{name} with each large allocation refused", got[0] == 0, f"got {shown(got)}")
    return survived


def check_calls(tally, module, survived):
    """Each call that the module tests has one test in which it was refused memory, and made again."""
    for call in CALLS[module]:
        found = [count for name, count in survived.items()
                 if name.startswith(f"{module}::") and name.rpartition("::")[2] == f"a_refused_{call}_succeeds_after_all"]
        tally.check(f"{module}: {call} has a test that makes it again", len(found) == 1, f"{found}")
        print(f"{module}: {call}: {sum(found)} refused{'' if sum(found) else ', none is wanted there'}")


def is_test_end(name, got):
    """Whether a test ends well with an allocation refused."""
    status, out, err = got
    if "::a_refused_" in name:
        return status == 0 or (status == FAILED and any(word in out + err for word in (b"emory", b"AllocError", b"AllocFailed")))
    return status in (0, FAILED, -signal.SIGABRT)


def built_shim(folder):
    """What refuses, compiled into the folder; None where there is no C compiler."""
    compiler = shutil.which("cc") or shutil.which("gcc")
    if compiler is None:
        return None
    shim = folder / "refuse.so"
    subprocess.run([compiler, "-O2", "-shared", "-fPIC", "-o", shim, ROOT / "tests/program/refusals/refuse.c"], check=True)
    return shim


def check_program(tally, refusals, program, asked, commands):
    """Each of these runs of a program with calls refused, of which each command was told so."""
    refused = dict.fromkeys(commands, 0)
    for words, stdin in asked:
        ample, counts = refusals.counted(program, words, stdin)
        tally.same(f"{program.name} {' '.join(words)} with calls counted", ample, run(program, words, stdin, refusals.folder))
        times = check_memory(tally, refusals, program, words, stdin, ample, counts["memory"])
        command = f"{words[0]} {FLAG}" if FLAG in words else "".join(words[:1])
        if command in refused:
            refused[command] += times
        check_devices(tally, refusals, program, words, stdin, ample, counts)
    for command, count in refused.items():
        tally.check(f"{program.name} {command} was refused memory", count > 0, "no refused allocation was told")
        print(f"{program.name} {command}: {count} refused")


def main():
    tally = Tally()
    with tempfile.TemporaryDirectory() as name:
        folder = Path(name) / "files"
        shutil.copytree(FIXTURES, folder)
        write_all(folder)
        shim = built_shim(Path(name))
        if shim is None:
            print("skipped: refused allocations, reads and writes: there is no C compiler")
            tally.finish()
        refusals = Refusals(shim, folder)
        program, caseless = (Path(word).resolve() for word in sys.argv[1:3])
        check_program(tally, refusals, program, runs(), COMMANDS)
        check_program(tally, refusals, caseless, caseless_runs(), CASELESS_COMMANDS)
        survived = {}
        for path in sys.argv[3:]:
            survived |= check_tests(tally, refusals, Path(path).resolve())
        for module in CALLS if survived else ():
            check_calls(tally, module, survived)
    tally.finish()


if __name__ == "__main__":
    main()
