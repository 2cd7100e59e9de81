#!/usr/bin/env python3
"""Long runs, on demand: tests/on_demand/endurance.py [PROGRAM] [--only streams|replays] [--events N].

`normalize` over 1 GiB and 3 GiB through a pipe, whose peaks of memory are compared; over 5 GiB, of which it
reads 4,294,967,296 bytes and says so; and a replay of 1,000,000 events, ten times over one schedule.
Takes some minutes, prints its figures, and ends in a line 'N passed, M failed'.
"""

import argparse
import hashlib
import random
import subprocess
import sys
import tempfile
import threading
import time
from pathlib import Path

sys.dont_write_bytecode = True
sys.path.insert(0, str(Path(__file__).resolve().parent.parent))

import ucd
from harness import FORMS, ROOT, Tally, built_program, resident

GIB = 1 << 30
LIMIT = 4_294_967_295
# What is repeated: ASCII, composed and decomposed Latin, syllables, non-starters out of order. It begins with a
# starter that nothing before goes into, so the form of the whole is that of a piece, repeated.
PIECE = "A name, ".encode() * 400 + "Ångström, Zażółć, a\u0302\u0323 ".encode() * 200 + "한글 ".encode() * 300
# Peaks of memory that differ by less are one, in MiB.
SAME = 1.0


def peak(program, words, give, consume):
    """A run that is given pieces and whose output is taken: its status, its line, its seconds and its peak in MiB, looked
    at whenever output comes."""
    began = time.monotonic()
    with tempfile.TemporaryFile() as stderr:
        run = subprocess.Popen([program, *words], stdin=subprocess.PIPE, stdout=subprocess.PIPE, stderr=stderr, cwd=ROOT)
        feeder = threading.Thread(target=feed, args=(run.stdin, give))
        feeder.start()
        most = 0.0
        while piece := run.stdout.read(1 << 20):
            most = max(most, resident(run.pid))
            consume(piece)
        run.wait()
        feeder.join()
        stderr.seek(0)
        return run.returncode, stderr.read(), time.monotonic() - began, most


def feed(pipe, pieces):
    """Writes the pieces; a reader that goes away early ends that."""
    try:
        for piece in pieces:
            pipe.write(piece)
        pipe.close()
    except BrokenPipeError:
        pass


def pieces(size):
    """So many bytes of the piece, repeated."""
    many = PIECE * 200
    while size > 0:
        yield many[:size]
        size -= len(many)


class Output:
    """Compares what comes with a piece, repeated."""

    def __init__(self, piece):
        self.piece = piece * 200
        self.length = 0
        self.right = True

    def compare(self, bytes_):
        at = self.length % len(self.piece)
        wanted = (self.piece + self.piece)[at:at + len(bytes_)] if len(bytes_) <= len(self.piece) else None
        while wanted is not None and len(wanted) < len(bytes_):
            wanted += self.piece
        if wanted is not None:
            self.right &= wanted[:len(bytes_)] == bytes_
        self.length += len(bytes_)


def form_of(program, words):
    """The form of one piece."""
    return subprocess.run([program, *words], input=PIECE, stdout=subprocess.PIPE, check=True, cwd=ROOT).stdout


def check_streams(tally, program, files):
    """Peaks of memory over two lengths, and the limit."""
    for form in FORMS:
        words = ["normalize", "--form", form, *files]
        piece = form_of(program, words)
        peaks = []
        for size in (GIB, 3 * GIB):
            output = Output(piece)
            status, stderr, seconds, mebibytes = peak(program, words, pieces(size), output.compare)
            peaks.append(mebibytes)
            print(f"{form}: {size >> 30} GiB in {seconds:.1f} s, {size / seconds / 1e6:.0f} MB/s, peak {mebibytes:.1f} MiB")
            tally.check(f"{form} of {size >> 30} GiB", (status, stderr) == (0, b"") and output.right and output.length,
                        f"status {status}, {stderr}, {output.length} bytes")
        tally.check(f"{form}: the peak is steady", abs(peaks[1] - peaks[0]) < SAME, f"{peaks}")
    output = Output(form_of(program, ["normalize", "--form", "nfc", *files]))
    status, stderr, seconds, mebibytes = peak(program, ["normalize", "--form", "nfc", *files], pieces(5 * GIB), output.compare)
    print(f"nfc: 5 GiB given, {output.length} bytes written in {seconds:.1f} s, peak {mebibytes:.1f} MiB, {stderr}")
    tally.check("5 GiB are too many", (status, stderr) == (4, b"input: TooLarge\n") and output.right
                and 0 < output.length <= LIMIT, f"status {status}, {stderr}, {output.length} bytes")


# Names are of one or two of these, so that a million events have fewer than 16,777,216 bytes.
SIGNS = [*"aeionrstlAEO", "\u0301", "\u0323", "\u00e9", "\u00c5", *map(chr, range(0xAC00, 0xAC28))]


def schedule(count):
    """Events of a fixed seed over 8 nodes, with names in Latin and Korean."""
    chance = random.Random(20)
    names = [" ".join(f"{ord(c):04X}" for c in chance.choices(SIGNS, k=chance.choice((1, 2)))) for _ in range(3000)]
    lines = ["room 4000", "nodes " + " ".join(["0"] * 8)]
    for _ in range(count):
        node, draw = chance.randrange(8), chance.random()
        if draw < 0.25:
            lines.append(f"accept {node} {chance.choice(names)}")
        elif draw < 0.9:
            lines.append(f"deliver {node} {chance.randrange(1000)}")
        elif draw < 0.999:
            lines.append(f"ask {node} {chance.choice(names)} / {chance.choice(names)}")
        elif draw < 0.9995:
            lines.append(f"forget {node} {chance.choice(names)}")
        else:
            lines.append(chance.choice(("save {}", "restart {}", "restart {} 0", "upgrade {}")).format(node))
    return "\n".join(lines) + "\n"


def check_replays(tally, program, files, events):
    """One schedule ten times: the same report, and the same peak."""
    with tempfile.TemporaryDirectory() as name:
        path = Path(name) / "schedule"
        path.write_text(schedule(events), encoding="ascii")
        reports, peaks = set(), []
        for _ in range(10):
            digest = hashlib.sha256()
            status, stderr, seconds, mebibytes = peak(
                program, ["replay", "--form", "nfc", path, *files], [], digest.update)
            reports.add((status, stderr, digest.hexdigest()))
            peaks.append(mebibytes)
            print(f"replay: status {status} in {seconds:.1f} s, peak {mebibytes:.1f} MiB")
        tally.check("ten replays are one", len(reports) == 1 and next(iter(reports))[:2] == (0, b""), f"{reports}")
        tally.check("the peak of replays is steady", max(peaks) - min(peaks) < SAME, f"{peaks}")


def main():
    parser = argparse.ArgumentParser(description="long runs")
    parser.add_argument("program", type=Path, nargs="?")
    parser.add_argument("--only", choices=("streams", "replays"), help="leave the others out")
    parser.add_argument("--events", type=int, default=1_000_000)
    chosen = parser.parse_args()
    program = chosen.program.resolve() if chosen.program else built_program()
    tally = Tally()
    folder = Path("/usr/share/unicode")
    if not (folder / ucd.DATA).exists():
        print("skipped: long runs: the published files are not there")
        tally.finish()
    files = [folder / ucd.DATA, folder / ucd.EXCLUSIONS]
    if chosen.only != "replays":
        check_streams(tally, program, files)
    if chosen.only != "streams":
        check_replays(tally, program, files, chosen.events)
    tally.finish()


if __name__ == "__main__":
    main()
