"""Texts that come through a pipe in pieces of random lengths: `normalize` writes the form that it writes of the whole.

The texts are those of the benchmark. A piece is given when the one before was read, so that each is read by
itself; pieces cut characters, segments and runs of non-starters. The seed is fixed.
"""

import fcntl
import random
import struct
import subprocess
import sys
import tempfile
import termios
import time

from harness import FORMS, ROOT, run

sys.path.append(str(ROOT / "bench" / "texts"))

import corpora

# How many bytes a text has, and the most that a piece has; most are shorter by far.
SIZE = 1 << 17
LONGEST = 8_192
SEED = 18
# No piece is waited for longer, in seconds.
PATIENCE = 60


def pieces_of(text, source):
    """The text in pieces of random lengths, half of which are below some 90 bytes."""
    at = 0
    while at < len(text):
        length = int(LONGEST ** source.random())
        yield text[at:at + length]
        at += length


def is_read(pipe):
    """Waits until nothing that was written to the pipe is left in it."""
    end = time.monotonic() + PATIENCE
    while time.monotonic() < end:
        if struct.unpack("i", fcntl.ioctl(pipe, termios.FIONREAD, b"\0" * 4))[0] == 0:
            return True
    return False


def run_cut(program, words, pieces):
    """The run that is given these pieces: its status and what it wrote."""
    with tempfile.TemporaryFile() as out, tempfile.TemporaryFile() as stderr:
        process = subprocess.Popen([str(program), *words], stdin=subprocess.PIPE, stdout=out, stderr=stderr)
        try:
            for piece in pieces:
                process.stdin.write(piece)
                process.stdin.flush()
                if not is_read(process.stdin):
                    break
            process.stdin.close()
        except BrokenPipeError:
            pass
        status = process.wait(PATIENCE)
        out.seek(0)
        stderr.seek(0)
        return status, out.read(), stderr.read()


def check_cuttings(tally, program, versions, test_strings):
    """Each text under each form, whole and in pieces."""
    source = random.Random(SEED)
    for name in corpora.NAMES:
        text = corpora.corpus(name, SIZE, test_strings)
        if text is None:
            print(f"skipped: {name} in pieces: NormalizationTest.txt is not there")
            continue
        for form in FORMS:
            words = ["normalize", "--form", form, *versions]
            pieces = list(pieces_of(text, source))
            got = run_cut(program, words, pieces)
            whole = run(program, words, text)
            tally.check(f"{name} under {form} in {len(pieces)} pieces", got == whole and whole[0] == 0,
                        f"status {got[0]}, {got[2]}, {len(got[1])} bytes for {len(whole[1])}")
