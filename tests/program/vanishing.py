"""Runs of the program whose devices go away: a pipe that nobody reads, files that shrink, a terminal that is gone.

Each ends in the status and the line of its device, or in the answer to what was still there.
"""

import fcntl
import os
import pty
import subprocess
import threading
import time

from program.cases import BAD_TEXT, DEVICE, text
from harness import run
from program.replays import replay
from versions import V1, V2

UNWRITTEN = (DEVICE, b"", b"output: WriteFailed\n")
# More than a pipe and a piece of the input hold together.
SIZE = 1 << 20
# The least that a pipe can be told to hold.
PIPE = 4096
PATIENCE = 60
# A program that has not read on for so many seconds waits for its output, on a busy machine too.
STILL = 2


def runs():
    """A run of each command that writes something: words and input."""
    for command in ("key", "normalize"):
        yield [command, "--form", "nfc", *V1], text("0061 0302 0323")
    yield ["key", "--form", "nfc", "--check-under", *V1, *V2], text("0061 0302 0323")
    yield ["compare", "--form", "nfc", *V1], b"a\na"
    yield ["audit", *V1, *V1], b""
    yield replay("no-events.schedule", *V1), b""
    yield [], b""


def check_pipes(tally, program, folder):
    """Each command into a pipe that nobody reads, and a long form of which one byte is read."""
    for words, stdin in runs():
        reader, writer = os.pipe()
        os.close(reader)
        tally.same(f"{words[:1]} into a pipe that nobody reads", run(program, words, stdin, folder, stdout=writer), UNWRITTEN)
        os.close(writer)
    with subprocess.Popen([program, "normalize", "--form", "nfd", *V1], cwd=folder, stdin=subprocess.PIPE,
                          stdout=subprocess.PIPE, stderr=subprocess.PIPE) as running:
        feeder = threading.Thread(target=feed, args=(running.stdin, text("00E2") * SIZE))
        feeder.start()
        first = os.read(running.stdout.fileno(), 1)
        running.stdout.close()
        stderr = running.stderr.read()
        feeder.join()
        tally.same("one byte of a long form is read", (first, running.wait(PATIENCE), stderr), (b"a", DEVICE, UNWRITTEN[2]))


def feed(pipe, given):
    """Writes what is given; a reader that goes away early ends that."""
    try:
        pipe.write(given)
        pipe.close()
    except BrokenPipeError:
        pass


def stopped_at(running, handle):
    """The place in a file where the program that reads it waits."""
    place, since = -1, time.monotonic()
    while time.monotonic() - since < STILL:
        time.sleep(0.02)
        now = os.lseek(handle, 0, os.SEEK_CUR)
        if now != place or now == 0:
            place, since = now, time.monotonic() if now else since
        if running.poll() is not None:
            break
    return place


def shrunken(program, path, size, folder):
    """The run of `normalize` over a file that is cut to this size while the program waits for its output to be
    read: the place where it waited, its status, and what it wrote."""
    handle = os.open(path, os.O_RDONLY)
    reader, writer = os.pipe()
    # the pipe is made small before anything is in it
    fcntl.fcntl(writer, fcntl.F_SETPIPE_SZ, PIPE)
    with subprocess.Popen([program, "normalize", "--form", "nfc", *V1], cwd=folder, stdin=handle, stdout=writer,
                          stderr=subprocess.PIPE) as running, open(reader, "rb") as output:
        os.close(writer)
        place = stopped_at(running, handle)
        os.truncate(path, size)
        out, stderr = output.read(), running.stderr.read()
        os.close(handle)
        return place, running.wait(PATIENCE), out, stderr


def check_files(tally, program, folder):
    """An input that is cut while it is read, before and behind the place, and a data file that is cut once it is open."""
    path = folder.parent / "shrinking"
    letter = text("00E2")
    path.write_bytes(letter * SIZE)
    place, status, out, stderr = shrunken(program, path, len(letter), folder)
    tally.check("an input cut before the place is the text so far", 0 < place < 2 * SIZE and place % 2 == 0
                and (status, out, stderr) == (0, letter * (place // 2), b""), f"{place} {status} {len(out)} {stderr}")
    path.write_bytes(letter * SIZE)
    place, status, out, stderr = shrunken(program, path, 2 * SIZE - 1, folder)
    tally.check("an input cut in a character is no text", 0 < place < 2 * SIZE - 1 and status == BAD_TEXT
                and (letter * SIZE).startswith(out) and stderr == f"input: not UTF-8 at byte {2 * SIZE - 2}\n".encode(),
                f"{place} {status} {len(out)} {stderr}")
    # the first file is a pipe, which holds the program up when all files are open and none is read
    data, waiting = (folder / V1[0]).read_bytes(), folder.parent / "waiting"
    path.write_bytes(data)
    os.mkfifo(waiting)
    with subprocess.Popen([program, "audit", waiting, V1[1], path, V1[1]], cwd=folder, stdout=subprocess.PIPE,
                          stderr=subprocess.PIPE) as running:
        with open(waiting, "wb") as pipe:
            names = f"/proc/{running.pid}/fd"
            since = time.monotonic()
            while str(path) not in open_files(names) and time.monotonic() - since < PATIENCE:
                time.sleep(0.01)
            os.truncate(path, data.index(b"\n") + 3)
            pipe.write(data)
        out, stderr = running.stdout.read(), running.stderr.read()
        tally.same("a data file cut once it is open", (running.wait(PATIENCE), out, stderr),
                   (BAD_TEXT, b"", b"version 1 data: line 2: FieldCount\n"))
    waiting.unlink()
    path.unlink()


def open_files(names):
    """The files that a process has open."""
    try:
        return {os.readlink(f"{names}/{name}") for name in os.listdir(names)}
    except FileNotFoundError:
        return set()


def check_terminals(tally, program, folder):
    """A terminal that is gone takes nothing and has nothing more to read."""
    for words, stdin in runs():
        master, slave = pty.openpty()
        os.close(master)
        tally.same(f"{words[:1]} to a terminal that is gone", run(program, words, stdin, folder, stdout=slave), UNWRITTEN)
        os.close(slave)
    for words, wanted in ((["key", "--form", "nfc", *V1], (0, b"", b"")),
                          (["key", "--form", "nfc", "--check-under", *V1, *V2], (0, b"own form\n", b"")),
                          (["normalize", "--form", "nfc", *V1], (0, b"", b"")),
                          (["compare", "--form", "nfc", *V1], (BAD_TEXT, b"", b"input: two lines wanted\n"))):
        master, slave = pty.openpty()
        os.close(master)
        tally.same(f"{words[0]} from a terminal that is gone", run(program, words, slave, folder), wanted)
        os.close(slave)


def check_vanishing(tally, program, folder):
    """All of them."""
    check_pipes(tally, program, folder)
    check_files(tally, program, folder)
    check_terminals(tally, program, folder)
