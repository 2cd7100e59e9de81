#!/usr/bin/env python3
"""Runs the built program end to end: tests/program/end_to_end.py PROGRAM [LAUNCHER].

The program runs in a folder of its own that holds copies of the fixtures, the files of versions.py and
the schedules of replays.py. Each case of cases.py and replays.py is one run, judged by its status,
standard output and standard error. Then come devices that fail, closed streams (streams.py), devices that go away
(vanishing.py), bounds on memory (limits.py), the launcher (launching.py too), the README's commands, and whether
every file is as it was. Ends in a line 'N passed, M failed'.
"""

import hashlib
import os
import re
import shutil
import subprocess
import sys
import tempfile
from pathlib import Path

# Nothing is written into the tree.
sys.dont_write_bytecode = True
sys.path.insert(0, str(Path(__file__).resolve().parent.parent))

from program.cases import DEVICE, USAGE, WRONG_WORDS, all_cases, text
from harness import ROOT, Tally, built_program, run, shown
from program.large import check_large
from program.launching import check_after_gate, check_building, check_order
from program.limits import check_longest, check_memory, check_usage
from program.replays import replay, replay_cases, schedules
from program.sayings import check_sayings
from program.streams import check_closed, check_closed_input, check_words
from program.vanishing import check_vanishing
from versions import V1, write_all

FIXTURES = ROOT / "fixtures"


def check_case(tally, program, folder, case):
    """One run against what it has to answer."""
    status, out, err = run(program, case.words, case.stdin, folder)
    tally.check(case.name(), (status, out, err) == (case.status, case.out, case.err.encode()),
                f"got {status} {shown(out)} {shown(err)}, "
                f"want {case.status} {shown(case.out)} {shown(case.err)}")


def device_runs():
    """One run that writes something, for each command: words and input."""
    for command in ("key", "normalize", "compare"):
        yield [command, "--form", "nfc", *V1], b"a\na" if command == "compare" else b"a"
    yield ["audit", *V1, *V1], b""
    yield replay("no-events.schedule", *V1), b""


def check_devices(tally, program, folder):
    """A full output, an input that can't be read, and a full standard error."""
    with open("/dev/full", "wb") as full:
        for words, stdin in device_runs():
            got = run(program, words, stdin, folder, stdout=full)
            tally.same(f"{words[0]} into a full device", got, (DEVICE, b"", b"output: WriteFailed\n"))
        status, out, _ = run(program, ["nothing"], b"", folder, stderr=full)
        tally.same("usage into a full device", (status, out), (WRONG_WORDS, b""))
    for words, _ in device_runs():
        if words[0] not in ("audit", "replay"):
            got = run_on_folder(program, words, folder)
            tally.same(f"{words[0]} from a folder", got, (DEVICE, b"", b"input: ReadFailed\n"))


def run_on_folder(program, words, folder):
    """The run whose standard input is a folder, which opens and can't be read."""
    handle = os.open(folder, os.O_RDONLY)
    try:
        return run(program, words, handle, folder)
    finally:
        os.close(handle)


def check_launcher(tally, launcher, folder):
    """The launcher keeps the caller's folder and the words, through a symbolic link too."""
    built_program()
    link = folder / "link"
    link.symlink_to(launcher)
    for way in (launcher, link):
        tally.same(f"{way.name} without words", run(way, [], b"", folder), (0, USAGE.encode(), b""))
        got = run(way, ["key", "--form", "nfd", *V1], text("0061 0302 0323"), folder)
        tally.same(f"{way.name} key", got, (0, text("0061 0323 0302"), b""))
        got = run(way, ["key", "a word", "*", ""], b"", folder)
        tally.same(f"{way.name} with odd words", got, (WRONG_WORDS, b"", USAGE.encode()))
    link.unlink()


def check_page(tally, page):
    """Each command of a page, by a plain shell, prints what stands below it."""
    text = (ROOT / page).read_text(encoding="utf-8")
    for block in re.findall(r"^```\n(\$ .*?)^```$", text, re.DOTALL | re.MULTILINE):
        for command, wanted in re.findall(r"^\$ (.*)\n((?:(?!\$ ).*\n)*)", block, re.MULTILINE):
            if "/usr/share/unicode/" in command and not Path("/usr/share/unicode/UnicodeData.txt").exists():
                print(f"skipped: {command}: the published files are not there")
                continue
            done = subprocess.run(["sh", "-c", command], cwd=ROOT, capture_output=True, text=True, check=False)
            tally.same(f"{page}: {command}", done.stdout + done.stderr, wanted)


def state_of(folder):
    """Every file and folder with its mode and contents."""
    return {
        str(path.relative_to(folder)):
            (path.lstat().st_mode, hashlib.sha256(path.read_bytes()).hexdigest() if path.is_file() else "")
        for path in sorted(folder.rglob("*"))
    }


def main():
    program = Path(sys.argv[1]).resolve()
    tally = Tally()
    with tempfile.TemporaryDirectory() as name:
        folder = Path(name) / "files"
        shutil.copytree(FIXTURES, folder)
        write_all(folder)
        for schedule, text_of_it in schedules().items():
            (folder / schedule).write_bytes(text_of_it.encode())
        before = state_of(folder)
        for case in (*all_cases(), *replay_cases()):
            check_case(tally, program, folder, case)
        check_devices(tally, program, folder)
        check_usage(tally, program, folder)
        check_closed(tally, program, folder)
        check_closed_input(tally, program, folder)
        check_words(tally, program, folder)
        check_vanishing(tally, program, folder)
        check_memory(tally, program, folder)
        check_longest(tally, program, folder)
        check_large(tally, program, folder)
        check_sayings(tally, program)
        if len(sys.argv) > 2:
            check_launcher(tally, Path(sys.argv[2]).resolve(), folder)
            check_building(tally, Path(sys.argv[2]).resolve(), Path(name))
            check_order(tally, Path(sys.argv[2]).resolve(), Path(name))
            check_after_gate(tally, Path(sys.argv[2]).resolve(), Path(name))
            check_page(tally, "README.md")
        tally.check("files are as they were", state_of(folder) == before, "a file changed")
    tally.finish()


if __name__ == "__main__":
    main()
