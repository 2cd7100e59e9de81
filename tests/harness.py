"""What the test scripts share: runs of the program, and the count."""

import fcntl
import os
import re
import shutil
import subprocess
import sys
from pathlib import Path

ROOT = Path(__file__).resolve().parent.parent

FORMS = ("nfd", "nfc", "nfkd", "nfkc")


def install(packages):
    """Asks Debian for packages, where that may be, and says so first. Steps that run side by side wait for one another."""
    if os.environ.get("NO_APT") or os.geteuid() or not shutil.which("apt-get"):
        return
    print(f"installing {' '.join(packages)} by apt-get", flush=True)
    environment = {**os.environ, "DEBIAN_FRONTEND": "noninteractive"}
    (ROOT / "out").mkdir(exist_ok=True)
    # ./conformance has the same lock
    with open(ROOT / "out" / "apt.lock", "w", encoding="utf-8") as lock:
        fcntl.flock(lock, fcntl.LOCK_EX)
        for words in (["update", "-q"], ["install", "-q", "-y", "--no-install-recommends", *packages]):
            subprocess.run(["apt-get", *words], env=environment, stdin=subprocess.DEVNULL, stdout=subprocess.DEVNULL, stderr=subprocess.DEVNULL, check=False)


def built_program(name="npss"):
    """The built program; the launcher builds it where it is missing or old. None where that fails."""
    done = subprocess.run([ROOT / name], stdin=subprocess.DEVNULL, stdout=subprocess.DEVNULL)
    return ROOT / "crates" / name / "out" / name if done.returncode == 0 else None


def programs_in(folder, program):
    """A program npss that has npss_lines and npss_caseless beside it, as an installation has: in this tree, where they stand apart, by links in a folder."""
    program = Path(program).absolute()
    others = ("npss_lines", "npss_caseless")
    folder.chmod(0o755)  # for tests that give up their rights
    if all(program.with_name(name).exists() for name in others):
        return program
    for name in others:
        (folder / name).symlink_to(ROOT / "crates" / name / "out" / name)
    (folder / "npss").symlink_to(program)
    return folder / "npss"


def run(program, words, stdin=b"", folder=None, **options):
    """The run of the program with these words: its status and what it wrote.

    `stdin` is bytes, or an open file. `options` are those of `subprocess.run`: they may put an open
    file in the place of `stdout` or `stderr`; what goes there is answered as nothing.
    """
    given = {"input": stdin} if isinstance(stdin, bytes) else {"stdin": stdin}
    wanted = {"stdout": subprocess.PIPE, "stderr": subprocess.PIPE}
    wanted.update(options)
    try:
        done = subprocess.run([str(program), *words], cwd=folder, timeout=120, **given, **wanted)
    except subprocess.TimeoutExpired:
        return None, b"", b"no end after two minutes"
    return done.returncode, done.stdout or b"", done.stderr or b""


def output_of(tally, name, words, **options):
    """What a command writes, which has to end with status 0."""
    done = subprocess.run(list(map(str, words)), stdin=subprocess.DEVNULL, stdout=subprocess.PIPE, stderr=subprocess.STDOUT, text=True,
                          check=False, **options)
    return done.stdout if tally.check(name, done.returncode == 0, f"status {done.returncode}: {done.stdout[-3000:]}") else ""


def resident(number):
    """The peak so far of a process, in MiB: its own, since what `wait` tells counts the memory of this one too."""
    try:
        found = re.search(r"^VmHWM:\s*(\d+)", Path(f"/proc/{number}/status").read_text(encoding="ascii"), re.MULTILINE)
    except FileNotFoundError:
        return 0.0
    return int(found[1]) / 1024 if found else 0.0


def shown(value, limit=200):
    """The value for a line of output, cut where it is long."""
    text = repr(value)
    return text if len(text) <= limit else f"{text[:limit]}... ({len(value)})"


class Tally:
    """Counts what passed and what failed, and names each failure."""

    def __init__(self):
        self.passed = 0
        self.failed = 0

    def check(self, name, holds, detail=""):
        """Counts one check; where it doesn't hold, prints its name and the detail."""
        if holds:
            self.passed += 1
        else:
            self.failed += 1
            print(f"FAILED {name}: {detail}")
        return holds

    def same(self, name, got, want):
        """Counts one comparison."""
        return self.check(name, got == want, f"got {shown(got)}, want {shown(want)}")

    def finish(self):
        """Prints the last line and ends with the status."""
        print(f"{self.passed} passed, {self.failed} failed")
        sys.exit(1 if self.failed else 0)
