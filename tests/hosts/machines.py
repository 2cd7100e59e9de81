#!/usr/bin/env python3
"""tests/hosts/machines.py NPSS_LINES [PREFIX] [--names N]: many names on several workers, byte for byte what one process answers.

PREFIX is where ./build-c installed the library, that of this tree where none is named; the module npss is built over it. In
turn: examples/on_dask.py by 1, 2 and 4 workers of Dask, and by 2 of which one is killed in the middle; GNU parallel's
--sshlogin over two hosts, each a network namespace with an sshd of its own. 200,000 names where nobody says otherwise. Run as
root it installs Debian's packages that these want, unless NO_APT=1 is set; what can't run here is skipped, with the reason.
Ends in a line 'N passed, M failed'.
"""

import argparse
import os
import random
import shutil
import subprocess
import sys
import tempfile
import time
from pathlib import Path

sys.dont_write_bytecode = True
sys.path.insert(0, str(Path(__file__).resolve().parent.parent))

from hosts.hosts_apart import Hosts
from harness import ROOT, Tally, install
from ucd import DATA, EXCLUSIONS, package_files

PACKAGES = ("python3-distributed", "parallel", "openssh-server", "openssh-client", "iproute2")
SYSTEM_PYTHON = "/usr/bin/python3"
LETTERS = "abcdefghij \u00e9\u00e5\u00f1\u00f6\u00fc\u00df\ufb01\u2460\uac00\uac01\ud55c\uae00\u4e2d\u6587\u3072\u3089\u0301\u030a"
# Assigned by no version.
NEVER = "\u0378"
# A run that takes longer has no end.
PATIENCE = 300


def write_names(path, count):
    """Names of 4 to 14 code points; some have none that may be kept."""
    source = random.Random(count)
    with open(path, "w", encoding="utf-8") as file:
        for number in range(count):
            name = "".join(source.choices(LETTERS, k=source.randint(4, 14)))
            file.write(name + (NEVER if number % 1000 == 0 else "") + "\n")


def missing():
    """The commands and modules that are not here."""
    lacks = [name for name in ("parallel", "ssh", "sshd", "ip") if not shutil.which(name, path=f"{os.environ['PATH']}:/usr/sbin")]
    dask = subprocess.run([SYSTEM_PYTHON, "-c", "import distributed"], stderr=subprocess.DEVNULL, check=False).returncode if Path(SYSTEM_PYTHON).exists() else 1
    return [*lacks, *(["distributed"] if dask else [])]


def ran(words, **more):
    """A run's status and what it wrote to both streams; None where it has no end."""
    try:
        done = subprocess.run(list(map(str, words)), stdin=subprocess.DEVNULL, stdout=subprocess.PIPE, stderr=subprocess.STDOUT,
                              timeout=PATIENCE, check=False, **more)
    except subprocess.TimeoutExpired:
        return None, b"no end"
    return done.returncode, done.stdout


def check_dask(tally, room, site, files, wanted):
    """The example by workers of Dask."""
    block = max((room / "names").stat().st_size // 24, 1)
    environment = {**os.environ, "PYTHONPATH": f"{site}:{ROOT / 'examples'}", "DASK_TEMPORARY_DIRECTORY": str(room)}
    for workers in (1, 2, 4):
        since = time.monotonic()
        words = [SYSTEM_PYTHON, ROOT / "examples" / "on_dask.py", "--workers", workers, "--block", block, "nfkc", *files, room / "names", room / "dask"]
        status, output = ran(words, env=environment, cwd=room)
        print(f"Dask, {workers} workers, its start included: {time.monotonic() - since:.1f} s")
        tally.check(f"Dask by {workers} workers", status == 0 and (room / "dask").read_bytes() == wanted, output[-600:])
        (room / "dask").unlink(missing_ok=True)
    status, output = ran([SYSTEM_PYTHON, ROOT / "tests" / "hosts" / "machines" / "killed.py", block, *files, room / "names", room / "dask"], env=environment, cwd=room)
    tally.check("Dask where a worker is killed", status == 0 and (room / "dask").read_bytes() == wanted, output[-600:])


def check_parallel(tally, room, program, files, wanted):
    """GNU parallel with --sshlogin over two hosts."""
    hosts = Hosts(room)
    why = hosts.start()
    if why:
        print(f"skipped: GNU parallel over hosts: {why}")
        return
    with hosts:
        logins = [word for login in hosts.logins() for word in ("--sshlogin", f"4/{login}")]
        command = " ".join(map(str, [program, "--form", "nfkc", *files]))
        words = ["parallel", "--will-cite", "--pipepart", "-k", "-a", room / "names", "--block", "200k", *logins, command]
        status, output = ran(words, env={**os.environ, "HOME": str(room)})
        tally.check("GNU parallel over two hosts", status == 0 and output == wanted, f"{status} {len(output)} of {len(wanted)}: {output[-300:]!r}")
        tally.check("both hosts took part", all(hosts.served()), str(hosts.served()))


def main():
    parser = argparse.ArgumentParser()
    parser.add_argument("program", type=Path)
    parser.add_argument("prefix", nargs="?", type=Path, default=ROOT / "out" / "c")
    parser.add_argument("--names", type=int, default=200_000)
    words = parser.parse_args()
    tally = Tally()
    files, why = package_files()
    if missing():
        install(PACKAGES)
    lacks = missing()
    if files is None or not (words.prefix / "lib" / "libnpss.a").exists():
        print(f"skipped: many names on several workers: {why or 'the library for C is not built'}")
        tally.finish()
    files = [files[DATA], files[EXCLUSIONS]]
    with tempfile.TemporaryDirectory() as name:
        room, program = Path(name), words.program.resolve()
        write_names(room / "names", words.names)
        with open(room / "names", "rb") as given:
            wanted = subprocess.run([program, "--form", "nfkc", *files], stdin=given, stdout=subprocess.PIPE, check=True).stdout
        tally.check("an answer for each name", wanted.count(b"\n") == words.names and b"!unassigned 0378" in wanted, wanted[:80])
        if "distributed" in lacks:
            print("skipped: Dask: python3-distributed is missing")
        else:
            build = [sys.executable, ROOT / "bindings" / "python" / "build.py", "--prefix", words.prefix, room / "site"]
            status, output = ran(build)
            if tally.check("the module for Python is built", status == 0, output):
                check_dask(tally, room, room / "site", files, wanted)
        if [one for one in lacks if one != "distributed"]:
            print(f"skipped: GNU parallel over hosts: missing: {' '.join(lacks)}")
        else:
            check_parallel(tally, room, program, files, wanted)
    tally.finish()


if __name__ == "__main__":
    main()
