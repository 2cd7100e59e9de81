#!/usr/bin/env python3
"""tests/hosts/registry.py PROGRAM [PREFIX] [--seconds N]: tests the registry of hosts/registry, and runs it in chaos.

PROGRAM is npss. PREFIX is where ./build-c installed the library, that of this tree where none is named; the module npss is
built over it. In turn: the registry's own tests; chaos over a log of each kind of which there are a server and a client, a
SQLite file, Redis, PostgreSQL and etcd, and over a caseless log in a file, for N seconds each, 20 where nobody says otherwise, and
behind each the log's own faults, which take some 10 seconds. Run as root it installs Debian's packages of PACKAGES where they are missing, unless
NO_APT=1 is set; what can't be had is skipped, with its name. Ends in a line 'N passed, M failed'.
"""

import argparse
import os
import re
import shutil
import subprocess
import sys
import tempfile
from pathlib import Path

sys.path.insert(0, str(Path(__file__).resolve().parent.parent))

from harness import ROOT, Tally, install, programs_in

HOST = ROOT / "hosts" / "registry"
PACKAGES = ("redis-server", "python3-redis", "postgresql", "python3-psycopg", "etcd-server", "python3-starlette", "python3-uvicorn",
            "python3-prometheus-client", "mypy", "chromium")
# What all of it wants, and what all but PostgreSQL's does.
MODULES = ("import prometheus_client, psycopg, redis, starlette, uvicorn", "import prometheus_client, redis, starlette, uvicorn")
PROGRAMS = ("redis-server", "etcd", "mypy", "chromium")
SYSTEM_PYTHON = "/usr/bin/python3"


def with_modules(wanted=MODULES):
    """A Python that has the modules, as many as there are; None where there is none."""
    for modules in wanted:
        for python in (sys.executable, SYSTEM_PYTHON):
            if Path(python).exists() and subprocess.run([python, "-c", modules], stderr=subprocess.DEVNULL, check=False).returncode == 0:
                return python
    return None


def kinds_here(python, environment):
    """The kinds of logs of which a Python has the client and this machine the server."""
    words = [python, "-c", f"import sys; sys.path.insert(0, {str(ROOT / 'tests')!r}); from hosts import chaos_servers; print(*chaos_servers.here())"]
    return subprocess.run(words, env=environment, stdout=subprocess.PIPE, text=True, check=True).stdout.split()


def counted(tally, name, command, environment):
    """Runs a test that ends in a line 'N passed, M failed', shows what it skipped, and adds it up."""
    ran = subprocess.run(list(map(str, command)), env=environment, stdin=subprocess.DEVNULL, stdout=subprocess.PIPE,
                         stderr=subprocess.STDOUT, text=True, check=False)
    lines = ran.stdout.strip().splitlines()
    last = re.fullmatch(r"(\d+) passed, (\d+) failed", lines[-1] if lines else "")
    print("\n".join(line for line in lines[:-1] if last and not int(last[2]) or line.startswith("skipped: ")), flush=True)
    if last:
        tally.passed += int(last[1])
        tally.failed += int(last[2])
    if not last or int(last[2]):
        print(ran.stdout[-6000:])
    tally.check(name, last and ran.returncode == (1 if int(last[2]) else 0), f"status {ran.returncode}")


def main():
    parser = argparse.ArgumentParser()
    parser.add_argument("program", type=Path)
    parser.add_argument("prefix", nargs="?", type=Path, default=ROOT / "out" / "c")
    parser.add_argument("--seconds", type=float, default=20)
    words = parser.parse_args()
    # Its tests have folders of their own.
    words.program = words.program.absolute()
    tally = Tally()
    if not (words.prefix / "lib" / "libnpss.a").exists() or not shutil.which("cc"):
        print("skipped: the registry: the library for C isn't built, or there is no C compiler")
        tally.finish()
    if not (with_modules(MODULES[:1]) and all(map(shutil.which, PROGRAMS)) and Path("/usr/lib/postgresql").exists()):
        install(PACKAGES)
    python = with_modules()
    if python is None:
        print("skipped: the registry over HTTP and over Redis: python3-redis, python3-starlette, python3-uvicorn or python3-prometheus-client is missing")
    python = python or sys.executable
    with tempfile.TemporaryDirectory() as site, tempfile.TemporaryDirectory() as beside:
        words.program = programs_in(Path(beside), words.program)
        build = [sys.executable, ROOT / "bindings" / "python" / "build.py", "--prefix", words.prefix, site]
        built = subprocess.run(build, stdout=subprocess.PIPE, stderr=subprocess.STDOUT, text=True, check=False)
        if not tally.check("the module for Python is built", built.returncode == 0, built.stdout):
            tally.finish()
        environment = {**os.environ, "PYTHONPATH": f"{site}:{HOST}"}
        counted(tally, "the registry's own tests", [python, HOST / "tests" / "test_registry.py", words.program, ROOT / "fixtures"], environment)
        mypy = [one for one in (python, SYSTEM_PYTHON) if subprocess.run([one, "-c", "import mypy"], stderr=subprocess.DEVNULL, check=False).returncode == 0]
        if mypy:
            typed = subprocess.run([mypy[0], "-m", "mypy", "--cache-dir", os.devnull, "npss_registry"], cwd=HOST, stdout=subprocess.PIPE,
                                   stderr=subprocess.STDOUT, text=True, env={**os.environ, "MYPYPATH": site}, check=False)
            tally.check("the registry's types", typed.returncode == 0, typed.stdout)
        else:
            print("skipped: the registry's types: mypy is not here")
        logs = kinds_here(python, environment)
        chaos = [python, ROOT / "tests" / "hosts" / "chaos.py", "--seconds", words.seconds]
        print("".join(f"skipped: chaos over {log}: its server or its client is not here\n" for log in ("redis", "postgres", "etcd") if log not in logs), end="")
        for log in logs:
            counted(tally, f"chaos over {log}", [*chaos, "--log", log, words.program], environment)
        counted(tally, "chaos over a caseless log", [*chaos, "--log", logs[0], "--caseless", words.program], environment)
    tally.finish()


if __name__ == "__main__":
    main()
