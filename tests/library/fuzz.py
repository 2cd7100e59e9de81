#!/usr/bin/env python3
"""Fuzzes the library for C: tests/library/fuzz.py [--seconds N] [--seed S] [--instrumented] [PREFIX].

PREFIX is where ./build-c installed the library, that of this tree where none is named. In turn, each for N seconds (default
20): libFuzzer over the calls, whose answers are held against ICU's; texts that are made to be hard, the same way; and
libFuzzer over npss_open and npss_open_caseless, with small files and with edits of a fixture and of the published ones.
Beside them folding files that were edited are opened, and held against the reader of tests/models/folding_files.py. ICU and
Debian's package unicode-data have to be of one version. What is found is written to out/fuzz, and its name is told. The
seed is told, too. With --instrumented the library is first built once more, with its branches counted, which leads libFuzzer
(tests/library/fuzz/instrumented.py).

Run as root it installs Debian's clang and libicu-dev where they are missing, unless NO_APT=1 is set. What can't run here is
skipped, with the reason. Ends in a line 'N passed, M failed'.
"""

import argparse
import os
import random
import re
import shutil
import subprocess
import sys
import tempfile
from concurrent.futures import ThreadPoolExecutor
from pathlib import Path

sys.path.insert(0, str(Path(__file__).resolve().parent.parent))

import ucd
import versions
from harness import ROOT, Tally, install, shown

HERE = ROOT / "tests" / "library" / "fuzz"
# Nothing is written into the tree but out/fuzz.
sys.dont_write_bytecode = True
sys.path.append(str(HERE))

import instrumented
import judged

FOUND = ROOT / "out" / "fuzz"
# The sources of each program.
CALLS = ("calls", "caseless", "sequences")
SOURCES = {"calls": CALLS, "texts": ("texts", *CALLS), "opening": ("opening",), "folding_answers": ("folding_answers",)}
# Those that have a main of their own.
PLAIN = ("texts", "folding_answers")
# A fuzzer that ran fewer inputs in a second did nothing. An opening of the published files takes some 10 ms.
LEAST = {"calls": 200, "texts": 200, "opening": 2}
# Folding files that are judged in a second, at the least.
LEAST_JUDGED = 20
# How much longer than its time a run may take: a single input, and the end.
PATIENCE = 120
# The bytes of the longest input of libFuzzer.
LONGEST = {"calls": 4096, "opening": 65536}
# What libFuzzer puts into its inputs.
DICTIONARIES = {"calls": "texts.dict", "opening": "folding.dict"}


def missing():
    """Debian's packages that are not here."""
    has_icu = shutil.which("pkg-config") and not subprocess.run(["pkg-config", "--exists", "icu-uc"], check=False).returncode
    return [package for package, here in (("clang", shutil.which("clang++")), ("pkg-config", shutil.which("pkg-config")),
                                          ("libicu-dev", has_icu)) if not here]


def reason():
    """Why nothing can run here; none where it can."""
    if missing():
        install(missing())
    if missing():
        return f"not here: {' '.join(missing())}"
    files, why = ucd.package_files()
    return why if files is None else None if ucd.FOLDING in files else f"the package unicode-data has no {ucd.FOLDING}"


def compiler(prefix, name):
    """The compiler with its flags, for the sources of a program."""
    checks = "address,undefined" if name in PLAIN else "fuzzer,address,undefined"
    flags = subprocess.run(["pkg-config", "--cflags", "icu-uc"], check=True, capture_output=True, text=True).stdout.split()
    return ["clang++", "-std=c++17", "-O1", "-g", "-Wall", "-Wextra", "-Werror", f"-fsanitize={checks}", "-fno-sanitize-recover=undefined",
            f"-I{prefix}/include", *flags]


def sources(name):
    """The sources of a program."""
    return [HERE / f"{source}.cc" for source in SOURCES[name]]


def compiled(prefix, folder, name, parts):
    """A fuzzer, or another program that stands beside them, of sources, objects and other words; and why it isn't there."""
    program = folder / name
    icu = subprocess.run(["pkg-config", "--libs", "icu-uc"], check=True, capture_output=True, text=True).stdout.split()
    words = [*compiler(prefix, name), *parts, prefix / "lib" / "libnpss.a", "-o", program, *icu]
    made = subprocess.run(list(map(str, words)), capture_output=True, text=True, check=False)
    return program, made.returncode and (made.stderr[-2000:] or f"status {made.returncode}")


def built(tally, name, made):
    """A program that was compiled; None where it wasn't."""
    program, why = made
    return program if tally.check(f"{name} is built", not why, why) else None


def seeds(folder):
    """Inputs to begin with: the files of each fixture, two of them and three, those at the edges, and edits of the published ones."""
    at = folder / "seeds"
    at.mkdir()
    foldings = ROOT / "fixtures" / "caseless"
    for number, version in enumerate((versions.V1, versions.V2), 1):
        two = b"\xff".join((ROOT / "fixtures" / name).read_bytes() for name in version)
        (at / str(number)).write_bytes(two)
        (at / f"caseless-{number}").write_bytes(two + b"\xff" + (foldings / f"v{number}" / ucd.FOLDING).read_bytes())
    for name, data in judged.edges():
        (at / name).write_bytes(b"\xff".join(path.read_bytes() for path in (data, ROOT / "fixtures" / versions.V1[1], foldings / "edges" / name)))
    for number, edit in enumerate(([1, 0, 0, 40, 0, 0, 65], [1, 2, 0, 40, 0, 12, 2], *([2, 2, 0, 60, 0, how, 33] for how in range(16)))):
        (at / f"edit-{number}").write_bytes(bytes(edit))
    return at


def words_of(name, program, folder, chosen):
    """The words by which a fuzzer is run."""
    if name in PLAIN:
        return [program, chosen.seconds, chosen.seed]
    words = [program, f"-max_total_time={chosen.seconds}", f"-seed={chosen.seed}", f"-max_len={LONGEST[name]}", "-print_final_stats=1",
             "-timeout=60", f"-artifact_prefix={FOUND}/{name}-", f"-dict={HERE / DICTIONARIES[name]}"]
    return [*words, seeds(folder)] if name == "opening" else words


def ran(words, chosen):
    """A run that has ended, with what it told; None where it came to no end."""
    try:
        return subprocess.run(list(map(str, words)), stdin=subprocess.DEVNULL, capture_output=True, text=True, errors="replace",
                              timeout=chosen.seconds + PATIENCE, env={**os.environ, "FIXTURES": str(ROOT / "fixtures")}, check=False)
    except subprocess.TimeoutExpired:
        return None


def check_run(tally, name, words, chosen):
    """A run to the end of its time, of enough inputs."""
    done = ran(words, chosen)
    if not tally.check(name, done, "no end"):
        return
    if not tally.check(name, done.returncode == 0, f"status {done.returncode}, seed {chosen.seed}: {(done.stdout + done.stderr)[-3000:]}"):
        return
    executed = re.search(r"^(?:stat::number_of_executed_units:\s*)?(\d+)$", done.stdout + done.stderr, re.MULTILINE)
    inputs = int(executed[1]) if executed else 0
    tally.check(f"{name}: inputs", inputs >= LEAST[name] * chosen.seconds, f"{inputs} in {chosen.seconds} s")
    print(f"{name}: {inputs} inputs in {chosen.seconds} s", flush=True)


def check_judged(tally, outcome, chosen):
    """Folding files that were opened and judged, enough of them, and no two answers; that of one with two is kept."""
    count, differing = outcome
    if differing:
        (FOUND / "judged").write_bytes(differing[1])
        differing = f"{FOUND}/judged beside version {differing[0]}, seed {chosen.seed}: got {shown(differing[2])}, want {shown(differing[3])}"
    tally.check("folding files beside their reader", differing is None, differing)
    tally.check("folding files: inputs", differing or count >= LEAST_JUDGED * chosen.seconds, f"{count} in {chosen.seconds} s")
    print(f"folding files beside their reader: {count} in {chosen.seconds} s", flush=True)


def main():
    parser = argparse.ArgumentParser(description="fuzzes the library for C beside ICU")
    parser.add_argument("--seconds", type=int, default=20, help="how long each runs (default 20)")
    parser.add_argument("--seed", type=int, default=random.randrange(1, 1 << 31))
    parser.add_argument("--instrumented", action="store_true", help="over a library whose branches are counted, built for it")
    parser.add_argument("prefix", type=Path, nargs="?", default=ROOT / "out" / "c", help="where ./build-c installed the library")
    chosen = parser.parse_args()
    tally, why = Tally(), reason()
    if why:
        print(f"skipped: the fuzzers: {why}")
        tally.finish()
    print(f"seed {chosen.seed}", flush=True)
    FOUND.mkdir(parents=True, exist_ok=True)
    with tempfile.TemporaryDirectory() as room, ThreadPoolExecutor() as pool:
        folder = Path(room)
        prefix = instrumented.library_below(folder) if chosen.instrumented else chosen.prefix.resolve()
        made = {name: pool.submit(compiled, prefix, folder, name, sources(name)) for name in SOURCES}
        answers = built(tally, "folding_answers", made["folding_answers"].result())
        judging = answers and pool.submit(judged.judge_until, answers, ucd.package_files()[0], chosen.seconds, chosen.seed)
        for name in LEAST:
            program = built(tally, name, made[name].result())
            if program:
                check_run(tally, name, words_of(name, program, folder, chosen), chosen)
        if judging:
            check_judged(tally, judging.result(), chosen)
    tally.finish()


if __name__ == "__main__":
    main()
