#!/usr/bin/env python3
"""tests/hosts/databases.py [PREFIX]: tests the keys in PostgreSQL and SQLite, over versions 13.0, 14.0 and 15.0.

PREFIX is where ./build-c installed the library, that of this tree where none is named. The versions are those of Debian's
package unicode-data, 15.0, and two that are cut from it. Then come stores without an extension, MariaDB too (key_columns.py).
Run as root it installs Debian's postgresql, its headers, libsqlite3-dev, sqlite3, mariadb-server and the clients for Python
where they are missing, unless NO_APT=1 is set; what can't be had is skipped, with its name. Ends in a line 'N passed, M failed'.
"""

import os
import re
import shutil
import subprocess
import sys
import tempfile
from pathlib import Path

sys.path.insert(0, str(Path(__file__).resolve().parent.parent))

import page_names
import ucd
from harness import ROOT, Tally, install

POSTGRESQL, SQLITE = ROOT / "databases" / "postgresql", ROOT / "databases" / "sqlite"
sys.path[:0] = [str(POSTGRESQL), str(ROOT / "packaging")]

import release
from server import is_here as has_postgresql

PACKAGES = ("postgresql", "postgresql-server-dev-all", "libsqlite3-dev", "sqlite3", "mariadb-server", "python3-psycopg", "python3-pymysql")
AGES = ((13, 0), (14, 0))
SYSTEM_PYTHON = "/usr/bin/python3"
LOADS = "import sqlite3; sqlite3.connect(':memory:').enable_load_extension(True)"
CLIENTS = "import psycopg, pymysql"


def has_sqlite():
    return Path("/usr/include/sqlite3ext.h").exists() and shutil.which("sqlite3")


def versions_below(files, folder):
    """A folder that has one folder for each version, and all once more with CaseFolding.txt below `caseless`, for anybody to read."""
    for age in AGES:
        names, kept = ucd.write_cut(files, age, folder)
        put_version(folder, ".".join(map(str, age)), names, ucd.cut_foldings(ucd.text_of(files, ucd.FOLDING), kept))
    put_version(folder, "15.0", [files[ucd.DATA], files[ucd.EXCLUSIONS]], ucd.text_of(files, ucd.FOLDING))
    folder.chmod(0o755)
    return folder


def put_version(folder, label, names, folding):
    """Puts the two files of a version below its label, and with its foldings below `caseless`."""
    for to in (folder / label, folder / "caseless" / label):
        to.mkdir(parents=True)
        for name, file in zip(names, (ucd.DATA, ucd.EXCLUSIONS)):
            shutil.copy(name, to / file)
    (folder / "caseless" / label / ucd.FOLDING).write_text(folding, encoding="utf-8")


def counted(tally, name, words, **options):
    """Runs a test that ends in a line 'N passed, M failed', and adds it up."""
    ran = subprocess.run(list(map(str, words)), **options, stdin=subprocess.DEVNULL, stdout=subprocess.PIPE, stderr=subprocess.STDOUT, text=True, check=False)
    lines = ran.stdout.strip().splitlines()
    last = re.fullmatch(r"(\d+) passed, (\d+) failed", lines[-1] if lines else "")
    print("".join(f"{line}\n" for line in lines if line.startswith("skipped: ")), end="", flush=True)
    if last:
        tally.passed += int(last[1])
        tally.failed += int(last[2])
    if not last or int(last[2]):
        print(ran.stdout[-8000:])
    tally.check(name, last and ran.returncode == (1 if int(last[2]) else 0), f"status {ran.returncode}")


def python_for(code):
    """A Python that can do this; None where there is none."""
    for python in (sys.executable, SYSTEM_PYTHON):
        if Path(python).exists() and subprocess.run([python, "-c", code], stderr=subprocess.DEVNULL, check=False).returncode == 0:
            return python
    return None


def loading_python():
    """A Python whose sqlite3 loads extensions; None where there is none."""
    return python_for(LOADS)


def wanted_of_common():
    """What the extensions tell of each number, by the pages; a number that no page has is unknown."""
    files, tables, breaks = page_names.file_faults(), page_names.table_faults(), page_names.break_names()
    lines, conditions = page_names.folding_faults(), page_names.condition_faults()
    wanted = {}
    for number in (*range(16), 64, 1 << 31, (1 << 32) - 1):
        wanted |= {f"break {number}": breaks.get(number, "unknown"),
                   f"data {number}": f"UnicodeData.txt, line {(1 << 64) - 1}: {files.get(number, 'unknown')}",
                   f"exclusions {number}": f"CompositionExclusions.txt, line 7: {files.get(number, 'unknown')}",
                   f"tables {number}": f"Both files together: {tables.get(number, 'unknown')} at code point U+10FFFF",
                   f"folding {number}": f"CaseFolding.txt, line 7: {lines.get(number, 'unknown')}",
                   f"foldings {number}": f"The three files together: {conditions.get(number, 'unknown')} at code point U+0041"}
    for number, name in enumerate((ucd.DATA, ucd.EXCLUSIONS, ucd.FOLDING), 1):
        wanted[f"large {number}"] = f"{name} has more than 16777216 bytes"
    return wanted | {"status 0": "the library answered 4294967295", "digested": "0200000000000000616263"}


def check_common(tally, prefix, room):
    """What both extensions have, with numbers that no library of today answers, and words at the edge."""
    words = {"nfc": ord("C"), "NFD": ord("D"), "nFkC": ord("c"), "NFKD": ord("d"), "nf": 0, "nfcd": 0, "nfk": 0, "\x0efc": 0, "NF\x03": 0, "": 0}
    labels = {"15.0": 1, "a" * 31: 1, "a" * 32: 0, ".": 0, "..": 0, ".a": 0, "a/b": 0, "a b": 0, "": 0, "A_z-9.": 1, "\u00e9": 0}
    program = room / "test_common"
    build = ["cc", "-std=c11", "-O1", "-g", "-Wall", "-Wextra", "-Werror", "-fsanitize=address,undefined", "-fno-sanitize-recover=all", f"-I{prefix}/include",
             ROOT / "databases" / "test_common.c", ROOT / "databases" / "common.c", prefix / "lib" / "libnpss.a", "-o", program]
    built = subprocess.run(list(map(str, build)), stdout=subprocess.PIPE, stderr=subprocess.STDOUT, text=True, check=False)
    if not tally.check("what the extensions share is built", built.returncode == 0, built.stdout):
        return
    ran = subprocess.run([program, *words, *labels], stdout=subprocess.PIPE, stderr=subprocess.STDOUT, text=True, check=False)
    answers = dict(line.split("\t", 1) for line in ran.stdout.splitlines())
    wanted = wanted_of_common()
    tally.same("what the extensions share tells", (ran.returncode, {name: answers.get(name) for name in wanted}), (0, wanted))
    tally.check("the pages have all names", sum("unknown" not in text for name, text in wanted.items() if name.startswith(("break", "data", "tables", "folding"))) >= 33, wanted)
    tally.same("forms by their words", {word: int(answers[f"word {word}"].split()[0]) for word in words}, words)
    tally.same("labels of versions", {word: int(answers[f"word {word}"].split()[1]) for word in labels}, labels)


def check_sqlite(tally, prefix, versions, room):
    """The extension for SQLite, built with all warnings."""
    python = loading_python()
    if not has_sqlite() or not python:
        print("skipped: keys in SQLite: its headers, its shell, or a Python that loads extensions")
        return
    make = ["make", "-s", "-C", SQLITE, f"NPSS={prefix}", f"OUT={room}", "CFLAGS=-O2 -g -Wall -Wextra -Werror"]
    built = subprocess.run(list(map(str, make)), stdout=subprocess.PIPE, stderr=subprocess.STDOUT, text=True, check=False)
    if tally.check("the extension for SQLite is built", built.returncode == 0, built.stdout):
        counted(tally, "keys in SQLite", [python, SQLITE / "test_sqlite.py", room / "npss.so", versions])


def check_columns(tally, prefix, room):
    """Key columns in stores without an extension, by the module for Python."""
    build = [sys.executable, ROOT / "bindings" / "python" / "build.py", "--prefix", prefix, room]
    built = subprocess.run(list(map(str, build)), stdout=subprocess.PIPE, stderr=subprocess.STDOUT, text=True, check=False)
    if tally.check("the module for Python is built", built.returncode == 0, built.stdout):
        words = [python_for(CLIENTS) or sys.executable, ROOT / "tests" / "hosts" / "key_columns.py"]
        counted(tally, "key columns", words, env={**os.environ, "PYTHONPATH": str(room)})


def run_release(copy, *words):
    """The status of packaging/release.py in a copy of the tree, and what it wrote."""
    ran = subprocess.run([sys.executable, copy / "packaging" / "release.py", *words], stdout=subprocess.PIPE, stderr=subprocess.STDOUT, text=True, check=False)
    return ran.returncode, ran.stdout


def check_release(tally, room):
    """A release by the recipe of CONTRIBUTING.md leaves the SQL of the extension as it is, and keeps it from then on."""
    copy = room / "release"
    names = ["CHANGELOG.md", "packaging/release.py", *dict.fromkeys(name for name, _, _ in release.PLACES)]
    for name in [*names, *(str(path.relative_to(ROOT)) for path in POSTGRESQL.iterdir() if path.is_file())]:
        (copy / name).parent.mkdir(parents=True, exist_ok=True)
        shutil.copy(ROOT / name, copy / name)
    scripts = copy / "databases" / "postgresql"
    before = {path.name: path.read_bytes() for path in scripts.glob("npss*")}
    changes = copy / "CHANGELOG.md"
    changes.write_text(changes.read_text(encoding="utf-8").replace("## Unreleased", "## Unreleased\n\n## 9.8.7 - 2099-01-01", 1), encoding="utf-8")
    tally.same("a release is written", (run_release(copy, "--write")[0], run_release(copy)), (0, (0, "9.8.7\n")))
    tally.same("a release leaves the SQL", {path.name: path.read_bytes() for path in scripts.glob("npss*")}, before)
    listed = subprocess.run(["sha256sum", "-c", "--quiet", "released"], cwd=scripts, stdout=subprocess.PIPE, stderr=subprocess.STDOUT, text=True, check=False)
    tally.same("its scripts are listed as released", (listed.returncode, listed.stdout, {line.split()[1] for line in (scripts / "released").read_text().splitlines()}),
               (0, "", {name for name in before if name.endswith(".sql")}))
    for name, why in (("npss--0.2.sql", "npss--0.2.sql isn't as it was released"), ("npss--0.2--0.3.sql", "no script leads from version 0.2 to")):
        kept = (scripts / name).read_bytes()
        (scripts / name).write_bytes(kept + b"-- more\n") if name.count("--") == 1 else (scripts / name).unlink()
        status, written = run_release(copy, "--write")
        tally.check(f"a release is refused where {name} was changed or is gone", status == 1 and why in written, written)
        (scripts / name).write_bytes(kept)


def main():
    prefix = Path(sys.argv[1] if len(sys.argv) > 1 else ROOT / "out" / "c").resolve()
    tally = Tally()
    files, why = ucd.package_files()
    if files is None or not (prefix / "lib" / "libnpss.a").exists() or not (shutil.which("cc") and shutil.which("make")):
        print(f"skipped: keys in databases: {why or 'the library for C is not built, or there is no cc or make'}")
        tally.finish()
    if not (has_postgresql() and has_sqlite() and shutil.which("mariadb-install-db") and python_for(CLIENTS)):
        install(PACKAGES)
    with tempfile.TemporaryDirectory() as name:
        versions, room = Path(name, "versions"), Path(name, "sqlite")
        Path(name).chmod(0o755)
        versions.mkdir()
        versions_below(files, versions)
        check_release(tally, Path(name))
        check_common(tally, prefix, Path(name))
        check_sqlite(tally, prefix, versions, room)
        check_columns(tally, prefix, Path(name, "site"))
        if has_postgresql():
            counted(tally, "keys in PostgreSQL", [sys.executable, POSTGRESQL / "test_postgresql.py", prefix, versions, ROOT / "fixtures"])
        else:
            print("skipped: keys in PostgreSQL: PostgreSQL 15 or its headers are not here")
    tally.finish()


if __name__ == "__main__":
    main()
