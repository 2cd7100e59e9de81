#!/usr/bin/env python3
"""Tests the library for C, and what is built upon it, over the fixtures: tests/library/doors.py PROGRAM [PREFIX|--after-gate].

PROGRAM is npss, with which the published strings are compared. PREFIX is where ./build-c installed the library;
without it ./build-c is called first, with the flag where that is given. In turn: the header as C and as C++, the names
that the shared library shows, each call and each status from C (also under valgrind), threads, the programs of the
pages, built by pkg-config's flags; the module for Python; the crate for Rust; the worked host over a database; the
programs for Java and Go of docs/DOORS.md. All strings of the published NormalizationTest.txt through C and Python are
the program's own answers. Run as root it installs Debian's packages that are missing (PACKAGES), unless NO_APT=1 is set.
What needs a command that isn't here is skipped, with the reason. Ends in a line 'N passed, M failed'.
"""

import json
import os
import re
import shutil
import subprocess
import sys
import tempfile
import unicodedata
from pathlib import Path
from typing import NamedTuple

# How often five bytes stand in a large text.
LARGE = 8_000_000
# Nothing is written into the tree but crates/*/out and out/c.
sys.dont_write_bytecode = True
TESTS = Path(__file__).resolve().parent.parent
sys.path[:0] = [str(TESTS), str(TESTS / "program")]

from program import caseless, costs, histories
import page_names
import ucd
import versions
from harness import ROOT, Tally, install, run

HERE = ROOT / "tests" / "library" / "doors"
V1, V2 = ([str(ROOT / "fixtures" / name) for name in version] for version in (versions.V1, versions.V2))
FOLDING = ROOT / "fixtures" / "caseless" / "v1" / "CaseFolding.txt"
# The calls that the header names, without their prefix.
CALLS = sorted(re.findall(r"^(?:npss_answer|npss_name|void) npss_(\w+)\(", (ROOT / "include" / "npss.h").read_text(encoding="utf-8"), re.MULTILINE))
# The form's letter for C, and its name for the program.
LETTERS = {"D": "nfd", "C": "nfc", "d": "nfkd", "c": "nfkc"}
# The keys of the lines of the input, by Python: words are the form and the two files.
SCRIPT = """
import sys, npss
tables, texts = npss.Tables.open(*sys.argv[2:]), sys.stdin.read()[:-1].split("\\n")
sys.stdout.writelines(key + "\\n" for key in tables.keys(texts, sys.argv[1]))
"""
# The caseless keys of texts, by form: words are the three files, and the input is a list in JSON.
CASELESS = """
import json, sys, npss
tables, texts = npss.Tables.open(*sys.argv[1:]), json.load(sys.stdin)
json.dump({form: tables.keys(texts, form, caseless=True) for form in ("nfd", "nfc", "nfkd", "nfkc")}, sys.stdout)
"""
# For each file that the steps want Debian's package that has it.
PACKAGES = {"/usr/bin/python3-dbg": "python3-dbg", "/usr/bin/mypy": "mypy", "/usr/bin/javac": "default-jdk-headless",
            "/usr/share/java/jna.jar": "libjna-java", "/usr/bin/go": "golang-go", "/usr/bin/valgrind": "valgrind", "/usr/bin/pkg-config": "pkg-config"}
# The ages of the versions of a history, before the published one.
AGES = ((5, 2), (9, 0), (13, 0), (14, 0))
# How many keys the threads make together.
KEYS = 10_000_000
# No command is waited for longer, in seconds; but the proof of the library, from nothing on a slow machine.
PATIENCE = 600
BUILDING = 3600


class Published(NamedTuple):
    """What the published version assigns."""

    assigned: set


def wanted(*commands):
    """Whether the commands are here; where one is missing, says what is skipped."""
    missing = [command for command in commands if shutil.which(command) is None]
    if missing:
        print(f"skipped: {' and '.join(missing)} not found")
    return not missing


def done(tally, name, command, patience=PATIENCE, **options):
    """Runs a command, which has to end with status 0, and answers what it wrote."""
    try:
        ended = subprocess.run(list(map(str, command)), stdin=subprocess.DEVNULL, stdout=subprocess.PIPE,
                               stderr=subprocess.STDOUT, timeout=patience, **options)
    except (OSError, subprocess.TimeoutExpired) as error:
        tally.check(name, False, error)
        return None
    written = ended.stdout.decode(errors="replace")
    return written if tally.check(name, ended.returncode == 0, f"status {ended.returncode}: {written[-2000:]}") else None


def counted(tally, name, command, **options):
    """Runs a test that ends in a line 'N passed, M failed', and adds it up."""
    written = done(tally, name, command, **options)
    last = re.fullmatch(r"(\d+) passed, (\d+) failed", (written or "").strip().rpartition("\n")[2])
    if last:
        tally.passed += int(last[1])
        tally.failed += int(last[2])
    elif written is not None:
        tally.check(name, False, f"no last line 'N passed, M failed': {written[-2000:]}")


def compiled(tally, prefix, folder, name, shared=False):
    """The C program of this folder, over the archive or the shared library; None where it isn't built."""
    program = folder / (name + ("-shared" if shared else ""))
    library = [f"-L{prefix}/lib", f"-Wl,-rpath,{prefix}/lib", "-lnpss"] if shared else [prefix / "lib" / "libnpss.a"]
    built = done(tally, f"{program.name} is built", ["cc", "-std=c11", "-O2", "-Wall", "-Wextra", "-pedantic", "-Werror",
                                                     f"-I{prefix}/include", HERE / f"{name}.c", *library, "-pthread", "-o", program])
    return None if built is None else program


def check_header(tally, prefix, folder):
    """The header stands alone, in C and in C++."""
    for name, zeros in (("header.c", "{0}"), ("header.cc", "{}")):
        (folder / name).write_text(f"#include <npss.h>\nint main(void) {{ npss_handle h = {zeros}; npss_close(&h); return 0; }}\n")
    strict = ["-Wall", "-Wextra", "-pedantic", "-Werror", f"-I{prefix}/include", "-fsyntax-only"]
    done(tally, "the header as C99", ["cc", "-std=c99", *strict, folder / "header.c"])
    if wanted("c++"):
        done(tally, "the header as C++", ["c++", *strict, folder / "header.cc"])


def check_names(tally, prefix):
    """The shared library shows the calls alone, and wants the C library alone."""
    if not wanted("nm", "readelf"):
        return
    library = prefix / "lib" / "libnpss.so"
    names = {line.split()[-1].partition("@")[0] for line in (done(tally, "nm", ["nm", "-D", "--defined-only", library]) or "").splitlines()}
    tally.same("the names of the shared library", sorted(name for name in names if name.startswith("npss_")),
               [f"npss_{call}" for call in CALLS])
    tally.same("no other names", sorted(name for name in names if not name.lower().startswith("npss_")), [])
    output = done(tally, "readelf", ["readelf", "-d", library]) or ""
    tally.same("what it wants", set(re.findall(r"\(NEEDED\).*\[(.*)\]", output)), {"libc.so.6"})


def wanted_names():
    """The names that have a number, by the pages and the header."""
    of_status = {7: page_names.file_faults(), 8: page_names.file_faults(), 9: page_names.table_faults(), 24: page_names.folding_faults(),
                 25: page_names.condition_faults()}
    names = {f"status {number}": name for number, name in page_names.status_names().items()}
    names |= {f"break {number}": name for number, name in page_names.break_names().items()}
    names |= {f"fault {status} {number}": name for status, faults in of_status.items() for number, name in faults.items()}
    return names | {f"form {ord(letter)}": name for letter, name in LETTERS.items()}


def check_told_names(tally, prefix, folder):
    """Each number has the name of the pages, or none."""
    names = wanted_names()
    for shared in (False, True):
        program = compiled(tally, prefix, folder, "names", shared)
        lines = [line.split("\t", 1) for line in (done(tally, f"{program.name} runs", [program]) or "").splitlines()] if program else []
        tally.same("the names of numbers", {number: name for number, name in lines if name}, names)
        tally.same("how many were asked: 45 numbers, each also beside each, and 256 letters", len(lines), 45 * (2 + 45) + 256)


def check_c(tally, prefix, folder):
    """Each call and each status, from C, and threads. Behind the files stands how large the largest text is."""
    for name, words, large in (("calls", [*V1, *V2], LARGE), ("nodes", [*V1, *V2], LARGE), ("codes", V1, None), ("caseless", [ROOT / "fixtures"], None),
                               ("streams", V1, LARGE // 2)):
        for shared in (False, True):
            program = compiled(tally, prefix, folder, name, shared)
            if program:
                counted(tally, program.name, [program, *words, *([large] if large else [])])
        program = folder / name
        if program.exists() and wanted("valgrind"):
            counted(tally, f"{name} under valgrind", ["valgrind", "-q", "--error-exitcode=9", "--leak-check=full", "--show-leak-kinds=all",
                                                      program, *words, *([large // 100] if large else [])])
    program = compiled(tally, prefix, folder, "fences")
    if program:
        counted(tally, "fences", [program, *V1, *V2, FOLDING])
        if wanted("valgrind"):
            counted(tally, "fences under valgrind", ["valgrind", "-q", "--error-exitcode=9", "--soname-synonyms=somalloc=nouserintercepts",
                                                        program, *V1, *V2, FOLDING])
    program = compiled(tally, prefix, folder, "costs")
    if program and wanted("valgrind"):
        costs.check_keys(tally, program, folder)
    program = compiled(tally, prefix, folder, "threads")
    if program:
        counted(tally, "threads", [program, *V1, KEYS])
        if wanted("valgrind"):
            counted(tally, "threads under helgrind", ["valgrind", "-q", "--tool=helgrind", "--error-exitcode=9", program, *V1, 500])


def check_history(tally, program, prefix, folder):
    """A history of three nodes by the calls of C: it checks its replies, and `npss replay` has the same over its schedule."""
    history = compiled(tally, prefix, folder, "history")
    if history is None:
        return
    output = done(tally, "a history by the calls", [history, *V1, *V2]) or ""
    ended = re.search(r"^(\d+) passed, 0 failed$", output, re.MULTILINE)
    if tally.check("a history by the calls: its checks", ended, output[-500:]):
        tally.passed += int(ended[1])
    if not program.exists():
        print("skipped: the history beside the program: no program")
        return
    schedule = folder / "history.schedule"
    schedule.write_text(done(tally, "its schedule", [history]) or "", encoding="ascii")
    _, report, error = run(program, ["replay", "--form", "nfc", schedule, *V1, *V2])
    lines = [line for line in report.decode().splitlines() if not line.startswith("entry ")]
    tally.check("a history by the calls: the replies of `npss replay`", lines and output.splitlines()[:-1] == lines, (output, report, error))


def page_program(page, language):
    """The first program in a language of a page; None where it has none."""
    found = re.search(rf"```{language}\n(.*?)```", (ROOT / page).read_text(encoding="utf-8"), re.DOTALL)
    return found and found[1]


def refuses_without(folder, name):
    """Whether the program of a page ends with a status of its own where this file is away."""
    (folder / name).rename(folder / "away")
    ended = subprocess.run([folder / "prog", *(Path(one).name for one in V1)], cwd=folder, stdout=subprocess.DEVNULL, stderr=subprocess.DEVNULL,
                           check=False)
    (folder / "away").rename(folder / name)
    return ended.returncode > 0


def check_flags(tally, prefix, folder):
    """README's program, of ten lines, and that of docs/DOORS.md print a key, built and started by the lines of that page."""
    if not wanted("pkg-config"):
        return
    page = (ROOT / "docs" / "DOORS.md").read_text(encoding="utf-8").replace("PREFIX", str(prefix))
    script = re.search(r"^export PKG_CONFIG_PATH=.*\n(?:.*\n)*?\./prog .*$", page, re.MULTILINE)
    if not tally.check("docs/DOORS.md tells how a program in C is built", script, "it doesn't"):
        return
    environment = {name: value for name, value in os.environ.items() if name != "LD_LIBRARY_PATH"}
    for name in V1:
        shutil.copy(name, folder)
    for page, key in (("README.md", "\u00c5\n"), ("docs/DOORS.md", "\u1ead\n")):
        program = page_program(page, "c")
        if not tally.check(f"{page} has a program in C", program, "it has none"):
            continue
        (folder / "prog.c").write_text(program, encoding="utf-8")
        tally.same(f"{page}: its key", done(tally, f"{page}: its program in C", ["sh", "-ec", script[0]], cwd=folder, env=environment), key)
        for name in (Path(one).name for one in V1):
            tally.check(f"{page}: its program without {name}", refuses_without(folder, name), "it doesn't say so")
    lines = len((page_program("README.md", "c") or "").splitlines())
    tally.check("README's program has ten lines", lines <= 10, f"{lines} lines")


def check_python(tally, prefix, folder):
    """The module for Python: built by its one command, and its own tests."""
    site = folder / "site"
    headers = done(tally, "Python's folder", [sys.executable, "-c", "import sysconfig; print(sysconfig.get_path('include'))"])
    if headers is None or not Path(headers.strip(), "Python.h").exists():
        print("skipped: the module for Python, since Python.h is not here")
        return None
    build = [sys.executable, ROOT / "bindings" / "python" / "build.py", "--prefix", prefix, site]
    if done(tally, "the module for Python is built", build) is None:
        return None
    environment = {**os.environ, "PYTHONPATH": str(site)}
    counted(tally, "the module for Python", [sys.executable, ROOT / "bindings" / "python" / "test.py", *V1, *V2], env=environment)
    check_python_strictly(tally, prefix, folder, environment)
    counted(tally, "accounts in a database", [sys.executable, ROOT / "examples" / "accounts.py", "--test", *V1, *V2], env=environment)
    store, other = folder / "accounts", folder / "no store"
    other.write_bytes(b"x" * 4096)
    for name, status, words in (("a missing file", 5, [store, V1[0], folder / "missing", "find", "A"]), ("faulty files", 1, [store, *V1[::-1], "find", "A"]),
                                ("a name that isn't UTF-8", 1, [store, *V1, "find", b"\xff"]), ("no name", 2, [store, *V1, "find"]),
                                ("a store that is none", 5, [other, *V1, "find", "A"])):
        ended = subprocess.run([sys.executable, ROOT / "examples" / "accounts.py", *words], env=environment, stdout=subprocess.DEVNULL,
                               stderr=subprocess.PIPE, check=False)
        tally.check(f"accounts: {name}", ended.returncode == status and b"Traceback" not in ended.stderr, (ended.returncode, ended.stderr[-500:]))
    return environment


def check_python_strictly(tally, prefix, folder, environment):
    """The module under a debug Python, under the sanitizers of the C compiler, and beside its stub."""
    test = [ROOT / "bindings" / "python" / "test.py", *V1, *V2]
    if wanted("python3-dbg"):
        counted(tally, "the module under a debug Python", ["python3-dbg", *test], env=environment)
    site, flags = folder / "checked", "-g -fsanitize=address,undefined -fno-sanitize-recover=undefined"
    build = [sys.executable, ROOT / "bindings" / "python" / "build.py", "--prefix", prefix, site]
    libraries = [done(tally, name, ["cc", f"-print-file-name={name}"]) or "" for name in ("libasan.so", "libubsan.so")]
    if not all(Path(library.strip()).is_absolute() for library in libraries):
        print("skipped: the module under the sanitizers: the C compiler has none")
    elif done(tally, "the module is built with checks", build, env={**os.environ, "CFLAGS": flags}) is not None:
        checked = {**os.environ, "PYTHONPATH": str(site), "PYTHONMALLOC": "malloc", "ASAN_OPTIONS": "detect_leaks=0",
                   "LD_PRELOAD": " ".join(library.strip() for library in libraries)}
        counted(tally, "the module under the sanitizers", [sys.executable, *test], env=checked)
    stubtest = [python for python in (sys.executable, "/usr/bin/python3") if Path(python).exists() and
                subprocess.run([python, "-c", "import mypy.stubtest"], stderr=subprocess.DEVNULL, check=False).returncode == 0]
    if stubtest:
        done(tally, "the stub says what there is", [stubtest[0], "-m", "mypy.stubtest", "npss"], env=environment, cwd=folder)
    else:
        print("skipped: the stub beside the module: mypy is not here")


def check_histories(tally, program, folder, files, environment):
    """A long history of the published versions, by the module's nodes and by the program: the same report."""
    text = ucd.text_of(files, "DerivedAge.txt")
    if text is None:
        print("skipped: histories through Python's nodes: DerivedAge.txt is not there")
        return
    version, form = [str(files[ucd.DATA]), str(files[ucd.EXCLUSIONS])], "nfkc"
    chain, assigned = [], []
    for age in AGES:
        names, kept = ucd.write_cut(files, age, folder)
        chain += names
        assigned.append(kept)
    newest = {code for row in ucd.rows(ucd.text_of(files, ucd.DATA)) for code in row.codes()}
    known = {code for code in newest if unicodedata.category(chr(code)) not in ("Cn", "Cs") and code != 0x0A}
    schedule, _ = histories.draw_history(Published(newest), known, [*(newest & kept for kept in assigned), newest], form)
    path = folder / "history"
    path.write_text(schedule, encoding="ascii")
    _, whole, _ = run(program, ["replay", "--form", form, path, *chain, *version])
    _, made, error = run(sys.executable, [HERE / "histories.py", form, path, *chain, *version], env=environment)
    tally.check("a history of 20,000 events by Python's nodes", made == whole and made.count(b"\n") > 20_000, error.decode()[-500:])


def check_rust(tally, prefix, folder):
    """The crate for Rust: what it says where there is no library, its tests, and the program of docs/DOORS.md."""
    if not wanted("cargo"):
        return
    nowhere = {**os.environ, "NPSS_PREFIX": str(folder / "nowhere"), "CARGO_TARGET_DIR": str(folder / "target")}
    ran = subprocess.run(["cargo", "build", "--offline", "--locked"], cwd=ROOT / "bindings" / "rust", env=nowhere, stdout=subprocess.PIPE,
                          stderr=subprocess.STDOUT, text=True, check=False)
    tally.check("the crate without the library tells how to get it", ran.returncode != 0 and "./build-c" in ran.stdout, ran.stdout[-2000:])
    environment = {**os.environ, "NPSS_PREFIX": str(prefix), "CARGO_TARGET_DIR": str(folder / "target")}
    written = done(tally, "the crate for Rust", ["cargo", "test", "--offline", "--locked"], cwd=ROOT / "bindings" / "rust", env=environment)
    for passed, failed in re.findall(r"test result: \w+\. (\d+) passed; (\d+) failed", written or ""):
        tally.passed += int(passed)
        tally.failed += int(failed)
    page = folder / "of the page"
    (page / "src").mkdir(parents=True)
    dependency = page_program("docs/DOORS.md", "toml").replace("../npss-rust", str(ROOT / "bindings" / "rust"))
    (page / "Cargo.toml").write_text(f'[package]\nname = "page"\nedition = "2021"\nversion = "0.1.0"\n\n{dependency}', encoding="utf-8")
    (page / "src" / "main.rs").write_text(page_program("docs/DOORS.md", "rust"), encoding="utf-8")
    for name in V1:
        shutil.copy(name, page)
    tally.same("the page's program in Rust", done(tally, "its run in Rust", ["cargo", "run", "-q", "--offline"], cwd=page, env=environment), "\u1ead\n")


def check_java(tally, prefix, folder):
    """The page's program by JNA, where that is there."""
    if not wanted("java", "javac"):
        return
    jar = Path("/usr/share/java/jna.jar")
    if not jar.exists():
        print("skipped: Java: JNA is not here (Debian: libjna-java)")
        return
    (folder / "Prog.java").write_text(page_program("docs/DOORS.md", "java"), encoding="utf-8")
    printed = done(tally, "the page's program in Java", ["java", "-cp", jar, "Prog.java", prefix / "lib" / "libnpss.so", *V1], cwd=folder)
    tally.same("its key in Java", printed, "\u1ead\n")


def check_go(tally, prefix, folder):
    """The page's program for Go, where it is there."""
    if not wanted("go", "pkg-config"):
        return
    (folder / "prog.go").write_text(page_program("docs/DOORS.md", "go"), encoding="utf-8")
    environment = {**os.environ, "PKG_CONFIG_PATH": str(prefix / "lib" / "pkgconfig"), "LD_LIBRARY_PATH": str(prefix / "lib"),
                   "GOCACHE": str(folder / "go"), "GOFLAGS": "-mod=mod", "GO111MODULE": "off"}
    printed = done(tally, "the page's program in Go", ["go", "run", "prog.go", *V1], cwd=folder, env=environment)
    tally.same("its key in Go", printed, "\u1ead\n")


def check_published_caseless(tally, files, environment):
    """Caseless keys under the published files are those of Python's own folding between its forms: of each code point, and of strings."""
    if ucd.FOLDING not in files:
        print("skipped: published foldings: the package unicode-data has none")
        return
    known = [chr(code) for code in range(0x110000) if unicodedata.category(chr(code)) not in ("Cn", "Cs")]
    texts = known + list(caseless.published_strings())
    three = [files[name] for name in (ucd.DATA, ucd.EXCLUSIONS, ucd.FOLDING)]
    _, made, error = run(sys.executable, ["-c", CASELESS, *three], json.dumps(texts).encode(), env=environment)
    keys = json.loads(made) if tally.check("published caseless keys through Python", made, error[-500:]) else {}
    for form in keys:
        wrong = [text for text, key in zip(texts, keys[form]) if key != caseless.caseless(form, text)]
        tally.check(f"{len(texts)} caseless keys under {form} through Python", not wrong and len(keys[form]) == len(texts), ascii(wrong[:3]))


def check_published(tally, program, prefix, folder, environment):
    """All strings of NormalizationTest.txt through C and Python, against the program."""
    files, why = ucd.package_files()
    strings = files and ucd.each_test_string(files)
    if files is None:
        print(f"skipped: the published version through the doors: {why}")
        return
    version = [str(files[ucd.DATA]), str(files[ucd.EXCLUSIONS])]
    if environment:
        accounts = [sys.executable, ROOT / "examples" / "accounts.py", "--test", *version]
        counted(tally, "accounts under the published version", accounts, env=environment)
        check_published_caseless(tally, files, environment)
        if program.exists():
            check_histories(tally, program, folder, files, environment)
    if not strings or not program.exists():
        print("skipped: the strings of NormalizationTest.txt through the doors: no such file, or no program")
        return
    lines = "".join(f"{string}\n" for string in strings).encode()
    keys = compiled(tally, prefix, folder, "keys")
    if not keys:
        return
    for letter, form in LETTERS.items():
        _, whole, _ = run(program, ["key", "--form", form, *version], lines)
        _, made, _ = run(keys, [*version, letter], lines)
        tally.check(f"NormalizationTest.txt through C under {form}", made == whole and made, "other keys")
        if environment:
            _, made, _ = run(sys.executable, ["-X", "utf8", "-c", SCRIPT, form, *version], lines, env=environment)
            tally.check(f"NormalizationTest.txt through Python under {form}", made == whole and made, "other keys")


def main():
    tally = Tally()
    if not wanted("cc"):
        print("skipped: the library for C")
        tally.finish()
    missing = [package for file, package in PACKAGES.items() if not Path(file).exists()]
    if missing:
        install(missing)
    flags = [word for word in sys.argv[2:] if word == "--after-gate"]
    made = len(sys.argv) > 2 and not flags
    prefix = Path(sys.argv[2]).resolve() if made else ROOT / "out" / "c"
    if not made and done(tally, "the library is built", [ROOT / "build-c", *flags], patience=BUILDING) is None:
        tally.finish()
    with tempfile.TemporaryDirectory() as name:
        folder = Path(name)
        check_header(tally, prefix, folder)
        check_names(tally, prefix)
        check_told_names(tally, prefix, folder)
        check_c(tally, prefix, folder)
        check_history(tally, Path(sys.argv[1]).resolve(), prefix, folder)
        check_flags(tally, prefix, folder)
        environment = check_python(tally, prefix, folder)
        check_rust(tally, prefix, folder)
        check_java(tally, prefix, folder)
        check_go(tally, prefix, folder)
        check_published(tally, Path(sys.argv[1]).resolve(), prefix, folder, environment)
    tally.finish()


if __name__ == "__main__":
    main()
