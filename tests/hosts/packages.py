#!/usr/bin/env python3
"""tests/hosts/packages.py [PREFIX|--after-gate]: makes the packages by ./package, and installs them where no toolchain is.

PREFIX is where ./build-c installed programs and library; without it ./build-c is called first, with the flag where that is
given. In turn: places that tell the version, and scripts that ask for the toolchain; the packages twice, in two folders, the
same bytes; what they have, by lintian and by their sums; the tarball where it was unpacked; then, in a root that mmdebstrap
makes without toolchain and compiler, each package installed, first keys by program, C, Python, PostgreSQL, SQLite and the
registry, and all of it removed again with nothing left, also over what ./build-c /usr/local installs. Then that Debian is booted
by systemd-nspawn (lives.py): the blocks of the pages are typed there as they stand (typed.py), the next release, which is made in
a copy by the recipe of CONTRIBUTING.md, is installed over this commit's packages, and all is removed. What can't run here is
skipped, with the reason. Run as root it installs Debian's packages that this wants, and says so first, unless NO_APT=1 is set.
Ends in a line 'N passed, M failed'.
"""

import concurrent.futures
import hashlib
import os
import re
import shutil
import subprocess
import sys
import tempfile
import time
import zipfile
from pathlib import Path

sys.dont_write_bytecode = True
sys.path.insert(0, str(Path(__file__).resolve().parent.parent))

from hosts import lives, roots
from hosts.completing import check_completion
from harness import ROOT, Tally, install, output_of
from hosts.packed_registry import check_registry, check_service
from hosts.releasing import check_versions, copied_tree, next_release
from hosts.roots import COMPATIBLE, FILES, KEY, TEXT, UNICODE

sys.path.insert(0, str(ROOT / "packaging"))
import release as releases

WANTED = ("fish", "lintian", "mmdebstrap", "pkg-config", "systemd-nspawn", "zsh")
# The package of a command that has another name.
NAMED = {"systemd-nspawn": "systemd-container"}
# In the order of what depends on what.
DEBIAN = ("npss", "libnpss0", "libnpss-dev", "python3-npss", "postgresql-15-npss", "sqlite3-npss", "npss-registry", "npss-doc")
PROGRAMS = ("npss", "npss_lines", "npss_caseless")
# What asks for the toolchain, and how a script does that.
ASKING = {"build-c", "npss", "prove", "test", "bench/gate", "tests/repository/edits.py", "tests/repository/layout.py",
          "tests/on_demand/wrong_bodies.py"}
ASKS = re.compile(r"which\([\"']rt[\"']|\[[\"']rt[\"']|command -v rt\b|for command in rt\b|^\s*(?:\w+=\S* )*rt [a-z]", re.MULTILINE)
KEY_BY_PYTHON = f"""
import importlib.metadata
import npss
tables = npss.Tables.open({FILES[0]!r}, {FILES[1]!r})
print(npss.__version__, importlib.metadata.version("npss"), ascii(tables.key({TEXT!r})))
"""
KEY_BY_SQL = ".load {extension}\nSELECT npss_raise('{folder}');\nSELECT hex(npss_nfkc('{text}'));\n"
# A PostgreSQL without a server: one process reads its statements.
SINGLE = "/usr/lib/postgresql/15/bin/postgres"
VERSIONS = "/tmp/versions"


def check_toolchain(tally):
    """Nothing asks for the toolchain but what builds, and what is about the gate."""
    scripts = [path for path in ROOT.iterdir() if path.is_file() and not path.suffix]
    for folder in ("bench", "bindings", "databases", "examples", "hosts", "packaging", "tests"):
        scripts += [path for path in (ROOT / folder).rglob("*") if path.is_file() and path.suffix in ("", ".py", ".sh") and path != Path(__file__)]
    asking = {str(path.relative_to(ROOT)) for path in scripts if ASKS.search(path.read_text(encoding="utf-8", errors="replace"))}
    tally.same("what asks for the toolchain", sorted(asking - ASKING), [])


def sums(folder):
    return {path.name: hashlib.sha256(path.read_bytes()).hexdigest() for path in sorted(folder.iterdir())}


def check_made(tally, prefix, room):
    """The packages, made twice; the folder that has them, or nothing."""
    made, again = room / "packages", room / "again"
    words = ["--built", prefix, "--to"]
    done = subprocess.run([ROOT / "package", *words, made], stdin=subprocess.DEVNULL, stdout=subprocess.PIPE, stderr=subprocess.STDOUT,
                          text=True, check=False)
    print("".join(f"{line}\n" for line in done.stdout.splitlines() if line.startswith("skipped: ")), end="", flush=True)
    if not tally.check("the packages are made", done.returncode == (1 if "\nskipped: " in done.stdout else 0), done.stdout):
        return None
    other = copied_tree(room / "another folder")
    if other is None:
        print("skipped: the packages twice: there is no git, or no repository of this tree")
    else:
        # Nothing of who makes them gets into the packages, and nobody asks for the toolchain.
        (room / "bin").mkdir()
        asked = room / "rt was asked"
        (room / "bin" / "rt").write_text(f"#!/bin/sh\n: >'{asked}'\nexit 1\n", encoding="utf-8")
        (room / "bin" / "rt").chmod(0o755)
        environment = {**os.environ, "CFLAGS": "-O1", "TZ": "Asia/Tokyo", "LANG": "de_DE.UTF-8", "HOME": "/nonexistent",
                       "PATH": f"{room}/bin:{os.environ['PATH']}"}
        more = subprocess.run([other / "package", *words, again], stdin=subprocess.DEVNULL, stdout=subprocess.PIPE, stderr=subprocess.STDOUT,
                              text=True, env=environment, umask=0o077, check=False)
        tally.check("the packages are made once more", more.returncode == done.returncode, more.stdout)
        tally.check("the toolchain isn't asked for", not asked.exists())
        tally.same("the same bytes in two folders", sums(again) if again.exists() else None, sums(made))
    return made


def check_contents(tally, prefix, made, version, room):
    """The names, the sums, and that what was proved stands in the packages as it was built."""
    machine = os.uname().machine
    debian = {path.name.partition("_")[0]: path for path in made.glob("*.deb")}
    if debian:
        tally.same("packages for Debian", sorted(debian), sorted(DEBIAN))
        (room / "unpacked").mkdir()
        for name, path in debian.items():
            tally.same(f"{name}: its version", output_of(tally, f"{name}: dpkg-deb", ["dpkg-deb", "-f", path, "Version"]).strip(), version)
            output_of(tally, f"{name} is unpacked", ["dpkg-deb", "-x", path, room / "unpacked" / name])
    wheel = made / f"npss-{version}-cp310-abi3-manylinux_2_17_{machine}.whl"
    others = [path.name for path in made.iterdir() if path.suffix != ".deb"]
    tally.same("the other files", sorted(others), sorted(["SHA256SUMS", f"npss-{version}-linux-{machine}.tar.gz",
                                                          *([wheel.name] if any(made.glob("*.whl")) else [])]))
    output_of(tally, "the sums are right", ["sha256sum", "--strict", "-c", "SHA256SUMS"], cwd=made)
    output_of(tally, "the tarball is unpacked", ["tar", "-xf", made / f"npss-{version}-linux-{machine}.tar.gz", "-C", room])
    tarball = room / f"npss-{version}"
    proved = (tarball / "PROVED").read_text(encoding="utf-8")
    for name in debian:
        tally.same(f"{name}: PROVED", (room / "unpacked" / name / "usr/share/doc" / name / "PROVED").read_text(encoding="utf-8"), proved)
    for word in ("commit", "toolchain", "logic", "packed from commit"):
        tally.check(f"PROVED tells {word}", re.search(rf"^{word} \S+", proved, re.MULTILINE), proved)
    for name in PROGRAMS:
        gate = ROOT / "crates" / name / "out" / name
        places = [tarball / "bin" / name, *([room / "unpacked/npss/usr/bin" / name] if debian else []), *([gate] if gate.exists() else [])]
        for place in places:
            tally.same(f"{place.relative_to(place.parents[2])} is what was built", place.read_bytes(), (prefix / "bin" / name).read_bytes())
    if wheel.exists():
        check_wheel(tally, wheel, version, proved)
    return tarball


def check_wheel(tally, path, version, proved):
    with zipfile.ZipFile(path) as wheel:
        names = set(wheel.namelist())
        tally.same("PROVED of the wheel", wheel.read(f"npss-{version}.dist-info/PROVED").decode(), proved)
        tally.check("the wheel has its types", {"npss/py.typed", "npss/__init__.pyi", "npss/_npss.pyi"} <= names, names)


def check_lintian(tally, made):
    """Lintian finds nothing that has no reason beside it."""
    if not shutil.which("lintian"):
        print("skipped: lintian not found")
        return
    words = ["lintian", "--display-info", "--pedantic", "--fail-on", "error,warning,info", "--allow-root", *sorted(made.glob("*.deb"))]
    # It leaves its temporary files behind.
    with tempfile.TemporaryDirectory() as room:
        tally.same("lintian", output_of(tally, "lintian ends well", words, env={**os.environ, "LC_ALL": "C.UTF-8", "TMPDIR": room}), "")
    for path in (ROOT / "packaging" / "debian").glob("*.lintian-overrides"):
        lines = path.read_text(encoding="utf-8").splitlines()
        tally.check(f"{path.name}: each override has its reason", lines[0].startswith("# "), lines[0])


def program_of_page():
    """The program for C of docs/DOORS.md."""
    return re.search(r"```c\n(.*?)```", (ROOT / "docs" / "DOORS.md").read_text(encoding="utf-8"), re.DOTALL)[1]


def compiled(tally, name, flags, to, **environment):
    """The program for C, built by what pkg-config tells."""
    source = to.with_suffix(".c")
    source.write_text(program_of_page(), encoding="utf-8")
    build_flags = output_of(tally, f"{name}: pkg-config", ["pkg-config", *flags, "--cflags", "--libs", "npss"], env={**os.environ, **environment})
    return output_of(tally, f"{name}: cc", ["cc", source, "-o", to, *build_flags.split()]) == "" and to.exists()


def newest_glibc(path):
    """The newest version of glibc that a program or a library wants."""
    listed = subprocess.run(["nm", "-D", "--undefined-only", path], stdout=subprocess.PIPE, text=True, check=True).stdout
    return max((tuple(map(int, version.split("."))) for version in re.findall(r"@GLIBC_([0-9.]+)", listed)), default=(0,))


def check_tarball(tally, tarball, room):
    """The programs and the library run where the tarball was unpacked, which is no place that it knows."""
    files = [path for path in FILES if Path(path).exists()] or [ROOT / "fixtures/v1" / Path(path).name for path in FILES]
    done = subprocess.run([tarball / "bin/npss", "key", "--form", "nfkc", *files], input="\ufb01".encode(), stdout=subprocess.PIPE, check=False)
    tally.same("the tarball's program", done.stdout, b"fi")
    if shutil.which("nm"):
        promised = re.search(r"tar\.gz` .* glibc (\d+)\.(\d+) \|$", (ROOT / "docs" / "INSTALL.md").read_text(encoding="utf-8"), re.MULTILINE)
        wanted = max(newest_glibc(path) for path in (*(tarball / "bin" / name for name in PROGRAMS), tarball / "lib/libnpss.so.0"))
        tally.check("the tarball wants no newer glibc than docs/INSTALL.md tells", wanted <= tuple(map(int, promised.groups())), wanted)
    if shutil.which("cc") and shutil.which("pkg-config") and compiled(tally, "the tarball", [], room / "of-tarball",
                                                                    PKG_CONFIG_PATH=str(tarball / "lib/pkgconfig")):
        written = output_of(tally, "the tarball's library", [room / "of-tarball", *files], env={"LD_LIBRARY_PATH": str(tarball / "lib")})
        tally.same("a key by the tarball's library", written, "\u1ead\n")


def check_install(tally, root, made, names):
    """Each package is installed by itself, over what it depends on."""
    for name in names:
        status, written = root.run("dpkg", "-i", f"/packages/{next(made.glob(name + '_*.deb')).name}")
        tally.check(f"{name} is installed", status == 0, written)


def check_removal(tally, root, names, before):
    """All is removed, and nothing is left behind."""
    status, written = root.run("dpkg", "--purge", *reversed(names))
    tally.check("all is removed", status == 0, written)
    tally.same("nothing is left behind", roots.differences(before, root.listed()), [])


def check_programs(tally, root, program):
    status, written = root.run(program, "key", "--form", "nfc", *FILES, given=TEXT)
    tally.same(f"first key by {program}", (status, written), (0, KEY))
    status, written = root.run(f"{program}_lines", "--form", "nfkc", *FILES, given=f"{TEXT}\n")
    tally.same(f"first key by {program}_lines", (status, written), (0, f"={COMPATIBLE}\n"))


def check_page(tally, root, begin, wanted):
    """The line of docs/INSTALL.md that begins so does what the page tells."""
    page = (ROOT / "docs" / "INSTALL.md").read_text(encoding="utf-8")
    line = next((line for line in page.splitlines() if line.startswith(begin)), "false")
    tally.same(f"{begin}.. of docs/INSTALL.md", root.run("sh", "-c", f"cd /tmp; {line}"), (0, wanted))


def check_c(tally, root, room):
    """A program that is compiled outside of the root, by what the root's pkg-config file tells, runs in it."""
    if not (shutil.which("cc") and shutil.which("pkg-config")):
        print("skipped: a first key by C: cc or pkg-config not found")
        return
    library = next(root.folder.glob("usr/lib/*/pkgconfig/npss.pc")).parent
    where = {"PKG_CONFIG_LIBDIR": str(library), "PKG_CONFIG_SYSROOT_DIR": str(root.folder)}
    # What the compiler has on its own paths pkg-config leaves out, but here they are those of the root.
    system = {"PKG_CONFIG_ALLOW_SYSTEM_CFLAGS": "1", "PKG_CONFIG_ALLOW_SYSTEM_LIBS": "1"}
    if compiled(tally, "C", [], room / "first", **where, **system):
        root.put(room / "first", "tmp", "first")
        check_c_again(tally, root, "C")
        wants = output_of(tally, "readelf", ["readelf", "-d", room / "first"])
        tally.check("it wants the shared library", "libnpss.so.0" in wants, wants)


def check_c_again(tally, root, name):
    """The program that was compiled, over the shared library that the loader finds by now."""
    if (root.folder / "tmp" / "first").exists():
        tally.same(f"first key by {name}", root.run("/tmp/first", *FILES), (0, "\u1ead\n"))


def check_python(tally, root, wheel, release):
    """The package for Debian's Python, and the wheel in an environment of its own, without a compiler."""
    wanted = (0, f"{release.version} {release.packed} {ascii(KEY)}\n")
    tally.same("first key by Python", root.run("python3", "-c", KEY_BY_PYTHON), wanted)
    tally.check("there is no compiler", root.run("sh", "-c", "command -v cc gcc tcc rt")[0] != 0)
    if wheel is None:
        return
    status, written = root.run("python3", "-m", "venv", "/tmp/venv")
    if tally.check("an environment", status == 0, written):
        status, written = root.run("/tmp/venv/bin/pip", "install", "--no-index", "--disable-pip-version-check", f"/packages/{wheel.name}")
        tally.check("pip installs the wheel", status == 0, written)
        script = f"{KEY_BY_PYTHON}\nassert npss.__file__.startswith('/tmp/venv/'), npss.__file__"
        tally.same("first key by the wheel", root.run("/tmp/venv/bin/python", "-c", script), wanted)
        check_page(tally, root, "venv/bin/python", "J\xf6rg\n")


def check_databases(tally, root):
    """The extensions are loaded, and make keys."""
    wanted = COMPATIBLE.encode().hex()
    script = KEY_BY_SQL.format(extension="/usr/lib/sqlite3/npss", folder=UNICODE, text=TEXT)
    status, written = root.run("sqlite3", ":memory:", given=script)
    tally.check("first key by SQLite", status == 0 and wanted in written.lower(), f"status {status}: {written}")
    for path in FILES:
        root.put(root.folder / path[1:], VERSIONS[1:], "15.0", Path(path).name)
    status, written = root.run("/usr/lib/postgresql/15/bin/initdb", "-D", "/tmp/cluster", "--no-sync", "-E", "UTF8", "--locale=C.UTF-8",
                               user="postgres")
    if tally.check("a cluster of PostgreSQL", status == 0, written):
        statements = f"CREATE EXTENSION npss\nSELECT encode(convert_to(npss_nfkc('{TEXT}'), 'UTF8'), 'hex') AS made\n"
        status, written = root.run(SINGLE, "--single", "-D", "/tmp/cluster", "-c", f"npss.folder={VERSIONS}", "postgres", given=statements,
                                   user="postgres")
        tally.check("first key by PostgreSQL", status == 0 and f'made = "{wanted}"' in written, f"status {status}: {written}")


def check_root(tally, root, made, prefix, release, room):
    """Installed where no toolchain is, used, and removed; then once more over what ./build-c /usr/local installs."""
    (root.folder / "packages").mkdir()
    for path in made.iterdir():
        root.put(path, "packages", path.name)
    before = root.listed()
    check_install(tally, root, made, DEBIAN)
    check_programs(tally, root, "/usr/bin/npss")
    check_page(tally, root, "printf", "fi\n")
    check_c(tally, root, room)
    check_python(tally, root, next(made.glob("*.whl"), None), release)
    check_registry(tally, root)
    check_service(tally, root, room)
    check_databases(tally, root)
    check_completion(tally, root)
    check_removal(tally, root, DEBIAN, before)
    root.put(prefix, "usr", "local")
    root.run("ldconfig")
    before = root.listed()
    some = DEBIAN[:4]
    check_install(tally, root, made, some)
    for program in ("/usr/bin/npss", "/usr/local/bin/npss", "npss"):
        check_programs(tally, root, program)
    check_c_again(tally, root, "C over both")
    check_removal(tally, root, some, before)
    check_programs(tally, root, "npss")
    check_c_again(tally, root, "C over /usr/local")
    for path in prefix.rglob("*"):
        if path.is_symlink() or path.is_file():
            (root.folder / "usr/local" / path.relative_to(prefix)).unlink()
    root.run("ldconfig")


def check_all(tally, prefix, release, room, pool):
    """The packages of what is built in a prefix, in a root that is made meanwhile."""
    making = pool.submit(roots.make, room / "root")
    began = time.monotonic()
    made = check_made(tally, prefix, room)
    if made is None:
        return
    check_tarball(tally, check_contents(tally, prefix, made, release.packed, room), room)
    has_debian = any(made.glob("*.deb"))
    if has_debian:
        check_lintian(tally, made)
    print(f"packages made twice and looked at: {time.monotonic() - began:.0f} seconds", flush=True)
    why = making.result() if has_debian else "there are no packages for Debian"
    if why:
        print(f"skipped: packages installed where no toolchain is: {why}")
        return
    print(f"a root made meanwhile: {time.monotonic() - began:.0f} seconds", flush=True)
    began = time.monotonic()
    releasing = pool.submit(next_release, prefix, room)
    check_root(tally, roots.Root(room / "root"), made, prefix, release, room)
    print(f"packages installed, used and removed: {time.monotonic() - began:.0f} seconds", flush=True)
    began = time.monotonic()
    upgraded = check_versions(tally, made, *releasing.result())
    lives.check(tally, roots.Root(room / "root"), made, upgraded, room)
    print(f"pages typed, and packages upgraded, in a Debian that was booted: {time.monotonic() - began:.0f} seconds")


def main():
    tally = Tally()
    release = releases.this_release()
    tally.same("places that tell another version than CHANGELOG.md", releases.differing(release.version), [])
    check_toolchain(tally)
    flags = [word for word in sys.argv[1:] if word.startswith("--")]
    named = [Path(word).resolve() for word in sys.argv[1:] if not word.startswith("--")]
    missing = [name for name in WANTED if not shutil.which(name)]
    if missing:
        install([NAMED.get(name, name) for name in missing])
    # The folder goes when the root is no longer being made.
    with tempfile.TemporaryDirectory(dir=roots.place()) as name, concurrent.futures.ThreadPoolExecutor() as pool:
        room = Path(name)
        room.chmod(0o755)
        prefix = named[0] if named else room / "built"
        if named or output_of(tally, "./build-c", [ROOT / "build-c", *flags, prefix]):
            check_all(tally, prefix, release, room, pool)
    tally.finish()


if __name__ == "__main__":
    main()
