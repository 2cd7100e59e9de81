"""The launcher and ./prove in a small repository of their own, whose toolchain is a stand-in that writes a program.

The stand-in keeps a list of what it was asked to prove; it takes no proof, so that building takes no time.
"""

import os
import pty
import shutil
import stat
import subprocess

from harness import run

# Stand-ins for the toolchain's commands: VERSION is put in its place. Proving fails where a source has the word BROKEN,
# and takes its time where one has the word SLOW. The last word of `rattle build` is what it writes. It notes which
# crate it begins (+) and has proved (-).
TOOLCHAIN = {
    "rt": """#!/bin/sh
echo "VERSION"
""",
    "rattle": """#!/bin/sh
echo "${PWD##*/}" >>"$0.asked"
echo "+${PWD##*/}" >>"$0.turns"
if grep -q BROKEN src/*.rt; then
    echo "checked ${PWD##*/}::first, 1 of 2"
    exit 1
fi
if grep -q SLOW src/*.rt; then sleep 2.5; fi
for made in "$@"; do :; done
case $made in
*.rlib) mkdir -p "$made" && echo "$made" >"$made/lib.rt" ;;
*) : >"$made" ;;
esac
echo "-${PWD##*/}" >>"$0.turns"
""",
    "rattle-link": """#!/bin/sh
printf '#!/bin/sh\\necho "$@"\\n' >"$6"
chmod +x "$6"
""",
}
BUILDS = b"npss: proving"


def write_toolchain(folder, version):
    """A folder for the path that has a toolchain of this version."""
    path = folder / "bin"
    path.mkdir(parents=True, exist_ok=True)
    for name, text in TOOLCHAIN.items():
        command = path / name
        command.write_text(text.replace("VERSION", version), encoding="utf-8")
        command.chmod(command.stat().st_mode | stat.S_IXUSR)
    return path


def asked(kit, kind="asked"):
    """What the toolchain was asked to prove since this was looked at last; of the kind `turns` also what it has proved."""
    path = kit / f"rattle.{kind}"
    names = path.read_text(encoding="utf-8").split() if path.exists() else []
    path.unlink(missing_ok=True)
    return names


def small_repository(folder, launcher, crates="low: smallvec\nnpss: low clap\nbehind: low npss\n"):
    """A folder with the launcher, libraries of one source file and a program of one, whose sources are answered. The
    program has neither definitions nor proofs."""
    names = [line.split(":")[0].split()[0] for line in crates.splitlines()]
    sources = {name: folder / "crates" / name / "src" / ("main.rt" if name == "npss" else "lib.rt") for name in names}
    for name, source in sources.items():
        source.parent.mkdir(parents=True)
        source.write_text("one\n", encoding="utf-8")
        for part in () if name == "npss" else ("specs", "proofs"):
            (source.parent.parent / part).mkdir()
    (folder / "crates.txt").write_text(f"# lowest first\n{crates}", encoding="utf-8")
    for command in ("npss", "prove"):
        shutil.copy(launcher.parent / command, folder / command)
    return sources


def run_on_terminal(command, environment):
    """What a command tells on standard error where that is a terminal."""
    ours, theirs = pty.openpty()
    with subprocess.Popen(command, stdin=subprocess.DEVNULL, stdout=subprocess.DEVNULL, stderr=theirs, env=environment):
        os.close(theirs)
        terminal = b""
        try:
            while piece := os.read(ours, 4096):
                terminal += piece
        except OSError:
            # the other end of a terminal that nobody holds any more
            pass
    os.close(ours)
    return terminal


def check_building(tally, launcher, scratch):
    """When the launcher builds, what it tells, and how it ends."""
    folder = scratch / "repository"
    sources = small_repository(folder, launcher)
    library, source = sources["low"], sources["npss"]
    kit = write_toolchain(scratch / "kit", "kit one")
    plain = "/usr/bin:/bin"

    def call(*path):
        return run(folder / "npss", ["a", "b"], b"", scratch, env={**os.environ, "PATH": ":".join([*path, plain])})

    def check(name, got, status, out, builds):
        is_told = builds in got[2] if builds else got[2] == b""
        tally.check(f"the launcher {name}", got[:2] == (status, out) and is_told, f"got {got}")

    check("without a toolchain and a program", call(), 127, b"", b"is not on the path")
    check("builds the first time, and names the toolchain", call(str(kit)), 0, b"a b\n", b"with kit one; the first")
    tally.same("the launcher proves the libraries first", asked(kit), ["low", "npss"])
    # `rt ci` refuses these
    strange = [path for path in (folder / "out").rglob("*") if path.is_symlink() or path.suffix in (".rt", ".antt")]
    tally.same("the launcher leaves no source and no link outside the crates", strange, [])
    check("doesn't build again", call(str(kit)), 0, b"a b\n", None)
    library.write_text("one more\n", encoding="utf-8")
    check("tells each crate when it begins it", call(str(kit)), 0, b"a b\n",
          b"\nnpss: crate low (1 of 2); 0 min 0")
    tally.same("the launcher proves what stands on a library that changed", asked(kit), ["low", "npss"])
    check("needs no toolchain once it is built", call(), 0, b"a b\n", None)
    source.write_text("two\n", encoding="utf-8")
    check("builds what changed", call(str(kit)), 0, b"a b\n", BUILDS)
    tally.same("the launcher leaves a library that didn't change", asked(kit), ["npss"])
    (folder / "crates.txt").write_text("low: smallvec\nnpss: low clap\naside:\n", encoding="utf-8")
    check("builds for no other crate in the list", call(str(kit)), 0, b"a b\n", None)
    (folder / "crates.txt").write_text("low: smallvec bstr\nnpss: low clap\n", encoding="utf-8")
    check("builds for a library in the list", call(str(kit)), 0, b"a b\n", BUILDS)
    tally.same("the launcher proves what stands on that library", asked(kit), ["low", "npss"])
    (library.parent.parent / "proofs" / "Lib.antt").write_text("", encoding="utf-8")
    check("builds for a proof that changed", call(str(kit)), 0, b"a b\n", BUILDS)
    other = write_toolchain(scratch / "other", "kit two")
    check("builds with a toolchain before it on the path", call(str(other), str(kit)), 0, b"a b\n", b"with kit two")
    tally.same("the launcher proves all with that", asked(other), ["low", "npss"])
    check("doesn't build again with that", call(str(other), str(kit)), 0, b"a b\n", None)
    write_toolchain(scratch / "other", "kit three")
    check("builds with a toolchain in the place of another", call(str(other)), 0, b"a b\n", b"with kit three")
    source.write_text("BROKEN\n", encoding="utf-8")
    check("shows the log of a build that fails", call(str(other)), 125, b"", b"checked npss::first, 1 of 2")
    check("tries again after that", call(str(other)), 125, b"", BUILDS)
    source.write_text("two\n", encoding="utf-8")
    library.write_text("BROKEN\n", encoding="utf-8")
    check("shows the log of a library that fails", call(str(other)), 125, b"", b"checked low::first, 1 of 2")
    library.write_text("SLOW\n", encoding="utf-8")
    terminal = run_on_terminal([folder / "npss"], {**os.environ, "PATH": f"{other}:{plain}"})
    tally.check("the launcher tells how far it is", b"crate low (1 of 2); 0 min 01 s" in terminal, f"got {terminal}")


def check_order(tally, launcher, scratch):
    """Each crate is proved by itself and once, behind those on which it stands and beside others; one on which the
    program doesn't stand isn't."""
    folder = scratch / "order"
    sources = small_repository(folder, launcher, "apart: smallvec\naside: apart\nlow: smallvec\nnpss: low apart clap\n")
    kit = write_toolchain(scratch / "third", "kit one")
    environment = {**os.environ, "PATH": f"{kit}:/usr/bin:/bin"}
    got = run(folder / "npss", ["a"], b"", scratch, env=environment)
    tally.check("the launcher proves the crates in their order", got[:2] == (0, b"a\n"), f"got {got}")
    tally.same("the launcher proves each crate below", sorted(asked(kit)), ["apart", "low", "npss"])
    for name in ("low", "apart"):
        sources[name].write_text("SLOW\n", encoding="utf-8")
    asked(kit, "turns")
    run(folder / "npss", ["a"], b"", scratch, env=environment)
    turns = asked(kit, "turns")
    tally.same("the launcher proves crates side by side", [sorted(turns[:2]), sorted(turns[2:4])], [["+apart", "+low"], ["-apart", "-low"]])
    tally.same("the launcher proves the program behind both", turns[4:], ["+npss", "-npss"])
    sources["apart"].write_text("one\n", encoding="utf-8")
    run(folder / "npss", ["a"], b"", scratch, env=environment)
    asked(kit)
    sources["low"].write_text("SLOW\n", encoding="utf-8")
    calls = [subprocess.Popen([folder / "npss", "a"], env=environment, stdout=subprocess.PIPE, stderr=subprocess.DEVNULL)
             for _ in range(2)]
    tally.same("two launchers at once", [call.communicate()[0] for call in calls], [b"a\n", b"a\n"])
    tally.same("two launchers at once prove once", asked(kit), ["low", "npss"])
    got = run(folder / "prove", ["none"], b"", scratch, env=environment)
    tally.check("./prove of no crate", got[:2] == (2, b"") and b"no such crate" in got[2], f"got {got}")


def check_after_gate(tally, launcher, scratch):
    """What the gate left is taken as it is, but for a library for C, of which it leaves no archive."""
    folder = scratch / "gate"
    sources = small_repository(folder, launcher, "low: smallvec\nnpss: low clap\ndoor staticlib: low core\n")
    kit = write_toolchain(scratch / "fourth", "kit one")
    environment = {**os.environ, "PATH": f"{kit}:/usr/bin:/bin"}
    library, program = (folder / "crates" / name / "out" for name in ("low", "npss"))

    def prove(*words):
        got = run(folder / "prove", words, b"", scratch, env=environment)
        tally.check(f"./prove {' '.join(words)}", got[:2] == (0, b""), f"got {got}")
        return asked(kit)

    (library / "rlib" / "low.rlib").mkdir(parents=True)
    (library / "rlib" / "low.rlib" / "format").touch()
    (library / "rlib" / "low.rlib" / "lib.rt").touch()
    program.mkdir()
    shutil.copy("/bin/echo", program / "npss")
    tally.same("./prove takes a program of the gate", prove("--after-gate", "npss"), [])
    got = run(folder / "npss", ["a"], b"", scratch, env=environment)
    tally.same("the launcher takes a program of the gate", (*got, asked(kit)), (0, b"a\n", b"", []))
    tally.same("./prove takes libraries of the gate", prove("--after-gate", "door"), ["door"])
    tally.same("./prove doesn't make an archive again", prove("door"), [])
    sources["npss"].write_text("two\n", encoding="utf-8")
    tally.same("./prove goes on from what the gate proved", prove("npss"), ["npss"])
    sources["low"].write_text("two\n", encoding="utf-8")
    tally.same("./prove proves what changed since", prove("door"), ["low", "door"])
    sources["low"].write_text("three\n", encoding="utf-8")
    (library / "rlib" / "stamp").touch()
    tally.same("./prove takes a program beside libraries of another check", prove("--after-gate", "npss"), [])
    tally.same("./prove doesn't take those libraries", prove("--after-gate", "door"), ["low", "door"])
