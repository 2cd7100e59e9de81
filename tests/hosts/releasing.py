"""The next release, made in a copy of this tree by the recipe of CONTRIBUTING.md, and its packages."""

import os
import re
import shutil
import subprocess
import sys

from harness import ROOT

sys.path.insert(0, str(ROOT / "packaging"))
import release as releases

# Who makes the release of the copy.
MAKER = {"GIT_AUTHOR_NAME": "test", "GIT_AUTHOR_EMAIL": "test@example.org", "GIT_COMMITTER_NAME": "test", "GIT_COMMITTER_EMAIL": "test@example.org"}


def copied_tree(to):
    """A copy of this tree with what git knows of it, or nothing where there is no git here."""
    listed = releases.git("ls-files", "-z", "--cached", "--others", "--exclude-standard")
    if not listed or releases.git("rev-parse", "--show-prefix"):
        return None
    subprocess.run(["git", "clone", "-q", "--no-checkout", "--shared", str(ROOT), str(to)], check=True)
    subprocess.run(["git", "-C", str(to), "reset", "-q"], check=True)
    for name in filter(None, listed.split("\0")):
        if (ROOT / name).is_file():
            (to / name).parent.mkdir(parents=True, exist_ok=True)
            shutil.copy(ROOT / name, to / name)
    return to


def ran(*words, **options):
    """Runs a command; what it wrote where it failed, or nothing."""
    done = subprocess.run(list(map(str, words)), stdin=subprocess.DEVNULL, stdout=subprocess.PIPE, stderr=subprocess.STDOUT, text=True, check=False, **options)
    return done.stdout if done.returncode else ""


def next_version():
    """The minor version behind the newest release."""
    major, minor, _ = releases.newest()[0].split(".")
    return f"{major}.{int(minor) + 1}.0"


def built_of(copy, prefix, version, to):
    """What ./build-c of the release installs: programs and library as they are built here, and what tells the version anew."""
    shutil.copytree(prefix, to, symlinks=True)
    shutil.copy(copy / "include/npss.h", to / "include/npss.h")
    flags, proved = to / "lib/pkgconfig/npss.pc", to / "share/doc/npss/PROVED"
    flags.write_text(re.sub(r"^Version: .*$", f"Version: {version}", flags.read_text(encoding="utf-8"), flags=re.MULTILINE), encoding="utf-8")
    head = subprocess.run([sys.executable, copy / "packaging/release.py", "--head"], stdout=subprocess.PIPE, text=True, check=True).stdout
    text = re.sub(r"\Anpss .*\ncommit .*\n", head, proved.read_text(encoding="utf-8"))
    summed = subprocess.run(["sha256sum", "include/npss.h"], cwd=to, stdout=subprocess.PIPE, text=True, check=True).stdout
    proved.write_text(re.sub(r"^[0-9a-f]{64}  include/npss\.h\n", summed, text, flags=re.MULTILINE), encoding="utf-8")
    return to


def next_release(prefix, room):
    """The folder of the next release's packages, and what failed on the way, or nothing."""
    version, to = next_version(), room / "next packages"
    copy = copied_tree(room / "next release")
    if copy is None:
        return to, "there is no git, or no repository of this tree"
    changes = copy / "CHANGELOG.md"
    day = releases.git("log", "-1", "--format=%cs")
    changes.write_text(changes.read_text(encoding="utf-8").replace("## Unreleased\n", f"## Unreleased\n\n## {version} - {day}\n", 1), encoding="utf-8")
    environment = {**os.environ, **MAKER}
    for words in ([sys.executable, copy / "packaging/release.py", "--write"], ["git", "-C", copy, "add", "-A"],
                  ["git", "-C", copy, "commit", "-q", "-m", f"Release {version}"]):
        why = ran(*words, env=environment)
        if why:
            return to, why
    built = built_of(copy, prefix, version, room / "next built")
    return to, ran(copy / "package", "--built", built, "--to", to)


def deb_version(path):
    return subprocess.run(["dpkg-deb", "-f", path, "Version"], stdout=subprocess.PIPE, text=True, check=True).stdout.strip()


def check_versions(tally, made, upgraded, why):
    """The next release is made, and each of its packages is later than this commit's; its folder, or nothing."""
    if not tally.check("the next release is made in a copy, by the recipe", not why, why[-3000:]):
        return None
    names = [sorted(path.name.partition("_")[0] for path in folder.glob("*.deb")) for folder in (made, upgraded)]
    tally.same("the packages of the next release", names[1], names[0])
    for old in made.glob("*.deb"):
        new = next(upgraded.glob(f"{old.name.partition('_')[0]}_*.deb"))
        versions = deb_version(old), deb_version(new)
        later = subprocess.run(["dpkg", "--compare-versions", versions[0], "lt", versions[1]], check=False).returncode == 0
        tally.check(f"{new.name} is later than {old.name}", later and versions[1] == next_version(), versions)
    released = releases.newest()[0]
    later = subprocess.run(["dpkg", "--compare-versions", released, "le", versions[0]], check=False).returncode == 0
    tally.check(f"the packages of this commit aren't earlier than {released}", later, versions)
    return upgraded
