#!/usr/bin/env python3
"""The release that this tree is, by CHANGELOG.md and git: its version, its commit, its time.

    packaging/release.py            prints the version, each place that tells another one, and what is wrong with the scripts of SQL
    packaging/release.py --write    puts these places right, and lists the scripts of SQL as released
    packaging/release.py --head     prints how PROVED begins: the version and the commit
    packaging/release.py --packed   prints the version of the packages

The packages of a release have its version. Those of another commit have it with the commit's day and name behind, as
0.2.0+git20261130.0123abcd, which is later than the release and earlier than the next one. A commit is a release where its tag
stands at it; where there is no such tag yet, where CHANGELOG.md has nothing under "Unreleased".

The extension for PostgreSQL has a version of its own for its SQL, in npss.control, which changes with the SQL alone. A script
that a release had stays as it was: databases/postgresql/released has its sum. What changes comes in a script of the next
version, npss--A--B.sql.

The status is 1 where a place tells another version and isn't put right, or where a script is wrong.
"""

import hashlib
import os
import re
import subprocess
import sys
from datetime import datetime, timezone
from pathlib import Path
from typing import NamedTuple

ROOT = Path(__file__).resolve().parent.parent


def number_of(version):
    """A version as a number: 10,000 times the major one, 100 times the minor one, and the patch."""
    major, minor, patch = map(int, version.split("."))
    return str(10_000 * major + 100 * minor + patch)


# Where the version stands a second time, since other tools read it there: the file, what stands before it, and how it is spelled.
PLACES = (
    ("README.md", r"^Release ", str),
    ("bindings/python/src/npss/__init__.py", r'^__version__ = "', str),
    ("bindings/rust/Cargo.toml", r'\A\[package\]\nname = "npss"\nversion = "', str),
    ("bindings/rust/Cargo.lock", r'^name = "npss"\nversion = "', str),
    ("include/npss.h", r'^#define NPSS_VERSION "', str),
    ("include/npss.h", r"^#define NPSS_VERSION_NUMBER ", number_of),
    ("crates/np_lines_job/src/words/usage.rt", r'^    "npss_lines ', str),
    ("crates/np_lines_job/specs/LineWords.antt", r'^lines_version = codes "npss_lines ', str),
    ("crates/np_caseless_job/src/usage.rt", r'^    "npss_caseless ', str),
    ("crates/np_caseless_job/specs/Usage.antt", r'^caseless_version = codes "npss_caseless ', str),
)
# The scripts of the extension for PostgreSQL, and the list of those that a release had.
SQL = ROOT / "databases" / "postgresql"
RELEASED = SQL / "released"
# What the program and the library are made of.
PROVED_SOURCES = ("crates", "crates.txt", "include", "build-c")


class Release(NamedTuple):
    """A version and the day of its release, the commit, when it was made, in seconds from 1970, and the version of its packages."""

    version: str
    day: str
    commit: str
    time: int
    packed: str

    @property
    def is_released(self):
        """Whether the commit is that of the release."""
        return self.packed == self.version


def newest():
    """The newest version that CHANGELOG.md tells as released, and its day."""
    found = re.search(r"^## (\d+\.\d+\.\d+) - (\d{4}-\d\d-\d\d)$", (ROOT / "CHANGELOG.md").read_text(encoding="utf-8"), re.MULTILINE)
    if not found:
        raise ValueError("CHANGELOG.md tells no version as '## MAJOR.MINOR.PATCH - YYYY-MM-DD'")
    return found[1], found[2]


def git(*words):
    """What git answers about this tree, or nothing where there is no git or no repository of this tree."""
    try:
        done = subprocess.run(["git", "-C", str(ROOT), *words], stdout=subprocess.PIPE, stderr=subprocess.DEVNULL, text=True, check=False)
    except FileNotFoundError:
        return ""
    return done.stdout.strip() if done.returncode == 0 else ""


def is_changed_since(commit, *paths):
    """Whether these files of the tree are others than in a commit, or whether that can't be told."""
    try:
        return subprocess.run(["git", "-C", str(ROOT), "diff", "--quiet", commit, "--", *paths], stderr=subprocess.DEVNULL,
                              check=False).returncode != 0
    except FileNotFoundError:
        return True


def has_news():
    """Whether CHANGELOG.md has something under "Unreleased"."""
    found = re.search(r"^## Unreleased$(.*?)^## ", (ROOT / "CHANGELOG.md").read_text(encoding="utf-8"), re.MULTILINE | re.DOTALL)
    return bool(found and found[1].strip())


def packed_version(version, commit, time):
    """The version of the packages of a commit: that of the release, or one that is later. Of no commit the time tells it alone."""
    name, _, changed = commit.partition(", ")
    tagged = git("rev-parse", f"v{version}^{{commit}}")
    if not changed and (tagged == name if tagged else not has_news()):
        return version
    day = datetime.fromtimestamp(time, timezone.utc).strftime("%Y%m%d")
    return f"{version}+git{day}" + (f".{name[:8]}" if name else "") + (".changed" if changed else "")


def this_release():
    """The release that this tree is. SOURCE_DATE_EPOCH comes before the time of the commit, and that before the day of the version."""
    version, day = newest()
    commit = git("rev-parse", "HEAD") if git("rev-parse", "--show-prefix") == "" else ""
    at_midnight = int(datetime.strptime(day, "%Y-%m-%d").replace(tzinfo=timezone.utc).timestamp())
    time = int(os.environ.get("SOURCE_DATE_EPOCH") or git("log", "-1", "--format=%ct") or at_midnight)
    if commit and git("status", "--porcelain"):
        commit += ", with changes"
    return Release(version, day, commit or "unknown", time, packed_version(version, commit, time))


def differing(version, write=False):
    """The places that tell another version; `write` puts them right."""
    places = []
    for name, before, spelled in PLACES:
        path, wanted = ROOT / name, spelled(version)
        text = path.read_text(encoding="utf-8")
        changed, count = re.subn(rf"({before})[0-9.]+", rf"\g<1>{wanted}", text, count=1, flags=re.MULTILINE)
        if count == 0 or changed != text:
            places.append(name)
            if write and count:
                path.write_text(changed, encoding="utf-8")
    return places


def sum_of(name):
    """The SHA-256 of a script, or nothing where there is none of that name."""
    path = SQL / name
    return hashlib.sha256(path.read_bytes()).hexdigest() if path.exists() else ""


def released_sums():
    """The SHA-256 of each script that a release had, by its name."""
    return {name: wanted for wanted, name in (line.split() for line in RELEASED.read_text(encoding="utf-8").splitlines())}


def versions_that_reach(version, scripts):
    """The versions of the SQL from which scripts npss--A--B.sql lead to this one, and itself."""
    found, more = set(), {version}
    while more:
        found |= more
        more = {words[1] for words in scripts if len(words) == 3 and words[2] in found} - found
    return found


def sql_faults():
    """What is wrong with the scripts of SQL, a line each: a released one was changed, or one leads nowhere."""
    faults = [f"{name} isn't as it was released: put what changes into npss--A--B.sql" for name, wanted in released_sums().items() if sum_of(name) != wanted]
    found = re.search(r"^default_version = '([^']+)'$", (SQL / "npss.control").read_text(encoding="utf-8"), re.MULTILINE)
    version = found[1] if found else ""
    scripts = [path.stem.split("--") for path in SQL.glob("npss--*.sql")]
    reach = versions_that_reach(version, scripts)
    if not any(words[1] in reach for words in scripts if len(words) == 2):
        faults.append(f"npss.control: no script makes version {version}")
    return faults + [f"no script leads from version {one} to {version}" for one in sorted({word for words in scripts for word in words[1:]} - reach)]


def list_scripts():
    """Lists each script of SQL as released that isn't yet."""
    kept = released_sums()
    fresh = {path.name: sum_of(path.name) for path in sorted(SQL.glob("npss--*.sql")) if path.name not in kept}
    RELEASED.write_text("".join(f"{made}  {name}\n" for name, made in {**kept, **fresh}.items()), encoding="utf-8")


def main():
    write = sys.argv[1:] == ["--write"]
    version, _ = newest()
    if sys.argv[1:] == ["--head"]:
        print(f"npss {version}\ncommit {this_release().commit}")
        return 0
    if sys.argv[1:] == ["--packed"]:
        print(this_release().packed)
        return 0
    print(version)
    places = differing(version, write)
    for name in places:
        print(f"{'written' if write else 'tells another version'}: {name}")
    faults = sql_faults()
    for fault in faults:
        print(f"wrong: {fault}")
    if write and not faults:
        list_scripts()
    return 1 if faults or (places and not write) else 0


if __name__ == "__main__":
    sys.exit(main())
