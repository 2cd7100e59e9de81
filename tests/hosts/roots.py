"""A root of Debian without the toolchain, in which packages are installed and removed."""

import os
import re
import shutil
import stat
import subprocess
from pathlib import Path

# What stands in the root before: what the packages depend on, and what a first key wants. No compiler.
PACKAGES = ("postgresql-15", "python3", "python3-prometheus-client", "python3-starlette", "python3-uvicorn", "python3-venv", "sqlite3", "unicode-data")
# A text, its keys under NFC and NFKC, and the files of the version, as the root has them.
TEXT, KEY, COMPATIBLE = "a\u0302\u0323\ufb01", "\u1ead\ufb01", "\u1eadfi"
UNICODE = "/usr/share/unicode"
FILES = (f"{UNICODE}/UnicodeData.txt", f"{UNICODE}/CompositionExclusions.txt")
FOLDING = f"{UNICODE}/CaseFolding.txt"
SOURCES = Path("/etc/apt/sources.list.d/debian.sources")
PLAIN_SOURCES = Path("/etc/apt/sources.list")
# A file that is written with no care for a crash; no translations.
OPTIONS = ("--dpkgopt=force-unsafe-io", "--dpkgopt=path-exclude=/usr/share/locale/*", '--aptopt=Acquire::Languages "none"',
           '--aptopt=Acquire::Retries "2"')
# What dpkg, apt and the loader write for themselves, and what is nobody's.
OWN = ("dev", "proc", "run", "sys", "tmp", "packages", "var/cache", "var/log", "var/lib/dpkg/lock", "var/lib/dpkg/lock-frontend",
       "var/lib/dpkg/triggers")
REWRITTEN = ("etc/ld.so.cache", "var/lib/dpkg/available", "var/lib/dpkg/status", "var/lib/dpkg/status-old", "var/lib/dpkg/diversions",
             "var/lib/dpkg/statoverride", "var/lib/dpkg/diversions-old", "var/lib/dpkg/statoverride-old")
ENVIRONMENT = {"PATH": "/usr/local/sbin:/usr/local/bin:/usr/sbin:/usr/bin:/sbin:/bin", "LC_ALL": "C.UTF-8", "HOME": "/root",
               "DEBIAN_FRONTEND": "noninteractive"}
# Memory as a folder, and how many bytes of it a root may take.
SHARED, ROOM = Path("/dev/shm"), 1_500_000_000
# Seconds for the root, and for a command in it.
MAKING, PATIENCE = 600, 120


def suite():
    """The name of this machine's release of Debian, or nothing."""
    try:
        release = Path("/etc/os-release").read_text(encoding="utf-8")
    except OSError:
        return ""
    found = re.search(r"^VERSION_CODENAME=(\w+)$", release, re.MULTILINE)
    return found[1] if found and re.search(r"^ID=debian$", release, re.MULTILINE) else ""


def why_not():
    """Why no root can be made here, or nothing."""
    if os.environ.get("NO_APT"):
        return "NO_APT is set"
    if os.geteuid():
        return "only root may make one"
    if not shutil.which("mmdebstrap"):
        return "mmdebstrap not found"
    if not suite() or not (SOURCES.exists() or PLAIN_SOURCES.exists()):
        return "this is no Debian, or apt has no sources"
    return ""


def mounts_apart():
    """What gives a command mounts of its own, which end with it, where that may be."""
    words = ["unshare", "--mount"]
    try:
        return words if subprocess.run([*words, "true"], stderr=subprocess.DEVNULL, check=False).returncode == 0 else []
    except FileNotFoundError:
        return []


def place():
    """Where the root is best made: in memory where there is much of it, since dpkg waits for each file on a disk; else nothing."""
    try:
        state, memory = os.statvfs(SHARED), Path("/proc/meminfo").read_text(encoding="utf-8")
    except OSError:
        return None
    free = int(re.search(r"^MemAvailable: *(\d+) kB$", memory, re.MULTILINE)[1]) * 1024
    fits = state.f_bavail * state.f_frsize >= ROOM and free >= 4 * ROOM and not state.f_flag & (os.ST_NOEXEC | os.ST_NODEV)
    return str(SHARED) if fits and os.geteuid() == 0 else None


def make(folder):
    """Makes the root in a folder; why that can't be, or nothing. Its packages come from where apt's own come."""
    why = why_not()
    if why:
        return why
    sources = SOURCES if SOURCES.exists() else PLAIN_SOURCES
    words = ["mmdebstrap", "--mode=root", "--variant=minbase", f"--include={','.join(PACKAGES)}", *OPTIONS, suite(), folder, sources]
    try:
        done = subprocess.run([*mounts_apart(), *map(str, words)], stdin=subprocess.DEVNULL, stdout=subprocess.PIPE, stderr=subprocess.STDOUT,
                              text=True, timeout=MAKING, check=False)
    except subprocess.TimeoutExpired:
        return f"no root within {MAKING} seconds"
    return "" if done.returncode == 0 else f"mmdebstrap ended with status {done.returncode}: {' '.join(done.stdout.split())[-400:]}"


class Root:
    """The root in a folder."""

    def __init__(self, folder):
        self.folder = folder

    def run(self, *words, given=None, user=None, **environment):
        """A command in the root: its status, and what it wrote. `given` is what it reads, as bytes or text."""
        chroot = ["chroot", *([f"--userspec={user}"] if user else []), str(self.folder), *map(str, words)]
        if isinstance(given, str):
            given = given.encode()
        try:
            done = subprocess.run(chroot, input=given or b"", stdout=subprocess.PIPE, stderr=subprocess.STDOUT, timeout=PATIENCE,
                                  env={**ENVIRONMENT, **environment}, check=False)
        except subprocess.TimeoutExpired:
            return None, "no end"
        return done.returncode, done.stdout.decode(errors="replace")

    def put(self, path, *below):
        """Copies a file or a folder to a place below the root."""
        to = self.folder.joinpath(*below)
        to.parent.mkdir(parents=True, exist_ok=True)
        if path.is_dir():
            shutil.copytree(path, to, symlinks=True, dirs_exist_ok=True)
        else:
            shutil.copy(path, to)
        return to

    def listed(self):
        """Each file and folder of the root, with its kind, its size and its time where that is to stay."""
        found = {}
        for where, folders, files in os.walk(self.folder):
            here = os.path.relpath(where, self.folder)
            names = {name: os.path.normpath(os.path.join(here, name)) for name in [*folders, *files]}
            folders[:] = [name for name in folders if names[name] not in OWN]
            for name in [*folders, *files]:
                if names[name] in OWN:
                    continue
                state = os.lstat(os.path.join(where, name))
                keeps = stat.S_ISREG(state.st_mode) and names[name] not in REWRITTEN
                found[names[name]] = (stat.S_IFMT(state.st_mode), *([state.st_size, state.st_mtime_ns] if keeps else []))
        return found


def differences(before, after):
    """What came, went or changed, as a list of names."""
    return sorted(name for name in before.keys() | after.keys() if before.get(name) != after.get(name))
