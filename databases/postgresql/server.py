"""A PostgreSQL of its own in a folder of its own, with the extension npss in it, for tests and benches.

Nothing is installed into the system: programs, libraries and shared files of Debian's PostgreSQL are copied, since they
find one another by where they stand.
"""

import os
import pwd
import shutil
import subprocess
from pathlib import Path

MAJOR = "15"
# Below NPSS_POSTGRESQL_ROOT another minor version than the system's may be unpacked, to be run in its place.
ROOT = Path(os.environ.get("NPSS_POSTGRESQL_ROOT", "/"))
LIBRARIES, SHARED = ROOT / "usr/lib/postgresql" / MAJOR, ROOT / "usr/share/postgresql" / MAJOR
PG_CONFIG = Path("/usr/lib/postgresql", MAJOR, "bin", "pg_config")
HEADER = Path("/usr/include/postgresql", MAJOR, "server", "postgres.h")
HERE = Path(__file__).resolve().parent
USER = "postgres"


def is_here():
    """Whether PostgreSQL and its headers are here."""
    return (LIBRARIES / "bin" / "initdb").exists() and HEADER.exists()


def words_as_user(words):
    """A command as the user of the servers, where this is root."""
    return ["runuser", "-u", USER, "--", *map(str, words)] if os.geteuid() == 0 else list(map(str, words))


def own(path):
    """Gives a folder to the user of the servers, where this is root."""
    if os.geteuid() == 0:
        user = pwd.getpwnam(USER)
        os.chown(path, user.pw_uid, user.pw_gid)


def run(words, **options):
    """Runs a command as the user of the servers; what it wrote, or an error with it."""
    ran = subprocess.run(words_as_user(words), stdin=subprocess.DEVNULL, stdout=subprocess.PIPE, stderr=subprocess.STDOUT, text=True,
                         cwd="/", check=False, **options)
    if ran.returncode:
        raise RuntimeError(f"{words[0]}: status {ran.returncode}: {ran.stdout[-3000:]}")
    return ran.stdout


def installed(folder, prefix):
    """A copy of PostgreSQL below a folder with the extension, which is built over the library of a prefix; its programs."""
    libraries = folder / "lib" / "postgresql" / MAJOR
    shutil.copytree(LIBRARIES, libraries, ignore=shutil.ignore_patterns("bitcode"))
    shutil.copytree(SHARED, folder / "share" / "postgresql" / MAJOR)
    source = folder / "source" / HERE.name
    shutil.copytree(HERE, source, ignore=shutil.ignore_patterns("__pycache__", "*.o", "*.so", "results"))
    for file in HERE.parent.glob("common.*"):
        shutil.copy(file, source.parent)
    make = ["make", "-s", "-C", source, f"NPSS={prefix}", f"PG_CONFIG={PG_CONFIG}", "with_llvm=no"]
    built = subprocess.run(list(map(str, make)), stdout=subprocess.PIPE, stderr=subprocess.STDOUT, text=True, check=False)
    if built.returncode or "warning" in built.stdout:
        raise RuntimeError(f"the extension isn't built cleanly: {built.stdout}")
    shutil.copy(source / "npss.so", libraries / "lib")
    for file in (source / "npss.control", *source.glob("npss--*.sql")):
        shutil.copy(file, folder / "share" / "postgresql" / MAJOR / "extension")
    return libraries / "bin"


class Server:
    """A cluster in a folder that there isn't yet; its socket stands there too."""

    def __init__(self, programs, folder, versions, settings=""):
        self.programs, self.folder = programs, folder
        folder.mkdir()
        own(folder)
        self.data = folder / "data"
        # What a killed server shared is in its folder, and not in the system's.
        self.settings = {"unix_socket_directories": folder, "listen_addresses": "", "npss.folder": versions, "fsync": "off",
                         "dynamic_shared_memory_type": "mmap"}
        self.extra = settings

    def create(self):
        """Makes the cluster."""
        run([self.programs / "initdb", "-D", self.data, "-U", USER, "--locale=C.UTF-8", "-E", "UTF8", "-A", "trust"])
        return self.configure()

    def configure(self, **changed):
        """Writes the settings."""
        self.settings.update(changed)
        lines = "".join(f"{name} = '{value}'\n" for name, value in self.settings.items())
        path = self.data / "postgresql.auto.conf"
        kept = "".join(line for line in path.read_text().splitlines(True) if line.startswith("primary_"))
        path.write_text(kept + lines + self.extra)
        return self

    def control(self, *words):
        return run([self.programs / "pg_ctl", "-D", self.data, "-w", "-l", self.folder / "log", *words])

    def start(self):
        self.control("start")
        return self

    def stop(self, mode="fast"):
        self.control("stop", "-m", mode)

    def psql(self, base="postgres", *words):
        return [self.programs / "psql", "-X", "-q", "-A", "-t", "-h", self.folder, "-U", USER, "-d", base, *words]

    def sql(self, text, base="postgres", settings=""):
        """What a text of SQL answers; an error with its SQLSTATE where it fails, or where it comes to no end."""
        environment = {**os.environ, "PGOPTIONS": settings}
        ran = subprocess.run(words_as_user(self.psql(base, "-v", "ON_ERROR_STOP=1", "-v", "VERBOSITY=verbose")), input=text, stdout=subprocess.PIPE,
                             stderr=subprocess.PIPE, text=True, env=environment, cwd="/", check=False, timeout=300)
        if ran.returncode:
            raise SqlError(ran.stderr)
        self.stderr = ran.stderr
        return ran.stdout.strip()


class SqlError(Exception):
    """A statement failed; `state` is its SQLSTATE."""

    def __init__(self, stderr):
        super().__init__(stderr)
        words = stderr.partition("ERROR:")[2].split() or stderr.partition("FATAL:")[2].split()
        self.state = words[0].rstrip(":") if words else ""


class Session:
    """A session that stays open."""

    MARK = "-- the end of an answer --"

    def __init__(self, server, base="postgres"):
        words = words_as_user(server.psql(base, "-v", "VERBOSITY=verbose"))
        self._process = subprocess.Popen(words, stdin=subprocess.PIPE, stdout=subprocess.PIPE, stderr=subprocess.STDOUT, text=True, cwd="/")
        self.pid = int(self.ask("SELECT pg_backend_pid();"))

    def send(self, text):
        """Sends a text, and doesn't wait."""
        self._process.stdin.write(f"{text};\n\\echo {self.MARK}\n")
        self._process.stdin.flush()

    def receive(self):
        """What the text that was sent answers; its error with its SQLSTATE in it."""
        lines = []
        for line in self._process.stdout:
            if line.strip() == self.MARK:
                break
            lines.append(line)
        return "".join(lines).strip()

    def ask(self, text):
        self.send(text)
        return self.receive()

    def close(self):
        self._process.stdin.close()
        self._process.wait()
        self._process.stdout.close()
