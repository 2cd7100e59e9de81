"""Servers of logs on this machine, which tests start, stop, kill and start again: one of Redis, three of PostgreSQL, three of etcd.

Each answers for loopback alone, and keeps what it has in a folder of its own.
"""

import contextlib
import importlib.util
import os
import pwd
import shutil
import signal
import socket
import subprocess
import threading
import time
from pathlib import Path

POSTGRESQL = next((path for path in sorted(Path("/usr/lib/postgresql").glob("*/bin"), reverse=True) if (path / "initdb").exists()), None)
# Who runs PostgreSQL, which root may not.
USER = "postgres"
SECONDS = 30


def is_here(kind):
    """Whether there are a server and what a client wants of a log: of `redis`, `postgres` or `etcd`."""
    if kind == "redis":
        return bool(shutil.which("redis-server") and importlib.util.find_spec("redis"))
    if kind == "postgres":
        return bool(POSTGRESQL and importlib.util.find_spec("psycopg"))
    return bool(shutil.which("etcd"))


def free_ports(count):
    """Ports that nobody has just now."""
    with contextlib.ExitStack() as opened:
        made = [opened.enter_context(socket.create_server(("127.0.0.1", 0))) for _ in range(count)]
        return [one.getsockname()[1] for one in made]


def waited(true, seconds=SECONDS):
    """Waits until something is so."""
    end = time.monotonic() + seconds
    while not true():
        if time.monotonic() > end:
            raise RuntimeError("a server doesn't come to what it has to be")
        time.sleep(0.05)


def listens(port):
    """Whether somebody takes connections at a port."""
    try:
        socket.create_connection(("127.0.0.1", port), timeout=1).close()
    except OSError:
        return False
    return True


def send(pids, number):
    """Sends a signal to processes, as far as they are there."""
    for pid in pids:
        with contextlib.suppress(ProcessLookupError):
            os.kill(pid, number)


def hosts_of(ports):
    """The hosts of a log's name."""
    return ",".join(f"127.0.0.1:{port}" for port in ports)


class Proxy:
    """Hands bytes on to a server, and drops each connection while it is cut. While it `swallows`, it cuts a way where an answer comes."""

    def __init__(self, port):
        self.to = port
        self.cut = self.swallows = False
        self._open = set()
        self._listener = socket.create_server(("127.0.0.1", 0))
        self.port = self._listener.getsockname()[1]
        threading.Thread(target=self._serve, daemon=True).start()

    def _serve(self):
        while True:
            try:
                near, _ = self._listener.accept()
            except OSError:
                return
            try:
                if self.cut:
                    raise ConnectionRefusedError
                far = socket.create_connection(("127.0.0.1", self.to), timeout=2)
            except OSError:
                near.close()
                continue
            far.settimeout(None)  # a slow answer isn't a cut
            ends = (near, far)
            self._open.update(ends)
            passing = [threading.Thread(target=self._pass, args=(*pair, is_answer), daemon=True) for pair, is_answer in ((ends, False), (ends[::-1], True))]
            threading.Thread(target=self._watch, args=(ends, passing), daemon=True).start()

    def _pass(self, one, other, is_answer):
        with contextlib.suppress(OSError):
            while (piece := one.recv(65536)) and not self.cut and not (is_answer and self.swallows):
                other.sendall(piece)
        for end in (one, other):
            with contextlib.suppress(OSError):
                end.shutdown(socket.SHUT_RDWR)

    def _watch(self, ends, passing):
        """Closes both ends once nothing is passed between them any more."""
        for thread in passing:
            thread.start()
        for thread in passing:
            thread.join()
        for end in ends:
            self._open.discard(end)
            end.close()

    def drop(self, cut):
        """Cuts the way, or lets it be."""
        self.cut = cut
        for end in list(self._open) if cut else ():
            with contextlib.suppress(OSError):
                end.shutdown(socket.SHUT_RDWR)

    def close(self):
        with contextlib.suppress(OSError):
            self._listener.shutdown(socket.SHUT_RDWR)
        self._listener.close()
        self.drop(True)


class Servers:
    """What all have in common. `pids` are the processes that are there."""

    def silence(self):
        """They take connections, and answer nothing."""
        send(self.pids(), signal.SIGSTOP)

    def speak(self):
        send(self.pids(), signal.SIGCONT)


class RedisServer(Servers):
    """A Redis server that writes each record to its disk, unless settings say otherwise."""

    settings = {"appendonly": "yes", "appendfsync": "always"}

    def __init__(self, folder, **settings):
        self.folder = folder
        self.port, = free_ports(1)
        self.log = self.name("tests")
        self.start(**settings)

    @property
    def ports(self):
        return [self.port]

    def name(self, prefix, ports=None):
        """The name of a log, perhaps by way of other ports."""
        return f"redis://127.0.0.1:{(ports or self.ports)[0]}/0#{prefix}"

    def start(self, **settings):
        words = {**self.settings, **{name.replace("_", "-"): value for name, value in settings.items()}}
        self.process = subprocess.Popen(["redis-server", "--port", str(self.port), "--bind", "127.0.0.1", "--dir", str(self.folder), "--save", "",
                                         *(word for name, value in words.items() for word in (f"--{name}", value))], stdout=subprocess.DEVNULL)
        waited(lambda: listens(self.port))

    def pids(self):
        return [self.process.pid]

    def set(self, **settings):
        """Changes settings while it runs."""
        for name, value in settings.items():
            self.client().config_set(name.replace("_", "-"), value)

    def client(self, **words):
        import redis

        return redis.Redis(port=self.port, **words)

    def kill(self):
        self.speak()
        self.process.kill()
        self.process.wait()

    close = kill


class Postgres(Servers):
    """A primary and two standbys, of which one has to have what is answered."""

    def __init__(self, folder):
        self.folder = Path(folder, "postgres")
        self.folder.mkdir()
        self.ports = free_ports(3)
        if os.geteuid() == 0:
            found = pwd.getpwnam(USER)
            os.chown(self.folder, found.pw_uid, found.pw_gid)
        self.run("initdb", "-D", self.path(0), "-A", "trust", "-U", "npss", "--no-sync", "--wal-segsize=1")
        with (self.path(0) / "postgresql.conf").open("a", encoding="ascii") as file:
            file.write(f"listen_addresses = '127.0.0.1'\nunix_socket_directories = '{self.folder}'\nshared_buffers = 16MB\nmax_connections = 40\n"
                       "wal_keep_size = 64MB\nmax_wal_size = 64MB\nmin_wal_size = 4MB\nwal_log_hints = on\nsynchronous_standby_names = 'ANY 1 (p0, p1, p2)'\n"
                       "wal_receiver_timeout = 5s\nwal_retrieve_retry_interval = 500ms\n"
                       # What a killed server shared is in its folder, and not in the system's.
                       "dynamic_shared_memory_type = mmap\n")
        self.primary = 0
        self.start(0)
        for number in (1, 2):
            self.clone(number)

    @property
    def hosts(self):
        return hosts_of(self.ports)

    def name(self, table, ports=None):
        """The name of a log, perhaps by way of other ports."""
        return f"postgresql://npss@{hosts_of(ports or self.ports)}/postgres#{table}"

    def path(self, number):
        return self.folder / f"p{number}"

    def run(self, program, *words):
        """Runs a program of PostgreSQL; what it wrote, or an error with it."""
        command = [*(["runuser", "-u", USER, "--"] if os.geteuid() == 0 else []), str(POSTGRESQL / program), *map(str, words)]
        ran = subprocess.run(command, stdin=subprocess.DEVNULL, stdout=subprocess.PIPE, stderr=subprocess.STDOUT, text=True, cwd="/",
                             env={"LC_ALL": "C", "PATH": os.environ["PATH"]}, check=False)
        if ran.returncode:
            raise RuntimeError(f"{program}: {ran.stdout[-2000:]}")
        return ran.stdout

    def control(self, number, *words):
        self.run("pg_ctl", "-D", self.path(number), "-o", f"-p {self.ports[number]}", "-l", f"{self.path(number)}.log", "-w", "-t", str(SECONDS), *words)

    def start(self, number):
        """Starts a server, also one whose processes were killed a moment ago."""
        end = time.monotonic() + SECONDS
        while True:
            try:
                self.control(number, "start")
                return
            except RuntimeError:  # a killed server's children end by themselves, and it can't be started before
                if time.monotonic() > end:
                    raise
                time.sleep(0.2)

    def stop(self, number):
        with contextlib.suppress(RuntimeError):
            self.control(number, "-m", "immediate", "stop")

    def kill(self, number):
        """The server's first process is killed; the others notice it."""
        first = self._first(number)
        send(first, signal.SIGKILL)
        # It stays a zombie where whoever started it doesn't ask for it.
        waited(lambda: not any(Path(f"/proc/{pid}/exe").exists() for pid in first))

    def clone(self, number):
        """Makes a standby anew from the primary, and starts it."""
        shutil.rmtree(self.path(number), ignore_errors=True)
        self.run("pg_basebackup", "-D", self.path(number), "-d", f"host=127.0.0.1 port={self.ports[self.primary]} user=npss", "-c", "fast", "--no-sync", "-X", "stream")
        self.follow(number)
        self.start(number)

    def follow(self, number):
        """Tells a server that it is a standby of the primary."""
        signal_file, settings = self.path(number) / "standby.signal", self.path(number) / "postgresql.auto.conf"
        signal_file.touch()
        with settings.open("a", encoding="ascii") as file:
            file.write(f"primary_conninfo = 'host=127.0.0.1 port={self.ports[self.primary]} user=npss application_name=p{number} tcp_user_timeout=5000'\n"
                       "recovery_target_timeline = 'latest'\n")
        if os.geteuid() == 0:
            found = pwd.getpwnam(USER)
            os.chown(signal_file, found.pw_uid, found.pw_gid)

    def others(self):
        """The servers that aren't the primary."""
        return [number for number in range(3) if number != self.primary]

    def promote(self, number=None):
        """Promotes a standby, the one that has most where none is named; the other one follows it."""
        before, got = self.primary, {}
        for one in self.others():  # both are asked, for either may have the tail alone
            got[one] = self.ask(one, "SELECT greatest(pg_last_wal_receive_lsn(), pg_last_wal_replay_lsn()) - '0/0'::pg_lsn")
        self.primary = max(got, key=lambda one: got[one]) if number is None else number
        self.control(self.primary, "promote")
        for one in self.others():
            if one != before:
                self.follow(one)
                self.control(one, "reload")
        return before

    def ask(self, number, query, *given, base="postgres"):
        """The first value that a query answers; None of a command."""
        import psycopg

        with psycopg.connect(f"host=127.0.0.1 port={self.ports[number]} user=npss dbname={base} connect_timeout=5 client_encoding=UTF8", autocommit=True) as made:
            found = made.execute(query, given)
            return found.fetchone()[0] if found.description else None

    def limit(self, pid, size):
        """A process of a server may write no file of more bytes."""
        subprocess.run([*(["runuser", "-u", USER, "--"] if os.geteuid() == 0 else []), "prlimit", "--pid", str(pid), f"--fsize={size}:"], check=True)

    def set(self, name, value):
        """Changes a setting of the primary while it runs; None: as it was."""
        self.ask(self.primary, f"ALTER SYSTEM RESET {name}" if value is None else f"ALTER SYSTEM SET {name} = '{value}'")
        self.control(self.primary, "reload")

    def synchronous(self):
        """Whether the primary has a standby that counts."""
        return self.ask(self.primary, "SELECT count(*) FROM pg_stat_replication WHERE sync_state = 'quorum'") > 0

    def _first(self, number):
        try:
            return [int((self.path(number) / "postmaster.pid").read_text(encoding="ascii").split("\n")[0])]
        except (OSError, ValueError):
            return []

    def processes(self, number):
        """The processes of a server."""
        first = self._first(number)
        with contextlib.suppress(OSError):
            return [*first, *(int(pid) for one in first for pid in Path(f"/proc/{one}/task/{one}/children").read_text(encoding="ascii").split())]
        return []

    def pids(self):
        return [pid for number in range(3) for pid in self.processes(number)]

    def close(self):
        self.speak()
        for number in range(3):
            self.stop(number)
            send(self.processes(number), signal.SIGKILL)


class Etcd(Servers):
    """Three members, of which two have to have what is answered."""

    def __init__(self, folder, *words):
        self.folder = Path(folder, "etcd")
        self.folder.mkdir()
        ports = free_ports(6)
        self.ports, self._peers = ports[:3], ports[3:]
        self._words = words
        self.running = [None] * 3
        for number in range(3):
            self.start(number)
        waited(lambda: self.leader() is not None)

    def name(self, prefix, ports=None):
        """The name of a log, perhaps by way of other ports."""
        return f"etcd://{hosts_of(ports or self.ports)}#{prefix}"

    def start(self, number):
        folder = self.folder / f"m{number}"
        own, peer = (f"http://127.0.0.1:{ports[number]}" for ports in (self.ports, self._peers))
        words = ["--name", f"m{number}", "--data-dir", folder, "--listen-peer-urls", peer, "--initial-advertise-peer-urls", peer,
                 "--listen-client-urls", own, "--advertise-client-urls", own, "--initial-cluster-state", "existing" if folder.exists() else "new",
                 "--initial-cluster", ",".join(f"m{one}=http://127.0.0.1:{port}" for one, port in enumerate(self._peers)), "--logger", "zap",
                 "--log-level", "error", *self._words]
        with (self.folder / f"m{number}.log").open("a", encoding="utf-8") as log:
            self.running[number] = subprocess.Popen(["etcd", *map(str, words)], stdin=subprocess.DEVNULL, stdout=log, stderr=log)

    def ask(self, number, path, request):
        """What one member answers; None where it doesn't."""
        import http.client
        import json

        line = http.client.HTTPConnection("127.0.0.1", self.ports[number], timeout=2)
        try:
            line.request("POST", path, json.dumps(request))
            answer = line.getresponse()
            return json.loads(answer.read()) if answer.status == 200 else None
        except (OSError, http.client.HTTPException, ValueError):
            return None
        finally:
            line.close()

    def leader(self):
        """The number of the member that leads; None where none does."""
        for number in range(3):
            answer = self.ask(number, "/v3/maintenance/status", {})
            if answer and answer.get("leader") == answer["header"]["member_id"]:
                return number
        return None

    def kill(self, number):
        self.running[number].kill()
        self.running[number].wait()

    def pids(self):
        return [one.pid for one in self.running if one.poll() is None]

    def close(self):
        self.speak()
        for number in range(3):
            self.kill(number)
