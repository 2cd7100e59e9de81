"""The servers of a PostgreSQL cluster, of which the primary is asked, by connections whose calls come to an end."""

import random
import selectors
import time
from collections.abc import Iterator, Sequence
from contextlib import contextmanager
from typing import Any, Optional, cast

import psycopg
from psycopg.conninfo import conninfo_to_dict, make_conninfo

from npss_registry.errors import LogUnsafe, StoreError
from npss_registry.logs.names import PASSWORD_FILE, password_of, shown, without_words

# A server that was shown so many seconds ago to have a standby behind it is asked for that again.
TRUSTED = 30.0
# What libpq says of a server that is a standby.
_STANDBY = "session is read-only"
# The least version of PostgreSQL that notices a client's end while it waits.
_NOTICES = 140_000
SETTINGS = "current_setting('fsync'), current_setting('synchronous_commit'), current_setting('synchronous_standby_names')"


class Connection(psycopg.Connection[Any]):
    """A connection whose calls end by a moment. psycopg's own wait as long as the server does."""

    # When the call under way has to end, and when the server was last shown to be followed by a standby.
    by = 0.0
    proved = 0.0
    # What the server warned of within the transaction under way.
    warning: Optional[str] = None
    listens = False

    def wait(self, gen: Any, timeout: Optional[float] = None) -> Any:
        try:
            ready = next(gen)
            with selectors.DefaultSelector() as selector:
                while True:
                    selector.register(self.pgconn.socket, ready)
                    found = selector.select(max(0.0, self.by - time.monotonic()))
                    selector.unregister(self.pgconn.socket)
                    if not found:
                        # Nothing is cancelled: a commit that is cancelled stands on no standby, and is answered as done.
                        self.pgconn.finish()
                        raise psycopg.OperationalError("no answer in time")
                    ready = gen.send(found[0][1])
        except StopIteration as done:
            return done.value

    def warned(self, diagnostic: psycopg.errors.Diagnostic) -> None:
        """Notes what the server warns of."""
        if diagnostic.severity_nonlocalized == "WARNING":
            self.warning = diagnostic.message_primary or "a warning"


class Cluster:
    """The servers of a URL. `lock` is the name under which one connection at a time writes; `single` is that no standby is wanted."""

    def __init__(self, url: str, lock: str, single: bool, patience: float):
        self._url, self._lock, self._single, self._patience = url, lock, single, patience
        try:
            self._words = conninfo_to_dict(without_words(url, PASSWORD_FILE))
        except psycopg.Error as error:
            raise StoreError(f"{shown(url)} names no server: {str(error).strip()}") from error
        # libpq would wait for ever at the first host that is stopped, so each is tried by itself.
        hosts, ports = (str(self._words.get(word) or "").split(",") for word in ("host", "port"))
        if any(port and not port.isdecimal() for port in ports) or len(ports) not in (1, len(hosts)):
            raise StoreError(f"{shown(url)} names no server: its ports are no numbers, or not as many as its hosts")
        self._hosts = [{"host": host, "port": port} for host, port in zip(hosts, ports * len(hosts) if len(ports) == 1 else ports)]

    def connected(self, by: float) -> Connection:
        """A connection to the primary, until a moment. LogUnsafe where it may lose what it answers."""
        failed: psycopg.Error = psycopg.OperationalError("no server of the cluster is a primary")
        random.shuffle(self._hosts)
        while time.monotonic() < by:
            for left, host in zip(range(len(self._hosts), 0, -1), self._hosts):
                try:
                    return self._connected_to(host, time.monotonic() + (by - time.monotonic()) / left)
                except psycopg.Error as error:
                    failed = failed if _STANDBY in str(error) else error
            time.sleep(max(0.0, min(0.1, by - time.monotonic())))  # nobody is the primary just now
        raise failed

    def _connected_to(self, host: dict[str, str], by: float) -> Connection:
        words: dict[str, Any] = {**self._words, **{name: value for name, value in host.items() if value}, "target_session_attrs": "read-write",
                                 "client_encoding": "UTF8", "connect_timeout": max(1, int(by - time.monotonic()))}
        password = password_of(self._url)
        made = Connection.connect(make_conninfo(**words, **({} if password is None else {"password": password})), autocommit=True)
        base = cast(Connection, made)  # it is one of the class that connected
        base.add_notice_handler(base.warned)
        try:
            base.by = by
            self._set(base)
            self.prove(base)
            return base
        except BaseException:
            base.close()
            raise

    def _set(self, base: Connection) -> None:
        """Sets what a session has to be like: who waits for the lock, or holds it and is gone, makes room; a commit waits."""
        milliseconds = f"{int(self._patience * 1000)}ms"
        base.execute("SELECT set_config('lock_timeout', %s, false), set_config('idle_in_transaction_session_timeout', %s, false), "
                     "set_config('statement_timeout', '0', false)", [milliseconds, milliseconds])
        base.execute("SELECT set_config('synchronous_commit', 'on', false) WHERE current_setting('synchronous_commit') <> 'remote_apply'")
        if base.info.server_version >= _NOTICES:
            base.execute("SELECT set_config('client_connection_check_interval', '1s', false)")

    def prove(self, base: Connection) -> None:
        """A server is set so that it loses nothing, and a standby has what it shows.

        What a server that broke down had committed alone shows behind its restart. This commit stands behind all that shows, and
        waits for a standby. It does so under the lock, so that one of the server's processes hangs at most.
        """
        settings, = base.execute(f"SELECT {SETTINGS}").fetchall()
        self.check(settings)
        with self.writing(base):
            base.execute("SELECT pg_logical_emit_message(true, 'npss', '')")

    def check(self, settings: Sequence[str]) -> None:
        """LogUnsafe where the settings of a server let it lose what it answers."""
        fsync, commit, standbys = settings
        if fsync != "on" or commit not in ("on", "remote_apply"):
            raise LogUnsafe("the PostgreSQL server loses what it was told last: set fsync on")
        if not standbys and not self._single:
            raise LogUnsafe("the PostgreSQL server waits for no standby: set synchronous_standby_names, or let the log's name end in #NAME,single")

    @contextmanager
    def writing(self, base: Connection) -> Iterator[None]:
        """A transaction beside which nobody writes. The lock is held until a standby has it."""
        base.warning = None
        with base.transaction():
            base.execute("SELECT pg_advisory_xact_lock(hashtextextended(%s, 0))", [self._lock])
            yield
        if base.warning is not None:  # somebody cancelled the wait for the standby
            raise psycopg.OperationalError(f"whether a standby has it isn't known: {base.warning}")
        base.proved = time.monotonic()
