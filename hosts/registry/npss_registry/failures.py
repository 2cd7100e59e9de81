"""What SQLite and others raise, as what this package raises."""

import sqlite3
import zlib
from collections.abc import Iterator
from contextlib import contextmanager

from npss_registry.errors import CannotServe, RegistryError, StoreAway, StoreError

# What may be over when it is tried again: a full disk, another one's lock, rights, want of memory.
_PASSING = {sqlite3.SQLITE_PERM, sqlite3.SQLITE_BUSY, sqlite3.SQLITE_LOCKED, sqlite3.SQLITE_NOMEM, sqlite3.SQLITE_READONLY,
            sqlite3.SQLITE_IOERR, sqlite3.SQLITE_FULL, sqlite3.SQLITE_CANTOPEN}
# Debian's packages of the modules that aren't Python's own.
PACKAGES = {"redis": "python3-redis", "psycopg": "python3-psycopg", "starlette": "python3-starlette", "uvicorn": "python3-uvicorn", "h11": "python3-h11",
            "prometheus_client": "python3-prometheus-client"}


def store_error(path: str, error: sqlite3.Error, otherwise: str) -> RegistryError:
    """StoreAway where SQLite can't work on the file of a store just now; else a StoreError by other words."""
    # The low byte of SQLite's number tells the kind. Python tells none of its own failures, as of a text that is none.
    if getattr(error, "sqlite_errorcode", 0) & 0xFF in _PASSING:
        return StoreAway(f"{path}: {error}")
    return StoreError(f"{path}: {otherwise}: {error}")


@contextmanager
def plainly(path: str) -> Iterator[None]:
    """Raises StoreAway or StoreError where the file of a store can't be worked on, just now or at all."""
    try:
        yield
    except sqlite3.Error as error:
        raise store_error(path, error, "the store is damaged") from error
    except (zlib.error, UnicodeDecodeError) as error:
        raise StoreError(f"{path}: the store is damaged: {error}") from error


@contextmanager
def modules() -> Iterator[None]:
    """Raises CannotServe where a module is missing."""
    try:
        yield
    except ModuleNotFoundError as error:
        package = PACKAGES.get((error.name or "").partition(".")[0])
        wanted = f"Debian has it as {package}" if package else "install it"
        raise CannotServe(f"the Python module {error.name} is missing; {wanted}") from error
