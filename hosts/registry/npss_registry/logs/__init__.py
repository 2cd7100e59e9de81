"""Logs: each shard's records in one order, in a SQLite file, or in a server for many machines.

A place is a number that rises with each record. What was written stands on the disk before `append` answers.
"""

import importlib
from typing import Callable

from npss_registry.errors import LogAway
from npss_registry.failures import PACKAGES
from npss_registry.logs.names import check_name as check_name
from npss_registry.logs.names import located as located
from npss_registry.logs.names import scheme_of as scheme_of
from npss_registry.logs.names import shown as shown
from npss_registry.logs.protocol import PIECE as PIECE
from npss_registry.logs.protocol import How as How
from npss_registry.logs.protocol import Log as Log
from npss_registry.logs.protocol import bounded as bounded
from npss_registry.logs.protocol import last_bodies as last_bodies
from npss_registry.logs.protocol import may_go_on as may_go_on
from npss_registry.logs.protocol import record_at as record_at
from npss_registry.logs.protocol import size_of as size_of
from npss_registry.logs.protocol import whole as whole
from npss_registry.logs.sqlite_log import SqliteLog as SqliteLog

# By its scheme the module of a log and its class, which are imported where such a log is opened.
_REDIS, _POSTGRES, _ETCD = ("redis_log", "RedisLog"), ("postgres_log", "PostgresLog"), ("etcd_log", "EtcdLog")
_KINDS = {"redis": _REDIS, "rediss": _REDIS, "unix": _REDIS, "postgresql": _POSTGRES, "postgres": _POSTGRES,
          "etcd": _ETCD, "etcds": _ETCD}


def open_log(name: str, how: How = "use") -> Log:
    """The log of a name: the path of a SQLite file, or a URL, as redis://HOST:PORT/NUMBER#PREFIX.

    NoLog where it isn't there and isn't to be made, LogUnsafe where its server may lose records, LogAway where it can't be reached.
    """
    scheme = scheme_of(name)
    return SqliteLog(name, how) if scheme is None else kind_of(name)(name, how)


def kind_of(name: str) -> Callable[[str, How], Log]:
    """The class of the log of a URL. LogAway where a module is missing that it wants."""
    module, kind = _KINDS[scheme_of(name) or ""]
    try:
        made: Callable[[str, How], Log] = getattr(importlib.import_module(f"npss_registry.logs.{module}"), kind)
    except ModuleNotFoundError as error:
        missing = error.name or module
        raise LogAway(f"{shown(name)} wants Python's module {missing}, Debian's {PACKAGES.get(missing, missing)}") from error
    return made
