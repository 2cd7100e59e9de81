#!/usr/bin/env python3
"""test_registry.py PROGRAM FIXTURES [NAME..]: tests the registry over the fixtures v1 and v2. PROGRAM is npss.

A NAME is that of a class of tests, or CLASS.TEST; all are run where none is named. The modules npss and npss_registry are on PYTHONPATH. Ends in a line 'N passed, M failed'.
"""

import sys
import unittest

from caseless_judging import CaselessJudging, CaselessServing, CaselessTrims  # noqa: F401
from caseless_names import Caseless, CaselessLogs, CaselessStores, CaselessVersions  # noqa: F401
from healths import Healths  # noqa: F401
from judging import Judging  # noqa: F401
from log_kinds import EtcdKind, PostgresKind, RedisKind, SqliteKind  # noqa: F401
from old_logs import OldLogs  # noqa: F401
from over_etcd import EtcdAccounts, EtcdFaults, EtcdNodes, EtcdReads, EtcdTls  # noqa: F401
from over_postgres import PostgresFaults, PostgresNodes, PostgresSettings  # noqa: F401
from over_redis import Redis, RedisReads, RedisSettings  # noqa: F401
from passwords import Names, Passwords  # noqa: F401
from page import Page  # noqa: F401
from pasts import Earlier, Examined, Pasts  # noqa: F401
from relogging import Relogging  # noqa: F401
from renaming import Renaming  # noqa: F401
from restarts import Restarts  # noqa: F401
from rules import Rules, Versions  # noqa: F401
from service_unit import Pauses  # noqa: F401
from setups import Setups  # noqa: F401
from snapshot_sums import Snapshots  # noqa: F401
from test_http import Addresses, Pages, Requests, Strangers  # noqa: F401
from test_large import Images, Large, Lengths, Memory  # noqa: F401
from test_logs import Logs, Reading, Stores, Watching  # noqa: F401
from test_service import Ends, Telling, Tokens  # noqa: F401
from test_words import Listings, Serve, Statuses, Taken  # noqa: F401
from trimming import Trimming  # noqa: F401

if __name__ == "__main__":
    result = unittest.main(argv=[sys.argv[0], *sys.argv[3:]], exit=False, verbosity=0).result
    for case, why in result.skipped:
        print(f"skipped: {case.id().partition('.')[2]} of the registry: {why}")
    bad = len(result.failures) + len(result.errors)
    print(f"{result.testsRun - bad - len(result.skipped)} passed, {bad} failed", flush=True)
    sys.exit(1 if bad else 0)
