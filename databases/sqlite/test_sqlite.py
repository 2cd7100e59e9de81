#!/usr/bin/env python3
"""test_sqlite.py EXTENSION FOLDER [WORD..]: tests the extension npss.so for SQLite.

FOLDER has the folders 13.0, 14.0 and 15.0, each with UnicodeData.txt and CompositionExclusions.txt, and below `caseless` the same
three with CaseFolding.txt too. This Python's sqlite3 loads extensions. The words are those of Python's unittest. Ends in a line 'N passed, M failed'.
"""

import sys
import unittest

from test_caseless import Beside, Caseless, Foldings
from test_dumps import Dumps, Opened
from test_keys import Functions, Indexes
from test_memory import Memory
from test_moving import Moving
from test_raises import Files, Raises, Waits
from test_replaced import Attached, Looks, Replaced
from test_undone import Beneath, Undone

__all__ = ["Attached", "Beneath", "Beside", "Caseless", "Dumps", "Files", "Foldings", "Functions", "Indexes", "Looks", "Memory", "Moving", "Opened", "Raises",
           "Replaced", "Undone", "Waits"]

if __name__ == "__main__":
    result = unittest.main(argv=sys.argv[:1] + sys.argv[3:], exit=False, verbosity=0).result
    bad = len(result.failures) + len(result.errors)
    for case, why in result.skipped:
        print(f"skipped: {case.id().partition('.')[2]} of SQLite: {why}")
    print(f"{result.testsRun - bad - len(result.skipped)} passed, {bad} failed", flush=True)
    sys.exit(1 if bad else 0)
