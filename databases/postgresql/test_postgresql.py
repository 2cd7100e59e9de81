#!/usr/bin/env python3
"""test_postgresql.py PREFIX VERSIONS FIXTURES [WORD..]: tests the extension npss in a PostgreSQL of its own.

PREFIX is where ./build-c installed the library. VERSIONS has the folders 13.0, 14.0 and 15.0 with the two files each, and below
`caseless` the same three with CaseFolding.txt too; FIXTURES has the repository's v1 and v2. What SQL can tell stands in sql/ and expected/, and is run first. The words are those of
Python's unittest, as the name of a class. Ends in a line 'N passed, M failed'.
"""

import sys
import tempfile
import unittest
from pathlib import Path

from cases import FILES, FIXTURES, PREFIX, Case, copied
from server import HERE, LIBRARIES, installed, own, run
from test_attacks import Attacks, Missing, Preloaded
from test_bounds import Bounds, Memory
from test_caseless import Caseless, LongCaseless
from test_extension import Extension
from test_following import Following, Publication, Replica
from test_foldings import Foldings, FoldingsAway, FoldingsDumped, FoldingsPreloaded
from test_moving import Moving
from test_page import Page
from test_record import Dumps, Ends, Standby, Upgrades
from test_rights import Rights
from test_texts import Long, Words
from test_vacuum import Vacuums


class Regress(Case):
    """The scripts of sql/."""

    def test_scripts(self):
        folder = self.folder / "fixtures"
        copied(folder, {"1": FIXTURES / "v1", "2": FIXTURES / "v2", "broken": FIXTURES / "v2", "faulty": FIXTURES / "v2"})
        data = folder / "broken" / FILES[0]
        data.write_text(data.read_text().replace("0323;X;Mn;220", "0323;X;Mn;221"))
        (folder / "faulty" / FILES[0]).write_text("0041;x\n")
        self.server.configure(**{"npss.folder": folder})
        self.server.control("reload")
        out = self.folder / "out"
        out.mkdir()
        own(out)
        regress = LIBRARIES / "lib" / "pgxs" / "src" / "test" / "regress" / "pg_regress"
        try:
            run([regress, f"--bindir={self.programs}", f"--inputdir={HERE}", f"--outputdir={out}", f"--host={self.server.folder}", "--user=postgres",
                 "--dbname=regression", "keys", "record"])
        except RuntimeError as error:
            differs = out / "regression.diffs"
            self.fail(differs.read_text() if differs.exists() else error)


if __name__ == "__main__":
    with tempfile.TemporaryDirectory() as room:
        Case.room = Path(room)
        Case.room.chmod(0o755)
        Case.programs = installed(Case.room / "postgresql", PREFIX)
        result = unittest.main(argv=sys.argv[:1] + sys.argv[4:], exit=False, verbosity=0).result
    bad = len(result.failures) + len(result.errors)
    for case, why in result.skipped:
        print(f"skipped: {case.id().partition('.')[2]} of PostgreSQL: {why}")
    print(f"{result.testsRun - bad - len(result.skipped)} passed, {bad} failed", flush=True)
    sys.exit(1 if bad else 0)
