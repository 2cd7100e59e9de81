"""What the tests of the extension share: versions, and a server for each class of tests.

Called with PREFIX VERSIONS FIXTURES, as test_postgresql.py tells.
"""

import os
import shutil
import sys
import tempfile
import unittest
from pathlib import Path

from server import Server, Session, SqlError

sys.path.append(str(Path(__file__).resolve().parent.parent))

import fixture_rows
from fixture_rows import FILES, FOLDING

PREFIX, VERSIONS, FIXTURES = (Path(word).resolve() for word in sys.argv[1:4])
# The same versions with CaseFolding.txt.
CASED = VERSIONS / "caseless"
# New in 14.0 and in 15.0.
YOUNG, YOUNGEST = "\u1dfa", "\U0001e08f"
MARKED = "a\u0302\u0323"


def copied(to, names):
    """A folder of versions, each copied from a folder with two files or three, for the user of the servers to read."""
    for name, folder in names.items():
        (to / name).mkdir(parents=True)
        for file in (*FILES, FOLDING):
            if (folder / file).exists():
                shutil.copy(folder / file, to / name / file)
    return to


class Case(unittest.TestCase):
    """Each class has a server of its own, over versions of its own."""

    room = programs = None  # test_postgresql.py sets them: a folder, and where the programs of PostgreSQL are
    settings = ""
    labels = ("13.0", "14.0", "15.0")
    source = VERSIONS

    @classmethod
    def setUpClass(cls):
        cls.folder = Path(tempfile.mkdtemp(dir=cls.room))
        os.chmod(cls.folder, 0o755)
        cls.versions = copied(cls.folder / "versions", {label: cls.source / label for label in cls.labels})
        cls.more_versions()
        cls.server = Server(cls.programs, cls.folder / "server", cls.versions, cls.settings).create().start()

    @classmethod
    def more_versions(cls):
        """Makes versions that the published files don't have, before the server starts."""

    @classmethod
    def tearDownClass(cls):
        cls.server.stop("immediate")
        shutil.rmtree(cls.folder)

    def base(self, name, version=None, encoding="UTF8"):
        """A new database with the extension."""
        self.server.sql(f"DROP DATABASE IF EXISTS {name}")
        self.server.sql(f"CREATE DATABASE {name} TEMPLATE template0 ENCODING '{encoding}' LOCALE 'C'")
        if version:
            self.server.sql(f"SET npss.version = '{version}'; CREATE EXTENSION npss", name)
        return name

    def refused(self, state, text, base, settings=""):
        with self.assertRaises(SqlError) as caught:
            self.server.sql(text, base, settings)
        self.assertEqual(caught.exception.state, state, caught.exception)
        return str(caught.exception)

    def quoted(self, text):
        return "'" + text.replace("'", "''") + "'"

    def session(self, base):
        """A session that stays open until the test ends."""
        session = Session(self.server, base)
        self.addCleanup(session.close)
        return session
