"""The statements for SQLite of docs/MOVING.md, over a table of 100,000 names of which 100 collide and 10 have no key."""

import re
from pathlib import Path

from cases import CASED_NEW, Case

PAGE = Path(__file__).resolve().parent.parent.parent / "docs" / "MOVING.md"
NAMES, COLLISIONS, NAMELESS = 100_000, 100, 10


def blocks():
    """The page's blocks for SQLite, without the line that loads the extension, over the version of these tests."""
    section = PAGE.read_text(encoding="utf-8").partition("\n## SQLite\n")[2].partition("\n## ")[0]
    texts = re.findall(r"```sql\n(.*?)```", section, re.DOTALL)
    return [re.sub(r"^\.load .*\n", "", text, flags=re.MULTILINE).replace("/usr/share/unicode", CASED_NEW) for text in texts]


class Moving(Case):
    def moved(self):
        base = self.connect()
        base.execute("CREATE TABLE account (id INTEGER PRIMARY KEY, name TEXT NOT NULL)")
        base.execute("CREATE UNIQUE INDEX account_lower ON account (lower(name))")
        names = [f"Jos\u00e9 {n}{chr(1072 + n % 32)}{chr(44032 + n % 11172)}" for n in range(NAMES - COLLISIONS - NAMELESS)]
        twice = [name.replace("Jos\u00e9", "JOSe\u0301") for name in names[::100][:COLLISIONS]]
        none = ["a" + chr(917632 + n) for n in range(NAMELESS)]
        base.execute("BEGIN")
        base.executemany("INSERT INTO account (name) VALUES (?)", ((name,) for name in (*names, *twice, *none)))
        base.execute("COMMIT")
        base.executescript(blocks()[0])
        return base, names, twice

    def test_all_steps(self):
        base, names, twice = self.moved()
        self.assertEqual(self.asked(base, "count(*) FROM account_nameless"), NAMELESS)
        self.assertEqual(self.asked(base, "count(*) FROM account_collision"), COLLISIONS)
        self.assertEqual(sorted(name for name, in base.execute("SELECT name FROM account WHERE name LIKE '%~%'")),
                         sorted(f"{name}~{NAMES - COLLISIONS - NAMELESS + at + 1}" for at, name in enumerate(twice)))
        self.refused("UNIQUE constraint failed", base, "INSERT INTO account (name) VALUES (?)", twice[0])
        self.refused("is not assigned", base, "INSERT INTO account (name) VALUES (?)", chr(917632))
        look, plan = (text.strip().rstrip(";") for text in blocks()[1].split(";\n", 1))
        self.assertIn("SEARCH account USING INDEX account_key", str(base.execute(plan).fetchall()))
        base.execute("INSERT INTO account (name) VALUES ('zoE\u0308')")
        self.assertEqual(base.execute(look).fetchall(), [(NAMES + 1,)])
        self.assertIn("SCAN account", str(base.execute("EXPLAIN QUERY PLAN SELECT id FROM account WHERE npss_nfkc(name) = 'zo\u00eb'").fetchall()))
        self.whole(base)
