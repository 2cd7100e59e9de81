"""The statements of docs/MOVING.md, over a table of 100,000 names of which 100 collide and 10 have no key."""

import re

from cases import CASED, FIXTURES, Case

PAGE = FIXTURES.parent / "docs" / "MOVING.md"
NAMES, COLLISIONS, NAMELESS = 100_000, 100, 10
# Names of several scripts; each hundredth of the first ones stands there a second time, decomposed and in capitals.
FILL = f"""
INSERT INTO account (name) SELECT 'Jos\u00e9 ' || n || chr(1072 + n % 32) || chr(44032 + n % 11172)
    FROM generate_series(1, {NAMES - COLLISIONS - NAMELESS}) AS n;
INSERT INTO account (name) SELECT normalize(upper(name), NFD) FROM account WHERE id % 100 = 0 AND id <= {100 * COLLISIONS};
INSERT INTO account (name) SELECT 'a' || chr(917632 + n) FROM generate_series(0, {NAMELESS - 1}) AS n;
ANALYZE account;
"""


def statements(number, language="sql"):
    """The statements of a section of the page, block by block."""
    section = re.split(r"^## ", PAGE.read_text(encoding="utf-8"), flags=re.MULTILINE)[number]
    return re.findall(rf"```{language}\n(.*?)```", section, re.DOTALL)


class Moving(Case):
    labels = ("15.0",)
    source = CASED

    def answers(self, text):
        """What statements answer, line by line."""
        return self.server.sql(text, "moving").splitlines()

    def setUp(self):
        self.server.sql("DROP DATABASE IF EXISTS moving")
        self.server.sql("CREATE DATABASE moving TEMPLATE template0 LOCALE 'C.UTF-8'")
        (table,) = statements(0)
        self.answers(f"CREATE EXTENSION npss; {table} {FILL}")
        self.assertEqual(self.answers("SELECT count(*) FROM account"), [str(NAMES)])

    def cleared(self):
        """Steps 1 and 2: names without a key and collisions are found, and the table is changed so that an index fits."""
        found, kept = statements(1)
        self.assertEqual(sorted(self.answers(found)), [f"U+{917632 + n:X}|1" for n in range(NAMELESS)])
        self.assertEqual(self.answers("SELECT count(*), min(at_character), max(at_character) FROM account_nameless"), [f"{NAMELESS}|2|2"])
        self.answers(kept)
        found, renamed = statements(2)
        self.assertEqual(self.answers(found), [f"{COLLISIONS}|{COLLISIONS}"])
        self.answers(renamed)
        self.assertEqual(self.answers("SELECT count(*) FROM account WHERE name LIKE '%~%'"), [str(COLLISIONS)])
        self.assertEqual(self.answers("SELECT bool_and(id > 99890 AND name = upper(name)) FROM account WHERE name LIKE '%~%'"), ["t"])

    def test_all_steps_and_the_way_back(self):
        self.cleared()
        index, broken = statements(3)
        self.answers(index)
        self.assertEqual(self.answers(broken.splitlines()[0]), [])
        first = self.answers("SELECT name FROM account WHERE id = 100")[0]
        self.refused("23505", f"INSERT INTO account (name) VALUES (normalize('{first.upper()}', NFKD))", "moving")
        self.refused("23505", f"INSERT INTO account (name) VALUES ('{first.upper()}')", "moving")
        self.refused("22021", "INSERT INTO account (name) VALUES (chr(917632))", "moving")
        asked, plans, function, taken = statements(4)
        self.assertEqual(self.answers(asked), [])
        self.assertEqual(len(self.answers(taken)), 1)
        self.assertEqual((self.answers(taken), len(self.answers(asked))), ([], 1))
        self.assertIn("account_key", "".join(self.answers(f"EXPLAIN {asked}")))
        self.assertIn("Seq Scan", self.answers(plans)[0])
        self.assertRegex(self.answers(function)[0], "^[0-9]+\\|Zo\u00eb$")
        self.assertIn("account_key", "".join(self.answers("EXPLAIN SELECT id FROM account_named('ZO\u00cb')")))
        self.assertEqual(self.answers("SELECT name FROM account_named('jose\u0301 100' || chr(1072 + 100 % 32) || normalize(chr(44032 + 100), NFD))"), [first])
        (gone,) = statements(5)
        self.assertRegex(self.answers(gone)[0], "^[0-9]+$")
        back, again = statements(6)
        self.answers(back)
        self.answers(again)
        self.assertEqual(self.answers("SELECT indexrelid::regclass, indisvalid FROM pg_index WHERE indrelid = 'account'::regclass ORDER BY 1"),
                         ["account_pkey|t", "account_lower|t"])

    def test_an_index_that_fails(self):
        """A name that is taken meanwhile leaves an index behind, which the page finds and drops; one without a key is told."""
        self.cleared()
        index, broken = statements(3)
        self.answers("INSERT INTO account (name) SELECT normalize(upper(name), NFD) FROM account WHERE id = 1")
        self.refused("23505", index, "moving")
        self.assertEqual(self.answers(broken), ["account_key"])
        self.assertEqual(self.answers(broken), [])
        self.answers("DELETE FROM account WHERE id = (SELECT max(id) FROM account); UPDATE account SET keyed = true WHERE NOT keyed")
        self.refused("22021", index, "moving")
        self.answers(broken)
        self.answers("UPDATE account SET keyed = false FROM account_nameless WHERE account.id = account_nameless.id")
        self.answers(index)
