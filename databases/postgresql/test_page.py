"""What docs/DATABASES.md tells to write."""

import re

from cases import CASED, FIXTURES, MARKED, Case
from server import SqlError

PAGE = FIXTURES.parent / "docs" / "DATABASES.md"


# Assigned by no version.
NEVER = "\U000e0080"


class Page(Case):
    """Statements of the page, as they stand there."""

    source = CASED

    def setUp(self):
        self.blocks = re.findall(r"```sql\n(.*?)```", PAGE.read_text(encoding="utf-8"), re.DOTALL)

    def block(self, words):
        """The one block of SQL that has these words."""
        found = [block for block in self.blocks if words in block]
        self.assertEqual(len(found), 1, found)
        return found[0]

    def accounts(self, name="cased"):
        """A database whose `lower` folds all letters, with a table of accounts."""
        self.server.sql(f"DROP DATABASE IF EXISTS {name}")
        self.server.sql(f"CREATE DATABASE {name} TEMPLATE template0 LOCALE 'C.UTF-8'")
        self.server.sql("CREATE EXTENSION npss; CREATE TABLE account (id bigint GENERATED ALWAYS AS IDENTITY, name text NOT NULL)", name)
        return name

    def test_what_else_folds_case(self):
        """Each cell of the page's table, asked of an index over what stands in its row."""
        base = self.accounts()
        self.server.sql("CREATE EXTENSION citext", base)
        self.server.sql(self.block("CREATE COLLATION"), base)
        rows = PAGE.read_text(encoding="utf-8").partition("| Index over | `ZOE`, `zoe` | `Zo\u00eb` in two spellings |")[2].partition("\n\n")[0].splitlines()
        pairs = [("ZOE", "zoe"), ("Zo\u00eb", "Zoe\u0308"), ("STRASSE", "stra\u00dfe"), ("\u2121", "tel"), ("\u13a0", "\uab70")]
        self.assertEqual([tuple(re.findall("`(.*?)`", cell)) for cell in rows[0].split("|")[:3]], pairs[2:])
        asked = [[cell.strip() for cell in row.strip("|").split("|")] for row in rows[2:]]
        self.assertEqual(len(asked), 5)
        for over, *cells in asked:
            self.server.sql(f"CREATE UNIQUE INDEX one ON account (({over.strip('`')}))", base)
            for (left, right), cell in zip(pairs, cells):
                self.assertEqual(self.taken(base, left, right), {"one": "23505", "two": ""}[cell], (over, left))
            self.assertEqual(self.taken(base, NEVER), {"taken": "", "refused": "22021"}[cells[-1]], over)
            self.server.sql("DROP INDEX one", base)

    def taken(self, base, *names):
        """Whether names are taken into the table, which is left as it was: the SQLSTATE of the refusal, or nothing."""
        try:
            self.server.sql("BEGIN; " + "; ".join(f"INSERT INTO account (name) VALUES ({self.quoted(name)})" for name in names) + "; ROLLBACK", base)
        except SqlError as error:
            return error.state
        return ""

    def test_accounts_under_caseless_keys(self):
        base = self.accounts()
        self.server.sql(re.search(r"CREATE UNIQUE INDEX account_name .*;", self.block("CREATE EXTENSION npss"))[0], base)
        self.server.sql("INSERT INTO account (name) VALUES ('admin')", base)
        for name in ("ADMIN", "\U0001d400dmin", "\U0001d400DMIN", "\uff21dmin", "\u24b6dmin", "Admin"):
            self.refused("23505", f"INSERT INTO account (name) VALUES ('{name}')", base)

    def test_each_caseless_key_is_its_own(self):
        base = self.accounts()
        counted = """SELECT count(*), count(*) FILTER (WHERE npss_caseless_nfkc(key) <> key), count(*) FILTER (WHERE npss_nfkc(key) <> key)
            FROM (SELECT npss_caseless_nfkc(letter) AS key FROM (SELECT chr(code) AS letter FROM generate_series(1, 1114111) AS code
            WHERE code NOT BETWEEN 55296 AND 57343) AS one WHERE npss_try_caseless_key(letter) IS NOT NULL) AS made"""
        # All that is assigned but U+0000 and the surrogates, which PostgreSQL has not.
        self.assertEqual(self.server.sql(counted, base), f"{288_767 - 2048 - 1}|0|0")

    def test_accounts_that_move_in(self):
        base = self.accounts()
        self.server.sql(f"INSERT INTO account (name) VALUES ('a'), ('{MARKED}'), ('\ufb01'), ('{NEVER}'), ('FI'), ('\u1eac')", base)
        answers = self.server.sql(self.block("npss_try_caseless_key"), base).splitlines()
        self.assertEqual((answers[0], sorted(answers[1:])), (f"4|{NEVER}|(U+E0080,1,0)", ["fi|{3,5}", "\u1ead|{2,6}"]))

    def test_a_table_of_accounts(self):
        base = self.base("page")
        block = self.block("CREATE EXTENSION npss")
        self.assertEqual(self.server.sql(block, base), "1")
        self.refused("23505", "INSERT INTO account (name) VALUES ('zoE\u0308')", base)
