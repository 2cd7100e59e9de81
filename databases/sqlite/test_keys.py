"""Keys, forms and questions, and what may stand on them."""

import unicodedata

from cases import MARKED, NEW, OLD, YOUNG, Case


class Functions(Case):
    def test_keys(self):
        base = self.with_names(NEW)
        for form, text, made in (("nfc", MARKED, "\u1ead"), ("nfd", MARKED, "a\u0323\u0302"), ("nfkc", "\ufb01", "fi"), ("nfkd", "\ufb01", "fi"),
                                 ("nfc", "", ""), ("nfc", "a\0" + MARKED, "a\0\u1ead"), ("nfd", "\u1ead" * 9_000, "a\u0323\u0302" * 9_000)):
            for call in ("npss_key(?, ?)", "npss_try_key(?, ?)", "npss_normalize(?, upper(?))"):
                self.assertEqual(self.asked(base, call, text, form), made)
            self.assertEqual(self.asked(base, f"npss_{form}(?)", text), made)
            self.assertEqual(self.asked(base, "npss_is_normalized(?, ?)", text, form), int(text == made))
        self.assertEqual(self.asked(base, "npss_key(?)", MARKED), "\u1ead")
        self.assertEqual(self.asked(base, "npss_is_normalized(?)", MARKED), 0)
        self.assertEqual(self.asked(base, "npss_key(3)"), "3")
        for call in ("npss_key(NULL)", "npss_nfkc(NULL)", "npss_equivalent(NULL, 'a')", "npss_is_normalized(NULL)", "npss_try_key(NULL, 'nfd')"):
            self.assertIsNone(self.asked(base, call))
        self.assertEqual(self.asked(base, "npss_version()"), 288767)

    def test_equivalence(self):
        base = self.with_names(NEW)
        self.assertEqual(self.asked(base, "npss_equivalent(?, ?)", MARKED, "\u1ead"), 1)
        self.assertEqual(self.asked(base, "npss_equivalent('\ufb01', 'fi')"), 0)
        self.assertEqual(self.asked(base, "npss_equivalent('\ufb01', 'fi', 'nfkd')"), 1)

    def test_refusals(self):
        base = self.with_names()
        self.refused("U\\+1DFA at byte 4 is not assigned", base, "SELECT npss_key(?)", "a\u1df9\u1dfa"[0] + YOUNG[0] + YOUNG[1])
        self.assertIsNone(self.asked(base, "npss_try_key(?)", YOUNG))
        self.assertEqual(self.asked(base, "npss_normalize(?)", YOUNG), YOUNG)
        self.refused("not UTF-8 at byte 1", base, "SELECT npss_key(CAST(x'61ff' AS TEXT))")
        self.refused("nfc, nfd, nfkc or nfkd, not 'nfx'", base, "SELECT npss_key('a', 'nfx')")
        self.refused("not NULL", base, "SELECT npss_key('a', NULL)")

    def test_without_a_version(self):
        base = self.connect()
        self.refused("records no version", base, "SELECT npss_key('a')")
        self.assertEqual(self.asked(base, "npss_open(?)", OLD), self.asked(base, "npss_version()"))
        self.assertEqual(self.asked(base, "npss_key(?)", MARKED), "\u1ead")
        base.execute("SELECT npss_raise(?)", (OLD,))
        self.refused("has its version", base, "SELECT npss_open(?)", OLD)

    def test_a_database_of_utf16(self):
        base = self.connect()
        base.execute("PRAGMA encoding = 'UTF-16le'")
        base.execute("SELECT npss_raise(?)", (NEW,))
        base.execute("CREATE TABLE account (name TEXT UNIQUE, key TEXT AS (npss_nfc(name)) STORED UNIQUE)")
        base.execute("INSERT INTO account (name) VALUES (?)", (MARKED,))
        self.assertEqual(base.execute("SELECT key, npss_nfd(name) FROM account").fetchall(), [("\u1ead", "a\u0323\u0302")])
        self.refused("UNIQUE", base, "INSERT INTO account (name) VALUES ('\u1ead')")
        self.whole(base)

    def test_each_name_is_that_of_python(self):
        base = self.with_names(NEW)
        known = [chr(code) for code in range(0x110000) if unicodedata.category(chr(code)) not in ("Cn", "Cs")]
        texts = ["".join(known[at:at + 50]) for at in range(0, len(known), 50)]
        for form in ("nfc", "nfd", "nfkc", "nfkd"):
            for text in texts:
                self.assertEqual(self.asked(base, f"npss_{form}(?)", text), unicodedata.normalize(form.upper(), text))


class Indexes(Case):
    def test_equivalent_names_are_one_account(self):
        base = self.with_names()
        base.execute("INSERT INTO account VALUES (?)", (MARKED,))
        self.refused("UNIQUE constraint", base, "INSERT INTO account VALUES ('\u1ead')")
        self.refused("not assigned", base, "INSERT INTO account VALUES (?)", YOUNG)
        found = base.execute("SELECT name FROM account WHERE npss_nfc(name) = npss_nfc(?)", ("\u1ea1\u0302",)).fetchall()
        self.assertEqual(found, [(MARKED,)])
        plan = base.execute("EXPLAIN QUERY PLAN SELECT name FROM account WHERE npss_nfc(name) = npss_nfc('a')").fetchone()[3]
        self.assertIn("account_key", plan)
        self.whole(base)

    def test_generated_columns_checks_and_order(self):
        base = self.connect()
        base.execute("SELECT npss_raise(?)", (NEW,))
        base.execute("CREATE TABLE file (name TEXT CHECK (npss_nfd(name) = name), key TEXT AS (npss_nfkc(name)) STORED UNIQUE)")
        self.refused("CHECK constraint", base, "INSERT INTO file VALUES ('\u1ead')")
        base.execute("INSERT INTO file VALUES ('\ufb01')")
        self.refused("UNIQUE", base, "INSERT INTO file VALUES ('fi')")
        base.execute("INSERT INTO file VALUES ('fa')")
        self.assertEqual(base.execute("SELECT key FROM file ORDER BY key").fetchall(), [("fa",), ("fi",)])
        self.whole(base)

    def test_no_index_stands_on_what_a_raise_changes(self):
        base = self.with_names()
        for call in ("npss_try_key(name)", "npss_normalize(name)", "npss_is_normalized(name)", "npss_equivalent(name, 'a')", "npss_version()",
                     "npss_try_caseless_key(name)", "npss_caseless_match(name, 'a')"):
            self.refused("non-deterministic", base, f"CREATE INDEX other ON account ({call})")
        rows = base.execute("SELECT name || narg, flags & 0x800 > 0, flags & 0x200000 > 0, flags & 0x80000 > 0 FROM pragma_function_list WHERE name LIKE 'npss%'")
        keys = {f"npss_{kind}{name}" for kind in ("", "caseless_") for name in ("key1", "key2", "nfc1", "nfd1", "nfkc1", "nfkd1")}
        direct = {f"npss_{name}{count}" for name in ("open", "audit", "raise") for count in (1, 2, 3)}
        flags_of = {name: flags for name, *flags in rows}
        self.assertEqual(keys | direct, (keys | direct) & flags_of.keys())
        for name, flags in flags_of.items():
            self.assertEqual(flags, [int(name in keys), int(name not in direct), int(name in direct)], name)

    def test_where_schemas_are_not_trusted(self):
        base = self.with_names()
        base.execute("PRAGMA trusted_schema = OFF")
        base.execute("INSERT INTO account VALUES ('a')")
        self.whole(base)
        base.execute("CREATE VIEW raising AS SELECT npss_raise('/')")
        self.refused("unsafe use", base, "SELECT * FROM raising")
