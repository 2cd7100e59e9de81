"""Caseless keys: what they are, what may stand on them, and long texts."""

import unicodedata

from cases import CASED, FOLDING, MARKED, VERSIONS, Case, copied, fixture_rows

caseless = fixture_rows.caseless
# A capital that is new in 14.0, and its small letter.
CAPITAL, SMALL = "\u2c2f", "\u2c5f"
LONG = 1_048_576


class Caseless(Case):
    """Over versions of three files."""

    source = CASED

    @classmethod
    def more_versions(cls):
        for name in fixture_rows.TOYS:
            fixture_rows.put_toy(cls.versions / name, name)
        copied(cls.versions, {"bare": VERSIONS / "15.0"})

    def answers(self, base, calls):
        """What each call answers, as the code points of it; - for the empty text."""
        asked = "\n".join(f"SELECT coalesce(nullif(encode(convert_to({call}, 'UTF8'), 'hex'), ''), '-');" for call in calls)
        return [bytes.fromhex(line).decode() if line != "-" else "" for line in self.server.sql(asked, base).splitlines()]

    def test_keys_of_the_fixtures(self):
        rows = list(fixture_rows.keys())
        self.assertGreater(len(rows), 300)
        for version in ("v1", "v2"):
            base = self.base("toy", version)
            made = [row for row in rows if row.version == version and not row.refused]
            for shape in ("npss_caseless_{form}({text})", "npss_caseless_key({text}, upper('{form}'))", "npss_try_caseless_key({text}, '{form}')"):
                calls = [shape.format(form=row.form, text=self.quoted(row.string)) for row in made]
                self.assertEqual(self.answers(base, calls), [row.key for row in made], shape)
            for row in (row for row in rows if row.version == version and row.refused):
                refusal = self.refused("22021", f"SELECT npss_caseless_{row.form}({self.quoted(row.string)})", base)
                self.assertIn(f'code point U+{row.refused[0]} is not assigned in Unicode version "{version}"', refusal)
                self.assertIn(f"at byte {row.refused[1]}.", refusal)
                self.assertEqual(self.server.sql(f"SELECT npss_try_caseless_key({self.quoted(row.string)}, '{row.form}') IS NULL", base), "t")

    def test_matches_of_the_fixtures(self):
        rows = list(fixture_rows.matches())
        self.assertGreater(len(rows), 40)
        for version in ("v1", "v2"):
            base = self.base("toy", version)
            some = [row for row in rows if row.version == version]
            asked = "\n".join(f"SELECT npss_caseless_match({self.quoted(row.left)}, {self.quoted(row.right)}, '{row.form}');" for row in some)
            self.assertEqual(self.server.sql(asked, base).splitlines(), ["t" if row.same else "f" for row in some])

    def test_where_no_form_is_named_it_is_nfc(self):
        base = self.base("forms", "13.0")
        self.assertEqual(self.server.sql("SELECT npss_caseless_key('\u2121A'), npss_try_caseless_key('\u2121A'), npss_caseless_match('\u2121', 'tel'), "
                                         "npss_caseless_match('\u2121', 'tel', 'NFKD'), npss_caseless_key(NULL) IS NULL, npss_caseless_match('a', NULL) IS NULL", base),
                         "\u2121a|\u2121a|f|t|t|t")
        for call in ("npss_caseless_key('a', 'nfx')", "npss_try_caseless_key('a', '')", "npss_caseless_match('a', 'b', 'nf')"):
            self.refused("22023", f"SELECT {call}", base)

    def test_matches_take_what_is_unassigned(self):
        base = self.base("unassigned", "13.0")
        for left, right, wanted in ((CAPITAL, CAPITAL, "t|t"), (CAPITAL, SMALL, "f|f"), ("\u2121\ufdd0", "TEL\ufdd0", "f|t"), ("Zo\u00cb", "zoe\u0308", "t|t")):
            for more in ("", " || repeat('x', 1100000)"):
                pair = f"'{left}'{more}, '{right}'{more}"
                self.assertEqual(self.server.sql(f"SELECT npss_caseless_match({pair}), npss_caseless_match({pair}, 'nfkc')", base), wanted)

    def test_each_name_is_that_of_python(self):
        base = self.base("each", "15.0")
        known = [chr(code) for code in range(1, 0x110000) if unicodedata.category(chr(code)) not in ("Cn", "Cs")]
        texts = ["".join(known[at:at + 100]) for at in range(0, len(known), 100)]
        for form in fixture_rows.FORMS:
            self.assertEqual(self.answers(base, [f"npss_caseless_{form}({self.quoted(text)})" for text in texts]), [caseless(form, text) for text in texts])

    def test_names_that_fold_alike_are_one_account(self):
        base = self.base("accounts", "15.0")
        self.server.sql('CREATE TABLE account (id int, name text); CREATE UNIQUE INDEX account_name ON account (npss_caseless_nfkc(name) COLLATE "C");'
                        "INSERT INTO account VALUES (1, 'Zo\u00eb'), (2, 'STRASSE'), (3, '\u2121')", base)
        for name in ("ZOE\u0308", "zo\u00eb", "stra\u00dfe", "Stra\u1e9ee", "tel", "\U0001d413EL"):
            self.refused("23505", f"INSERT INTO account VALUES (9, '{name}')", base)
        asked = "SELECT id FROM account WHERE npss_caseless_nfkc(name) COLLATE \"C\" = npss_caseless_nfkc('zOE\u0308')"
        self.assertEqual(self.server.sql(asked, base), "1")
        self.assertIn("account_name", self.server.sql(f"SET enable_seqscan = off; EXPLAIN {asked}", base))
        for call in ("npss_try_caseless_key(name)", "npss_caseless_match(name, 'a')"):
            self.refused("42P17", f"CREATE INDEX ON account (({call}))", base)
        self.server.sql('CREATE TABLE file (name text, key text COLLATE "C" GENERATED ALWAYS AS (npss_caseless_nfc(name)) STORED UNIQUE); '
                        "INSERT INTO file (name) VALUES ('A'); CREATE TABLE hashed (name text, EXCLUDE USING hash (npss_caseless_nfkc(name) WITH =))", base)
        self.refused("23505", "INSERT INTO file (name) VALUES ('a')", base)

    def test_a_column_of_citext(self):
        # It becomes text where a key is made of it, and the key folds what citext's own comparison leaves to the collation.
        base = self.base("insensitive", "15.0")
        self.server.sql('CREATE EXTENSION citext; CREATE TABLE account (name citext); CREATE UNIQUE INDEX account_name ON account (npss_caseless_nfkc(name) COLLATE "C");'
                        "INSERT INTO account VALUES ('Zo\u00eb'), ('Stra\u00dfe')", base)
        for name in ("ZOE\u0308", "zo\u00cb", "STRASSE"):
            self.assertEqual(self.server.sql(f"SELECT count(*) FROM account WHERE name = '{name}'::citext", base), "0")
            self.refused("23505", f"INSERT INTO account VALUES ('{name}')", base)
        self.assertEqual(self.server.sql("SELECT npss_nfkc('A'::citext), npss_caseless_nfkc('A'::citext), pg_typeof(npss_caseless_nfkc('A'::citext))", base), "A|a|text")
        asked = "SELECT name FROM account WHERE npss_caseless_nfkc(name) COLLATE \"C\" = npss_caseless_nfkc('ZOE\u0308'::citext)"
        self.assertEqual(self.server.sql(asked, base), "Zo\u00eb")
        self.assertIn("account_name", self.server.sql(f"SET enable_seqscan = off; EXPLAIN {asked}", base))

    def test_from_version_to_version_beside_an_open_session(self):
        base = self.base("upgrades", "13.0")
        self.server.sql("CREATE EXTENSION amcheck; CREATE TABLE account (name text NOT NULL);"
                        'CREATE UNIQUE INDEX account_key ON account (npss_caseless_nfkc(name) COLLATE "C")', base)
        known = [chr(code) for code in range(0xA0, 0x20000) if unicodedata.category(chr(code))[0] in "LM"]
        names = [f"N{number}{one}{known[-number]}" for number, one in enumerate(known[::17], start=1)]
        names += [name.casefold() for name in names[::9]]
        rows = ",".join(f"({number}, {self.quoted(name)})" for number, name in enumerate(names))
        fill = f"INSERT INTO account SELECT n FROM (VALUES {rows}) of (i, n) WHERE npss_try_caseless_key(n, 'nfkc') IS NOT NULL ORDER BY i ON CONFLICT DO NOTHING"
        beside = self.session(base)
        self.server.sql(fill, base)
        kept = int(self.server.sql("CREATE TABLE kept AS SELECT name, npss_caseless_nfkc(name) AS key FROM account; SELECT count(*) FROM kept", base))
        self.assertGreater(kept, 2_000)
        for label, young in (("14.0", CAPITAL), ("15.0", "\U0001e08f")):
            self.assertIn("22021", beside.ask(f"INSERT INTO account VALUES ('{young}')"))
            self.assertEqual(self.server.sql(f"SELECT npss_audit('{label}')", base), "extends")
            self.server.sql(f"SELECT npss_raise('{label}')", base)
            self.assertEqual(beside.ask(f"INSERT INTO account VALUES ('{young}')"), "")
            self.server.sql(fill, base)
            self.assertEqual(self.server.sql("SELECT count(*) FROM kept WHERE npss_caseless_nfkc(name) <> key", base), "0")
            self.assertEqual(self.server.sql("SELECT bt_index_check('account_key', true)", base), "")
        self.assertIn("23505", beside.ask(f"INSERT INTO account VALUES ('{SMALL}')"))
        # Python knows the code points of 14.0.
        answer = self.server.sql("SELECT encode(convert_to(name, 'UTF8'), 'hex'), encode(convert_to(npss_caseless_nfkc(name), 'UTF8'), 'hex') FROM kept", base)
        pairs = [[bytes.fromhex(word).decode() for word in line.split("|")] for line in answer.splitlines()]
        self.assertEqual([key for _, key in pairs], [caseless("nfkc", name) for name, _ in pairs])
        self.assertEqual(beside.ask("SELECT count(*) FROM pg_backend_memory_contexts WHERE name = 'npss version'"), "1")

    def test_a_version_behind_one_with_foldings_has_some(self):
        base = self.base("behind", "13.0")
        self.assertIn("version bare has no CaseFolding.txt, which version 13.0 has", self.refused("55000", "SELECT npss_raise('bare')", base))
        self.assertEqual(self.server.sql("SELECT npss_audit('bare'), npss_audit('15.0')", base), "no CaseFolding.txt|extends")
        self.assertEqual(self.server.sql("SELECT * FROM npss_ready('bare')", base), "f|version bare has no CaseFolding.txt, which version 13.0 has")
        self.assertEqual(self.server.sql("SELECT npss_raise('14.0'); SELECT label, folding IS NULL FROM npss_record ORDER BY assigned", base), "14.0\n13.0|f\n14.0|f")
        self.refused("55000", "INSERT INTO npss_record (label, folding) VALUES ('bare', repeat('0', 64))", base)

    def test_foldings_that_are_changed(self):
        for old, new, first in fixture_rows.audits():
            base = self.base("changed", old)
            self.assertEqual(self.server.sql(f"SELECT npss_audit('{new}')", base), first, (old, new))
            if first.startswith("FoldingChanged") and (old, new) == ("v1", "changed"):
                self.assertIn(f"First break: {first}.", self.refused("55000", f"SELECT npss_raise('{new}')", base))
            elif first.startswith("FoldingChanged"):
                self.refused("55000", f"SELECT npss_raise('{new}')", base)
            elif first == "extends":
                self.server.sql(f"SELECT npss_raise('{new}')", base)
        # The first two files of `changed` are those of v2: another CaseFolding.txt of the same version.
        self.assertIn('the CaseFolding.txt of Unicode version "v2" is not the one that was recorded', self.refused("55000", "SELECT npss_raise('changed')", self.base("changed", "v2")))

    def test_faulty_foldings(self):
        base = self.base("faulty", "13.0")
        folder = copied(self.versions, {"odd": CASED / "15.0"}) / "odd"
        for content, why in ((b"0041; X; 0061;\n", "CaseFolding.txt, line 1: BadStatus"), (b"", "The three files together: NotFolded at code point U+0041"),
                              ((CASED / "13.0" / FOLDING).read_bytes(), "The three files together: NotFolded at code point U+2C2F"),
                              (b"\n" * 16_777_217, "is not a file of at most 16777216 bytes")):
            (folder / FOLDING).write_bytes(content)
            for call in ("npss_raise", "npss_audit"):
                self.assertIn(why, self.refused("F0000", f"SELECT {call}('odd')", base))
            self.assertIn(why, self.server.sql("SELECT * FROM npss_ready('odd')", base))
        (folder / FOLDING).unlink()


class LongCaseless(Case):
    """Texts that are worked on in steps."""

    source = CASED

    def test_of_each_length_and_form(self):
        base = self.base("lengths", "13.0")
        # The mark is ordered before it folds to a letter; a telephone sign folds twice.
        for letter in ("X", "\u00cb", "\u1fb3\u0323", "\u2121", "\u1e9e", "\U0001d400", "\uac01"):
            for rest in (-1, 0, 1):
                count = (LONG + 65_536 + rest) // len(letter.encode())
                sql, text = f"'A' || repeat('{letter}', {count}) || 'Z\u0345\u0301'", "A" + letter * count + "Z\u0345\u0301"
                asked = "\n".join(f"SELECT md5(npss_caseless_{form}({sql})) = md5({self.quoted_hex(caseless(form, text))});" for form in fixture_rows.FORMS)
                self.assertEqual(self.server.sql(asked, base).split(), ["t"] * 4, (letter, rest))

    def quoted_hex(self, text):
        """A text of SQL that is long."""
        return f"convert_from(decode('{text.encode().hex()}', 'hex'), 'UTF8')"

    def test_long_texts_that_are_refused(self):
        base = self.base("refusals", "13.0")
        text = f"repeat('\u1e9e', 500000) || '{CAPITAL}' || repeat('y', 9)"
        self.assertIn("It is character 500001 of the text, at byte 1500000.", self.refused("22021", f"SELECT npss_caseless_nfkc({text})", base))
        self.assertEqual(self.server.sql(f"SELECT npss_try_caseless_key({text}) IS NULL, npss_caseless_match({text}, {text}), npss_caseless_match({text}, 'a')", base), "t|t|f")
        self.server.sql("CREATE CAST (bytea AS text) WITHOUT FUNCTION", base)
        for digits, place in (("repeat('41', 1500000) || 'ff'", 1_500_000), ("'4142ff'", 2)):
            for call in ("npss_caseless_nfc({0})", "npss_try_caseless_key({0})", "npss_caseless_match({0}, 'a')", "npss_caseless_match('a', {0})"):
                refusal = self.refused("22021", f"SELECT {call.format(f'decode({digits}, $$hex$$)::text')} IS NULL", base)
                self.assertIn(f"It is up to byte {place}.", refusal)

    def test_matches_of_long_texts(self):
        base = self.base("matches", "15.0")
        long = "repeat('\u1e9e', 400000)"
        for left, right, wanted in (("'a'", "'B'", "f|f"), ("'a'", "'A'", "t|t"), ("'\u2121'", "'TEL'", "f|t"), ("'\u00cb'", "'e\u0308'", "t|t")):
            self.assertEqual(self.server.sql(f"SELECT npss_caseless_match({long} || {left}, repeat('SS', 400000) || {right}), "
                                             f"npss_caseless_match({long} || {left}, repeat('SS', 400000) || {right}, 'nfkd')", base), wanted)

    def test_keys_of_shorter_texts_around_the_room(self):
        base = self.base("rooms", "15.0")
        for length in (*range(65_530, 65_545), 200_000):
            self.assertEqual(self.server.sql(f"SELECT npss_caseless_nfc(repeat('X', {length}) || '\u00cb') = repeat('x', {length}) || '\u00eb'", base), "t", length)
        self.assertEqual(self.server.sql("SELECT length(npss_caseless_nfkd(repeat('\ufdfa', 20000)))", base), "360000")
        self.assertIn("22021", self.refused("22021", f"SELECT npss_caseless_nfc('{MARKED}\ufdd0')", base))
