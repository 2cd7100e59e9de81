"""Long texts, in pieces, and words that are nearly right."""

import hashlib
import unicodedata

from cases import FILES, MARKED, VERSIONS, YOUNGEST, Case, copied

# A long text is worked on in pieces of so many bytes; longer ones than LONG are.
PIECE, LONG = 65_536, 1_048_576
# Characters of one to four bytes, each but the first with a decomposition.
LETTERS = ("x", "\u00eb", "\u1ead", "\U0001d15e")


def digest(text):
    return hashlib.md5(text.encode()).hexdigest()


class Long(Case):
    """Texts that end at, before and behind the end of a piece, with characters that stand across it."""

    def texts(self):
        """The SQL that makes a text, and the text."""
        for letter in LETTERS:
            for shift in range(4):
                for rest in range(-3, 4):
                    room = LONG + PIECE + rest - shift
                    count, tail = divmod(room, len(letter.encode()))
                    yield f"repeat('z', {shift}) || repeat('{letter}', {count}) || repeat('y', {tail})", "z" * shift + letter * count + "y" * tail

    def test_of_each_length_and_letter(self):
        base = self.base("lengths", "13.0")
        for form in ("nfc", "nfkd"):
            made = [(sql, unicodedata.normalize(form.upper(), text), text) for sql, text in self.texts()]
            asked = "\n".join(f"SELECT md5(npss_{form}(t)), md5(npss_normalize(t, '{form}')), md5(npss_try_key(t, '{form}')), npss_is_normalized(t, '{form}') "
                              f"FROM (SELECT {sql} AS t) AS of;" for sql, _, _ in made)
            wanted = [f"{digest(key)}|{digest(key)}|{digest(key)}|{'t' if key == text else 'f'}" for _, key, text in made]
            self.assertEqual(self.server.sql(asked, base).splitlines(), wanted)

    def test_the_first_that_is_unassigned(self):
        base = self.base("places", "13.0")
        made = list(self.texts())
        asked = "\n".join(f"SELECT * FROM npss_first_unassigned({sql} || '{YOUNGEST}a{YOUNGEST}');" for sql, _ in made)
        wanted = [f"U+1E08F|{len(text) + 1}|{len(text.encode())}" for _, text in made]
        self.assertEqual(self.server.sql(asked, base).splitlines(), wanted)
        self.assertEqual(self.server.sql("\n".join(f"SELECT npss_first_unassigned({sql}) IS NULL;" for sql, _ in made), base).split(), ["t"] * len(made))

    def test_normal_forms_of_what_has_no_key(self):
        base = self.base("forms", "13.0")
        for front, middle, back in ((0, 1_400_000, 0), (700_001, 0, 700_001), (1_400_000, 3, 0), (1_400_000, 0, 1)):
            sql = f"repeat('x', {front}) || '{YOUNGEST}' || repeat('{MARKED}', {middle}) || '{YOUNGEST}' || repeat('y', {back}) || '{MARKED}'"
            text = "x" * front + YOUNGEST + MARKED * middle + YOUNGEST + "y" * back + MARKED
            for form in ("nfc", "nfd"):
                key = unicodedata.normalize(form.upper(), text)
                self.assertEqual(self.server.sql(f"SELECT md5(npss_normalize(t, '{form}')), npss_try_key(t, '{form}') IS NULL, npss_is_normalized(t, '{form}'), "
                                                 f"npss_is_normalized(npss_normalize(t, '{form}'), '{form}'), npss_equivalent(t, npss_normalize(t, '{form}')) "
                                                 f"FROM (SELECT {sql} AS t) AS of", base), f"{digest(key)}|t|f|t|t")
            refusal = self.refused("22021", f"SELECT npss_nfc({sql})", base)
            self.assertIn(f"It is character {front + 1} of the text, at byte {front}.", refusal)

    def test_texts_of_one_length(self):
        base = self.base("same", "15.0")
        long = "repeat('x', 1500000)"
        for left, right, wanted in (("'a' ||", "'b' ||", "f"), ("'a' ||", "'a' ||", "t"), ("'\u00eb' ||", "'\u00eb' ||", "t")):
            self.assertEqual(self.server.sql(f"SELECT npss_equivalent({left} {long}, {right} {long}), npss_equivalent({left} {long}, {right} {long}, 'nfkd')", base), f"{wanted}|{wanted}")
        for left, right in (("'a'", "'b'"), ("'a\u0302\u0323'", "'b\u0302\u0323'")):
            self.assertEqual(self.server.sql(f"SELECT npss_equivalent({long} || {left}, {long} || {right})", base), "f")
        # Its NFD is as long, with its marks in another order.
        self.assertEqual(self.server.sql(f"SELECT npss_is_normalized({long} || '{MARKED}', 'nfd'), npss_is_normalized({long} || 'a\u0323\u0302', 'nfd')", base), "f|t")


def data_record(code, category="Lo", order=0, mapping=""):
    """A line of UnicodeData.txt."""
    return f"{code:04X};X;{category};{order};L;{mapping};;;;N;;;;;"


def ascii_with(*others):
    """A data file of ASCII alone but for other records, which stand in the place of those of their code points."""
    data_records = {code: data_record(code) for code in range(0x80)} | {int(other.partition(";")[0], 16): other for other in others}
    return "".join(f"{data_records[code]}\n" for code in sorted(data_records))


# For each version that is made here its data file, whether ASCII is its own key in it under each form, and a text with its NFKC.
MADE = {
    "plain": (ascii_with(), "t", "AB", "AB"),
    "compatible": (ascii_with(data_record(0x41, mapping="<compat> 0062")), "f", "AB", "bB"),
    "composing": (ascii_with(data_record(0x100, mapping="0041 0042")), "f", "AB", "\u0100"),
    "marked": (ascii_with(data_record(0x41, "Mn", 230), data_record(0x42, "Mn", 220)), "f", "AB", "BA"),
    "holed": (ascii_with().replace(f"{data_record(0x41)}\n", ""), "f", "B", "B"),
}


class Words(Case):
    """Forms, labels and hints that are nearly others."""

    @classmethod
    def more_versions(cls):
        for label, (data, *_) in MADE.items():
            (copied(cls.versions, {label: VERSIONS / "15.0"}) / label / FILES[0]).write_text(data, encoding="ascii")
            (cls.versions / label / FILES[1]).write_text("", encoding="ascii")

    def test_which_versions_keep_ascii(self):
        for label, (_, keeps, text, key) in MADE.items():
            base = self.base("kept", label)
            self.assertEqual(self.server.sql(f"SELECT ascii, npss_nfkc('{text}') FROM npss_record", base), f"{keeps}|{key}", label)
        self.assertIn("U+0041 is not assigned", self.refused("22021", "SELECT npss_nfkc('A')", base))

    def test_forms(self):
        base = self.base("forms", "15.0")
        self.server.sql("CREATE CAST (bytea AS text) WITHOUT FUNCTION", base)
        for form in ("''", "'nf'", "'nfcx'", "'nfc '", "' nfc'", "'NFKCX'", "'nfkc\u0301'", "decode('6e666300', 'hex')::text", "decode('6e6663007a', 'hex')::text"):
            for call in ("npss_key('a', {})", "npss_try_key('a', {})", "npss_normalize('a', {})", "npss_is_normalized('a', {})", "npss_equivalent('a', 'b', {})"):
                self.refused("22023", f"SELECT {call.format(form)}", base)

    def test_each_form_compares(self):
        base = self.base("compares", "15.0")
        answer = self.server.sql("SELECT form, npss_equivalent('\ufb01', 'fi', form), npss_equivalent('\u1ead', 'a\u0302\u0323', form), npss_equivalent('a', 'b', form) "
                               "FROM unnest(ARRAY['nfc', 'nfd', 'nfkc', 'nfkd']) AS form", base)
        self.assertEqual(answer.split(), ["nfc|f|t|f", "nfd|f|t|f", "nfkc|t|t|f", "nfkd|t|t|f"])
        long = "repeat('\u1ead', 500000)"
        answer = self.server.sql(f"SELECT form, npss_equivalent('\ufb01' || {long}, 'fi' || {long}, form) FROM unnest(ARRAY['nfc', 'nfd', 'nfkc', 'nfkd']) AS form", base)
        self.assertEqual(answer.split(), ["nfc|f", "nfd|f", "nfkc|t", "nfkd|t"])

    def test_labels(self):
        base = self.base("labels", "14.0")
        for length, state in ((31, None), (32, "22023"), (33, "22023")):
            copied(self.versions, {"a" * length: VERSIONS / "15.0"})
            if state:
                self.refused(state, f"SELECT npss_raise('{'a' * length}')", base)
            else:
                self.assertEqual(self.server.sql(f"SELECT npss_raise('{'a' * length}')", base), "a" * length)
                self.assertEqual(self.server.sql("SELECT label, npss_nfc('\u00eb') = '\u00eb' FROM npss_version()", base), f"{'a' * length}|t")

    def test_hints_of_noncharacters(self):
        base = self.base("hints", "13.0")
        for code, is_one in ((0xFDCF, False), (0xFDD0, True), (0xFDEF, True), (0xFFFE, True), (0xFFFF, True), (0x1FFFE, True), (0x10FFFF, True), (0x1FFFD, False)):
            refusal = self.refused("22021", f"SELECT npss_nfc('{chr(code)}')", base)
            self.assertEqual("It is a noncharacter, which no version assigns." in refusal, is_one, hex(code))
        self.assertEqual(self.server.sql("SELECT npss_nfc('\ufdf0\ufffd') = '\ufdf0\ufffd'", base), "t")

    def test_long_decompositions(self):
        base = self.base("decompositions", "15.0")
        letters = "a\ufdfa\u1ead\uac01\ufb01"
        answer = self.server.sql(f"SELECT concat('=', decomposition) FROM npss_why('{letters}')", base).splitlines()
        self.assertEqual(answer, ["=", *("=" + " ".join(f"{ord(one):04X}" for one in unicodedata.normalize("NFKD", letter)) for letter in letters[1:])])

    def test_digests(self):
        base = self.base("digests", "13.0")
        for label in self.labels[1:]:
            self.server.sql(f"SELECT npss_raise('{label}')", base)
        for label in self.labels:
            data, exclusions = ((VERSIONS / label / name).read_bytes() for name in FILES)
            made = hashlib.sha256(len(data).to_bytes(8, "little") + data + exclusions).hexdigest()
            self.assertEqual(self.server.sql(f"SELECT digest FROM npss_record WHERE label = '{label}'", base), made)

    def test_a_file_of_the_greatest_size(self):
        base = self.base("greatest", "14.0")
        folder = copied(self.versions, {"greatest": VERSIONS / "15.0"}) / "greatest"
        for name in FILES:
            content = (folder / name).read_bytes()
            (folder / name).write_bytes(content + b"\n" * (16_777_216 - len(content)))
        self.assertEqual(self.server.sql("SELECT npss_raise('greatest'); SELECT assigned FROM npss_version()", base), "greatest\n288767")
