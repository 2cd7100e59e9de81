"""Files and records that were changed, are missing, or were opened by the postmaster."""

import os
import shutil
import unittest
from pathlib import Path

from cases import FILES, MARKED, VERSIONS, Case, copied

# A file that is shorter than the system tells.
SHORTER = Path("/sys/kernel/mm/transparent_hugepage/enabled")


class Attacks(Case):
    """Files and records that were changed, and databases that can't hold keys."""

    def with_account(self, name, version="14.0"):
        base = self.base(name, version)
        self.server.sql("CREATE TABLE account (name text)", base)
        return base

    def swapped(self, content, file=FILES[0]):
        """Puts other bytes into the place of a file of 14.0, for one test."""
        path = self.versions / "14.0" / file
        kept = path.read_bytes()
        self.addCleanup(path.write_bytes, kept)
        path.unlink()
        path.write_bytes(content)

    def test_older_files_under_the_same_name(self):
        base = self.with_account("swapped")
        self.swapped((VERSIONS / "13.0" / FILES[0]).read_bytes())
        self.assertIn("The recorded digest is ", self.refused("55000", f"SELECT npss_nfc('{MARKED}')", base))
        self.assertEqual(self.server.sql("SELECT * FROM npss_ready('14.0')", base), 'f|the files are not those that this database recorded as "14.0"')
        self.assertEqual(self.server.sql("SELECT ready FROM npss_ready('15.0')", base), "t")

    def test_other_exclusions(self):
        # One has more bytes, and one as many: two lines stand in each other's place.
        base, content = self.with_account("excluded"), (VERSIONS / "14.0" / FILES[1]).read_bytes()
        first, second, *more = content.splitlines(True)
        for other in (content + b"# the same\n", b"".join((second, first, *more))):
            self.swapped(other, FILES[1])
            self.refused("55000", f"SELECT npss_nfc('{MARKED}')", base)
            self.doCleanups()

    def test_a_file_that_was_cut(self):
        base = self.with_account("cut")
        self.swapped((VERSIONS / "14.0" / FILES[0]).read_bytes()[:100_003])
        self.assertIn("UnicodeData.txt, line", self.refused("F0000", f"SELECT npss_nfc('{MARKED}')", base))

    def test_an_empty_file(self):
        base = self.with_account("empty")
        self.swapped(b"")
        self.refused("55000", f"SELECT npss_nfc('{MARKED}')", base)

    def test_what_is_no_file(self):
        base = self.with_account("pipes")
        folder = copied(self.versions, {"odd": VERSIONS / "15.0"}) / "odd"
        self.addCleanup(shutil.rmtree, folder)
        data = folder / FILES[0]
        ways = [(os.mkfifo, "F0000"), (os.mkdir, "F0000"), (lambda path: path.symlink_to("/dev/zero"), "F0000"),
                (lambda path: path.write_bytes(bytes(16_777_217)), "F0000")]
        if SHORTER.exists():
            ways.append((lambda path: path.symlink_to(SHORTER), "58030"))
        data.unlink()
        for make, state in ways:
            make(data)
            refusal = self.refused(state, "SELECT npss_raise('odd')", base)
            self.assertIn("is not a file of at most 16777216 bytes" if state == "F0000" else "could not read file", refusal)
            (data.rmdir if make is os.mkdir else data.unlink)()

    def test_texts_that_are_not_utf8(self):
        # Only a superuser brings such texts about.
        base = self.with_account("bytes")
        self.server.sql("CREATE CAST (bytea AS text) WITHOUT FUNCTION", base)
        long = "repeat('61', 1500000)"
        for digits, place in (("'6162ff'", 2), (f"{long} || 'ff' || {long}", 1_500_000), (f"{long} || 'e1ba'", 1_500_000)):
            text = f"decode({digits}, 'hex')::text"
            for call in ("npss_nfc({0})", "npss_normalize({0})", "npss_try_key({0})", "npss_is_normalized({0})", "npss_first_unassigned({0})",
                         "npss_equivalent({0}, 'a')", "npss_equivalent('a', {0})"):
                refusal = self.refused("22021", f"SELECT {call.format(text)} IS NULL", base)
                self.assertIn(f"It is up to byte {place}.", refusal)
        for digits, length in (("'610062'", 3), (f"{long} || '00' || {long}", 3_000_001)):
            self.assertEqual(self.server.sql(f"SELECT npss_nfc('{MARKED}'), octet_length(npss_nfc(decode({digits}, 'hex')::text)), "
                                             f"npss_first_unassigned(decode({digits}, 'hex')::text) IS NULL", base), f"\u1ead|{length}|t")

    @unittest.skipIf(os.geteuid(), "only root makes a folder that the servers' user can't read")
    def test_a_folder_that_may_not_be_read(self):
        base = self.with_account("closed")
        path = copied(self.versions, {"closed": VERSIONS / "15.0"}) / "closed"
        self.addCleanup(shutil.rmtree, path)
        path.chmod(0o700)
        self.refused("42501", "SELECT npss_raise('closed')", base)

    def test_a_digest_that_a_superuser_edited(self):
        base = self.with_account("edited")
        self.server.sql("ALTER TABLE npss_record DISABLE TRIGGER audit; UPDATE npss_record SET digest = repeat('0', 64)", base)
        self.refused("55000", f"SELECT npss_nfc('{MARKED}')", base)

    def test_folders_without_a_version(self):
        base = self.base("folders")
        folder = self.folder / "other"
        folder.mkdir()
        setting = f"SET npss.folder = '{folder}'; CREATE EXTENSION npss"
        self.assertIn("has no version", self.refused("55000", setting, base))
        copied(folder, {"faulty": VERSIONS / "15.0"})
        (folder / "faulty" / FILES[0]).write_text("0041;x\n")
        self.assertIn("UnicodeData.txt, line 1: FieldCount", self.refused("F0000", setting, base))
        (folder / "faulty" / FILES[0]).write_text("0041;X;Lu;0;L;0042;;;;N;;;;;\n")
        self.assertIn("MapsToUnassigned at code point U+0041", self.refused("F0000", setting, base))
        (folder / "faulty" / FILES[0]).write_text("0041;X;Lu;0;L;;;;;N;;;;;\n")
        (folder / "faulty" / FILES[1]).write_text("x\n")
        self.assertIn("CompositionExclusions.txt, line 1: BadCode", self.refused("F0000", setting, base))
        copied(folder, {"15.0": VERSIONS / "15.0"})
        self.server.sql(setting, base)
        self.assertIn('WARNING:  F0000: npss: the files of Unicode version "faulty" are faulty', self.server.stderr)
        self.assertIn('uses Unicode version "15.0"', self.server.stderr)
        self.assertIn("Put UnicodeData.txt and CompositionExclusions.txt into a folder", self.refused("58P01", "SELECT npss_raise('16.0')", base))

    def test_other_encodings(self):
        for encoding in ("SQL_ASCII", "LATIN1"):
            self.refused("0A000", "CREATE EXTENSION npss", self.base("encoded", encoding=encoding))

    def test_a_version_that_breaks_keys(self):
        base = self.with_account("breaks")
        broken = copied(self.versions, {"broken": VERSIONS / "15.0"}) / "broken"
        self.addCleanup(shutil.rmtree, broken)
        data = broken / FILES[0]
        text = data.read_text()
        for old, new, first in (("0323;COMBINING DOT BELOW;Mn;220", "0323;COMBINING DOT BELOW;Mn;221", "ClassChanged 0323"),
                               ("\n0450;", "\n# 0450;", "Lost 0450")):
            data.write_text(text.replace(old, new, 1))
            self.assertIn(first, self.refused("55000", "SELECT npss_raise('broken')", base))
            self.assertEqual(self.server.sql("SELECT npss_audit('broken')", base), first)


class Missing(Case):
    """Files that are missing, and sessions that need none."""

    def test_ascii_needs_no_files_and_analyze_survives(self):
        base = self.base("missing", "15.0")
        self.server.sql("CREATE TABLE account (name text); CREATE INDEX account_key ON account (npss_nfc(name));"
                        f"INSERT INTO account VALUES ('admin'), ('{MARKED}')", base)
        self.assertEqual(self.server.sql("SELECT ascii FROM npss_record", base), "t")
        away = self.folder / "away"
        self.versions.rename(away)
        try:
            self.assertEqual(self.server.sql("SELECT npss_nfc('admin'), npss_normalize('admin', 'nfkd')", base), "admin|admin")
            self.refused("58P01", f"SELECT npss_nfc('{MARKED}')", base)
            self.server.sql("ANALYZE account", base)
            self.assertIn("WARNING", self.server.stderr)
            self.server.sql("VACUUM ANALYZE account", base)
        finally:
            away.rename(self.versions)
        self.assertEqual(self.server.sql(f"SELECT npss_nfc('{MARKED}')", base), "\u1ead")

    def test_what_is_ascii(self):
        base = self.base("texts", "15.0")
        for front in (0, 3, 7, 8, 15, 16, 17):
            for back in (0, 5, 8, 16):
                front_text, back_text = "x" * front, "y" * back
                text, key = front_text + "e\u0301" + back_text, front_text + "\u00e9" + back_text
                # Each time the first text of a session.
                self.assertEqual(self.server.sql(f"SELECT npss_nfc('{text}')", base), key)

    def test_a_folder_that_is_not_set(self):
        base = self.base("unset", "15.0")
        self.refused("55000", f"SET npss.folder = ''; SELECT npss_nfc('{MARKED}')", base)
        self.refused("55000", "SET npss.folder = ''; CREATE EXTENSION npss", self.base("unset"))


class Preloaded(Case):
    """Versions that the postmaster opened."""

    settings = "shared_preload_libraries = 'npss'\n"

    @classmethod
    def more_versions(cls):
        copied(cls.versions, {"again": VERSIONS / "15.0", "faulty": VERSIONS / "15.0"})
        (cls.versions / "faulty" / FILES[0]).write_text("0041;x\n")

    def test_sessions_share_the_tables(self):
        base = self.base("preloaded", "13.0")
        self.assertEqual(self.server.sql("SELECT label, preloaded FROM npss_version()", base), "13.0|t")
        self.server.sql("SELECT npss_raise('15.0')", base)
        self.assertEqual(self.server.sql("SELECT assigned, preloaded FROM npss_version()", base), "288767|t")
        self.assertIn('the files of Unicode version "faulty" are faulty', (self.server.folder / "log").read_text())
