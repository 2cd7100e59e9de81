"""Versions of the extension's SQL, and what its library wants of a server."""

import re
import subprocess
from pathlib import Path

from cases import MARKED, YOUNG, YOUNGEST, Case
from server import HEADER, HERE, run

# What the library wants of the C library and of the tools that link it.
TOOLS = re.compile(r"^(_ITM_|__gmon_start__|__cxa_|__stack_chk_fail|_Unwind_)")


def newest():
    return re.search(r"^default_version = '(.*)'$", (HERE / "npss.control").read_text(encoding="utf-8"), re.MULTILINE)[1]


def released():
    """The versions of the SQL that a release had."""
    return [line.split()[1].removeprefix("npss--").removesuffix(".sql") for line in (HERE / "released").read_text(encoding="utf-8").splitlines()
            if line.count("--") == 1]


def earlier():
    """All versions of the SQL before the present one, of which a release may have had some."""
    scripts = (path.stem.split("--") for path in HERE.glob("npss--*.sql"))
    return sorted({version for _, *versions in scripts for version in versions} - {newest()})


class Extension(Case):
    """From each earlier version of the SQL to the present one."""

    def made(self, base):
        """All that the extension made: its functions with their rights, its types, tables and triggers."""
        return self.server.sql("""
            SELECT pg_get_functiondef(objid), proacl FROM pg_depend JOIN pg_proc ON classid = 'pg_proc'::regclass AND objid = pg_proc.oid
            JOIN pg_extension ON refobjid = pg_extension.oid WHERE extname = 'npss' ORDER BY objid::regprocedure::text COLLATE "C";
            SELECT pg_describe_object(classid, objid, objsubid) AS made FROM pg_depend JOIN pg_extension ON refobjid = pg_extension.oid AND deptype = 'e'
            WHERE extname = 'npss' ORDER BY made;
            SELECT extversion, extcondition FROM pg_extension WHERE extname = 'npss';
            SELECT tgname, tgenabled, pg_get_triggerdef(oid) FROM pg_trigger WHERE tgrelid = 'npss_record'::regclass ORDER BY 1""", base)

    def test_from_each_earlier_version(self):
        self.assertLessEqual({"0.2", *released()}, set(earlier()))
        fresh = self.base("fresh", "13.0")
        for version in earlier():
            base = self.base("older" + version.replace(".", "_"))
            self.server.sql(f"""SET npss.version = '13.0'; CREATE EXTENSION npss VERSION '{version}'; CREATE EXTENSION amcheck;
                CREATE TABLE account (name text, key text COLLATE "C" GENERATED ALWAYS AS (npss_nfkc(name)) STORED UNIQUE, sure npss_name DEFAULT 'a');
                CREATE UNIQUE INDEX account_name ON account (npss_nfd(name) COLLATE "C"); INSERT INTO account VALUES ('{MARKED}'), ('\ufb01');
                SELECT npss_raise('14.0'); INSERT INTO account VALUES ('{YOUNG}')""", base)
            # The library serves the SQL of before, too.
            self.assertEqual(self.server.sql("SELECT label, assigned, preloaded FROM npss_version()", base), "14.0|284278|f")
            beside = self.session(base)
            self.assertEqual(beside.ask(f"SELECT count(*) FROM account WHERE npss_nfd(name) COLLATE \"C\" = npss_nfd('{MARKED}')"), "1")
            self.server.sql("ALTER EXTENSION npss UPDATE", base)
            self.assertEqual(self.made(base), self.made(fresh))
            self.assertIn("23505", beside.ask("INSERT INTO account VALUES ('\u1ead')"))
            self.assertEqual(self.server.sql("SELECT npss_raise('15.0'), (npss_version()).lags", base), "15.0|f")
            self.assertEqual(beside.ask(f"INSERT INTO account VALUES ('{YOUNGEST}')"), "")
            self.assertEqual(self.server.sql("SELECT count(*), count(bt_index_check(indexrelid, true)) FROM pg_index WHERE indrelid = 'account'::regclass", base), "2|2")
            self.assertEqual(self.server.sql("SELECT count(*) FROM account WHERE key = npss_nfkc(name)", base), "4")

    def test_a_dump_of_an_earlier_version(self):
        for version in earlier():
            base = self.base("dumped")
            self.server.sql(f"SET npss.version = '13.0'; CREATE EXTENSION npss VERSION '{version}'; CREATE TABLE account (name text);"
                            f"CREATE UNIQUE INDEX ON account (npss_nfc(name)); INSERT INTO account VALUES ('{MARKED}'); SELECT npss_raise('14.0')", base)
            dump = run([self.programs / "pg_dump", "-h", self.server.folder, "-U", "postgres", base])
            self.server.sql(dump, self.base("back"), "-c npss.version=14.0")
            self.assertEqual(self.server.sql("SELECT label, lags FROM npss_version()", "back"), "14.0|f")
            self.assertEqual(self.server.sql("SELECT extversion FROM pg_extension WHERE extname = 'npss'", "back"), newest())

    def test_the_library_wants_what_each_minor_version_has(self):
        # Names that PostgreSQL 15.0 has. One that is new here has to be looked up there.
        allowed = set((HERE / "wanted").read_text(encoding="utf-8").split())
        library = Path(self.programs).parent / "lib" / "npss.so"
        output = subprocess.run(["nm", "-D", "--undefined-only", library], stdout=subprocess.PIPE, text=True, check=True).stdout
        wanted = {line.split()[-1] for line in output.splitlines() if "@" not in line}
        self.assertEqual({name for name in wanted if not TOOLS.match(name)} - allowed, set())

    def test_functions_of_another_library(self):
        """PostgreSQL loads libraries so that one sees the names of those before. Ours calls its own functions all the same."""
        library = Path(self.programs).parent / "lib" / "npss.so"
        output = subprocess.run(["nm", "-D", "--defined-only", library], stdout=subprocess.PIPE, text=True, check=True).stdout
        names = [line.split()[-1] for line in output.splitlines() if line.split()[-2] == "T"]
        names = [name for name in names if not name.startswith(("npss_pg_", "pg_finfo_", "Pg_magic_func", "_PG_init"))]
        self.assertIn("keeps_ascii", names)
        source = self.folder / "other.c"
        source.write_text('#include "postgres.h"\n#include "fmgr.h"\nPG_MODULE_MAGIC;\n'
                          + "".join(f"void {name}(void);\nvoid {name}(void) {{ abort(); }}\n" for name in names), encoding="ascii")
        other = self.folder / "other.so"
        subprocess.run(["cc", "-O1", "-shared", "-fPIC", f"-I{HEADER.parent}", "-o", other, source], check=True)
        session = self.session(self.base("beside", "14.0"))
        self.assertEqual(session.ask(f"LOAD '{other}'"), "")
        self.assertEqual(session.ask(f"SELECT npss_nfc('{MARKED}') = '\u1ead', npss_key('A', 'NFKD'), npss_audit('15.0')"), "t|A|extends")
        self.assertIn("22021", session.ask(f"SELECT npss_nfc('{YOUNGEST}')"))
        self.assertEqual(session.ask("SELECT npss_raise('15.0')"), "15.0")
