#!/usr/bin/env python3
"""tests/hosts/key_columns.py [--names N] [--only NAME..]: key columns in stores without an extension, as docs/MOVING.md has them.

For each store that is here (key_stores.py) a table of N names, 20,000 where nobody says otherwise, with some that collide and some
without a key, is brought under keys by the page's statements and examples/fill_keys.py. Each key is compared with Python's own
form. Then it is tried what the column's type, the unique index and the check refuse. The times are printed. The module npss is on
PYTHONPATH, with psycopg and pymysql, and NAMEs choose stores. Ends in a line 'N passed, M failed'.
"""

import argparse
import os
import re
import subprocess
import sys
import tempfile
import time
import unicodedata
from pathlib import Path

sys.dont_write_bytecode = True
sys.path.insert(0, str(Path(__file__).resolve().parent.parent))

import ucd
from harness import ROOT, Tally
from hosts.key_stores import STORES, Mariadb, Postgres, Sqlite

PAGE, PROGRAM = ROOT / "docs" / "MOVING.md", ROOT / "examples" / "fill_keys.py"
SECTIONS = {Postgres: "PostgreSQL", Mariadb: "MariaDB and MySQL", Sqlite: "SQLite in a file"}
FORM = "nfkc"
# Of the names so many stand once more, spelled otherwise; and so many have no key.
COLLISIONS, NAMELESS = 20, 3
# Assigned by no version, and no noncharacter.
NEVER = 0xE0080
WRITE = "INSERT INTO account (name, name_key, keyed_name) VALUES (%s, %s, %s)"


def blocks(store):
    """The page's statements for a store: the columns, the collisions, the index with its check."""
    section = PAGE.read_text(encoding="utf-8").partition(f"\n### {SECTIONS[store]}\n")[2]
    return re.findall(r"```sql\n(.*?)```", re.split(r"\n##+ ", section)[0], re.DOTALL)


def names(count):
    """Names of several scripts, by their numbers from 1; then names that collide with the first, and names without a key."""
    plain = [f"Jos\u00e9 {n}{chr(1072 + n % 32)}{chr(44032 + n % 11172)}" for n in range(count - COLLISIONS - NAMELESS)]
    twice = [unicodedata.normalize("NFD", name).replace("Jose", "\uff2aose") for name in plain[:COLLISIONS]]
    return list(enumerate([*plain, *twice, *("a" + chr(NEVER + 1 + n % 31) for n in range(NAMELESS))], 1))


def key_of(name):
    return unicodedata.normalize(FORM.upper(), name)


class Move:
    """A move of one store."""

    def __init__(self, tally, store, files, count):
        self.tally, self.store, self.files, self.count, self.title = tally, store, files, count, store.title

    def same(self, what, got, want):
        return self.tally.same(f"{self.title}: {what}", got, want)

    def filled(self, what, status, lines, *folding):
        """A run of the program, perhaps with a folding file, and how long it took."""
        begun = time.monotonic()
        words = [sys.executable, PROGRAM, self.store.address, FORM, *self.files, *folding]
        done = subprocess.run(list(map(str, words)), stdout=subprocess.PIPE, stderr=subprocess.PIPE, text=True, check=False)
        took = time.monotonic() - begun
        self.same(what, (done.returncode, done.stdout.splitlines(), done.stderr), (status, lines, ""))
        return took

    def brought_under_keys(self):
        """The steps of the page."""
        columns, collisions, index = blocks(type(self.store))
        rows = names(self.count)
        self.store.run(self.store.table)
        self.store.insert(rows)
        self.store.run(columns)
        nameless = rows[-NAMELESS:]
        took = self.filled("keys are filled in", 1, [f"{number}\tunassigned {ord(name[1]):X} at byte 1" for number, name in nameless])
        got = self.store.run("SELECT id, name, name_key, keyed_name FROM account ORDER BY id")
        self.same("each name has its key", [row for row, (number, name) in zip(got, rows) if tuple(row) != (
            (number, name, None, None) if (number, name) in nameless else (number, name, key_of(name), name))], [])
        self.same("each row is there", len(got), self.count)
        first = self.count - COLLISIONS - NAMELESS + 1
        found = {key: sorted(map(int, re.findall(r"\d+", str(ids)))) for key, ids in self.store.run(collisions)}
        self.same("what collides", found, {key_of(rows[n][1]): [n + 1, first + n] for n in range(COLLISIONS)})
        self.store.run("UPDATE account SET keyed = %s WHERE name_key IS NULL", False)
        for number, name in rows[first - 1:first - 1 + COLLISIONS]:
            self.store.run("UPDATE account SET name = %s, name_key = NULL, keyed_name = NULL WHERE id = %s", f"{name}~{number}", number)
        self.filled("the renamed are filled in", 0, [])
        begun = time.monotonic()
        self.store.run(index)
        print(f"{self.title}: {self.count:,} keys are filled in in {took:.1f} s, the index and its check take {time.monotonic() - begun:.1f} s", flush=True)

    def refusals(self):
        """What the unique index and the check refuse, and what they don't."""
        outcomes, rows = [], self.store.run
        new, taken = "\ufb01n", "Jose\u0301 0\u0430\uac00"
        for what, text, values, want in (
                ("a name comes without its key", "INSERT INTO account (name) VALUES (%s)", (new,), "check"),
                ("a key comes without its name", "INSERT INTO account (name, name_key) VALUES (%s, %s)", (new, key_of(new)), "check"),
                ("a key comes with another name", WRITE, (new, key_of(new), "fin"), "check"),
                ("a name is taken in another spelling", WRITE, (taken, key_of(taken), taken), "unique"),
                ("a name is changed alone", "UPDATE account SET name = %s WHERE id = 1", ("\u1ead",), "check"),
                ("a key is taken away", "UPDATE account SET name_key = NULL WHERE id = 1 AND name <> %s", ("",), "check"),
                ("a row that stays out has no key", "INSERT INTO account (name, keyed) VALUES (%s, %s)", (chr(NEVER), False), None),
                ("a name comes with its key", WRITE, (new, key_of(new), new), None),
                ("a name gets another spelling", "UPDATE account SET name = %s, keyed_name = %s WHERE name_key = 'fin'", ("fin", "fin"), None),
                ("a space behind makes another name", WRITE, ("fin ", "fin ", "fin "), None),
                ("another case makes another name", WRITE, ("Fin", "Fin", "Fin"), None),
                ("a mark makes another name", WRITE, ("f\u00efn", "f\u00efn", "f\u00efn"), None)):
            outcomes.append((what, self.store.ended(text, *values), want))
        self.same("what is refused", [(what, got) for what, got, _ in outcomes], [(what, want) for what, _, want in outcomes])
        self.same("names beside one another", sorted(key for key, in rows("SELECT name_key FROM account WHERE name_key IN ('fin', 'fin ', 'Fin', 'f\u00efn')")),
                  ["Fin", "fin", "fin ", "f\u00efn"])
        look = "SELECT id FROM account WHERE name_key = %s"
        self.same("a name is found by its key", [len(rows(look, key_of(name))) for name in (taken, "\ufb01n", "FIN")], [1, 1, 0])
        self.tally.check(f"{self.title}: a look-up goes by the index", "account_name_key" in self.store.plan(look, "fin"), self.store.plan(look, "fin"))

    def meanwhile(self):
        """A row whose name changes between the reading and the filling is left to the next run."""
        sys.path.insert(0, str(PROGRAM.parent))
        import fill_keys
        self.store.run("UPDATE account SET keyed = %s, name_key = NULL, keyed_name = NULL WHERE id = 5", False)
        self.store.run("UPDATE account SET name = %s WHERE id = 5", "one")
        if isinstance(self.store, Sqlite):
            self.store.run("DROP TRIGGER account_updated")
        else:
            self.store.run("ALTER TABLE account DROP CONSTRAINT account_keyed")
        self.store.run("UPDATE account SET keyed = %s WHERE id = 5", True)
        beside = fill_keys.opened(self.store.address)
        found = [tuple(row) for row in beside.unkeyed(-1, 10)]
        self.store.run("UPDATE account SET name = %s WHERE id = 5", "One")
        beside.fill([(5, "one", "one")])
        self.same("a row that changes meanwhile", (found, self.store.run("SELECT name, name_key FROM account WHERE id = 5")), ([(5, "one")], [("One", None)]))
        self.filled("the next run", 0, [])
        self.same("it has its key then", self.store.run("SELECT name, name_key, keyed_name FROM account WHERE id = 5"), [("One", "One", "One")])

    def caseless(self, folding):
        """With a folding file the column is filled with caseless keys."""
        self.store.run("UPDATE account SET name_key = NULL, keyed_name = NULL WHERE id = 5")
        self.filled("a caseless key is filled in", 0, [], folding)
        self.same("it is caseless", self.store.run("SELECT name, name_key, keyed_name FROM account WHERE id = 5"), [("One", "one", "One")])


def edges_of_postgresql(move):
    """The longest key, and a collation that joins keys."""
    long = "".join(map(chr, range(0x4E00, 0x4E00 + 901)))
    move.same("keys as long as an index row", [move.store.ended(WRITE, text, text, text) for text in (long[:890], long)], [None, "long"])
    collation = "CREATE COLLATION loose (provider = icu, locale = 'und-u-ks-level2', deterministic = false)"
    move.store.run(f"{collation};\nCREATE TABLE joined (name_key text COLLATE loose UNIQUE);\nINSERT INTO joined VALUES ('fin')")
    move.same("a collation that isn't deterministic", move.store.ended("INSERT INTO joined VALUES ('FIN')"), "unique")


def edges_of_mariadb(move):
    """The longest key, a text that is cut where nothing is strict, and a collation that takes a space behind for nothing."""
    move.store.run("CREATE TABLE edge (name_key VARBINARY(3072) UNIQUE)")
    put = "INSERT INTO edge VALUES (%s)"
    move.same("keys of the greatest length", [move.store.ended(put, "\u00eb" * 1536), move.store.ended(put, "\u00eb" * 1536 + "x")], [None, "long"])
    move.same("an index of more bytes", move.store.ended("CREATE TABLE wider (name_key VARBINARY(3073), UNIQUE USING BTREE (name_key))").partition(",")[0], "(1071")
    move.store.run("CREATE TABLE padded (name_key VARCHAR(768) CHARACTER SET utf8mb4 COLLATE utf8mb4_bin UNIQUE);\nINSERT INTO padded VALUES ('fin')")
    move.same("utf8mb4_bin and a space behind", move.store.ended("INSERT INTO padded VALUES ('fin ')"), "unique")
    move.store.run("SET SESSION sql_mode = ''")
    move.store.run("DELETE FROM edge")
    move.same("where nothing is strict", (move.store.ended(put, "y" * 3073), move.store.run("SELECT LENGTH(name_key) FROM edge")), (None, [(3072,)]))
    move.store.run("SET SESSION sql_mode = DEFAULT")


def edges_of_sqlite(move):
    """Collations that join keys."""
    for collation, other in (("NOCASE", "FIN"), ("RTRIM", "fin ")):
        move.store.run(f"CREATE TABLE joined_{collation} (name_key TEXT COLLATE {collation} UNIQUE)")
        put = f"INSERT INTO joined_{collation} VALUES (%s)"
        move.same(collation, (move.store.ended(put, "fin"), move.store.ended(put, other)), (None, "unique"))


EDGES = {Postgres: edges_of_postgresql, Mariadb: edges_of_mariadb, Sqlite: edges_of_sqlite}


def main():
    parser = argparse.ArgumentParser()
    parser.add_argument("--names", type=int, default=20_000)
    parser.add_argument("--only", nargs="+", default=[], metavar="NAME")
    words = parser.parse_args()
    tally = Tally()
    files, why = ucd.package_files()
    if files is None:
        print(f"skipped: key columns: {why}")
        tally.finish()
    for kind in STORES:
        if words.only and kind.title not in words.only:
            continue
        if not kind.is_here():
            print(f"skipped: key columns in {kind.title}: its server or its client for Python is not here")
            continue
        with tempfile.TemporaryDirectory() as folder:
            os.chmod(folder, 0o755)
            store = kind(Path(folder))
            try:
                move = Move(tally, store, [files[ucd.DATA], files[ucd.EXCLUSIONS]], words.names)
                move.brought_under_keys()
                move.refusals()
                EDGES[kind](move)
                move.meanwhile()
                move.caseless(files[ucd.FOLDING])
            finally:
                store.close()
    tally.finish()


if __name__ == "__main__":
    main()
