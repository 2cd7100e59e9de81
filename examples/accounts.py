#!/usr/bin/env python3
"""Accounts in a database whose names are found however they are spelled: a host of the module npss.

    accounts.py STORE DATA EXCLUSIONS add NAME..            adds accounts
    accounts.py STORE DATA EXCLUSIONS find NAME..           prints the name of each account, as it was given
    accounts.py STORE DATA EXCLUSIONS compare NAME NAME     prints whether both name one account
    accounts.py --test DATA EXCLUSIONS [NEWDATA NEWEXCLUSIONS]

The store keeps each name as it was given, and its key under NFKC, which is unique. Names that are equivalent are one
account. Machines come to the store with the files of their own versions, in any order, later ones and those that lag
behind. It knows a version by the sum of its two files, and keeps the files. A version that it has not seen is audited
against each that it has: one of the two has to extend the other, else the machine is refused. So a name has one key
under all versions that assign it, and no key is made anew. A name with a code point that a machine's version does not
assign is refused on that machine, to be added, found or compared: a machine that assigns it can do that.
"""

import hashlib
import sqlite3
import sys
import tempfile
import time
import zlib
from contextlib import closing
from pathlib import Path

from npss import BadTables, Tables, Unassigned

FORM = "nfkc"
STORE = ("CREATE TABLE IF NOT EXISTS version (number INTEGER PRIMARY KEY, sum TEXT NOT NULL UNIQUE, "
         "data BLOB NOT NULL, exclusions BLOB NOT NULL)",
         "CREATE TABLE IF NOT EXISTS account (name TEXT NOT NULL, key TEXT NOT NULL UNIQUE, "
         "version INTEGER NOT NULL REFERENCES version (number))")


class Refused(Exception):
    """What was asked for is not done, and the store is as it was."""


def sum_of(files):
    """What a version is known by."""
    return hashlib.sha256(b"".join(hashlib.sha256(file).digest() for file in files)).hexdigest()


class Accounts:
    """A store of accounts, as a machine of one version has it: by the bytes of its data file and of its exclusions."""

    def __init__(self, store, data, exclusions):
        self.tables = Tables.open(data, exclusions)
        self.base = sqlite3.connect(store)
        with self.base:
            self.base.execute("BEGIN IMMEDIATE")
            for table in STORE:
                self.base.execute(table)
            self.version = self.known(sum_of((data, exclusions))) or self.admitted((data, exclusions))

    def close(self):
        self.base.close()

    def known(self, digest):
        """The number of the version with this sum, or None where the store has not seen it."""
        row = self.base.execute("SELECT number FROM version WHERE sum = ?", (digest,)).fetchone()
        return row and row[0]

    def admitted(self, files):
        """The number of a version that the store has not seen, if it stands in one chain with those that it has."""
        for number, *seen in self.base.execute("SELECT number, data, exclusions FROM version ORDER BY number"):
            other = Tables.open(*map(zlib.decompress, seen))
            lost = self.tables.first_break(other)
            if lost and not other.extends(self.tables):
                raise Refused(f"neither extends the other, this version and the store's number {number}: "
                              f"{lost.kind} {lost.code:04X}")
        row = (sum_of(files), *map(zlib.compress, files))
        return self.base.execute("INSERT INTO version (sum, data, exclusions) VALUES (?, ?, ?)", row).lastrowid

    def key(self, name):
        try:
            return self.tables.key(name, FORM)
        except Unassigned as error:
            raise Refused(f"{name!r}: {error}") from error
        except UnicodeEncodeError as error:
            raise Refused(f"{name!r}: the name is no UTF-8") from error

    def add(self, *names):
        """Adds accounts, all of them or none."""
        try:
            with self.base:
                rows = ((name, self.key(name), self.version) for name in names)
                self.base.executemany("INSERT INTO account VALUES (?, ?, ?)", rows)
        except sqlite3.IntegrityError as error:
            raise Refused("a name is taken, by itself or by an equivalent one") from error

    def find(self, name):
        """The name of the account as it was given, or None."""
        found = self.base.execute("SELECT name FROM account WHERE key = ?", (self.key(name),)).fetchone()
        return found and found[0]

    def are_one(self, left, right):
        """Whether both names are those of one account."""
        return self.key(left) == self.key(right)


def is_refused(call, *given):
    """Whether a call is refused."""
    try:
        call(*given)
    except Refused:
        return True
    return False


def test_one(store, first):
    """What a machine of one version does."""
    with closing(Accounts(store, *first)) as machine:
        machine.add("a\u0302\u0323", "\ufb01a")
        yield machine.find("\u1ead") == "a\u0302\u0323"
        yield machine.find("fia") == "\ufb01a"
        yield machine.find("A") is None
        yield machine.are_one("fia", "\ufb01a") and not machine.are_one("fia", "A")
        yield is_refused(machine.add, "\u1ead")
        yield is_refused(machine.add, "Ai", "fia") and machine.find("Ai") is None
        yield is_refused(machine.add, "\u0378") and is_refused(machine.find, "\u0378")
        yield is_refused(machine.are_one, "A", "\u0378")


def test_turns(store, first, second):
    """What machines of three versions do in turn. The second version is the first to assign 16D67; a third one is made
    of it, which assigns 16D6B besides."""
    third = (second[0] + b"16D6B;X;Lo;0;L;;;;;N;;;;;\n", second[1])
    old, new = "\U00016d67", "\U00016d6b"
    with closing(Accounts(store, *first)) as lagging:
        kept = lagging.base.execute("SELECT * FROM account ORDER BY name").fetchall()
        yield is_refused(lagging.add, old)
        with closing(Accounts(store, *third)) as newest:
            newest.add(new, "\ufb01\ufb01")
            yield newest.find("\u1ead") == "a\u0302\u0323"
        # a version between two that the store has seen
        with closing(Accounts(store, *second)) as machine:
            machine.add(old)
            yield machine.find(old) == old and machine.find("fifi") == "\ufb01\ufb01"
            yield is_refused(machine.find, new) and is_refused(machine.add, "a" + new)
        # the machine that lags behind goes on, and so does one that begins now
        yield lagging.find("fifi") == "\ufb01\ufb01" and is_refused(lagging.find, old) and is_refused(lagging.find, new)
        with closing(Accounts(store, *first)) as again:
            again.add("iA\ufb01")
            yield again.version == lagging.version and again.are_one("iAfi", "iA\ufb01")
            yield is_refused(again.add, "fifi") and is_refused(again.are_one, old, old)
        with closing(Accounts(store, *third)) as newest:
            yield newest.find("iAfi") == "iA\ufb01" and newest.find(old) == old and newest.find(new) == new
        # as many code points, and another class: known by its sum, and in no chain with the second
        broken = (second[0].replace(b"1DFA;X;Mn;218", b"1DFA;X;Mn;220"), second[1])
        yield broken != second and Tables.open(*broken).count == Tables.open(*second).count
        yield is_refused(Accounts, store, *broken)
        yield lagging.base.execute("SELECT count(*) FROM version").fetchone()[0] == 3
        yield all(row in lagging.base.execute("SELECT * FROM account").fetchall() for row in kept)


def test_many(store, first):
    """A hundred thousand accounts."""
    with closing(Accounts(store, *first)) as machine:
        names = ["".join(chr(0xAC00 + i // 30 ** p % 30) for p in range(4)) for i in range(100_000)]
        start = time.perf_counter()
        machine.add(*names)
        middle = time.perf_counter()
        yield all(machine.find(name) == name for name in names)
        end = time.perf_counter()
        print(f"100,000 names: {middle - start:.2f} s to add, {end - middle:.2f} s to find")


def test(first, second=None):
    """Tries all of this over a version; and over a second one, where it is given."""
    with tempfile.TemporaryDirectory() as folder:
        store = Path(folder) / "store"
        results = [*test_one(store, first), *(test_turns(store, first, second) if second else ()), *test_many(store, first)]
    print(f"{sum(results)} passed, {len(results) - sum(results)} failed")
    return all(results)


def answer(machine, command, names):
    """Does a command, and prints what it answers."""
    if command == "add":
        machine.add(*names)
    elif command == "find":
        for name in names:
            print(machine.find(name) or "no such account")
    else:
        print("one account" if machine.are_one(*names) else "two accounts")


def run(words):
    """Does what the words ask for; the status."""
    if words[:1] == ["--test"]:
        files = [Path(word).read_bytes() for word in words[1:]]
        return 0 if test(*(files[at:at + 2] for at in range(0, len(files), 2))) else 1
    if len(words) < 5 or words[3] not in ("add", "find", "compare") or (words[3] == "compare" and len(words) != 6):
        print(__doc__, file=sys.stderr)
        return 2
    store, data, exclusions, command, *names = words
    with closing(Accounts(store, Path(data).read_bytes(), Path(exclusions).read_bytes())) as machine:
        answer(machine, command, names)
    return 0


def main(words):
    """The status: 1 where something is refused, 2 for bad words, 5 where a file or the store can't be used."""
    try:
        return run(words)
    except (Refused, BadTables) as error:
        print(f"refused: {error}", file=sys.stderr)
        return 1
    except (OSError, sqlite3.Error) as error:
        print(f"accounts.py: {error}", file=sys.stderr)
        return 5


if __name__ == "__main__":
    sys.exit(main(sys.argv[1:]))
