"""The blocks of the pages, typed as they stand by a reader of a bare Debian, and what each of them has to print.

A block says what it is: `sh` is typed; `console` is typed line by line, and prints what stands below each line; `text` has
words of the reader's own in it, in capitals or as hosts below .example, and isn't typed, nor is `conf`, the settings of a
file. Programs and SQL run by what the page tells to run them.
"""

import re
import textwrap

from hosts.booted import HOME
from harness import ROOT

BLOCK = re.compile(r"^( *)```(\w*)\n(.*?)^\1```$", re.MULTILINE | re.DOTALL)
# What is the reader's own in a block that isn't typed.
OWN = re.compile(r"\b[A-Z]{4,}\b|\.example\b|\bdatabases/")
# The page's blocks that only the sources can run.
OF_THE_SOURCES = "./npss "
UNICODE = "/usr/share/unicode"
FILES = ("UnicodeData.txt", "CompositionExclusions.txt")
# By page, what is there before it is read: the package that it is about, and files of the reader's own.
COPY = f"cp {UNICODE}/{FILES[0]} {UNICODE}/{FILES[1]} ."
NAMES = "printf 'Zoe\\314\\210\\nfi\\n\\357\\254\\201\\nA\\360\\226\\265\\247\\n' >names"
OLDER = (f"mkdir 14.0 15.0 && cp {UNICODE}/{FILES[0]} {UNICODE}/{FILES[1]} 15.0 && "
         f"mv ~/14.0-{FILES[0]} 14.0/{FILES[0]} && mv ~/14.0-{FILES[1]} 14.0/{FILES[1]}")
BEFORE = {
    "README.md": "sudo apt install ./python3-npss_*.deb ./npss-registry_*.deb && sudo -u postgres createdb readme",
    "docs/DOORS.md": f"{COPY}; cp -r /usr/share/doc/npss-doc/rust ../npss-rust",
    "docs/BULK.md": NAMES,
    "docs/UPGRADING.md": OLDER,
    "docs/REGISTRY.md": "redis-cli config set appendonly yes && redis-cli config set appendfsync always",
}
# What blocks print at their end, by how they begin.
PRINTED = {
    ("README.md", "sudo apt install ./npss_"): "fi",
    ("README.md", "from npss"): "J\xf6rg\n",
    ("README.md", "CREATE EXTENSION"): "1\n",
    ("README.md", "npss-registry init"): "2\t'Zo\xeb'\t17\n",
    ("docs/INSTALL.md", "sudo apt install ./npss_"): "fi\n",
    ("docs/INSTALL.md", "sudo apt install python3-venv"): "J\xf6rg\n",
    ("docs/DATABASES.md", "CREATE EXTENSION"): "1\n",
    ("docs/DOORS.md", "cc prog.c"): "\u1ead\n",
    ("docs/DOORS.md", "from npss"): "\u1ead\n93543 1 1\n",
    ("docs/DOORS.md", "use npss"): "\u1ead\n",
    ("docs/UPGRADING.md", "npss audit"): "extends\n",
    ("docs/UPGRADING.md", "printf"): "own form\n",
    ("docs/REGISTRY.md", "cp "): "shard 0: place 2 of 2, 1 registered, 0 parked\n",
}


def blocks(page):
    """The blocks of a page: the language of each, and its text."""
    return [(language, textwrap.dedent(text)) for _, language, text in BLOCK.findall((ROOT / page).read_text(encoding="utf-8"))]


def check_languages(tally, page):
    """Each block says what it is, and what isn't typed has something of the reader's own."""
    for language, text in blocks(page):
        first = text.partition("\n")[0]
        if language == "":
            tally.check(f"{page}: a block that says what it is: {first}", OF_THE_SOURCES in text, "sh, console, text or a language is wanted")
        if language == "text":
            tally.check(f"{page}: a block that can't be typed: {first}", OWN.search(text), "it has nothing of the reader's own")


class Reader:
    """Who types the blocks of a page, in a folder of the page's own."""

    def __init__(self, tally, machine, page, folder):
        self.tally, self.machine, self.page, self.folder = tally, machine, page, folder
        self.database = page.rpartition("/")[2].removesuffix(".md").lower()

    def wants(self, text):
        """What a block has to print at its end."""
        return next((printed for (page, begin), printed in PRINTED.items() if page == self.page and text.startswith(begin)), None)

    def check(self, text, answer):
        """Counts a block by its status and by what it prints."""
        status, written = answer
        name = f"{self.page}: {text.partition(chr(10))[0]}"
        wanted = self.wants(text)
        if self.tally.check(f"{name} is typed", status == 0, f"status {status}: {written[-2000:]}") and wanted:
            self.tally.check(f"{name} prints", written.endswith(wanted) or wanted in written.splitlines(keepends=True), f"{written[-500:]!r}, not {wanted!r}")

    def type(self, block, given="y\n" * 9):
        return self.machine.types(block, self.folder, given)

    def put(self, name, text, mode="644"):
        """Writes a file, as an editor does."""
        return self.type(f"mkdir -p $(dirname {name}); cat >{name}; chmod {mode} {name}", text)

    def console(self, text):
        for command, wanted in re.findall(r"^\$ (.*)\n((?:(?!\$ ).*\n)*)", text, re.MULTILINE):
            self.tally.same(f"{self.page}: {command}", self.type(command, ""), (0, wanted))

    def sql(self, text):
        """Statements for SQLite begin by loading the extension, or stand behind such ones; all others are PostgreSQL's."""
        if text.startswith(".load"):
            return self.check(text, self.type("sqlite3 -bail accounts.db", text))
        psql = f"sudo -u postgres psql -qAtv ON_ERROR_STOP=1 -d {self.database if self.page == 'README.md' else 'postgres'}"
        return self.check(text, self.type(psql, text))

    def rust(self, text):
        """The page's program, in a crate of its own beside the library's."""
        toml = next(one for language, one in blocks(self.page) if language == "toml")
        self.put("page/Cargo.toml", f'[package]\nname = "page"\nversion = "0.1.0"\nedition = "2021"\n\n{toml.replace("../", "../../")}')
        self.put("page/src/main.rs", text)
        self.check(text, self.type("cargo run -q --offline --manifest-path page/Cargo.toml"))

    def block(self, language, text):
        """Types a block, or runs it by what the page tells."""
        if language == "sh":
            self.check(text, self.type(text))
        elif language == "console":
            self.console(text)
        elif language == "sql":
            self.sql(text)
        elif language == "python":
            self.put("page.py", text)
            self.check(text, self.type("python3 page.py"))
        elif language == "rust":
            self.rust(text)
        elif language == "c":
            self.put("prog.c", text)
        elif language == "bash":
            self.put("both", text, "755")
            self.check(text, self.type("./both <names"))


def check_page(tally, machine, page, folder=None, left_out=()):
    """Types the blocks of a page, in order, but for those that begin by some words."""
    check_languages(tally, page)
    reader = Reader(tally, machine, page, folder or f"/{HOME}/{page.rpartition('/')[2].removesuffix('.md').lower()}")
    status, written = machine.types(f"mkdir -p {reader.folder}")
    reader.put("prog.c", next(text for language, text in blocks("docs/DOORS.md") if language == "c"))
    if page in BEFORE:
        status, written = reader.type(BEFORE[page])
    if tally.check(f"{page}: what it begins with", status == 0, written[-2000:]):
        for language, text in blocks(page):
            if not text.startswith(left_out or "\0"):
                reader.block(language, text)
