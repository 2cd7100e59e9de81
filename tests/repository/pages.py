"""The lengths of the pages and of their sentences, and whether the figure of the crates is that of crates.txt."""

import re

from harness import ROOT

# The most words of a sentence, of sentences on average, and the pages that keep to it by now, each with the
# most lines and words that it may have (None: not bounded).
LONGEST, MEAN = 40, 25
PAGES = {
    "README.md": (120, 1000),
    "CONTRIBUTING.md": (110, None),
    "CHANGELOG.md": (None, None),
    "SECURITY.md": (None, None),
    "bench/README.md": (105, None),
    "bench/GATE.md": (None, None),
    "docs/ARCHITECTURE.md": (None, None),
    "docs/DECISIONS.md": (None, None),
    "docs/PROMISES.md": (None, None),
    "docs/NODES.md": (None, None),
    "docs/BULK.md": (None, None),
    "docs/DOORS.md": (None, None),
    "docs/INSTALL.md": (None, None),
    "docs/ACCOUNTS.md": (None, None),
    "docs/UPGRADING.md": (None, None),
    "docs/DATABASES.md": (None, None),
    "docs/REGISTRY.md": (None, None),
    "docs/RATTLE.md": (None, None),
    "docs/STANDARD.md": (None, None),
    "docs/FORMATS.md": (None, None),
    "docs/DEFINITIONS.md": (None, None),
    "docs/MOVING.md": (None, None),
    "docs/README.md": (None, None),
    "docs/GLOSSARY.md": (None, None),
}
# The headline's sentence stands as it is.
KEPT = "from one chain"


# Where a sentence ends. In doc comments, which tell shapes and units in lists, a part behind `:` or `;` counts for itself.
ENDS = {"page": r"(?<=[.?!])\s+", "comment": r"(?<=[.?!:;])\s+"}


def sentences(text, marks="page"):
    """The sentences of a page: without code blocks, tables and heads."""
    text = re.sub(r"```.*?```", "", text, flags=re.DOTALL)
    lines = [line for line in text.split("\n") if not line.lstrip().startswith(("|", "#"))]
    text = re.sub(r"\n\s*(?:[-*]|\d+\.) ", ". ", "\n".join(lines)).replace("\n\n", ". ")
    for sentence in re.split(ENDS[marks], text):
        words = [word for word in sentence.split() if re.search(r"\w", word)]
        if words and KEPT not in sentence:
            yield words


def check_pages(tally):
    """No sentence is too long, nor are they on average, nor is a page."""
    for name, (most_lines, most_words) in PAGES.items():
        text = (ROOT / name).read_text(encoding="utf-8")
        counts = [len(words) for words in sentences(text)]
        long = [" ".join(words[:9]) for words in sentences(text) if len(words) > LONGEST]
        tally.check(f"{name}: sentences of at most {LONGEST} words", not long, f"longer: {long[:5]}")
        mean = sum(counts) / max(len(counts), 1)
        tally.check(f"{name}: sentences of {MEAN} words on average", mean <= MEAN, f"{mean:.1f}")
        lines, words = len(text.splitlines()), len(text.split())
        tally.check(f"{name}: its length", lines <= (most_lines or lines) and words <= (most_words or words),
                    f"{lines} lines, {words} words")
        print(f"{name}: {lines} lines, {words} words, {mean:.1f} words a sentence, {max(counts, default=0)} in the longest")


def reached(arrows, begin):
    """What can be reached from a crate along arrows."""
    found, more = set(), {begin}
    while more:
        more = {end for one in more for end in arrows.get(one, ())} - found
        found |= more
    return found


def by_begin(pairs):
    """Arrows by where they begin."""
    found = {}
    for begin, end in pairs:
        found.setdefault(begin, set()).add(end)
    return found


def check_figure(tally):
    """Each crate but those of tests stands in the figure, above what it stands on, and no arrow is there without that."""
    figure = ROOT / "docs" / "figures"
    needs = {name: set(below.split()) for name, below in re.findall(r"^(\w+)(?: \w+)*:(.*)$", (ROOT / "crates.txt").read_text(encoding="utf-8"), re.MULTILINE)
             if not name.startswith("np_examples")}
    needs = {name: below & needs.keys() for name, below in needs.items()}
    drawn = {pair for pair in re.findall(r"^ *(\w+) -> (\w+)", (figure / "crates.dot").read_text(encoding="utf-8"), re.MULTILINE) if pair[0] in needs}
    above = by_begin(drawn)
    lacking = [f"{below} to {name}" for name in needs for below in needs[name] if name not in reached(above, below)]
    tally.check("crates.dot has an arrow or a way for each line of crates.txt", not lacking, lacking)
    untrue = [f"{below} to {name}" for below, name in drawn if below not in reached(needs, name)]
    tally.check("crates.dot has no arrow but those of crates.txt", not untrue, untrue)
    arrows = set(re.findall(r"<title>(\w+)&#45;&gt;(\w+)</title>", (figure / "crates.svg").read_text(encoding="utf-8")))
    tally.check("crates.svg is drawn of crates.dot", drawn <= arrows, f"run docs/figures/make: {sorted(drawn - arrows)}")


def doc_comments():
    """The doc comments of the sources: a file, the line where one begins, its text."""
    for path in sorted((ROOT / "crates").glob("*/src/**/*.rt")):
        block, start = [], 0
        for place, line in enumerate(path.read_text(encoding="utf-8").split("\n") + [""], 1):
            found = re.match(r"\s*//[/!] ?(.*)$", line)
            if found:
                start = start if block else place
                block.append(found.group(1))
            elif block:
                yield path.relative_to(ROOT), start, "\n".join(block)
                block = []


def check_comments(tally):
    """No sentence of a doc comment is too long, nor are they on average."""
    counts, long = [], []
    for path, line, text in doc_comments():
        for words in sentences(text, "comment"):
            counts.append(len(words))
            if len(words) > LONGEST:
                long.append(f"{path}:{line}")
    tally.check(f"doc comments: sentences of at most {LONGEST} words", not long, f"longer: {long[:5]}")
    mean = sum(counts) / max(len(counts), 1)
    tally.check(f"doc comments: sentences of {MEAN} words on average", mean <= MEAN, f"{mean:.1f}")
    print(f"doc comments: {mean:.1f} words a sentence, {max(counts, default=0)} in the longest")
