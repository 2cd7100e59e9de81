"""Draws histories.svg and registry.svg: boxes on a grid, and arrows whose labels stand beside them."""

from html import escape
from pathlib import Path

HERE = Path(__file__).resolve().parent
# A box's size, the room to its neighbours, and the margin.
WIDTH, HEIGHT, ACROSS, DOWN, MARGIN = 156, 40, 222, 84, 8
# The fill, the line and the corner of a box.
KINDS = {"state": ("#e8eef7", "#5b7fae", 10), "note": ("#f6f1e4", "#b59a5a", 0), "parked": ("#f7e6e0", "#b5704f", 10)}
INK, LINE = "#1b2b40", "#7f8fa6"


class Figure:
    """Boxes by names, each in a column and a row, which need not be whole numbers."""

    def __init__(self, title):
        self.title, self.boxes, self.parts, self.right, self.bottom = title, {}, [], 0, 0

    def reach(self, x, y):
        self.right, self.bottom = max(self.right, x), max(self.bottom, y)

    def text(self, x, y, line, anchor="middle", size=10, colour=LINE):
        self.parts.append(f'<text x="{x:g}" y="{y:g}" text-anchor="{anchor}" font-size="{size}" fill="{colour}">{escape(line)}</text>')

    def box(self, name, column, row, text, kind="state"):
        x, y = MARGIN + ACROSS * column + WIDTH / 2, MARGIN + DOWN * row + HEIGHT / 2
        self.boxes[name] = x, y
        fill, line, corner = KINDS[kind]
        self.parts.append(f'<rect x="{x - WIDTH / 2:g}" y="{y - HEIGHT / 2:g}" width="{WIDTH}" height="{HEIGHT}" rx="{corner}" '
                          f'fill="{fill}" stroke="{line}"/>')
        lines = text.split("\n")
        for at, one in enumerate(lines):
            self.text(x, y + 4 + 13 * (at - (len(lines) - 1) / 2), one, size=11, colour=INK)
        self.reach(x + WIDTH / 2, y + HEIGHT / 2)

    def path(self, points, dashed=False, head=True):
        way = " ".join(f"{x:g},{y:g}" for x, y in points)
        more = (' stroke-dasharray="5,3"' if dashed else "") + (' marker-end="url(#head)"' if head else "")
        self.parts.append(f'<polyline points="{way}" fill="none" stroke="{LINE}"{more}/>')

    def across(self, one, other, label, dashed=False):
        """An arrow to a box on the right; each line of its label stands above it."""
        (x, y), (to, _) = self.boxes[one], self.boxes[other]
        begin, end = x + WIDTH / 2, to - WIDTH / 2
        self.path([(begin, y), (end - 2, y)], dashed)
        lines = label.split("\n")
        for at, line in enumerate(lines):
            self.text((begin + end) / 2 - 3, y - 6 - 12 * (len(lines) - 1 - at), line)

    def down(self, one, other, label, dashed=True):
        """An arrow to a box below; its label stands right of it."""
        (x, y), (_, to) = self.boxes[one], self.boxes[other]
        self.path([(x, y + HEIGHT / 2), (x, to - HEIGHT / 2 - 2)], dashed)
        self.text(x + 7, (y + to) / 2 + 4, label, "start")

    def over(self, one, other, label, dashed=True):
        """An arrow that leaves a box by its upper or right side, with one corner."""
        (x, y), (to, beside) = self.boxes[one], self.boxes[other]
        if beside < y:
            self.path([(x, y - HEIGHT / 2), (x, beside), (to - WIDTH / 2 - 2, beside)], dashed)
            self.text((x + to - WIDTH / 2) / 2, beside - 6, label)
        else:
            self.path([(x + WIDTH / 2, y), (to, y), (to, beside - HEIGHT / 2 - 2)], dashed)
            self.text((x + WIDTH / 2 + to) / 2, y - 6, label)

    def read(self, one, others):
        """A record is read: a dashed line down, left of the boxes, with an arrow into each."""
        x, y = self.boxes[one]
        left, below, last = x - WIDTH / 2, y + HEIGHT / 2, self.boxes[others[-1]][1]
        trunk = left - 22
        self.path([(left + 14, below), (left + 14, below + 15), (trunk, below + 15), (trunk, last)], True, False)
        self.text(left + 21, below + 16, "read", "start")
        for other in others:
            self.path([(trunk, self.boxes[other][1]), (left - 2, self.boxes[other][1])])

    def written(self):
        width, height = self.right + MARGIN, self.bottom + MARGIN
        head = (f'<svg xmlns="http://www.w3.org/2000/svg" width="{width:g}" height="{height:g}" viewBox="0 0 {width:g} {height:g}" '
                f'font-family="Helvetica,Arial,sans-serif">\n<title>{escape(self.title)}</title>\n'
                f'<defs><marker id="head" markerWidth="10" markerHeight="8" refX="8" refY="4" orient="auto">'
                f'<path d="M0,0 L10,4 L0,8 z" fill="{LINE}"/></marker></defs>\n')
        return head + "\n".join(self.parts) + "\n</svg>\n"


def histories():
    """Two nodes that exchange, save, upgrade and restart. U+FB01 is written so, since fonts draw it as its two letters."""
    figure = Figure("Two nodes under NFKC that exchange, save, upgrade, restart and forget")
    figure.box("image", 2.5, 0, "image: fa / fa\nneeds version 0's count", "note")
    for at, (version, kept) in enumerate(((0, "no entries"), (0, "fa / fa"), (0, "fa / fa, U+FB01 / fi"), (1, "fa / fa, U+FB01 / fi"), (1, "fa / fa"))):
        figure.box(f"home{at}", at, 1, f"node 0, version {version}\n{kept}")
    for at, kept in enumerate(("no entries", "fa / fa", "fa / fa, U+FB01 / fi", "U+FB01 / fi")):
        figure.box(f"away{at}", at, 2, f"node 1, version 1\n{kept}")
    for at, label in enumerate(("accept fa", "accept\nU+FB01", "upgrade:\nkeys stay", "restart")):
        figure.across(f"home{at}", f"home{at + 1}", label)
    for at, label in enumerate(("deliver", "deliver", "forget fa")):
        figure.across(f"away{at}", f"away{at + 1}", label)
    figure.down("home1", "away1", "message 0")
    figure.down("home2", "away2", "message 1")
    figure.over("home1", "image", "save")
    figure.over("image", "home4", "restart")
    return figure


def registry():
    """The log, three nodes of two versions, a parked record, an upgrade."""
    figure = Figure("One log under NFKC, read by three nodes of two versions: one parks a record, and takes it after its upgrade")
    asked = ("init, form NFKC\nat node 1", "claim Zo\u00eb, owner 17\nat node 1", "claim U+1E030, owner 23\nat node 2")
    records = ("record 1\nform NFKC", "record 2: Zo\u00eb, 17\nkey Zo\u00eb", "record 3: U+1E030, 23\nkey U+0430")
    kept = ("no names", "Zo\u00eb is 17's", "U+1E030 is 23's")
    for at in range(3):
        figure.box(f"asked{at}", at + 0.15, 0, asked[at], "note")
        figure.box(f"record{at}", at + 0.15, 0.95, records[at])
        for node, version in ((1, "15.0"), (2, "15.0"), (3, "14.0")):
            parks = (node, at) == (3, 2)
            figure.box(f"{node}.{at}", at + 0.15, 1.25 + 0.65 * node, f"node {node}, {version}\n{'U+1E030 is parked' if parks else kept[at]}",
                       "parked" if parks else "state")
    figure.box("3.3", 3.15, 3.2, "node 3, 14.0\nU+0430 is taken", "parked")
    figure.box("3.4", 4.15, 3.2, "node 3, 15.0\nU+1E030 is 23's")
    for at in range(3):
        figure.down(f"asked{at}", f"record{at}", "append", False)
        figure.read(f"record{at}", [f"{node}.{at}" for node in (1, 2, 3)])
    figure.across("record0", "record1", "the log")
    figure.across("record1", "record2", "the log")
    figure.across("3.2", "3.3", "claim\nU+0430")
    figure.across("3.3", "3.4", "upgrade")
    return figure


def main():
    for figure in (histories, registry):
        (HERE / f"{figure.__name__}.svg").write_text(figure().written(), encoding="utf-8")


if __name__ == "__main__":
    main()
