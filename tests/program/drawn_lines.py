"""Lines for caseless keys, drawn with a fixed seed: of letters that fold and of letters that don't, many of them as long as what
npss_lines looks at at once, or a byte beside."""

import random

SEED = 11
LINES = 3000

# Letters of each kind: of one to four bytes, that fold or don't, with a mark behind that composes or doesn't, and that fold to
# more letters, to a longer one, or to one of another length.
LETTERS = (
    "abc xyz", "ABC XYZ", "\u0430\u0431\u0432 ", "\u0410\u0411\u0412", "\u00e9\u00eb", "\u00c9\u00cb", "\u6771\u4eac\u3042\u30ab", "\ud55c\uad6d",
    "\U00020000\U00020001", "\U00010428", "\U00010400", "\u00df\u017f\u0130\u1e9e", "\ufb01\uff21\u2460", "\u05d0\u0627\u0905\u0e01",
)
MARKED = ("e\u0301", "E\u0301", "\u05d0\u05b0", "\u1100\u1161\u11a8", "\u03b1\u0345")

# How many bytes are looked at at once, one time after another.
LOOKED_AT = (64, 128, 250, 500, 1000)


def cut_to(line, size):
    """The front of a line of that many bytes at most, without a part of a letter."""
    return line.encode()[:size].decode(errors="ignore")


def drawn_lines():
    """So many lines, some by one way and some by another, in stretches of one way and in turns."""
    draw = random.Random(SEED)
    sizes = [0, 1, 3, 20, 40, 60, *(size + more for size in LOOKED_AT for more in (-1, 0, 1)), 2000]
    for _ in range(LINES):
        letters = draw.choices(LETTERS, k=draw.choice((1, 1, 1, 2, 3)))
        pieces = [*"".join(letters), *(draw.choice(MARKED) for _ in range(draw.choice((0, 0, 0, 1))))]
        size = draw.choice(sizes) if draw.random() < 0.2 else draw.randint(0, 60)
        line = cut_to("".join(draw.choices(pieces, k=size)), size)
        yield from [line] * draw.choice((1, 1, 2, 8))
