"""The corpora of the benchmark, made from code alone with a fixed seed; `tests` also takes the
strings of NormalizationTest.txt. Each is a whole number of lines in UTF-8."""

import random
import unicodedata

MIB = 1 << 20
SEED = 12
# What is drawn; it is then repeated in shuffled order up to the size wanted.
DRAWN = MIB // 2
# One run of non-starters has so many of them, and the corpus at most so many bytes: ICU's time is quadratic
# in the length of a run.
RUN = 4_000
RUNS_LIMIT = MIB // 2

LATIN = "abcdefghijklmnopqrstuvwxyz" * 2 + "eeeeaaaiiioooutnsr"
ACCENTED = ("àâäéèêëîïôöùûüçñáíóúýčďěňřšťůžąćęłńóśźżåãõ"
            "ăâđêôơưạảấầẩẫậắằẳẵặẹẻẽếềểễệỉĩịọỏốồổỗộớờởỡợụủũứừửữựỳỵỷỹ")
KANJI = [chr(code) for code in range(0x4E00, 0x9F00, 13)]
KANA = [chr(code) for code in [*range(0x3042, 0x3093), *range(0x30A2, 0x30F3)]]
# What Japanese text has of compatibility characters: halfwidth kana with and without voicing,
# fullwidth letters and digits, circled numbers, squared words, ideographs.
COMPATIBILITY = ([chr(code) for code in [*range(0xFF66, 0xFF9E), *range(0xFF10, 0xFF5B), *range(0x2460, 0x2474),
                                         *range(0x3300, 0x3358), *range(0xF900, 0xF930)]]
                 + [chr(code) + "\uff9e" for code in range(0xFF76, 0xFF85)])
# A script's letters, and non-starters of unlike classes, of which up to two follow a letter in any order.
POINTED = [(range(0x5D0, 0x5EB), [*range(0x5B0, 0x5BA), 0x5BC, 0x5C1, 0x5C2]),
           (range(0x628, 0x63B), range(0x64B, 0x653)),
           (range(0x915, 0x93A), [0x93C, 0x94D, 0x93F, 0x947, 0x951, 0x952]),
           (range(0x995, 0x9A9), [0x9BC, 0x9CD, 0x9C7, 0x9BE, 0x9D7]),
           (range(0xE01, 0xE2F), [0xE38, 0xE39, 0xE48, 0xE49, 0xE34])]
NON_STARTERS = [chr(code) for code in [
    *range(0x300, 0x340), *range(0x346, 0x34F), *range(0x591, 0x5BE), *range(0x64B, 0x65F),
    0x93C, 0x94D, 0xE38, 0xE48, 0xF71, 0xF72, 0xF74, 0x302A, 0x302B, 0x302C, 0x3099]]


def words(source, word, count=10, between=" ", end="."):
    """A line of that many words."""
    return between.join(word(source) for _ in range(count)) + end


def ascii_word(source):
    return "".join(source.choices(LATIN, k=source.randint(1, 10)))


def latin_word(source):
    return "".join(source.choice(ACCENTED if source.random() < 0.18 else LATIN) for _ in range(source.randint(1, 9)))


def korean_word(source):
    return "".join(chr(0xAC00 + 28 * source.randrange(399) + (source.randrange(28) if source.random() < 0.5 else 0))
                   for _ in range(source.randint(2, 4)))


def japanese_word(source):
    """Kana and kanji, one in ten words of compatibility characters."""
    letters = COMPATIBILITY if source.random() < 0.1 else KANJI if source.random() < 0.4 else KANA
    return "".join(source.choices(letters, k=source.randint(1, 6)))


def pointed_word(source):
    letters, non_starters = source.choice(POINTED)
    points = []
    for _ in range(source.randint(2, 6)):
        points += [source.choice(letters), *source.choices(non_starters, k=source.choice((0, 1, 1, 2)))]
    return "".join(map(chr, points))


def run_line(source):
    return source.choice("aeou") + "".join(source.choices(NON_STARTERS, k=RUN))


LINES = {
    "ascii": lambda source: words(source, ascii_word),
    "latin": lambda source: words(source, latin_word),
    "latin-decomposed": lambda source: unicodedata.normalize("NFD", words(source, latin_word)),
    "korean": lambda source: words(source, korean_word),
    "korean-decomposed": lambda source: unicodedata.normalize("NFD", words(source, korean_word)),
    "japanese": lambda source: words(source, japanese_word, between="", end="。"),
    "non-starters": lambda source: words(source, pointed_word),
    "runs": run_line,
}
# What `mixed` has like parts of, in bytes.
PARTS = ("ascii", "latin", "korean", "japanese", "non-starters")
NAMES = [*LINES, "mixed", "tests"]


def drawn(line, least=DRAWN):
    """Lines up to the size that is drawn."""
    source, found, size = random.Random(SEED), [], 0
    while size < least:
        found.append(line(source).encode() + b"\n")
        size += len(found[-1])
    return found


def lines_of(name, test_strings):
    """The lines that a corpus repeats."""
    if name == "tests":
        return [string.encode() + b"\n" for string in test_strings]
    if name == "mixed":
        return [line for part in PARTS for line in drawn(LINES[part], DRAWN // len(PARTS))]
    return drawn(LINES[name])


def corpus(name, size, test_strings):
    """The bytes of a corpus of about that size; None where it needs strings that aren't there."""
    if name == "tests" and not test_strings:
        return None
    lines = lines_of(name, test_strings)
    size = min(size, RUNS_LIMIT) if name == "runs" else size
    source, found, total = random.Random(SEED), [], 0
    while total < size:
        source.shuffle(lines)
        for line in lines:
            if total < size:
                found.append(line)
                total += len(line)
    return b"".join(found)
