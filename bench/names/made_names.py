"""The names of all benches, made from code alone with a fixed seed: the same at each call."""

import random
import unicodedata

SEED = 7
# For each script its letters, how many of 100 names have it, and the least and most letters of a name.
SCRIPTS = {
    "ASCII": ("abcdefghijklmnopqrstuvwxyz.-_0123456789", 45, 8, 16),
    "Latin": ("abcdefghijklmnopqrstuvwxyzäöüßéèñçøåš", 20, 8, 13),
    "Vietnamese": ("aăâbcdđeêghiklmnoôơpqrstuưvxyáàảãạếềểễệớờởỡợ", 8, 7, 11),
    "Cyrillic": ("абвгдежзийклмнопрстуфхцчшщъыьэюя", 8, 5, 8),
    "Greek": ("αβγδεζηθικλμνξοπρστυφχψωάέήίόύώ", 4, 5, 8),
    "Korean": ("".join(map(chr, range(0xAC00, 0xD7A4, 7))), 5, 3, 5),
    "Chinese": ("".join(map(chr, range(0x4E00, 0x9F00, 13))), 6, 3, 5),
    "Hebrew": ("אבגדהוזחטיכלמנסעפצקרשת", 2, 5, 7),
    "Devanagari": ("कखगघचछजझटठडढतथदधनपफबभमयरलवशषसह", 2, 3, 5),
}


def drawn(scripts):
    """Names of scripts, as often as each is to come, without an end."""
    source = random.Random(SEED)
    chosen = [SCRIPTS[script] for script in scripts]
    weights = [weight for _, weight, _, _ in chosen]
    while True:
        letters, _, least, most = source.choices(chosen, weights)[0]
        yield "".join(source.choices(letters, k=source.randint(least, most)))


def names(count, decomposed=6, scripts=tuple(SCRIPTS), distinct=False):
    """So many names. One in `decomposed` stands under NFD, and none where that is 0; the others stand under NFC. With
    `distinct` no two are one under NFC and `lower`."""
    found, seen = [], set()
    for name in drawn(scripts):
        if len(found) == count:
            return found
        key = unicodedata.normalize("NFC", name.lower()) if distinct else len(found)
        if key not in seen:
            seen.add(key)
            found.append(unicodedata.normalize("NFD" if decomposed and len(found) % decomposed == 0 else "NFC", name))


def lines(count, unlike):
    """So many lines with a name each, drawn from so many unlike ones."""
    among, source = names(unlike, decomposed=10, distinct=True), random.Random(SEED)
    return "".join(f"{source.choice(among)}\n" for _ in range(count)).encode()
