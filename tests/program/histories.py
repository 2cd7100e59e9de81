"""A long history of real names over a chain of published versions, for `replay` and for the model.

Events are drawn by a fixed seed, from what the nodes of the model keep at that moment, so that each
reply of each event comes up. Keys are those of Python's `unicodedata`: names are made of code points
that it and the published files both assign, and of some that neither does.
"""

import random
import unicodedata

from models import history_model
import ucd
from harness import FORMS, run

EVENTS = {"nfc": 100_000, "nfd": 20_000, "nfkd": 20_000, "nfkc": 20_000}
NODES = 8
ROOM = 2_000
SEED = 41

LATIN = ("Zoë Renée José Łukasz Siân Åsa Björn Çağla Ștefan Željko Ñusta Dvořák Erdős Ångström Brontë Gödel Šárka "
         "Ærøskøbing Þórdís Ǆemal Ağrı Ěva Ḥasan Ṛṣi Ḷīlā Ōe Ǻse S̈eda Ḱṇi").split()
VIETNAMESE = ("Nguyễn Trần Lê Phạm Hoàng Huỳnh Võ Đặng Bùi Đỗ Hồ Ngô Dương Lý Thị Văn Hữu Đức Minh Ngọc Ánh Bảo "
              "Châu Diệu Ước Ặng Ổn Ữu").split()
KOREAN = "김민준 이서연 박지훈 최수빈 정하은 강도윤 조예준 윤서현 장지우 임시우 한강 세종 곽윤기 뷁 값 닭".split()
COMPATIBLE = "ﬁnn ＡＬＩＣＥ ＢＯＢ Ⅳ ①② ㎏ Å Ω ſam ﬃ ｶﾞﾝﾀﾞﾑ 豈更 Ǆ ½ x² ㈱山 ﷺ 가나".split()
INDIC = "क़लम ড়াজ ਸ਼ੇਰ ଡ଼ ஸ்ரீ కృష్ణ ಕೊಡಗು മോഹൻ ආදිත්‍ය བོད མྱེན་མཱ ყველა عُمَر אָשֵׁר ʼn ɸ".split()


class Names:
    """Names of code points that Python and the published files know, in any spelling."""

    def __init__(self, source, published, known, oldest):
        self.source = source
        self.fixed = [name for name in (*LATIN, *VIETNAMESE, *KOREAN, *COMPATIBLE, *INDIC)
                      if all(ord(c) in known for c in unicodedata.normalize("NFD", name) + name)]
        self.non_starters = [c for c in map(chr, sorted(known)) if unicodedata.combining(c)]
        young = list(map(chr, sorted(known - oldest)))
        self.young = [young[at:at + 100] for at in range(0, len(young), 1_000)]
        self.nowhere = [chr(code) for code in range(0x378, 0x110000, 97)
                        if code not in published.assigned and unicodedata.category(chr(code)) == "Cn"]
        self.made = [""]

    def respelled(self, name):
        """The name with each code point as it is or decomposed, and with some non-starters in another order."""
        parts = [unicodedata.normalize("NFD", c) if self.source.random() < 0.5 else c for c in name]
        text = list("".join(parts))
        for at in range(1, len(text)):
            if unicodedata.combining(text[at - 1]) and unicodedata.combining(text[at]) and self.source.random() < 0.5:
                text[at - 1], text[at] = text[at], text[at - 1]
        return "".join(text)

    def fresh(self):
        """A name of one to three words, now and then with a code point of some later version, with
        non-starters of any script, or with one that no version assigns."""
        source = self.source
        words = [source.choice(self.fixed) for _ in range(source.choice((1, 2, 2, 3)))]
        chance = source.random()
        if chance < 0.25:
            words.append("".join(source.choice(source.choice(self.young)) for _ in range(source.randint(1, 4))))
        elif chance < 0.35:
            words[0] += "".join(source.choice(self.non_starters) for _ in range(source.randint(1, 5)))
        elif chance < 0.36:
            words.append(source.choice(self.nowhere))
        return self.respelled(" ".join(words))

    def long(self):
        """A word as often as a string has room for, or once more."""
        word = self.source.choice(self.fixed)
        return word * (history_model.MOST_BYTES // len(word.encode()) + self.source.randrange(2))

    def drawn(self):
        """A fresh name, an old one, or an old one in another spelling; now and then a long one."""
        chance = self.source.random()
        if chance < 0.0001:
            return self.long()
        if chance < 0.4:
            self.made.append(self.fresh())
            return self.made[-1]
        name = self.source.choice(self.made)
        return name if chance < 0.7 else self.respelled(name)


def words_of(string):
    """The code points of a string as words of a schedule."""
    return " ".join(f"{ord(c):04X}" for c in string)


def message(form, string, key):
    """The bytes of a message; its parts are given as bytes."""
    return form + b"".join(len(part).to_bytes(4, "big") + part for part in (string, key))


def forged(source, names, world):
    """Bytes as somebody who is no node might send them: mostly with one thing wrong."""
    form, string = history_model.FORM_BYTES[world.form], names.drawn()
    key = world.key(string)
    kind = source.randrange(40)
    if kind < 5:
        key = source.choice((string, key + "a", key[1:], ""))
    elif kind < 10:
        form = source.choice((b"D", b"C", b"d", b"c", b"\0", b"x"))
    data = message(form, string.encode(), key.encode())
    if 10 <= kind < 15:
        data = data[:source.randrange(len(data))]
    elif 15 <= kind < 20:
        data += bytes(source.randrange(1, 3))
    elif 20 <= kind < 25:
        bad = string.encode() + source.choice((b"\xff", b"\xcc", b"\xed\xa0\x80", b"\xe1\xba"))
        data = message(form, bad, key.encode())
    elif kind == 25:
        if source.random() < 0.1:
            most = history_model.MOST_BYTES
            long = ((string + "a").encode() * (most + 1))[:source.choice((most, most + 1))]
            data = message(form, long, key.encode())
    return data


def drawn_event(source, names, world):
    """An event that the nodes as they are now may meet."""
    number = source.randrange(NODES)
    node, chance = world.nodes[number], source.random()
    if chance < 0.40:
        return f"accept {number} {words_of(names.drawn())}"
    if chance < 0.75:
        return f"deliver {number} {source.randrange(len(world.sent) * 21 // 20 + 2)}"
    if chance < 0.78:
        kept = source.choice(tuple(node.strings) or ("",))
        return f"forget {number} {words_of(kept if source.random() < 0.8 else names.drawn())}"
    if chance < 0.90:
        kept = source.choice(tuple(node.strings) or ("",))
        other = source.choice((names.respelled(kept), world.key(kept), source.choice(tuple(node.strings) or ("",))))
        sides = source.sample((kept, other), 2)
        return f"ask {number} {' / '.join(map(words_of, sides))}"
    if chance < 0.985:
        return f"forge {number} {forged(source, names, world).hex()}"
    if chance < 0.992:
        return f"save {number}"
    if chance < 0.996:
        return f"restart {number} {source.randrange(len(world.versions))}"
    return f"restart {number}" if chance < 0.999 else f"upgrade {number}"


def decorated(source, line):
    """The line as somebody may have written it, now and then."""
    chance = source.random()
    if chance > 0.02:
        return line + "\n"
    if chance > 0.01:
        return f" \t{line}  \r\n".replace(" ", "\t ")
    return f"# before {line}\n\t\n{line}\n"


def draw_history(published, known, versions, form):
    """A schedule, and the report that the model gives of it."""
    source = random.Random(f"{SEED} {form}")
    names = Names(source, published, known, versions[0])
    starts = [source.randrange(len(versions) // 2) for _ in range(NODES)]
    world = history_model.World(versions, form, lambda string: unicodedata.normalize(form.upper(), string), ROOM, starts)
    schedule = [f"room {ROOM}\n", f"nodes {' '.join(map(str, starts))}\n"]
    report = []
    for number in range(EVENTS[form]):
        line = drawn_event(source, names, world)
        schedule.append(decorated(source, line))
        report.append(f"{number} {world.happen(line)}")
    return "".join(schedule), [*report, *world.lines()]


def write_chain(published, ages, earlier, folder):
    """A version of each age and the published one, each as two files, and what each assigns; those that
    were published themselves in place of those cut to their age."""
    files, versions = [], []
    own = {version.name: version for version in earlier}
    for age in ages:
        names, kept = ucd.write_cut(published.files, age, folder)
        version = own.get(".".join(map(str, age)))
        assigned = version.assigned if version else published.assigned & kept
        if assigned != published.assigned:
            files += version.files if version else names
            versions.append(assigned)
    return [*files, *published.versions], [*versions, published.assigned]


def check_report(tally, form, got, want):
    """The report against the model's, line by line."""
    status, out, err = got
    tally.same(f"replay under {form}: status and standard error", (status, err), (0, b""))
    lines = out.decode().split("\n")
    tally.same(f"replay under {form}: lines of the report", len(lines), len(want) + 1)
    wrong = next(((g, w) for g, w in zip(lines, [*want, ""]) if g != w), None)
    tally.check(f"replay under {form}: each line is the model's", wrong is None, f"the first other one: {wrong}")


def check_histories(tally, program, published, ages, earlier, folder):
    """A history under each form."""
    if "DerivedAge.txt" not in published.files:
        print("skipped: histories over versions of several ages: DerivedAge.txt is not there")
        return
    files, versions = write_chain(published, ages, earlier, folder)
    tally.check("the chain of the histories has five versions", len(versions) >= 5, f"it has {len(versions)}")
    known = {code for code in published.assigned
             if unicodedata.category(chr(code)) not in ("Cn", "Cs") and code != 0x0A}
    for form in FORMS:
        schedule, want = draw_history(published, known, versions, form)
        path = folder / f"{form}.schedule"
        path.write_bytes(schedule.encode())
        check_report(tally, form, run(program, ["replay", "--form", form, str(path), *files]), want)
        print(f"{form}: {EVENTS[form]:,} events over {NODES} nodes and {len(versions)} versions, {len(want):,} lines")
