#!/usr/bin/env python3
"""tests/hosts/chaos.py [--seconds N] [--seed S] [--log sqlite|redis|postgres|etcd] [--form nfc|nfkc] [--caseless] [--within N] PROGRAM:
five nodes of a registry that are killed, cut off and upgraded.

PROGRAM is npss, with which the judge replays. With --caseless names that fold alike are one: they are claimed in several cases, and all that is said of
keys here is said of caseless keys. The nodes are processes of their own (chaos_node.py), whose versions are
13.0, 14.0 and 15.0 of the published files, the earlier two cut from the last. Each ends itself at a write to store or
log that the seed draws; the log's servers are killed, stopped and started again, a standby of PostgreSQL is promoted
(chaos_servers.py), and nodes are cut off from them by proxies that drop; nodes are upgraded in any order; names are claimed at all nodes at once, given up, and claimed again. Names with young
code points are claimed at nodes that have them, and old ones of the same keys at nodes that don't. Now and then the log is
trimmed, by a process that may end itself at a write as well (chaos_trim.py); no node may lack what is gone. Meanwhile and at the
end the judge has to be silent. At the end the log is trimmed once more, and a store that is made then has the same names. Nodes that read on register the same, each key has one holder and is what PROGRAM
makes under the last version, and what was answered over time can be (chaos_history.py): each key has one holder at each
moment, what was answered `registered` isn't gone without a forget, and who claimed finds it at the same node. Then come the
log's own faults (chaos_log.py): relog that is killed and called again while a node goes on, a tail that was cut off and
grown again with the same claims, a log that is brought back older, and one that lost its last record.
Prints its seed. Ends in a line 'N passed, M failed'. The modules npss and npss_registry are on PYTHONPATH.
"""

import argparse
import contextlib
import json
import random
import signal
import subprocess
import sys
import tempfile
import threading
import time
from pathlib import Path

sys.path.insert(0, str(Path(__file__).resolve().parent.parent))

import ucd
from harness import Tally, programs_in

from chaos_history import History, keys_of, try_checker
from chaos_log import check_log_faults
from chaos_servers import KINDS, MADE, Probe, Proxy, here
from chaos_trim import Trims, check_trimmed
from npss_registry import LogAway, LogBroken, Registry, Version, init
from npss_registry.judge import Judge
from npss_registry.logs import open_log
from npss_registry.records import Forget, Setup, spelled

HERE = Path(__file__).resolve().parent
NODES = 5
AGES = ((13, 0), (14, 0), (15, 0))
# A node ends at one of so many writes.
WRITES = 40
# Code points of versions 14.0 and 15.0, equivalent spellings, and what has the key of another under NFKC.
NAMES = ["Jörg", "Jo\u0308rg", "ﬁn", "fin", "Å", "\u212b", "A\u030a", "\U0001E030", "\u0430", "x\U0001E030", "x\u0430", "\u0870a",
         "\U00010570z", "\U0001E08F\u0301", "한", "\u1112\u1161\u11ab", "", "\u1ead", "a\u0323\u0302", "a\u0302\u0323", "\u0958",
         "\u0915\u093c", "\U0001D15E", "s\u0323\u0307", "s\u0307\u0323", "\u1e69", "\u0378", "\U0001FAE8", "\u0CF3\u0CF3"]
# What folds alike, is ordered while a mark that folds to a letter is one, or folds to capitals; the last four are of version 14.0.
CASES = ["JÖRG", "FIN", "FI", "STRASSE", "straße", "STRA\u1e9eE", "ΣΑΣ", "σας", "\u0130", "i\u0307", "\u1fb3\u0301", "\u1fb4",
         "\u0391\u0345\u0301", "\u03ac\u03b9", "\uab70", "\u13a0", "\u2121", "TEL", "\u212a", "\U0001d400", "\u03b1\u0345\uff9e",
         "\u03b1\u3099\u0345", "\u2c2f", "\u2c5f", "\U00010570", "\U00010597"]
# By its place in AGES a version's code points, and what has the same keys in each version, under NFKC alone: no code point
# of these versions is canonically equivalent to older ones.
PAIRS = [(1, "\uA7F2", "C"), (1, "\U00010783", "\u00e6"), (1, "x\U000107A5\u0301", "xq\u0301"), (2, "\U0001E030", "\u0430"),
         (2, "x\U0001E041", "x\u0443"), (2, "\U0001E042\u0308", "\u0444\u0308")]
# So many of the old names are claimed that were told last.
LAST = 10


class Answers:
    """What nodes answered, for the end: each name that is registered for sure, and each that may have been given up."""

    def __init__(self):
        self._lock = threading.Lock()
        self.registered = []
        self.forgets = []
        self.broken = []
        self.ends = 0
        self.history = History()

    def end(self, status):
        """How a node ended: as it was asked, at a write, or since the log was away."""
        with self._lock:
            if status not in (0, 9, 5):
                self.broken.append(f"a node ended with status {status}")

    def add(self, node, begun, asked, answer):
        self.history.add(node, (begun, time.monotonic()), asked, answer)
        with self._lock:
            if asked["do"] == "forget" and (answer is None or answer["what"] != "not registered"):
                self.forgets.append(asked["name"])
            if answer is None:
                self.ends += 1
            elif answer["what"] == "broken":
                self.broken.append(answer["why"])
            elif asked["do"] == "claim" and answer["what"] == "registered":
                self.registered.append((asked["name"], asked["owner"]))


class Node(threading.Thread):
    """Asks one node at random, and starts it again where it ended."""

    def __init__(self, number, chaos, seed):
        super().__init__()
        self.number = number
        self.chaos = chaos
        self.source = random.Random(seed)
        self.version = number % len(AGES)
        self.process = None
        # What was registered at this node.
        self.mine = []
        # When the node goes on to each version that it has not yet; some do only in the end.
        self.upgrades = sorted(chaos.begin + self.source.uniform(0.2, 1.4) * chaos.seconds for _ in AGES[self.version + 1:])

    def start_process(self, ends=True):
        number = self.source.randint(1, WRITES) if ends else 0
        words = [sys.executable, str(HERE / "chaos_node.py"), str(self.chaos.store(self.number)), str(number), str(self.source.randint(0, 1))]
        self.process = subprocess.Popen(words, stdin=subprocess.PIPE, stdout=subprocess.PIPE, text=True)
        return self.read() is not None

    def read(self):
        line = self.process.stdout.readline()
        return json.loads(line) if line else None

    def ask(self, asked):
        """The answer; None where the node ended meanwhile."""
        begun = time.monotonic()
        try:
            self.process.stdin.write(json.dumps(asked) + "\n")
            self.process.stdin.flush()
            answer = self.read()
        except (BrokenPipeError, ValueError):
            answer = None
        self.chaos.answers.add(self.number, begun, asked, answer)
        if answer and answer["what"] == "registered" and asked["do"] == "claim":
            self.mine.append(asked["name"])
        return answer

    def stop(self):
        if self.process:
            with contextlib.suppress(BrokenPipeError):  # what it died of is told by its answer, which is missing
                self.process.stdin.close()
            self.chaos.answers.end(self.process.wait())
            self.process.stdout.close()

    def drawn(self):
        """What is asked next."""
        source, chance = self.source, self.source.random()
        if self.upgrades and time.time() > self.upgrades[0]:
            return {"do": "upgrade", "files": self.chaos.files[self.version + 1]}
        name = self.cased(source.choice(self.chaos.pool) + source.choice(("", "1", "\u0301", str(source.randint(1, 30)))))
        if chance < 0.14:
            name = self.paired()
        elif chance < 0.22:
            name = source.choice(self.chaos.answers.forgets[-LAST:] or [name])
        elif chance < 0.36:
            name = self.cased(f"now {int(time.time() * 4)}")  # what other nodes claim as well
        if chance < 0.62:
            return {"do": "claim", "name": name, "owner": source.choice("abc")}
        if chance < 0.76:
            registered = self.chaos.answers.registered[-LAST:]
            return {"do": "forget", "name": source.choice(registered)[0] if registered and chance < 0.67 else name}
        if chance < 0.86:
            return {"do": "read"}
        if chance < 0.94:
            return {"do": "find", "name": source.choice(self.mine[-LAST:] or [name])}
        return {"do": "same", "left": name, "right": source.choice(self.chaos.pool)}

    def cased(self, name):
        """A name, in the case of somebody else where names that differ by case are one."""
        return self.source.choice((str, str.upper, str.lower, str.title))(name) if self.chaos.setup.caseless else name

    def paired(self):
        """A name with a young code point, where this version has it; else an old name whose key such a one has, which is parked here."""
        since, young, old = self.source.choice(PAIRS)
        if self.version >= since:
            tail = str(self.source.randint(1, 9999))
            self.chaos.old.append((since, old + tail))
            return young + tail
        return self.cased(self.source.choice([name for least, name in self.chaos.old[-LAST:] if least > self.version] or [old]))

    def run(self):
        open_now = False
        last = None
        while time.time() < self.chaos.end:
            if not open_now:
                self.stop()
                open_now = self.start_process()
                if not open_now:
                    time.sleep(0.05)
                continue
            asked = last if last and last["do"] == "claim" and self.source.random() < 0.5 else self.drawn()
            answer = self.ask(asked)
            # A claim whose answer was lost is asked again.
            last = None if answer and answer["what"] != "refused" else asked
            open_now = answer is not None and answer["what"] != "broken"
            if asked["do"] == "upgrade" and answer and answer["what"] == "upgraded":
                self.version += 1
                self.upgrades.pop(0)
        self.stop()


class Chaos:
    """Five nodes over one log."""

    def __init__(self, folder, words):
        self.folder = folder
        self.source = random.Random(words.seed)
        self.answers = Answers()
        self.pool = NAMES + CASES * words.caseless
        # Names of old code points, each with the version that has a young one of its key, which was claimed somewhere.
        self.old = []
        self.files = self._versions(words.caseless)
        self.servers = MADE[words.log](folder)
        # Each node reaches the servers in ways of its own.
        self.proxies = [[Proxy(port) for port in self.servers.ports] for _ in range(NODES)]
        drawn = self.source.choice(("nfc", "nfkc"))
        room, shards, equivalents = self.source.choice((40, 65536)), self.source.choice((1, 3)), self.source.random() < 0.2
        self.setup = Setup(words.form or drawn, room, shards, equivalents and not words.caseless, caseless=words.caseless)
        self.seconds, self.seed, self.program = words.seconds, words.seed, words.program
        self.judged = 0

    def begin_nodes(self):
        """Makes the stores, and the nodes over them, whose time begins now."""
        for number in range(NODES):
            self._init(number)
        self.begin = time.time()
        self.end = self.begin + self.seconds
        self.nodes = [Node(number, self, self.seed * 100 + number) for number in range(NODES)]
        self.probe = Probe(self.servers.name("probe"), self.end)
        self.trims = Trims(self, self.seed * 100 + NODES, WRITES)

    def _init(self, number):
        """Makes a node's store; where a busy machine's server doesn't answer in time, once more."""
        version = Version(*(Path(name).read_bytes() for name in self.files[number % len(AGES)]))
        for left in reversed(range(10)):
            try:
                init(str(self.store(number)), version, self.setup, self.log(number))
                return
            except LogAway:
                if not left:
                    raise

    def store(self, number):
        return self.folder / f"store{number}"

    def stores(self):
        return [str(self.store(number)) for number in range(NODES)]

    def log(self, number):
        return self.servers.name("chaos", [proxy.port for proxy in self.proxies[number]])

    def _versions(self, caseless):
        """The files of each version: two, or three of a caseless log."""
        files, why = ucd.package_files()
        if files is None:
            print(f"skipped: chaos over the published versions: {why}")
            Tally().finish()
        cut = [[*ucd.write_cut(files, age, self.folder)[0], ucd.write_cut_folding(files, age, self.folder)] for age in AGES[:-1]]
        last = [str(files[name]) for name in (ucd.DATA, ucd.EXCLUSIONS, ucd.FOLDING)]
        return [three if caseless else three[:2] for three in (*cut, last)]

    def run(self):
        for thread in (self.probe, self.trims, *self.nodes):
            thread.start()
        # Once at least, however short the run is.
        due = self.begin + self.source.uniform(0.1, 0.3) * self.seconds
        while time.time() < self.end:
            time.sleep(self.source.uniform(0.5, 2.0))
            if self.source.random() < 0.2 or time.time() > due:
                self.servers.trouble(self.source)
                due = self.end
            if self.source.random() < 0.15:
                self.judge_meanwhile()
            self.cut(0.15)
        self.cut(0)
        self.servers.settle()
        for thread in (*self.nodes, self.probe, self.trims):
            thread.join()

    def cut(self, chance):
        """Cuts ways of nodes, or lets them be."""
        for proxies in self.proxies:
            cut = self.source.random() < chance
            for proxy in proxies:
                proxy.drop(cut)

    def pauses(self):
        """How many seconds behind each end of whoever takes records one was taken again."""
        appends = self.probe.appends
        return [min(ended for begun, ended in appends if begun >= death) - death for death in self.servers.deaths if appends and appends[-1][0] >= death]

    def judge_meanwhile(self):
        """The judge has to be silent while nodes work, end and are upgraded."""
        try:
            judge = Judge(self.stores(), self.program)
            try:
                self.answers.broken += judge.run()
            finally:
                judge.close()
            self.judged += 1
        except LogAway:
            pass  # the way was cut


def finished(chaos):
    """Each node goes on to the last version and reads to the end: what each has registered."""
    found = []
    for node in chaos.nodes:
        if not node.start_process(ends=False):
            found.append(None)
            continue
        node.ask({"do": "read"})
        while node.version < len(AGES) - 1:
            node.version += 1
            node.ask({"do": "upgrade", "files": chaos.files[node.version]})
        node.ask({"do": "read"})
        found.append(node.ask({"do": "rows"}))
        node.stop()
    return found


def check_lost_tail(tally, chaos):
    """A log that lost its last record, or has another one in its place, is not read on. What is done here is not mended."""
    node = Registry(str(chaos.store(1)))
    name = node.store.log
    node.close()
    log = open_log(name)
    lasts = log.lasts(chaos.setup.shards)
    log.close()
    place = max(lasts)
    prefix = name.partition("#")[2] or Path(name).name
    chaos.servers.lose(prefix, lasts.index(place), place, spelled(Forget("another", 1)))
    try:
        Registry(str(chaos.store(1))).abandon()
        tally.check("a log that lost its tail is refused", False, "it is read on")
    except LogBroken as error:
        tally.same("the place of the loss", error.place, place)


def lines_of(chaos, names, program, caseless):
    """What the program npss_lines makes of names, under the last version."""
    lines = Path(program).with_name("npss_lines")
    text = b"".join(name.encode() + b"\0" for name in names)
    files = ["--caseless", *chaos.files[-1]] if caseless else chaos.files[-1][:2]
    words = [lines, "--null", "--form", chaos.setup.form, *files]
    return subprocess.run(words, input=text, stdout=subprocess.PIPE, check=False).stdout


def check_keys(tally, chaos, rows, program):
    """Each key, and each caseless key, is what the program makes of its string."""
    names = [row[1] for row in rows]
    tally.same("each key is its string's", lines_of(chaos, names, program, False), b"".join(b"=" + row[2].encode() + b"\0" for row in rows))
    if chaos.setup.caseless:
        tally.same("each caseless key is its string's", lines_of(chaos, names, program, True), b"".join(b"=" + row[5].encode() + b"\0" for row in rows))


def check_history(tally, chaos, rows, program):
    """What was answered over time can be."""
    history = chaos.answers.history
    names = history.names()
    keys = keys_of(names, lines_of(chaos, names, program, chaos.setup.caseless))
    if tally.check("each name that was answered has a key", keys is not None, names[:5]):
        tally.same("what was answered over time", history.violations(keys, chaos.setup.equivalents, {row[1]: row[3] for row in rows}), [])


def check(tally, chaos, program):
    """What has to hold in the end."""
    found = finished(chaos)
    tally.same("no node found the log broken", chaos.answers.broken, [])
    tally.check("each node opens in the end", None not in found, found)
    rows = [answer["rows"] for answer in found if answer]
    for number, other in enumerate(rows[1:], start=1):
        tally.same(f"nodes 0 and {number} register the same", other, rows[0])
    tally.same("nothing is parked under the last version", [row for row in rows[0] if row[4]], [])
    keys = [row[5] if chaos.setup.caseless else row[2] for row in rows[0]]
    tally.check("each key has one holder", chaos.setup.equivalents or len(set(keys)) == len(keys), "two have one key")
    check_keys(tally, chaos, rows[0], program)
    check_history(tally, chaos, rows[0], program)
    judge = Judge(chaos.stores(), program)
    tally.same("the judge", judge.run(), [])
    judge.close()
    check_trimmed(tally, chaos, rows[0])
    check_log_faults(tally, chaos, program)
    check_lost_tail(tally, chaos)
    answers = chaos.answers.history
    print(f"{len(answers.registered)} claims answered registered, {len(answers.forgotten)} forgets, {len(answers.found)} names found at their node")
    print(f"{chaos.judged} times judged meanwhile; in the end {judge.events} events replayed, {len(rows[0])} names registered, {chaos.answers.ends} times a node ended itself")


def main():
    parser = argparse.ArgumentParser()
    parser.add_argument("--seconds", type=float, default=180)
    parser.add_argument("--seed", type=int, default=random.SystemRandom().randrange(1_000_000))
    parser.add_argument("--log", choices=KINDS, default=here()[-1])
    parser.add_argument("--within", type=float, default=60, help="records are taken again so many seconds behind the end of whoever takes them")
    parser.add_argument("--form", choices=("nfc", "nfkc"), help="else the seed draws it")
    parser.add_argument("--caseless", action="store_true", help="the log is caseless")
    parser.add_argument("program")
    words = parser.parse_args()
    print(f"seed {words.seed}, {words.seconds} seconds over {words.log}{', caseless' if words.caseless else ''}", flush=True)
    signal.signal(signal.SIGTERM, lambda *_: sys.exit(143))
    tally = Tally()
    try_checker(tally)
    with tempfile.TemporaryDirectory() as name:
        Path(name).chmod(0o755)  # PostgreSQL runs as another user than root
        words.program = str(programs_in(Path(name), words.program))
        chaos = Chaos(Path(name), words)
        try:
            chaos.begin_nodes()
            chaos.run()
            check(tally, chaos, words.program)
            pauses = chaos.pauses()
            tally.check("records are taken again", max(pauses, default=0) <= words.within, pauses)
            print(f"{len(chaos.servers.deaths)} times whoever takes records ended; they were taken again after {max(pauses, default=0):.1f} s at most")
        finally:
            chaos.servers.close()
    tally.finish()


if __name__ == "__main__":
    main()
