#!/usr/bin/env python3
"""tests/on_demand/chaos_plants.py [--seconds N] [NAME..] PROGRAM: plants bugs into the registry, and sees that chaos finds each.

Each bug is one edit of a copy of hosts/registry. Chaos runs over the copy, over a SQLite file and over a Redis server,
under NFC and NFKC in turn, half a minute each, and for a bug of caseless logs over such, until it fails or
N seconds are over, 180 where nobody says otherwise. First it
runs over the registry as it is, and has to pass. What chaos doesn't do is found by a test of the registry's own. On demand:
not called by ./test. Ends in a line 'N passed, M failed'.
"""

import argparse
import os
import shutil
import subprocess
import sys
import tempfile
import time
from pathlib import Path

sys.path.insert(0, str(Path(__file__).resolve().parent.parent))

from harness import ROOT, Tally, programs_in
from on_demand.planting import plant

# What chaos runs over, in turn, and its first seed, one of a registry that refuses equivalents.
RUNS, SEED = (("sqlite", "nfkc"), ("redis", "nfc"), ("sqlite", "nfc"), ("redis", "nfkc")), 3
# The bugs of which chaos has to run over a caseless log.
CASELESS = ("a parked name counts by its key", "a shard goes by the key", "names are one by their keys")
# For each bug its file, a text that stands there once, and what stands there in its place; or several of both. Behind some stands
# a test that finds it too, where a busy machine leaves chaos too few claims.
PLANTS = {
    "a transaction is split in two": ("registry.py", """                with self._writing(again=True):
                    for number, piece in pieces.items():
                        for place, outcome in self.shards[number].apply(piece).items():
                            outcomes[number, place] = outcome
""", """                for number, piece in pieces.items():
                    for one in piece:
                        with self._writing():
                            self.store.applied(number, one[0], records.sum_of(one[1]), records.sum_behind(self.shards[number]._sum, one[0], records.sum_of(one[1])))
                        with self._writing():
                            for place, outcome in self.shards[number].apply([one]).items():
                                outcomes[number, place] = outcome
"""),
    "the place is written before its records": ("shards.py", """        outcomes: dict[int, Outcome] = {}
        for place, body in piece:
""", """        outcomes: dict[int, Outcome] = {}
        if piece:
            total = self._sum
            for one in piece:
                total = records.sum_behind(total, one[0], records.sum_of(one[1]))
            self._store.applied(self.number, piece[-1][0], records.sum_of(piece[-1][1]), total)
            self._store._base.execute("COMMIT")
            self._store._base.execute("BEGIN IMMEDIATE")
            __import__("random").random() < 0.02 and __import__("os")._exit(9)
        for place, body in piece:
"""),
    "a parked record is dropped": ("shards.py", """        refused = self._take_claim(place, claim)
        new =""", """        refused = self._take_claim(place, claim)
        if refused:
            return Outcome("full")
        new =""", "Versions.test_a_record_with_a_code_point_that_is_missing_is_parked"),
    "a parked key is not counted": ("shards.py", """self._store.holder_of_key(self.number, claim.unique)""",
                                    """next((one for one in self._store.with_key(self.number, claim.unique) if one.string == claim.string or not one.parked), None)""",
                                    "Versions.test_a_lagging_node_does_not_give_away_a_key_of_a_parked_name"),
    "a forget without its place": ("shards.py", """self._store.at(self.number, forget.place)
        if""", """next((one for one in self._store.registrations(self.number) if one.string == forget.string), None)
        if"""),
    "an image with the wrong place": ("shards.py", """self._store.save(self.number, self.node.image(), self.place, self._version)""",
                                      """self._store.save(self.number, self.node.image(), max(self.place - 1, 0), self._version)"""),
    "the last record is not compared": ("shards.py", """(found is None or records.sum_of(found) != self._last)""", """found is None"""),
    "an answer before the record is read back": ("registry.py", """        outcomes = self._read_on({number for _, number, _ in publish})
""", """        return {index: Outcome("registered") for index, _, _ in publish}
"""),
    "the random bytes are left out": ("records.py", """secrets.token_bytes(_NONCE)""", """bytes(_NONCE)"""),
    "the running sum is begun anew": ("shards.py", """            self._sum = records.sum_behind(self._sum, place, self._last)
""", """            self._sum = records.sum_behind(records.NOTHING_READ, place, self._last)
"""),
    "relog doesn't apply the new log": ("relog.py", """    while piece := shard.read():
        shard.apply(piece)
        shard.check_end()
""", ""),
    "a parked name counts by its key": ("shards.py", """self._store.holder_of_key(self.number, claim.unique)""",
                                        """next((one for one in self._store.registrations(self.number)
                     if (one.key if one.parked else one.caseless) == claim.unique), None)""",
                                        "CaselessVersions.test_a_lagging_node_counts_the_caseless_key_of_a_parked_name"),
    "a shard goes by the key": ("registry.py", "self._shard_of(claim.unique), claim))", "self._shard_of(claim.key), claim))",
                                "Caseless.test_many_claims_at_once"),
    "names are one by their keys": ("records.py", """        return self.key if self.caseless is None else self.caseless

""", """        return self.key

""", "Caseless.test_names_are_one_where_their_caseless_keys_are"),
    "relog writes no end": ("relog.py", """            _write_end(log, store.setup.shards, shown(self._target))
""", ""),
}
# What chaos doesn't do, and the test of the registry's own that finds it.
TESTED = {
    "the log's name is not compared": ("registry.py", """        self._check_setup(setup_of(self.log, 0))
""", """        self._check_setup(self.setup)
""", "Setups.test_another_registrys_log_in_the_same_place"),
    "a parked flag is not compared": ("judge.py", """            self._compare_parked(course, store)
""", "", "Judging.test_a_parked_flag_is_compared"),
    "a record is not examined that comes to taken": ("examine.py", """        if self._made(False, claim.string) not in (None, claim.key):
""", """        if False:
""", "Examined.test_a_wrong_key_of_a_claim_that_comes_to_taken"),
    "a caseless key that a record carries is not compared": ("examine.py", """\
        if made not in (None, claim.caseless):
""", """        if False:
""", "CaselessLogs.test_a_wrong_caseless_key_stops_each_node_that_can_make_it"),
    "a caseless key that is parked is not its own": ("examine.py", "            made = self._made(True, claim.caseless)\n", "            return\n",
                                                     "CaselessVersions.test_a_lagging_node_parks_no_caseless_key_that_is_none"),
    "a caseless key of a parked name is not compared": ("shards.py", """            self._examiner.claim(place, claim)
            if self._take_claim""", """            if self._take_claim""", "CaselessVersions.test_a_wrong_caseless_key_of_a_parked_name_stops_the_upgrade"),
    "a claim without its caseless key is taken": ("records.py", """_text(fields["caseless"]) if caseless else None""",
                                                  """_text(fields.get("caseless") or "") if caseless else None""",
                                                  "CaselessLogs.test_a_claim_without_its_caseless_key_is_no_record"),
    "an older program reads the setup of a caseless log": ("records.py", "_SETUP, _SNAPSHOT = (2, 4), (3, 5)", "_SETUP, _SNAPSHOT = (2, 2), (3, 3)",
                                                           "CaselessLogs.test_an_older_program_reads_no_setup_of_a_caseless_log"),
    "a missing program is a faulty file": ("command.py", "InUse, NoProgram, CannotServe)):", "InUse, CannotServe)):", "Statuses.test_a_program_that_is_missing"),
    "a later store doesn't take from the log that it is caseless": ("registry.py", "caseless=setup.caseless or found.caseless)", "caseless=setup.caseless)",
                                                                    "CaselessStores.test_the_words"),
    "a snapshot has no caseless keys": ("snapshots.py", "    return row if name.caseless is None else [*row, name.caseless]\n", "    return row\n",
                                        "CaselessTrims.test_a_store_begins_with_the_caseless_keys_of_a_snapshot"),
    "a snapshot's sum leaves caseless keys out": ("records.py", "for text in name[1:] if text is not None]", "for text in name[1:4]]",
                                                  "CaselessTrims.test_what_stands_beside_the_log_has_caseless_keys"),
    "the program's caseless keys are not compared": ("judge.py", """        self._compare_caseless(shard, ledger, stores)
""", "", "CaselessJudging.test_what_another_program_makes_is_seen"),
    "a row's caseless key is not compared": ("judge.py", "    return (one.key,) if one.caseless is None else (one.key, one.caseless)\n",
                                             "    return (one.key,)\n", "CaselessJudging.test_names_that_no_version_has_in_full"),
    "a version is audited without its folding": ("registry.py", "tables.first_break(self.tables, self.setup.caseless)", "tables.first_break(self.tables)",
                                                 "CaselessVersions.test_a_version_is_audited_with_its_folding"),
    "names are the same by their keys": ("registry.py", "if first != second or self.setup.caseless:", "if first != second:",
                                         "Caseless.test_one_key_and_two_caseless_keys"),
    "a symbolic link is another store": ("lock.py", "os.path.realpath(path)", "os.path.abspath(path)", "Restarts.test_a_symbolic_link_is_the_store"),
    "a place is shown before its commit": ("logs/postgres_log.py", (
        'f"npss log {self._name}"', 'f"SELECT coalesce(max(place), 0), {SETTINGS} FROM {{table}}"'),
        ('f"npss log {id(self)}"', 'f"SELECT (extract(epoch FROM clock_timestamp()) * 1000000)::bigint, {SETTINGS}"'), "PostgresKind.test_records_become_visible_in_their_order"),
    "the barrier is left out": ("logs/postgres_cluster.py", """        with self.writing(base):
            base.execute("SELECT pg_logical_emit_message(true, 'npss', '')")
""", "", "PostgresFaults.test_what_no_standby_has_is_not_read"),
    "a wait that was cancelled is an answer": ("logs/postgres_cluster.py", "if base.warning is not None:", "if False:",
                                               "PostgresFaults.test_a_wait_that_somebody_cancels_is_no_answer"),
    "a primary without standbys is used on": ("logs/postgres_log.py", """        self._cluster.check(settings)
""", "", "PostgresSettings.test_a_primary_that_waits_for_nobody"),
    "a compare is left out": ("logs/etcd_log.py", """            "compare": [unchanged(self._tail_key(shard), tail) for shard, tail in tails.items()],
""", """            "compare": [],
""", "EtcdKind.test_records_become_visible_in_their_order"),
    "a try without an answer is made again as another one": ("logs/etcd_log.py", "if own and own[0][1][:_WORD] == word:", "if False:",
                                                             "EtcdFaults.test_what_got_no_answer_from_one_member_is_done_once"),
    "what one member alone has is read": ("logs/etcd_log.py", """self._cluster.ask("/v3/kv/range", {"key": spelled(key),""",
                                          """self._cluster.ask("/v3/kv/range", {"serializable": True, "key": spelled(key),""",
                                          "EtcdFaults.test_what_one_member_alone_has_is_not_read"),
    "what Redis is set to is looked at once": ("logs/redis_log.py", """        self._check_settings(written.pop())
""", """        written.pop()
""", "RedisSettings.test_each_setting_is_looked_at_while_a_log_is_used"),
    "a password stays in the store": ("store.py", "self.named_log = without_password(self._base, file, self.named_log)", "pass",
                                      "Passwords.test_a_store_that_holds_it_is_read_on_and_loses_it"),
    "another past is another address": ("address.py", "if total != wanted:", "if False:", "Renaming.test_a_log_of_another_past"),
    "a trim that deletes what a store lacks": ("trim.py", "self._bring(self._log.append([(shard, records.spelled(snapshot)) for shard, snapshot in enumerate(sums)]))",
                                               "self._log.append([(shard, records.spelled(snapshot)) for shard, snapshot in enumerate(sums)])",
                                               "Trimming.test_what_a_named_store_lacks_is_not_deleted"),
    "a trim without a clean check": ("trim.py", "        if findings:\n", "        if False:\n", "Trimming.test_where_the_judge_finds_something_nothing_is_written"),
    "a snapshot's sum is not compared": ("shards.py", "            self._check_sum(place, record)\n", "            pass\n", "Snapshots.test_a_wrong_sum_stops_each_node"),
    "what stands beside the log is believed": ("snapshots.py", "(snapshot.place, snapshot.names, snapshot.sum) != (place, *records.sum_of_names(names))", "False",
                                               "Snapshots.test_what_stands_beside_the_log_is_examined"),
    "the journal goes on over a snapshot": ("shards.py", """        self._store.applied(self.number, self.place, last, self._sum)
        self.begin_journal()
""", """        self._store.applied(self.number, self.place, last, self._sum)
""", "Trimming.test_names_stay_and_what_stands_before_is_gone"),
    "a log that is trimmed meanwhile is read over the gap": ("logs/protocol.py", "if at and piece[0][0] != at:", "if False:",
                                                             "SqliteKind.test_a_log_that_is_trimmed_while_it_is_read"),
    "an answer comes before the health says so": ("worker.py", ("""                self._health.records.end()
            for one, outcome in zip(asked, outcomes):
""", """                    one.answer.set_result(outcome)
"""), ("""                pass
            for one, outcome in zip(asked, outcomes):
""", """                    one.answer.set_result(outcome)
                    if isinstance(outcome, Outcome) and (outcome.new or outcome.what == "forgotten"):
                        self._health.records.end()
"""), "Healths.test_an_answer_comes_behind_what_it_tells_of_the_log"),
    "a line comes before the health says so": ("health.py", """            before, self.why = self.why, None
            if before is not None:
                LOGGER.info("%s after %.1f s", self._over, time.monotonic() - self._since)
""", """            before = self.why
            if before is not None:
                LOGGER.info("%s after %.1f s", self._over, time.monotonic() - self._since)
            self.why = None
""", "Telling.test_who_reads_a_line_finds_it_so"),
    "a file of two names is two stores": ("lock.py", """        if found.st_nlink > 1:
""", """        if False:
""", "Restarts.test_no_other_name_of_a_store_gets_round_its_lock"),
}


def copied(folder):
    """A copy of the registry."""
    return shutil.copytree(ROOT / "hosts" / "registry", Path(folder, "registry"))


def planted(folder, name):
    """A copy of the registry with a bug in it."""
    file, old, new = (PLANTS.get(name) or TESTED[name])[:3]
    copy = copied(folder)
    plant(copy / "npss_registry" / file, [(old, new)] if isinstance(old, str) else zip(old, new))
    return copy


def found_after(copy, program, seconds, *flags):
    """After how many seconds chaos failed, and the first line that tells why; None where it didn't."""
    environment = {**os.environ, "PYTHONPATH": f"{copy}:{os.environ.get('PYTHONPATH', '')}"}
    begun, seed = time.time(), SEED
    while time.time() - begun < seconds:
        for log, form in RUNS:
            words = [sys.executable, ROOT / "tests" / "hosts" / "chaos.py", "--seconds", "30", "--seed", str(seed), "--log", log, "--form", form,
                     *flags, program]
            ran = subprocess.run(list(map(str, words)), env=environment, stdout=subprocess.PIPE, stderr=subprocess.STDOUT, text=True, check=False)
            seed += 1
            if ran.returncode:
                lines = ran.stdout.splitlines()
                return round(time.time() - begun), next((line for line in lines if line.startswith("FAILED")), "".join(lines[-1:]))
    return None


def test_fails(copy, program, test):
    """Whether a test of the registry's own fails over a copy."""
    environment = {**os.environ, "PYTHONPATH": f"{copy}:{os.environ.get('PYTHONPATH', '')}"}
    words = [sys.executable, copy / "tests" / "test_registry.py", program, ROOT / "fixtures", test]
    ran = subprocess.run(list(map(str, words)), env=environment, stdout=subprocess.PIPE, stderr=subprocess.STDOUT, text=True, check=False)
    return ran.stdout.splitlines()[-1:] == ["0 passed, 1 failed"]


def main():
    parser = argparse.ArgumentParser()
    parser.add_argument("--seconds", type=float, default=180)
    parser.add_argument("--only", choices=[*PLANTS, *TESTED], action="append")
    parser.add_argument("program", type=Path)
    words = parser.parse_args()
    tally = Tally()
    beside = tempfile.TemporaryDirectory()
    words.program = programs_in(Path(beside.name), words.program)
    with tempfile.TemporaryDirectory() as folder:
        found = None if words.only else found_after(copied(folder), words.program, 1)
        if not tally.check("no bug, no failure", found is None, found):
            tally.finish()
    for name in words.only or TESTED:
        if name in TESTED:
            with tempfile.TemporaryDirectory() as folder:
                tally.check(name, test_fails(planted(folder, name), words.program, TESTED[name][3]), f"{TESTED[name][3]} passes")
    for name in words.only or PLANTS:
        if name in TESTED:
            continue
        with tempfile.TemporaryDirectory() as folder:
            found = found_after(planted(folder, name), words.program, words.seconds, *(["--caseless"] if name in CASELESS else []))
        in_time = found is not None and found[0] <= words.seconds
        if not in_time and len(PLANTS[name]) > 3:
            with tempfile.TemporaryDirectory() as folder:
                in_time = test_fails(planted(folder, name), words.program, PLANTS[name][3])
        tally.check(name, in_time, f"not found within {words.seconds} seconds")
        print(f"{name}: " + (f"found after {found[0]} seconds: {found[1][:200]}" if found else "not found"), flush=True)
    tally.finish()


if __name__ == "__main__":
    main()
