"""The command `npss-registry`."""

import argparse
import contextlib
import io
import os
import sys
import traceback
from collections.abc import Callable, Sequence
from dataclasses import replace
from pathlib import Path
from typing import Any, Optional, Union

import npss
from npss import BadTables, Refused

from npss_registry import LogAway, Outcome, Registration, Registry, RegistryError, Version, init
from npss_registry.address import address_of, change_address
from npss_registry.errors import CannotServe, InUse, NoProgram, StoreAway, StoreError
from npss_registry.failures import modules, plainly
from npss_registry.judge import Judge
from npss_registry.logs import check_name
from npss_registry.opening import opened
from npss_registry.records import FORMS, Setup
from npss_registry.records import MOST_BYTES as MOST_BYTES_OF_NAME
from npss_registry.registry import MOST_SHARDS
from npss_registry.registry import described
from npss_registry.relog import relog
from npss_registry.replay import MOST_BYTES, MOST_EVENTS
from npss_registry.store import Store
from npss_registry.system_log import failed
from npss_registry.trim import PATIENCE, trim

# The statuses are those of `npss` where they mean the same.
DONE, NO, REFUSED, FAULTY, AWAY = 0, 1, 3, 4, 5
INTERRUPTED, NOBODY_READS = 130, 141
# What the places of a command are.
PLACES = {"store": "the file of the store", "data": "UnicodeData.txt of the version", "exclusions": "its CompositionExclusions.txt",
          "folding": "its CaseFolding.txt, where the log is caseless", "name": "a name", "left": "a registered name", "right": "another one",
          "to": "the new file"}

_PROGRAM = "the program npss; beside it are looked for npss_lines and npss_caseless, which a caseless log wants"


def version_of(words: argparse.Namespace) -> Version:
    """The version of the files that were named, which have to make one."""
    version = Version(*(Path(name).read_bytes() for name in (words.data, words.exclusions, words.folding) if name is not None))
    version.tables()
    return version


def name_of(word: str) -> Union[str, bytes]:
    """A name as it was typed: text, or the bytes of a word that isn't UTF-8."""
    try:
        word.encode()
    except UnicodeEncodeError:
        return os.fsencode(word)
    return word


def owner_of(word: str) -> str:
    """An owner as it was typed, which has to be text."""
    try:
        word.encode()
    except UnicodeEncodeError as error:
        raise argparse.ArgumentTypeError("an owner is UTF-8") from error
    return word


def log_of(word: str) -> str:
    """A log as it was named."""
    try:
        check_name(word)
    except StoreError as error:
        raise argparse.ArgumentTypeError(str(error)) from error
    return word


def between(least: int, most: int) -> Callable[[str], int]:
    """What reads a number as it was typed, which has to be between two others."""
    def number(word: str) -> int:
        if not word.isdecimal() or not least <= int(word) <= most:
            raise argparse.ArgumentTypeError(f"{word} is no number from {least} to {most}")
        return int(word)
    return number


def _lowered(word: str) -> Any:
    """A word of a few, in either case."""
    return word.lower()


def outcome_line(outcome: Outcome) -> str:
    """What became of a claim or a forget, as a line."""
    holder = outcome.holder
    if holder is None:
        return outcome.what
    return f"{outcome.what} {holder.string!r} of {holder.owner!r} at place {holder.place}"


def row_of(found: Registration) -> str:
    """A registration as a line, with escapes where Python spells a text by some."""
    return f"{found.place}\t{found.string!r}\t{repr(found.owner)[1:-1]}" + ("\tparked" if found.parked else "")


def _init(words: argparse.Namespace) -> int:
    setup: Optional[Setup] = None
    if any(value is not None for value in (words.form, words.room, words.shards, words.most_bytes)) or words.equivalents or words.caseless:
        setup = Setup(words.form or "nfc", 65536 if words.room is None else words.room, 1 if words.shards is None else words.shards,
                      words.equivalents, most_bytes=words.most_bytes or 0, caseless=words.caseless)
    made = init(words.store, version_of(words), setup, words.log or f"{os.path.basename(words.store)}.log")
    print(described(replace(made, name="")))
    return DONE


def _claim(words: argparse.Namespace, registry: Registry) -> int:
    outcome = registry.claim(name_of(words.name), words.owner)
    print(outcome_line(outcome))
    return DONE if outcome.what == "registered" else NO


def _forget(words: argparse.Namespace, registry: Registry) -> int:
    outcome = registry.forget(name_of(words.name), words.owner)
    print(outcome_line(outcome))
    return DONE if outcome.what == "forgotten" else NO


def _find(words: argparse.Namespace, registry: Registry) -> int:
    registry.catch_up()
    found = registry.find(name_of(words.name))
    for row in found:
        print(row_of(row))
    if not found:
        print("not registered")
    return DONE if found else NO


def _same(words: argparse.Namespace, registry: Registry) -> int:
    registry.catch_up()
    same = registry.same(name_of(words.left), name_of(words.right))
    print({None: "not registered", True: "equal", False: "different"}[same])
    return DONE if same else NO


def _list(words: argparse.Namespace, registry: Registry) -> int:
    registry.catch_up()
    for number in range(registry.setup.shards):
        for row in registry.store.registrations(number):
            print(row_of(row))
    return DONE


def _status(words: argparse.Namespace, registry: Registry) -> int:
    for status in registry.status():
        last = "unknown, the log is away" if status.last is None else status.last
        print(f"shard {status.shard}: place {status.place} of {last}, {status.registered} registered, {len(status.parked)} parked")
        for row in status.parked:
            print(f"parked: {row_of(row)}")
    print(f"node {registry.store.node}: the tables assign {registry.tables.count} code points")
    return DONE


def _upgrade(words: argparse.Namespace, registry: Registry) -> int:
    registry.catch_up()
    parked = registry.upgrade(version_of(words))
    print(f"the tables assign {registry.tables.count} code points; {len(parked)} strings are still parked")
    for row in parked:
        print(row_of(row))
    return DONE


def _backup(words: argparse.Namespace) -> int:
    store = Store(words.store, read_only=True)
    try:
        store.backup(words.to)
    finally:
        store.close()
    return DONE


def _log(words: argparse.Namespace) -> int:
    if words.log is not None:
        change_address(words.store, words.log)
    print(address_of(words.store))
    return DONE


def _relog(words: argparse.Namespace) -> int:
    done = relog(words.stores, words.log, words.source)
    for name in done.without_end:
        print(f"the old log {name} can't be reached, and has no end: see that no other machine goes on over it")
    print(f"{done.registered} strings are registered in the new log, {len(done.lost)} are lost")
    for one in done.lost:
        print(f"lost from {one.store}: {row_of(one.registration)}")
    return NO if done.lost else DONE


def _trim(words: argparse.Namespace) -> int:
    done = trim(words.stores, words.program, words.patience)
    for finding in done.findings:
        print(finding)
    if done.findings:
        print(f"nothing was deleted: {len(done.findings)} differ")
        return NO
    print(f"records deleted: {done.records}; registered names with which the log begins: {done.names}")
    return DONE


def _serve(words: argparse.Namespace) -> int:
    with modules():
        from npss_registry.serving import Serving, serve
    return serve(Serving(words.store, words.host, words.port, words.token_file, words.private, words.allow_host))


def _check(words: argparse.Namespace) -> int:
    judge = Judge(words.stores, words.program, words.most_events, words.most_bytes)
    try:
        findings = judge.run()
    finally:
        judge.close()
    for finding in findings:
        print(finding)
    if judge.unjudged:
        print(f"{len(judge.unjudged)} names were compared with the log alone: no version of these stores has all their code points")
    print(f"{judge.events} events of {len(words.stores)} stores replayed: " + (f"{len(findings)} differ" if findings else "all as they are kept"))
    return NO if findings else DONE


def parser() -> argparse.ArgumentParser:
    """The words of the command."""
    made = argparse.ArgumentParser(prog="npss-registry", description="A registry of names whose nodes run on several machines.")
    made.add_argument("--version", action="version", version=f"npss-registry {npss.__version__}")
    commands = made.add_subparsers(dest="command", required=True, metavar="COMMAND")

    def command(name: str, help: str, *places: str) -> argparse.ArgumentParser:
        one = commands.add_parser(name, help=help, description=help)
        for place in places:
            if place == "folding":
                one.add_argument(place, metavar=place.upper(), help=PLACES[place], nargs="?")
            else:
                one.add_argument(place, metavar=place.upper(), help=PLACES[place])
        return one

    one = command("init", "makes a store over a log, which it sets up where nobody has", "store", "data", "exclusions", "folding")
    one.add_argument("--log", type=log_of, help="the path of a SQLite file, relative to the store's folder, or a URL; else STORE.log")
    one.add_argument("--form", type=_lowered, choices=FORMS, help="the form of the keys; nfc where nobody says otherwise")
    one.add_argument("--room", type=between(0, 65536), help="the most strings of a shard, up to 65536")
    one.add_argument("--shards", type=between(1, MOST_SHARDS), help="how many shards, up to 1024; never to be changed")
    one.add_argument("--most-bytes", type=between(1, MOST_BYTES_OF_NAME), help="the most bytes of a name, up to 65536; 1024 where nobody says otherwise")
    alike = one.add_mutually_exclusive_group()
    alike.add_argument("--equivalents", action="store_true", help="register equivalent strings side by side, as file names")
    alike.add_argument("--caseless", action="store_true", help="names that differ by case alone are one; wants FOLDING")
    one = command("claim", "registers a name for an owner", "store", "name")
    one.add_argument("--owner", type=owner_of, required=True)
    one = command("forget", "gives a name up", "store", "name")
    one.add_argument("--owner", type=owner_of, help="only where this owner has it")
    command("find", "tells who has a name, or one that is the same", "store", "name")
    command("same", "tells whether two registered names are the same", "store", "left", "right")
    command("list", "lists the registered names, with their places and owners", "store")
    command("status", "tells how far each shard was read, and what is parked", "store")
    command("upgrade", "goes on to a later version of Unicode", "store", "data", "exclusions", "folding")
    command("backup", "copies the store into a new file", "store", "to")
    one = command("log", "tells how the store's log is named, or changes the name of the same log", "store")
    one.add_argument("log", metavar="LOG", nargs="?", type=log_of, help="another name of the log, in which all has to stand that the store has read")
    one = command("relog", "brings stores over to another log, which begins with what they have read; once more where it was cut off")
    one.add_argument("stores", metavar="STORE", nargs="+")
    one.add_argument("--log", type=log_of, required=True, help="the new log, as init names it")
    one.add_argument("--from", dest="source", metavar="STORE", help="the store whose names are taken; else the one that has read farthest")
    one = command("trim", "deletes the log's records before a snapshot, where check finds nothing and each store has read it")
    one.add_argument("stores", metavar="STORE", nargs="+")
    one.add_argument("--program", default="npss", help=_PROGRAM)
    one.add_argument("--patience", type=float, default=PATIENCE, metavar="SECONDS", help=f"how long a store may take to read the log on; else {PATIENCE:g}")
    one = command("serve", "serves the registry as JSON over HTTP, and as pages", "store")
    one.add_argument("--host", default="127.0.0.1", help="the address; else that of this machine alone")
    one.add_argument("--port", type=int, default=8765, help="the port; 0 is one that is free")
    one.add_argument("--token-file", help="a file with a line `[NAME] TOKEN [read-only]` for each token; without it nobody claims or forgets")
    one.add_argument("--private", action="store_true", help="reading wants a token too, but for /health")
    one.add_argument("--allow-host", action="append", default=[], metavar="HOST", help="another host that requests may name; may be repeated")
    one = command("check", "has `npss replay` judge what stores did")
    one.add_argument("stores", metavar="STORE", nargs="+")
    one.add_argument("--program", default="npss", help=_PROGRAM)
    one.add_argument("--most-events", type=int, default=MOST_EVENTS, help=argparse.SUPPRESS)
    one.add_argument("--most-bytes", type=int, default=MOST_BYTES, help=argparse.SUPPRESS)
    return made


# What works on a store by its registry, and what does so in another way.
RUNS = {"claim": _claim, "forget": _forget, "find": _find, "same": _same, "list": _list, "status": _status, "upgrade": _upgrade}
ALONE = {"init": _init, "backup": _backup, "log": _log, "relog": _relog, "trim": _trim, "serve": _serve, "check": _check}


def run(words: argparse.Namespace) -> int:
    """Runs the command that the words ask for; its status."""
    if words.command in ALONE:
        return ALONE[words.command](words)
    registry = opened(words.store)
    try:
        status = RUNS[words.command](words, registry)
    except BaseException:
        registry.abandon()
        raise
    registry.close()
    return status


def main(given: Optional[Sequence[str]] = None) -> int:
    """The command. Status 0: done; 1: no, or taken; 2: bad words; 3: refused; 4: a store, log or file is faulty; 5: it is away, or in use."""
    asked = parser()
    words = asked.parse_args(given)
    if words.command == "init" and words.caseless and words.folding is None:
        asked.error("init --caseless wants three files: DATA EXCLUSIONS FOLDING")
    # What is made holds names and passwords, which are the user's own.
    mask = os.umask(0o077)
    if isinstance(sys.stdout, io.TextIOWrapper):
        sys.stdout.reconfigure(errors="backslashreplace")
    try:
        with plainly(getattr(words, "store", words.command)), modules():
            status = run(words)
        if sys.stdout is not None:
            sys.stdout.flush()
        return status
    except (Exception, KeyboardInterrupt) as error:
        status, why = failure_of(error)
    finally:
        os.umask(mask)
    if why:
        with contextlib.suppress(OSError):
            print(failed(why), file=sys.stderr)
    return status


def failure_of(error: BaseException) -> tuple[int, str]:
    """The status of a failure, and a sentence; none where a pipe was closed, which ends all programs quietly."""
    if isinstance(error, Refused):
        return REFUSED, f"{type(error).__name__}: {error}"
    if isinstance(error, (LogAway, StoreAway, InUse, NoProgram, CannotServe)):
        return AWAY, str(error)
    if isinstance(error, (RegistryError, BadTables)):
        return FAULTY, str(error)
    if isinstance(error, BrokenPipeError):
        _drop_output()
        return NOBODY_READS, ""
    if isinstance(error, OSError):
        _drop_output()
        return AWAY, f"{error.filename}: {error.strerror}" if error.filename else str(error)
    if isinstance(error, MemoryError):
        return AWAY, "out of memory"
    if isinstance(error, KeyboardInterrupt):
        return INTERRUPTED, "interrupted"
    place = traceback.extract_tb(error.__traceback__)[-1]
    return FAULTY, f"a fault of npss-registry: {type(error).__name__}: {error} ({Path(place.filename).name}, line {place.lineno})"


def _drop_output() -> None:
    """What is left to be written can't be, which Python would tell once more at its end."""
    with contextlib.suppress(OSError, ValueError):
        os.dup2(os.open(os.devnull, os.O_WRONLY), sys.stdout.fileno())
