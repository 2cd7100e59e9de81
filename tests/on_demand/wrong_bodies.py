#!/usr/bin/env python3
"""Calls that always answer that memory ran out, on demand: tests/on_demand/wrong_bodies.py [WORD..].

No contract says that there is memory, so the prover lets such a body pass. Here each call that can answer so gets
one in a copy of the repository, and the unit tests of its crate run there without proof (`rt try --test`): the call's
own test has to fail, by that answer. With WORDs only calls whose names have one of them. Takes a minute or two for
each call. Ends in a line 'N passed, M failed'.
"""

import re
import shutil
import subprocess
import sys
import tempfile
import time
from pathlib import Path
from typing import NamedTuple

# Nothing is written into the tree.
sys.dont_write_bytecode = True
sys.path.insert(0, str(Path(__file__).resolve().parent.parent))

from harness import ROOT, Tally


# The crates of the unit tests begin so; each library's tests are a module of one of them, of the library's name but
# for these, whose tests stand in the module of a library above or below them.
EXAMPLES = "np_examples"
TESTED_WITH = {"np_words": "np_jobs", "np_schedules": "np_world", "np_program": "np_jobs"}
HEAD = "//! Some of the examples.\n#![tactic(auto)]\n"


class Call(NamedTuple):
    """A call with its crate and file, a body that always answers that memory ran out, and the beginning of the
    name of the test that tells it."""

    name: str
    crate: str
    file: str
    answer: str
    test: str


CALLS = [
    Call("chars_of", "np_code_points", "text.rt", "Err(Memory)", "a_refused_chars_of_"),
    Call("string_of", "np_code_points", "text.rt", "Err(Memory)", "a_refused_string_of_"),
    Call("write_code", "np_code_points", "codes.rt", "Err(Memory)", "a_refused_write_code_"),
    Call("read_rows", "np_ucd", "readers.rt", "Err(UcdFault::Memory)", "a_refused_read_rows_"),
    Call("read_exclusions", "np_ucd", "readers.rt", "Err(UcdFault::Memory)", "a_refused_read_exclusions_"),
    Call("build", "np_versions", "version.rt", "Err(TableFault::Memory)", "a_refused_build_"),
    Call("new", "np_tables", "row_table.rt", "Err(Memory)", "a_refused_row_table_"),
    Call("new", "np_tables", "page_table.rt", "Err(Memory)", "a_refused_page_table_"),
    Call("form", "np_forms", "forms.rt", "Err(Memory)", "a_refused_form_"),
    Call("npss", "np_forms", "stabilized.rt", "Err(NpssFault::Memory)", "a_refused_npss_"),
    Call("into_npss", "np_forms", "stabilized.rt", "Err(NpssFault::Memory)", "a_refused_into_npss_"),
    Call("is_form", "np_forms", "forms.rt", "Err(Memory)", "a_refused_is_form_"),
    Call("is_stream_safe", "np_forms", "stream_safety.rt", "Err(Memory)", "thirty_non_starters_"),
    Call("equivalent", "np_forms", "equivalence.rt", "Err(Memory)", "a_refused_equivalent_"),
    Call("feed", "np_forms", "streams.rt", "Err(Memory)", "a_refused_feed_"),
    Call("finish", "np_forms", "streams.rt", "Err(Memory)", "a_refused_finish_"),
    Call("run", "np_forms", "runs.rt", "Err(RunFault::Memory)", "a_refused_run_"),
    Call("answer_bytes", "np_lines", "whole.rt", "Err(Memory)", "a_refused_answer_bytes_"),
    Call("audit", "np_chain", "audits.rt", "Err(Memory)", "a_refused_audit_"),
    Call("accept", "np_node", "accepting.rt", "Err(NodeFault::Memory)", "a_refused_accept_"),
    Call("keep_string", "np_node", "accepting.rt", "Err(NodeFault::Memory)", "a_refused_keep_string_"),
    Call("spell", "np_node", "lent_messages.rt", "Err(Memory)", "a_refused_spell_"),
    Call("take", "np_node", "taking.rt", "Err(NodeFault::Memory)", "a_refused_take_"),
    Call("image", "np_node", "images.rt", "Err(Memory)", "a_refused_image_"),
    Call("restore", "np_node", "restoring.rt", "Err(whole(NodeFault::Memory))", "a_refused_restore_"),
    Call("read_schedule", "np_schedules", "reading.rt", "Err(ScheduleFault::Memory)", "a_refused_read_schedule_"),
    Call("replay", "np_world", "replays.rt", "Err(Memory)", "a_refused_replay_"),
    Call("report_text", "np_world", "report_texts.rt", "Err(Memory)", "a_refused_report_text_"),
    Call("parse", "np_words", "parsing.rt", "Err(WordsFault::Memory)", "a_refused_parse_"),
    Call("normalize_job", "np_jobs", "normalize.rt", "6", "normalize_answers_the_worked_examples"),
    Call("key_job", "np_jobs", "key.rt", "6", "key_answers_the_worked_examples"),
    Call("compare_job", "np_jobs", "compare.rt", "6", "compare_answers_the_worked_examples"),
    Call("audit_job", "np_jobs", "audit.rt", "6", "audit_answers_the_worked_examples"),
    Call("replay_job", "np_program", "replay.rt", "6", "scripts_have_their_reports"),
]


def with_body(text, name, answer):
    """The source with a first line in the body of a public function, by which it always answers this."""
    head = re.search(rf"^ *pub fn {name}\b", text, re.MULTILINE)
    # the body begins behind the clauses, which each of these calls has
    brace = re.compile(r"^ *\{$", re.MULTILINE).search(text, head.start())
    return f"{text[:brace.end()]}\n    return {answer};{text[brace.end():]}"


def failure_of(out, test):
    """The lines that a run of unit tests prints of a test that failed, or nothing."""
    found = re.search(rf"^test (?:\w+::)*{test}\w* \.\.\. FAILED\n((?:    .*\n)*)", out, re.MULTILINE)
    return found[0] if found else ""


def leave_examples(folder, crate):
    """Leaves of the unit tests those of one library."""
    module = TESTED_WITH.get(crate, crate).removeprefix("np_")
    tests = next((ROOT / "crates").glob(f"{EXAMPLES}*/src/{module}.rt")).parent
    examples = folder / "crates" / tests.parent.name
    shutil.rmtree(examples / "src")
    # a file that no module names is refused
    shutil.copytree(tests, examples / "src",
                    ignore=lambda at, names: [it for it in names if Path(at).name == "src" and Path(it).stem != module])
    (examples / "src" / "lib.rt").write_text(f"{HEAD}#[cfg(test)]\nmod {module};\n", encoding="utf-8")
    return examples


def check(tally, folder, call):
    """The call's test fails where the call always answers that memory ran out."""
    path = folder / "crates" / call.crate / "src" / call.file
    right = path.read_text(encoding="utf-8")
    path.write_text(with_body(right, call.name, call.answer), encoding="utf-8")
    began = time.monotonic()
    done = subprocess.run(["rt", "try", "--test"], cwd=leave_examples(folder, call.crate), stdin=subprocess.DEVNULL,
                          stdout=subprocess.PIPE, stderr=subprocess.STDOUT, text=True, check=False)
    path.write_text(right, encoding="utf-8")
    failure = failure_of(done.stdout, call.test)
    passed = tally.check(f"{call.crate}: {call.name} always wants memory", failure, done.stdout[-500:])
    print(f"{call.crate}, {call.file}: {call.name}: {'refused' if passed else 'passes'} after"
          f" {time.monotonic() - began:.0f} s {' '.join(failure.split())[:160]}", flush=True)


def main():
    tally = Tally()
    wanted = [call for call in CALLS if not sys.argv[1:] or any(word in f"{call.crate}::{call.name}" for word in sys.argv[1:])]
    with tempfile.TemporaryDirectory() as name:
        folder = Path(name) / "copy"
        # the libraries that earlier checks built come along, so that the crates below are not proved anew
        shutil.copytree(ROOT, folder, symlinks=True, ignore=shutil.ignore_patterns(".git", "incremental"))
        for call in wanted:
            check(tally, folder, call)
    tally.finish()


if __name__ == "__main__":
    main()
