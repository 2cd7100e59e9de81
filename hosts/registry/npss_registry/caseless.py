"""The caseless keys of names by the programs npss_lines and npss_caseless, by which the judge compares those of the log and of its stores."""

import os
import subprocess
from collections.abc import Iterable, Iterator, Sequence
from dataclasses import dataclass

from npss import Form

from npss_registry.errors import NoProgram, StoreError

# Names are handed to a program together, until they have so many bytes.
MOST_BYTES = 1 << 24
_LINE_END = b"!line end in key"


@dataclass(frozen=True)
class CaselessKeys:
    """The programs beside a program npss, over the three files of a version."""

    program: str
    form: Form
    files: Sequence[str]

    def answers(self, names: Iterable[str]) -> dict[str, str]:
        """What the programs answer to each name: `=` and its caseless key, or `!` and why it has none. NoProgram where one can't be run."""
        found: dict[str, bytes] = {}
        alone: list[str] = []
        lines: list[str] = []
        ended: list[str] = []
        for name in names:
            (lines if "\n" not in name else ended if "\0" not in name else alone).append(name)
        found.update(self._by_lines(lines, b"\n"))
        found.update(self._by_lines(ended, b"\0", "--null"))
        alone += [name for name, answer in found.items() if answer == _LINE_END]
        found.update((name, self._alone(name)) for name in alone)
        return {name: answer.decode(errors="replace") for name, answer in found.items()}

    def _by_lines(self, names: Sequence[str], end: bytes, *flags: str) -> Iterator[tuple[str, bytes]]:
        """What npss_lines answers to names, none of which has the byte that ends lines."""
        for part in _parts(names):
            text = b"".join(name.encode() + end for name in part)
            ran = self._run("npss_lines", [*flags, "--form", self.form, "--caseless", *self.files], text)
            *answers, rest = ran.stdout.split(end)
            if ran.returncode or rest or len(answers) != len(part):
                raise StoreError(f"{self._path('npss_lines')}: {len(answers)} answers to {len(part)} names: {_why(ran)}")
            yield from zip(part, answers)

    def _alone(self, name: str) -> bytes:
        """What npss_caseless answers to a name."""
        ran = self._run("npss_caseless", ["key", "--form", self.form, *self.files], name.encode())
        return b"=" + ran.stdout if ran.returncode == 0 else b"!" + _why(ran).encode()

    def _run(self, name: str, words: Sequence[str], text: bytes) -> "subprocess.CompletedProcess[bytes]":
        path = self._path(name)
        try:
            return subprocess.run([path, *words], input=text, stdout=subprocess.PIPE, stderr=subprocess.PIPE, check=False)
        except OSError as error:
            raise NoProgram(f"the program {path} can't be run: {error.strerror}; it is looked for beside npss, which --program names") from error

    def _path(self, name: str) -> str:
        """A program beside npss, which stands on the path where it was named without a folder."""
        return os.path.join(os.path.dirname(self.program), name)


def _why(ran: "subprocess.CompletedProcess[bytes]") -> str:
    return f"status {ran.returncode}: {ran.stderr.decode(errors='replace').strip()}"


def _parts(names: Sequence[str]) -> Iterator[list[str]]:
    """Some names, by parts that are handed over together."""
    part: list[str] = []
    size = 0
    for name in names:
        part.append(name)
        size += len(name.encode()) + 1
        if size >= MOST_BYTES:
            yield part
            part, size = [], 0
    if part:
        yield part
