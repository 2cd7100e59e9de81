#!/usr/bin/env python3
"""Answers to the lines of a file, by the workers of Dask: the bytes that one process of npss_lines writes.

    examples/on_dask.py [--scheduler ADDRESS | --workers N] [--block BYTES] FORM DATA EXCL NAMES ANSWERS

Each worker opens the tables once, from DATA and EXCL, and reads its blocks of NAMES itself: all three stand at the same path
on each machine. Without ADDRESS the workers are N processes of this machine. The module npss is installed at all workers.
"""

from __future__ import annotations

import argparse
from collections.abc import Iterator
from dataclasses import dataclass
from pathlib import Path
from typing import BinaryIO

from dask.distributed import Client, LocalCluster, Worker, WorkerPlugin, get_worker
from npss import Tables


class Opened(WorkerPlugin):
    """The tables of a worker, opened as it starts. A Tables can't be pickled, so its files are named."""

    def __init__(self, data: str, exclusions: str) -> None:
        self.files = (data, exclusions)

    def setup(self, worker: Worker) -> None:
        worker.npss_tables = Tables.open(*self.files)


@dataclass(frozen=True)
class Block:
    """Whole lines of a file: its path, the place of the first byte, and how many bytes."""

    path: str
    first: int
    size: int


def blocks(path: str, size: int) -> Iterator[Block]:
    """A file cut at line ends, into blocks of so many bytes and the rest of a line."""
    with open(path, "rb") as file:
        first = 0
        while True:
            file.seek(first + size)
            file.readline()
            past = min(file.tell(), Path(path).stat().st_size)
            if past <= first:
                return
            yield Block(path, first, past - first)
            first = past


def answers(block: Block, form: str) -> bytes:
    """The answers to a block, by the tables of the worker that runs this."""
    with open(block.path, "rb") as file:
        file.seek(block.first)
        lines = file.read(block.size)
    return get_worker().npss_tables.answers(lines, form)


def write_answers(client: Client, form: str, cut: Iterator[Block], out: BinaryIO) -> Iterator[int]:
    """Writes the answers in the order of the lines; yields how many bytes they have, as each block is written."""
    futures = client.map(answers, list(cut), form=form, pure=False)
    futures.reverse()
    while futures:
        written = futures.pop().result()
        out.write(written)
        yield len(written)


def main() -> None:
    parser = argparse.ArgumentParser(description="Answers to the lines of a file, by the workers of Dask.")
    parser.add_argument("--scheduler", metavar="ADDRESS")
    parser.add_argument("--workers", type=int, default=4, metavar="N")
    parser.add_argument("--block", type=int, default=8 << 20, metavar="BYTES")
    parser.add_argument("form", metavar="FORM", choices=("nfd", "nfc", "nfkd", "nfkc"))
    for name in ("data", "exclusions", "names", "answers"):
        parser.add_argument(name, metavar={"exclusions": "EXCL"}.get(name, name.upper()))
    words = parser.parse_args()
    cluster = words.scheduler or LocalCluster(n_workers=words.workers, threads_per_worker=1, dashboard_address=None)
    with Client(cluster) as client, open(words.answers, "wb") as out:
        client.register_worker_plugin(Opened(words.data, words.exclusions))
        for _ in write_answers(client, words.form, blocks(words.names, words.block), out):
            pass


if __name__ == "__main__":
    main()
