"""What the tests share: the repository's folder, random jobs, every division of a small job, the command run inside this process."""

from __future__ import annotations

import contextlib
import io
import os
import random
import sys
import tempfile
import unittest
from fractions import Fraction
from itertools import combinations_with_replacement
from typing import Iterator, NamedTuple
from unittest import mock

ROOT = os.path.normpath(os.path.join(os.path.dirname(os.path.abspath(__file__)), "..", ".."))
EXAMPLES = os.path.join(ROOT, "examples")
sys.path.insert(0, os.environ.get("PELSHAQU_PACKAGE", os.path.join(ROOT, "python")))

from pelshaqu import Job  # noqa: E402
from pelshaqu.command import main  # noqa: E402

NAMES = ("North", "a, b", 'say "hi"', "#5", "Über-Straße", "北 3", "semi;colon", "  blanks  ", "tab\tless".replace("\t", " "), "<&>", "=A1", "'x'", "-7", "1")


def example(name: str) -> bytes:
    """The bytes of a file of the examples."""
    with open(os.path.join(EXAMPLES, name), "rb") as file:
        return file.read()


def lines_of(*path: str) -> list[str]:
    """The lines of a text of the repository."""
    with open(os.path.join(ROOT, *path), encoding="utf-8") as file:
        return file.read().split("\n")


def random_job(rng: random.Random, tiles: int = 6, machines: int = 4, holds: bool | None = None) -> Job:
    """A small job; with holds or without, in either edition, with odd names."""
    n, p = rng.randint(0, tiles), rng.randint(1, machines)
    most = rng.choice((1, 5, 1000, 1_000_000))
    weights = [rng.randint(0, most) for _ in range(n)]
    speeds = [rng.randint(1, rng.choice((1, 3, 10_000))) for _ in range(p)]
    held = rng.random() < 0.5 if holds is None else holds
    limits = [rng.randint(0, 3) for _ in range(p)] if held else None
    startup = rng.choice((None, None, 0, 7, 1_000_000))
    names = [rng.choice(NAMES) + str(rng.randint(0, 9)) for _ in range(n + p)]
    return Job(weights, speeds, limits, startup, names[:n], names[n:])


def divisions(job: Job) -> Iterator[tuple[int, ...]]:
    """Every division of a small job that keeps its holds."""
    tiles, machines = len(job.weights), len(job.speeds)
    for inner in combinations_with_replacement(range(tiles + 1), machines - 1):
        cuts = (0, *inner, tiles)
        if all(not hold or after - before <= hold for before, after, hold in zip(cuts, cuts[1:], job.holds)):
            yield cuts


def slowest_time(job: Job, cuts: tuple[int, ...]) -> Fraction:
    """The greatest load / speed of a division."""
    worst = Fraction(0)
    for before, after, speed in zip(cuts, cuts[1:], job.speeds):
        load = sum(job.weights[before:after]) + ((job.startup or 0) if after > before else 0)
        worst = max(worst, Fraction(load, speed))
    return worst


class Said(NamedTuple):
    """What a run of the command gave."""

    status: int
    out: str
    err: str


class _Stream(io.TextIOWrapper):
    """A stream into memory that can be read after it was used."""

    def __init__(self) -> None:
        super().__init__(io.BytesIO(), encoding="utf-8", newline="")

    def said(self) -> bytes:
        """All that was written."""
        self.flush()
        return self.buffer.getvalue()  # type: ignore[attr-defined, no-any-return]


def run(*words: str, stdin: bytes = b"") -> Said:
    """The command's exit status, standard output and standard error."""
    out, err = _Stream(), _Stream()
    given = io.TextIOWrapper(io.BytesIO(stdin), encoding="utf-8")
    with contextlib.redirect_stdout(out), contextlib.redirect_stderr(err), mock.patch.object(sys, "stdin", given):
        try:
            status = main(words)
        except SystemExit as end:
            status = int(end.code or 0)
    return Said(status, out.said().decode("utf-8", "surrogateescape"), err.said().decode("utf-8"))


class InFolder(unittest.TestCase):
    """A test with a folder of its own."""

    def setUp(self) -> None:
        held = tempfile.TemporaryDirectory()
        self.addCleanup(held.cleanup)
        self.folder = held.name

    def write(self, name: str, data: str | bytes) -> str:
        """Writes a file into the folder; gives its path."""
        path = os.path.join(self.folder, name)
        with open(path, "wb") as file:
            file.write(data.encode("utf-8") if isinstance(data, str) else data)
        return path

    def read(self, name: str) -> bytes:
        """The bytes of a file of the folder."""
        with open(os.path.join(self.folder, name), "rb") as file:
            return file.read()
