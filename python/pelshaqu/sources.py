"""Where jobs come from: job files, texts, standard input."""

from __future__ import annotations

import os
import sys
from argparse import Namespace
from typing import Sequence

from . import limits, places
from .jobs import Job
from .refusals import Refused
from .text import Parts, is_text, join, read_parts, read_startup

# A job file is judged by one record more than the longest job, as `strips` does, and a plan file likewise.
JOB_INTAKE = limits.MAX_JOB + limits.JOB_RECORD
PLAN_INTAKE = limits.MAX_PLAN + limits.PLAN_RECORD
TEXT_INTAKE = 16 * 1024 * 1024


class Unreadable(Exception):
    """A file that cannot be read, or words that do not go together."""

    def __init__(self, name: str, words: str) -> None:
        super().__init__(f"{name}: {words}" if name else words)
        self.name = name
        self.words = words


def read(name: str, most: int) -> bytes:
    """The first bytes of a file, at most so many; '-' is standard input."""
    if name == "-":
        if sys.stdin is None:
            raise Unreadable("standard input", "is closed")
        return sys.stdin.buffer.read(most)
    if os.path.isdir(name):
        raise Unreadable(name, "is a directory")
    try:
        with open(name, "rb") as file:
            return file.read(most)
    except OSError as error:
        raise Unreadable(name, (error.strerror or str(error)).lower()) from None


_SIGNATURES = (
    (b"\x89PNG", "an image (PNG)"),
    (b"\xff\xd8\xff", "an image (JPEG)"),
    (b"GIF8", "an image (GIF)"),
    (b"II*\0", "an image (TIFF)"),
    (b"MM\0*", "an image (TIFF)"),
    (b"BM", "an image (BMP)"),
    (b"%PDF", "a PDF document"),
    (b"PK\3\4", "a ZIP archive, as spreadsheets are (.xlsx, .ods): export it as CSV"),
    (b"\xd0\xcf\x11\xe0", "an old spreadsheet or document (.xls): export it as CSV"),
    (b"\x1f\x8b", "a file packed by gzip"),
    (b"\x7fELF", "a program"),
)


def looks_like(data: bytes) -> str:
    """What a file that is no job file may be."""
    for front, words in _SIGNATURES:
        if data.startswith(front):
            return words
    if is_plan(data):
        return "a plan file: its job is planned, and it is graded beside it (pelshaqu grade JOB PLAN)"
    if is_text(data):
        return "text: lines begin with machine, tile or startup, and CSV with a header (name, weight or name, speed)"
    return ""


def is_plan(data: bytes) -> bool:
    """Whether each record of 16 bytes begins where the one before ends."""
    size, end = limits.PLAN_RECORD, 0
    for at in range(0, len(data), size):
        before, after = (int.from_bytes(data[at + k : at + k + 4], "little") for k in (0, 4))
        if before != end or after < before:
            return False
        end = after
    return len(data) > 0 and len(data) % size == 0


class Source:
    """A job to be read: its name, and the bytes of its file, or the job of its texts."""

    def __init__(self, name: str, data: bytes, words: Namespace, of_text: Job | None = None) -> None:
        self.name = name
        self.data = data
        self.words = words
        self.of_text = of_text

    @property
    def notes(self) -> list[str]:
        """What was done to its numbers."""
        made = []
        if self.of_text and self.words.scale != 1:
            made.append(f"weights and start-up work are multiplied by {self.words.scale:,}, exactly; loads and times are so much greater")
        if self.of_text and self.words.scale_speeds != 1:
            made.append(f"speeds are multiplied by {self.words.scale_speeds:,}, exactly; times are so much smaller")
        return made

    def job(self) -> Job:
        """The job; raises Refused where the file is none."""
        if self.of_text:
            return self.of_text
        try:
            return Job.from_bytes(self.data[:JOB_INTAKE])
        except Refused as refusal:
            # Counts are told of the whole file.
            raise Refused(refusal.number, places.in_file(self.data, refusal.number)) from None

    def tiles(self) -> int:
        """How many tiles it has."""
        return len(self.of_text.weights) if self.of_text else self.data[:: limits.JOB_RECORD].count(places.TILE)

    def looks_like(self, number: int) -> str:
        """What the file looks like, where it is no job file."""
        return "" if self.of_text or number not in (2, 3, 7) else looks_like(self.data)


def _taken(name: str, words: Namespace) -> bytes | Parts:
    """A file: the bytes of a job file, or what a text has."""
    data = read(name, TEXT_INTAKE + 1)
    shown = "standard input" if name == "-" else name
    if name.endswith(".job") or not (is_text(data) or name.endswith((".csv", ".txt"))):
        return data
    if len(data) > TEXT_INTAKE:
        raise Unreadable(shown, f"a text of more than {TEXT_INTAKE:,} bytes")
    return read_parts(data, shown, scale=words.scale, speed_scale=words.scale_speeds)


def _of_job_file(name: str, data: bytes, words: Namespace) -> Source:
    """A job file, to which nothing that is for texts may be added."""
    defaults = {"--machines": None, "--startup": None, "--scale": 1, "--scale-speeds": 1}
    for option, default in defaults.items():
        if getattr(words, option[2:].replace("-", "_")) != default:
            raise Unreadable(name, f"this is a job file, and {option} is for jobs as text")
    return Source(name, data, words)


def _of_texts(name: str, parts: Sequence[Parts], words: Namespace) -> Source:
    """The job of one text, or of two."""
    startup = None if words.startup is None else read_startup(words.startup, scale=words.scale)
    return Source(name, b"", words, join(parts, startup=startup))


def _row(words: Namespace) -> Parts | None:
    """The machines of --machines, if it is given."""
    if words.machines is None:
        return None
    row = _taken(words.machines, words)
    if isinstance(row, bytes) or row.has_tiles or not row.has_machines:
        raise Unreadable(words.machines, "--machines wants a text of machines alone")
    return row


def gather(names: Sequence[str], words: Namespace) -> list[Source]:
    """The jobs of the files named. A file of tiles goes with the machines of --machines, or with a file of machines next to it."""
    if list(names).count("-") > 1:
        raise Unreadable("", "standard input ('-') can be read once")
    row = _row(words)
    found: list[Source] = []
    waiting: list[tuple[str, Parts]] = []
    for name in names:
        taken, shown = _taken(name, words), "standard input" if name == "-" else name
        if isinstance(taken, bytes):
            found.append(_of_job_file(shown, taken, words))
        elif row:
            found.append(_of_texts(shown, [taken, row], words))
        elif taken.has_tiles and taken.has_machines:
            found.append(_of_texts(shown, [taken], words))
        elif waiting and waiting[-1][1].has_tiles != taken.has_tiles:
            other, parts = waiting.pop()
            found.append(_of_texts(shown if taken.has_tiles else other, [parts, taken], words))
        else:
            waiting.append((shown, taken))
    for name, parts in waiting:
        lacks = "machines: name their file too, or give --machines FILE" if parts.has_tiles else "tiles: name their file too"
        raise Unreadable(name, f"it has no {lacks}")
    return found
