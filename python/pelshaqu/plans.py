"""What the planner answers: bounds, shares, divisions, plans and trials."""

from __future__ import annotations

from dataclasses import dataclass
from typing import TYPE_CHECKING, NamedTuple

from .limits import PLAN_RECORD

if TYPE_CHECKING:
    from fractions import Fraction

    from .jobs import Job


class Bound(NamedTuple):
    """A load over a speed, as the planner gives it: the pair is not reduced."""

    load: int
    speed: int

    @property
    def time(self) -> Fraction:
        """Its value in units of time."""
        from fractions import Fraction  # here, since its import takes a while

        return Fraction(self.load, self.speed)

    def __str__(self) -> str:
        return f"{self.load}/{self.speed}"


@dataclass(frozen=True)
class Share:
    """What one machine takes. `first` and `last` number its tiles from 1; a machine without tiles has `last` below `first`."""

    machine: int
    name: str
    speed: int
    hold: int
    first: int
    last: int
    first_name: str
    last_name: str
    load: int

    @property
    def tiles(self) -> int:
        """How many tiles it takes."""
        return self.last - self.first + 1

    @property
    def bound(self) -> Bound:
        """Its load over its speed."""
        return Bound(self.load, self.speed)

    @property
    def time(self) -> Fraction:
        """When it has finished."""
        return self.bound.time


@dataclass(frozen=True)
class Division:
    """A division of a job: what each machine takes, and the bottleneck, the greatest load / speed."""

    job: Job
    separators: tuple[int, ...]
    plan_file: bytes
    shares: tuple[Share, ...]
    bottleneck: Bound

    @property
    def ideal(self) -> Bound:
        """All weight over all speed."""
        return self.job.ideal

    @property
    def slowest(self) -> Share:
        """The share whose bound is the bottleneck: of the lowest-numbered machine that has it."""
        return next(share for share in self.shares if share.bound == self.bottleneck)

    @property
    def imbalance(self) -> int:
        """By how many thousandths the bottleneck exceeds the ideal, rounded up; 0 where no tile weighs anything."""
        ideal = self.job.ideal
        if ideal.load == 0:
            return 0
        above = self.bottleneck.load * ideal.speed - ideal.load * self.bottleneck.speed
        return -(-1000 * above // (ideal.load * self.bottleneck.speed))

    def grade(self) -> str:
        """'best' or 'valid', by the proved grader, from the bytes of the plan file."""
        return self.job.grade(self.plan_file)


@dataclass(frozen=True)
class Plan(Division):
    """A best division, with what the method counted.

    >>> from pelshaqu import plan
    >>> made = plan([1, 3, 8], [1, 3], machine_names=['North', 'South'])
    >>> [(share.name, share.first, share.last, share.load) for share in made.shares]
    [('North', 1, 1, 1), ('South', 2, 3, 11)]
    >>> str(made.bottleneck), str(made.ideal), made.imbalance, made.count, made.allowance
    ('11/3', '12/4', 223, 2, 8)
    """

    method: int
    count: int
    allowance: int
    thousandths: int

    @property
    def imbalance(self) -> int:
        """By how many thousandths the bottleneck exceeds the ideal, rounded up, as the planner says it."""
        return self.thousandths


@dataclass(frozen=True)
class Trial:
    """What a trial at a bound says. `separators` are where each machine's share ends; the last is how far the row gets.

    Where it fits, `machines` is how many machines it came to; where it fails, `next_bid` is the least bound worth a trial.
    """

    fits: bool
    separators: tuple[int, ...]
    machines: int | None
    next_bid: Bound | None

    @property
    def reached(self) -> int:
        """How many tiles, from the first, the row takes within the bound."""
        return self.separators[-1]


def _field(data: bytes, at: int) -> int:
    return int.from_bytes(data[at : at + 4], "little")


def _share(job: Job, p: int, plan_file: bytes) -> Share:
    """The share of machine p + 1, from its record of the plan file."""
    at = PLAN_RECORD * p
    before, after = _field(plan_file, at), _field(plan_file, at + 4)
    names = job.tile_names
    ends = (names[before], names[after - 1]) if before < after else ("", "")
    return Share(p + 1, job.machine_names[p], _field(plan_file, at + 12), job.holds[p], before + 1, after, *ends, _field(plan_file, at + 8))


def division_of(
    job: Job, separators: tuple[int, ...], plan_file: bytes, bottleneck: Bound
) -> tuple[Job, tuple[int, ...], bytes, tuple[Share, ...], Bound]:
    """The fields of a division. Its shares are read from the bytes of the plan file."""
    shares = tuple(_share(job, p, plan_file) for p in range(len(job.speeds)))
    return job, separators, plan_file, shares, bottleneck
