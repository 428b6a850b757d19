"""Pelshaqu: the best division of a row of tiles among a row of machines, by a library that is proved right.

>>> from pelshaqu import plan
>>> made = plan(weights=[1, 3, 8], speeds=[1, 3])
>>> made.separators
(0, 1, 3)
>>> for share in made.shares:
...     print(f'machine {share.machine}: tiles {share.first} to {share.last}, load {share.load}, time {share.time}')
machine 1: tiles 1 to 1, load 1, time 1
machine 2: tiles 2 to 3, load 11, time 11/3
>>> str(made.bottleneck), made.imbalance, made.grade()
('11/3', 223, 'best')
"""

from __future__ import annotations

from typing import Iterable, Sequence

from .jobs import BEST, METHODS, VALID, Job, grade_bytes, listing, plan_bytes
from .library import LibraryMissing
from .plans import Bound, Division, Plan, Share, Trial
from .refusals import CAUSES, Cause, Place, Refused

__all__ = [
    "BEST", "CAUSES", "METHODS", "VALID", "Bound", "Cause", "Division", "Job", "LibraryMissing", "Place", "Plan", "Refused", "Share", "Trial",
    "grade", "grade_bytes", "halved_plan", "listing", "measure", "plan", "plan_bytes", "quick_plan", "trial",
]


def plan(
    weights: Iterable[int],
    speeds: Iterable[int],
    method: int | str = "bisection",
    *,
    holds: Iterable[int] | None = None,
    startup: int | None = None,
    tile_names: Iterable[str] | None = None,
    machine_names: Iterable[str] | None = None,
) -> Plan:
    """The best division of the tiles among the machines.

    `method` is 'table', 'bidding', 'bisection' or 'nicol'; all give the same separators, and if unsure take bisection. The other arguments
    are those of `Job`. Raises Refused where the planner refuses.

    >>> plan([4, 3, 2, 6, 1], [1, 2], method='table').separators
    (0, 1, 5)
    >>> plan([1, 3, 8], [1, 3], holds=[0, 1]).separators
    (0, 2, 3)
    >>> plan([1, 4, 4], [1, 4], startup=3).separators
    (0, 0, 3)
    """
    return Job(weights, speeds, holds, startup, tile_names, machine_names).plan(method)


def trial(
    weights: Iterable[int], speeds: Iterable[int], load: int, speed: int = 1, *, holds: Iterable[int] | None = None, startup: int | None = None
) -> Trial:
    """A trial at the bound load / speed.

    >>> trial([1, 3, 8], [1, 3], 3).next_bid
    Bound(load=11, speed=3)
    >>> trial([1, 3, 8], [1, 3], 11, 3).separators
    (0, 1, 3)
    """
    return Job(weights, speeds, holds, startup).trial(load, speed)


def measure(
    weights: Iterable[int],
    speeds: Iterable[int],
    separators: Sequence[int],
    *,
    holds: Iterable[int] | None = None,
    startup: int | None = None,
) -> Bound:
    """The bottleneck of a division.

    >>> str(measure([1, 3, 8], [1, 3], [0, 3, 3]))
    '12/1'
    """
    return Job(weights, speeds, holds, startup).measure(separators)


def quick_plan(
    weights: Iterable[int], speeds: Iterable[int], *, holds: Iterable[int] | None = None, startup: int | None = None
) -> Division:
    """The quick plan, which is seldom the best; for jobs without holds.

    >>> made = quick_plan([1, 3, 8], [1, 3])
    >>> made.separators, str(made.bottleneck), made.grade()
    ((0, 2, 3), '4/1', 'valid')
    """
    return Job(weights, speeds, holds, startup).quick_plan()


def halved_plan(
    weights: Iterable[int], speeds: Iterable[int], *, holds: Iterable[int] | None = None, startup: int | None = None
) -> Division:
    """The second quick plan, by halving the row; for jobs without holds.

    >>> halved_plan([1, 3, 8], [2, 2]).separators
    (0, 2, 3)
    """
    return Job(weights, speeds, holds, startup).halved_plan()


def grade(
    weights: Iterable[int], speeds: Iterable[int], plan_file: bytes, *, holds: Iterable[int] | None = None, startup: int | None = None
) -> str:
    """The grade of a plan file of any maker, 'best' or 'valid'.

    >>> grade([1, 3, 8], [1, 3], plan([1, 3, 8], [1, 3]).plan_file)
    'best'
    """
    return Job(weights, speeds, holds, startup).grade(plan_file)
