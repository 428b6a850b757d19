"""A job: tiles of known weight, machines of known speed; and what the planner says of it."""

from __future__ import annotations

from array import array
from dataclasses import dataclass, field
from operator import index
from typing import Iterable, Sequence

from . import limits, places
from .library import call, numbers32, octets, word32, word64, zeros
from .plans import Bound, Division, Plan, Trial, division_of
from .refusals import Refused

METHODS: dict[str, int] = {"table": 1, "bidding": 2, "bisection": 3, "nicol": 4}
BEST = "best"
VALID = "valid"
_GRADES = {1: BEST, 2: VALID}
_SECOND_EDITION = 2


def method_number(method: int | str) -> int:
    """The number of a method, given by number or name; 0, which is none, for an unknown name."""
    return METHODS.get(method, 0) if isinstance(method, str) else index(method)


def _whole(values: Iterable[int]) -> tuple[int, ...]:
    return tuple(map(index, values))


def _named(names: Iterable[str] | None, count: int, what: str) -> tuple[str, ...]:
    if names is None:
        return tuple(map(str, range(1, count + 1)))
    given = tuple(names)
    if len(given) != count:
        raise ValueError(f"{len(given)} names for {count} {what}")
    return given


@dataclass(frozen=True)
class Job:
    """Tiles and machines, each in their order along the flight line.

    `holds` has for each machine the most tiles that it can take, 0 for no limit. `startup` is None for a job of the first edition; a number,
    0 too, makes it one of the second: each machine that has tiles does so much work before its first one. Names are for people: they are
    carried through, and numbers stand in where none are given. The numbers may be out of range: the planner says so when it is asked.

    >>> job = Job([1, 3, 8], [1, 3])
    >>> job.plan().separators
    (0, 1, 3)
    >>> Job.from_bytes(job.to_bytes()) == job
    True
    """

    weights: tuple[int, ...]
    speeds: tuple[int, ...]
    holds: tuple[int, ...] = ()
    startup: int | None = None
    tile_names: tuple[str, ...] = ()
    machine_names: tuple[str, ...] = ()
    _lists: tuple[array[int], array[int], array[int]] = field(init=False, repr=False, compare=False)

    def __init__(
        self,
        weights: Iterable[int],
        speeds: Iterable[int],
        holds: Iterable[int] | None = None,
        startup: int | None = None,
        tile_names: Iterable[str] | None = None,
        machine_names: Iterable[str] | None = None,
    ) -> None:
        tiles, machines = _whole(weights), _whole(speeds)
        held = (0,) * len(machines) if holds is None else _whole(holds)
        if len(held) != len(machines):
            raise ValueError(f"{len(held)} holds for {len(machines)} machines")
        for number, hold in enumerate(held, 1):
            if not 0 <= hold <= limits.MAX_HOLD:
                raise ValueError(f"machine {number}: hold {hold}; a hold is 0 to {limits.MAX_HOLD:,}, and 0 is no limit")
        put = object.__setattr__
        put(self, "weights", tiles)
        put(self, "speeds", machines)
        put(self, "holds", held)
        put(self, "startup", None if startup is None else index(startup))
        put(self, "tile_names", _named(tile_names, len(tiles), "tiles"))
        put(self, "machine_names", _named(machine_names, len(machines), "machines"))
        put(self, "_lists", (numbers32(machines), array("H", held), numbers32(tiles)))

    @property
    def has_holds(self) -> bool:
        """Whether any machine has a limit."""
        return any(self.holds)

    @property
    def has_names(self) -> bool:
        """Whether a tile or a machine has a name that is not its number."""
        return any(name != str(i) for names in (self.tile_names, self.machine_names) for i, name in enumerate(names, 1))

    @property
    def total(self) -> int:
        """The weight of all tiles."""
        return sum(self.weights)

    @property
    def ideal(self) -> Bound:
        """All weight over all speed: no division has a smaller bottleneck."""
        return Bound(self.total, sum(self.speeds))

    def _ask(self, name: str, *words: object, method: int | None = None) -> int:
        """A call that takes the job by lists; the number that it gives."""
        front = () if method is None else (word32(method),)
        return call(name, *front, self.startup is not None, word32(self.startup or 0), *self._lists, *words)

    def test(self) -> None:
        """Raises Refused if the job is out of its limits: 16, 5, 6, 7 or 8."""
        self._answered(self._ask("pelshaqu_test_job"))

    def _answered(self, number: int, **given: object) -> None:
        """Raises the refusal, with its place, unless the number is 0."""
        if number:
            raise Refused(number, places.in_job(self, number, **given))

    def plan(self, method: int | str = "bisection") -> Plan:
        """The best division, by a method: 'table', 'bidding', 'bisection', 'nicol', or 1 to 4. All give the same separators.

        Refused: 1, 16, 5, 6, 7, 8, 17, and 18 by method 4.
        """
        chosen = method_number(method)
        separators, answer = zeros("I", len(self.speeds) + 1), zeros("Q", 5)
        work = zeros("I", 5 * (len(self.weights) + 1))
        self._answered(self._ask("pelshaqu_plan", separators, work, answer, method=chosen), method=method)
        count, allowance, load, speed, imbalance = answer
        plan_file = self._plan_file(separators)
        return Plan(
            *division_of(self, tuple(separators), plan_file, Bound(load, speed)),
            method=chosen, count=count, allowance=allowance, thousandths=imbalance,
        )

    def quick_plan(self) -> Division:
        """The quick plan: never further from the ideal than heaviest weight (with start-up work) / slowest speed.

        Refused: 16, 5, 6, 7, 8, 18.
        """
        return self._quick("pelshaqu_quick_plan")

    def halved_plan(self) -> Division:
        """The second quick plan, halving the row: for machines of one speed whose number is a power of two.

        Refused: 16, 5, 6, 7, 8, 14, 18.
        """
        return self._quick("pelshaqu_halve_row")

    def _quick(self, name: str) -> Division:
        separators, answer = zeros("I", len(self.speeds) + 1), zeros("Q", 2)
        self._answered(self._ask(name, separators, answer))
        return Division(*division_of(self, tuple(separators), self._plan_file(separators), Bound(*answer)))

    def trial(self, load: int, speed: int = 1) -> Trial:
        """Whether some division stays within the bound load / speed, and how far the row gets.

        Refused: 16, 5, 6, 7, 8, 17, 10.
        """
        separators, answer = zeros("I", len(self.speeds) + 1), zeros("Q", 3)
        given = (index(load), index(speed))
        number = self._ask("pelshaqu_trial", word64(given[0]), word64(given[1]), separators, answer)
        self._answered(number, bound=given)
        if answer[0]:
            return Trial(True, tuple(separators), answer[1], None)
        return Trial(False, tuple(separators), None, Bound(answer[1], answer[2]))

    def measure(self, separators: Sequence[int]) -> Bound:
        """The bottleneck of a division: its greatest load / speed, of the lowest-numbered machine that has it.

        Refused: 16, 5, 6, 7, 8, 9, 11.
        """
        given, answer = _whole(separators), zeros("Q", 2)
        self._answered(self._ask("pelshaqu_measure", numbers32(given), answer), separators=given)
        return Bound(*answer)

    def division(self, separators: Sequence[int]) -> Division:
        """A division by its separators, measured. Refused as `measure`."""
        given = _whole(separators)
        bottleneck = self.measure(given)
        own = given[: len(self.speeds) + 1]
        return Division(*division_of(self, own, self._plan_file(numbers32(own)), bottleneck))

    def _plan_file(self, separators: array[int]) -> bytes:
        plan, answer = zeros("B", limits.PLAN_RECORD * len(self.speeds)), zeros("Q", 1)
        self._answered(self._ask("pelshaqu_write_plan", separators, plan, answer), separators=tuple(separators))
        return plan.tobytes()[: answer[0]]

    def grade(self, plan_file: bytes) -> str:
        """'best' if no division has a smaller bottleneck than the plan, 'valid' for every other true plan.

        Refused: 16, 5, 6, 7, 8, 12, 11, 13.
        """
        answer = zeros("Q", 1)
        self._answered(self._ask("pelshaqu_grade", octets(plan_file), answer), plan_file=plan_file)
        return _GRADES[answer[0]]

    def read_plan(self, plan_file: bytes) -> Division:
        """The division of a plan file, which is graded on the way: refused as `grade`."""
        self.grade(plan_file)
        fields = [plan_file[at + 4 : at + 8] for at in range(0, len(plan_file), limits.PLAN_RECORD)]
        return self.division([0] + [int.from_bytes(four, "little") for four in fields])

    def to_bytes(self) -> bytes:
        """The job file. Refused: 16, 5, 6, 7, 8."""
        records = len(self.speeds) + len(self.weights) + (self.startup is not None)
        data, answer = zeros("B", limits.JOB_RECORD * records), zeros("Q", 1)
        self._answered(self._ask("pelshaqu_write_job", data, answer))
        return data.tobytes()[: answer[0]]

    @classmethod
    def from_bytes(cls, data: bytes) -> Job:
        """The job of a job file, which has no names. Refused: 2; 3, 4, 15, 5, 6, 16 record by record; 7; 8."""
        speeds, holds = zeros("I", limits.MAX_MACHINES), zeros("H", limits.MAX_MACHINES)
        weights, answer = zeros("I", limits.MAX_TILES), zeros("Q", 4)
        number = call("pelshaqu_read_job", octets(data), speeds, holds, weights, answer)
        if number:
            raise Refused(number, places.in_file(data, number))
        edition, startup, machines, tiles = answer
        return cls(weights[:tiles], speeds[:machines], holds[:machines], startup if edition == _SECOND_EDITION else None)


def plan_bytes(job_file: bytes, method: int | str = "bisection") -> bytes:
    """The plan file of a job file, by file: what the C function plan_job fills."""
    plan = zeros("B", limits.MAX_PLAN)
    number = call("pelshaqu_plan_job", octets(job_file), word32(method_number(method)), plan)
    if number:
        raise Refused(number, places.in_file(job_file, number, method=method))
    return plan.tobytes()[: limits.PLAN_RECORD * len(Job.from_bytes(job_file).speeds)]


def grade_bytes(job_file: bytes, plan_file: bytes) -> str:
    """The grade of a plan file beside its job file, by file: what the C function grade_plan says."""
    grade = zeros("B", 1)
    number = call("pelshaqu_grade_plan", octets(job_file), octets(plan_file), grade)
    if number:
        raise Refused(number, places.in_file(job_file, number, plan_file=plan_file))
    return _GRADES[grade[0]]


def listing(job_file: bytes) -> str:
    """The listing of a job file, as `strips` prints it; a file that is refused is listed as such."""
    text, answer = zeros("B", limits.LISTING), zeros("Q", 1)
    number = call("pelshaqu_list_job", octets(job_file), text, answer)
    if number:
        raise Refused(number)
    return text.tobytes()[: answer[0]].decode("ascii")
