"""Where a refusal happened. The library gives the number; this finds the record, machine or tile, for people to look at."""

from __future__ import annotations

from typing import TYPE_CHECKING, Callable, Sequence

from . import limits
from .refusals import Place

if TYPE_CHECKING:
    from .jobs import Job

_SPEED = f"a speed is 1 to {limits.MAX_SPEED:,}"
_WEIGHT = f"a weight is 0 to {limits.MAX_WEIGHT:,}"
_STARTUP = f"start-up work is 0 to {limits.MAX_STARTUP:,}"
_MACHINES = f"a row has 1 to {limits.MAX_MACHINES} machines"
_TILES = f"a job has at most {limits.MAX_TILES:,} tiles"
_METHOD = "a method is 1 table, 2 bidding, 3 bisection or 4 nicol"
MACHINE, TILE, STARTUP = 1, 2, 3
_KINDS = {MACHINE: "machine", TILE: "tile", STARTUP: "start-up work"}


def counted(count: int, what: str) -> str:
    """A number of things, in words."""
    return f"{count:,} {what}" + ("" if count == 1 else "s")


def _named(what: str, number: int, name: str) -> str:
    """A machine or tile by its number, and by its name if it has one of its own."""
    return f"{what} {number}" + ("" if name == str(number) else f" '{name}'")


def _machine(job: Job, p: int) -> str:
    return _named("machine", p + 1, job.machine_names[p])


def _first(values: Sequence[int], good: Callable[[int], bool]) -> int | None:
    return next((i for i, value in enumerate(values) if not good(value)), None)


def _speed(job: Job) -> Place | None:
    p = _first(job.speeds, lambda e: 1 <= e <= limits.MAX_SPEED)
    return None if p is None else Place(_machine(job, p), f"speed {job.speeds[p]}", _SPEED)


def _weight(job: Job) -> Place | None:
    i = _first(job.weights, lambda w: 0 <= w <= limits.MAX_WEIGHT)
    return None if i is None else Place(_named("tile", i + 1, job.tile_names[i]), f"weight {job.weights[i]}", _WEIGHT)


def _unequal(job: Job) -> Place:
    p = _first(job.speeds, lambda e: e == job.speeds[0])
    if p is not None:
        return Place(_machine(job, p), f"speed {job.speeds[p]}", f"all speeds are equal, as machine 1's, {job.speeds[0]}")
    return Place("the row", counted(len(job.speeds), "machine"), "their number is a power of two: 1, 2, 4, 8, 16, 32 or 64")


def _held(job: Job) -> Place | None:
    p = _first(job.holds, lambda hold: hold == 0)
    return None if p is None else Place(_machine(job, p), f"hold {job.holds[p]}", "method 4 and the quick plans want no holds")


def _short(job: Job) -> Place:
    found = f"they hold {sum(job.holds):,} of {counted(len(job.weights), 'tile')}"
    return Place("all machines together", found, "more machines, greater holds, or a machine without a limit (hold 0)")


def _division(job: Job, separators: Sequence[int]) -> Place | None:
    """Where the separators stop being a division."""
    tiles, machines = len(job.weights), len(job.speeds)
    own = separators[: machines + 1]
    if own[0] != 0:
        return Place("separator s0", str(own[0]), "it is 0")
    for p, (before, after) in enumerate(zip(own, own[1:]), 1):
        what = f"separator s{p}"
        if after < before:
            return Place(what, str(after), f"it is not below s{p - 1}, {before}")
        if after > tiles:
            return Place(what, str(after), f"there are {counted(tiles, 'tile')}")
        if job.holds[p - 1] and after - before > job.holds[p - 1]:
            return Place(_machine(job, p - 1), counted(after - before, "tile"), f"it holds {job.holds[p - 1]}")
    return Place(f"separator s{machines}", str(own[-1]), f"it is the number of tiles, {tiles}") if own[-1] != tiles else None


def _fields(record: bytes) -> list[int]:
    return [int.from_bytes(record[at : at + 4], "little") for at in range(0, len(record), 4)]


def _records(data: bytes, size: int) -> list[bytes]:
    return [data[at : at + size] for at in range(0, len(data) - size + 1, size)]


def _plan_division(job: Job, plan_file: bytes) -> Place | None:
    """Where the records of a plan file are no division."""
    end, records = 0, [_fields(record) for record in _records(plan_file, limits.PLAN_RECORD)]
    for p, (before, after, _, _) in enumerate(records):
        if before != end:
            allowed = f"it is {end}, where the record before ends" if p else "it is 0"
            return Place(f"plan record {p + 1}, {_machine(job, p)}, its first separator", str(before), allowed, p + 1)
        end = after
    return _division(job, [0] + [record[1] for record in records])


def _untrue(job: Job, plan_file: bytes) -> Place | None:
    """The first record of a plan file whose load or speed is untrue."""
    for p, record in enumerate(_records(plan_file, limits.PLAN_RECORD)):
        before, after, load, speed = _fields(record)
        true = sum(job.weights[before:after]) + ((job.startup or 0) if before < after else 0)
        what = f"plan record {p + 1}, {_machine(job, p)}"
        if load != true:
            return Place(what, f"load {load}", f"its tiles have {true}", p + 1)
        if speed != job.speeds[p]:
            return Place(what, f"speed {speed}", f"its speed is {job.speeds[p]}", p + 1)
    return None


def _bound(bound: tuple[int, int]) -> Place:
    load, speed = bound
    if not 0 <= load <= limits.MAX_BOUND_LOAD:
        return Place("the bound's load", str(load), f"it is 0 to {limits.MAX_BOUND_LOAD:,}")
    return Place("the bound's speed", str(speed), f"it is 1 to {limits.MAX_BOUND_SPEED:,}")


def in_job(job: Job, number: int, **given: object) -> Place | None:
    """Where a job by lists was refused; `given` is what the call took beside it."""
    machines, separators, plan_file = len(job.speeds), given.get("separators"), given.get("plan_file")
    if number == 1:
        return Place("the method", str(given.get("method")), _METHOD)
    if number == 9 and isinstance(separators, tuple):
        return Place("the separators", f"{len(separators)} numbers", f"{counted(machines, 'machine')} have {machines + 1}")
    if number == 10 and isinstance(given.get("bound"), tuple):
        return _bound(given["bound"])  # type: ignore[arg-type]
    if number == 12 and isinstance(plan_file, bytes):
        return Place("the plan file", counted(len(plan_file), "byte"), f"{counted(machines, 'machine')} have {16 * machines}")
    if number == 11:
        return _plan_division(job, plan_file) if isinstance(plan_file, bytes) else _division(job, separators)  # type: ignore[arg-type]
    if number == 13 and isinstance(plan_file, bytes):
        return _untrue(job, plan_file)
    finders: dict[int, Callable[[Job], Place | None]] = {
        5: _speed,
        6: _weight,
        7: lambda job: Place("the row", counted(machines, "machine"), _MACHINES),
        8: lambda job: Place("the strip", counted(len(job.weights), "tile"), _TILES),
        14: _unequal,
        16: lambda job: Place("the start-up work", str(job.startup), _STARTUP),
        17: _short,
        18: _held,
    }
    return finders[number](job) if number in finders else None


def _record_fault(record: bytes, first: bool, after_tile: bool) -> tuple[int, str, str] | None:
    """What is wrong with one record: the number, what stands there, what may."""
    kind, (front, value) = record[0], _fields(record)
    if kind not in _KINDS:
        return 3, f"byte 0, the kind, is {kind}", "a kind is 1 machine, 2 tile or 3 start-up work"
    if record[1]:
        return 3, f"byte 1 is {record[1]}", "byte 1 is zero"
    if kind != MACHINE and front >> 16:
        return 3, f"bytes 2 and 3 are {front >> 16}", f"they are zero in a record of a {_KINDS[kind]}"
    if kind == MACHINE and after_tile:
        return 4, "a machine after a tile", "machines come before tiles"
    if kind == STARTUP and not first:
        return 15, "start-up work", "it stands in the first record, once"
    if kind == MACHINE and not 1 <= value <= limits.MAX_SPEED:
        return 5, f"speed {value}", _SPEED
    if kind == TILE and value > limits.MAX_WEIGHT:
        return 6, f"weight {value}", _WEIGHT
    if kind == STARTUP and value > limits.MAX_STARTUP:
        return 16, f"start-up work {value}", _STARTUP
    return None


def _faulty_record(data: bytes, number: int) -> Place | None:
    """The first record of a job file with a fault, if that has the number."""
    machines = tiles = 0
    for at, record in enumerate(_records(data, limits.JOB_RECORD)):
        fault = _record_fault(record, at == 0, tiles > 0)
        machines += record[0] == MACHINE
        tiles += record[0] == TILE
        if fault:
            which = {MACHINE: f", machine {machines}", TILE: f", tile {tiles}"}.get(record[0], "")
            what = f"record {at + 1}{which} (byte {at * limits.JOB_RECORD})"
            return Place(what, fault[1], fault[2], at + 1) if fault[0] == number else None
    return None


def in_file(data: bytes, number: int, **given: object) -> Place | None:
    """Where a job file was refused, or what goes with it."""
    kinds = data[:: limits.JOB_RECORD]
    if number == 1:
        return Place("the method", str(given.get("method")), _METHOD)
    if number == 2:
        left = len(data) % limits.JOB_RECORD
        return Place("the file", counted(len(data), "byte"), f"a record has 8 bytes, and {left} are left over")
    if number in (3, 4, 5, 6, 15, 16):
        return _faulty_record(data, number)
    if number == 7:
        return Place("the file", counted(kinds.count(MACHINE), "machine"), _MACHINES)
    if number == 8:
        return Place("the file", counted(kinds.count(TILE), "tile"), _TILES)
    from .jobs import Job

    return in_job(Job.from_bytes(data), number, **given)
