"""The numbered refusals: what each means, who causes it, and where it happened.

The table is that of docs/REFUSALS.md, word for word.
"""

from __future__ import annotations

from dataclasses import dataclass


@dataclass(frozen=True)
class Cause:
    """A row of the table of refusals."""

    number: int
    meaning: str
    who: str
    example: str
    remedy: str


_ROWS = (
    Cause(1, "the method is not 1 to 4", "the caller", "method 0, or 5", "choose 1 table, 2 bidding, 3 bisection or 4 Nicol's search"),
    Cause(2, "the file's length is not a multiple of 8", "whoever made the file", "7 bytes",
          "the file is cut off, or has a header: write it again"),
    Cause(3, "a kind other than 1, 2 or 3, or a byte not zero that has to be", "whoever made the file", "one record of kind 4",
          "look at the record's first four bytes: byte 1 is zero, and bytes 2 and 3 of a tile and of start-up work are; those of a "
          "machine are its hold"),
    Cause(4, "a machine after a tile", "whoever made the file", "a tile, then a machine", "put the machines before the tiles"),
    Cause(5, "a speed out of range", "whoever measured the job", "a machine of speed 0, or of 10,001", "speeds are 1 to 10,000"),
    Cause(6, "a weight out of range", "whoever measured the job", "a tile of weight 1,000,001", "weights are 0 to 1,000,000"),
    Cause(7, "no machine, or more than 96", "whoever measured the job", "an empty file", "check the row"),
    Cause(8, "more than 2,048 tiles", "whoever measured the job", "1 machine and 2,049 tiles", "cut the line into jobs"),
    Cause(9, "a lent list or buffer is too short", "the caller", "a plan buffer of 15 bytes for one machine",
          "P + 1 separators; 5 × (N + 1) work numbers; 16 × P plan bytes; 8 × (N + P) job bytes, 8 more in the second edition; 8,736 "
          "bytes for a listing; one byte for a grade; N weights and P speeds when reading; P holds when reading and in each call that "
          "takes a job by lists"),
    Cause(10, "the lent bound is out of range", "the caller", "speed 0",
          "a load of at most 100,000,000,000,000, a speed of 1 to 1,000,000,000"),
    Cause(11, "no division, or a record that does not begin where the one before ends", "the caller; of a plan file whoever made it",
          "0 2 2 for three tiles and two machines",
          "the first P + 1 separators begin with 0, never fall and end with N; in a plan file each record begins with the second field "
          "of the one before; where a machine has a hold, its share has no more tiles than that"),
    Cause(12, "the plan file's length is not 16 bytes a machine", "whoever made the plan file", "an empty plan file",
          "a record is missing, or one too many, or it is the plan of another row: write it again"),
    Cause(13, "a load or a speed of the plan file is untrue", "whoever made the plan file", "a load that is one too great",
          "the plan is of another job, or was added up wrongly: in the second edition each machine with tiles has c in its load, a "
          "machine without tiles load 0"),
    Cause(14, "speeds that are not all equal, or a number of machines that is no power of two, where a row is to be halved", "the caller",
          "speeds 1 2, or three machines of one speed", "take the quick plan, or a plan by one of the methods"),
    Cause(15, "a record of kind 3 stands behind the first record", "whoever made the file", "two records of kind 3",
          "start-up work is one number for the job: put its record in front, once; for a job of the first edition leave it out. Tested "
          "directly after 4"),
    Cause(16, "the start-up work is out of range", "whoever measured the job",
          "a first record of kind 3 with c = 1,000,001, or that c in lists of the second edition",
          "start-up work is 0 to 1,000,000. Tested directly after 6 in its record, by lists directly before 5; in lists of the first "
          "edition it is not tested"),
    Cause(17, "the holds are all limited and add up to less than the tiles", "whoever measured the job",
          "a machine with hold 1 and two tiles",
          "the row cannot hold the line: take more machines, or cut the line into jobs; a hold of 0 is no limit. Tested directly after 9, "
          "by the trial, the four methods, plan_job and the listing"),
    Cause(18, "method 4 or a quick plan on a job with holds", "the caller", "method 4 on a machine with hold 1",
          "take method 1, 2 or 3; where no machine has a limit, give each hold as 0. Tested after 17; the quick plans do not make test 17"),
)

CAUSES: dict[int, Cause] = {row.number: row for row in _ROWS}


@dataclass(frozen=True)
class Place:
    """Where a refusal happened.

    `what` names it ("machine 2 'South'", "record 5"), `found` is what stands there, `allowed` what may stand there. `record` is the number
    of the record in a file, counted from 1, where there is one.
    """

    what: str
    found: str
    allowed: str
    record: int | None = None

    def __str__(self) -> str:
        return f"{self.what}: {self.found}; {self.allowed}" if self.found else f"{self.what}; {self.allowed}"


class Refused(Exception):
    """The planner refuses: `number`, `cause` (its meaning) and, where it can be told, `place`.

    >>> from pelshaqu import plan
    >>> try:
    ...     plan([1, 3, 8], [1, 0])
    ... except Refused as refusal:
    ...     print(refusal.number, '|', refusal.place)
    5 | machine 2: speed 0; a speed is 1 to 10,000
    """

    def __init__(self, number: int, place: Place | None = None) -> None:
        self.number = number
        self.place = place
        row = CAUSES.get(number)
        self.cause = row.meaning if row else "no such refusal"
        super().__init__(f"refused {number}: {self.cause}" + (f" ({place})" if place else ""))
