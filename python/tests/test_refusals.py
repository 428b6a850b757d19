"""Each refusal, with its place; and the tables that say the same in other files."""

import re
import unittest

from support import example, lines_of

from pelshaqu import CAUSES, Job, Refused, grade_bytes, limits, plan_bytes


def record(kind, value, hold=0):
    return bytes([kind, 0]) + hold.to_bytes(2, "little") + value.to_bytes(4, "little")


A = Job([1, 3, 8], [1, 3], None, None, ["T1", "T2", "T3"], ["North", "South"])
GOOD = A.plan().plan_file


def changed(data, at, value):
    return data[:at] + bytes([value]) + data[at + 1 :]


# A call, the number, the place.
BY_LISTS = [
    (lambda: A.plan(0), 1, "the method: 0; a method is 1 table, 2 bidding, 3 bisection or 4 nicol"),
    (lambda: A.plan(5), 1, "the method: 5;"),
    (lambda: A.plan(2**32 + 1), 1, "the method: 4294967297;"),
    (lambda: A.plan(-1), 1, "the method: -1;"),
    (lambda: A.plan("swift"), 1, "the method: swift;"),
    (lambda: Job([1], [3, 0]).plan(), 5, "machine 2: speed 0; a speed is 1 to 10,000"),
    (lambda: Job([1], [3, 10_001], machine_names=["a", "b"]).plan(), 5, "machine 2 'b': speed 10001;"),
    (lambda: Job([1], [-3]).plan(), 5, "machine 1: speed -3;"),
    (lambda: Job([1], [2**32 + 3]).plan(), 5, "machine 1: speed 4294967299;"),
    (lambda: Job([1, 1_000_001], [1]).plan(), 6, "tile 2: weight 1000001; a weight is 0 to 1,000,000"),
    (lambda: Job([1, -1], [1], tile_names=["x", "y"]).trial(1), 6, "tile 2 'y': weight -1;"),
    (lambda: Job([2**64], [1]).measure([0, 1]), 6, "tile 1: weight 18446744073709551616;"),
    (lambda: Job([1], []).plan(), 7, "the row: 0 machines; a row has 1 to 96 machines"),
    (lambda: Job([1], [1] * 97).plan(), 7, "the row: 97 machines;"),
    (lambda: Job([1] * 2049, [1]).plan(), 8, "the strip: 2,049 tiles; a job has at most 2,048 tiles"),
    (lambda: A.measure([0, 3]), 9, "the separators: 2 numbers; 2 machines have 3"),
    (lambda: A.trial(1, 0), 10, "the bound's speed: 0; it is 1 to 1,000,000,000"),
    (lambda: A.trial(1, 2**64 + 1), 10, "the bound's speed: 18446744073709551617;"),
    (lambda: A.trial(100_000_000_000_001), 10, "the bound's load: 100000000000001; it is 0 to 100,000,000,000,000"),
    (lambda: A.trial(-1), 10, "the bound's load: -1;"),
    (lambda: A.measure([0, 2, 2]), 11, "separator s2: 2; it is the number of tiles, 3"),
    (lambda: A.measure([1, 2, 3]), 11, "separator s0: 1; it is 0"),
    (lambda: A.measure([0, 4, 3]), 11, "separator s1: 4; there are 3 tiles"),
    (lambda: Job([1, 1, 1], [1, 1, 1]).measure([0, 2, 1, 3]), 11, "separator s2: 1; it is not below s1, 2"),
    (lambda: A.measure([0, -1, 3]), 11, "separator s1: -1;"),
    (lambda: A.measure([0, 2**32 + 1, 3]), 11, "separator s1: 4294967297;"),
    (lambda: Job([1, 3, 8], [1, 3], [0, 1]).division([0, 1, 3]), 11, "machine 2: 2 tiles; it holds 1"),
    (lambda: A.grade(b""), 12, "the plan file: 0 bytes; 2 machines have 32"),
    (lambda: A.grade(GOOD + b"\0"), 12, "the plan file: 33 bytes;"),
    (lambda: A.grade(changed(GOOD, 0, 1)), 11, "plan record 1, machine 1 'North', its first separator: 1; it is 0"),
    (lambda: A.grade(changed(GOOD, 16, 2)), 11, "plan record 2, machine 2 'South', its first separator: 2; it is 1, where the record before ends"),
    (lambda: A.grade(changed(GOOD, 20, 2)), 11, "separator s2: 2; it is the number of tiles, 3"),
    (lambda: A.grade(changed(GOOD, 24, 12)), 13, "plan record 2, machine 2 'South': load 12; its tiles have 11"),
    (lambda: A.grade(changed(GOOD, 12, 2)), 13, "plan record 1, machine 1 'North': speed 2; its speed is 1"),
    (lambda: Job([1, 3, 8], [1, 3], None, 2).grade(GOOD), 13, "plan record 1, machine 1: load 1; its tiles have 3"),
    (lambda: A.halved_plan(), 14, "machine 2 'South': speed 3; all speeds are equal, as machine 1's, 1"),
    (lambda: Job([1], [2, 2, 2]).halved_plan(), 14, "the row: 3 machines; their number is a power of two: 1, 2, 4, 8, 16, 32 or 64"),
    (lambda: Job([1], [1], None, 1_000_001).plan(), 16, "the start-up work: 1000001; start-up work is 0 to 1,000,000"),
    (lambda: Job([1], [0], None, -1).plan(), 16, "the start-up work: -1;"),
    (lambda: Job([1, 1], [1], [1]).plan(), 17, "all machines together: they hold 1 of 2 tiles; more machines, greater holds, or a machine without a limit (hold 0)"),
    (lambda: Job([1, 1], [1, 1], [0, 1]).plan("nicol"), 18, "machine 2: hold 1; method 4 and the quick plans want no holds"),
    (lambda: Job([1, 1], [1, 1], [0, 1]).quick_plan(), 18, "machine 2: hold 1;"),
]

MACHINE, TILE = record(1, 1), record(2, 1)
BY_FILE = [
    (b"1234567", 2, "the file: 7 bytes; a record has 8 bytes, and 7 are left over"),
    (MACHINE + record(4, 1), 3, "record 2 (byte 8): byte 0, the kind, is 4; a kind is 1 machine, 2 tile or 3 start-up work"),
    (MACHINE + bytes([2, 9, 0, 0, 1, 0, 0, 0]), 3, "record 2, tile 1 (byte 8): byte 1 is 9; byte 1 is zero"),
    (MACHINE + record(2, 1, 258), 3, "record 2, tile 1 (byte 8): bytes 2 and 3 are 258;"),
    (record(3, 1, 1) + MACHINE, 3, "record 1 (byte 0): bytes 2 and 3 are 1;"),
    (MACHINE + TILE + MACHINE, 4, "record 3, machine 2 (byte 16): a machine after a tile; machines come before tiles"),
    (MACHINE + record(3, 1), 15, "record 2 (byte 8): start-up work; it stands in the first record, once"),
    (MACHINE + record(1, 0), 5, "record 2, machine 2 (byte 8): speed 0; a speed is 1 to 10,000"),
    (MACHINE + TILE + record(2, 1_000_001), 6, "record 3, tile 2 (byte 16): weight 1000001;"),
    (record(3, 1_000_001) + MACHINE, 16, "record 1 (byte 0): start-up work 1000001;"),
    (b"", 7, "the file: 0 machines; a row has 1 to 96 machines"),
    (97 * MACHINE, 7, "the file: 97 machines;"),
    (MACHINE + 2049 * TILE, 8, "the file: 2,049 tiles; a job has at most 2,048 tiles"),
]


class Places(unittest.TestCase):
    def refused(self, call, number, place):
        with self.assertRaises(Refused) as caught:
            call()
        self.assertEqual(caught.exception.number, number, place)
        self.assertTrue(str(caught.exception.place).startswith(place), f"{caught.exception.place} | {place}")
        self.assertEqual(caught.exception.cause, CAUSES[number].meaning)
        self.assertIn(f"refused {number}: ", str(caught.exception))

    def test_by_lists(self):
        for call, number, place in BY_LISTS:
            self.refused(call, number, place)

    def test_by_file(self):
        for data, number, place in BY_FILE:
            self.refused(lambda: Job.from_bytes(data), number, place)
            self.refused(lambda: plan_bytes(data), number, place)
            self.refused(lambda: grade_bytes(data, b""), number, place)

    def test_by_file_behind_the_job(self):
        job = example("A.job")
        self.refused(lambda: plan_bytes(job, 9), 1, "the method: 9;")
        self.refused(lambda: grade_bytes(job, b"x"), 12, "the plan file: 1 byte;")
        self.refused(lambda: grade_bytes(job, example("A-untrue.plan")), 13, "plan record 2, machine 2: load 12;")
        self.refused(lambda: grade_bytes(example("S.job"), example("S-broken.plan")), 11, "machine 2: 2 tiles; it holds 1")
        self.refused(lambda: plan_bytes(example("S.job"), "nicol"), 18, "machine 2: hold 1;")
        self.refused(lambda: plan_bytes(record(1, 1, 1) + TILE + TILE), 17, "all machines together: they hold 1 of 2 tiles;")

    def test_every_number_is_seen(self):
        seen = {number for _, number, _ in BY_LISTS + BY_FILE}
        self.assertEqual(seen, set(CAUSES))

    def test_the_record_is_told(self):
        for call, record in (
            (lambda: Job.from_bytes(MACHINE + TILE + MACHINE), 3),
            (lambda: A.grade(changed(GOOD, 0, 1)), 1),
            (lambda: A.grade(changed(GOOD, 16, 2)), 2),
            (lambda: A.grade(changed(GOOD, 24, 12)), 2),
            (lambda: A.grade(changed(GOOD, 12, 2)), 1),
            (lambda: A.grade(changed(GOOD, 28, 2)), 2),
            (lambda: A.plan(0), None),
        ):
            with self.assertRaises(Refused) as caught:
                call()
            self.assertEqual(caught.exception.place.record, record)

    def test_what_stands_at_a_limit_is_passed_over(self):
        most = record(3, 1_000_000) + record(1, 10_000, 65_535) + record(1, 1) + record(2, 1_000_000) + record(2, 0)
        self.refused(lambda: Job.from_bytes(most + record(2, 1_000_001)), 6, "record 6, tile 3 (byte 40): weight 1000001;")
        self.refused(lambda: Job.from_bytes(most[:24] + record(1, 10_001)), 5, "record 4, machine 3 (byte 24): speed 10001;")
        good = Job([1_000_000, 0, -1], [10_000, 1], None, 1_000_000)
        self.refused(lambda: good.plan(), 6, "tile 3: weight -1;")
        self.refused(lambda: Job([1], [10_000, 1, 0]).plan(), 5, "machine 3: speed 0;")


class Wrong(unittest.TestCase):
    def test_lists_that_are_no_job(self):
        for make in (
            lambda: Job([1], [1, 2], [0]),
            lambda: Job([1], [1], [65_536]),
            lambda: Job([1], [1], [-1]),
            lambda: Job([1], [1], tile_names=["a", "b"]),
            lambda: Job([1], [1], machine_names=[]),
        ):
            with self.assertRaises(ValueError):
                make()
        for make in (lambda: Job([1.5], [1]), lambda: Job(["1"], [1]), lambda: Job([1], [1], startup=0.5), lambda: A.trial(1.5), lambda: A.measure("abc")):
            with self.assertRaises(TypeError):
                make()


class Tables(unittest.TestCase):
    def test_the_causes_are_those_of_the_page(self):
        rows = [line.strip("| ").split(" | ") for line in lines_of("docs", "REFUSALS.md") if re.match(r"\| \d+ \|", line)]
        page = {int(number): tuple(cell.replace("`", "") for cell in cells) for number, *cells in rows}
        mine = {number: (row.meaning, row.who, row.example, row.remedy) for number, row in CAUSES.items()}
        self.assertEqual(mine, page)

    def test_the_limits_are_those_of_the_definitions(self):
        defined = dict(re.findall(r"^(max_\w+) = (\d+)$", "\n".join(lines_of("crates", "chain", "specs", "Limits.antt")), re.M))
        names = {
            "max_processors": "MAX_MACHINES",
            "max_tasks": "MAX_TILES",
            "max_speed": "MAX_SPEED",
            "max_weight": "MAX_WEIGHT",
            "max_startup": "MAX_STARTUP",
            "max_bound_load": "MAX_BOUND_LOAD",
            "max_bound_speed": "MAX_BOUND_SPEED",
        }
        for definition, name in names.items():
            self.assertEqual(getattr(limits, name), int(defined[definition]), name)


if __name__ == "__main__":
    unittest.main()
