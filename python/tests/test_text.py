"""Tests of a job as text: what is read, what is refused and in which words, and what is written back."""

from __future__ import annotations

import json
import os
import random
import unittest
from typing import Any

from pelshaqu import text
from pelshaqu.jobs import Job
from pelshaqu.text import Parts, TextError, is_text, join, read_parts, read_startup, to_csv, to_lines

HERE = os.path.dirname(os.path.abspath(__file__))
ERRORS = os.path.join(HERE, "errors")
EXAMPLES = os.path.join(HERE, "..", "..", "examples")
TEXTS = os.path.join(EXAMPLES, "text")


def load(folder: str, name: str) -> bytes:
    with open(os.path.join(folder, name), "rb") as file:
        return file.read()


def expected_errors() -> list[dict[str, Any]]:
    return list(json.loads(load(ERRORS, "expected.json")))


def read(source: str, scale: int = 1, speed_scale: int = 1) -> Parts:
    return read_parts(source.encode(), "x", scale=scale, speed_scale=speed_scale)


def weights(source: str, scale: int = 1) -> list[int]:
    return [weight for _, weight in read(source, scale).tiles]


def job_of(*names: str) -> Job:
    return join([read_parts(load(TEXTS, name), name) for name in names])


class Errors(unittest.TestCase):
    """Each file of errors/ gives the message of expected.json."""

    def error_of(self, case: dict[str, Any]) -> TextError:
        options = {name: case[name] for name in ("scale", "speed_scale") if name in case}
        with self.assertRaises(TextError) as caught:
            join([read_parts(load(ERRORS, name), name, **options) for name in case["files"]], startup=case.get("startup"))
        return caught.exception

    def test_messages(self) -> None:
        for case in expected_errors():
            with self.subTest(files=case["files"]):
                error = self.error_of(case)
                self.assertEqual(str(error), case["message"])
                self.assertEqual(error.code, case["code"])

    def test_every_problem_has_a_file(self) -> None:
        seen = {self.error_of(case).code for case in expected_errors()}
        self.assertEqual(seen, set(text.PROBLEMS))

    def test_every_file_is_expected(self) -> None:
        named = {name for case in expected_errors() for name in case["files"]}
        self.assertEqual(named, set(os.listdir(ERRORS)) - {"expected.json"})

    def test_all_words_stand_in_the_table(self) -> None:
        """A TextError is made in one place, from PROBLEMS; so no message can be without an example."""
        with open(text.__file__, encoding="utf-8") as file:
            self.assertEqual(file.read().count("TextError("), 2)  # its class, and _Wrong.error

    def test_parts_of_an_error(self) -> None:
        with self.assertRaises(TextError) as caught:
            read_parts(b"name,weight\nT1,5\nT2,\n", "tiles.csv")
        error = caught.exception
        self.assertEqual((error.file, error.line, error.column), ("tiles.csv", 3, "weight"))
        self.assertEqual((error.problem, error.allowed), ("blank", "a weight is a whole number, 0 to 1,000,000"))

    def test_a_text_cut_anywhere_is_read_or_a_text_error(self) -> None:
        for name in sorted(os.listdir(TEXTS)):
            data = load(TEXTS, name)
            for end in range(0, len(data), 7):
                try:
                    parts = read_parts(data[:end], name)
                except TextError:
                    continue
                self.assertLessEqual(len(parts.tiles), 40)

    def test_noise_is_read_or_a_text_error(self) -> None:
        chance = random.Random(5)
        pieces = ["tile", "machine", "name", "weight", "speed", "kind", "value", *",;\t \n\r\"#5.-é\0"]
        read_well = 0
        for _ in range(3000):
            source = "".join(chance.choice(pieces) for _ in range(chance.randrange(1, 12)))
            try:
                read(source)
                read_well += 1
            except TextError as error:
                self.assertIn(error.code, text.PROBLEMS)
        self.assertGreater(read_well, 0)


class IsText(unittest.TestCase):
    def test_job_files_are_no_text(self) -> None:
        names = [name for name in os.listdir(EXAMPLES) if name.endswith(".job")]
        self.assertGreater(len(names), 5)
        for name in names:
            self.assertFalse(is_text(load(EXAMPLES, name)), name)

    def test_texts_are(self) -> None:
        for name in os.listdir(TEXTS):
            self.assertTrue(is_text(load(TEXTS, name)), name)

    def test_edges(self) -> None:
        self.assertFalse(is_text(b""))
        self.assertTrue(is_text(b"\t\n\r ~\xff"))
        for byte in range(32):
            self.assertEqual(is_text(b"a" + bytes([byte])), byte in (9, 10, 13))
        self.assertTrue(is_text("tile T1 5".encode("utf-16")))
        self.assertFalse(is_text("tile T1 5".encode("utf-16-le")))
        self.assertTrue(is_text(b"\xef\xbb\xbftile"))


class Examples(unittest.TestCase):
    def test_job_a_in_every_shape(self) -> None:
        job = Job((1, 3, 8), (1, 3), (0, 0), None, ("T1", "T2", "T3"), ("North", "South"))
        self.assertEqual(job_of("A.txt"), job)
        self.assertEqual(job_of("A.csv"), job)
        self.assertEqual(job_of("A-tiles.csv", "A-machines.csv"), job)
        self.assertEqual(job_of("A-machines.csv", "A-tiles.csv"), job)

    def test_the_guide_shows_them(self) -> None:
        guide = load(os.path.join(HERE, "..", "..", "docs"), "TEXT.md").decode()
        for name in ("A.txt", "A.csv"):
            shown = "".join(f"    {line}\n" for line in load(TEXTS, name).decode().splitlines())
            self.assertIn("\n\n" + shown + "\n", guide)

    def test_the_guide_says_what_the_errors_say(self) -> None:
        guide = load(os.path.join(HERE, "..", "..", "docs"), "TEXT.md").decode()
        rows = [row.strip("| ").split(" | ") for row in guide.split("what the error says |\n|---|---|\n")[1].split("\n\n")[0].splitlines()]
        self.assertEqual(len(rows), 11)
        for cells, words in rows:
            for cell in cells.split("`")[1::2]:
                item = "machine M" if "speed" in cells else "tile T"
                with self.subTest(cell=cell), self.assertRaises(TextError) as caught:
                    read(f'{item} "{cell}"\n')
                problem = caught.exception.problem.split(": ", 1)[-1]
                self.assertTrue(any(problem == part for part in [words, *words.split("; "), words.split(":")[0]]), (problem, words))

    def test_survey(self) -> None:
        job = job_of("survey.txt")
        self.assertEqual(job, job_of("survey-tiles.csv", "survey-machines.csv"))
        self.assertEqual((len(job.weights), len(job.speeds), job.startup), (40, 5, 350))
        self.assertEqual(job.holds, (0, 0, 0, 0, 3))
        self.assertEqual((job.tile_names[11], job.machine_names[4]), ("L07-012", "Field laptop"))


class Shapes(unittest.TestCase):
    """The same content in other encodings, line ends and delimiters."""

    def variants(self, source: str) -> list[bytes]:
        ends = [source, source.replace("\n", "\r\n"), source.replace("\n", "\r"), source.rstrip("\n"), source + "\n \n"]
        encodings = ["utf-8", "utf-8-sig", "utf-16"]
        return [end.encode(encoding) for end in ends for encoding in encodings] + [b"\xfe\xff" + source.encode("utf-16-be")]

    def test_encodings_and_line_ends(self) -> None:
        for source in ['name,weight\n"Süd, 1",5\n北,7\n', 'startup 3\nmachine "Süd 1" 5 2\ntile 北 7\n', "weight\n5\n7\n"]:
            wanted = read(source)
            self.assertEqual(len(wanted.tiles) + len(wanted.machines), 2)
            for data in self.variants(source):
                self.assertEqual(read_parts(data, "x"), wanted, data)

    def test_delimiters(self) -> None:
        for delimiter in ",;\t":
            rows = [["Name ", " WEIGHT"], ["T 1", " 5 "], ['  "a,;""b" ', "007"], ["x", '" 8 "']]
            source = "".join(delimiter.join(row) + "\n" for row in rows)
            self.assertEqual(read(source).tiles, [("T 1", 5), ('a,;"b', 7), ("x", 8)])

    def test_a_cell_that_goes_on_in_the_next_line(self) -> None:
        for source, code in [('name,weight\nT1,5\n"a\n\n# b",6\nT3,7\n', "control"), ('name,weight\nT1,5\nT2,"6\n7"\n', "number")]:
            with self.assertRaises(TextError) as caught:
                read(source)
            self.assertEqual((caught.exception.code, caught.exception.line), (code, 3))
        with self.assertRaises(TextError) as caught:
            read('kind,name,value\ntile,T1,5\ntile,"a""\nb"x,5\n')
        self.assertEqual((caught.exception.code, caught.exception.line), ("behind", 3))

    def test_a_tab_header_is_no_line(self) -> None:
        self.assertEqual(read("tile\tweight\nT1\t5\n").tiles, [("T1", 5)])
        self.assertEqual(read("machine\tspeed\thold\nN\t5\t2\n").machines, [("N", 5, 2)])
        self.assertEqual(read("tile\tweight\t\nT1\t5\t\n").tiles, [("T1", 5)])

    def test_a_line_that_looks_like_a_header(self) -> None:
        self.assertEqual(read("tile weight 5\n").tiles, [("weight", 5)])
        self.assertEqual(read("tile\tweight\t5\n").tiles, [("weight", 5)])
        self.assertEqual(read("tile\tname,weight\t5\n").tiles, [("name,weight", 5)])

    def test_comments_and_blank_lines(self) -> None:
        source = "# a\n\n#\n## b\n###\n#\tc\nname,weight\n\n# d, 5\nT1,5\n  \n#\nT2,6\n\n\n"
        self.assertEqual(read(source).tiles, [("T1", 5), ("T2", 6)])
        self.assertEqual(read("# a\n\nTILE T1 5\n#\n##\n#\tb\n\t\nTile T2 6\n").tiles, [("T1", 5), ("T2", 6)])
        self.assertEqual(read("tile \"#5\" 1\ntile #6 2\n").tiles, [("#5", 1), ("#6", 2)])
        self.assertEqual(read('name,weight\n"#5",1\n"# 6",2\n').tiles, [("#5", 1), ("# 6", 2)])
        self.assertEqual(read("weight,name\n1,#5\n").tiles, [("#5", 1)])

    def test_a_blank_line_in_a_single_column(self) -> None:
        self.assertEqual(weights("weight\n1\n2\n\n\n# end\n\n"), [1, 2])
        for source in ["weight\n1\n\n2\n", "weight\n1\n  \n2\n", "weight\n1\n\n# c\n\n2\n", "weight,\n1,\n\n2,\n"]:
            with self.subTest(source=source), self.assertRaises(TextError) as caught:
                read(source)
            self.assertEqual((caught.exception.problem, caught.exception.line), ("blank", 3))
        with self.assertRaises(TextError) as caught:
            read("speed\n\n2\n")
        self.assertEqual((caught.exception.column, caught.exception.line), ("speed", 2))

    def test_one_dropped_cell_of_many_is_always_found(self) -> None:
        for gone in range(30):
            rows = [str(5 + row) for row in range(30)]
            rows[gone] = ""
            for source in ["weight\n" + "\n".join(rows) + "\n7\n", "name,weight\n" + "".join(f"T,{row}\n" for row in rows)]:
                with self.assertRaises(TextError) as caught:
                    read(source)
                self.assertEqual((caught.exception.problem, caught.exception.line), ("blank", gone + 2))

    def test_numbered_names(self) -> None:
        self.assertEqual(read("weight\n5\n6\n").tiles, [("1", 5), ("2", 6)])
        self.assertEqual(read("hold,speed\n5,6\n").machines, [("1", 6, 5)])
        parts = read("kind,value\ntile,5\nmachine,6\ntile,7\n")
        self.assertEqual((parts.tiles, parts.machines), ([("1", 5), ("2", 7)], [("1", 6, 0)]))

    def test_names_are_carried_as_they_are(self) -> None:
        tiles = read('name,weight\n a  b ,1\n" a ",2\n a,3\na,4\n\u00a0x,5\n').tiles
        self.assertEqual([name for name, _ in tiles], ["a  b", " a ", "a", "a", "\u00a0x"])

    def test_what_a_text_speaks_of(self) -> None:
        for source, tiles, machines in [
            ("name,weight\n", True, False),
            ("speed\n", False, True),
            ("kind,weight,speed\n", True, True),
            ("kind,speed,startup\nstartup,,3\n", False, True),
            ("kind,value\ntile,3\n", True, False),
            ("machine N 1\n", False, True),
            ("startup 3\n", False, False),
            ("no tiles\nNo Machines\n", True, True),
        ]:
            parts = read(source)
            self.assertEqual((parts.has_tiles, parts.has_machines), (tiles, machines), source)

    def test_cells_missing_at_the_end_are_blank(self) -> None:
        parts = read("kind,name,speed,hold,weight\nmachine,N,1,0\ntile,T,,,5\n")
        self.assertEqual((parts.machines, parts.tiles), ([("N", 1, 0)], [("T", 5)]))

    def test_blank_columns_at_the_end_of_the_header(self) -> None:
        self.assertEqual(read("name,weight,,\nT1,5,,\nT2,6\nT3,7, \n").tiles, [("T1", 5), ("T2", 6), ("T3", 7)])


class Numbers(unittest.TestCase):
    def test_limits(self) -> None:
        parts = read("tile a 0\ntile b 1000000\nmachine c 1\nmachine d 10000 65535\nstartup 1000000\n")
        self.assertEqual(parts.tiles, [("a", 0), ("b", 1_000_000)])
        self.assertEqual(parts.machines, [("c", 1, 0), ("d", 10_000, 65_535)])
        self.assertEqual(parts.startup, 1_000_000)
        for line in ["tile a 1000001", "machine c 10001", "machine c 0", "machine c 1 65536", "startup 1000001"]:
            with self.assertRaises(TextError):
                read(line)

    def test_leading_zeros(self) -> None:
        self.assertEqual(weights("weight\n007\n" + "0" * 5000 + "5\n"), [7, 5])

    def test_nothing_else_is_a_number(self) -> None:
        words = ["inf", "nan", "true", "0b1", "0x1", "1e0", "1L", "'5", "5%", "(5)", "5-", "1/2", "- 5", "-0", "-", ".", "-.5", "1.", ".1"]
        marks = ["1_000", "1 000", "1'000", "1.000.000", "5\u00a0", "\u00a05", "٣", "²", "½", "Ⅷ", "1٣1", "1.٣"]
        for cell in words + marks:
            for scale in (1, 10):
                with self.subTest(cell=cell), self.assertRaises(TextError):
                    read(f"name;weight\nT;{cell}\n", scale)

    def test_scale_is_exact(self) -> None:
        self.assertEqual(weights("weight\n0.1\n0.3\n12\n0\n00.70\n", 10), [1, 3, 120, 0, 7])
        self.assertEqual(weights("weight\n1.005\n0.001\n8.115\n4.35\n1.1\n", 1000), [1005, 1, 8115, 4350, 1100])
        self.assertEqual(weights("weight\n0.125\n2.5\n", 8), [1, 20])
        self.assertEqual(weights("weight\n1000.000000\n", 1000), [1_000_000])
        self.assertEqual(weights("weight\n0.000000000000000001\n", 10**18), [1])

    def test_every_cent_is_exact(self) -> None:
        cents = range(0, 10_000, 7)
        self.assertEqual(weights("weight\n" + "".join(f"{cent // 100}.{cent % 100:02d}\n" for cent in cents), 100), list(cents))

    def test_scales_apply_to_their_own(self) -> None:
        parts = read("startup 1.5\nmachine N 0.25 3\ntile T 2.5\n", scale=10, speed_scale=100)
        self.assertEqual((parts.startup, parts.machines, parts.tiles), (15, [("N", 25, 3)], [("T", 25)]))

    def test_scale_refuses(self) -> None:
        for source, scale, speed_scale, code in [
            ("tile T 1.005", 100, 1, "scaled"),
            ("tile T 0.5", 3, 1, "scaled"),
            ("tile T 100001", 10, 1, "large-scaled"),
            ("tile T 2.5", 1, 10, "decimal"),
            ("machine N 2.5", 10, 1, "decimal"),
            ("machine N 1001", 1, 10, "large-scaled"),
            ("machine N 1 2.5", 10, 10, "decimal-never"),
        ]:
            with self.subTest(source=source), self.assertRaises(TextError) as caught:
                read(source, scale, speed_scale)
            self.assertEqual(caught.exception.code, code)

    def test_the_scale_that_is_named_would_do(self) -> None:
        for cell, scale, product in [("0.5", 10, 5), ("12.25", 100, 1225), ("7.125", 1000, 7125), ("1.0050", 1000, 1005)]:
            for given in (1, 3):
                with self.assertRaises(TextError) as caught:
                    read(f"tile T {cell}", given)
                self.assertIn(f"; --scale {scale} would", caught.exception.problem)
            self.assertEqual(read(f"tile T {cell}", scale).tiles, [("T", product)])

    def test_scales_have_limits(self) -> None:
        for scales in ({"scale": 0}, {"scale": -1}, {"speed_scale": 0}, {"scale": 10**18 + 1}, {"speed_scale": 10**18 + 1}):
            with self.assertRaises(ValueError):
                read_parts(b"tile T 5", "x", **scales)

    def test_startup_of_an_option(self) -> None:
        self.assertEqual((read_startup("350"), read_startup(" 3.5", scale=10)), (350, 35))
        with self.assertRaises(TextError) as caught:
            read_startup("3.5")
        self.assertTrue(str(caught.exception).startswith("--startup: 3.5: a whole number is wanted; --scale 10 would make it one"))


class Joining(unittest.TestCase):
    def test_startup(self) -> None:
        both = read("machine N 1\ntile T 5\n")
        self.assertIsNone(join([both]).startup)
        self.assertEqual(join([both], startup=0).startup, 0)
        self.assertEqual(join([both, read("startup 4")]).startup, 4)
        self.assertEqual(join([read("startup 0\nmachine N 1\n"), read("weight\n5\n")]).startup, 0)

    def test_none_of_them_is_left_to_the_planner(self) -> None:
        self.assertEqual(join([read("weight\n"), read("speed\n")]), Job((), (), (), None, (), ()))

    def test_counts_are_left_to_the_planner(self) -> None:
        job = join([read("weight\n" + "1\n" * 2049), read("speed\n" + "1\n" * 97)])
        self.assertEqual((len(job.weights), len(job.speeds)), (2049, 97))

    def test_no_text(self) -> None:
        with self.assertRaises(TextError) as caught:
            join([])
        self.assertEqual(caught.exception.code, "tiles-missing")


ODD_NAMES = [
    *["a", "L07-012", "with blank", " in front", "behind ", "  ' ", "co,mma", "semi;colon", 'quo"te', '"', '""', '"quoted"', ' "'],
    *["#5", "# 5", "##", "#", " # ", "=A1", "-5", "5", "ü", "北", "🛩", "e\u0301", "\u00a0x", "x\u00a0", "\ufeffx", "\\", "\\n"],
    *["tile", "kind", "name,weight", "no", "no tiles", ",", ";", "{cell}", "%s"],
]


def random_job(chance: random.Random) -> Job:
    tiles, machines = chance.randrange(6), chance.randrange(5)
    return Job(
        weights=tuple(chance.choice((0, 1, 7, 1_000_000)) for _ in range(tiles)),
        speeds=tuple(chance.choice((1, 3, 10_000)) for _ in range(machines)),
        holds=tuple(chance.choice((0, 0, 1, 65_535)) for _ in range(machines)),
        startup=chance.choice((None, 0, 5, 1_000_000)),
        tile_names=tuple(chance.choice(ODD_NAMES) for _ in range(tiles)),
        machine_names=tuple(chance.choice(ODD_NAMES) for _ in range(machines)),
    )


class Writing(unittest.TestCase):
    def test_round_trips(self) -> None:
        chance = random.Random(1)
        for _ in range(2000):
            job = random_job(chance)
            for write in (to_csv, to_lines):
                self.assertEqual(join([read_parts(write(job).encode(), "x")]), job)

    def test_each_odd_name(self) -> None:
        for name in ODD_NAMES:
            job = Job((5,), (1,), (0,), None, (name,), (name,))
            self.assertEqual(join([read_parts(to_csv(job).encode(), "x")]), job)
            self.assertEqual(join([read_parts(to_lines(job).encode("utf-16"), "x")]), job)

    def test_what_is_written(self) -> None:
        job = Job((1, 3), (1, 3), (0, 2), 4, ("T 1", "#2"), ("N", 'S"'))
        rows = ["kind,name,startup,speed,hold,weight", "startup,,4,,,", "machine,N,,1,0,", 'machine,"S""",,3,2,', "tile,T 1,,,,1", 'tile,"#2",,,,3']
        self.assertEqual(to_csv(job), "".join(row + "\n" for row in rows))
        self.assertEqual(to_lines(job), 'startup 4\nmachine N 1\nmachine "S""" 3 2\ntile "T 1" 1\ntile "#2" 3\n')
        self.assertEqual(to_csv(job_of("A.txt")).encode(), load(TEXTS, "A.csv"))

    def test_names_that_no_text_can_have(self) -> None:
        for name in ["", " ", "\u00a0", "a\nb", "a\rb", "a\tb", "\0", "\x7f", "a\x85b", "a\u2028b", "a\u2029b", "\ud800"]:
            for job in (Job((5,), (), (), None, (name,), ()), Job((), (1,), (0,), None, (), (name,))):
                for write in (to_csv, to_lines):
                    with self.subTest(name=name), self.assertRaises(ValueError):
                        write(job)


if __name__ == "__main__":
    unittest.main()
