"""Tables and pictures: what is shown is what the plan has."""

import random
import re
import unittest
import xml.etree.ElementTree as tree
from fractions import Fraction

from support import random_job

from pelshaqu import Job, Refused, picture, show

SVG = "{http://www.w3.org/2000/svg}"


def planned(count, seed, **size):
    rng, made = random.Random(seed), []
    while len(made) < count:
        try:
            made.append(random_job(rng, **size).plan())
        except Refused:
            pass
    return made


class Decimals(unittest.TestCase):
    def test_rounded_to_the_nearest(self):
        rng = random.Random(1)
        for _ in range(2000):
            n, d = rng.randint(0, 10**9), rng.randint(1, 10**4)
            self.assertLessEqual(abs(Fraction(show.decimal(n, d)) - Fraction(n, d)), Fraction(1, 2000))
        self.assertEqual(show.decimal(1, 2000), "0.001")
        self.assertEqual(show.decimal(1, 2001), "0.000")
        self.assertEqual(show.decimal(123, 10, 1), "12.3")


class Tables(unittest.TestCase):
    def test_a_line_a_machine(self):
        for plan in planned(100, 2):
            lines = show.table(plan, "x").split("\n")
            rows = lines[3 : 3 + len(plan.shares)]
            for share, row in zip(plan.shares, rows):
                self.assertIn(share.name.rstrip(), row)
                self.assertIn(f"{share.bound} = {show.decimal(*share.bound)}", re.sub(r" += +", " = ", row))
                self.assertEqual("bottleneck" in row, share is plan.slowest)
            self.assertEqual(sum("◀" in row for row in rows), 1)

    def test_columns_stand_under_each_other(self):
        job = Job([5, 5, 5], [1, 10, 100], machine_names=["北北", "Ä", "z"], tile_names=["x", "y", "z"])
        rows = show.table(job.plan(), "x").split("\n")[2:6]
        self.assertEqual({show.width(row[: row.index("=")]) for row in rows[1:]}, {show.width(rows[1][: rows[1].index("=")])})

    def test_bars_are_as_long_as_the_time(self):
        job = Job([8, 4, 5], [1, 1, 1])
        rows = show.table(job.plan(), "x").split("\n")[3:6]
        self.assertEqual([row.count("█") for row in rows], [24, 12, 15])

    def test_in_words(self):
        self.assertIn("the row is even", " ".join(show.in_words(Job([1, 1], [1, 1]).plan())))
        self.assertIn("No tile weighs anything", " ".join(show.in_words(Job([0, 0], [1, 1]).plan())))
        self.assertIn("5 of start-up work", " ".join(show.in_words(Job([1, 1], [1, 1], None, 5).plan())))
        self.assertIn("0.1 % above", " ".join(show.in_words(Job([5000, 5001], [1, 1]).plan())))


class Pictures(unittest.TestCase):
    def parsed(self, plan):
        return tree.fromstring(picture.svg(plan, "a <job> & more").encode("utf-8"))

    def test_it_is_xml_with_a_run_and_a_bar_for_each(self):
        for plan in planned(100, 3):
            root = self.parsed(plan)
            self.assertEqual(root.tag, SVG + "svg")
            some = [share for share in plan.shares if share.tiles]
            columns = [path for path in root.iter(SVG + "path") if path.get("fill")]
            self.assertEqual(len(columns), len(some))
            texts = [element.text for element in root.iter(SVG + "text")]
            for share in plan.shares:
                words = f"{share.bound} = {show.decimal(*share.bound)}" if share.tiles else "no tiles"
                self.assertIn(words, texts)
            if plan.bottleneck.load:
                self.assertIn(f"bottleneck {show.decimal(*plan.bottleneck)}", texts)
                self.assertIn(f"ideal {show.decimal(*plan.ideal)}", texts)

    def test_bars_are_as_long_as_the_time_and_the_row_is_full(self):
        for plan in planned(60, 4, tiles=9, machines=5):
            root = self.parsed(plan)
            groups = [group for group in root.iter(SVG + "g")]
            runs = [group for group in groups if group.find(SVG + "path") is not None]
            bars = [group for group in groups if group.find(SVG + "path") is None]
            self.assertEqual(len(bars), len(plan.shares))
            widths = [float(run.find(SVG + "rect").get("width")) for run in runs]
            if runs:
                self.assertAlmostEqual(sum(widths), 912, delta=0.1)
            longest = max(plan.shares, key=lambda share: share.time)
            for share, bar in zip(plan.shares, bars):
                box = bar.find(SVG + "rect")
                wanted = 620 * share.time / longest.time if longest.load else 0
                self.assertAlmostEqual(float(box.get("width")) if box is not None else 0.0, float(wanted), delta=0.01)

    def test_neighbours_are_dark_and_light_in_turn(self):
        def light(colour):
            return sum(k * int(colour[i : i + 2], 16) for k, i in ((0.299, 1), (0.587, 3), (0.114, 5)))

        plan = Job([1] * 40, [1] * 20).plan()
        tones = [light(fill) for fill, _ in picture.colours(plan).values()]
        self.assertEqual(len(tones), 20)
        for one, other in zip(tones, tones[1:]):
            self.assertGreater(abs(one - other), 70)

    def test_names_are_escaped(self):
        plan = Job([1, 2], [1, 2], tile_names=["<a>", "&b"], machine_names=['"c"', "d>"]).plan()
        texts = [element.text for element in self.parsed(plan).iter(SVG + "text")]
        self.assertIn('1 "c"', texts)
        self.assertIn("2 d>", texts)

    def test_the_longest_row(self):
        plan = Job(range(2048), range(1, 97)).plan()
        data = picture.svg(plan, "x")
        self.assertLess(len(data), 200_000)
        self.parsed(plan)


if __name__ == "__main__":
    unittest.main()
