"""The calls through the shared library, on small jobs against every division."""

import doctest
import importlib
import os
import pkgutil
import random
import unittest
from fractions import Fraction

from support import ROOT, divisions, random_job, slowest_time

import pelshaqu
from pelshaqu import BEST, METHODS, VALID, Job, Refused


def by_rule(job, method):
    """The refusal that a plan by this method has, if it has one."""
    if all(job.holds) and sum(job.holds) < len(job.weights):
        return 17
    return 18 if method == "nicol" and any(job.holds) else 0


class Plans(unittest.TestCase):
    def setUp(self):
        rng = random.Random(22)
        self.jobs = [random_job(rng) for _ in range(300)]

    def test_the_best_division_whose_separators_are_furthest(self):
        planned = refused = 0
        for job in self.jobs:
            for method in METHODS:
                number = by_rule(job, method)
                if number:
                    with self.assertRaises(Refused) as caught:
                        job.plan(method)
                    self.assertEqual(caught.exception.number, number, job)
                    refused += 1
                    continue
                plan = job.plan(method)
                least = min(slowest_time(job, cuts) for cuts in divisions(job))
                best = [cuts for cuts in divisions(job) if slowest_time(job, cuts) == least]
                self.assertEqual(plan.separators, tuple(max(column) for column in zip(*best)), job)
                self.assertEqual(plan.bottleneck.time, least)
                self.assertEqual(plan.method, METHODS[method])
                planned += 1
        self.assertGreater(planned, 500)
        self.assertGreater(refused, 50)

    def test_shares_and_figures(self):
        for job in self.jobs:
            if by_rule(job, "table"):
                continue
            plan = job.plan("table")
            self.assertEqual(len(plan.shares), len(job.speeds))
            for p, share in enumerate(plan.shares):
                before, after = plan.separators[p : p + 2]
                load = sum(job.weights[before:after]) + ((job.startup or 0) if before < after else 0)
                self.assertEqual((share.machine, share.name, share.speed, share.hold), (p + 1, job.machine_names[p], job.speeds[p], job.holds[p]))
                self.assertEqual((share.first, share.last, share.tiles, share.load), (before + 1, after, after - before, load))
                if share.tiles:
                    self.assertEqual((share.first_name, share.last_name), (job.tile_names[before], job.tile_names[after - 1]))
                self.assertEqual(share.time, Fraction(load, job.speeds[p]))
            self.assertEqual(plan.slowest.time, max(share.time for share in plan.shares))
            self.assertEqual(plan.slowest.machine, min(s.machine for s in plan.shares if s.time == plan.slowest.time))
            self.assertEqual(super(type(plan), plan).imbalance, plan.imbalance, job)
            self.assertLessEqual(plan.count, plan.allowance)
            self.assertEqual(plan.grade(), BEST)

    def test_trials_fit_exactly_where_a_division_does(self):
        fits = 0
        for job in self.jobs:
            if by_rule(job, "table"):
                continue
            times = sorted({slowest_time(job, cuts) for cuts in divisions(job)})
            for bound in (times[0], times[0] * Fraction(9, 10), times[-1], Fraction(0)):
                trial = job.trial(bound.numerator, bound.denominator)
                self.assertEqual(trial.fits, times[0] <= bound, (job, bound))
                self.assertEqual(trial.reached == len(job.weights), trial.fits)
                if trial.fits:
                    self.assertLessEqual(slowest_time(job, trial.separators), bound)
                    self.assertIsNone(trial.next_bid)
                    self.assertEqual(trial.machines, trial.separators.index(len(job.weights)), (job, bound))
                    fits += 1
                else:
                    self.assertTrue(bound < trial.next_bid.time <= times[0])
                    self.assertIsNone(trial.machines)
        self.assertGreater(fits, 300)

    def test_measuring_and_grading_every_division(self):
        best = valid = 0
        for job in self.jobs[:100]:
            if by_rule(job, "table"):
                continue
            least = job.plan().bottleneck.time
            for cuts in divisions(job):
                made = job.division(cuts)
                self.assertEqual(made.bottleneck.time, slowest_time(job, cuts))
                self.assertEqual(job.measure(cuts), made.bottleneck)
                grade = job.grade(made.plan_file)
                self.assertEqual(grade, BEST if made.bottleneck.time == least else VALID)
                self.assertEqual(job.read_plan(made.plan_file), made)
                self.assertEqual(pelshaqu.grade_bytes(job.to_bytes(), made.plan_file), grade)
                best += grade == BEST
                valid += grade == VALID
        self.assertGreater(best, 50)
        self.assertGreater(valid, 50)

    def test_quick_plans_are_near_the_ideal(self):
        halved = 0
        for job in self.jobs:
            if job.has_holds:
                with self.assertRaises(Refused) as caught:
                    job.quick_plan()
                self.assertEqual(caught.exception.number, 18)
                continue
            quick = job.quick_plan()
            margin = Fraction(max(job.weights, default=0) + (job.startup or 0), min(job.speeds))
            self.assertLessEqual(quick.bottleneck.time, job.ideal.time + margin)
            self.assertEqual(quick.bottleneck.time, slowest_time(job, quick.separators))
            if len(set(job.speeds)) == 1 and len(job.speeds) in (1, 2, 4):
                made = job.halved_plan()
                self.assertEqual(made.bottleneck.time, slowest_time(job, made.separators))
                halved += 1
        self.assertGreater(halved, 20)

    def test_the_calls_of_the_package_are_those_of_a_job(self):
        job = Job([4, 3, 2, 6, 1], [1, 2], [0, 4], 5)
        given = {"holds": [0, 4], "startup": 5}
        self.assertEqual(pelshaqu.plan(job.weights, job.speeds, "bidding", **given), job.plan("bidding"))
        self.assertEqual(pelshaqu.trial(job.weights, job.speeds, 15, 2, **given), job.trial(15, 2))
        self.assertEqual(pelshaqu.measure(job.weights, job.speeds, [0, 1, 5], **given), job.measure([0, 1, 5]))
        self.assertEqual(pelshaqu.grade(job.weights, job.speeds, job.plan().plan_file, **given), BEST)
        free = Job([4, 3, 2, 6, 1], [2, 2], None, 5)
        self.assertEqual(pelshaqu.quick_plan(free.weights, free.speeds, startup=5), free.quick_plan())
        self.assertEqual(pelshaqu.halved_plan(free.weights, free.speeds, startup=5), free.halved_plan())
        for call in (pelshaqu.quick_plan, pelshaqu.halved_plan):
            with self.assertRaises(Refused) as caught:
                call([1], [1], holds=[1])
            self.assertEqual(caught.exception.number, 18)

    def test_the_largest_job(self):
        rng = random.Random(3)
        job = Job([rng.randint(0, 1_000_000) for _ in range(2048)], [rng.randint(1, 10_000) for _ in range(96)], startup=1_000_000)
        plans = [job.plan(method) for method in METHODS]
        self.assertEqual(len({plan.separators for plan in plans}), 1)
        self.assertEqual(len({plan.count for plan in plans}), 4)
        self.assertEqual(Job.from_bytes(job.to_bytes()), job)


class Documented(unittest.TestCase):
    def test_the_examples_in_the_package(self):
        tried = 0
        for module in pkgutil.iter_modules(pelshaqu.__path__, "pelshaqu."):
            if module.name != "pelshaqu.__main__":
                result = doctest.testmod(importlib.import_module(module.name))
                self.assertEqual(result.failed, 0, module.name)
                tried += result.attempted
        result = doctest.testmod(pelshaqu)
        self.assertEqual(result.failed, 0)
        self.assertGreater(tried + result.attempted, 20)

    def test_the_examples_of_the_page(self):
        result = doctest.testfile(os.path.join(ROOT, "docs", "PYTHON.md"), module_relative=False, encoding="utf-8")
        self.assertEqual(result.failed, 0)
        self.assertGreater(result.attempted, 10)


if __name__ == "__main__":
    unittest.main()
