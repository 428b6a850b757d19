"""Job files, plan files and listings, both ways."""

import glob
import os
import random
import unittest

from support import EXAMPLES, example, lines_of, random_job

from pelshaqu import Job, Refused, grade_bytes, listing, plan_bytes


class Files(unittest.TestCase):
    def test_examples_are_written_as_they_were_read(self):
        jobs = glob.glob(os.path.join(EXAMPLES, "*.job"))
        self.assertGreater(len(jobs), 5)
        for path in jobs:
            data = example(os.path.basename(path))
            self.assertEqual(Job.from_bytes(data).to_bytes(), data, path)

    def test_random_jobs_come_back(self):
        rng = random.Random(4)
        for _ in range(300):
            job = random_job(rng)
            again = Job.from_bytes(job.to_bytes())
            self.assertEqual((again.weights, again.speeds, again.holds, again.startup), (job.weights, job.speeds, job.holds, job.startup))
            self.assertEqual(again.to_bytes(), job.to_bytes())
            self.assertFalse(again.has_names)

    def test_a_plan_by_file_is_the_plan_by_lists(self):
        rng = random.Random(5)
        planned = 0
        for _ in range(300):
            job = random_job(rng)
            for method in ("table", "bidding", "bisection", "nicol"):
                try:
                    plan = job.plan(method)
                except Refused as refusal:
                    with self.assertRaises(Refused) as caught:
                        plan_bytes(job.to_bytes(), method)
                    self.assertEqual(caught.exception.number, refusal.number)
                    continue
                self.assertEqual(plan_bytes(job.to_bytes(), method), plan.plan_file)
                planned += 1
        self.assertGreater(planned, 500)

    def test_listings_are_those_of_the_examples(self):
        texts = glob.glob(os.path.join(EXAMPLES, "*.txt"))
        self.assertGreater(len(texts), 5)
        for path in texts:
            name = os.path.basename(path)[:-4]
            self.assertEqual(listing(example(name + ".job")).encode(), example(name + ".txt"))
        self.assertEqual(listing(b""), "refused 7\n")

    def test_grades_are_those_of_the_examples(self):
        rows = [line.replace("`", "").strip("| ").split(" | ") for line in lines_of("examples", "README.md") if ".plan` |" in line]
        self.assertGreater(len(rows), 8)
        for row in rows:
            name, said = row[0].strip(), row[2].strip()
            job = example(name.split("-")[0] + ".job")
            try:
                grade = grade_bytes(job, example(name))
            except Refused as refusal:
                grade = f"refused {refusal.number}"
            self.assertEqual(grade, said, name)


if __name__ == "__main__":
    unittest.main()
