"""The command: its forms of output, its ways in, its refusals and exit statuses."""

import csv
import io
import json
import os
import random
import re
import subprocess
import sys
import unittest
from unittest import mock

from support import EXAMPLES, ROOT, InFolder, example, lines_of, random_job, run

from pelshaqu import CAUSES, Refused, command
from pelshaqu.text import to_csv, to_lines

LINES = "machine North 1\nmachine South 3\ntile T1 1\ntile T2 3\ntile T3 8\n"
TILES = "name,weight\nT1,1\nT2,3\nT3,8\n"
MACHINES = "name,speed\nNorth,1\nSouth,3\n"
TABLE = """\
a.txt: 3 tiles on 2 machines, weight 12

  machine  speed  tiles        count  load  time
  1 North      1  1 T1             1     1   1/1  = 1.000  ██████▌
  2 South      3  2 T2 – 3 T3      2    11  11/3  = 3.667  ████████████████████████ ◀ bottleneck

The slowest machine, 2 South, finishes after 11/3 = 3.667.
The ideal, all weight over all speed, is 12/4 = 3.000: the plan is 22.3 % above it (rounded up).
No division of this job has a smaller bottleneck (graded: best).
"""


def path_of(name):
    return os.path.join(EXAMPLES, name)


class Forms(InFolder):
    def setUp(self):
        super().setUp()
        os.chdir(self.folder)
        self.addCleanup(os.chdir, ROOT)
        self.write("a.txt", LINES)

    def test_the_table(self):
        self.assertEqual(run("plan", "a.txt"), (0, TABLE, ""))
        self.assertEqual(run("plan", "a.txt", "--table"), (0, TABLE, ""))

    def test_the_table_in_ascii(self):
        with mock.patch.object(command, "_plain", return_value=True):
            said = run("plan", "a.txt")
        self.assertTrue(said.out.isascii())
        self.write("none.txt", "machine North 1\nmachine South 3\ntile T1 8\n")
        with mock.patch.object(command, "_plain", return_value=True):
            self.assertEqual(run("plan", "none.txt").out.count("#"), 24)
        self.assertIn("11/3  = 3.667  ######################## < bottleneck", said.out)

    def test_csv(self):
        said = run("plan", "a.txt", "--csv")
        rows = list(csv.DictReader(io.StringIO(said.out)))
        self.assertEqual([row["name"] for row in rows], ["North", "South"])
        self.assertEqual([(row["first"], row["last"], row["load"], row["time"], row["bottleneck"]) for row in rows], [("1", "1", "1", "1/1", "no"), ("2", "3", "11", "11/3", "yes")])
        self.assertEqual([(row["first_name"], row["last_name"], row["tiles"], row["decimal"]) for row in rows], [("T1", "T1", "1", "1.000"), ("T2", "T3", "2", "3.667")])

    def test_json(self):
        plan, = json.loads(run("plan", "a.txt", "--json").out)["plans"]
        self.assertEqual((plan["job"], plan["tiles"], plan["machines"], plan["weight"], plan["startup"]), ("a.txt", 3, 2, 12, None))
        self.assertEqual((plan["method"], plan["count"], plan["allowance"], plan["imbalance"], plan["grade"]), (3, 2, 8, 223, "best"))
        self.assertEqual(plan["bottleneck"], {"machine": 2, "load": 11, "speed": 3, "decimal": "3.667"})
        self.assertEqual(plan["ideal"], {"load": 12, "speed": 4, "decimal": "3.000"})
        self.assertEqual(plan["separators"], [0, 1, 3])
        self.assertEqual([(s["name"], s["first_name"], s["last_name"], s["tiles"]) for s in plan["shares"]], [("North", "T1", "T1", 1), ("South", "T2", "T3", 2)])

    def test_the_listing_is_that_of_strips(self):
        for name in ("A", "N", "S", "large3"):
            self.assertEqual(run("plan", path_of(name + ".job"), "--listing").out.encode(), example(name + ".txt"))
        self.assertEqual(run("plan", "a.txt", "--listing").out.encode(), example("A.txt"))

    def test_files_beside(self):
        said = run("plan", "a.txt", "--svg", "a.svg", "--plan-file", "a.plan")
        self.assertEqual(said, (0, TABLE, ""))
        self.assertEqual(self.read("a.plan"), example("A-best.plan"))
        self.assertIn(b"<svg", self.read("a.svg"))
        self.assertEqual(run("plan", "a.txt", "--csv", "--plan-file", "-").out.encode()[:32], example("A-best.plan"))

    def test_files_beside_several(self):
        said = run("plan", "a.txt", path_of("N.job"), "--csv", "--plan-file", "made-{}.plan")
        self.assertEqual(said.status, 0)
        self.assertEqual((self.read("made-a.plan"), self.read("made-N.plan")), (example("A-best.plan"), example("N-best.plan")))
        self.assertEqual([row["job"] for row in csv.DictReader(io.StringIO(said.out))], 2 * ["a.txt"] + 2 * [path_of("N.job")])
        said = run("plan", "a.txt", path_of("N.job"), "--svg", "one.svg")
        self.assertEqual((said.status, said.out), (2, ""))
        self.assertIn("{}", said.err)

    def test_every_method_gives_the_same(self):
        for method in ("table", "bidding", "bisection", "nicol", "1", "2", "3", "4"):
            self.assertEqual(run("plan", "a.txt", "--method", method), (0, TABLE, ""))
        self.assertEqual(run("plan", "a.txt", "--method", "5").status, 2)

    def test_nothing_is_shown_that_is_not_graded_best(self):
        for form in ("--table", "--csv", "--json", "--listing"):
            with mock.patch.object(command, "grade_bytes", return_value="valid"):
                said = run("plan", "a.txt", form, "--svg", "no.svg", "--plan-file", "no.plan")
            self.assertEqual((said.status, said.out), (3, ""))
            self.assertIn("internal error", said.err)
            self.assertFalse(os.path.exists("no.svg") or os.path.exists("no.plan"))

    def test_a_plan_that_is_not_best_is_caught(self):
        """The grader itself, and not the planner's word, decides: a quick plan passed off as the best is not shown."""

        def quick(job, method):
            made, true = job.quick_plan(), job_plan(job, method)
            return type(true)(job, made.separators, made.plan_file, made.shares, made.bottleneck, true.method, true.count, true.allowance, 0)

        job_plan = command.Job.plan
        with mock.patch.object(command.Job, "plan", quick):
            said = run("plan", "a.txt")
        self.assertEqual((said.status, said.out), (3, ""))


class WaysIn(InFolder):
    def setUp(self):
        super().setUp()
        os.chdir(self.folder)
        self.addCleanup(os.chdir, ROOT)

    def test_all_ways_give_the_same_plan(self):
        rng, planned = random.Random(9), 0
        for _ in range(120):
            job = random_job(rng)
            self.write("job.txt", to_lines(job))
            self.write("job.csv", to_csv(job))
            self.write("tiles.csv", "weight\n" + "".join(f"{w}\n" for w in job.weights))
            self.write("row.csv", "speed;hold\r\n" + "".join(f"{e};{h}\r\n" for e, h in zip(job.speeds, job.holds)))
            startup = [] if job.startup is None else ["--startup", str(job.startup)]
            try:
                plan = job.plan()
            except Refused as refusal:
                self.assertEqual(refusal.number, 17)
                for words in (["job.txt"], ["job.csv"], ["tiles.csv", "row.csv", *startup]):
                    self.assertEqual(run("plan", *words).status, 1)
                continue
            self.write("job.job", job.to_bytes())
            shapes = set()
            ways = (["job.txt"], ["job.csv"], ["job.job"], ["tiles.csv", "row.csv", *startup], ["row.csv", "tiles.csv", *startup], ["tiles.csv", "--machines", "row.csv", *startup])
            for words in ways:
                made, = json.loads(run("plan", *words, "--json", "--plan-file", "made.plan").out)["plans"]
                self.assertEqual(self.read("made.plan"), plan.plan_file)
                self.assertEqual(made["separators"], list(plan.separators))
                if words in (["job.txt"], ["job.csv"]):
                    self.assertEqual([s["name"] for s in made["shares"]], list(job.machine_names))
                del made["job"]
                for share in made["shares"]:
                    share["name"] = share["first_name"] = share["last_name"] = ""
                shapes.add(json.dumps(made))
            self.assertEqual(len(shapes), 1, job)
            planned += 1
        self.assertGreater(planned, 60)

    def test_converting_goes_both_ways(self):
        rng = random.Random(10)
        for _ in range(60):
            job = random_job(rng)
            self.write("a.csv", to_csv(job))
            for first, second in (("lines", "csv"), ("csv", "csv")):
                self.assertEqual(run("convert", "a.csv", "--to", first, "-o", "b.txt").status, 0)
                self.assertEqual(run("convert", "b.txt", "--to", second, "--output", "c.csv").status, 0)
                self.assertEqual(self.read("c.csv"), self.read("a.csv"))
            self.assertEqual(run("convert", "a.csv", "--to", "job", "-o", "d.job").status, 0)
            self.assertEqual(self.read("d.job"), job.to_bytes())
            self.assertEqual(run("convert", "d.job", "--to", "csv", "-o", "e.csv").status, 0)
            self.assertEqual(run("convert", "e.csv", "--to", "job", "-o", "f.job"), (0, "", ""))
            self.assertEqual(self.read("f.job"), job.to_bytes())

    def test_a_job_file_has_no_names_and_it_is_said(self):
        self.write("a.txt", LINES)
        said = run("convert", "a.txt", "--to", "job", "-o", "a.job")
        self.assertEqual((said.status, self.read("a.job")), (0, example("A.job")))
        self.assertIn("names", said.err)

    def test_standard_input(self):
        for data in (LINES.encode(), example("A.job"), LINES.replace("\n", "\r\n").encode("utf-16")):
            said = run("plan", "-", stdin=data)
            self.assertEqual(said.status, 0)
            self.assertTrue(said.out.startswith("standard input: 3 tiles on 2 machines"), said.out)
        self.assertEqual(run("plan", "-", "-").status, 2)

    def test_the_blank_cell_is_caught_with_its_line(self):
        self.write("machines.csv", MACHINES)
        self.write("tiles.csv", TILES.replace("T2,3", "T2,"))
        said = run("plan", "tiles.csv", "machines.csv")
        self.assertEqual((said.status, said.out), (2, ""))
        self.assertEqual(said.err, "pelshaqu: tiles.csv, line 3, column 'weight': blank; a weight is a whole number, 0 to 1,000,000\n")
        self.write("tiles.csv", "weight\n1\n\n8\n")
        said = run("plan", "tiles.csv", "machines.csv")
        self.assertEqual((said.status, said.out), (2, ""))
        self.assertIn("tiles.csv, line 3, column 'weight': blank", said.err)

    def test_several_strips_on_one_row(self):
        self.write("row.csv", MACHINES)
        self.write("one.csv", TILES)
        self.write("two.csv", TILES + "T4,2\n")
        said = run("plan", "one.csv", "two.csv", "--machines", "row.csv")
        self.assertEqual(said.status, 0)
        self.assertIn("one.csv: 3 tiles", said.out)
        self.assertIn("\n\ntwo.csv: 4 tiles", said.out)

    def test_scales(self):
        self.write("machines.csv", "name,speed\nNorth,0.1\nSouth,0.3\n")
        self.write("tiles.csv", "name,weight\nT1,0.25\nT2,0.75\nT3,2\n")
        said = run("plan", "tiles.csv", "machines.csv", "--scale", "4", "--scale-speeds", "10", "--plan-file", "made.plan")
        self.assertEqual((said.status, self.read("made.plan")), (0, example("A-best.plan")))
        self.assertIn("multiplied by 4, exactly", said.err)
        self.assertIn("multiplied by 10, exactly", said.err)
        self.assertEqual(run("plan", "tiles.csv", "machines.csv", "--scale", "2", "--scale-speeds", "10").status, 2)
        self.write("n.txt", "machine a 1\nmachine b 4\ntile x 1\ntile y 4\ntile z 4\n")
        said = run("plan", "n.txt", "--startup", "3", "--plan-file", "made.plan")
        self.assertEqual(self.read("made.plan"), example("N-best.plan"))
        self.write("n.txt", "machine a 1\nmachine b 4\ntile x 0.1\ntile y 0.4\ntile z 0.4\n")
        said = run("plan", "n.txt", "--startup", "0.3", "--scale", "10", "--plan-file", "made.plan")
        self.assertEqual(self.read("made.plan"), example("N-best.plan"))

    def test_words_that_do_not_go_together(self):
        self.write("tiles.csv", TILES)
        self.write("machines.csv", MACHINES)
        self.write("both.txt", LINES)
        self.write("second.txt", "startup 3\n" + LINES)
        for words in (
            ["tiles.csv"],
            ["machines.csv"],
            ["tiles.csv", "tiles.csv", "machines.csv"],
            ["both.txt", "--machines", "machines.csv"],
            ["tiles.csv", "--machines", "tiles.csv"],
            ["tiles.csv", "--machines", path_of("A.job")],
            [path_of("A.job"), "--startup", "3"],
            [path_of("A.job"), "--scale", "10"],
            [path_of("A.job"), "--scale-speeds", "10"],
            [path_of("A.job"), "--machines", "machines.csv"],
            ["second.txt", "--startup", "3"],
            ["both.txt", "--startup", "x"],
            ["both.txt", "--startup", "1000001"],
            ["both.txt", "--scale", "0"],
            ["both.txt", "--scale", "1.5"],
            ["none.txt"],
            ["."],
            [],
            ["both.txt", "--csv", "--json"],
            ["both.txt", "--svg", os.path.join("none", "a.svg")],
            ["both.txt", "--wrong"],
            ["both.txt", "second.txt", "--startup", "3"],
            ["both.txt", "tiles.csv"],
        ):
            said = run("plan", *words)
            self.assertEqual((said.status, said.out), (2, ""), words)
            self.assertTrue(said.err.startswith("pelshaqu"), said.err)
        self.assertEqual(run().status, 2)
        self.assertEqual(run("fly").status, 2)

    def test_what_is_missing_is_said(self):
        self.write("tiles.csv", TILES)
        self.write("machines.csv", MACHINES)
        for name, words in (("tiles.csv", "it has no machines: name their file too, or give --machines FILE"), ("machines.csv", "it has no tiles: name their file too")):
            self.assertEqual(run("plan", name).err, f"pelshaqu: {name}: {words}\n")


class Refusals(InFolder):
    def test_a_refused_file(self):
        bad = self.write("bad.job", example("A.job")[:8] + bytes([1, 0, 0, 0, 0, 0, 0, 0]))
        said = run("plan", bad)
        self.assertEqual((said.status, said.out), (1, ""))
        self.assertEqual(said.err.split("\n")[0], "refused 5")
        for words in (f"  file        {bad}", "  what        a speed out of range", "  where       record 2, machine 2 (byte 8): speed 0", "  allowed     a speed is 1 to 10,000"):
            self.assertIn(words + "\n", said.err)

    def test_the_first_line_is_that_of_strips(self):
        for data in (b"", b"1234567", b"\1\0\0\0\0\0\0\0", 97 * b"\1\0\0\0\1\0\0\0", b"\1\0\1\0\1\0\0\0" + 2 * b"\2\0\0\0\1\0\0\0"):
            path = self.write("bad.job", data)
            listed = run("plan", path, "--listing")
            self.assertEqual(listed.status, 1)
            self.assertEqual(run("plan", path).err, listed.out + listed.err)

    def test_a_longer_file_is_judged_as_strips_does(self):
        front = example("large2.job") + b"\2\0\0\0\1\0\0\0" + b"\2\0\0\0\1\0\0\0"
        for behind in (b"", b"\1\2\3", b"\x09" * 8):
            said = run("plan", self.write("long.job", front + behind))
            self.assertEqual(said.err.split("\n")[0], "refused 8", behind)

    def test_what_it_looks_like(self):
        for data, words in (
            (b"\x89PNG\r\n\x1a\n" + bytes(24), "an image (PNG)"),
            (b"\xff\xd8\xff\xe0" + bytes(12), "an image (JPEG)"),
            (b"GIF89a" + bytes(10), "an image (GIF)"),
            (b"II*\0" + bytes(12), "an image (TIFF)"),
            (b"MM\0*" + bytes(12), "an image (TIFF)"),
            (b"BM" + bytes(14), "an image (BMP)"),
            (b"\x1f\x8b\x08" + bytes(13), "a file packed by gzip"),
            (b"\x7fELF" + bytes(12), "a program"),
            (b"\xd0\xcf\x11\xe0" + bytes(12), "an old spreadsheet or document (.xls): export it as CSV"),
            (b"PK\3\4" + bytes(12), "a ZIP archive"),
            (example("N-best.plan"), "a plan file"),
            (b"%PDF-1.4\0" + bytes(15), "a PDF"),
            (example("A-best.plan"), "a plan file"),
            (b"name,weight\nx,1\n", "text"),
        ):
            said = run("plan", self.write("odd.job", data))
            self.assertEqual(said.status, 1)
            self.assertIn(f"  looks like  {words}", said.err)

    def test_a_job_with_a_wrong_number_looks_like_a_job(self):
        for data in (b"\1\0\0\0\0\0\0\0", b"\2\0\0\0\1\0\0\0\1\0\0\0\1\0\0\0", b"\1\0\0\0\1\0\0\0" + b"\2\0\0\0\xff\xff\xff\xff"):
            self.assertNotIn("looks like", run("plan", self.write("bad.job", data)).err)
        self.assertNotIn("looks like", run("plan", self.write("bad.txt", "no machines\nno tiles\n")).err)

    def test_text_that_is_no_job_is_no_refusal(self):
        said = run("plan", os.path.join(ROOT, "README.md"))
        self.assertEqual((said.status, said.out), (2, ""))

    def test_too_many_tiles(self):
        rows = "".join(f"{i}\n" for i in range(5000))
        tiles, machines = self.write("t.csv", "weight\n" + rows), self.write("m.csv", MACHINES)
        said = run("plan", tiles, machines)
        self.assertEqual(said.status, 1)
        self.assertEqual(said.err.split("\n")[0], "refused 8")
        self.assertIn("5,000 tiles", said.err)
        self.assertIn("join every 3 neighbouring tiles", re.sub(r"\s+", " ", said.err))
        self.assertIn("1,667 tiles are left", re.sub(r"\s+", " ", said.err))

    def test_the_others_are_planned(self):
        bad = self.write("bad.job", b"")
        said = run("plan", bad, os.path.join(EXAMPLES, "A.job"), "--json")
        self.assertEqual(said.status, 1)
        first, second = json.loads(said.out)["plans"]
        self.assertEqual((first["refused"], first["found"]), (7, "0 machines"))
        self.assertEqual(second["separators"], [0, 1, 3])

    def test_explain(self):
        for number, row in CAUSES.items():
            said = run("explain", str(number))
            self.assertEqual(said.status, 0)
            for words in (f"{number}: {row.meaning}", row.who, row.example, row.remedy):
                self.assertIn(words, said.out)
        self.assertEqual(run("explain").out.count("\n"), len(CAUSES))
        self.assertEqual(run("explain", "19").status, 2)
        self.assertEqual(run("explain", "0").status, 2)
        self.assertEqual(run("explain", "x").status, 2)

    def test_converting_a_job_that_is_refused(self):
        path = self.write("a.txt", "machine a 1\ntile x 1\n" * 97)
        for form in ("csv", "job", "lines"):
            said = run("convert", path, "--to", form)
            self.assertEqual((said.status, said.out), (1, ""))
            self.assertTrue(said.err.startswith("refused 7\n"))


class Grades(InFolder):
    def test_grades(self):
        job = os.path.join(EXAMPLES, "A.job")
        text = self.write("a.txt", LINES)
        for given in (job, text):
            said = run("grade", given, os.path.join(EXAMPLES, "A-best.plan"))
            self.assertEqual(said, (0, "best\nthe plan's bottleneck is 11/3 = 3.667, on machine 2\n", ""))
            said = run("grade", given, os.path.join(EXAMPLES, "A-valid.plan"))
            self.assertEqual(said, (0, "valid\nthe plan's bottleneck is 4/1 = 4.000, on machine 1\na best plan has 11/3 = 3.667\n", ""))
            said = run("grade", given, os.path.join(EXAMPLES, "A-untrue.plan"))
            self.assertEqual((said.status, said.out), (1, "refused 13\n"))
            self.assertIn("load 12", said.err)
            self.assertIn("A-untrue.plan", said.err)

    def test_a_refused_job(self):
        said = run("grade", self.write("bad.job", b"1234567"), os.path.join(EXAMPLES, "A-best.plan"))
        self.assertEqual((said.status, said.out), (1, "refused 2\n"))
        self.assertIn("bad.job", said.err)

    def test_no_such_file(self):
        self.assertEqual(run("grade", os.path.join(EXAMPLES, "A.job"), "none.plan").status, 2)
        self.assertEqual(run("grade", "none.job", os.path.join(EXAMPLES, "A-best.plan")).status, 2)
        self.assertEqual(run("grade", os.path.join(EXAMPLES, "A.job")).status, 2)


class Process(unittest.TestCase):
    """The command as a program of its own."""

    def command(self, *words, **given):
        environment = dict(os.environ, PYTHONPATH=os.path.join(ROOT, "python"))
        return subprocess.run([sys.executable, "-m", "pelshaqu", *words], env=environment, stderr=subprocess.PIPE, **given)

    def test_exit_statuses(self):
        good = os.path.join(EXAMPLES, "A.job")
        self.assertEqual(self.command("plan", good, stdout=subprocess.DEVNULL).returncode, 0)
        self.assertEqual(self.command("plan", "/dev/null", stdout=subprocess.DEVNULL).returncode, 1)
        self.assertEqual(self.command("plan", stdout=subprocess.DEVNULL).returncode, 2)
        with open("/dev/full", "wb") as full:
            said = self.command("plan", good, stdout=full)
        self.assertEqual(said.returncode, 3)
        self.assertIn(b"standard output", said.stderr)
        self.assertEqual(said.stderr.count(b"\n"), 1, said.stderr)

    def test_whoever_reads_may_stop(self):
        read, write = os.pipe()
        os.close(read)
        said = self.command("plan", os.path.join(EXAMPLES, "A.job"), stdout=write)
        os.close(write)
        self.assertEqual((said.returncode, said.stderr), (3, b""))

    def test_a_missing_library(self):
        with mock.patch.dict(os.environ, PELSHAQU_LIBRARY="/none/libpelshaqu.so.1"):
            said = self.command("plan", os.path.join(EXAMPLES, "A.job"), stdout=subprocess.PIPE)
        self.assertEqual((said.returncode, said.stdout), (3, b""))
        self.assertIn(b"PELSHAQU_LIBRARY", said.stderr)


class Help(unittest.TestCase):
    def test_help_of_each(self):
        self.assertIn("COMMAND", run("--help").out)
        for name in ("plan", "grade", "convert", "explain"):
            said = run(name, "--help")
            self.assertEqual(said.status, 0)
            self.assertIn("usage: pelshaqu " + name, said.out)
            self.assertIn("exit status: 0", said.out)
            self.assertLessEqual(max(map(len, said.out.split("\n"))), 80)

    def test_every_option_stands_in_the_manual_and_the_completion(self):
        manual = "\n".join(lines_of("docs", "pelshaqu.1")).replace("\\-", "-")
        completion = "\n".join(lines_of("completions", "pelshaqu.bash"))
        for name in ("plan", "grade", "convert", "explain"):
            self.assertIn(name, completion)
            for option in set(re.findall(r"--[a-z-]+", run(name, "--help").out)):
                self.assertIn(option, manual, f"{name} {option}")
                self.assertIn(option, completion, f"{name} {option}")

    def test_version(self):
        said = run("--version")
        self.assertEqual(said.status, 0)
        self.assertRegex(said.out, rf"^pelshaqu {re.escape(lines_of('VERSION')[0])}, commit \S+, .*kit.*\n$")


if __name__ == "__main__":
    unittest.main()
