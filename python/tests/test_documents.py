"""What the pages show is what the command says."""

import os
import re
import unittest

from support import ROOT, InFolder, lines_of, run


def shown(page, command):
    """The lines that a page shows behind a command, up to the next command or the end of the block."""
    lines = lines_of(page)
    at = next(i for i, line in enumerate(lines) if line == f"    $ {command}")
    block = []
    for line in lines[at + 1 :]:
        if line.startswith("    $ ") or (line and not line.startswith("    ")):
            break
        block.append(line[4:])
    return "\n".join(block).rstrip("\n") + "\n"


class Pages(InFolder):
    def setUp(self):
        super().setUp()
        os.chdir(ROOT)

    def test_the_readme_shows_the_job_and_its_table(self):
        job = "examples/text/A.txt"
        self.assertEqual(shown("README.md", f"cat {job}"), "\n".join(lines_of(job)))
        self.assertEqual(shown("README.md", f"./pelshaqu plan {job}"), run("plan", job).out)

    def test_the_readme_shows_the_blank_cell(self):
        said = shown("README.md", "./pelshaqu plan tiles.csv machines.csv")
        self.write("tiles.csv", "name,weight\nT1,1\nT2,\n")
        self.write("machines.csv", "name,speed\nNorth,1\n")
        os.chdir(self.folder)
        self.assertEqual(run("plan", "tiles.csv", "machines.csv"), (2, "", said))

    def test_the_pictures_are_those_that_the_command_writes(self):
        for name, job in (("survey", "examples/text/survey.txt"), ("large1", "examples/large1.job")):
            self.assertEqual(run("plan", job, "--svg", os.path.join(self.folder, "made.svg")).status, 0)
            with open(os.path.join(ROOT, "docs", "pictures", name + ".svg"), "rb") as file:
                self.assertEqual(self.read("made.svg"), file.read(), name)

    def test_two_tables_are_one_job(self):
        pair = run("plan", "examples/text/survey-tiles.csv", "examples/text/survey-machines.csv", "--csv").out
        lines = run("plan", "examples/text/survey.txt", "--csv").out
        self.assertEqual(re.sub(r"(?m)^[^,]*,", "", pair), re.sub(r"(?m)^[^,]*,", "", lines))

    def test_the_manual_shows_what_the_command_says(self):
        text = "\n".join(lines_of("docs", "pelshaqu.1")).replace("\\-", "-")
        job = re.search(r"\$ cat a.txt\n(.*?)\$ ", text, re.S).group(1)
        said = re.search(r"\$ pelshaqu plan a.txt --csv\n(.*?)\$ ", text, re.S).group(1)
        self.write("a.txt", job)
        os.chdir(self.folder)
        self.assertEqual(run("plan", "a.txt", "--csv").out, said)


if __name__ == "__main__":
    unittest.main()
