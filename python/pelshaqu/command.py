"""The command `pelshaqu`: plans and grades jobs for people."""

from __future__ import annotations

import argparse
import io
import os
import sys
from typing import Any, Callable, NoReturn, Sequence, TextIO

from . import limits, show, sources
from .jobs import BEST, METHODS, Job, grade_bytes, listing
from .library import LibraryMissing
from .plans import Plan
from .refusals import CAUSES, Refused
from .sources import Source, Unreadable
from .text import TextError, to_csv, to_lines
from .version import line as version_line

GOOD, REFUSED, USAGE, BROKEN = 0, 1, 2, 3


class Broken(Exception):
    """Something that cannot be: nothing of it is shown."""


def _say(*lines: str) -> None:
    print("\n".join(lines), file=sys.stderr)


def _warn(name: str, words: str) -> None:
    _say(f"pelshaqu: {name}: {words}" if name else f"pelshaqu: {words}")


def _joined(tiles: int) -> str:
    """What can be done about too many tiles, and what it costs."""
    each = -(-tiles // limits.MAX_TILES)
    return (
        f"join every {each} neighbouring tiles to one, and add up their weights, each sum at most {limits.MAX_WEIGHT:,}: "
        f"{-(-tiles // each):,} tiles are left, and the plan is exact for them. Without holds it then loses at most the time that the "
        "heaviest joined tile takes on the slowest machine. Or cut the line into several jobs"
    )


def explained(refusal: Refused, name: str, looks: str = "", helps: str = "") -> list[str]:
    """A refusal: the line that `strips` prints, then what, where, what is allowed, and what else can be said."""
    rows = [("file", name), ("what", refusal.cause)]
    if refusal.place:
        found = f": {refusal.place.found}" if refusal.place.found else ""
        rows += [("where", refusal.place.what + found), ("allowed", refusal.place.allowed)]
    rows += [("looks like", looks), ("what helps", helps)]
    return [f"refused {refusal.number}"] + [line for head, words in rows if words for line in _wrapped(head, words)]


def _wrapped(head: str, words: str) -> list[str]:
    """A row of words under its head, broken into lines."""
    import textwrap

    return textwrap.wrap(words, 79, initial_indent=f"  {head:<12}", subsequent_indent=" " * 14, break_long_words=False, break_on_hyphens=False)


def _best_plan(job: Job, method: str) -> Plan:
    """A plan that the proved grader, from the bytes of both files, calls best."""
    plan = job.plan(method)
    grade = grade_bytes(job.to_bytes(), plan.plan_file)
    if grade != BEST:
        raise Broken(f"internal error: the plan was graded '{grade}', not '{BEST}'; nothing is shown. Please report it with the job")
    return plan


def _written(pattern: str, name: str, data: bytes) -> str:
    """Writes a file, whose name may have '{}' for that of the job; '-' is standard output. Gives its name."""
    if pattern == "-":
        sys.stdout.flush()
        sys.stdout.buffer.write(data)
        sys.stdout.buffer.flush()
        return pattern
    stem = os.path.splitext(os.path.basename(name))[0] or "job"
    path = pattern.replace("{}", stem)
    try:
        with open(path, "wb") as out:
            out.write(data)
    except OSError as error:
        raise Unreadable(path, (error.strerror or str(error)).lower()) from None
    return path


def _plain(stream: TextIO) -> bool:
    """Whether a stream can show no more than ASCII."""
    try:
        "█–◀".encode(stream.encoding or "ascii")
    except (UnicodeEncodeError, LookupError):
        return True
    return False


class _Output:
    """What `pelshaqu plan` shows, in the form that was asked for."""

    def __init__(self, form: str) -> None:
        self.form = form
        self.rows: list[list[Any]] = []
        self.plans: list[dict[str, Any]] = []
        self.tables = 0

    def plan(self, plan: Plan, source: Source) -> None:
        """Takes a plan: a table or a listing is shown at once, CSV and JSON when all are there."""
        if self.form == "table":
            print("\n" * (self.tables > 0) + show.table(plan, source.name, _plain(sys.stdout)), end="")
            self.tables += 1
        elif self.form == "listing":
            print(listing(plan.job.to_bytes()), end="")
        elif self.form == "csv":
            self.rows += show.csv_rows(plan, source.name)
        else:
            self.plans.append(show.json_plan(plan, source.name) | ({"scaled": source.notes} if source.notes else {}))

    def refusal(self, refusal: Refused, source: Source) -> None:
        """Takes a refusal."""
        if self.form == "listing":
            print(f"refused {refusal.number}")
        elif self.form == "json":
            self.plans.append(show.json_refusal(refusal, source.name))

    def close(self) -> None:
        """Shows what is kept until the end."""
        if self.form == "csv":
            print(show.csv_text(self.rows), end="")
        elif self.form == "json":
            import json

            print(json.dumps({"plans": self.plans}, ensure_ascii=False, indent=1))


def _refuse(refusal: Refused, source: Source, output: _Output | None = None) -> int:
    sys.stdout.flush()
    if output:
        output.refusal(refusal, source)
        sys.stdout.flush()
    helps = _joined(source.tiles()) if refusal.number == 8 else ""
    lines = explained(refusal, source.name, source.looks_like(refusal.number), helps)
    _say(*(lines[1:] if output and output.form == "listing" else lines))
    return REFUSED


def _plan_one(source: Source, words: argparse.Namespace, output: _Output) -> int:
    try:
        job = source.job()
        plan = _best_plan(job, words.method)
    except Refused as refusal:
        return _refuse(refusal, source, output)
    for note in source.notes:
        _warn(source.name, note)
    if words.svg:
        from .picture import svg

        _written(words.svg, source.name, svg(plan, source.name).encode("utf-8"))
    if words.plan_file:
        _written(words.plan_file, source.name, plan.plan_file)
    output.plan(plan, source)
    return GOOD


def _plan(words: argparse.Namespace) -> int:
    found = sources.gather(words.job, words)
    for option, pattern in (("--svg", words.svg), ("--plan-file", words.plan_file)):
        if len(found) > 1 and pattern and "{}" not in pattern:
            raise Unreadable("", f"{option} {pattern}: with several jobs the name needs a '{{}}', which becomes the job's name")
    output, status = _Output(words.form), GOOD
    for source in found:
        status = max(status, _plan_one(source, words, output))
    output.close()
    return status


def _grade(words: argparse.Namespace) -> int:
    found = sources.gather([words.job], words)
    if len(found) != 1:
        raise Unreadable(words.job, "one job is wanted")
    source = found[0]
    plan_file = sources.read(words.plan, sources.PLAN_INTAKE)
    try:
        job = source.job()
        grade = grade_bytes(job.to_bytes(), plan_file)
        made = job.read_plan(plan_file)
    except Refused as refusal:
        print(f"refused {refusal.number}")
        sys.stdout.flush()
        _say(*explained(refusal, words.plan if refusal.number in (11, 12, 13) else source.name, source.looks_like(refusal.number))[1:])
        return REFUSED
    print(grade)
    print(f"the plan's bottleneck is {show.time_of(made.bottleneck)}, on machine {made.slowest.machine}")
    if grade != BEST:
        print(f"a best plan has {show.time_of(_best_plan(job, 'bisection').bottleneck)}")
    return GOOD


def _convert(words: argparse.Namespace) -> int:
    found = sources.gather(words.job, words)
    if len(found) != 1:
        raise Unreadable("", "one job at a time is converted")
    source = found[0]
    if words.to == "job" and words.output == "-" and sys.stdout.isatty():
        raise Unreadable("", "a job file is no text for a terminal: name a file with --output")
    try:
        job = source.job()
        job.test()
        made: dict[str, Callable[[], bytes]] = {
            "job": job.to_bytes,
            "csv": lambda: to_csv(job).encode("utf-8"),
            "lines": lambda: to_lines(job).encode("utf-8"),
        }
        data = made[words.to]()
    except Refused as refusal:
        return _refuse(refusal, source)
    for note in source.notes:
        _warn(source.name, note)
    if words.to == "job" and job.has_names:
        _warn(source.name, "a job file has no names: they are left out")
    _written(words.output, source.name, data)
    return GOOD


def _explain(words: argparse.Namespace) -> int:
    for number in words.number or sorted(CAUSES):
        row = CAUSES.get(number)
        if row is None:
            raise Unreadable("", f"there is no refusal {number}: they are 1 to {max(CAUSES)}")
        print(f"{row.number}: {row.meaning}")
        if words.number:
            print(f"  caused by  {row.who}\n  example    {row.example}\n  what to do {row.remedy}")
    return GOOD


class _Parser(argparse.ArgumentParser):
    def __init__(self, **words: Any) -> None:
        super().__init__(formatter_class=argparse.RawDescriptionHelpFormatter, **words)

    def error(self, message: str) -> NoReturn:
        self.exit(USAGE, f"{self.prog}: {message}; {self.prog} --help says more\n")


def _method(word: str) -> str:
    names = dict(zip(map(str, METHODS.values()), METHODS))
    if word not in METHODS and word not in names:
        raise argparse.ArgumentTypeError(f"no method '{word}': {', '.join(f'{n} {name}' for n, name in names.items())}")
    return names.get(word, word)


def _number(least: int) -> Callable[[str], int]:
    def number(word: str) -> int:
        if not (word.isascii() and word.isdigit()) or int(word) < least:
            raise argparse.ArgumentTypeError(f"'{word}': a whole number, {least} or more, is wanted")
        return int(word)

    return number


def _takes_text(parser: argparse.ArgumentParser) -> None:
    text = parser.add_argument_group("a job as text")
    text.add_argument("--machines", metavar="FILE", help="the machines, as CSV or lines, for every file of tiles")
    text.add_argument("--startup", metavar="WORK", help="start-up work of each machine that has tiles (second edition)")
    text.add_argument("--scale", metavar="K", type=_number(1), default=1, help="multiply weights and start-up work by K, exactly")
    text.add_argument("--scale-speeds", metavar="K", type=_number(1), default=1, help="multiply speeds by K, exactly")


_JOBS = """\
JOB is a job file, or text:
  lines   startup WORK, machine NAME SPEED [HOLD], tile NAME WEIGHT
  CSV     with a header: name,weight for tiles and name,speed[,hold] for
          machines, as two files; or kind,name,value[,hold] for both in one
'-' is standard input. Numbers are whole: weights and start-up work 0 to
1,000,000, speeds 1 to 10,000; a hold is the most tiles that a machine can take,
0 for no limit. A job has 1 to 96 machines and at most 2,048 tiles.
"""
_STATUS = """
exit status: 0 done, 1 a job or plan was refused, 2 wrong usage or a file that
cannot be read, 3 something is broken
"""
_EXAMPLES = """
examples:
  pelshaqu plan strip.txt
  pelshaqu plan tiles.csv machines.csv --svg strip.svg
  pelshaqu plan monday.csv tuesday.csv --machines row.csv --csv
"""
_FORMS = (
    ("table", "a table for people (the default)"),
    ("csv", "a line a machine"),
    ("json", "all figures"),
    ("listing", "what strips prints"),
)


def _plan_words(parser: argparse.ArgumentParser) -> None:
    parser.add_argument("job", metavar="JOB", nargs="+", help="a job file, text or CSV; - is standard input")
    forms = parser.add_mutually_exclusive_group()
    for form, words in _FORMS:
        forms.add_argument(f"--{form}", dest="form", action="store_const", const=form, default="table", help=words)
    parser.add_argument("--svg", metavar="FILE", help="write a picture; {} in the name becomes the job's name")
    parser.add_argument("--plan-file", metavar="FILE", help="write the plan file; {} as above")
    methods = "table, bidding, bisection (the default) or nicol: all give the same plan"
    parser.add_argument("--method", metavar="METHOD", type=_method, default="bisection", help=methods)
    _takes_text(parser)


def _grade_words(parser: argparse.ArgumentParser) -> None:
    parser.add_argument("job", metavar="JOB", help="a job file, text or CSV")
    parser.add_argument("plan", metavar="PLAN", help="a plan file of any maker")
    _takes_text(parser)


def _convert_words(parser: argparse.ArgumentParser) -> None:
    parser.add_argument("job", metavar="JOB", nargs="+", help="a job file, text or CSV, or tiles and machines as two files")
    parser.add_argument("--to", choices=("csv", "job", "lines"), required=True, help="the format to write")
    parser.add_argument("--output", "-o", metavar="FILE", default="-", help="where to; standard output if left out")
    _takes_text(parser)


def _explain_words(parser: argparse.ArgumentParser) -> None:
    parser.add_argument("number", metavar="NUMBER", nargs="*", type=_number(0), help="a refusal's number; all if left out")


_COMMANDS = (
    ("plan", "plan jobs and show the best division of each", _JOBS + _STATUS + _EXAMPLES, _plan_words, _plan),
    ("grade", "say whether a plan file is best, valid or refused", _JOBS + _STATUS, _grade_words, _grade),
    ("convert", "write a job in another format", _JOBS + _STATUS, _convert_words, _convert),
    ("explain", "say what a refusal means and what to do", _STATUS, _explain_words, _explain),
)


def _parser() -> argparse.ArgumentParser:
    about = "Divides a row of tiles among a row of machines, so that the slowest machine finishes as soon as any division allows."
    parser = _Parser(prog="pelshaqu", description=about, epilog="pelshaqu COMMAND --help says more of each.\n" + _STATUS)
    parser.add_argument("--version", action="version", version=version_line("pelshaqu"))
    commands = parser.add_subparsers(dest="command", metavar="COMMAND", required=True)
    for name, about, epilog, words, run in _COMMANDS:
        command = commands.add_parser(name, help=about, description=f"{about[0].upper()}{about[1:]}.", epilog=epilog)
        words(command)
        command.set_defaults(run=run)
    return parser


def _set_streams(form: str) -> None:
    """CSV and JSON are UTF-8 always; a table has what the terminal can show, and escapes for the rest."""
    if isinstance(sys.stdout, io.TextIOWrapper):
        if form == "table":
            sys.stdout.reconfigure(errors="backslashreplace")
        else:
            sys.stdout.reconfigure(encoding="utf-8")


def _nowhere() -> None:
    """What is left in the buffer of standard output goes nowhere, so that nothing more is said of it at the end."""
    os.dup2(os.open(os.devnull, os.O_WRONLY), 1)


def main(arguments: Sequence[str] | None = None) -> int:
    """Runs the command; gives its exit status."""
    try:
        words = _parser().parse_args(arguments)
        _set_streams(getattr(words, "form", "table"))
        status: int = words.run(words)
        sys.stdout.flush()
        return status
    except TextError as error:
        _say(f"pelshaqu: {error}")
        return USAGE
    except Unreadable as error:
        _warn(error.name, error.words)
        return USAGE
    except (LibraryMissing, Broken) as error:
        _warn("", str(error))
    except BrokenPipeError:
        _nowhere()
    except OSError as error:
        _nowhere()
        _warn("standard output", (error.strerror or str(error)).lower())
    return BROKEN
