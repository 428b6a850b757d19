"""A plan for people and for other programs: as a table, as CSV, as JSON."""

from __future__ import annotations

from typing import Any, Sequence

from .plans import Bound, Division, Plan, Share
from .refusals import Refused

_BAR = 24


def decimal(numerator: int, denominator: int, digits: int = 3) -> str:
    """A fraction as a decimal, rounded to the nearest, halves up.

    >>> decimal(11, 3), decimal(2, 1), decimal(1, 8000)
    ('3.667', '2.000', '0.000')
    """
    scaled = (2 * numerator * 10**digits + denominator) // (2 * denominator)
    text = str(scaled).rjust(digits + 1, "0")
    return f"{text[:-digits]}.{text[-digits:]}"


def time_of(bound: Bound) -> str:
    """A time as a fraction and a decimal."""
    return f"{bound} = {decimal(*bound)}"


def width(text: str) -> int:
    """How many columns of a terminal a text takes."""
    if text.isascii():
        return len(text)
    from unicodedata import combining, east_asian_width

    return sum(0 if combining(c) else 2 if east_asian_width(c) in "WF" else 1 for c in text)


def _filled(text: str, columns: int, right: bool = False) -> str:
    blanks = " " * max(0, columns - width(text))
    return blanks + text if right else text + blanks


def _named(number: int, name: str) -> str:
    return str(number) if name == str(number) else f"{number} {name}"


def tiles_of(share: Share, dash: str = "–") -> str:
    """The first and the last tile of a share, by number and name."""
    if share.tiles == 0:
        return "none"
    first = _named(share.first, share.first_name)
    return first if share.tiles == 1 else f"{first} {dash} {_named(share.last, share.last_name)}"


def _bar(share: Share, bottleneck: Bound, plain: bool) -> str:
    """A bar as long as the share's time, the bottleneck's being the longest."""
    if bottleneck.load == 0:
        return ""
    eighths = share.load * bottleneck.speed * _BAR * 8 // (bottleneck.load * share.speed)
    if plain:
        return "#" * max(eighths // 8, share.load > 0)
    return "█" * (eighths // 8) + " ▏▎▍▌▋▊▉"[eighths % 8].strip() if eighths else "▏" * (share.load > 0)


def _count(number: int, what: str) -> str:
    return f"{number:,} {what}" + ("" if number == 1 else "s")


def _rows(division: Division, plain: bool) -> tuple[list[list[str]], list[bool]]:
    """The table's cells, and which columns stand to the right."""
    held = division.job.has_holds
    slowest = division.slowest
    head = ["machine", "speed"] + (["hold"] if held else []) + ["tiles", "count", "load", "time", "", ""]
    rows = [head]
    for share in division.shares:
        fraction, rounded = str(share.bound), decimal(*share.bound)
        bar = _bar(share, division.bottleneck, plain)
        if share is slowest:
            bar += " < bottleneck" if plain else " ◀ bottleneck"
        hold = [str(share.hold) if share.hold else "-"] if held else []
        cells = [_named(share.machine, share.name), str(share.speed), *hold, tiles_of(share, "-" if plain else "–")]
        rows.append(cells + [str(share.tiles), f"{share.load:,}", fraction, f"= {rounded}", bar])
    return rows, [False, True] + [True] * held + [False, True, True, True, True, False]


def in_words(division: Division) -> list[str]:
    """What the figures mean."""
    job, slowest, ideal = division.job, division.slowest, division.ideal
    lines = [f"The slowest machine, {_named(slowest.machine, slowest.name)}, finishes after {time_of(division.bottleneck)}."]
    if job.startup is not None:
        lines.append(f"Each machine that has tiles does {job.startup:,} of start-up work first, which is in its load.")
    if ideal.load == 0:
        return lines + ["No tile weighs anything."]
    percent = decimal(division.imbalance, 10, 1)
    if division.imbalance == 0:
        return lines + [f"That is the ideal, all weight over all speed, {time_of(ideal)}: the row is even."]
    return lines + [f"The ideal, all weight over all speed, is {time_of(ideal)}: the plan is {percent} % above it (rounded up)."]


def heading(division: Division, name: str) -> str:
    """One line on the job."""
    job = division.job
    return f"{name}: {_count(len(job.weights), 'tile')} on {_count(len(job.speeds), 'machine')}, weight {job.total:,}"


def table(plan: Plan, name: str, plain: bool = False) -> str:
    """The table for people. `plain` keeps to ASCII but for names."""
    rows, right = _rows(plan, plain)
    columns = [max(width(row[i]) for row in rows) for i in range(len(right))]
    lines = [heading(plan, name), ""]
    for row in rows:
        lines.append(("  " + "  ".join(_filled(cell, columns[i], right[i]) for i, cell in enumerate(row))).rstrip())
    return "\n".join(lines + [""] + in_words(plan) + ["No division of this job has a smaller bottleneck (graded: best)."]) + "\n"


CSV_HEAD = (
    "job", "machine", "name", "speed", "hold", "first", "last", "first_name", "last_name", "tiles", "load", "time", "decimal", "bottleneck",
)


def csv_rows(plan: Plan, name: str) -> list[list[Any]]:
    """A row a machine. Without tiles the cells of the first and last tile are blank."""
    rows = []
    for share in plan.shares:
        ends = [share.first, share.last, share.first_name, share.last_name] if share.tiles else ["", "", "", ""]
        mark = "yes" if share is plan.slowest else "no"
        row = [name, share.machine, share.name, share.speed, share.hold, *ends, share.tiles, share.load]
        rows.append(row + [str(share.bound), decimal(*share.bound), mark])
    return rows


def csv_text(rows: Sequence[Sequence[Any]]) -> str:
    """Rows as CSV, under their header."""
    import csv
    import io

    out = io.StringIO()
    writer = csv.writer(out, lineterminator="\n")
    writer.writerow(CSV_HEAD)
    writer.writerows(rows)
    return out.getvalue()


def _bound(bound: Bound) -> dict[str, Any]:
    return {"load": bound.load, "speed": bound.speed, "decimal": decimal(*bound)}


def _share(share: Share) -> dict[str, Any]:
    some = share.tiles > 0
    return {
        "machine": share.machine,
        "name": share.name,
        "speed": share.speed,
        "hold": share.hold,
        "first": share.first if some else None,
        "last": share.last if some else None,
        "first_name": share.first_name if some else None,
        "last_name": share.last_name if some else None,
        "tiles": share.tiles,
        "load": share.load,
        "time": _bound(share.bound),
    }


def json_plan(plan: Plan, name: str) -> dict[str, Any]:
    """A plan as JSON has it."""
    job = plan.job
    return {
        "job": name,
        "tiles": len(job.weights),
        "machines": len(job.speeds),
        "weight": job.total,
        "startup": job.startup,
        "method": plan.method,
        "count": plan.count,
        "allowance": plan.allowance,
        "separators": list(plan.separators),
        "bottleneck": {"machine": plan.slowest.machine, **_bound(plan.bottleneck)},
        "ideal": _bound(plan.ideal) if plan.ideal.speed else None,
        "imbalance": plan.imbalance,
        "grade": "best",
        "shares": [_share(share) for share in plan.shares],
    }


def json_refusal(refusal: Refused, name: str) -> dict[str, Any]:
    """A refusal as JSON has it."""
    place = refusal.place
    return {
        "job": name,
        "refused": refusal.number,
        "cause": refusal.cause,
        "where": place.what if place else None,
        "record": place.record if place else None,
        "found": place.found if place else None,
        "allowed": place.allowed if place else None,
    }
