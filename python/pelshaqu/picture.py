"""A plan as a picture (SVG): the row of tiles above, a bar a machine below.

Neighbouring machines have a dark and a light colour in turn, so that they can be told apart in grey print too; the hues are those of
Okabe and Ito, for colour-blind eyes.
"""

from __future__ import annotations

import os
from html import escape

from .plans import Bound, Plan, Share
from .show import decimal, heading, in_words, tiles_of

_DARK = ("#0072b2", "#c24e00", "#00694b", "#8f3b76")
_LIGHT = ("#f0e442", "#8fd0f5", "#f5b944", "#b7e3cc")
_WIDTH, _MARGIN = 960, 24
_TILES, _BAND = 110, 14
_LEFT, _RIGHT = 150, 190
_INK, _FAINT = "#1a1a1a", "#8a8a8a"


def colours(plan: Plan) -> dict[int, tuple[str, str]]:
    """The colour of each machine that has tiles, by its number, and that of words on it: dark and light in turn along the row."""
    made: dict[int, tuple[str, str]] = {}
    for share in plan.shares:
        if share.tiles:
            turn = len(made) // 2 % len(_DARK)
            made[share.machine] = (_LIGHT[turn], _INK) if len(made) % 2 else (_DARK[turn], "#ffffff")
    return made


def _number(value: float) -> str:
    return f"{value:.2f}".rstrip("0").rstrip(".")


def _machine(share: Share) -> str:
    return share.name if share.name == str(share.machine) else f"{share.machine} {share.name}"


def _cut(text: str, most: int) -> str:
    return text if len(text) <= most else text[: most - 1] + "…"


def _text(x: float, y: float, words: str, size: int = 12, anchor: str = "start", fill: str = _INK, weight: str = "normal") -> str:
    style = f'font-size="{size}" text-anchor="{anchor}" fill="{fill}" font-weight="{weight}"'
    return f'<text x="{_number(x)}" y="{_number(y)}" {style}>{escape(words)}</text>'


def _line(x1: float, y1: float, x2: float, y2: float, extra: str) -> str:
    return f'<line x1="{_number(x1)}" y1="{_number(y1)}" x2="{_number(x2)}" y2="{_number(y2)}" {extra}/>'


def _box(x: float, y: float, width: float, height: float, fill: str, extra: str = "") -> str:
    size = f'width="{_number(width)}" height="{_number(height)}"'
    return f'<rect x="{_number(x)}" y="{_number(y)}" {size} fill="{fill}"{" " + extra if extra else ""}/>'


def _columns(share: Share, weights: tuple[int, ...], step: float, floor: float) -> str:
    """The tiles of a share as one path: a column a tile, as high as it weighs."""
    heaviest = max(weights) or 1
    path = [f"M{_number(_MARGIN + (share.first - 1) * step)} {_number(floor)}"]
    for i in range(share.first - 1, share.last):
        path.append(f"V{_number(floor - weights[i] * _TILES / heaviest)}H{_number(_MARGIN + (i + 1) * step)}")
    return "".join(path) + f"V{_number(floor)}Z"


def _named_tiles(share: Share, plan: Plan, step: float, floor: float, ink: str) -> list[str]:
    """The names of a share's tiles, in the band, where there is room."""
    made = []
    for i in range(share.first - 1, share.last):
        if 7 * len(plan.job.tile_names[i]) + 6 <= step:
            made.append(_text(_MARGIN + (i + 0.5) * step, floor + _BAND - 3, plan.job.tile_names[i], 10, "middle", ink))
    return made


def _run(share: Share, plan: Plan, step: float, floor: float, fill: str, ink: str) -> list[str]:
    """One machine's run of tiles: its columns, its part of the band below them, its number and name where there is room."""
    left, span = _MARGIN + (share.first - 1) * step, share.tiles * step
    name = _machine(share)
    title = escape(f"machine {name}: tiles {tiles_of(share)}, load {share.load:,}")
    edge = f'stroke="{_INK}" stroke-width="{0.4 if step >= 3 else 0}"'
    made = [f"<g><title>{title}</title>"]
    made.append(f'<path d="{_columns(share, plan.job.weights, step, floor)}" fill="{fill}" {edge}/>')
    made.append(_box(left, floor, span, _BAND, fill, f'stroke="{_INK}" stroke-width="0.8"'))
    made += _named_tiles(share, plan, step, floor, ink)
    room = next((words for words in (name, str(share.machine)) if 7 * len(words) + 4 <= span), "")
    if room:
        made.append(_text(left + span / 2, floor + _BAND + 14, room, 11, "middle"))
    return made + ["</g>"]


def _row(plan: Plan, top: float) -> list[str]:
    """The row of tiles."""
    tiles = len(plan.job.weights)
    if tiles == 0:
        return [_text(_MARGIN, top + 20, "no tiles", 12, fill=_FAINT)]
    step, floor = (_WIDTH - 2 * _MARGIN) / tiles, top + _TILES
    made: list[str] = []
    coloured = colours(plan)
    for share in plan.shares:
        if share.tiles:
            made += _run(share, plan, step, floor, *coloured[share.machine])
    if step >= 6:
        cuts = "".join(f"M{_number(_MARGIN + i * step)} {_number(floor - 4)}V{_number(floor)}" for i in range(1, tiles))
        made.append(f'<path d="{cuts}" stroke="{_INK}" stroke-width="0.6"/>')
    return made


def _bar(share: Share, plan: Plan, top: float, height: float, scale: float, fill: str) -> list[str]:
    """One machine's bar, with its name before it and its time behind."""
    middle, worst, name = top + height / 2 + 4, share is plan.slowest, _machine(share)
    length = scale * share.load / share.speed
    edge = f'stroke="{_INK}" stroke-width="{2 if worst else 0.8}"'
    weight = "bold" if worst else "normal"
    title = f"<title>{escape(f'{name}: tiles {tiles_of(share)}')}</title>"
    note = f"{share.bound} = {decimal(*share.bound)}" if share.tiles else "no tiles"
    return [
        f"<g>{title}",
        _text(_LEFT - 8, middle, _cut(name, 20), 12, "end", weight=weight),
        _box(_LEFT, top, length, height, fill, edge) if share.load else "",
        _text(_WIDTH - _MARGIN, middle, note, 12, "end", weight=weight),
        "</g>",
    ]


def _marks(plan: Plan, top: float, bottom: float, scale: float) -> list[str]:
    """The lines of the ideal and of the bottleneck, each with its name and value."""

    def at(bound: Bound) -> float:
        return _LEFT + scale * bound.load / bound.speed

    ideal, worst = at(plan.ideal), at(plan.bottleneck)
    return [
        _line(ideal, top - 6, ideal, bottom + 6, 'stroke="#ffffff" stroke-width="3.4"'),
        _line(ideal, top - 6, ideal, bottom + 6, f'stroke="{_INK}" stroke-width="1.6" stroke-dasharray="5 4"'),
        _line(worst, top - 6, worst, bottom + 6, f'stroke="{_INK}" stroke-width="2"'),
        _text(worst, top - 12, f"bottleneck {decimal(*plan.bottleneck)}", 12, "end" if worst > _WIDTH - 260 else "middle", weight="bold"),
        _text(ideal, bottom + 20, f"ideal {decimal(*plan.ideal)}", 12, "middle"),
    ]


def _bars(plan: Plan, top: float) -> tuple[list[str], float]:
    """A bar a machine, and where they end."""
    height = 20 if len(plan.shares) <= 32 else 13
    gap = 8 if len(plan.shares) <= 32 else 4
    reach = _WIDTH - _LEFT - _RIGHT
    scale = reach * plan.bottleneck.speed / plan.bottleneck.load if plan.bottleneck.load else 0.0
    coloured = colours(plan)
    made, y = [], top
    for share in plan.shares:
        made += _bar(share, plan, y, height, scale, coloured.get(share.machine, (_INK, _INK))[0])
        y += height + gap
    bottom = y - gap
    made.append(_line(_LEFT, top - 6, _LEFT, bottom + 6, f'stroke="{_INK}" stroke-width="1"'))
    return made + (_marks(plan, top, bottom, scale) if scale else []), bottom


def svg(plan: Plan, name: str) -> str:
    """The picture of a plan; of a path it shows the last part."""
    shown = os.path.basename(name) or name
    made = [_text(_MARGIN, 30, heading(plan, _cut(shown, 60)), 17, weight="bold")]
    made.append(_text(_MARGIN, 58, "Tiles, as high as they weigh, in the colour of their machine", 12, fill="#4a4a4a"))
    made += _row(plan, 72)
    top = 72 + _TILES + _BAND + 76
    made.append(_text(_MARGIN, top - 34, "Machines, as long as they take", 12, fill="#4a4a4a"))
    bars, bottom = _bars(plan, top)
    made += bars
    y = bottom + 50
    for words in in_words(plan):
        made.append(_text(_MARGIN, y, words, 12))
        y += 18
    size = f'width="{_WIDTH}" height="{_number(y)}" viewBox="0 0 {_WIDTH} {_number(y)}"'
    head = f'<svg xmlns="http://www.w3.org/2000/svg" {size} font-family="DejaVu Sans, Verdana, Helvetica, Arial, sans-serif" role="img">'
    title = f"<title>{escape(heading(plan, shown))}</title>"
    body = "\n".join(line for line in made if line)
    return f'<?xml version="1.0" encoding="UTF-8"?>\n{head}\n{title}\n{_box(0, 0, _WIDTH, y, "#ffffff")}\n{body}\n</svg>\n'
