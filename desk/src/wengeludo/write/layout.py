# SPDX-License-Identifier: LicenseRef-Wengeludo
"""Where units, streams and labels stand in a drawing: laid out once by graphviz, plain data that can be kept, painted as often as one likes.

It depends on names, ends and places of the user's own, and on the sizes of the labels; never on a reading. No name goes to graphviz.
"""

from __future__ import annotations

import json
import math
from dataclasses import asdict, dataclass, replace
from typing import Any, Dict, List, Mapping, Optional, Sequence, Tuple

from ..balance.sheet import Balance
from ..read.faults import Stopped
from ..read.lists import PipeList
from .beside import Box, Point, placed, points_along
from .spots import CENTIMETRE, WIDE, all_spots, graphviz, header, outside_spots
from .words import broken, label_of, name_lines, width_of

VERSION = 1
UNIT_SIZE, UNIT_ROW, NAME = 12.0, 15.0, 28  # letters of a unit's name, its lines, letters in a line
NUMBER, REMARK = 8, 21  # letters of a flow and of the small line below it, in a layout for many sheets
HEAD = (7.0, 2.45)  # length and half the width of an arrow's head
ROUND = 2


@dataclass(frozen=True)
class Layout:
    """A drawing's places, in points to the right and down: its box, the units' boxes, the open ends that lead outside, and for each stream
    its line (knots of Bézier pieces), its head, and the middle and the top of its label."""

    box: Box
    units: Tuple[Box, ...]
    outs: Tuple[Point, ...]
    lines: Tuple[Tuple[Point, ...], ...]
    heads: Tuple[Tuple[Point, ...], ...]
    labels: Tuple[Point, ...]
    own: bool = False  # units where the user has put them
    version: int = VERSION

    def plain(self) -> Dict[str, Any]:
        """The same as lists and numbers, for JSON."""
        told: Dict[str, Any] = json.loads(json.dumps(asdict(self)))
        return told

    def fits(self, pipes: PipeList) -> bool:
        """Whether it has a place for every unit and stream of a list."""
        return len(self.units) == len(pipes.places) - 1 and len(self.lines) == len(self.heads) == len(self.labels) == len(pipes.pipes)


def layout_from(plain: Mapping[str, Any]) -> Layout:
    """The layout of what `plain` gave; ValueError if it is none."""
    try:
        if plain["version"] != VERSION:
            raise ValueError("a layout of another version")
        units = tuple((float(a), float(b), float(c), float(d)) for a, b, c, d in plain["units"])
        lines, heads = (tuple(_points(one) for one in plain[name]) for name in ("lines", "heads"))
        left, top, wide, high = map(float, plain["box"])
        return Layout((left, top, wide, high), units, _points(plain["outs"]), lines, heads, _points(plain["labels"]), bool(plain["own"]))
    except (KeyError, TypeError) as error:
        raise ValueError(f"no layout: {error}") from None


def _points(pairs: Sequence[Sequence[float]]) -> Tuple[Point, ...]:
    return tuple((float(x), float(y)) for x, y in pairs)


def layout_of(balance: Balance, lasting: bool = False) -> Layout:
    """The layout for a sheet; lasting: with room in each label for the numbers of other sheets of the same list."""
    pipes = balance.site.list
    sizes = [label_of(balance, k).size for k in range(len(pipes.pipes))]
    if lasting:
        sizes = [_larger(size, _general(pipes, k)) if not pipes.spots else size for k, size in enumerate(sizes)]
    return _own(pipes, sizes) if pipes.spots else _laid_out(pipes, sizes)


def _general(pipes: PipeList, k: int) -> Point:
    """The room that a label may need on another sheet."""
    names = name_lines(pipes, k)
    wide = max([5.6 * (len(pipes.pipes[k].label) + 1) + 8.9 * NUMBER, 5.6 * REMARK, *(5.6 * len(line) for line in names)])
    return wide, 16 + 11.0 * (len(names) + 1)


def _larger(one: Point, other: Point) -> Point:
    return max(one[0], other[0]), max(one[1], other[1])


def unit_size(name: str) -> Point:
    """Width and height of a unit, in points; a header is a wide bar."""
    lines = broken(name, NAME)
    wide = max(width_of(line, UNIT_SIZE) for line in lines) + 20
    high = UNIT_ROW * len(lines) + 12
    return (max(WIDE * 72, wide), UNIT_ROW * len(lines) + 4) if header(name) else (max(54.0, wide), high)


def _laid_out(pipes: PipeList, sizes: Sequence[Point]) -> Layout:
    """A layout by graphviz, from above to below."""
    table = '<<table border="0" cellspacing="0" cellpadding="0"><tr><td fixedsize="true" width="{:.0f}" height="{:.0f}"></td></tr></table>>'
    labels = [f", label={table.format(wide + 10, high)}" for wide, high in sizes]
    source = _source(pipes, {}, {}, labels, "rankdir=TB, nodesep=0.35, ranksep=0.3")
    return _read(pipes, json.loads(graphviz(["dot", "-Tjson0"], source)), sizes)


def _own(pipes: PipeList, sizes: Sequence[Point]) -> Layout:
    """A layout with the units where the user has put them, and labels beside their lines."""
    spots = all_spots(pipes)
    ends = outside_spots(replace(pipes, spots=spots))
    source = _source(pipes, spots, ends, [""] * len(pipes.pipes), "splines=true")
    found = replace(_read(pipes, json.loads(graphviz(["neato", "-n1", "-Tjson0"], source)), sizes), own=True)
    boxes = placed({k: points_along(line) for k, line in enumerate(found.lines)}, found.units, sizes)
    labels = tuple(((box[0] + box[2]) / 2, box[1]) for _, box in sorted(boxes.items()))
    return replace(found, labels=labels, box=_around([*found.units, *boxes.values(), *((x, y, x, y) for line in found.lines for x, y in line)]))


def _around(boxes: Sequence[Box]) -> Box:
    """Left, top, width and height of all that is drawn, with a rim."""
    left, top = (min(box[k] for box in boxes) - 6 for k in (0, 1))
    right, bottom = (max(box[k] for box in boxes) + 6 for k in (2, 3))
    return left, top, right - left, bottom - top


def _source(pipes: PipeList, spots: Mapping[int, Point], ends: Mapping[int, Point], labels: Sequence[str], look: str) -> str:
    """What graphviz is given: boxes and lines by number, without any name."""
    lines = ["digraph {", f"graph [{look}]; node [shape=box, fixedsize=true, label=\"\"]; edge [arrowsize=0.7];"]
    for place in range(1, len(pipes.places)):
        wide, high = unit_size(pipes.places[place])
        lines.append(f"p{place} [width={wide / 72:.3f}, height={high / 72:.3f}{_at(spots.get(place))}];")
    for k, pipe in enumerate(pipes.pipes):
        tips = []
        for place, end in ((pipe.source, "from"), (pipe.target, "to")):
            tips.append(f"p{place}" if place else f"o{k}{end}")
            if not place:
                lines.append(f"o{k}{end} [shape=point, width=0.06{_at(ends.get(k))}];")
        lines.append(f'{tips[0]} -> {tips[1]} [id="{k}"{labels[k]}];')
    return "\n".join([*lines, "}"])


def _at(spot: Optional[Point]) -> str:
    """Centimetres to the right and down, as points to the right and up."""
    return f', pos="{spot[0] * CENTIMETRE:.1f},{-spot[1] * CENTIMETRE:.1f}!"' if spot else ""


def _read(pipes: PipeList, told: Mapping[str, Any], sizes: Sequence[Point]) -> Layout:
    """The layout that graphviz tells, its heights turned round."""
    left, bottom, right, top = (float(x) for x in told["bb"].split(","))
    units: Dict[int, Box] = {}
    outs: List[Point] = []
    for node in told.get("objects", ()):
        x, y = _turned(node["pos"])[0]
        if node["name"].startswith("o"):
            outs.append((x, y))
            continue
        wide, high = 36 * float(node["width"]), 36 * float(node["height"])
        units[int(node["name"][1:])] = (x - wide, y - high, x + wide, y + high)
    edges = {int(edge["id"]): edge for edge in told.get("edges", ())}
    if sorted(edges) != list(range(len(pipes.pipes))) or any("pos" not in edge for edge in edges.values()):
        raise Stopped("no drawing: graphviz could not lay it out")
    ways = [_way(edges[k]["pos"]) for k in range(len(pipes.pipes))]
    middles = [_turned(edges[k]["lp"])[0] if "lp" in edges[k] else (0.0, 0.0) for k in range(len(pipes.pipes))]
    labels = tuple((x + 4, y - sizes[k][1] / 2) for k, (x, y) in enumerate(middles))
    box = (left - 6, -top - 6, right - left + 12, top - bottom + 12)
    boxes = tuple(units[place] for place in range(1, len(pipes.places)))
    return Layout(box, boxes, tuple(outs), tuple(line for line, _ in ways), tuple(head for _, head in ways), labels)


def _turned(text: str) -> List[Point]:
    """Points of graphviz, which count up, as points that count down."""
    pairs = (pair.strip("!").split(",") for pair in text.split())
    return [(round(float(x), ROUND), round(-float(y), ROUND)) for x, y in pairs]


def _way(text: str) -> Tuple[Tuple[Point, ...], Tuple[Point, ...]]:
    """The knots of a line, and its arrow's head."""
    words = text.split(";")[0].split()
    tip = next((word[2:] for word in words if word.startswith("e,")), None)
    knots = tuple(_turned(" ".join(word for word in words if word[:2] not in ("e,", "s,"))))
    if tip is None:
        return knots, ()
    return knots, _head(knots[-1], _turned(tip)[0])


def _head(start: Point, tip: Point) -> Tuple[Point, ...]:
    """The triangle of an arrow that ends at its tip."""
    long = math.dist(start, tip) or 1.0
    along = ((tip[0] - start[0]) / long, (tip[1] - start[1]) / long)
    back = (tip[0] - HEAD[0] * along[0], tip[1] - HEAD[0] * along[1])
    sides = [(back[0] - way * HEAD[1] * along[1], back[1] + way * HEAD[1] * along[0]) for way in (1, -1)]
    return tuple((round(x, ROUND), round(y, ROUND)) for x, y in (tip, *sides))
