# SPDX-License-Identifier: LicenseRef-Wengeludo
"""What a stream says in a drawing: its label, colour, style and width.

Line style tells how a number is known (solid metered, dashed deduced, dotted not known), the width grows with the root of the flow, only
the worst meter is red and others over two deviations orange, each with a sign of its own: colour never stands alone.
"""

from __future__ import annotations

import math
import textwrap
from dataclasses import dataclass
from typing import List, Tuple

from wengeludo_balance import Kind

from ..balance.sheet import Balance, Line, sigmas
from ..read.lists import PipeList

COLOURS = {Kind.ADJUSTED: "#1b6ca8", Kind.AS_READ: "#8a6d00", Kind.GIVEN: "#2e7d32", Kind.WITHHELD: "#6a3d9a"}
STYLES = {Kind.ADJUSTED: "solid", Kind.AS_READ: "solid", Kind.GIVEN: "dashed", Kind.WITHHELD: "dotted"}
WORST, NOTABLE, GREY = "#c62828", "#a65b00", "#54606c"
BLANK = 2.2  # the width of a dotted line, which is faint when thin
FONT = "DejaVu Sans,Verdana,sans-serif"
SMALL, LARGE, ROW, BOLD = 9.0, 13.0, 11.0, 1.13  # BOLD: how much wider bold letters are
OWN = 22  # letters in a line of a label in the user's own drawing
NARROW, BROAD = frozenset("iljtfrI.,:;'|!()[]{} "), frozenset("mwMWGOQ@%—…→")


@dataclass(frozen=True)
class Label:
    """The number of a stream, its flow, large, and small lines below."""

    number: str
    large: str
    small: Tuple[str, ...]
    colour: str

    @property
    def size(self) -> Tuple[float, float]:
        """Width and height, in points."""
        first = width_of(self.number + " ", SMALL) + BOLD * width_of(self.large, LARGE)
        return max([first, *(width_of(text, SMALL) for text in self.small)]), LARGE + 3 + ROW * len(self.small)


def width_of(text: str, size: float) -> float:
    """About how wide a text is in points, in letters of this size."""
    parts = (0.38 if c in NARROW else 0.9 if c in BROAD else 1.0 if c > "\u2e80" else 0.7 if c.isupper() else 0.615 for c in text)
    return size * sum(parts)


def broken(text: str, width: int, more: int = 6) -> List[str]:
    """A name in lines of bearable and about equal length, none more than so many letters longer than their mean."""
    count = -(-len(text) // width) or 1
    return textwrap.wrap(text, max(12, len(text) // count + more)) or [""]


def name_lines(pipes: PipeList, k: int) -> List[str]:
    """The name of a stream in lines, shorter ones in the user's own drawing."""
    what = pipes.pipes[k].what
    return [line for line in (broken(what, OWN, 2) if pipes.spots else broken(what, 36)) if line]


def label_of(balance: Balance, k: int) -> Label:
    """Number of the stream, large flow; name, reading and correction small."""
    pipes = balance.site.list
    big, small = _range_words(balance, k) if balance.flowless else _words(balance, k)
    return Label(pipes.pipes[k].label, big, (*name_lines(pipes, k), *(text for text in small if text)), look_of(balance, k)[0])


def look_of(balance: Balance, k: int) -> Tuple[str, str, float]:
    """Colour, style and width of a stream."""
    if balance.flowless:
        stream = balance.site.plant.streams[k]
        crossing = (stream.source in balance.marked) != (stream.target in balance.marked)
        return WORST if crossing else GREY, "solid" if stream.metered else "dashed", 2.4 if crossing else 1.2
    line = balance.lines[k]
    greatest = max((abs(other.flow or 0) for other in balance.lines), default=0) or 1
    width = BLANK if line.flow is None else 1.1 + 3.4 * math.sqrt(abs(line.flow) / greatest)
    return mark(balance, k)[0] or COLOURS[line.kind], STYLES[line.kind], width


def mark(balance: Balance, k: int) -> Tuple[str, str]:
    """Colour and sign of a correction that is worth a look; empty for any other."""
    if k in balance.worst:
        return WORST, "⚠"
    return (NOTABLE, "▲") if balance.lines[k].notable else ("", "")


def _words(balance: Balance, k: int) -> Tuple[str, List[str]]:
    line, site = balance.lines[k], balance.site
    if line.flow is None:
        return "?", ["not known"]
    back = " ↩" if line.flow < 0 else ""
    return site.shown(line.flow) + back, [_small(balance, line, mark(balance, k)[1])]


def _small(balance: Balance, line: Line, sign: str) -> str:
    site = balance.site
    if line.kind is Kind.GIVEN:
        return f"deduced, ± {site.shown(line.spread or 0)}"
    reading = f"read {site.shown(line.pipe.reading or 0)}"
    end = f", at its {line.held} end" if line.held else ""
    if line.kind is Kind.AS_READ:
        return f"{reading}, unchecked{end}"
    test = f", test {abs(line.test or 0):.1f}" if sign else ""
    return f"{sign} {reading}, {sigmas(line.sigmas)}σ{test}{end}".strip()


def _range_words(balance: Balance, k: int) -> Tuple[str, List[str]]:
    """Where there is no sheet: the ends that matter, and the reading."""
    site, stream, pipe = balance.site, balance.site.plant.streams[k], balance.site.list.pipes[k]
    read = [] if pipe.reading is None else [f"read {site.shown(pipe.reading)}"]
    within, out = stream.target in balance.marked, stream.source in balance.marked
    if within == out:
        return "", read or ["no meter"]
    end = pipe.low if within else pipe.high
    return f"{'≥' if within else '≤'} {site.shown(end or 0)}", [("in, at least" if within else "out, at most"), *read]
