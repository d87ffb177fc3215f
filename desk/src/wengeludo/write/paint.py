# SPDX-License-Identifier: LicenseRef-Wengeludo
"""The drawing of a sheet: a layout painted with its numbers, as SVG without a style attribute."""

from __future__ import annotations

from dataclasses import dataclass
from html import escape
from typing import FrozenSet, List, Sequence

from ..balance.sheet import SHORT, Balance
from ..read.texts import legible
from .language import spoken
from .layout import NAME, UNIT_ROW, UNIT_SIZE, Layout
from .legend import legend
from .spots import header
from .words import FONT, GREY, LARGE, ROW, SMALL, WORST, broken, label_of, look_of, name_lines

DASHES = {"solid": "", "dashed": ' stroke-dasharray="5,3"', "dotted": ' stroke-dasharray="1.5,4"'}
RIM = 'stroke="#ffffff" stroke-width="3" paint-order="stroke"'  # of a label that covers a line all the same


@dataclass(frozen=True)
class Marks:
    """What a drawing shows beside the sheet: streams that were changed, whose meter was struck out, and the one that was chosen."""

    changed: FrozenSet[int] = frozenset()
    struck: FrozenSet[int] = frozenset()
    chosen: int = -1
    focus: bool = False  # each stream can be reached by the keyboard


PLAIN = Marks()


def paint(layout: Layout, balance: Balance, marks: Marks = PLAIN) -> str:
    """The drawing of a sheet as SVG, with its legend."""
    left, top, wide, high = layout.box
    key, key_wide, key_high = legend(balance)
    full, name = max(wide, key_wide), text(balance.site.list.name)
    size = f'viewBox="0 0 {full:.0f} {high + key_high:.0f}" width="{full:.0f}pt" height="{high + key_high:.0f}pt"'
    count = range(len(balance.site.list.pipes))
    return "".join([
        f'<svg xmlns="http://www.w3.org/2000/svg" {size} role="{"group" if marks.focus else "img"}" class="drawing" aria-label="drawing of {name}" ',
        f'font-family="{FONT}"><title>{name}</title><rect width="100%" height="100%" fill="#ffffff"/><g id="drawing">',
        f'<g transform="translate({(full - wide) / 2 - left:.1f} {-top:.1f})">',
        *(_unit(layout, balance, place) for place in range(1, len(balance.site.list.places))),
        *(f'<circle cx="{x:.1f}" cy="{y:.1f}" r="2.2" fill="{GREY}"/>' for x, y in layout.outs),
        *(_line(layout, balance, k, marks) for k in count),
        *(_label(layout, balance, k, marks) for k in count),
        f'</g><g transform="translate({(full - key_wide) / 2:.1f} {high:.1f})">{key}</g></g></svg>\n',
    ])


def text(words: str) -> str:
    """Words that may stand in XML."""
    return escape(legible(words))


def _unit(layout: Layout, balance: Balance, place: int) -> str:
    left, top, right, bottom = layout.units[place - 1]
    name, over = balance.site.place(place), place in balance.marked
    fill = "#ffd9d6" if over else "#d9e4ee" if header(name) else "#f4f6f8"
    pen = f'stroke="{WORST}" stroke-width="2.4"' if over else f'stroke="{GREY}"'
    lines, middle = broken(name, NAME), (left + right) / 2
    first = (top + bottom) / 2 + 4.2 - UNIT_ROW * (len(lines) - 1) / 2
    weight = ' font-weight="bold"' if over else ""
    rows = [f'<text x="{middle:.1f}" y="{first + UNIT_ROW * j:.1f}"{weight}>{text(line)}</text>' for j, line in enumerate(lines)]
    if over:
        rows.append(f'<text x="{left:.1f}" y="{top - 4:.1f}" text-anchor="start" font-size="{SMALL}" font-weight="bold" fill="{WORST}" {RIM}>overfull</text>')
    shape = f'<rect x="{left:.1f}" y="{top:.1f}" width="{right - left:.1f}" height="{bottom - top:.1f}" rx="{0 if header(name) else 8}" fill="{fill}" {pen}/>'
    return f'<g id="unit-{place}" class="unit" text-anchor="middle" font-size="{UNIT_SIZE}"><title>{text(name)}</title>{shape}{"".join(rows)}</g>\n'


def _classes(k: int, marks: Marks) -> str:
    return (" changed" if k in marks.changed else "") + (" struck" if k in marks.struck else "") + (" chosen" if k == marks.chosen else "")


def _line(layout: Layout, balance: Balance, k: int, marks: Marks) -> str:
    site, pipe = balance.site, balance.site.list.pipes[k]
    colour, style, width = look_of(balance, k)
    (x, y), *rest = layout.lines[k]
    path = f"M{x:g},{y:g}C" + " ".join(f"{a:g},{b:g}" for a, b in rest)
    head = " ".join(f"{a:g},{b:g}" for a, b in layout.heads[k])
    told = f"{pipe.title}: {site.place(pipe.source)} to {site.place(pipe.target)}"
    if balance.lines:
        flow = balance.lines[k].flow
        amount = "" if flow is None else spoken(f"{site.shown(flow)} kg/h, ", site.list.form.lang)
        told += f", {amount}{SHORT[balance.lines[k].kind]}"
    focus = f' tabindex="0" role="button" aria-label="{text(told)}"' if marks.focus else ""
    hit = f'<path class="hit" fill="none" stroke="none" d="{path}"/>' if marks.focus else ""
    return (
        f'<g id="stream-{k}" class="edge{_classes(k, marks)}" data-stream="{k}"{focus}><title>{text(told)}</title>{hit}'
        f'<path fill="none" stroke="{colour}" stroke-width="{width:.1f}"{DASHES[style]} d="{path}"/>'
        f'<polygon fill="{colour}" stroke="{colour}" points="{head}"/></g>\n'
    )


def _label(layout: Layout, balance: Balance, k: int, marks: Marks) -> str:
    """A label, with a white rim if units have places of the user's own: it may cover a line there."""
    label, (x, y) = label_of(balance, k), layout.labels[k]
    lang, names = balance.site.list.form.lang, len(name_lines(balance.site.list, k))
    small = [*label.small[:names], *(spoken(line, lang) for line in label.small[names:])]
    if k in marks.struck:
        small[-1:] = [f"✗ struck out; {' '.join(small[-1:])}"]
    sign = "✎ " if k in marks.changed else ""
    large = f'<tspan font-size="{LARGE}" font-weight="bold" fill="{label.colour}">{text(spoken(label.large, lang))}</tspan>'
    rows = [f'<text x="{x:.1f}" y="{y + LARGE:.1f}" fill="#666666">{sign}{text(label.number)} {large}</text>', *_small(small, x, y)]
    rim = f" {RIM}" if layout.own else ""
    return f'<g id="label-{k}" class="label{_classes(k, marks)}" data-stream="{k}" font-size="{SMALL}" text-anchor="middle"{rim}>{"".join(rows)}</g>\n'


def _small(lines: Sequence[str], x: float, y: float) -> List[str]:
    return [f'<text x="{x:.1f}" y="{y + LARGE + ROW * j:.1f}" fill="#555555">{text(line)}</text>' for j, line in enumerate(lines, 1)]
