# SPDX-License-Identifier: LicenseRef-Wengeludo
"""The chart of a batch: cost over time, beside its limit."""

from __future__ import annotations

from html import escape
from typing import Callable, List, Sequence

from .batch import Row

WIDTH, HEIGHT, LEFT, RIGHT, TOP, BOTTOM = 1000, 320, 56, 16, 34, 36
Height = Callable[[float], float]
COLOURS = {"pass": "#2e7d32", "close": "#9a6700", "fail": "#c62828", "none": "#54606c"}


def chart(rows: Sequence[Row], title: str) -> str:
    """The chart as SVG. A cost far above the limit is drawn at the top, as a triangle."""
    limits = [o.limit for o in rows if o.limit]
    costs = sorted(o.cost for o in rows if o.cost is not None)
    usual = costs[int(0.98 * (len(costs) - 1))] if costs else 1.0
    full = max([1.3 * max(limits, default=1.0), min(usual * 1.1, 5 * max(limits, default=usual))])
    step = (WIDTH - LEFT - RIGHT) / max(1, len(rows) - 1)

    def y(value: float) -> float:
        return HEIGHT - BOTTOM - (HEIGHT - TOP - BOTTOM) * min(value, full) / full

    marks = "".join(_mark(o, LEFT + k * step, y, full) for k, o in enumerate(rows) if o.cost is not None)
    tick = f'y="{HEIGHT - BOTTOM + 2}" width="2" height="6" fill="#6a3d9a"'
    faults = "".join(f'<rect x="{LEFT + k * step - 1:.1f}" {tick}/>' for k, o in enumerate(rows) if o.cost is None)
    look = 'font-family="DejaVu Sans,Verdana,sans-serif" font-size="11" fill="#444"'
    return (
        f'<svg xmlns="http://www.w3.org/2000/svg" viewBox="0 0 {WIDTH} {HEIGHT}" {look}><title>{escape(title)}</title>'
        f'<rect width="{WIDTH}" height="{HEIGHT}" fill="#fff"/>'
        f'<text x="{LEFT}" y="18" font-size="13" font-weight="bold" fill="#1d252c">{escape(title)}</text>'
        + _axis(y, full) + marks + faults + _limit(rows, step, y) + _foot(rows) + "</svg>\n"
    )


def _mark(o: Row, x: float, y: Height, full: float) -> str:
    colour, cost = COLOURS.get(o.verdict, "#54606c"), o.cost or 0.0
    at, title = y(cost), f"<title>{escape(o.file)}: {cost:,.1f}</title>"
    if cost > full:
        return f'<path d="M{x - 3:.1f} {at + 5:.1f}h6l-3 -6z" fill="{colour}">{title}</path>'
    return f'<circle cx="{x:.1f}" cy="{at:.1f}" r="{1.4 if o.verdict == "pass" else 2.4}" fill="{colour}">{title}</circle>'


def _axis(y: Height, full: float) -> str:
    step = next(s * 10**e for e in range(-3, 20) for s in (1, 2, 5) if full / (s * 10**e) <= 6)
    lines, value = [], 0.0
    while value <= full:
        lines.append(f'<line x1="{LEFT}" x2="{WIDTH - RIGHT}" y1="{y(value):.1f}" y2="{y(value):.1f}" stroke="#e6eaed"/>')
        lines.append(f'<text x="{LEFT - 6}" y="{y(value) + 4:.1f}" text-anchor="end">{value:g}</text>')
        value += step
    return "".join(lines)


def _limit(rows: Sequence[Row], step: float, y: Height) -> str:
    points: List[str] = []
    for k, o in enumerate(rows):
        if o.limit:
            points.append(f"{LEFT + k * step:.1f},{y(o.limit):.1f}")
    if not points:
        return ""
    last = points[-1].split(",")[1]
    line = f'<polyline points="{" ".join(points)}" fill="none" stroke="#1d252c" stroke-width="1.2" stroke-dasharray="5 3"/>'
    look = 'text-anchor="end" fill="#1d252c" stroke="#fff" stroke-width="3" paint-order="stroke"'
    return line + f'<text x="{WIDTH - RIGHT}" y="{float(last) - 4:.1f}" {look}>limit</text>'


def _foot(rows: Sequence[Row]) -> str:
    if not rows:
        return ""
    first, last, y = escape(rows[0].file), escape(rows[-1].file), HEIGHT - 10
    middle = "cost of each file, in squared deviations; ▲ above the chart; ticks below: no sheet"
    return (
        f'<text x="{LEFT}" y="{y}">{first}</text><text x="{WIDTH - RIGHT}" y="{y}" text-anchor="end">{last}</text>'
        f'<text x="{(LEFT + WIDTH - RIGHT) / 2}" y="{y}" text-anchor="middle" fill="#777">{middle}</text>'
    )
