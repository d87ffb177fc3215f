# SPDX-License-Identifier: LicenseRef-Wengeludo
"""The drawings of a run's page: cost over time beside its limit, a map of meters and days, the worst meter. Plain SVG."""

from __future__ import annotations

from dataclasses import dataclass
from datetime import datetime, timedelta, timezone
from html import escape
from typing import Any, Callable, List, Optional, Sequence, Tuple

from wengeludo_balance import ADJUSTED, Verdict

from . import raster
from .analysis import Analysis
from .events import Event, spans
from .findings import Finding
from .run import Run
from .weeks import WEEK

WIDTH, LEFT, RIGHT = 1180, 232, 18
INNER = WIDTH - LEFT - RIGHT
INK, SOFT, LINE, BAD, REFERENCE = "#1d252c", "#5a6670", "#d5dbe0", "#c62828", "#1565c0"
COLOURS = {Verdict.PASS: (46, 125, 50), Verdict.CLOSE: (154, 103, 0), Verdict.FAIL: (198, 40, 40)}
MARKS = {"frozen": "#6a3d9a", "zero": "#6a3d9a", "held": "#1565c0", "no signal": "#54606c"}
COLUMNS = 380  # of the map, at most
STEPS = 15  # colours of the map on each side of 0
TOP_Z = 3.0
MOST_MARKS = 200  # of events, in the map
MOST_WEEKS = 600  # that can be clicked
LONGEST = 31  # characters of a name beside the map


def svg(height: float, body: str, label: str) -> str:
    return (f'<svg xmlns="http://www.w3.org/2000/svg" viewBox="0 0 {WIDTH} {height:.0f}" width="{WIDTH}" height="{height:.0f}" '
            f'font-size="11.5" fill="{INK}" role="img" aria-label="{escape(label)}">{body}</svg>')


def picture(found: Analysis) -> str:
    """The page's drawings in one, below each other."""
    worst = worst_meter(found)
    parts = [cost_chart(found), meter_map(found), *([drift_chart(found, *worst)] if worst else [])]
    body, y = "", 0.0
    for part in parts:
        height = float(part.split('viewBox="0 0 ', 1)[1].split('"', 1)[0].split()[1])
        body += f'<g transform="translate(0 {y:.0f})">{part}</g>'
        y += height + 8
    back = f'<rect width="{WIDTH}" height="{y:.0f}" fill="#fff"/>'
    return svg(y, back + body, f"history of {found.run.list.name}").replace("<svg ", '<svg font-family="DejaVu Sans,Verdana,sans-serif" ', 1)


def text(x: float, y: float, words: str, more: str = "") -> str:
    return f'<text x="{x:.1f}" y="{y:.1f}"{" " + more if more else ""}>{escape(words)}</text>'


def signed(value: float, form: str = ",.0f") -> str:
    """A number with its sign, as people write it."""
    told = f"{value:+{form}}"
    return "0" if not told.strip("+-0.,") else told.replace("-", "−")


@dataclass(frozen=True)
class Axis:
    """The time axis of a run."""

    run: Run

    @property
    def first(self) -> int:
        return int(self.run.times[0])

    @property
    def length(self) -> int:
        return max(1, int(self.run.times[-1]) + self.run.step - self.first)

    def x(self, time: float) -> float:
        return LEFT + INNER * min(1.0, max(0.0, (time - self.first) / self.length))

    def row(self, row: int) -> float:
        """Where a row begins; past the last row the end."""
        times = self.run.times
        return self.x(int(times[row]) if row < len(times) else self.first + self.length)

    def ticks(self) -> List[Tuple[float, float, str]]:
        """Months, or days of a short run: begin, middle, name."""
        zone = self.run.zone or timezone.utc
        at = datetime.fromtimestamp(self.first, zone).replace(hour=0, minute=0, second=0)
        days = self.length / 86_400
        step = 1 if days <= 16 else 7 if days <= 92 else 0
        at = at if step else at.replace(day=1)
        found, several = [], days > 800
        while at.timestamp() < self.first + self.length:
            nxt = at + timedelta(days=step) if step else (at + timedelta(days=32)).replace(day=1)
            name = at.strftime("%-d %b") if step else at.strftime("%Y" if several else "%b")
            if not several or at.month == 1 or not found:
                found.append((at.timestamp(), nxt.timestamp() if not several else at.timestamp() + 366 * 86_400, name))
            at = nxt
        return [(a, (max(a, self.first) + min(b, self.first + self.length)) / 2, name) for a, b, name in found]

    def grid(self, top: float, bottom: float) -> str:
        """Lines where months begin, and their names below."""
        made, last = [], -100.0
        for begin, middle, name in self.ticks():
            if begin >= self.first:
                made.append(f'<path d="M{self.x(begin):.1f} {top:.1f}V{bottom:.1f}" stroke="{LINE}"/>')
            if self.x(middle) - last > 34 and (last < 0 or self.x(middle) < LEFT + INNER - 10):
                last = self.x(middle)
                made.append(text(last, bottom + 15, name, f'text-anchor="middle" fill="{SOFT}"'))
        return "".join(made)


def weeks_to_click(top: float, bottom: float) -> str:
    """Where the page's script lays a clear field over each week that has a sheet."""
    return f'<g class="weeks" data-top="{top:.0f}" data-high="{bottom - top:.0f}"></g>'


def week_fields(found: Analysis) -> List[Tuple[int, float, float]]:
    """Number, place and width of each week that has a sheet; of very many the last."""
    axis = Axis(found.run)
    edges = [(number, axis.row(week.start), axis.row(week.end)) for number, week in enumerate(found.weeks) if week.cost is not None]
    return [(number, round(x, 1), round(max(1.0, end - x), 1)) for number, x, end in edges[-MOST_WEEKS:]]


def cost_chart(found: Analysis) -> str:
    """A dot for each row, its cost on a logarithmic scale; the limit follows the degrees."""
    import numpy as np

    run, axis, height, top, bottom = found.run, Axis(found.run), 266.0, 14.0, 28.0
    tested, costs, limits = run.tested, run.costs, run.limits
    ceiling = np.log10(min(100_000, max(100.0, 1.3 * float(costs[tested].max(initial=1)))))
    where: Callable[[Any], Any] = lambda cost: (ceiling - np.log10(np.clip(cost, 0.1, 10**ceiling))) / (ceiling + 1)
    at: Callable[[float], float] = lambda cost: top + (height - top - bottom) * float(where(cost))
    body = axis.grid(top, height - bottom)
    for power in range(-1, int(ceiling) + 1):
        y = at(10.0**power)
        body += f'<path d="M{LEFT} {y:.1f}H{WIDTH - RIGHT}" stroke="{LINE}"/>' + text(LEFT - 8, y + 4, f"{10.0**power:,g}", f'text-anchor="end" fill="{SOFT}"')
    for finding in found.findings:
        x, end = axis.row(finding.start), axis.row(finding.end)
        body += f'<rect x="{x:.1f}" y="{top}" width="{max(1.5, end - x):.1f}" height="{height - top - bottom:.1f}" fill="{BAD}" opacity=".10"/>'
    body += raster.image(_dots(run, axis, tested, where(costs)), _dot_colours(), (LEFT, top, INNER, height - top - bottom))
    body += _limit_line(axis, limits, tested, at)
    body += _untested(axis, tested, height - bottom - 3)
    body += _cost_legend(run, tested, top, 10**ceiling) + weeks_to_click(top, height - bottom)
    return svg(height, body, "cost of each row over time, beside its limit")


def _untested(axis: Axis, tested: Any, y: float) -> str:
    """Marks at the bottom where rows have no test, pixel by pixel."""
    import numpy as np

    marked = np.zeros(INNER + 1, bool)
    marked[((axis.run.times[~tested] - axis.first) * INNER // axis.length).astype(int)] = True
    path = "".join(f"M{LEFT + a} {y:.1f}h{b - a}" for a, b in spans(marked))
    return f'<path d="{path}" stroke="#54606c" stroke-width="6"/>' if path else ""


def _dot_colours() -> List[raster.Colour]:
    return [(255, 255, 255, 0), (*COLOURS[Verdict.PASS], 165), (*COLOURS[Verdict.CLOSE], 255), (*COLOURS[Verdict.FAIL], 255)]


def _dots(run: Run, axis: Axis, tested: Any, where: Any) -> Any:
    """The marks of rows: passing ones first, so that no other is hidden."""
    import numpy as np

    scale, size = (2, 3) if len(run.times) < 20_000 else (1, 1)
    width, height = INNER * scale, 224 * scale
    marks = np.zeros((height, width), np.uint8)
    column = ((run.times - axis.first) * width // axis.length).astype(int)
    for number, verdict in enumerate((Verdict.PASS, Verdict.CLOSE, Verdict.FAIL), 1):
        rows = np.flatnonzero(tested & (run.sheets.verdict == verdict))
        y = np.minimum(height - 1, (where[rows] * height).astype(int))
        for dx in range(size):
            for dy in range(size):
                marks[np.minimum(height - 1, y + dy), np.minimum(width - 1, column[rows] + dx)] = number
    return marks


def _limit_line(axis: Axis, limits: Any, tested: Any, at: Callable[[float], float]) -> str:
    """The limit, which moves with the degrees; short moves of a long run are left out."""
    import numpy as np

    edges = np.r_[0, np.flatnonzero(np.diff(limits)) + 1, len(limits)]
    parts = sorted(zip(edges, edges[1:]), key=lambda part: part[0] - part[1])[:300]
    path = "".join(f"M{axis.row(int(a)):.1f} {at(limits[a]):.1f}H{axis.row(int(b)):.1f}" for a, b in sorted(parts) if limits[a])
    if not tested.any():
        return ""
    most = float(limits[tested].max())
    halo = 'text-anchor="end" font-weight="bold" stroke="#fff" stroke-width="3" paint-order="stroke"'
    return f'<path d="{path}" fill="none" stroke="{INK}" stroke-width="1.6"/>' + text(WIDTH - RIGHT - 4, at(most) - 5, f"limit {most:,.1f}", halo)


def _cost_legend(run: Run, tested: Any, top: float, ceiling: float) -> str:
    import numpy as np

    body = text(14, top + 12, "cost of each row", 'font-weight="bold"') + text(14, top + 28, "squared deviations,", f'fill="{SOFT}"')
    body += text(14, top + 43, f"logarithmic, to {ceiling:,.0f}", f'fill="{SOFT}"')
    for j, (verdict, word) in enumerate(((Verdict.PASS, "passes"), (Verdict.CLOSE, "close"), (Verdict.FAIL, "fails"))):
        count = int(np.count_nonzero(tested & (run.sheets.verdict == verdict)))
        red, green, blue = COLOURS[verdict]
        body += f'<circle cx="20" cy="{top + 66 + 17 * j:.1f}" r="4" fill="rgb({red},{green},{blue})"/>' + text(30, top + 70 + 17 * j, f"{word}: {count:,}")
    return body + f'<rect x="16" y="{top + 114:.1f}" width="8" height="6" fill="#54606c"/>' + text(30, top + 121, f"no test: {int((~tested).sum()):,}")


def palette() -> List[raster.Colour]:
    """Blue below, white at 0, red above, both ends equally strong; the last is grey, for no value."""
    made = []
    for k in range(-STEPS, STEPS + 1):
        share = (abs(k) / STEPS) ** 0.8
        end = (178, 24, 43) if k > 0 else (33, 102, 172)
        made.append((*(round(250 + (c - 250) * share) for c in end), 255))
    return [*made, (214, 218, 222, 255)]


def shades(values: Any) -> Any:
    """Palette numbers of mean z."""
    import numpy as np

    steps = np.rint(np.clip(np.nan_to_num(values) / TOP_Z, -1, 1) * STEPS).astype(int) + STEPS
    return np.where(np.isfinite(values), steps, 2 * STEPS + 1)


def _columns(daily: Any) -> Any:
    """Days, or so many days together that the map has at most its columns."""
    import numpy as np

    each = -(-len(daily) // COLUMNS)
    padded = np.full((-(-len(daily) // each) * each, daily.shape[1]), np.nan)
    padded[: len(daily)] = daily
    with np.errstate(all="ignore"):
        known = np.isfinite(padded).reshape(-1, each, daily.shape[1]).sum(1)
        return np.where(known > 0, np.nansum(padded.reshape(-1, each, daily.shape[1]), 1) / np.maximum(known, 1), np.nan), each


def meter_map(found: Analysis) -> str:
    """A line for each meter, a column for each day: the mean of z. Meters that no balance tells apart stand together."""
    run, axis, high, y, gap = found.run, Axis(found.run), 17.0, 8.0, 6.0
    columns, each = _columns(found.summary.daily)
    right = axis.x(axis.first + len(columns) * each * 86_400)
    unchecked = [int(k) for k in run.metered if found.share.get(int(k), 0) < 1e-6]
    checked = [[k for k in together if found.share.get(k, 0) >= 1e-6] for together in found.sets]
    body = ""
    for together in [part for part in checked if part]:
        box = (LEFT, y, right - LEFT, high * len(together))
        body += raster.image(shades(columns[:, together].T), palette(), box) + _names(run, together, y, high)
        body += f'<path d="M{LEFT - 4} {y + 2:.1f}h-5v{high * len(together) - 4:.1f}h5" fill="none" stroke="{INK}" stroke-width="1.2"/>' if len(together) > 1 else ""
        body += _event_marks(found, axis, together, y, high)
        y += high * len(together) + gap
    if unchecked:
        tall = high * len(unchecked)
        body += f'<rect x="{LEFT}" y="{y:.1f}" width="{right - LEFT:.1f}" height="{tall:.1f}" fill="url(#hatch)"/>' + _names(run, unchecked, y, high)
        body += _event_marks(found, axis, unchecked, y, high)
        halo = f'text-anchor="middle" fill="{SOFT}" stroke="#fff" stroke-width="4" paint-order="stroke"'
        body += text((LEFT + right) / 2, y + tall / 2 + 4, "nothing checks these meters: no drift of theirs can be seen", halo)
        y += tall + gap
    body += axis.grid(y - gap, y - gap + 4) + _map_legend(y + 28) + weeks_to_click(8.0, y - gap)
    hatch = ('<defs><pattern id="hatch" width="6" height="6" patternUnits="userSpaceOnUse" patternTransform="rotate(45)"><rect width="6" height="6" '
             'fill="#f4f5f6"/><path d="M0 0V6" stroke="#c9cfd4" stroke-width="3"/></pattern></defs>')
    return svg(y + 66, hatch + body, "mean of each meter's correction in its deviations, day by day")


def _names(run: Run, streams: Sequence[int], y: float, high: float) -> str:
    made = []
    for line, k in enumerate(streams):
        title = run.list.pipes[k].title
        short = title if len(title) <= LONGEST else title[: LONGEST - 1] + "…"
        made.append(f'<text x="{LEFT - 14}" y="{y + high * line + 12.5:.1f}" text-anchor="end" font-size="10.5">{escape(short)}<title>{escape(title)}</title></text>')
        made.append(f'<path d="M{LEFT} {y + high * line:.1f}H{WIDTH - RIGHT}" stroke="#fff" stroke-width=".7"/>' if line else "")
    return "".join(made)


def _event_marks(found: Analysis, axis: Axis, streams: Sequence[int], y: float, high: float) -> str:
    """Events of these meters, if they are among the longest of the run: a page's size does not grow with the rows."""
    made = []
    for event in [e for e in _marked(found) if e.stream in streams]:
        line, x = y + high * streams.index(event.stream), axis.row(event.start)
        told = escape(f"{found.run.list.pipes[event.stream].title}: {event.kind}, {found.run.at(event.start)}")
        if event.kind == "spike":
            made.append(f'<path d="M{x - 4:.1f} {line + high - 3:.1f}h8l-4 -8z" fill="#000" stroke="#fff" stroke-width=".8"><title>{told}</title></path>')
        else:
            wide = max(3.0, axis.row(event.end) - x)
            made.append(f'<rect x="{x:.1f}" y="{line + 2:.1f}" width="{wide:.1f}" height="{high - 4:.1f}" fill="none" stroke="{MARKS[event.kind]}" '
                        f'stroke-width="2"><title>{told}</title></rect>')
    return "".join(made)


def _marked(found: Analysis) -> List[Event]:
    """The events of meters that the map marks: all, or the longest of very many."""
    return sorted((e for e in found.events if e.stream >= 0 and e.kind != "step"), key=lambda e: e.start - e.end)[:MOST_MARKS]


def _map_legend(y: float) -> str:
    import numpy as np

    body = raster.image(np.arange(2 * STEPS + 1)[None], palette(), (LEFT, y, 200, 11))
    for value in (-3, 0, 3):
        body += text(LEFT + 100 + 33.3 * value, y + 24, signed(value), f'text-anchor="middle" fill="{SOFT}"')
    body += text(LEFT + 226, y + 10, "reads low · reads high, in deviations of the correction: an estimate, mean of a day", f'fill="{SOFT}"')
    x = LEFT + 226.0
    for word, colour in (("spike", ""), ("frozen or at zero", MARKS["frozen"]), ("held", MARKS["held"]), ("no signal", MARKS["no signal"])):
        body += (f'<rect x="{x:.1f}" y="{y + 17:.1f}" width="9" height="9" fill="none" stroke="{colour}" stroke-width="2"/>' if colour
                 else f'<path d="M{x:.1f} {y + 26:.1f}h8l-4 -8z"/>')
        body += text(x + 14, y + 26, word, f'fill="{SOFT}"')
        x += 34 + 6.4 * len(word)
    bracket = f'<path d="M{x + 4:.1f} {y + 17:.1f}h-5v9h5" fill="none" stroke="{INK}" stroke-width="1.2"/>'
    return body + bracket + text(x + 10, y + 26, "no balance tells these apart", f'fill="{SOFT}"')


def worst_meter(found: Analysis) -> Optional[Tuple[int, Optional[Finding]]]:
    """The meter to look at: of the finding that explains most, or else the one most often over the individual test."""
    meters = [f for f in found.findings if f.causes[0].kind == "meter"]
    if meters:
        worst = max(meters, key=lambda f: f.explains * f.weeks)
        return worst.causes[0].index, worst
    shares = {k: found.summary.over[k] / max(1, found.summary.tested[k]) for k in found.share if found.share[k] > 1e-6}
    return (max(shares, key=lambda k: shares[k]), None) if shares else None


def drift_chart(found: Analysis, k: int, finding: Optional[Finding]) -> str:
    """Reading less balanced flow of one meter, day by day, and what the weeks' sheets without it say it is off by."""
    import numpy as np

    run, axis, height, top, bottom = found.run, Axis(found.run), 256.0, 16.0, 28.0
    days, each = _daily_off(found, k)
    offs = finding.offs if finding else ()
    own = float(run.deviations[k])
    known = days[np.isfinite(days)]
    low = min([-1.2 * own, *([float(known.min())] if len(known) else []), *(off for _, off in offs)])
    high = max([1.2 * own, *([float(known.max())] if len(known) else []), *(off for _, off in offs)])
    low, high = low - 0.06 * (high - low), high + 0.06 * (high - low)
    at: Callable[[float], float] = lambda value: top + (height - top - bottom) * (high - value) / (high - low)
    body = _fields(found, axis, finding, top, height - bottom) + axis.grid(top, height - bottom) + _levels(low, high, at)
    for value in (own, -own):
        body += f'<path d="M{LEFT} {at(value):.1f}H{WIDTH - RIGHT}" stroke="{SOFT}" stroke-dasharray="4 4"/>'
    halo = f'text-anchor="end" fill="{SOFT}" stroke="#fff" stroke-width="3" paint-order="stroke"'
    body += text(WIDTH - RIGHT - 4, at(own) - 4, f"stated deviation ±{own:,.3g}", halo)
    dots = "".join(f"M{axis.x(axis.first + (day + 0.5) * each * 86_400):.1f} {at(mean):.1f}h0" for day, mean in enumerate(days) if np.isfinite(mean))
    body += f'<path d="{dots}" stroke="{INK}" stroke-width="4.2" stroke-linecap="round" opacity=".55"/>'
    body += "".join(_week_bar(axis, run, start, off, at) for start, off in offs)
    return svg(height, body + _drift_legend(run.list.pipes[k].title, top, bool(offs)) + weeks_to_click(top, height - bottom),
               f"drift of {run.list.pipes[k].title}")


def _daily_off(found: Analysis, k: int) -> Tuple[Any, int]:
    """Mean of reading less flow, in kg/h, of each day (or some days together) with at least half of its rows."""
    import numpy as np

    run = found.run
    good = found.used & (run.sheets.kinds[:, k] == ADJUSTED)
    days = int((run.times[-1] - run.times[0]) // 86_400) + 1
    each = -(-days // (2 * COLUMNS))
    day = ((run.times - run.times[0]) // (86_400 * each)).astype(int)
    off = (run.readings[:, k] - run.sheets.flows[:, k].astype(float)) * float(run.unit)
    count = np.bincount(day[good], minlength=int(day[-1]) + 1)
    with np.errstate(all="ignore"):
        return np.where(count * run.step >= 0.4 * 86_400, np.bincount(day[good], off[good], int(day[-1]) + 1) / count, np.nan), each


def _fields(found: Analysis, axis: Axis, finding: Optional[Finding], top: float, bottom: float) -> str:
    body = ""
    if finding:
        x, end = axis.row(finding.start), axis.row(finding.end)
        body += f'<rect x="{x:.1f}" y="{top}" width="{end - x:.1f}" height="{bottom - top:.1f}" fill="{BAD}" opacity=".09"/>'
    x, end = axis.row(found.reference.start), axis.row(found.reference.end)
    body += f'<rect x="{x:.1f}" y="{top}" width="{max(0, end - x):.1f}" height="{bottom - top:.1f}" fill="{REFERENCE}" opacity=".08"/>'
    return body + text((x + end) / 2, bottom - 6, "reference", f'text-anchor="middle" fill="{REFERENCE}"')


def _levels(low: float, high: float, at: Callable[[float], float]) -> str:
    import math

    step = next(one * 10.0**power for power in range(-4, 9) for one in (1, 2, 5) if (high - low) / (one * 10.0**power) <= 6)
    body = ""
    for k in range(math.ceil(low / step), math.floor(high / step) + 1):
        y = at(k * step)
        body += f'<path d="M{LEFT} {y:.1f}H{WIDTH - RIGHT}" stroke="{LINE if k else INK}"/>'
        body += text(LEFT - 8, y + 4, signed(k * step, ",.6g"), f'text-anchor="end" fill="{SOFT}"')
    return body


def _week_bar(axis: Axis, run: Run, start: int, off: float, at: Callable[[float], float]) -> str:
    x = axis.row(start)
    end = axis.x(int(run.times[start]) + WEEK) - 1
    return (f'<rect x="{x:.1f}" y="{at(max(off, 0)):.1f}" width="{end - x:.1f}" height="{abs(at(off) - at(0)):.1f}" fill="{BAD}" opacity=".22"/>'
            f'<path d="M{x:.1f} {at(off):.1f}H{end:.1f}" stroke="{BAD}" stroke-width="2.4"/>')


def _drift_legend(title: str, top: float, bars: bool) -> str:
    number, _, name = title.partition(" ")
    body = text(14, top + 12, number, 'font-weight="bold"')
    for line, part in enumerate(_wrapped(name, 26)[:2]):
        body += text(14, top + 27 + 14 * line, part, 'font-weight="bold"')
    body += text(14, top + 64, "reading − balanced, kg/h", f'fill="{SOFT}"')
    body += f'<circle cx="19" cy="{top + 84:.1f}" r="2.6" opacity=".6"/>' + text(30, top + 88, "mean of a day")
    if bars:
        body += f'<rect x="13" y="{top + 100:.1f}" width="12" height="9" fill="{BAD}" opacity=".22"/><path d="M13 {top + 100:.1f}h12" stroke="{BAD}" stroke-width="2.4"/>'
        body += text(30, top + 108, "off by, if a week fails:") + text(30, top + 122, "the sheet without it")
    return body


def _wrapped(words: str, most: int) -> List[str]:
    lines = [""]
    for word in words.split():
        if lines[-1] and len(lines[-1]) + len(word) + 1 > most:
            lines.append("")
        lines[-1] = f"{lines[-1]} {word}".strip()
    return lines
