# SPDX-License-Identifier: LicenseRef-Wengeludo
"""Weeks: the mean readings of a week, held against the reference, balanced by the engine; and if that fails, what explains it.

A meter's stated accuracy is mostly calibration, which averaging does not remove: a week is held against the reference, not against zero.
Its deviations are an estimate of the tool; the sheets, one for each meter left out and one for each unit with a pipe more to the outside,
are the engine's.
"""

from __future__ import annotations

import math
from dataclasses import dataclass, replace
from fractions import Fraction
from typing import Any, List, Optional, Tuple

import wengeludo_balance as engine
from wengeludo_balance import ADJUSTED, AS_READ, FAULT, GIVEN, MEASURED, Verdict

from ..balance import unit as units, wide
from ..balance.exact import Exact
from ..balance.graph import groups
from . import checked_rows
from .estimates import Summary, checks
from .run import LIMITS, Run

WEEK, DAY = 7 * 86_400, 86_400
LEAST_DAYS = 2.0  # of rows that can be used
REFERENCE_DAYS = 28
MOST_STEPS = 3
NEAR = 0.02  # of what the best explanation takes off the cost
MOST_MEMORY = 0.8
LEAST_SPREAD = 0.15  # of a day's mean z


@dataclass(frozen=True)
class Candidate:
    """What would explain a week: a meter that is off, or a leak at a unit; how far off or how large, in kg/h; the cost then; the flow."""

    kind: str
    index: int
    off: float
    cost: float
    flow: float

    @property
    def name(self) -> Tuple[str, int]:
        return self.kind, self.index


@dataclass(frozen=True)
class Week:
    """A week by its first row and the one past its last: cost, limit and verdict of its mean readings, and what explains it, step by step,
    each step with all candidates that explain it equally well. No cost: too few rows can be used."""

    start: int
    end: int
    cost: Optional[float] = None
    limit: float = 0.0
    fails: bool = False
    steps: Tuple[Tuple[Candidate, ...], ...] = ()
    readings: Any = None
    flows: Any = None
    kinds: str = ""


@dataclass(frozen=True)
class Reference:
    """What the reference period shows: its rows, each meter's mean correction, and what is left of a variance in a day's mean."""

    start: int
    end: int
    used: Any
    offset: Any
    share: float


def reference_rows(run: Run, given: Optional[Tuple[int, int]]) -> Tuple[int, int]:
    """First row and past the last of the reference: the first 28 days, or what is asked for."""
    start, end = given or (int(run.times[0]), int(run.times[0]) + REFERENCE_DAYS * DAY)
    return run.row_at(start), run.row_at(end)


def reference_of(run: Run, rows: Tuple[int, int], used: Any, summary: Summary) -> Reference:
    """Mean corrections of the reference, and the share of a variance that the mean of a day keeps."""
    import numpy as np

    at = np.flatnonzero(used[slice(*rows)]) + rows[0]
    none = np.zeros(len(run.plant.streams))
    offset = (run.readings[at] - run.sheets.flows[at].astype(float)).mean(0) if len(at) else none
    days = [int((run.times[min(row, len(run.times) - 1)] - run.times[0]) // DAY) for row in rows]
    adjusted = checks(run.plant, run.variances, run.usual).adjusted
    daily = summary.daily_used[days[0] : days[1] + (rows[1] >= len(run.times))][:, adjusted]
    daily = daily[:, np.isfinite(daily).sum(0) > 2]
    if len(at) < 2 or not daily.size:
        return Reference(*rows, at, offset, 1.0)
    off = daily - np.nanmean(daily, 0)
    spread = np.maximum(np.nanstd(daily, 0, ddof=1), LEAST_SPREAD)
    memory = float(np.clip(np.nansum(off[1:] * off[:-1]) / max(np.nansum(off * off), 1e-12) + 1 / len(off), 0, MOST_MEMORY))
    return Reference(*rows, at, offset, float(np.mean(spread**2)) * (1 + memory) / (1 - memory))


def weeks(run: Run, used: Any, reference: Reference) -> List[Week]:
    """Every week of a run, from its first row on."""
    import numpy as np

    first, last = int(run.times[0]), int(run.times[-1])
    found = []
    for start in range(first, last + 1, WEEK):
        a, b = run.row_at(start), run.row_at(start + WEEK)
        rows = np.flatnonzero(used[a:b]) + a
        if len(rows) * run.step < LEAST_DAYS * DAY or len(reference.used) * run.step < LEAST_DAYS * DAY:
            found.append(Week(a, b))
            continue
        shrink = math.sqrt(reference.share * DAY / run.step * (1 / len(rows) + 1 / len(reference.used)))
        mean = run.readings[rows].mean(0, dtype=float) - reference.offset
        found.append(_week(run, a, b, mean * float(run.unit), run.deviations * shrink))
    return found


def finer(deviations: Any) -> float:
    """The unit in which the fewest of these deviations count as another; of equal ones the finest."""
    import numpy as np

    def off(unit: float) -> int:
        held = deviations / unit
        return int(np.count_nonzero(np.abs(np.sqrt(1000 / np.clip(np.rint(1000 / held**2), 1, 1000)) / held - 1) > units.OFF))

    return min((step * 10.0**power for power in range(-5, 6) for step in (1, 2, 5)), key=lambda unit: (off(unit), unit))


@dataclass
class Trial:
    """A plant of mean readings, from which meters are taken and to which leaks are added: by the engine's sheets, or by checked flows if
    the run is of those. Readings are in units, variances in kg/h squared, 0 without a meter."""

    plant: Any
    unit: float
    variances: Any
    readings: Any
    exact: bool = False
    gone: Tuple[int, ...] = ()
    leaks: Tuple[int, ...] = ()

    def sheets(self, metered: Any) -> engine.Rows:
        """A sheet for each row of `metered`: which streams keep their meters."""
        import numpy as np

        rows, more = len(metered), len(self.leaks)
        status = np.hstack([np.where(metered, MEASURED, FAULT), np.full((rows, more), FAULT)]).astype(np.uint8)
        readings = np.hstack([np.tile(self.readings, (rows, 1)), np.zeros((rows, more))])
        if self.exact:
            return checked_rows.rows(self.shape, readings, status)
        extra = tuple(engine.Stream(place, 0) for place in self.leaks)
        plant = engine.Plant(self.plant.units, tuple(engine.Stream(s.source, s.target) for s in self.plant.streams) + extra)
        return engine.rows(plant, readings, np.r_[engine.deviation_for(np.maximum(self.weights, 1)), np.ones(more)], status)

    @property
    def weights(self) -> Any:
        """The engine's weights; 0 without a meter."""
        import numpy as np

        made = np.clip(np.rint(1000 * self.unit**2 / np.maximum(self.variances, 1e-30)), 1, 1000)
        return np.where(self.variances > 0, made, 0).astype(int)

    @property
    def shape(self) -> checked_rows.Shape:
        """The same for checked flows, in this unit."""
        unit = Fraction(f"{self.unit:.9g}")
        listed = [Exact(s.source, s.target, None, Fraction(f"{v:.9g}")) if v > 0 else Exact(s.source, s.target) for s, v in zip(self.plant.streams, self.variances)]
        smallest = min(s.variance for s in listed if s.variance is not None)
        listed += [Exact(place, 0) for place in self.leaks]
        return checked_rows.Shape(self.plant.units, tuple(listed), unit, wide.TOPS[0] * smallest / (unit * unit))

    def slack(self, kinds: Any) -> float:
        """What rounding to whole units can make of a cost: a quarter of the weights of the checked meters."""
        each = self.unit**2 / self.variances[kinds == ADJUSTED] if self.exact else self.weights[kinds == ADJUSTED] / 1000
        return 0.25 * float(each.sum())

    def without(self) -> Any:
        """Which streams keep their meters, as it stands."""
        kept = self.variances > 0
        kept[list(self.gone)] = False
        return kept[None]

    def taken(self, candidate: Candidate) -> "Trial":
        """The same with a candidate taken as the explanation."""
        meter = candidate.kind == "meter"
        return replace(self, gone=self.gone + ((candidate.index,) if meter else ()), leaks=self.leaks + (() if meter else (candidate.index,)))

    def metered_too(self, k: int, flow: float, variance: float) -> "Trial":
        """The same with a meter more, which reads this flow, in units."""
        readings, variances = self.readings.copy(), self.variances.copy()
        readings[k], variances[k] = flow, variance
        return replace(self, readings=readings, variances=variances)


def trial_of(run: Run, mean: Any, deviations: Any) -> Trial:
    """The plant of mean readings with these deviations, both in kg/h, in a unit of its own."""
    import numpy as np

    metered = run.deviations > 0
    reach = float(np.abs(mean[metered]).max(initial=0))
    if run.exact:
        unit = max(float(_fine(float(deviations[metered].min()) / wide.PARTS)), float(_fine(reach * 2 / checked_rows.REACH)) * 2)
    else:
        unit = max(finer(deviations[metered]), reach / units.MOST_READING)
    return Trial(run.plant, unit, np.where(metered, deviations**2, 0.0), np.where(metered, np.rint(mean / unit), 0), run.exact)


def _fine(size: float) -> Fraction:
    """The greatest unit of 1, 2, 5 times a power of ten that is at most so large."""
    return max((unit for unit in wide.UNITS if unit <= size), default=wide.UNITS[0])


def _week(run: Run, start: int, end: int, mean: Any, deviations: Any) -> Week:
    trial = trial_of(run, mean, deviations)
    first = trial.sheets(trial.without())
    if first.refusal[0]:
        return Week(start, end)
    sheet, steps = first, []
    while sheet.verdict[0] == Verdict.FAIL and len(steps) < MOST_STEPS:
        near = _explanations(trial, sheet, mean, deviations)
        if not near:
            break
        steps.append(near)
        trial = trial.taken(near[0])
        sheet = trial.sheets(trial.without())
    fails = bool(first.verdict[0] == Verdict.FAIL)
    kinds = "".join({ADJUSTED: "A", AS_READ: "R", GIVEN: "G"}.get(int(kind), "W") for kind in first.kinds[0])
    return Week(start, end, float(first.cost[0]) / 1000, LIMITS[first.degrees[0]], fails, tuple(steps), mean, first.flows[0] * trial.unit, kinds)


def _explanations(trial: Trial, sheet: engine.Rows, mean: Any, deviations: Any) -> Tuple[Candidate, ...]:
    """What takes most off the cost, and all that does so equally well: within what rounding to whole units can be, or 2 per cent. First
    the meter that would be off by the fewest of its own deviations; leaks come last, and run outwards."""
    tried = _meters_out(trial, sheet, mean) + _leaks(trial)
    if not tried:
        return ()
    least, cost = min(c.cost for c in tried), float(sheet.cost[0]) / 1000
    slack = trial.slack(sheet.kinds[0, : len(trial.variances)])
    near = [c for c in tried if c.cost <= least + max(slack, NEAR * (cost - least))]
    own = sorted(near, key=lambda c: (c.kind == "leak", abs(c.off) / deviations[c.index] if c.kind == "meter" else abs(c.off)))
    return tuple(c for c in own if c.kind == "meter" or c.off > 0) or tuple(own)


def _meters_out(trial: Trial, sheet: engine.Rows, mean: Any) -> List[Candidate]:
    """Each checked meter as if it were none."""
    import numpy as np

    streams = len(trial.variances)
    checked = np.flatnonzero(sheet.kinds[0, :streams] == ADJUSTED)
    kept = np.repeat(trial.without(), len(checked), 0)
    kept[np.arange(len(checked)), checked] = False
    made = trial.sheets(kept) if len(checked) else None
    flows = [float(made.flows[j, k]) * trial.unit for j, k in enumerate(checked)] if made else []
    return [Candidate("meter", int(k), float(mean[k]) - flow, float(made.cost[j]) / 1000, flow) for j, (k, flow) in enumerate(zip(checked, flows))]


def _leaks(trial: Trial) -> List[Candidate]:
    """Each unit with one pipe more to the outside. Units that pipes without meters join leak alike, so one sheet does for them."""
    streams = [engine.Stream(s.source, s.target) for s in trial.plant.streams]
    bare = [s for s, kept in zip(streams, trial.without()[0]) if not kept] + [engine.Stream(place, 0) for place in trial.leaks]
    found = []
    for group in groups(bare, trial.plant.units):
        places = [place for place in sorted(group) if place and place not in trial.leaks]
        if places and 0 not in group:
            more = trial.taken(Candidate("leak", places[0], 0, 0, 0))
            made = more.sheets(more.without())
            if not made.refusal[0] and made.kinds[0, -1] == GIVEN:
                size = float(made.flows[0, -1]) * trial.unit
                found += [Candidate("leak", place, size, float(made.cost[0]) / 1000, size) for place in places]
    return found
