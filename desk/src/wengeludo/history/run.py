# SPDX-License-Identifier: LicenseRef-Wengeludo
"""A run: the rows of an export in one unit, with one set of weights, and the sheet of each."""

from __future__ import annotations

from collections import Counter
from dataclasses import dataclass, field, replace
from fractions import Fraction
from pathlib import Path
from typing import Any, Dict, List, Optional, Sequence, Tuple
from zoneinfo import ZoneInfo

import wengeludo_balance as engine
from wengeludo_balance import AS_READ, FAULT, MEASURED

from ..balance import unit as units
from ..balance.exact import Exact
from ..balance.kind import SheetKind
from ..balance.limits import CRITICAL
from ..balance.sheet import SHARE
from ..explain.charges import engine_rates
from ..read.faults import Fault, Faulty, Stopped
from ..read.lists import Pipe, PipeList
from ..read.numbers import exact
from . import checked_rows, clock
from .export import Export
from .tags import Tag, Tagged

LIMITS = (0.0, *(value / 1000 for value in CRITICAL))
CHUNK = 32_768  # rows that are balanced at a time
SHORTEST = 3  # rows of one value that are kept in mind
STANDS = 0.1  # of a deviation: so near the engine's own sheets are shown
SUSPECTS = 3  # meters taken out of a row that fails, at most


@dataclass
class Run:
    """Rows and their sheets. Arrays have a row for each time and a column for each stream of the list; readings and flows are in units."""

    list: PipeList
    unit: Fraction
    plant: Any  # engine.Plant, or engine.WidePlant of checked flows
    deviations: Any  # kg/h, of each stream; 0 without a meter
    times: Any
    readings: Any
    status: Any
    sheets: engine.Rows
    zone: Optional[ZoneInfo] = None
    step: int = 3600
    notes: List[str] = field(default_factory=list)
    words: Counter = field(default_factory=Counter)
    outgoing: Tuple[int, ...] = ()
    kind: SheetKind = SheetKind.ENGINE
    variances: Any = None  # in units squared, of a measured and of a held cell of each stream
    still: Dict[int, List[Tuple[int, int, float]]] = field(default_factory=dict)  # of a stream: rows from, to and kg/h of one typed value
    tags: Tuple[Tag, ...] = ()
    typed: Any = None  # what the export shows of each tag, if that is wanted
    factor: Fraction = Fraction(1)  # of the weights of checked flows

    @property
    def metered(self) -> Any:
        """The streams that have a tag."""
        import numpy as np

        return np.array([k for k, s in enumerate(self.plant.streams) if s.metered], int)

    @property
    def usual(self) -> Any:
        """The status of a row in which every meter is measured."""
        import numpy as np

        return np.array([MEASURED if s.metered else FAULT for s in self.plant.streams], np.uint8)

    @property
    def exact(self) -> bool:
        """Whether the sheets are flows of the tool's solver that the proved call has passed, and not the engine's own."""
        return self.kind is SheetKind.CHECKED

    @property
    def limits(self) -> Any:
        """The limit of each row's cost; 0 if there is nothing to test."""
        import numpy as np

        return np.array(LIMITS)[self.sheets.degrees]

    @property
    def costs(self) -> Any:
        return self.sheets.cost / 1000

    @property
    def tested(self) -> Any:
        """The rows that have a verdict."""
        return (self.sheets.refusal == 0) & (self.sheets.verdict != engine.Verdict.NONE)

    @property
    def passed(self) -> int:
        """How many sheets passed the proved check with their place numbers, if they were checked."""
        return 0 if self.sheets.checked is None else int(((self.sheets.refusal == 0) & (self.sheets.checked == 0)).sum())

    def kg(self, amount: float) -> float:
        return float(amount) * float(self.unit)

    def at(self, row: int, form: str = "%Y-%m-%dT%H:%M", offset: bool = True) -> str:
        """The time of a row as tables show it; past the last row the end of the run."""
        time = self.times[row] if row < len(self.times) else self.times[-1] + self.step
        return clock.shown(int(time), self.zone, form, offset)

    def row_at(self, time: int) -> int:
        """The first row at or after a time."""
        import numpy as np

        return int(np.searchsorted(self.times, time))


def whole_units(values: Any, ratio: Fraction) -> Any:
    """These numbers times the ratio, rounded to whole numbers, an exact half to the even one; exact for the decimals that are shown."""
    import numpy as np

    scaled = np.rint(values * 1e6)
    plain = (np.abs(values * 1e6 - scaled) <= 1e-15 * np.abs(scaled)) & (np.abs(scaled) < 2**50)
    step = ratio / 10**6
    if step.numerator >= 2**12 or step.denominator >= 2**61:
        plain[:] = False
    product = np.where(plain, scaled, 0).astype(np.int64) * (step.numerator if plain.any() else 1)
    whole, rest = np.divmod(product, step.denominator if plain.any() else 1)
    if plain.any():
        whole += (2 * rest > step.denominator) | ((2 * rest == step.denominator) & (whole % 2 == 1))
    for at in np.flatnonzero(~plain):
        whole[at] = round(Fraction(repr(float(values[at]))) * ratio)
    return whole


def run_pipes(listed: Tagged, export: Export, path: Path) -> List[Pipe]:
    """The list's pipes as the run has them: metered by a tag, a share of the reading taken of the run's median. Faulty with all faults."""
    import numpy as np

    faults, pipes = [], [replace(pipe, reading=None, accuracy=None) for pipe in listed.list.pipes]
    for j, tag in enumerate(listed.tags):
        known = export.values[export.status[:, j] != FAULT, j]
        middle = float(np.median(known)) * float(tag.factor) if len(known) else 0.0
        pipe = pipes[tag.index]
        try:
            pipes[tag.index] = replace(pipe, reading=middle, accuracy=listed.accuracy(tag.index, middle))
        except ValueError as error:
            faults.append(Fault(str(error), pipe.row, "accuracy", pipe.label, pipe.stated))
    if faults:
        raise Faulty(path, faults)
    return pipes


def unit_of(pipes: Sequence[Pipe], reach: Dict[int, float], unit: Optional[Fraction]) -> Fraction:
    """The one unit of a run: by the rule of a list, with readings as great as the run's greatest."""
    far = [replace(pipe, reading=reach[k]) if k in reach else pipe for k, pipe in enumerate(pipes)]
    chosen = units.choose(far) if unit is None else unit
    if chosen is None:
        raise Stopped("readings or ranges are too large for any unit")
    return chosen


def plant_of(pipes: Sequence[Pipe], places: int, unit: Fraction) -> engine.Plant:
    """The run's plant: ends, weights and ranges; its readings play no part."""
    def stream(pipe: Pipe) -> engine.Stream:
        if pipe.reading is None:
            return engine.Stream(pipe.source, pipe.target)
        low, high = units.limits(pipe, unit) or (None, None)
        return engine.Stream(pipe.source, pipe.target, units.meter(pipe, unit)[0], 0, low, high)

    return engine.Plant(max(1, places - 1), tuple(map(stream, pipes)))


def _fitting(listed: Tagged, export: Export, unit: Fraction, path: Path) -> None:
    """Faulty if a reading does not fit its field in this unit."""
    import numpy as np

    faults = []
    for j, tag in enumerate(listed.tags):
        size = np.abs(np.where(export.status[:, j] != FAULT, export.values[:, j], 0)) * abs(float(tag.factor)) / float(unit)
        if size.max(initial=0) > units.MOST_READING:
            row, pipe = int(size.argmax()), listed.list.pipes[tag.index]
            wanted = f"at {clock.shown(export.times[row], None)}: in units of {float(unit):g} kg/h it is over {units.MOST_READING:,}: a larger --unit would do"
            faults.append(Fault(wanted, pipe.row, "tag", pipe.label, f"{export.values[row, j]:g}"))
    if faults:
        raise Faulty(path, faults)


def in_units(listed: Tagged, export: Export, unit: Fraction) -> Tuple[Any, Any]:
    """Readings in whole units and statuses, a column for each stream of the list."""
    import numpy as np

    shape = (len(export.times), len(listed.list.pipes))
    readings, status = np.zeros(shape, np.int32), np.full(shape, FAULT, np.uint8)
    for j, tag in enumerate(listed.tags):
        values = np.where(export.status[:, j] == FAULT, 0.0, export.values[:, j])
        readings[:, tag.index] = whole_units(values, tag.factor / unit)
        status[:, tag.index] = export.status[:, j]
    return readings, status


def standing(values: Any, status: Any, factor: Fraction) -> List[Tuple[int, int, float]]:
    """Where a measured cell has one and the same typed value for at least three rows: from, to, and the value in kg/h."""
    import numpy as np

    known = np.where(status == MEASURED, values, np.nan)
    edges = np.flatnonzero(np.r_[True, known[1:] != known[:-1]])
    ends = np.r_[edges[1:], len(known)]
    long = (ends - edges >= SHORTEST) & np.isfinite(known[edges])
    return [(int(a), int(b), float(Fraction(repr(float(known[a]))) * factor)) for a, b in zip(edges[long], ends[long])]


@dataclass(frozen=True)
class Wanted:
    """What a run is to have: a unit, threads, place numbers with the check, charges, the numbers as the export shows them."""

    unit: Optional[Fraction] = None
    threads: int = 1
    check: bool = False
    charges: bool = False
    typed: bool = False


def balanced(listed: Tagged, export: Export, path: Path, zone: Optional[ZoneInfo], asked: Wanted) -> Run:
    """The run of a list and an export: the engine's own sheets if a unit is asked for or these stand for the run, else checked flows. The
    export's numbers are let go of."""
    import numpy as np

    pipes = run_pipes(listed, export, path)
    deviations = np.array([pipe.accuracy.deviation if pipe.accuracy else 0.0 for pipe in pipes])
    still = {tag.index: standing(export.values[:, j], export.status[:, j], tag.factor) for j, tag in enumerate(listed.tags)}
    typed = export.values if asked.typed else None
    own = asked.unit is not None or any(pipe.accuracy and pipe.accuracy.weight is not None for pipe in pipes)
    made = _by_engine(listed, export, path, pipes, asked) if own else None
    if made is None:
        made = _that_stand(listed, export, path, pipes, asked)
    plant, unit, readings, status, sheets, kind, variances, notes, factor = made
    times, words = export.times, export.words
    export.values = export.status = None
    outgoing = tuple(k for k, pipe in enumerate(pipes) if pipe.target == 0)
    return Run(replace(listed.list, pipes=tuple(pipes)), unit, plant, deviations, times, readings, status, sheets, zone, clock.strided(times, export.every),
               export.notes + notes, words, outgoing, kind, variances, still, listed.tags, typed, factor)


Made = Tuple[Any, Fraction, Any, Any, engine.Rows, SheetKind, Any, List[str], Fraction]


def _by_engine(listed: Tagged, export: Export, path: Path, pipes: Sequence[Pipe], asked: Wanted, suspects: int = SUSPECTS) -> Made:
    """The engine's own sheets, in the unit that is asked for or in the run's best."""
    import numpy as np

    reach = {tag.index: _reach(export, j) * abs(float(tag.factor)) for j, tag in enumerate(listed.tags)}
    unit = unit_of(pipes, reach, asked.unit)
    _fitting(listed, export, unit, path)
    plant = plant_of(pipes, len(listed.list.places), unit)
    readings, status = in_units(listed, export, unit)
    sheets = sheets_of(plant, readings, status, engine_rates(pipes, unit) if asked.charges else None, asked, suspects)
    clamps = units.clamps([pipe for pipe in pipes if pipe.accuracy], unit)
    weights = np.array([s.weight or 1000 for s in plant.streams])
    variances = np.array([1000 / weights, 1000 / np.maximum(1, weights // 4)])
    return plant, unit, readings, status, sheets, SheetKind.ENGINE, variances, [_clamped(clamps)] if clamps else [], Fraction(1)


def _that_stand(listed: Tagged, export: Export, path: Path, pipes: Sequence[Pipe], asked: Wanted) -> Made:
    """Checked flows, unless the engine's own sheets are within a tenth of a deviation of them with the same verdicts in every row."""
    shape = shape_of(listed, export, pipes)
    if shape is None:
        return _by_engine(listed, export, path, pipes, asked)
    try:
        reach = {tag.index: _reach(export, j) * abs(float(tag.factor)) for j, tag in enumerate(listed.tags)}
        unit = unit_of(pipes, reach, None)
        _fitting(listed, export, unit, path)
        clamped = bool(units.clamps([pipe for pipe in pipes if pipe.accuracy], unit))
    except Stopped:
        clamped = True  # a reading is too large for the engine's unit
    if clamped or not _stands(listed, export, shape, plant_of(pipes, len(listed.list.places), unit), unit):
        return _checked(listed, export, shape, asked)
    return _by_engine(listed, export, path, pipes, asked)


def shape_of(listed: Tagged, export: Export, pipes: Sequence[Pipe]) -> Optional[checked_rows.Shape]:
    """The unit and the weights of checked flows, by all readings of the run; none if no unit holds them."""
    streams = []
    for pipe in pipes:
        low, high = (None if end is None else exact(end) for end in (pipe.low, pipe.high))
        streams.append(Exact(pipe.source, pipe.target, None, pipe.accuracy.variance, low, high) if pipe.accuracy else Exact(pipe.source, pipe.target))
    typed = [_grain(export, j) * abs(tag.factor) for j, tag in enumerate(listed.tags)]
    reach = max(exact(_reach(export, j)) * abs(tag.factor) for j, tag in enumerate(listed.tags))
    return checked_rows.shape_of(max(1, len(listed.list.places) - 1), streams, typed, reach)


def _grain(export: Export, j: int) -> Fraction:
    """The finest step of a tag's numbers: a power of ten, at least a millionth."""
    import numpy as np

    values = np.where(export.status[:, j] == FAULT, 0.0, export.values[:, j])
    return next((Fraction(1, 10**k) for k in range(6) if (np.abs(values * 10**k - np.rint(values * 10**k)) <= 1e-9 * (1 + np.abs(values * 10**k))).all()),
                Fraction(1, 10**6))


def _checked(listed: Tagged, export: Export, shape: checked_rows.Shape, asked: Wanted) -> Made:
    """Checked flows of all rows; with lesser weights if numbers of places were too large."""
    import numpy as np

    readings, status = in_units(listed, export, shape.unit)
    export.values = export.status = None  # half of the run's memory
    sheets = checked_rows.rows(shape, readings, status, SUSPECTS, asked.check, asked.threads)
    if (sheets.refusal == checked_rows.NOT_JUDGED).any():
        lesser = checked_rows.rows(shape.smaller(), readings, status, SUSPECTS, asked.check, asked.threads)
        fewer = (lesser.refusal > 0).sum() < (sheets.refusal > 0).sum()
        shape, sheets = (shape.smaller(), lesser) if fewer else (shape, sheets)
    variances = np.array([shape.variances, checked_rows.QUARTER * shape.variances])
    return shape.plant, shape.unit, readings, status, sheets, SheetKind.CHECKED, variances, [], shape.factor


def _stands(listed: Tagged, export: Export, shape: checked_rows.Shape, plant: engine.Plant, unit: Fraction) -> bool:
    """Whether the engine's sheets stand in every row, by the rule of a single sheet: flows within a tenth of a deviation of the checked ones,
    as read is as read, the same verdict, near the same cost. The first rows that do not end it."""
    import numpy as np

    deviations, weights = np.sqrt(shape.variances) * float(shape.unit), engine.deviation_for([s.weight or 1 for s in plant.streams])
    for first in range(0, len(export.times), checked_rows.BLOCK):
        part = slice(first, first + checked_rows.BLOCK)
        few = Export(export.times[part], export.values[part], export.status[part])
        (readings, cells), (own, _) = in_units(listed, few, shape.unit), in_units(listed, few, unit)
        sheets, other = engine.rows(plant, own, weights, cells), checked_rows.rows(shape, readings, cells)
        off = np.abs(sheets.flows * float(unit) - other.flows * float(shape.unit))
        if (sheets.refusal != other.refusal).any() or (sheets.verdict != other.verdict).any():
            return False
        near = np.where(sheets.kinds == AS_READ, 1e-9 * np.abs(own * float(unit)), STANDS * deviations)  # what no meter checks is as read
        if (off > near)[cells != FAULT].any():
            return False
        limits = np.array(LIMITS)[other.degrees]
        if (np.abs(sheets.cost / 1000 - other.cost / 1000) > float(SHARE) * np.maximum(np.where(limits > 0, limits, 1), other.cost / 1000)).any():
            return False
    return True


def _reach(export: Export, j: int) -> float:
    import numpy as np

    return float(np.abs(np.where(export.status[:, j] == FAULT, 0.0, export.values[:, j])).max(initial=0))


def sheets_of(plant: engine.Plant, readings: Any, status: Any, rates: Optional[Sequence[int]], asked: Wanted, suspects: int = SUSPECTS) -> engine.Rows:
    """The sheets of all rows by the engine, some ten thousand at a time."""
    deviations = engine.deviation_for([s.weight or 1 for s in plant.streams])
    whole = checked_rows.Whole(len(readings))
    for first in range(0, max(1, len(readings)), CHUNK):
        part = slice(first, first + CHUNK)
        whole.put(part, engine.rows(plant, readings[part], deviations, status[part], suspects=suspects, rates=rates, check=asked.check, threads=asked.threads).arrays())
    return engine.Rows(**whole.arrays)


def _clamped(clamps: Sequence[units.Clamp]) -> str:
    told = ", ".join(f"{c.pipe.label} (±{c.given:.3g} as ±{c.counts:.3g})" for c in clamps)
    return f"{len(clamps)} meters count with another accuracy than the list gives, as no unit holds all: {told}."
