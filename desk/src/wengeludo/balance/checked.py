# SPDX-License-Identifier: LicenseRef-Wengeludo
"""Checked flows: what must be kept of such a sheet, its recheck for ever without the solver, and its cost and verdict in exact fractions.

A sheet of checked flows is the list's own exact numbers, a unit, whole weights made of them by one factor, whole flows and one number for
each place. The proved call `check_flow` shows that no balanced whole flow within the ranges costs less by these weights. Cost and verdict
are of the list's own deviations: the numbers of the places bound the least cost of all balanced flows, in fractions too, from below.
"""

from __future__ import annotations

import json
import math
from dataclasses import dataclass
from fractions import Fraction
from functools import cached_property
from typing import Any, Dict, List, Optional, Tuple, Union

import wengeludo_balance as engine
from wengeludo_balance import Verdict

from ..read.faults import Stopped
from ..read.lists import MOST_STREAMS, MOST_UNITS
from .exact import Exact, Exacts
from .limits import critical

OPEN = 2**50  # where a range has no end on one side
REACH = 2**30  # no flow goes beyond so many units: the end of a range past it is no end
GUARD = Fraction(1, 100)  # the square of a tenth of a deviation
VERSION = 1


@dataclass(frozen=True)
class Judged:
    """The cost of the flows shown and a bound below which no balanced flow costs, in exact fractions; the verdict; and the square of the
    greatest distance, in deviations, by which a reading that no other meter checks was rounded to the unit."""

    cost: Fraction
    least: Fraction
    verdict: Verdict
    off: Fraction = Fraction(0)

    @property
    def guarded(self) -> bool:
        """Whether every flow is within a tenth of a deviation of the list's own least squares."""
        return max(self.cost - self.least, self.off) <= GUARD

    @property
    def far(self) -> float:
        """How far, in deviations, a flow may be at most from the list's own."""
        return math.sqrt(max(0.0, float(max(self.cost - self.least, self.off))))


@dataclass(frozen=True)
class Checked:
    """The record of a sheet of checked flows: all that a later recheck needs."""

    listed: Exacts
    unit: Fraction
    factor: Fraction  # a weight is the factor over the square of the deviation in units, rounded
    plant: engine.WidePlant
    flows: Tuple[int, ...]
    numbers: Tuple[int, ...]

    def recheck(self) -> None:
        """Weights, readings and ranges made of the list anew, then the proved call; Stopped with what does not hold."""
        if wide_plant(self.listed, self.unit, self.factor) != self.plant:
            raise Stopped("its weights, readings or ranges are not those of its list")
        try:
            engine.check_flow(self.plant, self.flows, self.numbers)
        except engine.Refusal as refusal:
            raise Stopped(f"its flows do not pass the check: {refusal.text} ({refusal.number})") from None

    @cached_property
    def sheet(self) -> engine.Sheet:
        """Classes, degrees, blanks and deduced flows, in units, by the engine: every range pinned to its flow. Its own cost and verdict
        are of no list."""
        return engine.balance(pinned(self.plant, self.flows).file())

    @cached_property
    def judged(self) -> Judged:
        """Cost and verdict."""
        cost, least = _cost(self), _least(self)
        return Judged(cost, least, _verdict(self, cost, least), _off(self))

    def to_json(self) -> str:
        """The record as text; the same text for the same record."""
        told = {
            "version": VERSION, "units": self.listed.units, "list": [_texts(s) for s in self.listed.streams], "unit": str(self.unit),
            "factor": str(self.factor), "streams": [[s.weight, s.reading, s.low, s.high] for s in self.plant.streams],
            "flows": list(self.flows), "numbers": list(self.numbers),
        }
        return json.dumps(told, separators=(",", ":"))

    @staticmethod
    def from_json(text: str) -> "Checked":
        """The record of a text; Stopped if it is none. It is not rechecked yet."""
        try:
            return _record(json.loads(text))
        except (ValueError, KeyError, TypeError, AttributeError, ZeroDivisionError) as error:
            raise Stopped(f"the record of the checked flows is damaged: {error}") from None


def wide_plant(listed: Exacts, unit: Fraction, factor: Fraction) -> engine.WidePlant:
    """The list in whole numbers of a unit, with whole weights of a factor: nothing else decides them."""
    return engine.WidePlant(listed.units, tuple(_stream(s, unit, factor) for s in listed.streams))


def _stream(stream: Exact, unit: Fraction, factor: Fraction) -> engine.Stream:
    if stream.reading is None or stream.variance is None:
        return engine.Stream(stream.source, stream.target)
    weight = max(1, min(engine.WIDE_WEIGHT, round(factor * unit * unit / stream.variance)))
    low = -OPEN if stream.low is None or stream.low < -REACH * unit else math.ceil(stream.low / unit)
    high = OPEN if stream.high is None or stream.high > REACH * unit else math.floor(stream.high / unit)
    ends = (None, None) if (low, high) == (-OPEN, OPEN) else (low, high)
    return engine.Stream(stream.source, stream.target, weight, round(stream.reading / unit), *ends)


def pinned(plant: Union[engine.Plant, engine.WidePlant], flows: Tuple[int, ...]) -> engine.Plant:
    """The plant of the engine whose only metered flows in range are these."""
    most = 4_000_000
    streams = (
        engine.Stream(s.source, s.target, 1, max(-most, min(most, flow)), flow, flow) if s.metered else engine.Stream(s.source, s.target)
        for s, flow in zip(plant.streams, flows)
    )
    return engine.Plant(plant.units, tuple(streams))


def _cost(checked: Checked) -> Fraction:
    """The cost of the flows shown, by the list's own readings and deviations. What no meter checks is at its reading put in range."""
    streams, unit = checked.listed.streams, checked.unit
    own = sum((streams[k].off(checked.flows[k] * unit) for k in checked.listed.checked), Fraction(0))
    return own + _as_read(checked.listed)


def _as_read(listed: Exacts) -> Fraction:
    return sum((listed.streams[k].off(listed.streams[k].held) for k in listed.as_read), Fraction(0))


def _off(checked: Checked) -> Fraction:
    """The square of the greatest distance, in deviations, from a reading that no other meter checks, put in range, to its whole flow."""
    streams = checked.listed.streams
    squares = [(checked.flows[k] * checked.unit - streams[k].held) ** 2 / (streams[k].variance or 1) for k in checked.listed.as_read]
    return max(squares, default=Fraction(0))


def _least(checked: Checked) -> Fraction:
    """No balanced flow within the list's ranges, in fractions too, costs less: the numbers of the places are multipliers, and whichever
    they are this is a bound from below."""
    listed, scale = checked.listed, checked.factor * checked.unit
    total = _as_read(listed)
    for k in listed.checked:
        stream = listed.streams[k]
        assert stream.reading is not None and stream.variance is not None
        price = (checked.numbers[stream.target] - checked.numbers[stream.source]) / scale
        best = stream.inside(stream.reading + price * stream.variance / 2)
        total += stream.off(best) - price * best
    return total


def _verdict(checked: Checked, cost: Fraction, least: Fraction) -> Verdict:
    """Pass if the flows shown cost no more than the limit, fail if every balanced flow costs more, close if neither is shown."""
    limit = critical(checked.sheet.degrees)
    if limit is None:
        return Verdict.NONE
    if cost <= limit:
        return Verdict.PASS
    return Verdict.FAIL if least > limit or _quarter(checked) > limit else Verdict.CLOSE


def _quarter(checked: Checked) -> Fraction:
    """Another bound from below: no flow in fractions undercuts the whole cost by more than a quarter of the summed weights, and no weight
    is off by more than the greatest share by which one was rounded. Nothing is shown (−1) if a number of the list was rounded."""
    spoilt = rounded(checked)
    if spoilt is None:
        return Fraction(-1)
    streams = checked.plant.streams
    whole = sum((s.weight or 0) * (flow - s.reading) ** 2 for s, flow in zip(streams, checked.flows) if s.metered)
    return (whole - Fraction(sum(streams[k].weight or 0 for k in checked.listed.checked), 4)) / (checked.factor * (1 + spoilt))


def rounded(checked: Checked) -> Optional[Fraction]:
    """By what share at most a weight that counts was rounded; None if a reading or an end of a range was."""
    most, unit = Fraction(0), checked.unit
    for k in checked.listed.counting:
        own, whole = checked.listed.streams[k], checked.plant.streams[k]
        if own.reading != whole.reading * unit or not _same(own.low, whole.low, unit) or not _same(own.high, whole.high, unit):
            return None
        most = max(most, abs((whole.weight or 0) * (own.variance or 0) / (checked.factor * unit * unit) - 1))
    return most


def _same(end: Optional[Fraction], whole: Optional[int], unit: Fraction) -> bool:
    """Whether the end of a range was not rounded."""
    return whole is None or abs(whole) == OPEN or end == whole * unit


def _texts(stream: Exact) -> List[Any]:
    """A stream of the list as texts of its fractions."""
    numbers = (stream.reading, stream.variance, stream.low, stream.high)
    return [stream.source, stream.target, *(None if number is None else str(number) for number in numbers)]


def _record(told: Dict[str, Any]) -> Checked:
    if told["version"] != VERSION:
        raise ValueError(f"its version is {told['version']}, and {VERSION} would do")
    streams = tuple(Exact(int(a), int(b), *(None if n is None else Fraction(n) for n in numbers)) for a, b, *numbers in told["list"])
    listed = Exacts(int(told["units"]), streams)
    rows = zip(streams, told["streams"])
    plant = engine.WidePlant(listed.units, tuple(engine.Stream(s.source, s.target, weight, reading, *ends) for s, (weight, reading, *ends) in rows))
    unit, factor = Fraction(told["unit"]), Fraction(told["factor"])
    if unit <= 0 or factor <= 0 or len(plant.streams) != len(streams) or not _sound(listed):
        raise ValueError("its unit, factor or streams are none")
    return Checked(listed, unit, factor, plant, tuple(map(int, told["flows"])), tuple(map(int, told["numbers"])))


def _sound(listed: Exacts) -> bool:
    """Whether the list of a record is one: within the limits of a list, a deviation above 0 beside each reading."""
    metered = all((s.reading is None) == (s.variance is None) and (s.variance is None or s.variance > 0) for s in listed.streams)
    placed = all(0 <= end <= listed.units for s in listed.streams for end in (s.source, s.target))
    return metered and placed and 1 <= listed.units <= MOST_UNITS and len(listed.streams) <= MOST_STREAMS
