# SPDX-License-Identifier: LicenseRef-Wengeludo
"""The unit in which the engine's own sheet of a list is drawn, and the weights that its meters then have.

A weight is a whole number from 1 to 1,000, which holds deviations from 31.6 units down to 1. The unit is the one of 1, 2, 5 times a power
of ten in which the fewest meters count with another accuracy than the list gives; of equally good ones the finest. Whether that sheet
stands, the rule of `wide` decides.
"""

from __future__ import annotations

import math
from dataclasses import dataclass
from fractions import Fraction
from typing import List, Optional, Sequence, Tuple

from ..read.lists import Pipe
from ..read.numbers import deviation_of, exact

MOST_WEIGHT = 1_000
MOST_READING = 4_000_000
MOST_RANGE = 2_000_000_000
OFF = 0.05  # a deviation this far off, in parts of itself, is told
UNITS = tuple(Fraction(10) ** k * step for k in range(-4, 10) for step in (1, 2, 5))


@dataclass(frozen=True)
class Clamp:
    """A meter that counts with another deviation than the list gives, both in kg/h."""

    pipe: Pipe
    given: float
    counts: float


def weight_of(deviation: float, unit: Fraction) -> int:
    """The weight of a meter in this unit, as near as a weight can be."""
    return min(MOST_WEIGHT, max(1, round(1_000 * float(unit) ** 2 / deviation**2)))


def _weight(pipe: Pipe, unit: Fraction) -> int:
    assert pipe.accuracy is not None
    if pipe.accuracy.weight is not None and unit == 1:
        return pipe.accuracy.weight
    return weight_of(pipe.accuracy.deviation, unit)


def clamps(pipes: Sequence[Pipe], unit: Fraction) -> List[Clamp]:
    """The meters that count, in the engine's plant, with another accuracy than the list gives."""
    counted = [Clamp(pipe, pipe.accuracy.deviation, deviation_of(_weight(pipe, unit), unit)) for pipe in pipes if pipe.accuracy]
    return [one for one in counted if abs(one.counts / one.given - 1) > OFF]


def holds(pipes: Sequence[Pipe], unit: Fraction) -> bool:
    """Whether all readings and ranges fit their fields in this unit."""
    reach = max((abs(p.reading) for p in pipes if p.reading is not None), default=0)
    ends = max((abs(end) for p in pipes for end in (p.low, p.high) if end is not None), default=0)
    return reach / unit <= MOST_READING and ends / unit <= MOST_RANGE


def choose(pipes: Sequence[Pipe]) -> Optional[Fraction]:
    """The unit of a list, none if its numbers fit in no unit. Weights in the list are in units of 1 kg/h, and then that is the unit."""
    if any(p.accuracy and p.accuracy.weight is not None for p in pipes) and holds(pipes, Fraction(1)):
        return Fraction(1)
    if not any(p.accuracy for p in pipes):
        return Fraction(1)
    deviations = [p.accuracy.deviation for p in pipes if p.accuracy]
    most, least = 2 * max(deviations), min(deviations) / 64
    fitting = [unit for unit in UNITS if holds(pipes, unit)]
    if not fitting:
        return None
    near = [unit for unit in fitting if least <= unit <= most] or fitting[:1]
    return min(near, key=lambda unit: (_clamped(deviations, float(unit)), unit))


def _clamped(deviations: Sequence[float], unit: float) -> int:
    """How many of these deviations do not count as they are in this unit."""
    count = 0
    for deviation in deviations:
        units = deviation / unit
        count += abs(math.sqrt(1_000 / min(MOST_WEIGHT, max(1, round(1_000 / units**2)))) / units - 1) > OFF
    return count


def unit_from(text: str) -> Fraction:
    """A unit that the user names; ValueError if it is none."""
    unit = Fraction(text.replace(",", "."))
    if not Fraction(1, 10_000) <= unit <= 10**9:
        raise ValueError(text)
    return unit


def meter(pipe: Pipe, unit: Fraction) -> Tuple[int, int]:
    """Weight and reading of a metered pipe, in units."""
    assert pipe.reading is not None
    return _weight(pipe, unit), round(exact(pipe.reading) / unit)


def limits(pipe: Pipe, unit: Fraction) -> Optional[Tuple[int, int]]:
    """The range in units, its ends inside that of the list; None where the list has none."""
    if pipe.low is None and pipe.high is None:
        return None
    low = -MOST_RANGE if pipe.low is None else math.ceil(exact(pipe.low) / unit)
    high = MOST_RANGE if pipe.high is None else math.floor(exact(pipe.high) / unit)
    return low, high
