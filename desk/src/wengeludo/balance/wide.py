# SPDX-License-Identifier: LicenseRef-Wengeludo
"""The rule for lists of any span: the unit, the weights, and whole flows of least cost by a solver that is not proved, checked by the call
that is. The readings are the list's, always; no float decides anything.

Unit: of 1, 2, 5 times a power of ten the largest that is at most a hundredth of the smallest deviation and divides every reading and end
of a range, unless it is finer than a ten-thousandth of that deviation; else the largest that is at most a hundredth of it; else the finest.
Weights: the greatest, of the meters that other meters check, is 2^40, the others in proportion, rounded, from 1 to 2^40.
"""

from __future__ import annotations

import math
from bisect import bisect_left, bisect_right
from dataclasses import dataclass
from fractions import Fraction
from typing import FrozenSet, List, Optional, Tuple

import wengeludo_balance as engine

from ..read.faults import Stopped
from .checked import REACH, Checked, wide_plant
from .exact import Exacts

UNITS = tuple(Fraction(10) ** k * step for k in range(-9, 10) for step in (1, 2, 5))
SQUARES = tuple(unit * unit for unit in UNITS)
PARTS = 100  # the unit is at most this part of the smallest deviation
FINEST = 10_000  # and finer than this part of it not for the sake of typed digits alone
TOPS = (engine.WIDE_WEIGHT, 2**30)  # the greatest weight; the lesser if the numbers of the places would be too large


@dataclass(frozen=True)
class Units:
    """The unit of a list, and the finest that may be tried if it does not do."""

    best: Fraction
    finest: Fraction


class NotJudged(Exception):
    """The rule gives no flows; the message says why."""


class Overfull(Exception):
    """No flow keeps within all ranges: these places must take in more than they can let out, by the list's own numbers."""

    def __init__(self, places: FrozenSet[int]) -> None:
        super().__init__(places)
        self.places = places


def solve(listed: Exacts) -> Checked:
    """Flows of least cost that the proved call has passed; Overfull if there are none in range, NotJudged if none were found. If ends of
    ranges were rounded so much that the guard does not hold, they are sought once more in the finest unit."""
    units = units_of(listed)
    if units is None:
        raise NotJudged("its readings are too large for any unit")
    found = _solved(listed, units.best)
    if found.judged.guarded or units.finest >= units.best:
        return found
    again = _solved(listed, units.finest)
    return again if again.judged.guarded else found


def _solved(listed: Exacts, unit: Fraction) -> Checked:
    """The flows in a unit."""
    smallest = _smallest(listed, counting=True)
    for top in TOPS:
        found = solved_by(listed, unit, top * smallest / (unit * unit))
        if found is not None:
            return found
    raise NotJudged("no flows were found that pass the proved check")


def solved_by(listed: Exacts, unit: Fraction, factor: Fraction) -> Optional[Checked]:
    """The flows in a unit with the weights of a factor; none if numbers of places are too large for these."""
    plant = wide_plant(listed, unit, factor)
    try:
        found = engine.wide_solve(plant)
    except engine.NotCertified:
        return None
    except engine.Refusal as refusal:
        raise _refused(listed, unit, refusal) from None
    return _passed(Checked(listed, unit, factor, plant, found.flows, found.numbers))


def _passed(checked: Checked) -> Checked:
    """The same, once the proved call has passed it here too."""
    try:
        checked.recheck()
        checked.sheet  # the engine's classes and deduced flows
    except (Stopped, engine.Refusal) as error:
        raise NotJudged(f"the flows that were found do not pass the proved check: {error}") from None
    return checked


def _refused(listed: Exacts, unit: Fraction, refusal: engine.Refusal) -> Exception:
    """Overfull places, if they are so by the list's own numbers too; else why there are no flows."""
    if refusal.number == 19 and overfull(listed, refusal.places):
        return Overfull(refusal.places)
    if refusal.number in (18, 19):
        return NotJudged(f"no whole multiples of {float(unit):g} kg/h keep within all ranges, though numbers in between may")
    return NotJudged(f"{refusal.text} ({refusal.number})")


def overfull(listed: Exacts, places: FrozenSet[int]) -> bool:
    """Whether these places must take in more than they can let out, by the list's own ranges."""
    total = Fraction(0)
    for stream in listed.streams:
        within, out = stream.target in places, stream.source in places
        end = stream.low if within else stream.high
        if within == out:
            continue
        if end is None:
            return False
        total += end if within else -end
    return total > 0


def _smallest(listed: Exacts, counting: bool = False) -> Fraction:
    """The least square of a deviation: of all meters, as deduced flows rest on those too that no other checks; or of those that count."""
    squares = {k: s.variance for k, s in enumerate(listed.streams) if s.variance is not None}
    return min((squares[k] for k in (counting and listed.counting) or squares), default=Fraction(1))


def units_of(listed: Exacts) -> Optional[Units]:
    """The units of a list; none if its readings are too large for any."""
    smallest, (near, all_) = _smallest(listed), _typed(listed)
    reach = max((abs(number) for number in near), default=Fraction(0))
    least, fine = bisect_left(UNITS, 16 * reach / (15 * REACH)), bisect_right(SQUARES, smallest / PARTS**2)
    tried = UNITS[max(least, bisect_left(SQUARES, smallest / FINEST**2)) : fine]
    if least == len(UNITS):
        return None
    step = _step(all_)
    whole = [unit for unit in tried if (step / unit).denominator == 1]
    best = whole[-1] if whole else UNITS[fine - 1] if fine > least else UNITS[least]
    return Units(best, tried[0] if tried else UNITS[least])


def _step(numbers: List[Fraction]) -> Fraction:
    """The greatest number of which all these are whole multiples."""
    shared = math.lcm(*(number.denominator for number in numbers))
    return Fraction(math.gcd(*(number.numerator * (shared // number.denominator) for number in numbers)), shared)


def _typed(listed: Exacts) -> Tuple[List[Fraction], List[Fraction]]:
    """The numbers that the flows come near: readings, and ends of ranges that a reading is beyond; and these with all ends."""
    near: List[Fraction] = []
    ends: List[Optional[Fraction]] = []
    for stream in listed.streams:
        if stream.reading is not None:
            near += [stream.reading] if stream.held == stream.reading else [stream.reading, stream.held]
            ends += [stream.low, stream.high]
    return near, near + [end for end in ends if end is not None]
