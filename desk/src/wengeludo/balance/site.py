# SPDX-License-Identifier: LicenseRef-Wengeludo
"""A site: a pipe list, the unit of its flows, and its plant in that unit."""

from __future__ import annotations

import difflib
from dataclasses import dataclass
from fractions import Fraction
from functools import cached_property
from pathlib import Path
from typing import List, Optional, Tuple

import wengeludo_balance as engine

from ..read.faults import Fault, Faulty
from ..read.lists import Asked, Pipe, PipeList, read_list
from ..read.numbers import exact
from ..read.plant_files import unit_beside, unpacked
from . import unit as units
from . import wide
from .exact import Exacts, exacts_of

MOST_DECIMALS = 9


@dataclass(frozen=True)
class Site:
    """A list, the unit of its flows in kg/h, and its plant in that unit. `given`: the list is a plant of the engine, by weights or from a
    plant file. `fits`: the engine takes the plant; if not it holds wide weights, and has no file."""

    list: PipeList
    unit: Fraction
    plant: engine.Plant
    given: bool = False
    fits: bool = True

    @property
    def file(self) -> bytes:
        return self.plant.file()

    @property
    def shape(self) -> bytes:
        """A plant file with the same pipes and meters, for what depends on no reading."""
        streams = (engine.Stream(s.source, s.target, 1, 0) if s.metered else s for s in self.plant.streams)
        return engine.Plant(self.plant.units, tuple(streams)).file()

    @cached_property
    def exacts(self) -> Exacts:
        """The list in exact numbers."""
        return exacts_of(self.list)

    def kg(self, amount: int) -> float:
        """An amount in units as kg/h."""
        return float(amount * self.unit)

    def shown(self, value: float, sign: str = "") -> str:
        """A number of kg/h as texts show it, with as many decimals as the unit and the readings have."""
        text = f"{value:{sign},.{self.decimals}f}"
        return (text if text.strip("+-0.,") else text.lstrip("+-")).replace("-", "−")

    @cached_property
    def decimals(self) -> int:
        numbers = [self.unit, *(exact(pipe.reading) for pipe in self.list.pipes if pipe.reading is not None)]
        return max(_decimals(number) for number in numbers)

    def place(self, number: int) -> str:
        return self.list.places[number]


def _decimals(number: Fraction) -> int:
    """How many decimals a number has."""
    places = 0
    while places < MOST_DECIMALS and (number * 10**places).denominator != 1:
        places += 1
    return places


def site_of(pipes: PipeList, unit: Optional[Fraction] = None, path: object = "") -> Site:
    """The site of a list, its plant in the best unit for the engine's own sheet or in a given one. If the engine takes its numbers in no
    unit, the plant is that of the wide rule; Faulty if they do not fit the given unit."""
    chosen = units.choose(pipes.pipes) if unit is None else unit
    streams, faults = ([], []) if chosen is None else _streams(pipes, chosen)
    if faults and unit is not None:
        raise Faulty(path or pipes.name, faults)
    if chosen is None or faults:
        return wide_site(pipes)
    weights = [pipe.accuracy.weight is not None for pipe in pipes.pipes if pipe.accuracy]
    plant = engine.Plant(max(1, len(pipes.places) - 1), tuple(streams))
    return Site(pipes, chosen, plant, given=all(weights) and chosen == 1)


def wide_site(pipes: PipeList, unit: Optional[Fraction] = None, plant: Optional[engine.WidePlant] = None) -> Site:
    """The site of a list by the wide rule: in this unit, with this plant; without one, in its unit and with its shape alone."""
    if unit is not None and plant is not None:
        return Site(pipes, unit, engine.Plant(plant.units, plant.streams), fits=False)
    listed = exacts_of(pipes)
    streams = (engine.Stream(s.source, s.target, 1, 0) if s.metered else engine.Stream(s.source, s.target) for s in listed.streams)
    found = wide.units_of(listed)
    return Site(pipes, found.best if found else Fraction(1), engine.Plant(listed.units, tuple(streams)), fits=False)


def _streams(pipes: PipeList, unit: Fraction) -> Tuple[List[engine.Stream], List[Fault]]:
    """The streams of the engine's plant in a unit, and what does not fit it."""
    streams, faults = [], []
    for pipe in pipes.pipes:
        if pipe.reading is None:
            streams.append(engine.Stream(pipe.source, pipe.target))
            continue
        weight, reading = units.meter(pipe, unit)
        low, high = units.limits(pipe, unit) or (None, None)
        streams.append(engine.Stream(pipe.source, pipe.target, weight, reading, low, high))
        faults += _faults(pipe, streams[-1], float(unit))
    return streams, faults


def _faults(pipe: Pipe, stream: engine.Stream, unit: float) -> List[Fault]:
    """What of a meter does not fit the engine's fields in a unit."""
    found = []
    if stream.low is not None and stream.high is not None:
        if stream.low > stream.high:
            wanted = f"no whole number of units of {unit:g} kg/h lies between low and high: a wider range or another unit would do"
            found.append(Fault(wanted, pipe.row, "low", pipe.label, "" if pipe.low is None else f"{pipe.low:g}"))
        if max(-stream.low, stream.high) > units.MOST_RANGE:
            wanted = f"in units of {unit:g} kg/h it is over {units.MOST_RANGE:,}: a larger unit would do"
            found.append(Fault(wanted, pipe.row, "low and high", pipe.label))
    if abs(stream.reading) > units.MOST_READING:
        wanted = f"in units of {unit:g} kg/h it is over {units.MOST_READING:,}: a larger unit would do"
        found.append(Fault(wanted, pipe.row, "reading", pipe.label, f"{pipe.reading:g}"))
    return found


def read_site(path: Path, unit: Optional[Fraction] = None, asked: Asked = Asked()) -> Site:
    """The site of a list in a file."""
    return site_of(read_list(path, asked), unit, path)


def site_in(path: Path, unit: Optional[Fraction], asked: Asked = Asked()) -> Site:
    """The site of a list or of a plant file, whose flows are in this unit; if none is given, in the one told beside it, or in kg/h."""
    if path.suffix.lower() != ".bin":
        return read_site(path, unit, asked)
    told = unit or unit_beside(path) or Fraction(1)
    pipes, plant = unpacked(path, told)
    return Site(pipes, told, plant, given=True)


def notes(site: Site) -> List[str]:
    """What is worth a second look in the list though it is no fault."""
    found = list(site.list.told)
    ends = [end for pipe in site.list.pipes for end in (pipe.source, pipe.target)]
    for number, name in enumerate(site.list.places):
        if number and ends.count(number) == 1:
            others = [other for other in site.list.places if other != name]
            near = difflib.get_close_matches(name, others, 1, 0.8)
            hint = f"; is it {near[0]}, mistyped?" if near else ""
            found.append(f"{name} has a single stream, so nothing can flow through it{hint}")
    for pipe in site.list.pipes:
        if pipe.reading is None and pipe.stated and not pipe.silent:
            found.append(f"the accuracy of {pipe.title} plays no part: it has no reading")
    return found
