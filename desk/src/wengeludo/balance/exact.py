# SPDX-License-Identifier: LicenseRef-Wengeludo
"""A list in exact numbers: fractions of kg/h, as they are typed. Which meters a balance checks, by the shape alone."""

from __future__ import annotations

from dataclasses import dataclass
from fractions import Fraction
from functools import cached_property
from typing import List, Optional, Sequence, Tuple

from wengeludo_balance import Stream

from ..read.lists import Pipe, PipeList
from ..read.numbers import exact
from .graph import groups


@dataclass(frozen=True)
class Exact:
    """A stream in exact numbers: its ends, and if it has a meter its reading, the square of its deviation and its range."""

    source: int
    target: int
    reading: Optional[Fraction] = None
    variance: Optional[Fraction] = None
    low: Optional[Fraction] = None
    high: Optional[Fraction] = None

    @property
    def metered(self) -> bool:
        return self.reading is not None

    def inside(self, value: Fraction) -> Fraction:
        """The value, or the end of the range that is nearest."""
        if self.low is not None and value < self.low:
            return self.low
        return self.high if self.high is not None and value > self.high else value

    @property
    def held(self) -> Fraction:
        """The reading put in range."""
        assert self.reading is not None
        return self.inside(self.reading)

    def off(self, flow: Fraction) -> Fraction:
        """The square of the correction, in deviations."""
        assert self.reading is not None and self.variance is not None
        return (flow - self.reading) ** 2 / self.variance


@dataclass(frozen=True)
class Exacts:
    """A list in exact numbers: how many units, and the streams in order."""

    units: int
    streams: Tuple[Exact, ...]

    @cached_property
    def group(self) -> List[int]:
        """Of each place the group of places that it belongs to, joined by streams without meters."""
        found = [0] * (self.units + 1)
        for number, places in enumerate(groups(self._shape(), self.units)):
            for place in places:
                found[place] = number
        return found

    def _shape(self) -> List[Stream]:
        """The streams as the engine has them, by their ends and whether they have a meter."""
        return [Stream(s.source, s.target, 1 if s.metered else None) for s in self.streams]

    def ends(self, k: int) -> Tuple[int, int]:
        """The groups at the two ends of a stream."""
        return self.group[self.streams[k].source], self.group[self.streams[k].target]

    @cached_property
    def checked(self) -> List[int]:
        """The meters between two groups: other meters check them."""
        return [k for k, s in enumerate(self.streams) if s.metered and self.ends(k)[0] != self.ends(k)[1]]

    @cached_property
    def as_read(self) -> List[int]:
        """The meters within a group: no other meter checks them."""
        return [k for k, s in enumerate(self.streams) if s.metered and self.ends(k)[0] == self.ends(k)[1]]

    @cached_property
    def counting(self) -> List[int]:
        """The meters whose accuracy bears on the sheet: the checked ones, and those that read outside their range."""
        return self.checked + [k for k in self.as_read if self.streams[k].held != self.streams[k].reading]


def exacts_of(listed: PipeList) -> Exacts:
    """The exact numbers of a list."""
    return Exacts(max(1, len(listed.places) - 1), tuple(_exact(pipe) for pipe in listed.pipes))


def _exact(pipe: Pipe) -> Exact:
    if pipe.reading is None or pipe.accuracy is None:
        return Exact(pipe.source, pipe.target)
    low, high = (None if end is None else exact(end) for end in (pipe.low, pipe.high))
    return Exact(pipe.source, pipe.target, exact(pipe.reading), pipe.accuracy.variance, low, high)


def without(listed: Exacts, gone: Sequence[int]) -> Exacts:
    """The list without these meters; their pipes stay."""
    streams = tuple(Exact(s.source, s.target) if k in gone else s for k, s in enumerate(listed.streams))
    return Exacts(listed.units, streams)
