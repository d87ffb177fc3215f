# SPDX-License-Identifier: LicenseRef-Wengeludo
"""Tags of a list: which pipe has which column of an export, by what factor, and how accurate its meter is."""

from __future__ import annotations

from dataclasses import dataclass
from fractions import Fraction
from pathlib import Path
from typing import Dict, List, Optional, Tuple

from ..read.faults import Fault, Faulty
from ..read.lists import Pipe, PipeList
from ..read.numbers import POINT, Accuracy, Marks, accuracy, number


@dataclass(frozen=True)
class Tag:
    """A metered pipe of a run: its index in the list, its tag, kg/h in one unit of the tag."""

    index: int
    name: str
    factor: Fraction = Fraction(1)


@dataclass(frozen=True)
class Tagged:
    """A list with its tags."""

    list: PipeList
    tags: Tuple[Tag, ...]
    floor: Optional[float] = None  # of accuracies that are a share of a reading, in kg/h

    def accuracy(self, k: int, reading: float) -> Accuracy:
        """The accuracy of a pipe's meter at this reading; ValueError with what would do."""
        pipe = self.list.pipes[k]
        return accuracy(pipe.stated, reading, POINT, floor=self.floor if pipe.floor is None else pipe.floor)


def tagged(pipes: PipeList, path: Path, floor: Optional[float] = None) -> Tagged:
    """The tags of a list; Faulty with every fault."""
    names = {name.casefold(): k for k, name in enumerate(pipes.extras)}
    if "tag" not in names:
        raise Faulty(path, [Fault("the list has no column tag: the column of the export that has the pipe's meter would do")])
    marks, faults = Marks(pipes.form.decimal, True), []  # type: Marks, List[Fault]
    tags, seen = [], {}  # type: List[Tag], Dict[str, int]
    for k, pipe in enumerate(pipes.pipes):
        name = " ".join(pipe.extra[names["tag"]].split())
        if not name:
            continue
        if seen.setdefault(name.casefold(), pipe.row) != pipe.row:
            faults.append(Fault(f"row {seen[name.casefold()]} has the same tag: another would do", pipe.row, "tag", pipe.label, name))
        if not pipe.stated:
            faults.append(Fault("a pipe with a tag needs an accuracy: 2%, ±50 or w40 would do", pipe.row, "accuracy", pipe.label, ""))
        tags.append(Tag(k, name, _factor(pipe, pipe.extra[names["factor"]] if "factor" in names else "", marks, faults)))
    if not tags and not faults:
        faults.append(Fault("no pipe of the list has a tag: at least one would do", column="tag"))
    if faults:
        raise Faulty(path, faults)
    return Tagged(pipes, tuple(tags), floor)


def _factor(pipe: Pipe, text: str, marks: Marks, faults: List[Fault]) -> Fraction:
    """kg/h in one unit of the tag; 1 if the list names none."""
    if not text:
        return Fraction(1)
    try:
        value: Optional[float] = number(text, marks)
    except ValueError:
        value = None
    if value is None or not 1e-6 <= abs(value) <= 1e6:
        faults.append(Fault("kg/h in one unit of the tag, from 0.000001 to 1,000,000, would do", pipe.row, "factor", pipe.label, text))
        return Fraction(1)
    return Fraction(repr(value))
