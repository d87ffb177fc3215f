# SPDX-License-Identifier: LicenseRef-Wengeludo
"""What-ifs: changes of a list that stand in the page's address and nowhere else."""

from __future__ import annotations

import re
from dataclasses import dataclass, replace
from typing import Dict, FrozenSet, List, Mapping, Optional, Tuple

from ..balance.site import Site, site_of
from ..read.faults import Faulty, Stopped
from ..read.lists import Pipe
from ..read.numbers import Marks, accuracy, marks_of, number

FIELDS = {"r": "reading", "a": "accuracy", "l": "low", "h": "high", "x": "meter struck out"}
NUMBERS = "rlh"
LONGEST = 64  # letters of a field that are read
GREATEST = 4e12
_NAME = re.compile(r"([ralhx])([1-9]\d?)")
_EITHER = re.compile(r"[1-9]\d{0,2}[.,]\d{3}")


@dataclass(frozen=True)
class Change:
    """A field of a stream (counted from 0) that the address changes: the text typed, what stood there, and the fault that it has."""

    stream: int
    field: str
    text: str
    before: str
    fault: str = ""

    @property
    def name(self) -> str:
        """Its name in the address."""
        return f"{self.field}{self.stream + 1}"

    def read(self, decimal: str) -> str:
        """The number as it was read, so that nobody guesses; any other text as it was typed."""
        if self.field not in NUMBERS or self.fault or not self.text:
            return self.text
        return f"{number(self.text, marks_in(self.text, decimal)):,.10g}".replace(",", "\u202f")


@dataclass(frozen=True)
class Trial:
    """A site with changes; those that have a fault are told and do not count."""

    site: Site
    changes: Tuple[Change, ...]

    @property
    def counted(self) -> List[Change]:
        return [change for change in self.changes if not change.fault]

    @property
    def streams(self) -> FrozenSet[int]:
        """The streams that are changed."""
        return frozenset(change.stream for change in self.counted)

    @property
    def struck(self) -> FrozenSet[int]:
        """The streams whose meter is struck out."""
        return frozenset(change.stream for change in self.counted if change.field == "x")

    @property
    def words(self) -> Dict[str, str]:
        """The changes as the words of an address."""
        return {change.name: change.text for change in self.changes}

    @property
    def faults(self) -> Dict[str, str]:
        return {change.name: change.fault for change in self.changes if change.fault}


def marks_in(text: str, decimal: str) -> Marks:
    """The decimal mark of a typed number: the one that the reader has fixed, else what the number shows; ValueError if it may be either."""
    if decimal in (".", ",") and decimal:
        return Marks(decimal, True)
    plain = text.strip("wW%± +-−")
    if _EITHER.fullmatch(plain):
        whole, part = re.split("[.,]", plain)
        raise ValueError(f"is it {whole}{part}, or {whole} and a part? {whole}{part} or {plain}0 would do")
    return marks_of([plain], ",")[0]


def shown(value: Optional[float]) -> str:
    """A number as a field shows it, without a mark for thousands, so that it is read back the same."""
    return "" if value is None else f"{float(value):.10g}"


def field_of(pipe: Pipe, field: str) -> str:
    """What a field of a pipe shows before any change."""
    return {"r": shown(pipe.reading), "a": pipe.stated, "l": shown(pipe.low), "h": shown(pipe.high), "x": ""}[field]


def trial_of(base: Site, words: Mapping[str, str], decimal: str = "") -> Trial:
    """The site with the changes of an address. A field as it was is no change."""
    pipes, changes = list(base.list.pipes), []  # type: Tuple[List[Pipe], List[Change]]
    for k, wanted in sorted(_wanted(base, words).items()):
        fields = {field: text for field, text in wanted.items() if _differs(pipes[k], field, text)}
        if not fields:
            continue
        made, values = _values(k, pipes[k], fields, decimal)
        made, pipe = _changed(base, pipes[k], made, values, decimal)
        pipes[k] = pipe
        changes += made
    if all(change.fault for change in changes):
        return Trial(base, tuple(changes))
    try:
        return Trial(site_of(replace(base.list, pipes=tuple(pipes)), base.unit), tuple(changes))
    except (Faulty, Stopped) as error:
        return Trial(base, tuple(replace(change, fault=change.fault or _told(error)) for change in changes))


def _wanted(base: Site, words: Mapping[str, str]) -> Dict[int, Dict[str, str]]:
    """The fields of the address, by stream."""
    found: Dict[int, Dict[str, str]] = {}
    for name, text in words.items():
        told = _NAME.fullmatch(name)
        if told and int(told[2]) <= len(base.list.pipes):
            found.setdefault(int(told[2]) - 1, {})[told[1]] = text.strip()[:LONGEST]
    return found


def _differs(pipe: Pipe, field: str, text: str) -> bool:
    if field == "x":
        return pipe.reading is not None and text in ("1", "on")
    return text.replace(",", ".") != field_of(pipe, field).replace(",", ".")


def _values(k: int, pipe: Pipe, fields: Mapping[str, str], decimal: str) -> Tuple[List[Change], Dict[str, Optional[float]]]:
    """The changes of a stream, and the numbers that they say."""
    made: List[Change] = []
    values: Dict[str, Optional[float]] = {}
    for field, text in sorted(fields.items()):
        fault = ""
        if field in NUMBERS and text:
            try:
                values[field] = _number(text, decimal)
            except ValueError as error:
                fault = str(error)
        elif field in NUMBERS:
            values[field] = None
        made.append(Change(k, field, text, field_of(pipe, field), fault))
    return made, values


def _number(text: str, decimal: str) -> float:
    value = number(text, marks_in(text, decimal))
    if abs(value) > GREATEST:
        raise ValueError("it is too large for a flow")
    return value


def _changed(base: Site, pipe: Pipe, made: List[Change], values: Mapping[str, Optional[float]], decimal: str) -> Tuple[List[Change], Pipe]:
    """The pipe with its changes; if they do not go together, the pipe as it was and the changes with their fault."""
    try:
        after = _ranged(_metered(pipe, made, values, decimal), values)
        site_of(replace(base.list, pipes=(after,)), base.unit)
        return made, after
    except (Faulty, Stopped, ValueError) as error:
        return [replace(change, fault=change.fault or _told(error)) for change in made], pipe


def _metered(pipe: Pipe, made: List[Change], values: Mapping[str, Optional[float]], decimal: str) -> Pipe:
    """Reading and accuracy after the changes; ValueError if a reading is left without an accuracy."""
    good = {change.field: change.text for change in made if not change.fault}
    if "x" in good:
        return replace(pipe, reading=None, accuracy=None, stated="")
    reading, stated = values.get("r", pipe.reading), good.get("a", pipe.stated)
    if reading is None:
        return replace(pipe, reading=None, accuracy=None, stated=stated)
    if not stated:
        raise ValueError("a reading needs an accuracy: 2%, ±50 or w40 would do")
    known = pipe.accuracy
    if known is None or "a" in good or stated.endswith("%"):
        known = accuracy(stated, reading, marks_in(stated, decimal))
    return replace(pipe, reading=reading, accuracy=known, stated=stated)


def _ranged(pipe: Pipe, values: Mapping[str, Optional[float]]) -> Pipe:
    low, high = values.get("l", pipe.low), values.get("h", pipe.high)
    if low is not None and high is not None and low > high:
        raise ValueError("low is above high")
    return replace(pipe, low=low, high=high)


def _told(error: Exception) -> str:
    return error.faults[0].wanted if isinstance(error, Faulty) else str(error)
