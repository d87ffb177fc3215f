# SPDX-License-Identifier: LicenseRef-Wengeludo
"""Numbers as they stand in a cell: with a decimal point or comma, with or without a mark for thousands."""

from __future__ import annotations

import math
import re
from dataclasses import dataclass
from fractions import Fraction
from typing import Dict, Iterable, Optional, Tuple

from .flow_units import KNOWN, flow_unit, split_unit

_BLANKS = re.compile(r"(?<=\d)[\s'’\u00a0\u2009\u202f](?=\d{3})")
_NUMBER = re.compile(r"[+-]?(\d+\.?\d*|\.\d+)([eE][+-]?\d{1,3})?")
_ONE_MARK = re.compile(r"[+-]?\d*([.,])(\d*)(?:[eE][+-]?\d+)?")
_UNSURE = re.compile(r"([+-]?[1-9]\d{0,2})[.,](\d{3})")
_SIGN = re.compile(r"^(±|\+/-|\+-)")
UNSURE = "it may be thousands or decimals"
NO_READING = frozenset("""
    bad|bad input|bad data|bad quality|i/o timeout|io timeout|timeout|timed out|nan|n/a|na|n.a.|#n/a|#nv|#value!|#wert!|#ref!|#bezug!|#div/0!|#num!|#zahl!|#name?|#null!|
    no data|nodata|no value|no reading|no sample|null|none|-|--|---|–|—|?|offline|out of service|oos|out of order|comm fail|comm error|error|err|fault|failed|invalid|not connected|
    pt created|configure|scan off|off scan|stale|unknown|over range|under range|keine daten|kein wert|ungültig|ungueltig|störung|stoerung|defekt|fehler|ausgefallen|ausser betrieb|außer betrieb
""".replace("\n    ", "").strip().split("|"))


class Held(str):
    """The text of a number that a workbook holds as a number: with a decimal point, whatever the marks of the list are."""


def like(text: str, part: str) -> str:
    """A part of a text, held as the text is."""
    return Held(part) if isinstance(text, Held) else part


@dataclass(frozen=True)
class Marks:
    """The decimal mark of a file, and whether a number in it or its user says so (or it is merely usual)."""

    decimal: str
    shown: bool

    @property
    def thousands(self) -> str:
        return "," if self.decimal == "." else "."


POINT, COMMA = Marks(".", True), Marks(",", True)
KG = Fraction(1)


def _plain(text: str) -> str:
    """Without blanks between thousands, and with a plain minus."""
    return _BLANKS.sub("", text.strip().replace("−", "-").replace("–", "-"))


def _shows(text: str) -> Optional[str]:
    """The decimal mark that a number shows for certain, if any."""
    text = _plain(text)
    last = max(text.rfind("."), text.rfind(","))
    if last < 0:
        return None
    if "." in text and "," in text:
        return text[last]
    if text.count(text[last]) > 1:
        return "," if text[last] == "." else "."
    one = _ONE_MARK.fullmatch(text)
    return one[1] if one and not _UNSURE.fullmatch(text) else None


def marks_of(texts: Iterable[str], separator: str) -> Tuple[Marks, Optional[Tuple[str, str]]]:
    """The marks of a file by its numbers, and two numbers that contradict each other, if any do."""
    showing: Dict[str, str] = {}
    for text in texts:
        mark = _shows(text)
        if mark:
            showing.setdefault(mark, text)
    if len(showing) == 2:
        return Marks(".", True), (showing["."], showing[","])
    if showing:
        return Marks(next(iter(showing)), True), None
    return Marks("," if separator == ";" else ".", False), None


def fraction(text: str, marks: Marks) -> Fraction:
    """The number of a text, exact; ValueError with what would do."""
    marks = POINT if isinstance(text, Held) else marks
    plain = _plain(text)
    unsure = _UNSURE.fullmatch(plain)
    if unsure and not marks.shown:
        raise ValueError(f"{UNSURE}: {unsure[1]}{unsure[2]} or {unsure[1]}{marks.decimal}{unsure[2]}0 would do")
    if re.fullmatch(rf"[+-]?\d{{1,3}}(\{marks.thousands}\d{{3}})+(\{marks.decimal}\d*)?", plain):
        plain = plain.replace(marks.thousands, "")
    plain = plain.replace(marks.decimal, ".") if marks.thousands not in plain else "no number"
    if not _NUMBER.fullmatch(plain) or not math.isfinite(float(plain)):
        raise ValueError("a number would do")
    return Fraction(plain)


def number(text: str, marks: Marks) -> float:
    """The number of a text as a float; ValueError with what would do."""
    return float(fraction(text, marks))


def amount(text: str, marks: Marks, unit: Fraction = KG) -> float:
    """A flow in kg/h: the number of a text in the unit behind it, or else in this one; ValueError with what would do."""
    plain, behind = split_unit(text)
    if behind is None:
        return float(fraction(text, marks) * unit)
    own = flow_unit(behind)
    if own is None:
        raise ValueError(f"{behind} is no unit of flow that is known: {KNOWN} would do")
    return float(fraction(like(text, plain), marks) * own)


def gives_none(text: str) -> bool:
    """Whether a cell says that a meter gives no reading: Bad, I/O Timeout, #N/A and their kin."""
    return " ".join(text.casefold().split()) in NO_READING


def whole(text: str, marks: Marks, least: int, most: int) -> int:
    """The whole number of a text, within its limits; ValueError with what would do."""
    value = number(text, marks)
    if value != int(value) or not least <= value <= most:
        raise ValueError(f"a whole number from {least:,} to {most:,} would do")
    return int(value)


def exact(value: float) -> Fraction:
    """The number that the list shows: 0.1 is a tenth."""
    return Fraction(repr(float(value)))


@dataclass(frozen=True)
class Accuracy:
    """How accurate a meter is: its standard deviation in kg/h, the weight if the list gives one, and the deviation's square in exact
    numbers if it is not that of the deviation itself."""

    deviation: float
    weight: Optional[int] = None
    square: Optional[Fraction] = None

    @property
    def variance(self) -> Fraction:
        """The square of the deviation, exact: a weight w is one of 1,000 / w."""
        if self.weight is not None:
            return Fraction(1_000, self.weight)
        return exact(self.deviation) ** 2 if self.square is None else self.square


FORMS = "2% (of the reading), ±50 (standard deviation in kg/h) or w40 (weight) would do"
NO_SHARE = "a share of a reading of 0 is no accuracy: ±50 (kg/h), or a floor below which no accuracy falls, would do"


def accuracy(text: str, reading: float, marks: Marks, unit: Fraction = KG, floor: Optional[float] = None) -> Accuracy:
    """The accuracy of a meter with this reading, a share of it never below a floor in kg/h; ValueError with what would do."""
    plain = text if isinstance(text, Held) else text.strip()
    try:
        if plain[:1] in "wW" and plain:
            weight = whole(like(plain, plain[1:]), marks, 1, 1_000)
            return Accuracy(math.sqrt(1_000 / weight), weight)
        if plain.endswith("%"):
            return _share(plain, reading, marks, floor)
        deviation = amount(like(plain, _SIGN.sub("", plain)), marks, unit)
    except ValueError as error:
        known = str(error).startswith((UNSURE, NO_SHARE)) or "no unit of flow" in str(error)
        raise ValueError(str(error) if known else FORMS) from None
    return _sound(Accuracy(deviation))


def _share(text: str, reading: float, marks: Marks, floor: Optional[float]) -> Accuracy:
    """The accuracy that is a share of the reading, or the floor."""
    share = number(like(text, text[:-1].strip("± ")), marks)
    deviation = abs(reading) * share / 100
    if floor is not None and deviation < floor:
        return _sound(Accuracy(floor))
    if not reading:
        raise ValueError(NO_SHARE)
    return _sound(Accuracy(deviation, square=(exact(reading) * exact(share) / 100) ** 2))


def _sound(found: Accuracy) -> Accuracy:
    if not 1e-6 <= found.deviation <= 1e12:
        raise ValueError("the standard deviation must be above 0: " + FORMS)
    return found


def deviation_of(weight: int, unit: Fraction) -> float:
    """The deviation with which a weight counts, in kg/h."""
    return float(unit) * math.sqrt(1_000 / weight)
