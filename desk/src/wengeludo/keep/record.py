# SPDX-License-Identifier: LicenseRef-Wengeludo
"""What the book keeps of a sheet: the plan, which stays from hour to hour, the readings, which do not, and the link in the office's chain."""

from __future__ import annotations

import hashlib
import json
import math
import re
from dataclasses import dataclass, fields, replace
from fractions import Fraction
from functools import lru_cache
from typing import Any, Callable, Dict, List, Optional, Sequence, Tuple, TypeVar

import wengeludo_balance as engine

from ..balance import unit as units
from ..balance.sheet import Balance, reopened
from ..balance.site import Site, site_of
from ..read.lists import Form, Pipe, PipeList
from ..read.numbers import Accuracy
from ..read.faults import Stopped
from .store import Damaged

T = TypeVar("T")
SHEET, FLOW = 0, 1  # the kinds: a numbered sheet of the engine, a checked flow
KIND = {SHEET: "sheet", FLOW: "checked flows"}
MOST_COST = 2**63 - 1  # a cost may be 2^64 - 1, which no column holds: the column is for sorting, the sheet has the cost
_HOURLY = ("row", "reading", "accuracy", "silent")  # of a pipe; all its other fields belong to the plan
_LISTED = ("name", "pipes", "places", "spots", "told", "form", "hour")  # of a list, kept in ways of their own
_HELD = (str, int, float, Fraction, tuple, list, type(None))
_UNREADABLE = (engine.Refusal, Stopped, ValueError, KeyError, TypeError, IndexError, AttributeError, ArithmeticError)
_STAMP = re.compile(r"[\W_]*\d[\dT:_\W]*")


def clean(text: object) -> str:
    """A text that either store can hold."""
    return str(text).encode("utf-8", "replace").decode().replace("\0", "")


def dumps(told: Any) -> str:
    """JSON as the book writes it."""
    return json.dumps(told, ensure_ascii=False, separators=(",", ":"), sort_keys=True)


def packed(*parts: Any) -> bytes:
    """Parts as bytes, each with its length before it, so that no two lists of parts have the same bytes."""
    data = [part if isinstance(part, bytes) else str(part).encode() for part in parts]
    return b"".join(len(one).to_bytes(8, "big") + one for one in data)


def link(before: bytes, *parts: Any) -> bytes:
    """The link of an entry in its office's chain."""
    return hashlib.sha256(packed(before, *parts)).digest()


def site_name(name: str) -> str:
    """A list's name without its date or counter: what the lists of one site have in common."""
    return _STAMP.sub(lambda run: "" if sum(c.isdigit() for c in run[0]) > 3 else run[0], name).strip(" _-.")


def _plain(value: Any) -> Any:
    """A field's value as JSON holds it."""
    if isinstance(value, Fraction):
        return {"fraction": str(value)}
    return [_plain(one) for one in value] if isinstance(value, (tuple, list)) else value


def _back(value: Any) -> Any:
    if isinstance(value, dict) and set(value) == {"fraction"}:
        return Fraction(value["fraction"])
    return tuple(_back(one) for one in value) if isinstance(value, list) else value


def _fields(thing: Any, but: Sequence[str]) -> Dict[str, Any]:
    """The fields of a dataclass that are not at their defaults."""
    found = ((f, getattr(thing, f.name)) for f in fields(thing) if f.name not in but)
    return {f.name: _plain(value) for f, value in found if value != f.default and isinstance(value, _HELD)}


def told_of(site: Site) -> str:
    """The plan of a site: unit, places, drawing, and of each pipe all but its reading."""
    told: Dict[str, Any] = {"unit": str(site.unit), "places": list(site.list.places), "pipes": [_fields(p, _HOURLY) for p in site.list.pipes]}
    told["list"], told["form"] = _fields(site.list, _LISTED), _fields(site.list.form, ())
    if site.list.spots:
        told["spots"] = [[place, *spot] for place, spot in sorted(site.list.spots.items())]
    return dumps({"site": site_name(site.list.name), **told})


def readings_of(site: Site) -> str:
    """What changes from hour to hour: each pipe's reading as listed with the accuracy that it counts with, or what stands in its place, and
    what is told of how the list was read."""
    cells = [pipe.silent or 0 if pipe.reading is None else [pipe.reading, *_accuracy(pipe.accuracy)] for pipe in site.list.pipes]
    return dumps({"pipes": cells, "told": list(site.list.told)} if site.list.told else cells)


def _cells(readings: str) -> Tuple[List[Any], Tuple[str, ...]]:
    """The cells of kept readings, and what was told of them."""
    found = json.loads(readings)
    return (found["pipes"], tuple(found["told"])) if isinstance(found, dict) else (found, ())


def _accuracy(known: Optional[Accuracy]) -> List[Any]:
    """The fields of an accuracy, those at the end left out if they are none."""
    cells = [] if known is None else [_plain(getattr(known, f.name)) for f in fields(known)]
    while cells and cells[-1] is None:
        cells.pop()
    return cells


def words_of(site: Site) -> str:
    """What a search looks through: names of the site, its places and streams."""
    return clean("\n".join((site_name(site.list.name), *site.list.places, *(pipe.title for pipe in site.list.pipes))).casefold())


def _made(of: Any, held: Dict[str, Any], **more: Any) -> Any:
    """A dataclass of the fields that it still has."""
    known = {f.name for f in fields(of)} - set(more)
    return of(**{name: _back(value) for name, value in held.items() if name in known}, **more)


@dataclass(frozen=True)
class Plan:
    """A plan as it was kept: its unit, its pipes without readings, their ranges in units, its places, the rest of its list."""

    unit: Fraction
    pipes: Tuple[Pipe, ...]
    ranges: Tuple[Tuple[Optional[int], Optional[int]], ...]
    places: Tuple[str, ...]
    told: Dict[str, Any]

    def list(self, readings: str, name: str, hour: str = "") -> PipeList:
        """The list of an hour."""
        spots = {place: (float(x), float(y)) for place, x, y in self.told.get("spots", ())}
        cells, told = _cells(readings)
        pipes = tuple(_read(pipe, value) for pipe, value in zip(self.pipes, cells))
        form = _made(Form, self.told.get("form", {}))
        own = dict(name=name, pipes=pipes, places=self.places, spots=spots, told=told, form=form, hour=hour)
        listed: PipeList = _made(PipeList, self.told["list"], **own)
        return listed


@lru_cache(256)
def plan_of(told_text: str) -> Plan:
    """The plan of a kept text; ValueError, KeyError or TypeError if it is none."""
    told = json.loads(told_text)
    unit = Fraction(told["unit"])
    pipes = tuple(_made(Pipe, named, row=row) for row, named in enumerate(told["pipes"], 2))
    return Plan(unit, pipes, tuple(units.limits(pipe, unit) or (None, None) for pipe in pipes), tuple(told["places"]), told)


def _read(pipe: Pipe, value: Any) -> Pipe:
    """A pipe with its reading."""
    if not isinstance(value, list):
        return replace(pipe, silent=value) if value else pipe
    reading, *known = value
    return replace(pipe, reading=reading, accuracy=Accuracy(*map(_back, known)) if known else None)


def site_from(told: str, readings: str, plant_file: bytes, name: str, hour: str = "") -> Site:
    """The site of a kept plan, its readings and its plant file."""
    plan = plan_of(told)
    site = site_of(plan.list(readings, name, hour), plan.unit, name)
    return replace(site, plant=engine.read_plant(plant_file)) if plant_file else site


def differs(plan: Plan, readings: str, plant: engine.Plant) -> Optional[str]:
    """The first thing in which a kept list differs from its plant file: ends, unit, readings, accuracies, ranges; None if nothing does."""
    values, _ = _cells(readings)
    if not len(plan.pipes) == len(values) == len(plant.streams) or max(1, len(plan.places) - 1) != plant.units:
        return f"the list has {len(values)} streams and {len(plan.places) - 1} units, the plant file {len(plant.streams)} and {plant.units}"
    unit = float(plan.unit)
    for pipe, value, ends, stream in zip(plan.pipes, values, plan.ranges, plant.streams):
        if (pipe.source, pipe.target, isinstance(value, list)) != (stream.source, stream.target, stream.metered):
            return f"{pipe.title} has other ends or another meter in the plant file"
        if stream.metered and (_whole(value[0], plan.unit, unit), _weight(value[1:], plan.unit), *ends) != (stream.reading, stream.weight, stream.low, stream.high):
            return f"{pipe.title} has another reading, accuracy, range or unit in the plant file"
    return None


def _whole(reading: float, unit: Fraction, near: float) -> int:
    """A reading in whole units; only near a half the fraction decides, elsewhere its float does."""
    units_ = reading / near
    whole = round(units_)
    return whole if abs(units_ - whole) < 0.4999 else round(Fraction(repr(float(reading))) / unit)


def _weight(known: Sequence[Any], unit: Fraction) -> Optional[int]:
    if len(known) > 1 and known[1] is not None and unit == 1:
        return int(known[1])
    return units.weight_of(known[0], unit) if known else None


@dataclass(frozen=True)
class Kept:
    """A row of the book's sheets, with its plan's digest and text."""

    office: int
    entry: int
    kind: int
    number: int
    at: str
    hour: str
    who: str
    request: str
    source: str
    name: str
    plan: int
    readings: str
    plant: bytes
    sheet: bytes
    numbers: str
    changes: str
    note: str
    verdict: int
    cost: int
    blanks: int
    chain: bytes
    digest: bytes = b""
    told: str = ""
    annulled: str = ""  # who, when and why, if it is

    @property
    def title(self) -> str:
        """As messages name it."""
        return f"{KIND[self.kind]} {self.number} of office {self.office}"

    @property
    def date(self) -> str:
        return self.at

    def link(self, before: bytes) -> bytes:
        """The link that belongs behind the one before it."""
        said = (self.at, self.hour, self.who, self.request, self.source, self.name, self.readings, self.numbers, self.changes, self.note)
        return link(before, KIND[self.kind], self.office, self.entry, self.number, self.digest, self.plant, self.sheet, *said)

    def site(self) -> Site:
        """The site with its names and readings; Damaged if what is kept cannot be read."""
        return self._readable(lambda: site_from(self.told, self.readings, self.plant, self.name, self.hour))

    def balance(self) -> Balance:
        """The sheet with its names, read by the sheet reader; Damaged if what is kept cannot be read."""
        return replace(self._readable(self._balance), date=self.at)

    def _balance(self) -> Balance:
        if self.kind == FLOW:
            from ..balance.sheet import checked_balance

            return checked_balance(plan_of(self.told).list(self.readings, self.name, self.hour), self.checked())
        return reopened(self.site(), self.sheet)

    def checked(self) -> Any:
        """The record of checked flows, of a sheet of that kind."""
        from ..balance.checked import Checked

        return Checked.from_json(self.sheet.decode())

    def _readable(self, work: Callable[[], T]) -> T:
        try:
            return work()
        except Damaged:
            raise
        except _UNREADABLE as error:
            raise Damaged(f"{self.title} is damaged in the book: {error}") from None

    def faults(self, before: bytes) -> List[str]:
        """What is wrong with the sheet: its chain, its names and readings, the engine's check, the columns for searching."""
        found = [] if self.link(before) == self.chain else ["the chain is broken"]
        try:
            return found + (self._flow_faults() if self.kind == FLOW else self._sheet_faults())
        except engine.Refusal as refusal:
            return [*found, f"it does not pass the check any more: {refusal.text} ({refusal.number})"]
        except _UNREADABLE as error:
            return [*found, f"it cannot be read ({error})"]

    def _sheet_faults(self) -> List[str]:
        engine.check_sheet(self.plant, self.sheet, tuple(json.loads(self.numbers)))
        read, found = engine.read_sheet(self.sheet), []
        if (read.office, read.number) != (self.office, self.number):
            found.append(f"its bytes are of sheet {read.number} of office {read.office}")
        if (read.verdict, min(read.cost, MOST_COST), blanks_of(read)) != (self.verdict, self.cost, self.blanks):
            found.append("verdict, cost or blanks stand otherwise in the sheet")
        other = differs(plan_of(self.told), self.readings, engine.read_plant(self.plant))
        return found + ([other] if other else [])

    def _flow_faults(self) -> List[str]:
        from ..balance.exact import exacts_of

        checked = self.checked()
        checked.recheck()
        judged = (checked.judged.verdict, thousandths(checked.judged.cost), blanks_of(checked.sheet))
        found = [] if judged == (self.verdict, self.cost, self.blanks) else ["verdict, cost or blanks stand otherwise in the record"]
        same = exacts_of(plan_of(self.told).list(self.readings, self.name)) == checked.listed
        return found + ([] if same else ["its list has other readings, accuracies, ranges or ends than the record"])


def blanks_of(sheet: engine.Sheet) -> int:
    """How many streams of a sheet are not known."""
    return sum(record.flow is None for record in sheet.records)


def thousandths(cost: Fraction) -> int:
    """A cost as the column has it."""
    return min(math.floor(cost * 1000), MOST_COST)


FIELDS = tuple(f.name for f in fields(Kept))[:21]  # the columns of the table


def content_key(site: Site, office: int, hour: str = "") -> str:
    """The key of a list by its content, wherever it lies: office, name, plan, readings, hour."""
    return "list/" + hashlib.sha256(packed(office, clean(site.list.name), told_of(site), readings_of(site), hour)).hexdigest()
