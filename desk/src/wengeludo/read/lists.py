# SPDX-License-Identifier: LicenseRef-Wengeludo
"""Pipe lists: a header line, then a row for each stream, with names and not numbers."""

from __future__ import annotations

import difflib
import re
from dataclasses import dataclass, field
from fractions import Fraction
from pathlib import Path
from typing import Callable, Dict, FrozenSet, List, Mapping, Optional, Sequence, Tuple, TypeVar

from .columns import AMOUNTS, COLUMNS, MORE, NUMBERS, OUTSIDE, is_outside, known_words, language_of, results_of, word
from .faults import Fault, Faulty, Stopped
from .flow_units import KNOWN, flow_unit, split_heading, split_unit
from .grids import Grid, is_header, read_grid
from .hours import hour_from, hour_within
from .numbers import COMMA, KG, POINT, Accuracy, Held, Marks, accuracy, amount, gives_none, marks_of, whole
from .places import drawable, spots_in
from .texts import legible

MOST_STREAMS, MOST_UNITS = 96, 32
MOST_READING, MOST_RANGE = 4e12, 2e15
MOST_PRICE, MOST_RATE = 1_000_000, 1_000_000
MOST_ROWS, MOST_FAULTS = 200, 200  # rows of streams that are looked at, and faults that are told
HOURS = ("hour", "time", "stunde", "zeit", "zeitpunkt")  # columns that may tell the hour of the readings
MOST_ABOVE = 2_000  # letters above the header in which an hour is looked for
T = TypeVar("T")


@dataclass(frozen=True)
class Asked:
    """What a user says of a list beside the list itself: its decimal mark, a floor of all accuracies in kg/h, the language."""

    decimal: Optional[str] = None
    floor: Optional[float] = None
    lang: Optional[str] = None


@dataclass(frozen=True)
class Form:
    """How a list is written: its language, the separator of its CSV file (none of a workbook), its decimal mark."""

    lang: str = "en"
    separator: str = ","
    decimal: str = "."


FORMS = {"en": Form(), "de": Form("de", ";", ",")}


@dataclass(frozen=True)
class Pipe:
    """A row of a list. Without a reading the stream is unmetered."""

    row: int
    label: str
    what: str
    source: int
    target: int
    reading: Optional[float] = None
    accuracy: Optional[Accuracy] = None
    stated: str = ""
    low: Optional[float] = None
    high: Optional[float] = None
    price: Optional[int] = None
    rate: Optional[int] = None
    extra: Tuple[str, ...] = ()
    floor: Optional[float] = None
    silent: str = ""  # what stands there in place of a reading: Bad

    @property
    def title(self) -> str:
        """Number and name, as texts speak of it."""
        return f"{self.label} {self.what}".strip()


@dataclass(frozen=True)
class PipeList:
    """A list: its pipes, the names of the places (the outside first), columns of the user's own, places of a drawing, what is to be told of
    how it was read, and how it is written."""

    name: str
    pipes: Tuple[Pipe, ...]
    places: Tuple[str, ...]
    extras: Tuple[str, ...] = ()
    spots: Mapping[int, Tuple[float, float]] = field(default_factory=dict)
    told: Tuple[str, ...] = ()
    form: Form = Form()
    hour: str = ""  # of the readings, if the lines above the header or a column tell it

    def find(self, label: str) -> int:
        """The index of the stream with this label; Stopped if there is none."""
        labels = [pipe.label.casefold() for pipe in self.pipes]
        wanted = label.strip().casefold()
        if wanted not in labels:
            raise Stopped(f"{self.name} has no stream {label}; its streams are {', '.join(pipe.label for pipe in self.pipes)}")
        return labels.index(wanted)


def read_list(path: Path, asked: Asked = Asked()) -> PipeList:
    """The list in a CSV or XLSX file; Faulty with every fault, OSError if the file cannot be read."""
    return _Reader(Path(path), read_grid(Path(path)), asked).read()


class _Reader:
    """Reads one list and gathers its faults."""

    def __init__(self, path: Path, grid: Grid, asked: Asked) -> None:
        self.path, self.grid, self.asked = path, grid, asked
        self.faults: List[Fault] = []
        self.told: List[str] = list(grid.told)
        self.lang = "en"
        self.places: Dict[str, int] = {OUTSIDE: 0}
        self.names = [OUTSIDE]
        self.columns: Dict[str, int] = {}
        self.extras: Dict[str, int] = {}
        self.units: Dict[str, Tuple[str, Fraction]] = {}  # of columns
        self.used: Dict[str, Fraction] = {}  # units that are not kg/h
        self.passed: FrozenSet[int] = frozenset()  # columns of an earlier sheet
        self.floored: List[str] = []
        self.silent: List[str] = []
        self.marks = Marks(".", False)

    def read(self) -> PipeList:
        rows = [(k, row) for k, row in enumerate(self.grid.rows, 1) if any(cell.strip() for cell in row)]
        if not rows:
            raise Faulty(self.path, [Fault("the list is empty: a header line with at least from and to, then a row for each stream")])
        top = next((k for k, (_, row) in enumerate(rows) if is_header(row)), 0)
        self.lang = language_of([split_heading(cell)[0] for cell in rows[top][1]]) or "en"
        self.header(*rows[top])
        if self.faults:
            raise Faulty(self.path, self.faults)
        above = " ".join(cell for _, row in rows[:top] for cell in row)
        rows = rows[top + 1 :]
        self.own_unit_column(rows)
        self.decimal(rows)
        self.numbered(rows)
        pipes = [self.pipe(place, row, k) for k, (place, row) in enumerate(rows[:MOST_ROWS], 1)]
        self.whole_list(pipes, len(rows))
        spots = self.positions()
        if self.faults:
            told = sorted(self.faults, key=lambda fault: fault.row or 0)
            more = [Fault(f"the list has {len(told) - MOST_FAULTS:,} faults more")] if len(told) > MOST_FAULTS else []
            raise Faulty(self.path, [*told[:MOST_FAULTS], *more])
        self.tell()
        form = FORMS[self.asked.lang] if self.asked.lang else Form(self.lang, self.grid.separator, self.marks.decimal)
        self.names[0] = word(OUTSIDE, form.lang)
        return PipeList(legible(self.path.stem) or "list", tuple(pipes), tuple(self.names), tuple(self.extras), spots, tuple(self.told), form, hour_within(above[:MOST_ABOVE]) or self.hour(rows))

    def hour(self, rows: Sequence[Tuple[int, List[str]]]) -> str:
        """The hour that a column of the user's own tells, the same in every row that tells one; nothing if there is none, or several."""
        columns = [at for name, at in self.extras.items() if name.casefold() in HOURS]
        found = {hour_from(row[at]) for _, row in rows for at in columns if at < len(row) and row[at].strip()}
        return (found.pop() or "") if len(found) == 1 else ""

    def fault(self, wanted: str, row: Optional[int] = None, column: Optional[str] = None, stream: Optional[str] = None,
              found: Optional[str] = None) -> None:
        self.faults.append(Fault(wanted, row, column, stream, found))

    def header(self, place: int, row: List[str]) -> None:
        words, results = known_words(self.lang), results_of(row)
        self.passed = frozenset(k for k, cell in enumerate(row) if " ".join(cell.casefold().split()) in results)
        for k, cell in enumerate(row):
            name = " ".join(cell.split())
            if name and name.casefold() not in results:
                self.heading(place, k, name, words)
        if results:
            self.told.append("the columns of an earlier sheet were left out: " + ", ".join(cell.strip() for cell in row if cell.strip().casefold() in results))
        for needed in ("from", "to"):
            if needed not in self.columns:
                near = difflib.get_close_matches(needed, self.extras, 1)
                hint = f" ({near[0]} is near)" if near else ""
                self.fault(f"there is no column {needed}{hint}; known columns are {', '.join((*COLUMNS, *MORE))}", place)

    def heading(self, place: int, at: int, name: str, words: Mapping[str, str]) -> None:
        """One cell of the header: a known column, with a unit or without, or one of the user's own."""
        bare, unit = split_heading(name)
        known = words.get(bare.casefold()) or words.get(name.casefold())
        if unit and known not in (*AMOUNTS, "accuracy"):
            known, unit = words.get(name.casefold()), None
        if known in self.columns or name in self.extras:
            self.fault("each column once would do", place, name, found=name)
        elif not known:
            self.extras[name] = at
        else:
            self.columns[known] = at
        factor = flow_unit(unit) if unit else None
        if unit and known and factor is not None:
            self.units[known] = (unit, factor)
        elif unit and unit != "%":
            self.fault(f"{unit} is no unit of flow that is known: {KNOWN} would do", place, name, found=name)

    def own_unit_column(self, rows: List[Tuple[int, List[str]]]) -> None:
        """A column called unit in which no unit of flow stands is one of the user's own."""
        cells = [self.cell(row, "unit") for _, row in rows]
        if "unit" in self.columns and not any(flow_unit(cell) is not None for cell in cells):
            self.extras["unit"] = self.columns.pop("unit")

    def decimal(self, rows: List[Tuple[int, List[str]]]) -> None:
        asked = self.asked.decimal or {"de": ",", "en": "."}.get(self.asked.lang or "")
        cells = [(place, column, self.cell(row, column)) for place, row in rows for column in NUMBERS]
        texts = [(place, column, _bare(text)) for place, column, text in cells if not isinstance(text, Held)]
        self.marks, clash = marks_of([text for _, _, text in texts], self.grid.separator)
        if self.asked.decimal or (asked and not self.marks.shown):
            self.marks = COMMA if asked == "," else POINT
        elif clash:
            (before, _, one), (place, column, other) = sorted(next(cell for cell in texts if cell[2] == text) for text in clash)
            self.fault(f"row {before} has {one}: decimal points all over the list, or decimal commas, would do", place, column, found=other)

    def numbered(self, rows: List[Tuple[int, List[str]]]) -> None:
        """If all places are called unit 1, unit 2 and so on, as in a list made of a plant file, they keep their numbers."""
        names = {" ".join(self.cell(row, column).casefold().split()) for _, row in rows for column in ("from", "to")} - {OUTSIDE}
        matches = [re.fullmatch(r"unit ([1-9][0-9]?)", name) for name in names]
        if matches and all(matches):
            most = min(MOST_UNITS, max(int(match[1]) for match in matches if match))
            self.names += [f"unit {k}" for k in range(1, most + 1)]
            self.places |= {name: k for k, name in enumerate(self.names)}

    def cell(self, row: List[str], column: str) -> str:
        at = self.columns.get(column, self.extras.get(column, len(row)))
        if at >= len(row):
            return ""
        return row[at] if isinstance(row[at], Held) else row[at].strip()

    def pipe(self, place: int, row: List[str], count: int) -> Pipe:
        label = " ".join(self.cell(row, "stream").split()) if "stream" in self.columns else str(count)
        if not label:
            self.fault("a number or a name of the stream would do", place, "stream", found="")
        known = set(self.columns.values()) | set(self.extras.values())
        for k, cell in enumerate(row):
            if cell.strip() and k not in known and k not in self.passed:
                self.fault("the cell stands under no column name", place, str(k + 1), label, cell)
        source, target = (self.place(row, column, place, label) for column in ("from", "to"))
        if source == target and source is not None:
            self.fault("from and to are the same place: two places would do", place, "to", label, self.cell(row, "to"))
        metered = self.meter(place, row, label)
        price = self.read_cell(place, row, "price", label, lambda text: whole(text, self.marks, 1, MOST_PRICE))
        rate = self.read_cell(place, row, "rate", label, lambda text: whole(text, self.marks, 0, MOST_RATE))
        extra = tuple(self.cell(row, name) for name in self.extras)
        what = " ".join(self.cell(row, "what").split())
        return Pipe(place, label, what, source or 0, target or 0, price=price, rate=rate, extra=extra, **metered)

    def read_cell(self, place: int, row: List[str], column: str, label: str, read: Callable[[str], T]) -> Optional[T]:
        """What a cell gives; a fault if it is no number."""
        text = self.cell(row, column)
        try:
            return read(text) if text else None
        except ValueError as error:
            self.fault(str(error), place, column, label, text)
            return None

    def meter(self, place: int, row: List[str], label: str) -> Dict[str, object]:
        """Reading, accuracy and range of a row, in kg/h."""
        own = self.row_unit(place, row, label)
        factor = {column: own or self.units.get(column, self.units.get("reading", ("", KG)))[1] for column in (*AMOUNTS, "accuracy")}
        silent = self.cell(row, "reading") if gives_none(self.cell(row, "reading")) else ""
        if silent:
            self.silent.append(f"{label} (“{silent}”)")
        reading = None if silent else self.read_cell(place, row, "reading", label, lambda text: self.within(text, factor["reading"], MOST_READING))
        low, high = (self.read_cell(place, row, column, label, lambda text: self.within(text, factor[column], MOST_RANGE)) for column in ("low", "high"))
        if low is not None and high is not None and low > high:
            self.fault(f"low is above high ({self.cell(row, 'high')}): the other way round would do", place, "low", label, self.cell(row, "low"))
        floor = self.read_cell(place, row, "floor", label, lambda text: self.positive(text, factor["floor"]))
        found: Dict[str, object] = {"reading": reading, "low": low, "high": high, "floor": floor, "silent": silent, "stated": self.stated(row)}
        if reading is not None:
            found |= self.accuracy(place, row, label, reading, factor["accuracy"], self.asked.floor if floor is None else floor)
        return found

    def accuracy(self, place: int, row: List[str], label: str, reading: float, factor: Fraction, floor: Optional[float]) -> Dict[str, object]:
        """The accuracy of a meter, as it counts and as it is stated."""
        text = self.cell(row, "accuracy")
        if not text:
            self.fault("a reading needs an accuracy: 2%, ±50 or w40 would do", place, "accuracy", label, "")
        exact = self.read_cell(place, row, "accuracy", label, lambda text: accuracy(text, reading, self.marks, factor, floor))
        if exact is None:
            return {}
        share = text.endswith("%")
        floored = share and floor is not None and exact.deviation == floor
        if floored:
            self.floored.append(f"{label} (±{floor:g})")
        other = not share and exact.weight is None and (factor != 1 or _bare(text) != text.strip("± "))
        return {"accuracy": exact, "floor": floor if floored else None, **({"stated": f"±{exact.deviation:.12g}"} if other else {})}

    def stated(self, row: List[str]) -> str:
        """The accuracy as it is typed, with a decimal point."""
        text = self.cell(row, "accuracy")
        if isinstance(text, Held) or self.marks.decimal == ".":
            return str(text)
        return text.replace(".", "").replace(",", ".") if re.search(r"[.,]", text) else text

    def row_unit(self, place: int, row: List[str], label: str) -> Optional[Fraction]:
        """The unit of a row, if the list has a column of units."""
        text = self.cell(row, "unit") if "unit" in self.columns else ""
        if not text:
            return None
        factor, heading = flow_unit(text), self.units.get("reading")
        if factor is None:
            self.fault(f"{text} is no unit of flow that is known: {KNOWN} would do", place, "unit", label, text)
        elif heading and heading[1] != factor:
            self.fault(f"the heading of the readings says {heading[0]}: one of the two would do", place, "unit", label, text)
        elif factor != 1:
            self.used[text] = factor
        return factor

    def within(self, text: str, unit: Fraction, most: float) -> float:
        value = amount(text, self.marks, unit)
        if abs(value) > most:
            raise ValueError(f"a number from {-most:,.0f} to {most:,.0f} would do")
        return value

    def positive(self, text: str, unit: Fraction) -> float:
        value = amount(text.lstrip("± ") if not isinstance(text, Held) else text, self.marks, unit)
        if not 1e-6 <= value <= 1e12:
            raise ValueError("a number of kg/h above 0 would do")
        return value

    def place(self, row: List[str], column: str, at: int, label: str) -> Optional[int]:
        name = " ".join(self.cell(row, column).split())
        if not name:
            self.fault(f"a place or {OUTSIDE} would do", at, column, label, "")
            return None
        folded = name.casefold()
        if is_outside(folded, self.lang):
            return 0
        if folded not in self.places:
            self.places[folded] = len(self.names)
            self.names.append(name)
        return self.places[folded]

    def whole_list(self, pipes: List[Pipe], count: int) -> None:
        first: Dict[str, int] = {}
        for pipe in pipes:
            before = first.setdefault(pipe.label.casefold(), pipe.row)
            if pipe.label and before != pipe.row:
                self.fault(f"row {before} has the same stream: another number or name would do", pipe.row, "stream", found=pipe.label)
        if len(pipes) > MOST_STREAMS:
            self.fault(f"the list has {count} streams: at most {MOST_STREAMS} would do", pipes[MOST_STREAMS].row)
        if len(self.names) - 1 > MOST_UNITS:
            row, column = next((p.row, "from" if p.source > MOST_UNITS else "to") for p in pipes if max(p.source, p.target) > MOST_UNITS)
            self.fault(f"the list has {len(self.names) - 1} places beside the outside: at most {MOST_UNITS} would do", row, column)
        if not pipes:
            self.fault("the list has a header line and no stream: a row for each stream would do")

    def positions(self) -> Dict[int, Tuple[float, float]]:
        """Where units stand in the user's own drawing, at a scale that a page can hold."""
        spots, faults = spots_in(self.grid.places, self.places, self.marks)
        self.faults += faults
        found, told = drawable(spots, self.names)
        self.told += told
        return found

    def tell(self) -> None:
        """What is worth knowing of how the list was read."""
        units = sorted({name for name, factor in (*self.units.values(), *self.used.items()) if factor != 1})
        if units:
            self.told.append(f"numbers of the list in {', '.join(units)} stand here in kg/h")
        if self.silent:
            self.told.append(f"no reading, so they count as streams without a meter: {', '.join(self.silent)}")
        if self.floored:
            self.told.append(f"a floor stands for an accuracy that would be smaller: {', '.join(self.floored)}")


def _bare(text: str) -> str:
    """A number of a cell without what may stand around it."""
    return split_unit(text.strip("wW%± "))[0].strip("wW%± ")
