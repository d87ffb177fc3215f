# SPDX-License-Identifier: LicenseRef-Wengeludo
"""Exports of a historian: a time column and tags, CSV or XLSX, read block by block; every fault is told with its row and column."""

from __future__ import annotations

import csv
from collections import Counter
from dataclasses import dataclass, field
from datetime import datetime
from pathlib import Path
from typing import Any, Callable, Dict, Iterable, Iterator, List, Optional, Sequence, Tuple, TypeVar

from wengeludo_balance import FAULT, HELD, MEASURED

from ..read.faults import Fault, Faulty, together
from ..read.grids import SEPARATORS
from ..read.numbers import POINT, Marks, marks_of
from . import cells, clock

BLOCK = 1_000_000  # characters read at a time
MOST_ROWS = 3_000_000  # rows of a run; more are told
BOOK_ROWS = 20_000
MOST_FAULTS = 20  # of an export that are told
MOST_FILES = 10  # exports with faults that are told
T, S = TypeVar("T"), TypeVar("S")


@dataclass
class Export:
    """The rows of a run: seconds of UTC, a number and a status for each tag, words that were no number, what was noticed."""

    times: Any
    values: Any
    status: Any
    words: Counter = field(default_factory=Counter)
    notes: List[str] = field(default_factory=list)
    every: Optional[int] = None  # the seconds of the means that the rows are


@dataclass(frozen=True)
class How:
    """How exports are read: the zone, the form of their times, the interval of the mean, the first and the last time, the decimal mark."""

    zone: Optional[str] = None
    form: Optional[str] = None
    every: Optional[int] = None
    start: Optional[int] = None
    end: Optional[int] = None
    decimal: Optional[str] = None


def read_exports(paths: Sequence[Path], tags: Sequence[str], how: How) -> Export:
    """The rows of all exports, one after the other in time; Stopped with the faults of all that have some, of each file so many."""
    opened, faulty = _each([(path, path) for path in paths], lambda path: _Reader(path, tags, how))
    readers = sorted(opened, key=lambda reader: reader.first)
    read, more = _each([(reader.path, reader) for reader in readers], lambda reader: list(reader.blocks()))
    faulty += more
    if faulty:
        raise together(_bounded(sorted(faulty, key=lambda fault: [str(path) for path in paths].index(fault.path))))
    parts = [part for blocks in read for part in blocks]
    words = sum((reader.words for reader in readers), Counter())
    if not parts:
        raise Faulty(paths[0], [Fault("no row lies between --from and --to" if how.start or how.end else "the export has a header and no row")])
    export = Export(*(_joined(parts, k) for k in range(3)), words, every=how.every)
    _ordered(readers, export)
    if len(export.times) > MOST_ROWS:
        raise Faulty(paths[0], [Fault(f"the run has {len(export.times):,} rows: {_FEWER}")])
    export.notes += _clock_notes(export.times, any(reader.clock.bare for reader in readers), how)
    export.notes += [note for reader in readers for note in reader.notes]
    return export


_FEWER = f"at most {MOST_ROWS:,} would do, by --every 1h or by --from and --to"


def _each(things: Iterable[Tuple[Path, T]], made: Callable[[T], S]) -> Tuple[List[S], List[Faulty]]:
    """What is made of each file's thing, and what is wrong with the other files."""
    found, faulty = [], []
    for path, thing in things:
        try:
            found.append(made(thing))
        except Faulty as fault:
            faulty.append(fault)
        except OSError as error:
            faulty.append(Faulty(path, [Fault(error.strerror or str(error))]))
    return found, faulty


def _bounded(faulty: Sequence[Faulty]) -> List[Faulty]:
    """The files with faults, so many of them; the last tells how many more there are."""
    if len(faulty) <= MOST_FILES:
        return list(faulty)
    last, more = faulty[MOST_FILES - 1], len(faulty) - MOST_FILES
    return [*faulty[: MOST_FILES - 1], Faulty(last.path, [*last.faults, Fault(f"and {more:,} exports more have faults")])]


def _joined(parts: List[List[Any]], k: int) -> Any:
    """The k-th array of all parts, which are let go of."""
    import numpy as np

    whole = np.concatenate([part[k] for part in parts])
    for part in parts:
        part[k] = None
    return whole


def _ordered(readers: Sequence["_Reader"], export: Export) -> None:
    """Rows back in time are a fault; of exports that overlap, too."""
    import numpy as np

    back = np.flatnonzero(np.diff(export.times) < 0)
    if len(back):
        names = ", ".join(reader.path.name for reader in readers)
        at = clock.shown(export.times[back[0] + 1], clock.zone_of(readers[0].how.zone))
        raise Faulty(readers[0].path, [Fault(f"the exports {names} overlap: {at} comes after a later time; each time in one of them would do")])


def _clock_notes(times: Any, bare: bool, how: How) -> List[str]:
    """What the clock shows: no zone, rows twice, rows that are missing."""
    import numpy as np

    steps, step = np.diff(times), clock.strided(times)
    notes = ["The export's times have no offset and --zone names none: they are taken as UTC."] if bare else []
    twice, gaps = int((steps == 0).sum()), steps[steps > 1.5 * step]
    if twice:
        notes.append(f"{twice:,} rows have the time of the row before; all are balanced.")
    if len(gaps):
        missing = int((gaps // step - 1).sum())
        notes.append(f"{missing:,} rows are missing in {len(gaps):,} gaps; none is made up.")
    return notes


def _workbook(path: Path) -> Iterator[List[List[str]]]:
    """The rows of a workbook's first sheet, some thousand at a time."""
    import openpyxl

    try:
        book = openpyxl.load_workbook(path, read_only=True, data_only=True)
        rows = book.worksheets[0].iter_rows(values_only=True)
        while block := [[_cell(value) for value in row] for _, row in zip(range(BOOK_ROWS), rows)]:
            yield block
    except OSError:
        raise
    except Exception:  # of a damaged workbook the library may raise anything: zip, zlib, XML, dates, names
        raise Faulty(path, [Fault("the file is no XLSX workbook that can be read: save it anew")]) from None


def _cell(value: Any) -> str:
    """A cell of a workbook as a text with a decimal point."""
    if value is None:
        return ""
    return repr(value) if isinstance(value, float) else value.isoformat(" ") if isinstance(value, datetime) else str(value)


class _Reader:
    """Reads one export and gathers its faults."""

    def __init__(self, path: Path, tags: Sequence[str], how: How) -> None:
        self.path, self.tags, self.how = path, list(tags), how
        self.book = path.suffix.lower() in (".xlsx", ".xlsm")
        self.faults: List[Fault] = []
        self.words: Counter = Counter()
        self.notes: List[str] = []
        self.more = 0
        self.numbers: Dict[str, bool] = {}
        self.separator, self.head, self.names = ",", 1, [""]
        self.lines = self._open()
        self.columns, self.said = self._header()
        self._stop()
        start = self._peek()
        self.marks = self._marks(start)
        self.clock = clock.Clock(self._order(), clock.zone_of(how.zone), how.form)
        self.first = self.clock.one(start[0][0])[0] or 0 if start else 0
        self.clock.last, self.clock.bare = -(2**62), False

    def _open(self) -> Iterator[List[List[str]]]:
        """Blocks of rows, the header's among the first."""
        return _workbook(self.path) if self.book else self._text()

    def _text(self) -> Iterator[List[List[str]]]:
        with open(self.path, encoding="utf-8-sig", newline="") as file:
            try:
                head = file.read(65_536)
                if "\0" in head:
                    raise Faulty(self.path, [Fault("the file is no text: an export is CSV or XLSX")])
                first = next((line for line in head.splitlines() if line.strip()), "")
                self.separator = max(SEPARATORS, key=first.count)
                file.seek(0)
                while lines := file.readlines(BLOCK):
                    yield list(csv.reader(lines, delimiter=self.separator))
            except UnicodeDecodeError:
                raise Faulty(self.path, [Fault("the file is not UTF-8 text: save it as “CSV UTF-8” or as XLSX")]) from None
            except csv.Error as error:
                raise Faulty(self.path, [Fault(f"the file is no CSV: {error}")]) from None

    def fault(self, wanted: str, row: Optional[int] = None, column: Optional[str] = None, found: Optional[str] = None) -> None:
        if len(self.faults) < MOST_FAULTS:
            self.faults.append(Fault(wanted, row, column, None, found))
        else:
            self.more += 1

    def _stop(self) -> None:
        """Faulty with what was found, if anything was."""
        if self.more:
            self.faults.append(Fault(f"and {self.more:,} faults more"))
        if self.faults:
            raise Faulty(self.path, self.faults)

    def _header(self) -> Tuple[Dict[str, int], Dict[str, int]]:
        """The columns of the tags and of their statuses."""
        self.block = next(self.lines, [])
        self.head = next((k for k, row in enumerate(self.block) if sum(bool(cell.strip()) for cell in row) > 1), -1) + 1
        if not self.head:
            raise Faulty(self.path, [Fault("the file is no table: a header with a time column and tags, then a row for each time, would do")])
        self.names = [" ".join(name.split()) for name in self.block[self.head - 1]]
        known = {name.casefold(): k for k, name in reversed(list(enumerate(self.names)))}
        for k, name in enumerate(self.names):
            if name and known[name.casefold()] != k and self._wanted(name):
                self.fault("each tag once would do", self.head, str(k + 1), name)
        for tag in self.tags:
            if tag.casefold() not in known or known[tag.casefold()] == 0:
                self.fault(f"the list's tag {tag} has no column; the header has {', '.join(filter(None, self.names[1:])) or 'none'}", self.head)
        said = {m[1].casefold(): k for k, name in enumerate(self.names) for m in [cells.STATUS.fullmatch(name)] if m}
        columns = {tag: known[tag.casefold()] for tag in self.tags if tag.casefold() in known}
        spare = [name for k, name in enumerate(self.names) if k and name and not self._wanted(name)]
        if spare:
            self.notes.append(f"{len(spare)} columns of {self.path.name} are no tag of the list: {', '.join(spare[:8])}{' …' if len(spare) > 8 else ''}.")
        return columns, {tag: said[tag.casefold()] for tag in self.tags if tag.casefold() in said}

    def _wanted(self, name: str) -> bool:
        """Whether a column is a tag of the list, or the status of one."""
        status = cells.STATUS.fullmatch(name)
        return any(tag.casefold() in (name.casefold(), status[1].casefold() if status else "") for tag in self.tags)

    def _peek(self) -> List[List[str]]:
        """Rows of the first block, some hundred of them, that are not empty."""
        rows = [row for row in self.block[self.head :] if any(row)]
        self._too_many(rows)
        return rows[:: max(1, len(rows) // 500)]

    def _too_many(self, rows: List[List[str]]) -> None:
        """More rows than a run holds are told before they are read."""
        if self.how.every or self.how.start or self.how.end or len(rows) < 1_000 or self.book:
            return
        guess = self.path.stat().st_size * len(rows) / sum(len(self.separator.join(row)) + 1 for row in rows)
        if guess > 1.3 * MOST_ROWS:
            raise Faulty(self.path, [Fault(f"the export has some {guess:,.0f} rows: {_FEWER}")])

    def _marks(self, rows: List[List[str]]) -> Marks:
        if self.book or self.how.decimal:
            return POINT if self.book else Marks(self.how.decimal or ".", True)
        texts = [row[k] for row in rows for k in self.columns.values() if k < len(row) and row[k][:1] in "0123456789+-−.,"]
        marks, clash = marks_of(texts, self.separator)
        if clash:
            self.fault(f"{clash[0]} and {clash[1]} stand in it: decimal points all over the export, or decimal commas, would do")
            self._stop()
        return marks

    def _order(self) -> str:
        """Day before month or after it, by all dates of the export."""
        dates = {clock.split(row[0])[0] for row in self.block[self.head :] if row and row[0].strip()}
        if self.how.form or not dates or all(map(clock.one_way, dates)):
            return clock.ORDERS[0]
        if not self.book:
            with open(self.path, encoding="utf-8-sig", errors="replace") as file:
                dates = {clock.split(line.split(self.separator, 1)[0].strip('"'))[0] for line in file}
        order, wrong = clock.order_of(text for text in dates if clock.orders_of(text))
        if wrong:
            self.fault(wrong, column=self.names[0] or "1")
            self._stop()
        return order

    def blocks(self) -> Iterator[List[Any]]:
        """Times, numbers and statuses, block by block; Faulty at the end if anything is wrong."""
        mean = _Mean(self.how.every, len(self.tags)) if self.how.every else None
        at, block = self.head, self.block[self.head :]
        self.block = []
        while block is not None:
            part = self._part(block, at)
            at += len(block)
            block = next(self.lines, None)
            if part is not None and not self.faults:
                yield from mean.add(part) if mean else [part]
        self._all_words()
        self._stop()
        if mean:
            yield from mean.rest()

    def _part(self, block: List[List[str]], at: int) -> Optional[List[Any]]:
        """One block: rows that are empty are left out, rows of another length are faults."""
        import numpy as np

        kept = [(at + k + 1, row) for k, row in enumerate(block) if any(cell.strip() for cell in row)]
        for place, row in kept:
            if len(row) != len(self.names):
                last = " (the export is cut off)" if len(row) < len(self.names) and row is block[-1] else ""
                self.fault(f"the row has {len(row)} cells, the header {len(self.names)}{last}", place)
        kept = [(place, row) for place, row in kept if len(row) == len(self.names)]
        if not kept:
            return None
        places, rows = zip(*kept)
        columns = list(zip(*rows))
        times = self._times(columns[0], places)
        values = np.empty((len(rows), len(self.tags)))
        status = np.full((len(rows), len(self.tags)), FAULT, np.uint8)
        for j, (tag, k) in enumerate(self.columns.items()):
            values[:, j], unsure = cells.numbers_of(columns[k], self.marks, self.words)
            for place, text, wanted in unsure:
                self.fault(wanted, places[place], tag, text)
            status[:, j] = cells.status_of(values[:, j], columns[self.said[tag]] if tag in self.said else (), self.words)
            self.numbers[tag] = self.numbers.get(tag, False) or bool(np.isfinite(values[:, j]).any()) or not any(c.strip() for c in columns[k])
        return self._within([times, values, status])

    def _times(self, texts: Sequence[str], places: Sequence[int]) -> Any:
        import numpy as np

        before = self.clock.last
        times, wrong = self.clock.read(texts)
        for k, wanted in wrong:
            self.fault(wanted, places[k], self.names[0] or "1", texts[k])
        at = np.array(times, np.int64)
        for k in np.flatnonzero(np.diff(at, prepend=max(before, at[0] - 1) if before > -(2**61) else at[0] - 1) < 0):
            if int(k) not in {j for j, _ in wrong}:
                self.fault("the time goes back: rows in the order of their times would do", places[k], self.names[0] or "1", texts[k])
        return at

    def _within(self, part: List[Any]) -> Optional[List[Any]]:
        """The rows from --from to before --to."""
        import numpy as np

        if self.how.start is None and self.how.end is None:
            return part
        inside = (part[0] >= (self.how.start or -(2**62))) & (part[0] < (2**62 if self.how.end is None else self.how.end))
        return [array[inside] for array in part] if inside.any() else None

    def _all_words(self) -> None:
        """A column that has no number at all is a fault."""
        for tag, has in self.numbers.items():
            if not has:
                found = next((word for word, _ in self.words.most_common(3) if word != "(nothing)"), "")
                self.fault("no cell of the column is a number: another tag in the list, or another export, would do", None, tag, found)


class _Mean:
    """Means over intervals: of the measured cells; a fault if fewer than half of an interval's cells are."""

    def __init__(self, every: int, tags: int) -> None:
        self.every, self.tags = every, tags
        self.left: Optional[List[Any]] = None

    def add(self, part: List[Any]) -> Iterator[List[Any]]:
        """The intervals that end within this block."""
        import numpy as np

        if self.left is not None:
            part = [np.concatenate(both) for both in zip(self.left, part)]
        last = part[0][-1] // self.every
        whole = part[0] // self.every < last
        self.left = [array[~whole] for array in part]
        if whole.any():
            yield self._means([array[whole] for array in part])

    def rest(self) -> Iterator[List[Any]]:
        if self.left is not None and len(self.left[0]):
            yield self._means(self.left)

    def _means(self, part: List[Any]) -> List[Any]:
        import numpy as np

        times, values, status = part
        numbers, first, count = np.unique(times // self.every, return_index=True, return_counts=True)
        measured = status == MEASURED
        have = np.add.reduceat(measured, first, axis=0, dtype=np.int64)
        total = np.add.reduceat(np.where(measured, values, 0.0), first, axis=0)
        held = np.add.reduceat(status == HELD, first, axis=0, dtype=np.int64)
        kept_total = np.add.reduceat(np.where(status == HELD, values, 0.0), first, axis=0)
        good, kept = 2 * have >= count[:, None], 2 * (have + held) >= count[:, None]
        with np.errstate(all="ignore"):
            means = np.where(good, total / have, (total + kept_total) / (have + held))
        means = np.where(kept, np.round(means, 6), np.nan)
        return [numbers * self.every, means, np.where(good, MEASURED, np.where(kept, HELD, FAULT)).astype(np.uint8)]
