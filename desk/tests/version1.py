# SPDX-License-Identifier: LicenseRef-Wengeludo
"""The book of version 1, as it was: for tests of the upgrade, and for the rate beside it. One SQLite file, each sheet written in one transaction with the office's last number.

A crash between any two writes leaves the book as it was before the sheet or as it is after it: no number is lost, none is drawn twice.
"""

from __future__ import annotations

import json
import sqlite3
from contextlib import contextmanager
from dataclasses import dataclass, replace
from datetime import datetime, timezone
from fractions import Fraction
from pathlib import Path
from typing import Iterable, Iterator, List, Optional, Tuple

import wengeludo_balance as engine

from wengeludo.balance.sheet import Balance, reopened
from wengeludo.balance.site import Site
from wengeludo.read.faults import Stopped
from wengeludo.read.lists import Pipe, PipeList
from wengeludo.read.numbers import Accuracy

VERSION = 1
APPLICATION = 0x57454E47  # the file's mark
_TABLES = """
CREATE TABLE offices (office INTEGER PRIMARY KEY CHECK (office BETWEEN 0 AND 7), last INTEGER NOT NULL);
CREATE TABLE sheets (
    office INTEGER NOT NULL, number INTEGER NOT NULL, date TEXT NOT NULL, source TEXT NOT NULL, names TEXT NOT NULL,
    plant BLOB NOT NULL, sheet BLOB NOT NULL, numbers TEXT NOT NULL, PRIMARY KEY (office, number)
);
CREATE INDEX sheets_by_source ON sheets (source);
"""


@dataclass(frozen=True)
class Kept:
    """A kept sheet."""

    office: int
    number: int
    date: str
    source: str
    names: str
    plant: bytes
    sheet: bytes
    numbers: Tuple[int, ...]

    def checked(self) -> None:
        """The engine's check of what is kept; Refusal where it does not pass."""
        engine.check_sheet(self.plant, self.sheet, self.numbers)

    def balance(self) -> Balance:
        """The sheet with its names, read by the sheet reader; Stopped where what is kept is damaged."""
        try:
            return replace(reopened(_site(self), self.sheet), date=self.date)
        except (engine.Refusal, ValueError, KeyError, TypeError, IndexError) as error:
            raise Stopped(f"sheet {self.number} of office {self.office} is damaged in the book: {error}") from None


class Book:
    """A book, opened; made where there is none and `make` says so."""

    def __init__(self, path: Path, make: bool = False) -> None:
        if not make and not path.is_file():
            raise Stopped(f"{path}: there is no such book")
        self.path = path
        try:
            self.base = sqlite3.connect(path, timeout=60, isolation_level=None)
            self.base.execute("PRAGMA synchronous = FULL")
            self._prepare(make)
        except sqlite3.DatabaseError as error:
            raise Stopped(f"{path}: this is no book of sheets ({error})") from None

    def close(self) -> None:
        self.base.close()

    def _prepare(self, make: bool) -> None:
        mark = self._one("PRAGMA application_id")
        if mark == APPLICATION and self._one("PRAGMA user_version") == VERSION:
            return
        if not make or mark or self._one("SELECT count(*) FROM sqlite_master"):
            raise Stopped(f"{self.path}: this is no book of sheets of version {VERSION}")
        with self._whole():
            if self._one("PRAGMA application_id") == 0:
                for statement in _TABLES.split(";"):
                    self.base.execute(statement)
                self.base.executemany("INSERT INTO offices VALUES (?, 0)", ((office,) for office in range(engine.OFFICES)))
                self.base.execute(f"PRAGMA application_id = {APPLICATION}")
                self.base.execute(f"PRAGMA user_version = {VERSION}")

    def _one(self, question: str) -> int:
        return int(self.base.execute(question).fetchone()[0])

    @contextmanager
    def _whole(self) -> Iterator[None]:
        """All that is written within is kept, or nothing."""
        self.base.execute("BEGIN IMMEDIATE")
        try:
            yield
        except BaseException:
            self.base.execute("ROLLBACK")
            raise
        self.base.execute("COMMIT")

    def lasts(self) -> Tuple[int, ...]:
        return tuple(last for (last,) in self.base.execute("SELECT last FROM offices ORDER BY office"))

    def keep(self, sites: Iterable[Tuple[Site, str]], office: int) -> List[Optional[int]]:
        """Draws and keeps the sheets of sites under the office's next numbers, all of them or, after a crash, none; a site whose ranges
        cannot be kept has none (None). Any other refusal is raised, and nothing is kept."""
        with self._whole():
            return [self._draw(site, source, office) for site, source in sites]

    def _draw(self, site: Site, source: str, office: int) -> Optional[int]:
        try:
            drawn = engine.balance_plant(site.file, office, self.lasts())
        except engine.Refusal as refusal:
            if refusal.number != 19:
                raise
            return None
        number, numbers = drawn.lasts[office], engine.place_numbers(site.file)
        date = datetime.now(timezone.utc).isoformat(timespec="seconds")
        kept = (office, number, date, source, _names(site), site.file, drawn.sheet, json.dumps(numbers))
        self.base.execute("INSERT INTO sheets VALUES (?, ?, ?, ?, ?, ?, ?, ?)", kept)
        self.base.execute("UPDATE offices SET last = ? WHERE office = ?", (number, office))
        return number

    def sheets(self) -> Iterator[Kept]:
        """All kept sheets by office and number."""
        return self._found("SELECT * FROM sheets ORDER BY office, number")

    def sheet(self, office: int, number: int) -> Kept:
        """One kept sheet; Stopped where there is none."""
        for found in self._found("SELECT * FROM sheets WHERE office = ? AND number = ?", office, number):
            return found
        raise Stopped(f"{self.path}: office {office} has no sheet {number}")

    def _found(self, question: str, *words: int) -> Iterator[Kept]:
        try:
            for row in self.base.execute(question, words):
                office, number, date, source, names, plant, sheet, numbers = row
                yield Kept(office, number, date, source, names, plant, sheet, tuple(json.loads(numbers)))
        except (sqlite3.DatabaseError, ValueError, TypeError) as error:
            raise Stopped(f"{self.path}: the book is damaged ({error})") from None

    def number_of(self, site: Site, source: str, office: int) -> Optional[int]:
        """The number of the office's sheet that was kept from this file with the same plant and names; None where there is none."""
        question = "SELECT max(number) FROM sheets INDEXED BY sheets_by_source WHERE source = ? AND office = ? AND plant = ? AND names = ?"
        found: Optional[int] = self.base.execute(question, (source, office, site.file, _names(site))).fetchone()[0]
        return found


def _names(site: Site) -> str:
    """What a plant file does not hold: names, unit, readings as listed, accuracies, columns and places of the user's own."""
    pipes = [
        [p.label, p.what, p.reading, p.stated, p.accuracy.deviation if p.accuracy else None, p.price, p.rate, *p.extra]
        for p in site.list.pipes
    ]
    told = {"site": site.list.name, "unit": str(site.unit), "places": site.list.places, "extras": site.list.extras, "pipes": pipes}
    if site.list.spots:
        told["spots"] = [[place, *spot] for place, spot in sorted(site.list.spots.items())]
    return json.dumps(told, ensure_ascii=False)


def _site(kept: Kept) -> Site:
    """The site of a kept sheet: its plant from the plant file, its names from what was kept beside it."""
    plant, told = engine.read_plant(kept.plant), json.loads(kept.names)
    unit = Fraction(told["unit"])
    pipes = []
    for row, (stream, (label, what, reading, stated, deviation, price, rate, *extra)) in enumerate(zip(plant.streams, told["pipes"]), 2):
        low, high = (None if end is None else float(end * unit) for end in (stream.low, stream.high))
        accuracy = None if deviation is None else Accuracy(deviation)
        pipes.append(Pipe(row, label, what, stream.source, stream.target, reading, accuracy, stated, low, high, price, rate, tuple(extra)))
    spots = {place: (float(x), float(y)) for place, x, y in told.get("spots", ())}
    listed = PipeList(told["site"], tuple(pipes), tuple(told["places"]), tuple(told["extras"]), spots)
    return Site(listed, unit, plant)
