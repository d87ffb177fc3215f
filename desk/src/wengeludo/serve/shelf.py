# SPDX-License-Identifier: LicenseRef-Wengeludo
"""What the pages begin with: lists that were taken and kept sheets, found in the book and remembered for a while."""

from __future__ import annotations

import json
import re
from collections import OrderedDict
from dataclasses import dataclass
from datetime import datetime, timezone
from pathlib import Path
from threading import Lock
from typing import Any, Callable, Dict, Generic, Hashable, List, Optional, Tuple, TypeVar

from wengeludo_balance import Verdict

from ..balance.kind import SheetKind
from ..balance.sheet import Balance, balance
from ..balance.site import Site
from ..keep.book import Book, Draft
from ..keep.drawn import layout_in
from ..keep.find import Brief, Key, Search, find
from ..keep.record import FLOW, SHEET, Kept
from ..keep.store import Absent, Closed, Conflict, Unreachable
from ..read.faults import Stopped
from ..write import view
from ..write.layout import Layout
from .show import SIGNS

__all__ = ["Absent", "Base", "Closed", "Conflict", "Query", "Shelf", "Unreachable"]
T = TypeVar("T")
REMEMBERED = 256
LONGEST_RUN = 2_000_000
VERDICTS = tuple(verdict.name.lower() for verdict in sorted(Verdict, key=lambda verdict: verdict.value))
_LIST, _SHEET = re.compile(r"list/(\d{1,12})"), re.compile(r"sheet/([0-7])-(f?)(\d{1,10})")
_PLACE = re.compile(r"([0-9TZ:.\-]{10,40}),([0-7]),([01]),(\d{1,10})")


class Recent(Generic[T]):
    """The values that were last asked for, at most so many; threads may ask at once."""

    def __init__(self, most: int = REMEMBERED) -> None:
        self.most, self.held, self.lock = most, OrderedDict(), Lock()  # type: Tuple[int, OrderedDict[Hashable, T], Lock]

    def get(self, key: Hashable, make: Callable[[], T]) -> T:
        """The value of a key, made if it is not remembered."""
        with self.lock:
            if key in self.held:
                self.held.move_to_end(key)
                return self.held[key]
        made = make()
        with self.lock:
            self.held[key] = made
            while len(self.held) > self.most:
                self.held.popitem(last=False)
        return made


def ref_of(office: int, number: int, kind: int) -> str:
    """How pages name a kept sheet: 3-17, or 3-f17 if it is one of checked flows."""
    return f"{office}-{'f' if kind == FLOW else ''}{number}"


@dataclass(frozen=True)
class Base:
    """What a workbench begins with: a list that was taken, or a kept sheet."""

    path: str
    site: Site
    plan: int
    source: str
    at: str
    who: str
    row: Optional[Kept] = None
    fault: str = ""  # what is wrong with a kept sheet

    @property
    def kept(self) -> bool:
        return self.row is not None

    @property
    def ref(self) -> str:
        return self.path.split("/")[1]

    @property
    def office(self) -> int:
        return self.row.office if self.row else 0

    @property
    def number_text(self) -> str:
        """The number of a kept sheet; one of checked flows has a number of its own kind, marked so."""
        return self.ref.split("-")[1] if self.row else ""

    @property
    def note(self) -> str:
        return self.row.note if self.row else ""

    @property
    def annulled(self) -> str:
        return self.row.annulled if self.row else ""

    @property
    def made(self) -> List[Tuple[int, str, str, str]]:
        """The fields that were changed before the sheet was kept."""
        rows = json.loads(self.row.changes) if self.row and self.row.changes else []
        return [(int(n), str(field), str(before), str(after)) for n, field, before, after in rows]


@dataclass(frozen=True)
class Query:
    """What a search asks for."""

    words: str = ""
    office: Optional[int] = None
    verdict: Optional[str] = None
    since: str = ""
    until: str = ""
    before: str = ""


@dataclass(frozen=True)
class Found:
    """A line of the book as pages show it."""

    brief: Brief

    @property
    def ref(self) -> str:
        return ref_of(self.brief.office, self.brief.number, self.brief.kind)

    @property
    def verdict(self) -> str:
        return VERDICTS[self.brief.verdict]

    @property
    def sign(self) -> str:
        return SIGNS[self.verdict][0]

    @property
    def tone(self) -> str:
        return SIGNS[self.verdict][1]

    @property
    def cost(self) -> str:
        return view.cost_text(self.brief.cost / 1000)

    @property
    def place(self) -> str:
        """Where older lines follow, as a word of an address."""
        return ",".join(str(part) for part in self.brief.key)


def place_in(text: str) -> Optional[Key]:
    """The place in the book that an address names, if it names one."""
    told = _PLACE.fullmatch(text)
    return (told[1], int(told[2]), int(told[3]), int(told[4])) if told else None


@dataclass(frozen=True)
class Run:
    """The page of a history run."""

    name: str
    at: str


class Shelf:
    """A book as the pages use it."""

    def __init__(self, book: Book, runs: Optional[Path] = None) -> None:
        self.book, self.folder = book, runs
        self.bases: Recent[Base] = Recent()
        self.firsts: Recent[Balance] = Recent()
        self.layouts: Recent[Layout] = Recent(64)

    @classmethod
    def opened(cls, where: str, runs: Optional[Path] = None) -> "Shelf":
        """The shelf of a book, which is made if there is none."""
        if runs is not None and not runs.is_dir():
            raise Stopped(f"{runs}: there is no such folder")
        return cls(Book(where, make=True), runs)

    # -- lists and sheets

    def base(self, path: str) -> Base:
        """A list or a kept sheet by its path; Absent if there is none."""
        taken, kept = _LIST.fullmatch(path), _SHEET.fullmatch(path)
        if taken:
            return self.bases.get(path, lambda: self._list(path, int(taken[1])))
        if kept:
            return self._sheet(path, int(kept[1]), int(kept[3]), FLOW if kept[2] else SHEET)
        raise Absent("there is no such page")

    def _list(self, path: str, number: int) -> Base:
        taken, site = self.book.list_site(number)
        return Base(path, site, taken.plan, taken.source, taken.at, taken.who)

    def _sheet(self, path: str, office: int, number: int, kind: int) -> Base:
        """A kept sheet, checked again: by its chain, its names and readings, and by the engine."""
        row = self.book.sheet(office, number, kind)
        return self.bases.get((path, row.chain, row.annulled), lambda: Base(path, row.site(), row.plan, row.source, row.at, row.who, row, "; ".join(self.book.faults(row))))

    def first(self, base: Base) -> Balance:
        """The sheet of a list or as it was kept, without any what-if."""
        row = base.row
        return self.firsts.get((base.path, row.chain if row else b""), lambda: row.balance() if row else balance(base.site))

    def layout(self, base: Base) -> Layout:
        """Where things stand in the drawing: laid out once for a plan, and kept with it."""
        return self.layouts.get(base.plan, lambda: layout_in(self.book, base.plan, base.site.list, lambda: self.first(base)))

    def lists(self, before: Optional[int], limit: int) -> List[Any]:
        """Lists taken, the newest first."""
        return self.book.lists(2**62 if before is None else before, limit)

    def lasts(self) -> Tuple[int, ...]:
        return self.book.lasts()

    def search(self, query: Query, limit: int) -> List[Found]:
        """Kept sheets that are looked for, the newest first."""
        verdict = VERDICTS.index(query.verdict) if query.verdict in VERDICTS else None
        asked = Search(query.words, query.office, verdict, since=query.since, until=query.until)
        return [Found(line) for line in find(self.book, asked, place_in(query.before), limit).lines]

    # -- writing

    def take(self, site: Site, source: str, who: str) -> int:
        """Lays a list into the book; its number."""
        return self.book.add_list(Draft(site, source, who=who))

    def keep(self, site: Site, office: int, request: str, said: Dict[str, str]) -> Optional[str]:
        """Keeps the sheet of a site once; its reference, or None if no flow keeps within the ranges. Stopped if it is not judged."""
        drawn = balance(site)
        if drawn.kind is SheetKind.UNJUDGED:
            raise Stopped(f"not kept: the sheet is not judged: {drawn.reason}")
        receipt = self.book.keep_one(Draft(site, request=request, checked=drawn.checked if drawn.kind is SheetKind.CHECKED else None, **said), office)
        return None if receipt is None else ref_of(receipt.office, receipt.number, receipt.kind)

    # -- history runs

    @property
    def has_runs(self) -> bool:
        return self.folder is not None

    def runs(self) -> List[Run]:
        """The pages of history runs in the folder, the newest first."""
        found = [] if self.folder is None else [(path.stat().st_mtime, path.name) for path in self.folder.glob("*.html") if path.is_file()]
        return [Run(name, datetime.fromtimestamp(at, timezone.utc).isoformat()) for at, name in sorted(found, reverse=True)]

    def run(self, name: str) -> bytes:
        """The page of a run by its name; Absent if the folder has none of that name."""
        if self.folder is None or name not in {run.name for run in self.runs()}:
            raise Absent("there is no such run")
        path = self.folder / name
        if path.stat().st_size > LONGEST_RUN:
            raise Absent("that page is too large for a run's")
        return path.read_bytes()
