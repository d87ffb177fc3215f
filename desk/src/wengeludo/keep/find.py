# SPDX-License-Identifier: LicenseRef-Wengeludo
"""Searching a book by site, stream, unit, office, verdict and time: newest first, page by page by key, as quick on the last page as on the first."""

from __future__ import annotations

from dataclasses import dataclass
from typing import Any, List, Optional, Tuple

from .book import PAGE, Book
from .record import KIND

Key = Tuple[str, int, int, int]  # when it was kept, or the hour of its readings, then office, kind, number
FEW = 8  # of more plans than this the newest sheets are looked through, and not each plan's
MOST_PLANS = 500
_BRIEF = "s.office, s.kind, s.number, s.at, s.hour, s.who, s.name, p.site, s.source, s.verdict, s.cost, s.blanks, s.changes, s.note"
_ANNULLED = "EXISTS (SELECT 1 FROM remarks r WHERE r.what = 'annulled' AND r.office = s.office AND r.kind = s.kind AND r.first = s.number)"


@dataclass(frozen=True)
class Search:
    """What is looked for; what is left out does not matter. Times are ISO texts, whole or the first part of one: 2026-11 is a month."""

    words: str = ""  # in the names of the site, its units and streams, or the name of the list
    office: Optional[int] = None
    verdict: Optional[int] = None
    kind: Optional[int] = None
    since: str = ""
    until: str = ""
    by_hour: bool = False  # since, until and the order are of the readings' hour, not of the keeping

    @property
    def time(self) -> str:
        """The column by which sheets are ordered."""
        return "hour" if self.by_hour else "at"


@dataclass(frozen=True)
class Brief:
    """A line of a list of sheets. The cost is in thousandths."""

    office: int
    kind: int
    number: int
    at: str
    hour: str
    who: str
    name: str
    site: str
    source: str
    verdict: int
    cost: int
    blanks: int
    changes: str
    note: str
    annulled: bool

    @property
    def key(self) -> Key:
        """Its place in the order of keeping."""
        return self.by("at")

    def by(self, time: str) -> Key:
        """Its place in the order by a column."""
        return getattr(self, time), self.office, self.kind, self.number

    @property
    def title(self) -> str:
        return f"{KIND[self.kind]} {self.number} of office {self.office}"


@dataclass(frozen=True)
class Page:
    """Lines, and the key from which older ones follow; None if there are none."""

    lines: Tuple[Brief, ...]
    older: Optional[Key] = None


def find(book: Book, search: Search = Search(), before: Optional[Key] = None, limit: int = PAGE) -> Page:
    """The newest sheets that are looked for, older than a key."""
    plans = _plans(book, search.words) if search.words else []
    lines: List[Brief] = []
    for where, values in _sources(search.words, plans):
        where += "" if search.kind is None else f" AND s.kind = {int(search.kind)}"  # in the text, so that the index of flows is seen
        for clause, value in _clauses(search):
            where += f" AND {clause}"
            values.append(value)
        if before:
            where += f" AND (s.{search.time}, s.office, s.kind, s.number) < (?, ?, ?, ?)"
            values += before
        lines += _lines(book, where, values, search.time, limit + 1)
    found = sorted({line.by(search.time): line for line in lines}.items(), reverse=True)[: limit + 1]
    return Page(tuple(line for _, line in found[:limit]), found[limit - 1][0] if len(found) > limit else None)


def key_of(book: Book, office: int, number: int, kind: int = 0, search: Search = Search()) -> Key:
    """The key of a kept sheet, to look for older ones."""
    return getattr(book.sheet(office, number, kind), search.time), office, kind, number


def _plans(book: Book, words: str) -> List[int]:
    """The plans in whose names these words stand."""
    escaped = "".join("!" + c if c in "!%_" else c for c in words.casefold())
    return [plan for plan, in book.store.run(f"SELECT plan FROM plans WHERE words LIKE ? ESCAPE '!' ORDER BY plan DESC LIMIT {MOST_PLANS}", (f"%{escaped}%",))]


def _sources(words: str, plans: List[int]) -> List[Tuple[str, List[Any]]]:
    """What to look through: all, or the sheets of some plans and those of lists with this very name."""
    if not words:
        return [("1 = 1", [])]
    found: List[Tuple[str, List[Any]]] = [("s.name = ?", [words])]
    if plans:
        column = "s.plan" if len(plans) <= FEW else "+s.plan"  # the + keeps either store off the index of plans
        found.append((f"{column} IN ({', '.join('?' * len(plans))})", list(plans)))
    return found


def _clauses(search: Search) -> List[Tuple[str, Any]]:
    time = f"s.{search.time}"
    asked = (
        ("s.office = ?", search.office), ("s.verdict = ?", search.verdict), (f"{time} >= ?", search.since or ("0" if search.by_hour else None)),
        (f"{time} <= ?", search.until + "~" if search.until else None),
    )
    return [(clause, value) for clause, value in asked if value is not None]


def _lines(book: Book, where: str, values: List[Any], time: str, limit: int) -> List[Brief]:
    order = f"s.{time} DESC, s.office DESC, s.kind DESC, s.number DESC"
    ask = f"SELECT {_BRIEF}, {_ANNULLED} FROM sheets s JOIN plans p ON p.plan = s.plan WHERE {where} ORDER BY {order} LIMIT {int(limit)}"
    return [Brief(*(*row[:-1], bool(row[-1]))) for row in book.store.run(ask, values)]
