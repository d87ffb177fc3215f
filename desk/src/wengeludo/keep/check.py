# SPDX-License-Identifier: LicenseRef-Wengeludo
"""The whole book checked: numbers without gaps, the chain of each office, and every kept sheet by the engine. Read page by page, up to the
entries that were there at the start: others may draw meanwhile."""

from __future__ import annotations

import hashlib
from dataclasses import replace
from typing import Callable, Dict, Iterator, List, Tuple, Union

from .book import SOME, Book, Office
from .record import FIELDS, FLOW, KIND, SHEET, Kept, link
from .schema import START
from .store import Row

Told = Callable[[int, int], None]
MOST_FAULTS = 1000
_SHEETS = f"SELECT {', '.join(FIELDS)} FROM sheets WHERE office = ? AND entry > ? AND entry <= ? ORDER BY entry LIMIT {SOME}"
_REMARKS = "SELECT office, entry, what, kind, first, final, at, who, reason, chain FROM remarks WHERE office = ? AND entry > ? AND entry <= ? ORDER BY entry"


def check(book: Book, told: Told = lambda done, of: None) -> List[str]:
    """What is wrong with a book, by office and entry; nothing if it is whole. At most the first thousand faults."""
    offices, plans = book.offices(), _Plans(book)
    faults, done, of = book.store.faults() + plans.faults(), 0, sum(at.entry for at in offices)
    for at in offices:
        walk = _Walk(at, plans)
        for some in _entries(book, at):
            for entry in some:
                faults += walk.entry(entry)
            told(done := done + len(some), of)
            if len(faults) > MOST_FAULTS:
                return faults[:MOST_FAULTS]
        faults += walk.end()
    return faults


class _Plans:
    """The plans of a book by number: digest and text, each read once."""

    def __init__(self, book: Book) -> None:
        self.book, self.known = book, {}  # type: Book, Dict[int, Tuple[bytes, str]]

    def __getitem__(self, plan: int) -> Tuple[bytes, str]:
        if plan not in self.known:
            rows = self.book.store.run("SELECT digest, told FROM plans WHERE plan = ?", (plan,))
            self.known[plan] = (bytes(rows[0][0]), rows[0][1]) if rows else (b"", "")
            if len(self.known) > 10_000:
                self.known = {plan: self.known[plan]}
        return self.known[plan]

    def faults(self) -> List[str]:
        """The plans whose text is not that of their digest."""
        found, last = [], 0
        while True:
            rows = self.book.store.run(f"SELECT plan, digest, told FROM plans WHERE plan > ? ORDER BY plan LIMIT {SOME}", (last,))
            found += [f"plan {plan}: names or unit were altered" for plan, digest, text in rows if hashlib.sha256(text.encode()).digest() != bytes(digest)]
            if len(rows) < SOME:
                return found
            last = rows[-1][0]


def _entries(book: Book, at: Office) -> Iterator[List[Union[Kept, Row]]]:
    """An office's entries in their order, sheets and remarks together, some at a time."""
    last = 0
    while True:
        sheets = [Kept(*row) for row in book.store.run(_SHEETS, (at.office, last, at.entry))]
        until = sheets[-1].entry if len(sheets) == SOME else at.entry
        remarks = book.store.run(_REMARKS, (at.office, last, until))
        both: List[Tuple[int, Union[Kept, Row]]] = [(kept.entry, kept) for kept in sheets] + [(row[1], row) for row in remarks]
        yield [one for _, one in sorted(both, key=lambda pair: pair[0])]
        if until == at.entry:
            return
        last = until


class _Walk:
    """One office walked from its first entry to its last."""

    def __init__(self, at: Office, plans: _Plans) -> None:
        self.at, self.plans = at, plans
        self.chain, self.count = START, 0
        self.numbers = {SHEET: 0, FLOW: 0}

    def entry(self, entry: Union[Kept, Row]) -> List[str]:
        """What is wrong with the next entry."""
        number = entry.entry if isinstance(entry, Kept) else entry[1]
        self.count += 1
        missing = [] if number == self.count else [f"office {self.at.office}: entry {self.count} is missing"]
        self.count = number
        return missing + (self._sheet(entry) if isinstance(entry, Kept) else self._remark(entry))

    def _sheet(self, kept: Kept) -> List[str]:
        digest, text = self.plans[kept.plan]
        kept = replace(kept, digest=digest, told=text)
        faults = [f"{kept.title}: {fault}" for fault in kept.faults(self.chain)]
        self.chain = kept.chain
        return self._number(kept.kind, kept.number, kept.number) + faults

    def _remark(self, row: Row) -> List[str]:
        office, entry, what, kind, first, final = row[:6]
        name = f"office {office}, entry {entry} ({what})"
        faults = [] if link(self.chain, *row[:-1]) == bytes(row[-1]) else [f"{name}: the chain is broken"]
        self.chain = bytes(row[-1])
        if what == "lost":
            return self._number(kind, first, final) + faults
        return faults if first <= self.numbers[kind] else [*faults, f"{name}: there is no {KIND[kind]} {first}"]

    def _number(self, kind: int, first: int, final: int) -> List[str]:
        wanted, self.numbers[kind] = self.numbers[kind] + 1, final
        return [] if first == wanted else [f"office {self.at.office}: {KIND[kind]} {wanted} should follow, {first} does"]

    def end(self) -> List[str]:
        """What is wrong with the office's own line."""
        found = (self.numbers[SHEET], self.numbers[FLOW], self.count, self.chain)
        if found == (self.at.last, self.at.flows, self.at.entry, bytes(self.at.chain)):
            return []
        return [f"office {self.at.office}: its last numbers are {self.at.last} and {self.at.flows}, its sheets end at {found[0]} and {found[1]}, "
                f"and the end of its chain {'agrees' if self.chain == bytes(self.at.chain) else 'differs'}"]
