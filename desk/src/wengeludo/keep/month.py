# SPDX-License-Identifier: LicenseRef-Wengeludo
"""A month's bill over the hours of a book: the charges of each hour's sheet, by the hour of its readings, added in whole cents."""

from __future__ import annotations

import re
from calendar import monthrange
from collections import Counter
from dataclasses import dataclass
from typing import Dict, List, Optional, Tuple

from wengeludo_balance import Verdict

from ..explain.charges import bill
from ..read.faults import Stopped
from .book import Book
from .find import Brief, Search, find

Stream = Tuple[str, str]  # label and name


@dataclass(frozen=True)
class MonthBill:
    """A month's bill: how many hours it has, billed, of them failing, left out as failing or annulled; kg and cents of each stream."""

    month: str
    hours: int
    billed: int
    failing: int
    left_out: int
    annulled: int
    charges: Dict[Stream, Tuple[float, int]]

    @property
    def cents(self) -> int:
        return sum(cents for _, cents in self.charges.values())

    def account(self) -> List[str]:
        """The bill in sentences."""
        told = [f"{self.month}: {self.billed:,} of {self.hours:,} hours billed, each by its own sheet, added in whole cents."]
        told += [f"{self.hours - self.billed:,} hours have no bill."] if self.billed < self.hours else []
        told += [f"BILLED FROM FAILING SHEETS: {self.failing:,} hours."] if self.failing else []
        told += [f"{self.left_out:,} hours fail their test and are not billed; --failing bills them all the same."] if self.left_out else []
        return told + ([f"{self.annulled:,} annulled {'sheet does' if self.annulled == 1 else 'sheets do'} not count."] if self.annulled else [])


def month_bill(book: Book, month: str, words: str = "", office: Optional[int] = None, failing: bool = False) -> MonthBill:
    """The bill of 2026-11; Stopped if there is nothing to bill, or two sheets of one hour, or several sites."""
    match = re.fullmatch(r"(\d{4})-(0[1-9]|1[0-2])", month)
    if not match:
        raise Stopped(f"{month} is no month: 2026-11 would do")
    found = _all(book, Search(words, office, since=month, until=month, by_hour=True))
    valid = [line for line in found if not line.annulled]
    _each_once(valid)
    wanted = [line for line in valid if failing or line.verdict != Verdict.FAIL]
    charges: Dict[Stream, Tuple[float, int]] = {}
    for line in wanted:
        _add(charges, book, line)
    failed = sum(line.verdict == Verdict.FAIL for line in valid)
    hours = monthrange(int(match[1]), int(match[2]))[1] * 24
    return MonthBill(month, hours, len(wanted), failed if failing else 0, len(valid) - len(wanted), len(found) - len(valid), charges)


def _all(book: Book, search: Search) -> List[Brief]:
    """All sheets that are looked for."""
    lines: List[Brief] = []
    page = find(book, search, limit=500)
    while True:
        lines += page.lines
        if page.older is None:
            return lines
        page = find(book, search, page.older, 500)


def _each_once(lines: List[Brief]) -> None:
    """Stopped if the sheets are not one for each hour of one site."""
    if not lines:
        raise Stopped("no sheet of this month tells the hour of its readings: `keep --at`, or an hour above the list, would do")
    sites = sorted({line.site for line in lines})
    if len(sites) > 1:
        raise Stopped(f"the month has sheets of several sites ({', '.join(sites[:5])}): --find NAME would do")
    vague = next((line for line in lines if "T" not in line.hour), None)
    if vague:
        raise Stopped(f"{vague.title} tells the day of its readings and not the hour: `book annul` and `keep --at` would do")
    hour, count = Counter(line.hour[:13] for line in lines).most_common(1)[0]
    if count > 1:
        twice = ", ".join(line.title for line in lines if line.hour[:13] == hour)
        raise Stopped(f"{hour} h has {count} sheets ({twice}): `book annul` of all but one would do")


def _add(charges: Dict[Stream, Tuple[float, int]], book: Book, line: Brief) -> None:
    """Adds the charges of a sheet, after every check of it."""
    kept = book.sheet(line.office, line.number, line.kind)
    faults = book.faults(kept)
    if faults:
        raise Stopped(f"{kept.title}: {faults[0]}")
    for charge in bill(kept.balance(), f"{line.title}, {line.source}")[0]:
        name = (charge.pipe.label, charge.pipe.what)
        amount, cents = charges.get(name, (0.0, 0))
        charges[name] = (amount + charge.flow, cents + charge.cents)
