# SPDX-License-Identifier: LicenseRef-Wengeludo
"""Times as a historian writes them: orders of dates, offsets, zones, the hour that autumn has twice."""

from __future__ import annotations

import re
from dataclasses import dataclass
from datetime import date, datetime, timedelta, timezone
from functools import lru_cache
from typing import Any, Dict, Iterable, List, Optional, Sequence, Set, Tuple
from zoneinfo import ZoneInfo

from ..read.faults import Stopped

DAY = 86_400
EPOCH = date(1970, 1, 1).toordinal()
WOULD_DO = "2026-01-31 13:00 would do"
_DATE = re.compile(r"(\d{1,4})([-./])(\d{1,2}|[A-Za-zäÄ]{3})\2(\d{2,4})")
_TIME = re.compile(r"(\d{1,2}):(\d{2})(?::(\d{2})(?:[.,]\d+)?)?\s*([AaPp][Mm])?\s*(Z|[+-]\d{2}:?\d{2})?")
_MONTHS = {name: k // 2 + 1 for k, name in enumerate("jan jan feb feb mar mär apr apr may mai jun jun jul jul aug aug sep sep oct okt nov nov dec dez".split())}
ORDERS = ("day/month", "month/day")


def zone_of(name: Optional[str]) -> Optional[ZoneInfo]:
    """The time zone of this name; Stopped if there is none."""
    if name is None:
        return None
    try:
        return ZoneInfo(name)
    except Exception:  # an unknown key, a name that is no path, a file that is no zone
        raise Stopped(f"--zone {name}: no such time zone; Europe/Vienna or UTC would do") from None


def orders_of(text: str) -> Set[str]:
    """The orders in which a date can be read; both if it has only one order anyway, none if it is no date."""
    found = _DATE.fullmatch(text)
    if not found:
        return set()
    first, mark, middle, last = found.groups()
    if len(first) > 2 or not middle.isdigit() or mark == ".":
        return set(ORDERS) if _ordinal(text, ORDERS[0]) is not None else set()
    return {order for order in ORDERS if _ordinal(text, order) is not None}


def one_way(text: str) -> bool:
    """Whether a date's form allows only one order: year first, the month's name, or points."""
    found = _DATE.fullmatch(text)
    return bool(found) and (len(found[1]) > 2 or not found[3].isdigit() or found[2] == ".")


@lru_cache(maxsize=20_000)
def _ordinal(text: str, order: str) -> Optional[int]:
    """Days since 1970 of a date in this order; none if it is no date."""
    found = _DATE.fullmatch(text)
    if not found:
        return None
    first, _, middle, last = found.groups()
    month = int(middle) if middle.isdigit() else _MONTHS.get(middle.casefold(), 0)
    year, day = (int(first), int(last)) if len(first) > 2 else (int(last), int(first))
    if order == ORDERS[1] and not one_way(text):
        month, day = day, month
    year += 2000 if year < 100 else 0
    try:
        return date(year, month, day).toordinal() - EPOCH
    except ValueError:
        return None


@lru_cache(maxsize=100_000)
def _seconds(text: str) -> Optional[Tuple[int, Optional[int]]]:
    """Seconds of the day, and the offset if the cell has one; none if it is no time of day."""
    found = _TIME.fullmatch(text)
    if not found:
        return None
    hour, minute, second, half, offset = found.groups()
    hours = int(hour) % 12 + (12 if half.casefold() == "pm" else 0) if half else int(hour)
    if hours > 24 or int(minute) > 59 or int(second or 0) > 60:
        return None
    if offset in (None, "Z"):
        return hours * 3600 + int(minute) * 60 + int(second or 0), None if offset is None else 0
    size = int(offset[1:3]) * 3600 + int(offset[-2:]) * 60
    return hours * 3600 + int(minute) * 60 + int(second or 0), -size if offset[0] == "-" else size


def split(text: str) -> Tuple[str, str]:
    """Date and time of day of a cell; a date alone is midnight."""
    text = text.strip()
    at = next((k for k, c in enumerate(text) if c in " T" and k >= 6), len(text))
    return text[:at], text[at + 1 :].strip() or "00:00"


@dataclass
class Clock:
    """Turns the cells of a time column into seconds of UTC, one block after the other."""

    order: str = ORDERS[0]
    zone: Optional[ZoneInfo] = None
    form: Optional[str] = None
    last: int = -(2**62)
    bare: bool = False  # a cell had no offset and no zone was named

    def __post_init__(self) -> None:
        self.offsets: Dict[int, Tuple[int, int]] = {}

    def read(self, cells: Sequence[str]) -> Tuple[List[int], List[Tuple[int, str]]]:
        """Seconds of UTC of each cell, and of those that are none the place in the block and what would do."""
        times, wrong = [], []
        for k, text in enumerate(cells):
            at, what = self.one(text)
            if at is None:
                wrong.append((k, what))
            else:
                self.last = at
            times.append(self.last if at is None else at)
        return times, wrong

    def one(self, text: str) -> Tuple[Optional[int], str]:
        """Seconds of UTC, or none and what would do."""
        if self.form:
            return self._formed(text)
        day, clock = split(text)
        days, seconds = _ordinal(day, self.order), _seconds(clock)
        if days is None or seconds is None:
            return None, f"no time that is known, or of another order of day and month than the rows before: {WOULD_DO}"
        naive = days * DAY + seconds[0]
        return (naive - seconds[1], "") if seconds[1] is not None else self._zoned(naive)

    def _formed(self, text: str) -> Tuple[Optional[int], str]:
        try:
            at = datetime.strptime(text.strip(), self.form or "")
        except ValueError:
            return None, f"no time of the form {self.form}"
        if at.tzinfo:
            return int(at.timestamp()), ""
        return self._zoned(int(at.replace(tzinfo=timezone.utc).timestamp()))

    def _zoned(self, naive: int) -> Tuple[Optional[int], str]:
        """Local seconds as seconds of UTC. The hour that comes twice in autumn goes by its place in the file."""
        if self.zone is None:
            self.bare = True
            return naive, ""
        quarter = naive // 900
        if quarter not in self.offsets:
            self.offsets[quarter] = _offsets(naive, self.zone)
        early, late = (naive - offset for offset in self.offsets[quarter])
        if early > late:
            return None, f"no such time in {self.zone.key}: clocks go forward there; the zone in which the export was written would do"
        return (early if early > self.last or early == late else late), ""


def _offsets(naive: int, zone: ZoneInfo) -> Tuple[int, int]:
    """The offsets of local seconds: of the first and of the second time that a clock shows them."""
    at = datetime(1970, 1, 1) + timedelta(seconds=naive)
    one, other = (at.replace(tzinfo=zone, fold=k).utcoffset() or timedelta() for k in (0, 1))
    return int(one.total_seconds()), int(other.total_seconds())


def order_of(dates: Iterable[str]) -> Tuple[str, Optional[str]]:
    """The one order in which all of these dates can be read, and what is wrong if there are two or none."""
    left, seen, unsure = set(ORDERS), None, False
    for text in sorted(set(dates)):
        orders = orders_of(text)
        if not orders:
            return ORDERS[0], None  # no date at all: the clock tells the row
        unsure |= not one_way(text)
        if not left & orders:
            return next(iter(left)), f"{text} and {seen} have their days and months in different orders: one order would do"
        seen = text if orders != set(ORDERS) or seen is None else seen
        left &= orders
    if len(left) == 2 and unsure:
        return ORDERS[0], f"{seen} may be day/month or month/day, and no date of the export tells which: --time-format %d/%m/%Y %H:%M would do"
    return min(left, key=ORDERS.index), None


def shown(at: int, zone: Optional[ZoneInfo], form: str = "%Y-%m-%dT%H:%M", offset: bool = True) -> str:
    """A time as tables show it, with its offset if that is wanted."""
    local = datetime.fromtimestamp(int(at), zone or timezone.utc)
    apart = local.strftime("%z")
    return local.strftime(form) + ("" if not offset else "Z" if apart in ("+0000", "") else f"{apart[:3]}:{apart[3:]}")


def instant(text: str, zone: Optional[ZoneInfo]) -> int:
    """The time that an option or a table names, in seconds of UTC; Stopped if it is none."""
    at, what = Clock(zone=zone).one(text)
    if at is None:
        raise Stopped(f'"{text}" is {what}')
    return at


def every_of(text: str) -> int:
    """Seconds of an interval: 1h, 15min, 1d; Stopped if it is none."""
    found = re.fullmatch(r"(\d+)\s*(s|min|m|h|d)", text.strip().casefold())
    size = int(found[1]) * {"s": 1, "min": 60, "m": 60, "h": 3600, "d": DAY}[found[2]] if found else 0
    if not 0 < size <= 7 * DAY:
        raise Stopped(f"--every {text}: 1h, 15min or 1d would do")
    return size


def strided(times: Any, alone: Optional[int] = None) -> int:
    """The usual distance of rows, in seconds; if there is one row, what it is the mean of, or an hour."""
    import numpy as np

    return max(1, int(np.median(np.diff(times)))) if len(times) > 1 else alone or 3600
