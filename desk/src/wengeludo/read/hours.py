# SPDX-License-Identifier: LicenseRef-Wengeludo
"""The hour of the readings, as a list, a heading or an option tells it."""

from __future__ import annotations

import re
from datetime import datetime
from typing import Optional

_DAY = r"(?:(?P<year>\d{4})-(?P<month>\d{1,2})-(?P<day>\d{1,2})|(?P<day2>\d{1,2})\.\s?(?P<month2>\d{1,2})\.\s?(?P<year2>\d{4}))"
_CLOCK = r"(?:(?:[T ,]|\s+(?:um|at)\s+)\s*(?P<hour>\d{1,2})(?::(?P<minute>\d{2})(?::(?P<second>\d{2})(?:\.\d+)?)?|\s*(?:h|Uhr))?)?"
_ZONE = r"\s*(?P<zone>Z|UTC|[+-]\d{2}:?\d{2})?"
_HOUR = re.compile(_DAY + _CLOCK + _ZONE, re.IGNORECASE)


def hour_from(text: str) -> Optional[str]:
    """The hour that a text is, in ISO form; None if it is none."""
    match = _HOUR.fullmatch(text.strip())
    return _iso(match) if match else None


def hour_within(text: str) -> Optional[str]:
    """The one hour that stands within a text, such as a heading; None if none does or several do."""
    found = {_iso(match) for match in _HOUR.finditer(text)} - {None}
    return found.pop() if len(found) == 1 else None


def _iso(match: "re.Match[str]") -> Optional[str]:
    year, month, day = (int(match[name] or match[name + "2"]) for name in ("year", "month", "day"))
    clock = [int(match[name] or 0) for name in ("hour", "minute", "second")]
    try:
        moment = datetime(year, month, day, clock[0], clock[1], clock[2])
    except ValueError:
        return None
    if match["hour"] is None:
        return moment.strftime("%Y-%m-%d")
    zone = (match["zone"] or "").upper().replace("UTC", "Z")
    return moment.isoformat(timespec="seconds" if clock[2] else "minutes") + zone
