# SPDX-License-Identifier: LicenseRef-Wengeludo
"""A history from files to files: what the command and a folder of sites have in common."""

from __future__ import annotations

from dataclasses import dataclass
from fractions import Fraction
from pathlib import Path
from typing import List, Optional, Sequence, Tuple

from ..explain.charges import rated
from ..read.faults import Stopped
from ..read.lists import Asked, read_list
from . import clock
from .analysis import Analysis, analysed
from .bill import Bill, bill, month_of
from .export import How, read_exports
from .overrides import apply, read_overrides
from .run import Wanted, balanced
from .tags import tagged


OVERRIDES = "overrides.csv"  # of a site's folder


@dataclass(frozen=True)
class Options:
    """What a history is asked for, as texts of the command line."""

    zone: Optional[str] = None
    form: Optional[str] = None
    every: Optional[str] = None
    start: Optional[str] = None
    end: Optional[str] = None
    reference: Optional[str] = None
    overrides: Optional[Path] = None
    unit: Optional[Fraction] = None
    threads: int = 1
    certify: bool = False
    bills: Tuple[str, ...] = ()
    typed: bool = False  # the numbers as the export shows them are wanted too
    said: Asked = Asked()  # of the list and, by its decimal mark, of the exports

    def checked(self) -> None:
        """Stopped if a zone, a month, an interval or the reference is none."""
        clock.zone_of(self.zone)
        for month in self.bills:
            month_of(month)
        if self.every:
            clock.every_of(self.every)
        _span(self.reference, self.zone)


def history(path: Path, exports: Sequence[Path], options: Options) -> Tuple[Analysis, List[Bill]]:
    """The run of a list and its exports, what was made of it, and its bills; Stopped, Faulty or OSError with what is wrong."""
    zone = clock.zone_of(options.zone)
    months = [month_of(text) for text in options.bills]
    times = [None if text is None else clock.instant(text, zone) for text in (options.start, options.end)]
    reference = _span(options.reference, options.zone)
    how = How(options.zone, options.form, clock.every_of(options.every) if options.every else None, *times, options.said.decimal)
    listed = tagged(read_list(path, options.said), path, options.said.floor)
    if months:
        rated(listed.list.pipes, path)
    overrides = read_overrides(options.overrides, listed, zone) if options.overrides else []
    export = read_exports(exports, [tag.name for tag in listed.tags], how)
    export.notes += apply(export, overrides)
    run = balanced(listed, export, path, zone, Wanted(options.unit, options.threads, options.certify, bool(months), options.typed))
    return analysed(run, reference), [bill(run, month) for month in months]


def _span(text: Optional[str], zone: Optional[str]) -> Optional[Tuple[int, int]]:
    """The reference that is asked for: a time, two points, a time; the second day is part of it."""
    if text is None:
        return None
    parts = text.split("..")
    if len(parts) != 2:
        raise Stopped(f"--reference {text}: 2025-01-01..2025-01-28 would do")
    start, end = (clock.instant(part.strip(), clock.zone_of(zone)) for part in parts)
    end += clock.DAY if len(parts[1].strip()) <= 10 else 0
    if start >= end:
        raise Stopped(f"--reference {text}: the second time is before the first")
    return start, end
