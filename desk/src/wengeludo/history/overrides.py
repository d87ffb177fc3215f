# SPDX-License-Identifier: LicenseRef-Wengeludo
"""Overrides: what the engineer says of cells, in a table of her own: stream, from, to, status (held or fault), why. Nothing is repaired
unasked; `overrides.csv` of a run is a proposal, and counts only if it is handed back with --overrides."""

from __future__ import annotations

from dataclasses import dataclass
from pathlib import Path
from typing import Any, Dict, List, Optional, Sequence
from zoneinfo import ZoneInfo

from wengeludo_balance import FAULT, HELD

from ..read.faults import Fault, Faulty, Stopped
from ..read.grids import read_grid
from . import clock
from .export import Export
from .tags import Tagged

HEADS = ("stream", "from", "to", "status")
STATUSES = {"held": HELD, "fault": FAULT}


@dataclass(frozen=True)
class Override:
    """The cells of a tag from a time to before another, and what they are."""

    tag: int
    start: int
    end: int
    status: int


def read_overrides(path: Path, listed: Tagged, zone: Optional[ZoneInfo]) -> List[Override]:
    """The overrides of a table; Faulty with every fault."""
    rows = [(k, row) for k, row in enumerate(read_grid(path).rows, 1) if any(cell.strip() for cell in row)]
    heads = [cell.strip().casefold() for cell in rows[0][1]] if rows else []
    absent = [name for name in HEADS if name not in heads]
    if absent:
        raise Faulty(path, [Fault(f"there is no column {', '.join(absent)}; {', '.join(HEADS)} and why would do", 1)])
    faults: List[Fault] = []
    found = [_override(dict(zip(heads, row)), place, listed, zone, faults) for place, row in rows[1:]]
    if faults:
        raise Faulty(path, faults)
    return [one for one in found if one]


def _override(cells: Dict[str, str], row: int, listed: Tagged, zone: Optional[ZoneInfo], faults: List[Fault]) -> Optional[Override]:
    """One row; its faults are added."""
    before, name = len(faults), cells.get("stream", "").strip()
    labels = {listed.list.pipes[tag.index].label.casefold(): j for j, tag in enumerate(listed.tags)}
    if name.casefold() not in labels:
        faults.append(Fault("a stream of the list with a tag would do", row, "stream", None, name))
    times = []
    for column in ("from", "to"):
        try:
            times.append(clock.instant(cells.get(column, ""), zone))
        except Stopped:
            faults.append(Fault(clock.WOULD_DO, row, column, name, cells.get(column, "")))
    status = cells.get("status", "").strip().casefold()
    if status not in STATUSES:
        faults.append(Fault("held or fault would do", row, "status", name, cells.get("status", "")))
    if len(times) == 2 and times[0] >= times[1]:
        faults.append(Fault("a time after from would do", row, "to", name, cells.get("to", "")))
    return Override(labels[name.casefold()], times[0], times[1], STATUSES[status]) if len(faults) == before else None


def apply(export: Export, overrides: Sequence[Override]) -> List[str]:
    """Sets the statuses of cells; a fault stays one. Gives what was done, in a sentence each."""
    import numpy as np

    told = []
    for one in overrides:
        rows = slice(*np.searchsorted(export.times, (one.start, one.end)))
        cells: Any = export.status[rows, one.tag]
        changed = int(np.count_nonzero((cells != FAULT) & (cells != one.status)))
        cells[cells != FAULT] = one.status
        told.append(f"An override set {changed:,} cells to {'fault' if one.status == FAULT else 'held'}.")
    return told
