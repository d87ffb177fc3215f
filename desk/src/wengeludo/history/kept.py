# SPDX-License-Identifier: LicenseRef-Wengeludo
"""The hours of a run kept in a book: the sheet that the desk draws of each hour's own list, in the run's unit, each once by its content."""

from __future__ import annotations

import math
from dataclasses import dataclass, replace
from fractions import Fraction
from pathlib import Path
from typing import Callable, Optional, Sequence

from wengeludo_balance import FAULT, HELD, WITHHELD

from ..balance import unit as units, wide
from ..balance.checked import Checked
from ..balance.exact import exacts_of
from ..balance.site import Site, site_of
from ..keep.book import Book, Draft, someone
from ..keep.record import content_key
from ..read.faults import Faulty, Stopped
from ..read.lists import PipeList
from ..read.numbers import Accuracy, exact
from .checked_rows import QUARTER
from .run import Run

SOME = 64  # sheets that are kept at a time
SILENT = "fault"  # what stands in the place of a reading


@dataclass(frozen=True)
class Sum:
    """What became of a run's rows: kept now, in the book before, without a sheet to keep."""

    kept: int
    before: int
    left: int

    def __str__(self) -> str:
        before = f", {self.before:,} were there before" if self.before else ""
        left = f", {self.left:,} rows have no sheet to keep" if self.left else ""
        return f"{self.kept:,} sheets kept{before}{left}"


@dataclass(frozen=True)
class Source:
    """By whom and of what sheets are kept: the office, the list, a note."""

    office: int
    list: Path
    note: str = ""


def hour_list(run: Run, row: int) -> PipeList:
    """The list of an hour as the desk would read it: what its meters showed, and the accuracies with which they count in the run."""
    pipes = list(run.list.pipes)
    for j, tag in enumerate(run.tags):
        pipe, status = pipes[tag.index], int(run.status[row, tag.index])
        if status == FAULT:
            pipes[tag.index] = replace(pipe, reading=None, accuracy=None, silent=SILENT)
        else:
            shown = float(exact(float(run.typed[row, j])) * tag.factor)
            pipes[tag.index] = replace(pipe, reading=shown, accuracy=_held(run, tag.index) if status == HELD else pipe.accuracy)
    return replace(run.list, pipes=tuple(pipes), hour=run.at(row))


def _held(run: Run, k: int) -> Accuracy:
    """The accuracy of a held cell: a quarter of the weight with which the run counts the meter."""
    accuracy = run.list.pipes[k].accuracy
    assert accuracy is not None
    if run.exact:
        return Accuracy(2 * accuracy.deviation, None, QUARTER * accuracy.variance)
    return Accuracy(math.sqrt(1000 * run.unit * run.unit / max(1, run.plant.streams[k].weight // QUARTER)))


def _flows(run: Run, listed: PipeList) -> Optional[Checked]:
    """The checked flows of an hour by the run's unit and factor; none if they are not judged."""
    try:
        found = wide.solved_by(exacts_of(listed), run.unit, run.factor)
    except (wide.Overfull, wide.NotJudged):
        return None
    return found if found is not None and found.judged.guarded else None


def _site(run: Run, listed: PipeList, unit: Optional[Fraction]) -> Site:
    """The site of an hour's list: in the run's unit; of checked flows in the unit in which the engine would hold them, if there is one."""
    if not run.exact:
        return site_of(listed, run.unit)
    try:
        return site_of(listed, unit)
    except Faulty:
        return site_of(listed)


def draft(run: Run, row: int, source: Source, unit: Optional[Fraction] = None) -> Optional[Draft]:
    """The draft of a row's sheet; none if the row has no sheet. Stopped if the sheet would not be that of the row."""
    if run.sheets.refusal[row]:
        return None
    listed = hour_list(run, row)
    checked = _flows(run, listed) if run.exact else None
    if run.exact and checked is None:
        return None
    site = _site(run, listed, unit)
    _same(run, row, site.plant.streams if checked is None else checked.plant.streams, checked)
    key = content_key(site, source.office, listed.hour)
    return Draft(site, str(source.list.resolve()), listed.hour, someone(), key, note=source.note, checked=checked)


def _same(run: Run, row: int, streams: Sequence[object], checked: Optional[Checked]) -> None:
    """Stopped if a meter counts with another reading than in the row, or a flow is over a unit from the row's."""
    metered = [k for k in range(len(streams)) if run.status[row, k] != FAULT]
    same = all(streams[k].reading == run.readings[row, k] for k in metered)  # type: ignore[attr-defined]
    known = [k for k in metered if run.sheets.kinds[row, k] != WITHHELD] if checked else []
    near = all(abs(checked.flows[k] - int(run.sheets.flows[row, k])) <= 1 for k in known) if checked else True
    if not same or not near:
        raise Stopped(f"not kept: the sheet of {run.at(row)} is another than its row, which is a fault of this program; please report it")


def keep(run: Run, book: Book, source: Source, told: Callable[[int, int], None] = lambda done, of: None) -> Sum:
    """Keeps the sheets of all rows, some at a time: one that the book has is found, so that a run that was cut off goes on."""
    unit, rows, kept, before = units.choose(run.list.pipes), len(run.times), 0, 0
    for first in range(0, rows, SOME):
        made = [draft(run, row, source, unit) for row in range(first, min(rows, first + SOME))]
        receipts = [one for one in book.keep([one for one in made if one], source.office) if one]
        before += sum(one.before for one in receipts)
        kept += sum(not one.before for one in receipts)
        told(min(rows, first + SOME), rows)
    return Sum(kept, before, rows - kept - before)
