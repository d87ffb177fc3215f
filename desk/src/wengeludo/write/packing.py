# SPDX-License-Identifier: LicenseRef-Wengeludo
"""Plant files and transmitter files made of lists, and lists written."""

from __future__ import annotations

import io
from dataclasses import replace
from pathlib import Path
from typing import List, Optional, Tuple

import wengeludo_balance as engine

from ..balance.kind import SheetKind
from ..balance.sheet import balance
from ..balance.site import Site
from ..balance.unit import clamps
from ..read.faults import Stopped
from ..read.lists import PipeList
from .outputs import csv_bytes, put
from .view import headline

HEAD = ("stream", "what", "from", "to", "reading", "accuracy", "low", "high")


def transmitter(site: Site) -> bytes:
    """The list as its transmitters would send it, in units; Stopped where it has ranges, which no transmitter sends."""
    signals = []
    for pipe, stream in zip(site.list.pipes, site.plant.streams):
        if stream.ranged:
            raise Stopped(f"{pipe.title} has a range: a transmitter file has none")
        if pipe.reading is None or pipe.accuracy is None:
            signals.append(engine.Signal(pipe.source, pipe.target))
        else:
            signals.append(engine.Signal(pipe.source, pipe.target, pipe.reading / float(site.unit), pipe.accuracy.deviation / float(site.unit)))
    file = engine.transmitter_file(site.plant.units, signals)
    try:
        engine.plant_from_transmitter(file)
    except engine.Refusal as refusal:
        raise Stopped(f"the engine would refuse this transmitter file: {refusal.text} ({refusal.number}); another unit would do") from None
    return file


def lost(site: Site) -> List[str]:
    """What a plant file of this list would lose, in lines, nothing if its sheet is the list's own; Stopped if its verdict would be another,
    or if the engine takes the list in no unit."""
    drawn = balance(site, estimated=False)
    if drawn.kind is SheetKind.ENGINE and site.fits:
        return []
    if not site.fits:
        raise Stopped(f"{site.list.name}: no plant file holds it: its readings and ranges fit no unit of the engine; keep the list itself")
    plain = engine.balance(site.file)
    if plain.verdict is not drawn.verdict:
        told = f"the sheet of such a plant file would say {plain.verdict.name.lower()}, and the list's own is {headline(drawn).split(':')[0]}"
        raise Stopped(f"{site.list.name}: {told}; a plant file holds accuracies within 32:1 only: another unit may do, or the list itself")
    meters = ", ".join(f"{c.pipe.label} (±{c.given:.3g} as ±{c.counts:.3g})" for c in clamps(site.list.pipes, site.unit)) or "none by over 5 %"
    rounded = ", ".join(p.label for p, s in zip(site.list.pipes, site.plant.streams) if p.reading is not None and p.reading != site.kg(s.reading)) or "none"
    return [f"Lost in it: accuracies of {meters}; readings rounded to the unit of {rounded}. Its sheet is not the list's own."]


def idle(pipes: PipeList) -> List[str]:
    """The last units, which have no stream: a list, which has units by their streams, cannot hold them."""
    last = max((end for pipe in pipes.pipes for end in (pipe.source, pipe.target)), default=0)
    return list(pipes.places[last + 1 :])


def with_units(site: Site, units: int) -> Site:
    """The site with so many units, the last of them without a stream; Stopped where its list has more."""
    if units < site.plant.units:
        raise Stopped(f"{site.list.name} has {site.plant.units} units: --units {units} is too few")
    return replace(site, plant=replace(site.plant, units=units))


def table(pipes: PipeList) -> List[Tuple[object, ...]]:
    """The rows of a list, its header first."""
    rows: List[Tuple[object, ...]] = [HEAD]
    for p in pipes.pipes:
        ends = (pipes.places[p.source], pipes.places[p.target])
        rows.append((p.label, p.what, *ends, *(_number(v) for v in (p.reading,)), p.stated, _number(p.low), _number(p.high)))
    return rows


def _number(value: Optional[float]) -> object:
    return "" if value is None else int(value) if value == int(value) else value


def written(pipes: PipeList, path: Path) -> bytes:
    """A list as CSV or XLSX, by the suffix."""
    rows = table(pipes)
    if path.suffix.lower() == ".xlsx":
        from openpyxl import Workbook

        book = Workbook()
        for row in rows:
            put(book.active, row)
        data = io.BytesIO()
        book.save(data)
        return data.getvalue()
    return csv_bytes(rows, pipes.form)
