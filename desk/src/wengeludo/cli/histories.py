# SPDX-License-Identifier: LicenseRef-Wengeludo
"""Commands over histories: history, histories."""

from __future__ import annotations

import os
from contextlib import nullcontext
from fractions import Fraction
from pathlib import Path
from typing import Optional, Sequence, Tuple

import click

from ..history import files
from ..history.analysis import Analysis
from ..history.bill import Bill
from ..history.command import OVERRIDES, Options, history as history_of
from ..history.kept import Source, keep
from ..keep.book import Book
from ..keep.store import is_server
from ..read.faults import Stopped
from ..write import terminal
from .books import progress
from .named import BookType
from .options import FAILED, FILE, LIST, OFFICE, REFUSED, UNIT, said

ZONE = click.option("--zone", help="The time zone of times without an offset, as Europe/Vienna; by default UTC.")
EVERY = click.option("--every", help="Mean over intervals, as 1h or 15min: of the measured cells, a fault if fewer than half are.")
CERTIFY = click.option("--certify", is_flag=True, help="Keep place numbers and check every sheet with them by the proved call.")
BILL = click.option("--bill", "bills", multiple=True, help="The bill of a month, as 2025-07. May be given more than once.")


@click.command()
@LIST
@click.argument("exports", type=FILE, nargs=-1, required=True, metavar="EXPORT...")
@click.option("-o", "--output", "outputs_", multiple=True, help="A file to write: run.html, rows.csv, flows.csv, meters.csv, findings.csv, events.csv, "
              "overrides.csv, bill.csv, run.svg, run.xlsx, run.npz, or FOLDER/ for all tables and the page. May be given more than once.")
@ZONE
@click.option("--time-format", help="How the export writes its times, as %d/%m/%Y %H:%M.")
@EVERY
@click.option("--from", "start", help="The first time.")
@click.option("--to", "end", help="The time past the last.")
@click.option("--reference", help="The time against which weeks are held, as 2025-01-01..2025-01-28; by default the first 28 days.")
@click.option("--overrides", type=FILE, help="A table of cells to be taken as held or fault: stream, from, to, status, why.")
@UNIT
@click.option("--jobs", type=click.IntRange(1, 256), help="Threads; by default one for each core.")
@CERTIFY
@BILL
@click.option("--book", type=BookType(), help="Keep the sheet of every row in this book, each once: a run that was cut off goes on where it stopped.")
@OFFICE
def history(list: Path, exports: Sequence[Path], outputs_: Sequence[str], zone: Optional[str], time_format: Optional[str], every: Optional[str],
            start: Optional[str], end: Optional[str], reference: Optional[str], overrides: Optional[Path], unit: Optional[Fraction],
            jobs: Optional[int], certify: bool, bills: Sequence[str], book: Optional[str], office: int) -> int:
    """The sheets of every row of EXPORTS of a historian, and what they say together: which meter drifts, what leaks, what happened.

    LIST has a column tag: the column of the export with the pipe's meter; a column factor has kg/h in one unit of the tag.
    """
    read = [list, *exports, *([overrides] if overrides else []), *([Path(book)] if book and not is_server(book) else [])]
    wanted = files.wanted([Path(text) for text in outputs_], outputs_, read, bool(bills))
    options = Options(zone, time_format, every, start, end, reference, overrides, unit, jobs or os.cpu_count() or 1, certify, tuple(bills), book is not None, said())
    found, billed = history_of(list, exports, options)
    with nullcontext() if book is None else Book(book, make=not is_server(book)) as opened:
        _told(found, billed, wanted)
        if opened is not None:
            note = f"the readings are means over {every}" if every else ""
            with progress("sheets") as told:
                kept = keep(found.run, opened, Source(office, list, note), told)
            terminal.lines([f"{kept}: office {office} of {opened.title}"])
    return FAILED if found.findings else 0


def _told(found: Analysis, billed: Sequence[Bill], wanted: Sequence[Tuple[Path, str]]) -> None:
    """Writes what is wanted of a run, and tells what it says."""
    from ..history.page import page  # the page's renderer is slow to load
    from ..history.tables import tables
    from ..history.texts import lines

    files.write(found, tables(found, billed), lambda: page(found, billed), wanted)
    terminal.lines(lines(found, billed))
    if wanted:
        terminal.lines([f"Written: {', '.join(str(path) for path, _ in wanted)}"])


@click.command()
@click.argument("folder", type=FILE)
@click.option("-o", "--output", "summary", type=FILE, default=Path("histories.csv"), show_default=True, help="The summary; the sites' tables and pages are "
              "kept beside it, in a folder of its name with .sites.")
@ZONE
@EVERY
@click.option("--reference", help="The time against which weeks are held, as 2025-01-01..2025-01-28; by default the first 28 days.")
@UNIT
@click.option("--jobs", type=click.IntRange(1, 256), help="Processes at a time; by default one for each core.")
@click.option("--cluster", help="Hands the sites to the workers of a dask.distributed scheduler, as tcp://host:8786. Whoever reaches its port runs code there.")
@click.option("--overrides", is_flag=True, help=f"Take the cells of each site's own {OVERRIDES}, if its folder has one, as held or fault; else it is left alone.")
@CERTIFY
@BILL
def histories(folder: Path, summary: Path, zone: Optional[str], every: Optional[str], reference: Optional[str], unit: Optional[Fraction],
              jobs: Optional[int], cluster: Optional[str], overrides: bool, certify: bool, bills: Sequence[str]) -> int:
    """The history of every site of FOLDER: a folder for each, with its list and its exports. A run that was cut off goes on."""
    from ..history.sites import Runs

    if summary.suffix.lower() != ".csv" or summary.is_dir():
        raise Stopped(f"{summary}: the summary is a .csv file")
    asked = Options(zone=zone, every=every, reference=reference, unit=unit, overrides=Path(OVERRIDES) if overrides else None, certify=certify, bills=tuple(bills))
    asked.checked()
    runs = Runs(folder, summary, asked, jobs or os.cpu_count() or 1, cluster)
    with progress("sites") as told:
        lines, before = runs.run(told)
    found, faulty = sum(line[4] not in ("", "0") for line in lines), [line[0] for line in lines if line[-1]]
    known = f", {before:,} of them from before" if before else ""
    terminal.lines([f"{len(lines):,} sites{known}: {found:,} with findings, {len(faulty):,} with faults{': ' + ', '.join(faulty[:5]) if faulty else ''}; {summary}"])
    return FAILED if found else REFUSED if faulty else 0
