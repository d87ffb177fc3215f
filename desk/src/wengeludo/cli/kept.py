# SPDX-License-Identifier: LicenseRef-Wengeludo
"""Commands over kept sheets and sheets drawn up elsewhere: keep, open, check, batch."""

from __future__ import annotations

from contextlib import nullcontext
from fractions import Fraction
from pathlib import Path
from typing import Any, Optional, Sequence, Tuple

import click

import wengeludo_balance as engine

from ..balance.sheet import VERDICT, balance
from ..explain import rules
from ..explain.why import overfull
from ..keep.batch import How
from ..keep.batch import run as run_batch
from ..keep.batch import summary_of
from ..keep.book import Book, Draft
from ..keep.chart import chart
from ..keep.drawn import laid_out
from ..keep.find import Brief, Search, find, key_of
from ..keep.record import FLOW, KIND, SHEET, Kept
from ..keep.store import is_server
from ..read import plant_files
from ..read.faults import Stopped
from ..read.grids import read_bytes
from ..write import outputs, terminal
from .books import WHO, progress
from .named import BOOK, BookType, HourType, ReferenceType
from .options import FAILED, FILE, LIST, OFFICE, OUTPUT, REFUSED, SAID, UNIT, said, site_in

DRAWINGS = {".html", ".svg"}  # files with a drawing in them


@click.command()
@LIST
@BOOK
@OFFICE
@UNIT
@click.option("--at", "hour", type=HourType(), default="", help="The hour of the readings: 2026-11-17 14:00. By default the list's own, if it tells one.")
@WHO
@click.option("--note", default="", help="A note kept beside the sheet.")
def keep(list: Path, book: str, office: int, unit: Optional[Fraction], hour: str, who: str, note: str) -> int:
    """Draws the sheet of LIST under the office's next number and keeps it in BOOK, which is made if there is none. Checked flows are kept
    under a number of their own kind; what is not judged is not kept."""
    site = site_in(list, unit)
    drawn = balance(site, estimated=False)
    if drawn.refused or drawn.verdict is None:
        raise Stopped("\n".join(overfull(drawn)) if drawn.refused else f"{list}: not kept, as it is not judged: {drawn.reason}")
    hour = hour or site.list.hour
    with Book(book, make=not is_server(book)) as kept:
        receipt = kept.keep_one(Draft(site, str(list.resolve()), hour, who, note=note, checked=drawn.checked), office)
        assert receipt is not None
        verdict = engine.Verdict(kept.sheet(office, receipt.number, receipt.kind).verdict)
    terminal.lines([f"kept as {KIND[receipt.kind]} {receipt.number} of office {office} in {kept.title}: {VERDICT[verdict]}", hour_told(hour)])
    return FAILED if verdict is engine.Verdict.FAIL else 0


def hour_told(hour: str) -> str:
    """The hour of the readings, as messages tell it."""
    return f"the hour of its readings: {hour}" if hour else "the hour of its readings is not known: --at 2026-11-17T14:00 would tell it"


@click.command("open")
@BOOK
@click.argument("number", type=click.IntRange(1), required=False)
@click.option("--office", type=click.IntRange(0, 7), help="The office; by default 0, and for a list of sheets all of them.")
@OUTPUT
@click.option("--find", "words", default="", help="List the sheets in which these words stand: site, unit, stream, or the name of the list.")
@click.option("--verdict", type=click.Choice([v.name.lower() for v in engine.Verdict]), help="List the sheets with this verdict.")
@click.option("--since", default="", help="List the sheets kept since then: 2026-11-17, or 2026-11.")
@click.option("--until", default="", help="List the sheets kept until then.")
@click.option("--by-hour", is_flag=True, help="--since and --until are of the hour of the readings.")
@click.option("--older", metavar="OFFICE-NUMBER", type=ReferenceType(), help="List the sheets kept before this one.")
@click.option("--flows", is_flag=True, help="NUMBER is that of checked flows.")
def open_(book: str, number: Optional[int], office: Optional[int], outputs_: Sequence[Path], flows: bool, **asked: Any) -> int:
    """Lists the newest sheets of BOOK, or reopens sheet NUMBER of an office and checks it again."""
    paths = [outputs.checked(path) for path in outputs_]
    with Book(book) as kept:
        if number is not None:
            return _reopened(kept, kept.sheet(office or 0, number, FLOW if flows else SHEET), paths)
        verdict, older = asked["verdict"], asked["older"]
        known = None if verdict is None else engine.Verdict[verdict.upper()].value
        wanted = Search(asked["words"], office, known, FLOW if flows else None, asked["since"], asked["until"], asked["by_hour"])
        page = find(kept, wanted, key_of(kept, *older, search=wanted) if older else None)
    heads = ("office", "sheet", "kept", "hour of the readings", "list", "verdict", "cost")
    terminal.table(heads, [(_cells(line), "dim" if line.annulled else "") for line in page.lines], ("office", "sheet", "cost"))
    if page.older:
        last = page.lines[-1]
        terminal.lines([f"older ones: --older {last.office}-{last.number}"])
    return 0


def _cells(line: Brief) -> Tuple[str, ...]:
    verdict = engine.Verdict(line.verdict).name.lower() + (", annulled" if line.annulled else "")
    number = str(line.number) if line.kind == SHEET else f"flows {line.number}"
    return str(line.office), number, line.at[:16].replace("T", " "), line.hour, Path(line.source).name, verdict, f"{line.cost / 1000:,.1f}"


def _reopened(book: Book, found: Kept, paths: Sequence[Path]) -> int:
    """Shows a kept sheet after every check of it."""
    faults = book.faults(found)
    if faults:
        raise Stopped("\n".join(f"{found.title}: {fault}" for fault in faults))
    drawn = found.balance()
    terminal.show(drawn)
    checked = "checked again with its place numbers, names, unit, readings and chain: it passes"
    terminal.lines([f"kept {found.at} by {found.who or 'nobody named'} from {found.source}; {checked}", hour_told(found.hour)])
    terminal.lines([f"note: {found.note}"] if found.note else [])
    terminal.lines([f"ANNULLED by {found.annulled}"] if found.annulled else [])
    outputs.write_all(laid_out(book, found.plan, drawn) if DRAWINGS & {path.suffix.lower() for path in paths} else drawn, paths)
    return FAILED if drawn.verdict is engine.Verdict.FAIL else 0


@click.command()
@click.argument("plant", type=FILE)
@click.argument("sheet", type=FILE)
@click.argument("numbers", type=FILE)
def check(plant: Path, sheet: Path, numbers: Path) -> int:
    """Checks a SHEET drawn up elsewhere against its PLANT file, with one NUMBER for each place."""
    broken = rules.check(read_bytes(plant), read_bytes(sheet), plant_files.numbers_in(numbers))
    terminal.lines([f"does not pass: {broken}" if broken else "passes: no balanced flow within the ranges costs less"])
    return REFUSED if broken else 0


@click.command()
@click.argument("folder", type=FILE)
@click.option("-o", "--output", "summary", type=FILE, default=Path("summary.csv"), show_default=True, help="The summary; a chart is written beside it (.svg).")
@click.option("--book", type=BookType(), help="Keep every sheet in this book, each once: a run that was cut off goes on where it stopped.")
@OFFICE
@UNIT
@SAID
@click.option("--jobs", type=click.IntRange(1, 256), help="Processes at a time; by default one for each core.")
def batch(folder: Path, summary: Path, book: Optional[str], office: int, unit: Optional[Fraction], jobs: Optional[int]) -> int:
    """Balances every list and plant file of FOLDER: a line for each, and a chart of the cost over time."""
    summary_of(folder, summary)
    with nullcontext() if book is None else Book(book, make=not is_server(book)) as kept, progress("sheets") as told:
        done = run_batch(folder, summary, How(unit, said()), kept, office, jobs, told)
    outputs.write(summary.with_suffix(".svg"), chart([o.row for o in done], folder.resolve().name).encode())
    counts = {word: sum(o.row.verdict == word for o in done) for word in ("pass", "close", "fail", "none", "not judged", "no flow in range", "fault")}
    summed = ", ".join(f"{count:,} {word}" for word, count in counts.items() if count)
    before = sum(o.before for o in done)
    known = f", {before:,} of them in the book before" if before else ""
    terminal.lines([f"{len(done):,} files{known}: {summed or 'none'}; {summary}, {summary.with_suffix('.svg')}"])
    return FAILED if counts["fail"] else 0
