# SPDX-License-Identifier: LicenseRef-Wengeludo
"""A folder of lists or plant files in one run: a line for each, all cores, a chart of the cost over time. One bad file stops nothing."""

from __future__ import annotations

import csv
import os
import threading
import time
from concurrent.futures import ProcessPoolExecutor
from dataclasses import dataclass, fields, replace
from fractions import Fraction
from pathlib import Path
from typing import Callable, Iterator, List, Optional, Sequence, Tuple, Union

import wengeludo_balance as engine

from ..balance.checked import Checked
from ..balance.sheet import Balance, balance
from ..balance.site import Site, site_in
from ..read.faults import Stopped
from ..read.lists import Asked
from .book import Book, Draft, Receipt, someone
from .record import KIND, content_key

SUFFIXES = (".csv", ".xlsx", ".bin")
CHUNK = 64


@dataclass(frozen=True)
class How:
    """How the lists of a folder are read: the unit of their flows, and what the user says of them all."""

    unit: Optional[Fraction] = None
    said: Asked = Asked()


@dataclass(frozen=True)
class Row:
    """A line of the summary: a field for each column, in their order. What is not known is None, and an empty cell."""

    file: str
    verdict: str
    cost: Optional[float] = None
    limit: Optional[float] = None
    degrees: Optional[int] = None
    blanks: Optional[int] = None
    worst: Optional[str] = None  # the stream whose meter was farthest off
    sigmas: Optional[float] = None  # how far, in deviations
    unit: Optional[str] = None
    office: Optional[int] = None
    sheet: Optional[Union[int, str]] = None  # under which the book has it
    fault: Optional[str] = None


TITLES = {"sigmas": "worst σ"}
HEAD = tuple(TITLES.get(field.name, field.name) for field in fields(Row))


@dataclass(frozen=True)
class Outcome:
    """What one file comes to; the site, if it is to be kept."""

    row: Row
    site: Optional[Site] = None
    checked: Optional[Checked] = None  # its flows, if its sheet is not the engine's own
    before: bool = False  # the book had its sheet already


def files_in(folder: Path) -> List[Path]:
    """The lists and plant files of a folder, by name."""
    try:
        found = sorted(p for p in folder.iterdir() if p.suffix.lower() in SUFFIXES and p.is_file())
    except OSError as error:
        raise Stopped(f"{folder}: {error.strerror}") from None
    return [p for p in found if not p.name.endswith(".places.csv") and not p.name.startswith(".")]


def outcome(path: Path, how: How = How(), keep: bool = False) -> Outcome:
    """What one file comes to; a fault is a line like any other."""
    try:
        site = site_in(path, how.unit, how.said)
        drawn = balance(site, estimated=False)
    except (Stopped, engine.Refusal, OSError) as error:
        return Outcome(Row(path.name, "fault", fault=" | ".join(str(error).splitlines())))
    judged = keep and drawn.verdict is not None
    return Outcome(_row(path.name, drawn), site if judged else None, drawn.checked if judged else None)


def _row(file: str, drawn: Balance) -> Row:
    unit = f"{float(drawn.site.unit):g}"
    if drawn.refused:
        places = ", ".join(drawn.site.place(p) for p in sorted(drawn.marked))
        return Row(file, "no flow in range", unit=unit, fault=f"overfull: {places}")
    verdict = drawn.verdict.name.lower() if drawn.verdict is not None else "not judged"
    row = Row(file, verdict, drawn.cost, drawn.limit, drawn.degrees, len(drawn.blanks), unit=unit)
    worst = max((line for line in drawn.lines if line.sigmas is not None), key=lambda line: abs(line.sigmas or 0), default=None)
    return row if worst is None else replace(row, worst=worst.pipe.label, sigmas=round(worst.sigmas or 0, 2))


def _work(task: Tuple[Sequence[Path], How, bool]) -> List[Outcome]:
    paths, how, keep = task
    return [outcome(path, how, keep) for path in paths]


def outcomes(paths: Sequence[Path], how: How, keep: bool, jobs: int) -> Iterator[List[Outcome]]:
    """What the files come to, in their order, some at a time."""
    tasks = [(paths[at : at + CHUNK], how, keep) for at in range(0, len(paths), CHUNK)]
    if jobs < 2 or len(tasks) < 2:
        yield from map(_work, tasks)
        return
    with ProcessPoolExecutor(jobs, initializer=_tied, initargs=(os.getpid(),)) as pool:
        yield from pool.map(_work, tasks)


def _tied(parent: int) -> None:
    """Ends this worker when its parent has ended, by whatever signal."""

    def watch() -> None:
        while os.getppid() == parent:
            time.sleep(0.2)
        os._exit(1)

    threading.Thread(target=watch, daemon=True).start()


def summary_of(folder: Path, summary: Path) -> Path:
    """Where the summary goes; Stopped if that is a list of the folder, which would be lost."""
    if summary.exists() and summary.resolve() in {path.resolve() for path in files_in(folder)} and not _is_summary(summary):
        raise Stopped(f"{summary}: that is a list of the folder, and would be lost: another name would do")
    return summary


def _is_summary(path: Path) -> bool:
    """Whether a file is the summary of an earlier run."""
    with open(path, encoding="utf-8", errors="replace", newline="") as file:
        return file.readline().rstrip("\r\n") in (",".join(HEAD), ";".join(HEAD))


def run(folder: Path, summary: Path, how: How = How(), book: Optional[Book] = None, office: int = 0,
        jobs: Optional[int] = None, told: Callable[[int, int], None] = lambda done, of: None) -> List[Outcome]:
    """Balances every file of a folder; the summary is written as it grows. With a book each list is kept once by its content, whatever
    runs beside it and wherever its folder lies, so that a run that was cut off goes on where it stopped."""
    paths = [p for p in files_in(folder) if p.resolve() != summary_of(folder, summary).resolve()]
    done: List[Outcome] = []
    with open(summary, "w", newline="", encoding="utf-8") as file:
        german = how.said.lang == "de"
        writer = csv.writer(file, delimiter=";" if german else ",")
        writer.writerow(HEAD)
        for some in outcomes(paths, how, book is not None, jobs or os.cpu_count() or 1):
            kept = _kept(some, folder, book, office) if book else some
            writer.writerows(_written(o.row, german) for o in kept)
            file.flush()
            done += [replace(o, site=None, checked=None) for o in kept]
            told(len(done), len(paths))
    return done


def _written(row: Row, german: bool) -> List[object]:
    """The cells of a line, numbers as its language writes them."""
    cells = {field.name: getattr(row, field.name) for field in fields(row)}
    return ["" if cell is None else str(cell).replace(".", ",") if german and (isinstance(cell, float) or name == "unit") else cell for name, cell in cells.items()]


def _kept(some: List[Outcome], folder: Path, book: Book, office: int) -> List[Outcome]:
    """The same lines, with the numbers under which the book has their sheets, now or from before."""
    drafts = [_draft(o, folder, office) for o in some if o.site]
    receipts = iter(book.keep(drafts, office))
    return [_numbered(o, office, next(receipts)) if o.site else o for o in some]


def _draft(line: Outcome, folder: Path, office: int) -> Draft:
    assert line.site is not None
    hour = line.site.list.hour
    return Draft(line.site, str((folder / line.row.file).resolve()), hour, someone(), content_key(line.site, office, hour), checked=line.checked)


def _numbered(line: Outcome, office: int, receipt: Optional[Receipt]) -> Outcome:
    if receipt is None:
        return line
    number = receipt.number if not receipt.kind else f"{KIND[receipt.kind]} {receipt.number}"
    return replace(line, row=replace(line.row, office=office, sheet=number), before=receipt.before)
