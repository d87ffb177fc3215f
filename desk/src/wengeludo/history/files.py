# SPDX-License-Identifier: LicenseRef-Wengeludo
"""Files of a run: which were asked for, and how they are written, all of them whole or none."""

from __future__ import annotations

import csv
import io
import os
import tempfile
from pathlib import Path
from typing import IO, Any, Callable, Dict, Iterable, List, Optional, Sequence, Tuple

from ..read.faults import Stopped
from ..write.outputs import put
from .analysis import Analysis
from .charts import picture
from .tables import Table, guarded

NAMES = ("rows", "flows", "meters", "findings", "events", "overrides", "bill")
MOST_SHEET = 20_000  # rows of a workbook's sheet
PAGE, ARRAYS, BOOK, PICTURE = "run.html", "run.npz", "run.xlsx", "run.svg"


class Staged:
    """Files written beside their places, and put there all at once; if anything goes wrong before that, none is."""

    def __init__(self) -> None:
        self.made: List[Tuple[str, Path]] = []

    def __enter__(self) -> "Staged":
        return self

    def open(self, path: Path) -> IO[bytes]:
        """A file to be put at this path at the end."""
        try:
            handle, name = tempfile.mkstemp(dir=path.parent, prefix=f".{path.name}.")
        except OSError as error:
            raise Stopped(f"{path}: {error.strerror}") from None
        self.made.append((name, path))
        mask = os.umask(0)
        os.umask(mask)
        os.chmod(name, 0o666 & ~mask)
        return os.fdopen(handle, "wb")

    def __exit__(self, kind: Any, error: Any, trace: Any) -> None:
        for name, path in self.made:
            if kind is None:
                os.replace(name, path)
            else:
                os.unlink(name)


def name_of(path: Path) -> str:
    """What a path asks for, by its suffix, and for CSV by the last word of its name; Stopped if that is none."""
    suffix = path.suffix.lower()
    if suffix in (".html", ".npz", ".xlsx", ".svg"):
        return {".html": PAGE, ".npz": ARRAYS, ".xlsx": BOOK, ".svg": PICTURE}[suffix]
    stem = path.stem.casefold()
    for name in NAMES:
        if suffix == ".csv" and (stem == name or stem.endswith(("_" + name, "-" + name, "." + name))):
            return name
    told = ", ".join(f"{name}.csv" for name in NAMES)
    raise Stopped(f"{path}: the name says what is written: {told}, .html, .svg, .xlsx, .npz, or a folder with / at its end for all")


def wanted(paths: Sequence[Path], texts: Sequence[str], read: Sequence[Path], billed: bool) -> List[Tuple[Path, str]]:
    """Every file that is to be written, and what it has; Stopped if one is read, or asked for twice, or has no name that is known."""
    found = []
    for path, text in zip(paths, texts):
        if text.endswith(("/", os.sep)) or path.is_dir():
            found += [(path / f"{name}.csv", name) for name in NAMES if billed or name != "bill"] + [(path / PAGE, PAGE)]
        else:
            found.append((path, name_of(path)))
    kept = {path.resolve() for path in read}
    for path, name in found:
        if path.resolve() in kept:
            raise Stopped(f"{path}: that is what is read, and would be lost: another name would do")
        if name == "bill" and not billed:
            raise Stopped(f"{path}: --bill names no month")
    if len({path.resolve() for path, _ in found}) < len(found):
        raise Stopped("-o names one file twice")
    return found


def write(found: Analysis, tables: Dict[str, Table], page: Callable[[], str], files: Sequence[Tuple[Path, str]]) -> None:
    """Writes every file that is asked for, all or none; a folder is made if it is not there."""
    for path, _ in files:
        try:
            path.parent.mkdir(parents=True, exist_ok=True)
        except OSError as error:
            raise Stopped(f"{path.parent}: {error.strerror}") from None
    with Staged() as staged:
        for path, name in files:
            with staged.open(path) as file:
                if name == PAGE:
                    file.write(page().encode())
                elif name == PICTURE:
                    file.write(picture(found).encode())
                elif name == ARRAYS:
                    _arrays(found, file)
                elif name == BOOK:
                    _book(tables, file)
                else:
                    _csv(tables[name], file)


def _csv(table: Table, file: IO[bytes]) -> None:
    text = io.TextIOWrapper(file, encoding="utf-8-sig", newline="", write_through=False)
    writer = csv.writer(text)
    writer.writerow(map(guarded, table.heads))
    for row in table.rows():
        writer.writerow(row if table.name in ("rows", "flows") else map(guarded, row))
    text.flush()
    text.detach()


def _number(cell: Any) -> Any:
    """A text that is a number as one, for a workbook."""
    if isinstance(cell, str):
        try:
            return float(cell) if cell and cell[0] in "+-0123456789" and ":" not in cell else cell
        except ValueError:
            return cell
    return cell


def _book(tables: Dict[str, Table], file: IO[bytes]) -> None:
    from openpyxl import Workbook

    book = Workbook(write_only=False)
    book.remove(book.active)
    for table in tables.values():
        sheet = book.create_sheet(table.name)
        put(sheet, table.heads)
        for count, row in enumerate(table.rows()):
            if count == MOST_SHEET:
                put(sheet, [f"and more rows: {table.name}.csv has all"])
                break
            sheet.append([_number(cell) for cell in row]) if table.name in ("rows", "flows") else put(sheet, [_number(cell) for cell in row])
        sheet.freeze_panes = "B2"
    book.save(file)


def _arrays(found: Analysis, file: IO[bytes]) -> None:
    """The arrays of the calls; z and what is made of it is left out, as it is an estimate."""
    import numpy as np

    run = found.run
    labels = np.array([pipe.label for pipe in run.list.pipes])
    np.savez_compressed(file, times=run.times, labels=labels, unit=np.array(str(run.unit)), sheet=np.array(run.kind.value), readings=run.readings, status=run.status,
                        **run.sheets.arrays())
