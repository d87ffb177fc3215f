# SPDX-License-Identifier: LicenseRef-Wengeludo
"""Files that a command writes: page, drawing, workbook, table, document. The suffix says which."""

from __future__ import annotations

import csv
import io
import json
import os
import tempfile
from fractions import Fraction
from pathlib import Path
from typing import Any, Callable, Dict, Iterable, List, Optional, Sequence, Tuple

import wengeludo_balance as engine

from ..balance.kind import SheetKind
from ..balance.sheet import Balance
from ..explain.steps import steps
from ..read.columns import word
from ..read.faults import Stopped
from ..read.lists import Form
from ..read.plant_files import beside
from ..read.texts import guarded
from . import view
from .columns import columns
from .live import section as live_section
from .page import page
from .picture import picture


def write(path: Path, data: bytes) -> None:
    """Writes a file whole or not at all."""
    write_files([(path, data)])


def write_files(files: Sequence[Tuple[Path, bytes]]) -> None:
    """Writes files, all of them whole or none."""
    staged: List[Tuple[Path, str]] = []
    done: List[Tuple[Path, Optional[str]]] = []
    try:
        for path, data in files:
            staged.append((path, _staged(path, data)))
        for path, name in staged:
            done.append((path, _put(path, name)))
    except BaseException:
        for path, before in reversed(done):
            os.replace(before, path) if before else os.unlink(path)
        raise
    finally:
        for name in (*(name for _, name in staged), *(before for _, before in done if before)):
            if os.path.exists(name):
                os.unlink(name)


def _staged(path: Path, data: bytes) -> str:
    """The name of a file beside this one that has the data."""
    try:
        handle, name = tempfile.mkstemp(dir=path.parent, prefix=".wengeludo.")
    except OSError as error:
        raise Stopped(f"{path}: {error.strerror}") from None
    try:
        with os.fdopen(handle, "wb") as file:
            file.write(data)
        os.chmod(name, 0o666 & ~_umask())
    except OSError as error:
        os.unlink(name)
        raise Stopped(f"{path}: {error.strerror}") from None
    return name


def _put(path: Path, name: str) -> Optional[str]:
    """Puts a file in its place; gives the name of what was there before, if anything was."""
    before = f"{name}.before" if path.exists() else None
    try:
        if before:
            os.link(path, before)
        os.replace(name, path)
    except OSError as error:
        raise Stopped(f"{path}: {error.strerror}") from None
    return before


def _umask() -> int:
    mask = os.umask(0)
    os.umask(mask)
    return mask


def write_all(balance: Balance, paths: Sequence[Path], live: bool = False) -> None:
    """Writes every file that is asked for, or none; pages with the engine inside if they are to recompute."""
    section = live_section(balance) if live else ""
    files = []
    for path in paths:
        suffix = path.suffix.lower()
        files.append((path, page(balance, section).encode() if live and suffix == ".html" else FORMS[suffix](balance)))
        if suffix == ".bin" and balance.site.unit != 1:
            files.append((beside(path), unit_text(balance.site.unit)))
    write_files(files)


def unit_text(unit: Fraction) -> bytes:
    """What stands beside a plant file, which has no room for its unit."""
    return f"{unit} kg/h is the unit of the flows in this plant file\n".encode()


def checked(path: Path, read: Optional[Path] = None) -> Path:
    """A path whose suffix says what to write; Stopped if it does not, or if it is the list that is read."""
    if path.suffix.lower() not in FORMS:
        raise Stopped(f"{path}: the suffix says what is written: {', '.join(FORMS)}")
    return other(path, read)


def other(path: Path, read: Optional[Path]) -> Path:
    """A path to write; Stopped if it is the one that is read."""
    if read is not None and path.resolve() == read.resolve():
        raise Stopped(f"{path}: that is what is read, and would be lost: another name would do")
    return path


def _csv(balance: Balance) -> bytes:
    heads, rows = view.filed(balance)
    form = balance.site.list.form
    above = [[view.first_line(balance)]] if balance.kind is not SheetKind.ENGINE else []
    at = heads.index(word("accuracy", form.lang)) if word("accuracy", form.lang) in heads else -1
    if at >= 0 and is_german(form):
        rows = [(*row[:at], row[at].replace(".", ",") if isinstance(row[at], str) else row[at], *row[at + 1 :]) for row in rows]
    return csv_bytes([*above, heads, *rows], form)


def is_german(form: Form) -> bool:
    """Whether a CSV file of this form has semicolons and decimal commas."""
    return form.lang == "de" or (form.separator, form.decimal) == (";", ",")


def csv_bytes(rows: Iterable[Sequence[Any]], form: Form) -> bytes:
    """Rows as a CSV file that the spreadsheet of this form's language opens: no text in it is a formula there."""
    german = is_german(form)
    text = io.StringIO(newline="")
    writer = csv.writer(text, delimiter=";" if german else ",")
    for row in rows:
        writer.writerow([guarded(cell) if isinstance(cell, str) else "" if cell is None else str(cell).replace(".", ",") if german else cell for cell in row])
    return text.getvalue().encode("utf-8-sig")


def _json(balance: Balance) -> bytes:
    return (json.dumps(view.document(balance), indent=1, ensure_ascii=False) + "\n").encode()


def _xlsx(balance: Balance) -> bytes:
    from openpyxl import Workbook
    from openpyxl.styles import Font, PatternFill
    from openpyxl.utils import get_column_letter

    book = Workbook()
    sheet = book.active
    sheet.title = "sheet"
    for line in (balance.site.list.name, view.first_line(balance), view.summary(balance), "", *steps(balance), ""):
        put(sheet, [line])
    sheet["A1"].font = sheet["A2"].font = Font(bold=True, size=13)
    heads, rows = view.filed(balance)
    put(sheet, heads)
    head, marks = sheet.max_row, [row.mark for row in view.rows(balance)]
    formats = [_number_format(balance.site.decimals if column.places is None else column.places) for column in columns(balance)]
    for row, mark in zip(rows, marks):
        put(sheet, row)
        for cell, form in zip(sheet[sheet.max_row], formats):
            cell.number_format = form if isinstance(cell.value, float) else cell.number_format
        for cell in sheet[sheet.max_row] if mark else ():
            cell.fill = PatternFill("solid", fgColor="FFD9D6" if mark == "worst" else "FFE9C9")
    for k, name in enumerate(heads, 1):
        sheet.cell(head, k).font = Font(bold=True)
        longest = max([len(name), *(len(f"{row[k - 1]:,.{balance.site.decimals}f}" if isinstance(row[k - 1], float) else str(row[k - 1] or "")) for row in rows)])
        sheet.column_dimensions[get_column_letter(k)].width = min(40, longest + 3)
    sheet.freeze_panes = sheet.cell(head + 1, 1)
    sheet.auto_filter.ref = f"A{head}:{get_column_letter(len(heads))}{sheet.max_row}"
    data = io.BytesIO()
    book.save(data)
    return data.getvalue()


def _number_format(places: int) -> str:
    """How a spreadsheet shows a column with so many decimals."""
    return "#,##0" + ("." + "0" * places if places else "")


def _of_the_engine(balance: Balance, what: Callable[[Balance], bytes]) -> bytes:
    """What only the engine's own sheet has."""
    if balance.kind is not SheetKind.ENGINE or balance.flowless:
        raise Stopped(f"{balance.site.list.name}: it has no sheet of the engine's own, so there is no plant file, sheet or place numbers of it")
    return what(balance)


def _place_numbers(balance: Balance) -> bytes:
    return "".join(f"{number}\n" for number in engine.place_numbers(balance.site.file)).encode()


def put(sheet: Any, cells: Sequence[Any]) -> None:
    """Adds a row to a workbook's sheet. A text is a text there, never a formula, and has no character that XLSX cannot hold."""
    sheet.append(["".join(c for c in cell if c >= " " or c in "\t\n") if isinstance(cell, str) else cell for cell in cells])
    for cell in sheet[sheet.max_row]:
        if cell.data_type == "f":
            cell.data_type = "s"


FORMS: Dict[str, Callable[[Balance], bytes]] = {
    ".html": lambda balance: page(balance).encode(),
    ".svg": lambda balance: picture(balance).encode(),
    ".xlsx": _xlsx,
    ".csv": _csv,
    ".json": _json,
    ".bin": lambda balance: _of_the_engine(balance, lambda drawn: drawn.site.file),
    ".sheet": lambda balance: _of_the_engine(balance, lambda drawn: drawn.drawn),
    ".numbers": lambda balance: _of_the_engine(balance, _place_numbers),
}
