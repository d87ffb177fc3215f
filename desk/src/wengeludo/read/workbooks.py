# SPDX-License-Identifier: LicenseRef-Wengeludo
"""Workbooks: the first two worksheets that are not hidden, as rows of texts, by the cells that are there."""

from __future__ import annotations

import io
import math
import re
import warnings
import zipfile
from pathlib import Path
from typing import Any, Iterator, List, Optional, Tuple

from .faults import Fault, Faulty
from .grids import MOST_ROWS, limited
from .numbers import Held
from .texts import legible

MOST_UNPACKED = 20_000_000  # bytes of a part that is read
MOST_CELLS = 60_000  # of a worksheet
MOST_WIDE = 1_000_000  # cells and gaps between them
MOST_PARTS = 2_000
_CELL = re.compile(rb"<(?:\w+:)?c[ />]")
_ROWS = re.compile(rb"<(?:\w+:)?row\b")
_NUMBER = re.compile(rb'[^>]*?\br="(\d{1,20})"')
_VALUE = re.compile(rb"<(?:\w+:)?(?:v|is|f)\b")
_LITERAL = re.compile(r'"([^"]*)"|\\(.)|_.|\*.|\[[^\]]*\]')
_SHOWN_UNIT = re.compile(r"[A-Za-zµ][A-Za-z.³²]*\s*/\s*[A-Za-z]+")
Tables = Tuple[List[List[List[str]]], Tuple[str, ...]]


def workbook(path: Path, data: bytes) -> Tables:
    """The tables of a workbook, and what is to be told of it; Faulty if it is none, or larger than a list can be."""
    import openpyxl

    try:
        with warnings.catch_warnings(), zipfile.ZipFile(io.BytesIO(data)) as parts:
            warnings.simplefilter("ignore")
            _small(path, parts, [name for name in parts.namelist() if not re.match(r"xl/(worksheets|media|drawings|charts)/", name)])
            books = [openpyxl.load_workbook(io.BytesIO(data), read_only=True, data_only=only) for only in (True, False)]
            seen = [k for k, sheet in enumerate(books[0].worksheets) if sheet.sheet_state == "visible"][:2]
            hidden = [sheet.title for k, sheet in enumerate(books[0].worksheets) if sheet.sheet_state != "visible" and k <= max(seen, default=10**9)]
            tables = []
            for k in seen:
                _small(path, parts, [books[0].worksheets[k]._worksheet_path], cells=True)
                tables.append(_table(path, *(book.worksheets[k] for book in books)))
    except Faulty:
        raise
    except Exception:  # of a damaged workbook the library may raise anything: zip, zlib, XML, dates, names
        raise Faulty(path, [Fault("the file is no XLSX workbook that can be read: save it anew")]) from None
    if not seen and hidden:
        raise Faulty(path, [Fault("the file has hidden worksheets only: one that is shown would do")])
    return tables, tuple(f"the hidden worksheet {legible(name)} was not read" for name in hidden)


def _small(path: Path, parts: zipfile.ZipFile, names: List[str], cells: bool = False) -> None:
    """Faulty if these parts of a workbook are larger than those of a list, or hold declarations that a workbook has none of."""
    if len(parts.namelist()) > MOST_PARTS or sum(parts.getinfo(name).file_size for name in names) > MOST_UNPACKED:
        raise Faulty(path, [Fault(f"the file unpacks to more than {MOST_UNPACKED:,} bytes: save the list in a workbook of its own")])
    for name in names:
        text = parts.read(name)
        plain = text.replace(b"\0", b"")
        if b"<!DOCTYPE" in plain or b"<!ENTITY" in plain:
            raise Faulty(path, [Fault("the file declares entities, which no spreadsheet does: save it anew")])
        if cells and len(_CELL.findall(plain)) > MOST_CELLS:
            raise Faulty(path, [Fault(f"the file has a worksheet of more than {MOST_CELLS:,} cells: a list has at most 96 streams")])
        beyond = _beyond(plain) if cells else None
        if beyond:
            raise Faulty(path, [Fault(f"the file goes on after row {MOST_ROWS:,}: a list has at most 96 streams", row=beyond)])


def _beyond(text: bytes) -> Optional[int]:
    """The first row of a worksheet beyond the limit that has a value."""
    for part in _ROWS.split(text)[1:]:
        number = _NUMBER.match(part[:300])
        if number and int(number[1]) > MOST_ROWS and _VALUE.search(part):
            return int(number[1])
    return None


def _table(path: Path, values: Any, formulas: Any) -> List[List[str]]:
    faults: List[Fault] = []
    rows = limited(path, _rows(path, values, formulas, faults))
    if faults:
        raise Faulty(path, faults)
    return rows


def _rows(path: Path, values: Any, formulas: Any, faults: List[Fault]) -> Iterator[List[str]]:
    """The rows of a worksheet as texts; formulas that were never worked out are faults."""
    wide = 0
    for sheet in (values, formulas):
        sheet.reset_dimensions()
    for number, (cells, originals) in enumerate(zip(values.iter_rows(), formulas.iter_rows()), 1):
        wide += len(cells)
        if wide > MOST_WIDE:
            raise Faulty(path, [Fault(f"the file has a cell in column {len(cells):,}: a list has few columns", row=number)])
        for cell, original in zip(cells, originals):
            if cell.value is None and original.data_type == "f":
                wanted = "a formula that was never worked out: open the file in the spreadsheet and save it"
                faults.append(Fault(wanted, row=original.row, column=original.column_letter, found=str(original.value)))
        yield [_text(cell) for cell in cells]
        if number > MOST_ROWS:
            return


def _text(cell: Any) -> str:
    """A cell as an engineer reads it: 0.02 shown as 2% is 2%, and 8.151 shown as 8.151 t/h is that."""
    value = cell.value
    if value is None:
        return ""
    if isinstance(value, bool) or not isinstance(value, (int, float)) or not math.isfinite(value):
        return legible(str(value))
    literal, codes = _literals(cell.number_format or "")
    if "%" in codes:
        return Held(f"{round(value * 100, 10):.12g}%")
    if "%" in literal:
        return Held(f"{_number(value)}%")
    unit = _SHOWN_UNIT.search(literal)
    if unit:
        shown = re.sub(r"[^0#?,]", "", codes)
        return Held(f"{_number(value / 1_000 ** (len(shown) - len(shown.rstrip(','))))} {unit[0]}")
    return Held(("±" if "±" in literal else "") + _number(value))


def _literals(form: str) -> Tuple[str, str]:
    """The texts that a number format shows, and its codes without them, both of its first section."""
    first, literal = "", ""
    for k, part in enumerate(re.split(r'("[^"]*"|\\.)', form)):
        if k % 2 == 0 and ";" in part:
            first += part.split(";")[0]
            break
        first += part
    for found in _LITERAL.finditer(first):
        literal += found[1] or found[2] or ""
    return literal, _LITERAL.sub("", first)


def _number(value: float) -> str:
    return str(int(value)) if value == int(value) and abs(value) < 1e15 else repr(value)
