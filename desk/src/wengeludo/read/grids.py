# SPDX-License-Identifier: LicenseRef-Wengeludo
"""Tables as they stand in a file: CSV or XLSX to rows of texts."""

from __future__ import annotations

import csv
import io
from dataclasses import dataclass, field
from pathlib import Path
from typing import Iterable, List, Tuple

from .columns import language_of
from .faults import Fault, Faulty
from .flow_units import split_heading
from .texts import legible, unguarded

MOST_ROWS = 10_000
MOST_BYTES, MOST_PACKED = 5_000_000, 20_000_000  # of a list, and of a workbook, which may have pictures
MOST_COLUMNS = 500
SEPARATORS = ",;\t"
LOOKED_AT = 50  # lines that may stand above the header


@dataclass(frozen=True)
class Grid:
    """Rows of texts without control characters, the first of them row 1; the separator of a CSV file; the second table, if there is one;
    what is to be told of the file."""

    rows: List[List[str]]
    separator: str = ","
    places: List[List[str]] = field(default_factory=list)
    told: Tuple[str, ...] = ()


def read_grid(path: Path) -> Grid:
    """The tables of a file; OSError if it cannot be read, Faulty if it is no table."""
    if path.suffix.lower() in (".xlsx", ".xlsm"):
        from .workbooks import workbook

        tables, told = workbook(path, read_bytes(path, MOST_PACKED))
        return Grid(tables[0] if tables else [], "", tables[1] if len(tables) > 1 else [], told)
    data, beside = read_bytes(path), path.with_suffix(".places.csv")
    places = _lines(beside, read_bytes(beside))[0] if beside.is_file() else []
    rows, separator = _lines(path, data)
    return Grid(rows, separator, places)


def read_bytes(path: Path, most: int = MOST_BYTES) -> bytes:
    """What stands in a file; Faulty if that is more than a list can have."""
    with open(path, "rb") as file:
        data = file.read(most + 1)
    if len(data) > most:
        raise Faulty(path, [Fault(f"the file has more than {most:,} bytes: a list or a plant has at most 96 streams")])
    return data


def _lines(path: Path, data: bytes) -> Tuple[List[List[str]], str]:
    try:
        text = data.decode("utf-8-sig")
    except UnicodeDecodeError as error:
        row = data[: error.start].count(b"\n") + 1
        raise Faulty(path, [Fault("the file is not UTF-8 text: save it as “CSV UTF-8” or as XLSX", row=row)]) from None
    if "\0" in text:
        raise Faulty(path, [Fault("the file is no text: a list is CSV or XLSX")])
    text = legible(text)
    try:
        separator = _separator(text)
        rows = limited(path, ([unguarded(cell) for cell in row] for row in csv.reader(io.StringIO(text, newline=""), delimiter=separator)))
    except csv.Error as error:
        raise Faulty(path, [Fault(f"the file is no CSV: {error}")]) from None
    return rows, separator


def _separator(text: str) -> str:
    """The separator by which a line is a header; else the one that the first line has most of."""
    for separator in SEPARATORS:
        lines = csv.reader(io.StringIO(text, newline=""), delimiter=separator)
        if any(is_header(row) for _, row in zip(range(LOOKED_AT), lines)):
            return separator
    head = next((line for line in text.splitlines() if line.strip()), "")
    return max(SEPARATORS, key=head.count)


def is_header(row: Iterable[str]) -> bool:
    """Whether a row has the two columns that every list has."""
    return bool(language_of([split_heading(cell)[0] for cell in row]))


def limited(path: Path, rows: Iterable[List[str]]) -> List[List[str]]:
    """The rows, without empty ones at the end; Faulty if there are more than a list can have."""
    found: List[List[str]] = []
    for number, row in enumerate(rows, 1):
        while row and not row[-1].strip():
            row.pop()
        if not row:
            continue
        if len(row) > MOST_COLUMNS:
            raise Faulty(path, [Fault(f"the row has {len(row):,} cells: a list has at most {MOST_COLUMNS} columns", row=number)])
        if number > MOST_ROWS:
            raise Faulty(path, [Fault(f"the file goes on after row {MOST_ROWS:,}: a list has at most 96 streams", row=number)])
        found += [[] for _ in range(number - 1 - len(found))]
        found.append(row)
    return found
