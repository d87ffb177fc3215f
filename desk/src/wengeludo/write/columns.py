# SPDX-License-Identifier: LicenseRef-Wengeludo
"""The columns of a sheet, each said once: what it has for a stream, and how a terminal, a page and a spreadsheet show it."""

from __future__ import annotations

from dataclasses import dataclass
from typing import Any, Callable, Optional, Tuple

from wengeludo_balance import Kind

from ..balance.sheet import SHORT, Balance, Line, sigmas
from ..balance.site import Site
from ..read.lists import Pipe


@dataclass(frozen=True)
class Column:
    """A column: the number or text that it has for stream k, none if it has none, and how that is shown."""

    name: str
    value: Callable[[Balance, int], Any]
    shown: Callable[[Site, Any], str] = lambda site, value: str(value)
    empty: str = ""  # a cell without a value
    numeric: bool = False
    estimate: bool = False  # of the desk, and not the engine's
    places: Optional[int] = None  # decimals in a spreadsheet, if they are not those of the unit
    narrow: bool = True  # on a narrow terminal too
    look: str = ""  # its cells on a page

    def cell(self, balance: Balance, value: Any) -> str:
        return self.empty if value is None else self.shown(balance.site, value)


def correction(line: Line) -> Optional[float]:
    """The correction that is shown: of a checked meter, or of one held at an end of its range."""
    return line.correction if line.kind is Kind.ADJUSTED or line.held else None


def _pipe(balance: Balance, k: int) -> Pipe:
    return balance.site.list.pipes[k]


def _flow(site: Site, value: float) -> str:
    return site.shown(value)


def _sigmas(balance: Balance, k: int) -> Optional[float]:
    line = balance.lines[k]
    return line.sigmas if correction(line) is not None else None


def _test(balance: Balance, k: int) -> Optional[float]:
    test = balance.lines[k].test
    return None if test is None else abs(test)


def _how(balance: Balance, k: int) -> str:
    line = balance.lines[k]
    return SHORT[line.kind] + (f", at its {line.held} end" if line.held else "") + (", backwards" if (line.flow or 0) < 0 else "")


NAMES = (
    Column("stream", lambda balance, k: _pipe(balance, k).label),
    Column("what", lambda balance, k: _pipe(balance, k).what),
    Column("from", lambda balance, k: balance.site.place(_pipe(balance, k).source)),
    Column("to", lambda balance, k: balance.site.place(_pipe(balance, k).target)),
)
READING = Column("reading", lambda balance, k: _pipe(balance, k).reading, _flow, numeric=True)
SHEET: Tuple[Column, ...] = (
    *NAMES,
    READING,
    Column("balanced", lambda balance, k: balance.lines[k].flow, _flow, empty="?", numeric=True, look="balanced"),
    Column("correction", lambda balance, k: correction(balance.lines[k]), lambda site, value: site.shown(value, "+"), numeric=True, narrow=False),
    Column("σ", _sigmas, lambda site, value: sigmas(value), numeric=True, estimate=True, places=1, narrow=False),
    Column("test", _test, lambda site, value: f"{value:.1f}", numeric=True, estimate=True, places=1, look="off"),
    Column("±", lambda balance, k: balance.lines[k].spread, lambda site, value: site.shown(value) if value > 1e-9 else "fixed", numeric=True, estimate=True),
    Column("how known", _how),
)
# If there is no flow in range there is no sheet, and the ranges are shown.
RANGES: Tuple[Column, ...] = (
    *NAMES,
    READING,
    Column("low", lambda balance, k: _pipe(balance, k).low, _flow, numeric=True),
    Column("high", lambda balance, k: _pipe(balance, k).high, _flow, numeric=True),
)
HEADS = tuple(column.name for column in SHEET)
NO_SHEET = tuple(column.name for column in RANGES)
NUMERIC = frozenset(column.name for column in (*SHEET, *RANGES) if column.numeric)
ESTIMATES = frozenset(column.name for column in SHEET if column.estimate)
WIDE = frozenset(column.name for column in SHEET if not column.narrow)
LOOKS = {column.name: column.look for column in SHEET if column.look}
MARKED = HEADS.index("test")  # its cell has a sign before a value that is worth a look


def columns(balance: Balance) -> Tuple[Column, ...]:
    """Those of a balance: of its sheet, or of the ranges."""
    return RANGES if balance.flowless else SHEET
