# SPDX-License-Identifier: LicenseRef-Wengeludo
"""The bill of a month: each hour's charges in exact fractions of the flows that the rows show, rounded as the engine's call rounds them, added
in whole cents. If the rows are the engine's own sheets and its call takes the rates, that call has charged the same; else the bill is the
tool's, and says so. Beside it: what rounding the month once would give."""

from __future__ import annotations

import math
import re
from dataclasses import dataclass
from datetime import datetime, timezone
from fractions import Fraction
from typing import Any, Dict, List, Optional, Sequence, Tuple

from wengeludo_balance import WITHHELD, Verdict

from ..explain.charges import PER_CENT, apportioned, tools_own
from ..read.faults import Stopped
from .run import Run

HOUR = 3600
BLANK = 25  # what the engine's call answers if a stream to the outside is withheld
WHYS = {BLANK: "in which what a stream to the outside carries is not known (25)", 19: "in which no flow keeps within the ranges (19)"}
PROVED, TOOL = "proved call", "tool"


@dataclass(frozen=True)
class Charge:
    """A stream to the outside in a month: its label and name, its cents by hours, those of hours that fail, the month's rounded once, and the
    cents of the engine's call, if there are some."""

    label: str
    what: str
    cents: int
    failing: int
    once: int
    proved: Optional[int] = None


@dataclass(frozen=True)
class Bill:
    """A month's bill: hours of the month, billed, billed though they fail, without a bill by the number why, without a row; the charges; and
    why they are the tool's own, nothing if the engine's call has charged the same."""

    month: str
    hours: int
    billed: int
    failing: int
    refused: Dict[int, int]
    missing: int
    charges: Tuple[Charge, ...]
    why: str = ""

    @property
    def cents(self) -> int:
        return sum(charge.cents for charge in self.charges)

    @property
    def whose(self) -> str:
        """Who has charged: the proved call, or the tool alone."""
        return TOOL if self.why else PROVED

    @staticmethod
    def heads() -> Tuple[str, ...]:
        return ("month", "stream", "what", "cents", "of it in failing hours", "hours billed", "hours failing", "hours not billed", "hours without a row",
                "cents rounded once (estimate)", "charged by", "cents by the proved call")

    def table(self) -> List[Sequence[Any]]:
        """A row for each charged stream, then the sum."""
        hours, whose = (self.billed, self.failing, sum(self.refused.values()), self.missing), self.whose
        rows = [(self.month, c.label, c.what, c.cents, c.failing, *hours, c.once, whose, "" if c.proved is None else c.proved) for c in self.charges]
        proved = "" if self.why else sum(c.proved or 0 for c in self.charges)
        total = (self.month, "all", "", self.cents, sum(c.failing for c in self.charges), *hours, sum(c.once for c in self.charges), whose, proved)
        return [*rows, total]


def month_of(text: str) -> Tuple[int, int]:
    """Year and month of 2025-07; Stopped if it is none."""
    found = re.fullmatch(r"(\d{4})-(\d{1,2})", text.strip())
    if not found or not 1 <= int(found[2]) <= 12:
        raise Stopped(f"--bill {text}: a month as 2025-07 would do")
    return int(found[1]), int(found[2])


def bill(run: Run, month: Tuple[int, int]) -> Bill:
    """The bill of a month in the run's zone; Stopped if rows are no hours, or nothing has a rate."""
    import numpy as np

    if run.step != HOUR:
        raise Stopped(f"the rows are {run.step} s apart, and a bill takes hours: --every 1h would do")
    if not any(run.list.pipes[k].rate for k in run.outgoing):
        raise Stopped(f"{run.list.name}: no stream to the outside has a rate, so there is nothing to bill")
    zone, (year, number) = run.zone or timezone.utc, month
    start = int(datetime(year, number, 1, tzinfo=zone).timestamp())
    end = int(datetime(year + number // 12, number % 12 + 1, 1, tzinfo=zone).timestamp())
    rows = np.arange(run.row_at(start), run.row_at(end))
    first = np.r_[True, np.diff(run.times[rows]) > 0] if len(rows) else np.zeros(0, bool)  # an hour that stands twice is billed once
    rows = rows[first]
    if not len(rows):
        raise Stopped(f"--bill {year}-{number:02d}: the run has no row of that month")
    return _bill(run, f"{year}-{number:02d}", rows, (end - start) // HOUR)


def _hour(run: Run, row: int, rates: Sequence[Fraction]) -> List[int]:
    """The charges of an hour in whole cents, of the flows that its row shows; Stopped if the engine's call charges otherwise."""
    cents, _ = apportioned([flow * rate for flow, rate in zip(run.sheets.flows[row, list(run.outgoing)].tolist(), rates)])
    if run.sheets.cents is not None and run.sheets.cents[row].tolist() != cents:
        raise Stopped(f"no bill: the engine charges the hour {run.at(row)} otherwise, which is a fault of this program; please report it")
    return cents


def _bill(run: Run, month: str, rows: Any, hours: int) -> Bill:
    import numpy as np

    sheets, outgoing = run.sheets, list(run.outgoing)
    blank = (sheets.kinds[rows][:, outgoing] == WITHHELD).any(1)
    why = np.where(sheets.refusal[rows] > 0, sheets.refusal[rows], np.where(blank, BLANK, 0))
    if sheets.unbilled is not None and (why != np.where(sheets.refusal[rows] > 0, sheets.refusal[rows], sheets.unbilled[rows])).any():
        raise Stopped(f"no bill: the engine's call refuses other hours of {month}, which is a fault of this program; please report it")
    billed = rows[why == 0]
    rates = [(run.list.pipes[k].rate or 0) * run.unit / PER_CENT for k in outgoing]
    each = np.array([_hour(run, row, rates) for row in billed.tolist()], object).reshape(len(billed), len(outgoing))
    fails = sheets.verdict[billed] == Verdict.FAIL
    charges = tuple(_charge(run, j, each[:, j], fails, billed, rates[j]) for j in range(len(outgoing)))
    refused = {int(number): int(count) for number, count in zip(*np.unique(why[why > 0], return_counts=True))}
    return Bill(month, hours, len(billed), int(fails.sum()), refused, hours - len(rows), charges, tools_own(run.list.pipes, run.unit, run.exact))


def _charge(run: Run, j: int, cents: Any, fails: Any, billed: Any, rate: Fraction) -> Charge:
    """What a stream is charged in the hours that are billed."""
    k = run.outgoing[j]
    pipe, flow = run.list.pipes[k], sum(run.sheets.flows[billed, k].tolist())
    proved = None if run.sheets.cents is None else sum(run.sheets.cents[billed, j].tolist())
    return Charge(pipe.label, pipe.what, sum(cents.tolist()), sum(cents[fails].tolist()), math.floor(flow * rate), proved)


def account(found: Bill) -> List[str]:
    """The bill in sentences."""
    once = sum(charge.once for charge in found.charges)
    failing = sum(charge.failing for charge in found.charges)
    whose = f"by the tool, in exact fractions of the flows that the rows show: {found.why}" if found.why else "by the proved call"
    told = [f"{found.month}: {found.cents:,} cents, the sum of {found.billed:,} hours {whose}."]
    if found.failing:
        told.append(f"{failing:,} cents of it are of {found.failing:,} hours that fail their test.")
    if found.refused or found.missing:
        whys = [f"{count:,} {WHYS.get(number, f'without a sheet ({number})')}" for number, count in found.refused.items()] + ([f"{found.missing:,} without a row"] if found.missing else [])
        told.append(f"Not billed, of {found.hours:,} hours: {', '.join(whys)}.")
    told.append(f"Estimate: rounded once for the month it would be {once:,} cents ({once - found.cents:+,}), as each hour rounds down.")
    return told
