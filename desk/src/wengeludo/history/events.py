# SPDX-License-Identifier: LicenseRef-Wengeludo
"""Events: what happened within hours. Frozen, zero, no signal, held, spike, and steps of the plant."""

from __future__ import annotations

from dataclasses import dataclass
from typing import Any, List, Tuple

from wengeludo_balance import FAULT, HELD, MEASURED, WITHHELD, Verdict

from .run import Run

LEAST_FROZEN = 6  # rows of one value
LONGER = 3  # times the reference's longest run of one value
ALMOST_ZERO = 0.01  # of the reference's median
FAR, ABOVE = 3, 4  # a spike's cost: so many limits, so many times its neighbours'
JUMP = 6  # usual differences, out and back; usual moves of a flow
METERS = ("frozen", "zero", "held", "spike")  # events whose rows say nothing of a meter's drift


@dataclass(frozen=True)
class Event:
    """What happened, to which stream (-1: to all), from which row to before which, and how much, in kg/h."""

    kind: str
    stream: int
    start: int
    end: int
    size: float = 0.0


def spans(marked: Any, gap: int = 0) -> List[Tuple[int, int]]:
    """First and past the last of rows that are marked, over gaps of at most so many rows."""
    import numpy as np

    at = np.flatnonzero(marked)
    if not len(at):
        return []
    cut = np.flatnonzero(np.diff(at) > gap + 1)
    return [(int(a), int(b) + 1) for a, b in zip(at[np.r_[0, cut + 1]], at[np.r_[cut, len(at) - 1]])]


def events(run: Run, reference: Tuple[int, int]) -> List[Event]:
    """All events of a run, in order of time. `reference`: its first row, and the one past its last."""
    found = [*_stuck(run, reference), *_by_status(run)]
    found += _dear(run)
    found += _out_and_back(run, reference, found)
    return sorted(found + _steps(run, found), key=lambda e: (e.start, e.stream))


def _stuck(run: Run, reference: Tuple[int, int]) -> List[Event]:
    """Meters that stand at one value, as it is typed, for longer than they do in the reference."""
    import numpy as np

    found = []
    for k, runs in run.still.items():
        good = run.status[slice(*reference), k] == MEASURED
        level = np.median(np.abs(run.readings[slice(*reference), k][good])) * float(run.unit) if good.any() else 0.0
        longest = max((min(b, reference[1]) - max(a, reference[0]) for a, b, _ in runs), default=1)
        for a, b, value in runs:
            if b - a >= max(LEAST_FROZEN, LONGER * longest):
                found.append(Event("zero" if abs(value) < ALMOST_ZERO * level else "frozen", k, a, b, value))
    return found


def _by_status(run: Run) -> List[Event]:
    """Cells that are held or have no signal; all meters without one are one event."""
    gone = run.status[:, run.metered] == FAULT
    none = gone.all(1)
    found = [Event("no signal", -1, a, b) for a, b in spans(none, 1)]
    for j, k in enumerate(run.metered):
        found += [Event("no signal", int(k), a, b) for a, b in spans(gone[:, j] & ~none, 1)]
        found += [Event("held", int(k), a, b) for a, b in spans(run.status[:, k] == HELD, 1)]
    return found


def _dear(run: Run) -> List[Event]:
    """Spikes by cost: at most 2 rows, far above the limit and their neighbours, and one meter clears them."""
    import numpy as np

    sheets, costs, found = run.sheets, run.costs, []
    for a, b in spans((sheets.verdict == Verdict.FAIL) & (sheets.refusal == 0) & (costs > FAR * run.limits)):
        near = np.r_[costs[max(0, a - 3) : a], costs[b : b + 3]]
        alone = sheets.dropped[a, 0] and not sheets.dropped[a, 1] and sheets.cleared[a] != Verdict.FAIL
        if b - a <= 2 and alone and len(near) and costs[a] > ABOVE * np.median(near):
            k = int(sheets.dropped[a, 0]) - 1
            found.append(Event("spike", k, a, b, run.kg(run.readings[a, k] - sheets.dropped_flow[a, 0])))
    return found


def _out_and_back(run: Run, reference: Tuple[int, int], before: List[Event]) -> List[Event]:
    """Spikes by the reading alone, so also of meters that nothing checks: out and back in one row, far more than usual."""
    import numpy as np

    known = {row for e in before if e.kind == "spike" for row in range(e.start, e.end)}
    edges = {row for e in before if e.kind != "spike" for row in (e.start - 1, e.start, e.end - 1, e.end)}
    found = []
    if len(run.times) < 3:
        return found
    for k in run.metered:
        x = np.where(run.status[:, k] == FAULT, np.nan, run.readings[:, k])
        one, other = x[1:-1] - x[:-2], x[1:-1] - x[2:]
        jump = np.nan_to_num(np.where(one * other > 0, np.sign(one) * np.minimum(np.abs(one), np.abs(other)), 0))
        usual = one[slice(*reference)]
        size = 1.4826 * np.nanmedian(np.abs(usual)) if np.isfinite(usual).any() else 0
        for a, b in spans(np.abs(jump) > JUMP * max(size, 1), 1):
            row = a + int(np.abs(jump[a:b]).argmax()) + 1
            if row not in known and row not in edges:
                found.append(Event("spike", int(k), row, row + 1, run.kg(jump[row - 1])))
    return found


def used(run: Run, found: List[Event]) -> Any:
    """The rows that say something of the meters: all measured, none refused, no event of a meter."""
    good = (run.status == run.usual).all(1) & (run.sheets.refusal == 0)
    for event in found:
        if event.kind in METERS:
            good[event.start : event.end] = False
    return good


def _steps(run: Run, before: List[Event], n: int = 2) -> List[Event]:
    """Flows without a meter that move to another level and stay: the plant, no meter."""
    import numpy as np

    good, found = used(run, before), []
    if len(run.times) < 4 * n:
        return found
    for k in [k for k, s in enumerate(run.plant.streams) if not s.metered]:
        x = np.where(good & (run.sheets.kinds[:, k] != WITHHELD), run.sheets.flows[:, k], np.nan)
        if np.isfinite(x).mean() < 0.1:
            continue
        middle = np.median(np.lib.stride_tricks.sliding_window_view(x, n), 1)
        moves = middle[n:] - middle[:-n]
        usual = 1.4826 * np.nanmedian(np.abs(moves - np.nanmedian(moves)))
        for a, b in spans(np.abs(np.nan_to_num(moves)) > JUMP * max(usual, 1), n):
            row = a + int(np.nanargmax(np.abs(moves[a:b])))
            found.append(Event("step", int(k), row + n, row + n, run.kg(moves[row])))
    return found
