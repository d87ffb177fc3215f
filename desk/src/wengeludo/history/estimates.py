# SPDX-License-Identifier: LicenseRef-Wengeludo
"""Estimates of the tool's own, in floats: how far a correction is off in deviations of that correction, and which meters no balance
tells apart. None of this is the engine's.

z = (reading - flow) / deviation of that difference, with V = S M' (M S M')^- M S its covariance, S the variances as they count and M the
balances of the groups; one V for each pattern of status.
"""

from __future__ import annotations

from dataclasses import dataclass
from typing import Any, Dict, Iterator, List, Tuple

from wengeludo_balance import FAULT, HELD

from .run import Run

INDIVIDUAL = 1.96  # the individual test of VDI 2048
SAME = 0.999  # meters whose corrections are so alike are told apart by nothing
BLOCK = 16_384


@dataclass(frozen=True)
class Checks:
    """Of one pattern of status: the checked meters, the covariance of their corrections, their variances, in units."""

    adjusted: Any
    covariance: Any
    variances: Any

    @property
    def deviations(self) -> Any:
        import numpy as np

        return np.sqrt(np.maximum(np.diag(self.covariance), 0))

    @property
    def share(self) -> Any:
        """How far each is checked by others: 0 not at all, 1 wholly."""
        import numpy as np

        return np.diag(self.covariance) / self.variances


def checks(plant: Any, variances: Any, status: Any) -> Checks:
    """What checks what, in this pattern of status; the variances are those of a measured and of a held cell."""
    import numpy as np

    source, target = (np.array([getattr(s, end) for s in plant.streams], int) for end in ("source", "target"))
    bare = status == FAULT
    group = _groups(plant.units, source[bare], target[bare])
    adjusted = np.flatnonzero(~bare & (group[source] != group[target]))
    own = np.where(status == HELD, variances[1], variances[0])[adjusted]
    names = np.unique(group)[:, None]
    balances = (group[target[adjusted]] == names).astype(float) - (group[source[adjusted]] == names)
    spread = balances * own
    return Checks(adjusted, spread.T @ np.linalg.pinv(spread @ balances.T) @ spread, own)


def _groups(units: int, source: Any, target: Any) -> Any:
    """Of each place the group that chains of these streams join it to."""
    import numpy as np

    group = np.arange(units + 1)
    for one, other in zip(source, target):
        group[group == group[other]] = group[one]
    return group


def sets_of(found: Checks) -> List[List[int]]:
    """Checked meters that no balance tells apart, together; others alone."""
    import numpy as np

    deviations = np.maximum(found.deviations, 1e-9)
    alike = np.abs(found.covariance / np.outer(deviations, deviations)) > SAME
    left, sets = list(range(len(found.adjusted))), []
    while left:
        together = [j for j in left if alike[left[0], j] or j == left[0]]
        sets.append([int(found.adjusted[j]) for j in together])
        left = [j for j in left if j not in together]
    return sets


class Standardized:
    """z of a run, block by block: a pattern of status is looked at once."""

    def __init__(self, run: Run) -> None:
        self.run, self.known = run, {}  # type: Run, Dict[bytes, Checks]

    def blocks(self) -> Iterator[Tuple[int, Any]]:
        """The first row of each block, and z of its rows; NaN where nothing checks a meter."""
        for first in range(0, len(self.run.times), BLOCK):
            yield first, self.block(first, min(len(self.run.times), first + BLOCK))

    def block(self, first: int, last: int) -> Any:
        import numpy as np

        run = self.run
        status = np.ascontiguousarray(run.status[first:last])
        z = np.full(status.shape, np.nan, np.float32)
        whole = status.view(np.dtype((np.void, status.shape[1]))).ravel()
        patterns, which = np.unique(whole, return_inverse=True)
        good = run.sheets.refusal[first:last] == 0
        for j, pattern in enumerate(patterns):
            rows = np.flatnonzero((which == j) & good)
            found = self._checks(pattern.tobytes())
            seen = found.deviations > 1e-6 * np.sqrt(found.variances)
            cells = np.ix_(rows, found.adjusted[seen])
            off = run.readings[first:last][cells] - run.sheets.flows[first:last][cells]
            z[cells] = off / found.deviations[seen]
        return z

    def _checks(self, pattern: bytes) -> Checks:
        import numpy as np

        if pattern not in self.known:
            self.known[pattern] = checks(self.run.plant, self.run.variances, np.frombuffer(pattern, np.uint8))
        return self.known[pattern]


@dataclass
class Summary:
    """z of a run in sums: of each row the worst meter and its z, of each meter the rows tested, those over the individual test and the mean,
    of each day and meter the mean; days of rows that can be used apart."""

    worst: Any
    worst_z: Any
    tested: Any
    over: Any
    mean: Any
    daily: Any
    daily_used: Any


def summed(run: Run, used: Any, least: float = 0.5) -> Summary:
    """The sums of z; a day needs half of its rows."""
    import numpy as np

    rows, streams = run.status.shape
    day = ((run.times - run.times[0]) // 86_400).astype(int)
    days = int(day[-1]) + 1
    sums, counts = np.zeros((2, days, streams)), np.zeros((2, days, streams), np.int64)
    worst, worst_z, over = np.full(rows, -1, np.int16), np.zeros(rows, np.float32), np.zeros(streams, np.int64)
    for first, z in Standardized(run).blocks():
        last, known = first + len(z), np.isfinite(z)
        plain = np.where(known, z, 0.0)
        any_known = known.any(1)
        at = np.abs(plain).argmax(1)
        worst[first:last], worst_z[first:last] = np.where(any_known, at, -1), plain[np.arange(len(z)), at]
        over += (np.abs(plain) > INDIVIDUAL).sum(0)
        _by_day(sums[0], counts[0], day[first:last], plain, known)
        _by_day(sums[1], counts[1], day[first:last], plain, known & used[first:last, None])
    full = least * 86_400 / run.step
    with np.errstate(all="ignore"):
        daily, daily_used = (np.where(count >= full, total / count, np.nan) for total, count in zip(sums, counts))
        mean = sums[0].sum(0) / counts[0].sum(0)
    return Summary(worst, worst_z, counts[0].sum(0), over, mean, daily, daily_used)


def _by_day(sums: Any, counts: Any, day: Any, values: Any, known: Any) -> None:
    """Adds rows to the sums of their days; days come in order."""
    import numpy as np

    numbers, first = np.unique(day, return_index=True)
    sums[numbers] += np.add.reduceat(np.where(known, values, 0.0), first, axis=0)
    counts[numbers] += np.add.reduceat(known, first, axis=0, dtype=np.int64)
