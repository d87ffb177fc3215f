# SPDX-License-Identifier: LicenseRef-Wengeludo
"""How sure a number is: one standard deviation, by linear propagation at the balanced flow. An estimate, in floats, of the tool's own.

The corrections are linear in the readings as long as the same streams stay at the ends of their ranges; those are taken as fixed. With
the squares V of the free meters' deviations, as the list gives them, and M the balances of the groups, the balanced flow is P times the
readings, P = 1 - V M' (M V M')^- M, and a meter's own deviation is carried through P.
"""

from __future__ import annotations

from typing import Any, List, Optional, Sequence

from wengeludo_balance import Kind, Plant, Record, Stream

from .graph import groups, summed
from .inverse import inverse


def at_end(stream: Stream, flow: Optional[int]) -> Optional[str]:
    """Whether a stream is held at an end of its range: low, high or neither."""
    if not stream.ranged or flow is None:
        return None
    if flow == stream.high:
        return "high"
    return "low" if flow == stream.low else None


def spreads(plant: Plant, records: Sequence[Record], deviations: Sequence[Optional[float]]) -> List[Optional[float]]:
    """One deviation for each stream, in the unit of the deviations; none for a blank."""
    import numpy as np  # only here and below: it is slow to load

    streams = plant.streams
    free = [k for k, r in enumerate(records) if r.kind is Kind.ADJUSTED and not at_end(streams[k], r.flow)]
    as_read = [k for k, r in enumerate(records) if r.kind is Kind.AS_READ]
    own = np.array([deviations[k] for k in free], dtype=float)
    carried = _projector(plant, free, own) * own
    rows = {k: carried[j] for j, k in enumerate(free)}

    def spread(k: int) -> Optional[float]:
        kind = records[k].kind
        if kind is Kind.AS_READ:
            return deviations[k]
        if kind is Kind.ADJUSTED:
            return float(np.sqrt((rows[k] ** 2).sum())) if k in rows else 0.0
        if kind is Kind.WITHHELD:
            return None
        signed, _ = summed(streams, k)
        together = sum((sign * rows[j] for j, sign in signed if j in rows), np.zeros(len(free)))
        unchecked = sum(deviations[j] ** 2 for j, _ in signed if j in as_read)  # type: ignore[operator, misc]
        return float(np.sqrt((together**2).sum() + unchecked))

    return [spread(k) for k in range(len(streams))]


def _projector(plant: Plant, free: Sequence[int], deviations: Any) -> Any:
    """P of the free meters, a matrix."""
    import numpy as np

    balances = np.zeros((plant.units + 1, len(free)))
    for row, group in enumerate(groups(plant.streams, plant.units)):
        for column, k in enumerate(free):
            s = plant.streams[k]
            balances[row, column] = (s.target in group) - (s.source in group)
    squares = deviations**2
    carried = balances.T @ inverse((balances * squares) @ balances.T) @ balances
    return np.eye(len(free)) - squares[:, None] * carried
