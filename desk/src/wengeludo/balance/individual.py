# SPDX-License-Identifier: LicenseRef-Wengeludo
"""The individual test of VDI 2048: each correction beside its own deviation, |v| / σ_v. An estimate, in floats, of the tool's own.

A precise meter has a small σ_v, and so cannot hide behind the σ of its own accuracy. Above 1.96 a correction is marked; among many meters
chance alone marks one now and then, so a warning is given above Šidák's value only, which chance passes in 5 of 100 sheets.
"""

from __future__ import annotations

from fractions import Fraction
from statistics import NormalDist
from typing import Dict, Mapping, Sequence, Tuple

from .exact import Exacts
from .inverse import inverse

MARKED = 1.96
SURE = 0.95


def bound(tested: int) -> float:
    """Šidák's value for so many tested meters."""
    return NormalDist().inv_cdf(1 - (1 - SURE ** (1 / tested)) / 2) if tested else float("inf")


def tests(listed: Exacts, held: Mapping[int, Fraction]) -> Dict[int, float]:
    """The correction of each checked meter over its own deviation, signed; without those held at an end of their range, at these flows."""
    import numpy as np

    free = [k for k in listed.checked if k not in held]
    if not free:
        return {}
    balances = np.zeros((len(set(listed.group)), len(free)))
    for column, k in enumerate(free):
        source, target = listed.ends(k)
        balances[target, column], balances[source, column] = 1, -1
    squares = np.array([float(listed.streams[k].variance or 1) for k in free])
    turned = inverse((balances * squares) @ balances.T)
    own = np.sqrt(np.maximum(((turned @ balances) * balances).sum(0), 1e-300))
    off = -(balances.T @ turned @ np.array(_unbalanced(listed, held))) / own
    return dict(zip(free, (float(value) for value in off)))


def _unbalanced(listed: Exacts, held: Mapping[int, Fraction]) -> Sequence[float]:
    """What the readings leave over at each group."""
    over = [Fraction(0)] * len(set(listed.group))
    for k in listed.checked:
        flow = held.get(k, listed.streams[k].reading or Fraction(0))
        source, target = listed.ends(k)
        over[target] += flow
        over[source] -= flow
    return [float(amount) for amount in over]


def alike(listed: Exacts, k: int) -> Tuple[int, ...]:
    """The checked meters that no balance tells apart from meter k, itself among them: they join the same two groups."""
    ends = frozenset(listed.ends(k))
    return tuple(j for j in listed.checked if frozenset(listed.ends(j)) == ends)
