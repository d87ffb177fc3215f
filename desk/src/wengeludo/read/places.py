# SPDX-License-Identifier: LicenseRef-Wengeludo
"""Where units stand in the user's own drawing: a table with unit, x, y, in centimetres to the right and down or to any other scale."""

from __future__ import annotations

import math
from statistics import median
from typing import Dict, List, Mapping, Optional, Sequence, Tuple

from .faults import Fault
from .numbers import Marks, number

Spot = Tuple[float, float]
UNIT_WORDS = ("unit", "place", "anlage", "apparat", "einheit")
NEAR, FAR, USUAL = 1.5, 15.0, 5.0  # centimetres between neighbours: at least, at most, and to which others are brought
REACH, PAPER = 150.0, 1_000.0  # centimetres from the middle of the drawing, and from its corner


def spots_in(rows: Sequence[List[str]], places: Mapping[str, int], marks: Marks) -> Tuple[Dict[int, Spot], List[Fault]]:
    """The places of units, and the faults of their table; none if it is no such table."""
    heads = [[cell.strip().casefold() for cell in row] for row in rows]
    top = next((k for k, head in enumerate(heads) if {"x", "y"} <= set(head) and set(UNIT_WORDS) & set(head)), None)
    found: Dict[int, Spot] = {}
    faults: List[Fault] = []
    for row, cells in enumerate(rows[top + 1 :] if top is not None else [], (top or 0) + 2):
        told = dict(zip(heads[top or 0], cells))
        name = " ".join(next(told[word] for word in UNIT_WORDS if word in heads[top or 0]).split()) if any(word in told for word in UNIT_WORDS) else ""
        if not name:
            continue
        if name.casefold() not in places:
            faults.append(Fault("no stream of the list runs from or to this unit", row, "unit (second table)", found=name))
            continue
        spot = _spot(told, marks)
        if spot is None:
            wanted = "numbers of centimetres would do, to the right and down"
            faults.append(Fault(wanted, row, "x or y (second table)", found=f"{told.get('x', '')} {told.get('y', '')}"))
        else:
            found[places[name.casefold()]] = spot
    return found, faults


def _spot(told: Mapping[str, str], marks: Marks) -> Optional[Spot]:
    try:
        return number(told.get("x", ""), marks), number(told.get("y", ""), marks)
    except ValueError:
        return None


def drawable(spots: Mapping[int, Spot], names: Sequence[str]) -> Tuple[Dict[int, Spot], List[str]]:
    """The places brought to a scale that a page can hold, and what is to be told of it. A unit that stands far from all others has no
    place, so that it is put where its streams draw it."""
    if not spots:
        return {}, []
    scale, told = _scale(list(spots.values())), []
    middle = tuple(median(spot[k] for spot in spots.values()) for k in (0, 1))
    moved = {unit: ((x - middle[0]) * scale, (y - middle[1]) * scale) for unit, (x, y) in spots.items()}
    near = {unit: spot for unit, spot in moved.items() if max(abs(spot[0]), abs(spot[1])) <= REACH}
    if scale != 1:
        told.append(f"the drawing's places are too {'far apart' if scale < 1 else 'close together'} for centimetres: it is drawn {scale:.3g} times as large")
    far = [names[unit] for unit in spots if unit not in near]
    if far:
        told.append(f"too far from the rest of the drawing, and put where the streams draw it: {', '.join(far)}")
    small = all(abs(value) <= PAPER for spot in spots.values() for value in spot)
    return (dict(spots) if small and scale == 1 and not far else near), told


def _scale(spots: Sequence[Spot]) -> float:
    """By what the drawing is enlarged so that neighbours stand a few centimetres apart."""
    gaps = [min((gap for k, other in enumerate(spots) if k != at and (gap := math.dist(spot, other)) > 0), default=0.0) for at, spot in enumerate(spots)]
    gap = median([gap for gap in gaps if 0 < gap < math.inf] or [USUAL])
    return 1.0 if NEAR <= gap <= FAR else USUAL / gap
