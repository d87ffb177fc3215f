# SPDX-License-Identifier: LicenseRef-Wengeludo
"""Where labels stand in a drawing whose units the user has placed: beside their line, where they cover the least."""

from __future__ import annotations

import math
from typing import Any, Dict, List, Sequence, Tuple

Point = Tuple[float, float]
Box = Tuple[float, float, float, float]  # left, top, right, bottom
STEP = 6.0  # between the points by which a line is known
MOST_POINTS = 200  # of a piece of a line
SHARES = (0.5, 0.42, 0.58, 0.34, 0.66, 0.26, 0.74, 0.18, 0.82, 0.1, 0.9)
SIDES = ((1, 0), (-1, 0), (0, -1), (0, 1), (1, -1), (1, 1), (-1, -1), (-1, 1))
GAPS = (4.0, 8.0, 12.0)
ROUNDS = 3


def points_along(knots: Sequence[Point]) -> List[Point]:
    """Points along a line of Bézier pieces, about as far apart all over."""
    return [point for at in range(0, len(knots) - 3, 3) for point in _curve(knots[at : at + 4])]


def _curve(knots: Sequence[Point]) -> List[Point]:
    count = min(MOST_POINTS, max(2, int(sum(math.dist(a, b) for a, b in zip(knots, knots[1:])) / STEP)))
    points = []
    for step in range(count + 1):
        t = step / count
        parts = ((1 - t) ** 3, 3 * t * (1 - t) ** 2, 3 * t * t * (1 - t), t**3)
        points.append((sum(p * x for p, (x, _) in zip(parts, knots)), sum(p * y for p, (_, y) in zip(parts, knots))))
    return points


def placed(lines: Dict[int, List[Point]], units: Sequence[Box], sizes: Sequence[Point]) -> Dict[int, Box]:
    """A box for each label; the shortest lines, which have the least room, choose first, and all choose again once the others stand."""
    import numpy as np

    points = np.array([point for line in lines.values() for point in line])
    tried = [(share, gap) for share in SHARES for gap in GAPS]
    found: Dict[int, Box] = {}
    for k in ROUNDS * sorted(lines, key=lambda k: len(lines[k])):
        taken = np.array([*units, *(box for other, box in found.items() if other != k), (0.0, 0.0, 0.0, 0.0)])
        boxes = [(box, 12 * abs(share - 0.5) + gap / 2) for share, gap in tried for box in _beside(lines[k], share, gap, sizes[k])]
        tried_boxes = np.array([box for box, _ in boxes])
        covered = _covered(points, taken, tried_boxes) + 2 * _crossed(np.array(lines[k]), tried_boxes) + np.array([far for _, far in boxes])
        found[k] = boxes[int(covered.argmin())][0]
    return found


def _beside(line: List[Point], share: float, gap: float, size: Point) -> List[Box]:
    """The boxes on all sides of a point of a line."""
    x, y = line[round(share * (len(line) - 1))]
    wide, high = size
    centres = [(x + across * (wide / 2 + gap), y + down * (high / 2 + gap)) for across, down in SIDES]
    return [(cx - wide / 2, cy - high / 2, cx + wide / 2, cy + high / 2) for cx, cy in centres]


def _covered(points: Any, taken: Any, boxes: Any) -> Any:
    """How much a label in each of these boxes would cover: points of lines, units and labels that stand."""
    left, top, right, bottom = (boxes[:, k : k + 1] for k in range(4))
    across = (taken[:, 2] - (taken[:, 2] - right).clip(0)) - (left + (taken[:, 0] - left).clip(0))
    down = (taken[:, 3] - (taken[:, 3] - bottom).clip(0)) - (top + (taken[:, 1] - top).clip(0))
    return _crossed(points, boxes) + (across.clip(0) * down.clip(0)).sum(axis=1) / 4


def _crossed(points: Any, boxes: Any) -> Any:
    """How much of lines a label in each of these boxes would cover."""
    left, top, right, bottom = (boxes[:, k : k + 1] for k in range(4))
    x, y = points[:, 0], points[:, 1]
    return 6.0 * ((x > left) & (x < right) & (y > top) & (y < bottom)).sum(axis=1)
