# SPDX-License-Identifier: LicenseRef-Wengeludo
"""The legend below a drawing."""

from __future__ import annotations

import textwrap
from html import escape
from typing import List, Tuple

from ..balance.kind import SheetKind
from ..balance.sheet import Balance
from .language import spoken
from .view import headline, standing

ROW, COLUMN, TOP = 19, 250, 16
WIDE = 88  # letters of a line across both columns
_SAMPLES = (
    ("#1b6ca8", "", "metered, checked and corrected"),
    ("#8a6d00", "", "metered, as read (unchecked)"),
    ("#2e7d32", "6 3", "deduced from meters, ± estimate"),
    ("#6a3d9a", "1.5 4", "? not known"),
    ("#a65b00", "", "▲ test value over 1.96"),
    ("#c62828", "", "⚠ the greatest, beyond chance"),
)
_REFUSED = (
    ("#c62828", "", "across the edge of the overfull places: ≥ at least, ≤ at most"),
    ("#54606c", "", "metered"),
    ("#54606c", "6 3", "no meter"),
)


def _standing(balance: Balance) -> List[str]:
    """What a sheet that is not the engine's own says of itself, in lines."""
    told = headline(balance) if balance.kind is SheetKind.UNJUDGED else standing(balance)
    return textwrap.wrap(told, WIDE)


def legend(balance: Balance) -> Tuple[str, float, float]:
    """The legend as SVG, its width and its height."""
    samples = _REFUSED if balance.flowless else _SAMPLES
    columns = 1 if balance.flowless else 2
    rows = -(-len(samples) // columns)
    parts: List[str] = []
    for k, (colour, dashes, text) in enumerate(samples):
        x, y = k // rows * COLUMN, TOP + k % rows * ROW
        dash = f' stroke-dasharray="{dashes}"' if dashes else ""
        parts.append(f'<line x1="{x + 8}" y1="{y}" x2="{x + 40}" y2="{y}" stroke="{colour}" stroke-width="2.4"{dash}/>')
        parts.append(f'<text x="{x + 48}" y="{y + 3.5}">{escape(spoken(text, balance.site.list.form.lang))}</text>')
    y = TOP + rows * ROW
    for text in _standing(balance):
        parts.append(f'<text x="8" y="{y + 3.5}" font-weight="bold">{escape(text)}</text>')
        y += ROW
    foot = "kg/h; small open ends lead outside" + ("" if balance.flowless else "; width grows with the flow; ↩ runs backwards")
    parts.append(f'<text x="8" y="{y + 3.5}">{foot}</text>')
    group = f'<g font-family="DejaVu Sans,Verdana,sans-serif" font-size="9.5" fill="#444444" class="legend">{"".join(parts)}</g>'
    return group, COLUMN * max(columns, 1.8) + 10, y + ROW
