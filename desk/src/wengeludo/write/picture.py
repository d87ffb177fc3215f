# SPDX-License-Identifier: LicenseRef-Wengeludo
"""The drawing of a sheet: laid out, then painted."""

from __future__ import annotations

from typing import Optional

from ..balance.sheet import Balance
from .layout import Layout, layout_of
from .paint import paint


def picture(balance: Balance, layout: Optional[Layout] = None) -> str:
    """The drawing as SVG, with its legend, by a layout that was kept or by one of its own."""
    return paint(layout or balance.once("layout", lambda: layout_of(balance)), balance)
