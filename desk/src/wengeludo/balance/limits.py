# SPDX-License-Identifier: LicenseRef-Wengeludo
"""Critical values of chi-square at 95 per cent, beside which a cost is judged."""

from __future__ import annotations

from fractions import Fraction
from typing import Optional

# In thousandths, for 1 to 32 degrees.
CRITICAL = (
    3841, 5991, 7815, 9488, 11070, 12592, 14067, 15507, 16919, 18307, 19675, 21026, 22362, 23685, 24996, 26296, 27587, 28869, 30144, 31410,
    32671, 33924, 35172, 36415, 37652, 38885, 40113, 41337, 42557, 43773, 44985, 46194,
)


def critical(degrees: int) -> Optional[Fraction]:
    """The critical value for so many degrees; none if there is nothing to test."""
    return Fraction(CRITICAL[degrees - 1], 1000) if degrees else None
