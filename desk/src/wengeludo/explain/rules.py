# SPDX-License-Identifier: LicenseRef-Wengeludo
"""The first rule of the check that a sheet drawn up elsewhere breaks, in words. Whether it passes at all, the engine says."""

from __future__ import annotations

from typing import Optional, Sequence

import wengeludo_balance as engine

from ..read.plant_files import refused


def check(plant: bytes, sheet: bytes, numbers: Sequence[int]) -> Optional[str]:
    """None if the sheet passes; else why not, by the engine's number or the first broken rule."""
    try:
        broken = engine.broken_rule(plant, sheet, numbers)
    except engine.Refusal as refusal:
        return refused(refusal, plant)
    return broken and f"{broken} (26)"
