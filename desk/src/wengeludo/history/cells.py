# SPDX-License-Identifier: LicenseRef-Wengeludo
"""Cells of an export: a number with its status is measured or held, everything else is a fault, counted by its word."""

from __future__ import annotations

import re
from collections import Counter
from typing import Any, List, Sequence, Tuple

from wengeludo_balance import FAULT, HELD, MEASURED

from ..read.numbers import Marks, number

STATUS = re.compile(r"(.+?)[ ._/-](status|quality|qual|stat|q)", re.IGNORECASE)
GOOD = {"", "good", "ok", "measured"}
HELD_WORDS = {"held", "hold", "uncertain", "questionable", "substituted", "manual", "stale", "last known", "last usable"}
Unsure = List[Tuple[int, str, str]]  # place in the block, what stands there, what would do


def numbers_of(cells: Sequence[str], marks: Marks, words: Counter) -> Tuple[Any, Unsure]:
    """The numbers of a column's cells, NaN where there is none (counted by word), and cells that may be read in two ways."""
    import numpy as np

    joined = "\0".join(cells)
    if marks.thousands not in joined and (marks.shown or marks.decimal not in joined):
        plain = joined.replace(",", ".").split("\0") if marks.decimal == "," else cells
        try:
            values = np.array(plain, dtype=float)
            if np.isfinite(values).all():
                return values, []
        except ValueError:
            pass
    return _one_by_one(cells, marks, words)


def _one_by_one(cells: Sequence[str], marks: Marks, words: Counter) -> Tuple[Any, Unsure]:
    import numpy as np

    values, unsure = np.full(len(cells), np.nan), []
    for k, text in enumerate(cells):
        try:
            values[k] = number(text, marks)
        except ValueError as error:
            if "may be" in str(error):
                unsure.append((k, text, str(error)))
            else:
                words[" ".join(text.split())[:40] or "(nothing)"] += 1
    return values, unsure


def kind_of(word: str) -> int:
    """What a status says of its number."""
    plain = " ".join(word.split()).casefold()
    if plain in GOOD:
        return MEASURED
    if plain.isdigit() and len(plain) < 4:
        return MEASURED if 192 <= int(plain) <= 255 else HELD if 64 <= int(plain) <= 127 else FAULT
    return HELD if plain in HELD_WORDS else FAULT


def status_of(values: Any, said: Sequence[str], words: Counter) -> Any:
    """The status of each cell: by its number and by the word beside it."""
    import numpy as np

    status = np.where(np.isnan(values), FAULT, MEASURED).astype(np.uint8)
    if not said:
        return status
    known = {word: kind_of(word) for word in set(said)}
    if set(known.values()) == {MEASURED}:
        return status
    kinds = np.fromiter((known[word] for word in said), np.uint8, len(said))
    spoilt = (status == MEASURED) & (kinds != MEASURED)
    status[spoilt] = kinds[spoilt]
    for word, count in Counter(said[k] for k in np.flatnonzero(spoilt)).items():
        words[f"status {word}"] += count
    return status
