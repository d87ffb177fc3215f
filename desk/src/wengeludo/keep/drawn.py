# SPDX-License-Identifier: LicenseRef-Wengeludo
"""The drawing of a plan: laid out once, kept with it, and painted for each of its sheets."""

from __future__ import annotations

import json
from typing import Callable

from ..balance.sheet import Balance
from ..read.faults import Stopped
from ..read.lists import PipeList
from ..write.layout import Layout, layout_from, layout_of
from .book import Book


def layout_in(book: Book, plan: int, pipes: PipeList, drawn: Callable[[], Balance]) -> Layout:
    """The layout of a plan, by the book or, the first time, by graphviz for one of its sheets, and then kept."""
    stored = book.layout(plan)
    if stored:
        try:
            found = layout_from(json.loads(stored))
            if found.fits(pipes):
                return found
        except ValueError:
            pass  # of another version: laid out anew
    laid = layout_of(drawn(), lasting=True)
    try:
        book.set_layout(plan, json.dumps(laid.plain(), separators=(",", ":")))
    except Stopped:
        pass  # the book cannot be written: the drawing is shown all the same
    return laid


def laid_out(book: Book, plan: int, drawn: Balance) -> Balance:
    """A kept sheet whose drawing is painted by the layout of its plan."""
    drawn.once("layout", lambda: layout_in(book, plan, drawn.site.list, lambda: drawn))
    return drawn
