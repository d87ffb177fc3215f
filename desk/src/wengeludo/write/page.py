# SPDX-License-Identifier: LicenseRef-Wengeludo
"""The page: one file, no network, prints on A4."""

from __future__ import annotations

import math
import re
from dataclasses import dataclass
from datetime import datetime
from typing import Any, List, Optional, Tuple

from jinja2 import Environment, PackageLoader, select_autoescape
from markupsafe import Markup, escape

from ..balance.sheet import Balance
from ..explain.steps import steps, told
from ..explain.why import overfull
from . import view
from .columns import ESTIMATES, LOOKS, NUMERIC
from .language import marked_names, spoken
from .picture import picture


TILE = (850.0, 1150.0)  # points of a drawing that are read well on a page of A4
OVERLAP, WHOLE = 60.0, 1.35  # points that two parts share; a drawing this much larger is still read in one piece


@dataclass(frozen=True)
class Scale:
    """The cost on a scale with its limit, in per cent of its length."""

    cost: float
    limit: float

    @property
    def styles(self) -> Tuple[Markup, Markup]:
        """Where the two stand, as CSS."""
        return Markup(f"{self.cost:.2f}%"), Markup(f"{self.limit:.2f}%")


def scale(balance: Balance) -> Optional[Scale]:
    """Where cost and limit lie; none where there is nothing to test."""
    if balance.verdict is None or balance.limit is None:
        return None
    full = max(balance.cost * 1.05, balance.limit * 1.3)
    return Scale(100 * balance.cost / full, 100 * balance.limit / full)


def tiles(drawing: str) -> List[Markup]:
    """The parts of a drawing that is too large to be read on one page, each as a window on it: left, top, width, height."""
    found = re.search(r'viewBox="0 0 (\d+) (\d+)"', drawing)
    wide, high = (float(x) for x in found.groups()) if found else (0.0, 0.0)
    if wide <= WHOLE * TILE[0] and high <= WHOLE * TILE[1]:
        return []
    columns, rows = (_parts(size, most) for size, most in zip((wide, high), TILE))
    return [Markup(f"{left:.0f} {top:.0f} {across:.0f} {down:.0f}") for top, down in rows for left, across in columns]


def _parts(size: float, most: float) -> List[Tuple[float, float]]:
    """Where equal parts of a length begin, and how long they are, none longer than this, each with a little of the next."""
    count = max(1, math.ceil((size - OVERLAP) / (most - OVERLAP)))
    part = (size + OVERLAP * (count - 1)) / count
    return [(k * (part - OVERLAP), part) for k in range(count)]


def page(balance: Balance, live: str = "") -> str:
    """The page of a balance as HTML, with the section that recomputes if there is one; then without blanks before its tags, to stay small."""
    drawing = picture(balance)
    text = _environment(balance).get_template("page.html").render(
        site=Markup(escape(balance.site.list.name)), lang=balance.site.list.form.lang, balance=balance, heads=view.heads(balance), titles=view.titles(balance),
        numeric=NUMERIC, looks=LOOKS, estimates=ESTIMATES, rows=view.rows(balance),
        headline=view.headline(balance), standing=view.standing(balance), summary=view.summary(balance),
        tone=view.tone(balance), cost_text=view.cost_text, scale=scale(balance), steps=steps(balance), notes=told(balance),
        overfull=overfull(balance) if balance.refused else [], picture=Markup(drawing), tiles=tiles(drawing), live=Markup(live), unit=f"{float(balance.site.unit):g}",
        date=Markup(f"kept {escape(balance.date)}") if balance.date else Markup(datetime.now().strftime("%Y-%m-%d %H:%M")),
    )
    return re.sub(r"(?m)^ +(?=<)", "", text) if live else text


def _environment(balance: Balance) -> Environment:
    """Templates whose numbers are written as the language of the list does."""
    lang, names = balance.site.list.form.lang, marked_names(balance.site.list)

    def said(value: Any) -> Any:
        return spoken(value, lang, names) if isinstance(value, str) and not isinstance(value, Markup) else value

    return Environment(loader=PackageLoader("wengeludo.write"), autoescape=select_autoescape(), trim_blocks=True, lstrip_blocks=True, finalize=said)
