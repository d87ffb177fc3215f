# SPDX-License-Identifier: LicenseRef-Wengeludo
"""How pages show numbers, verdicts and times."""

from __future__ import annotations

import re
from dataclasses import replace

from ..balance.sheet import Balance

OWN = "the engine's own sheet"
SIGNS = {"pass": ("✓", "good"), "close": ("≈", "poor"), "fail": ("✗", "bad"), "none": ("–", "poor"), "not judged": ("?", "poor")}


def thin(text: str) -> str:
    """Thousands with a narrow blank, which nobody takes for a decimal mark."""
    return re.sub(r"(?<=\d),(?=\d{3}(?!\d))", "\u202f", text)


def thin_texts(svg: str) -> str:
    """A drawing with its texts' thousands so; what is no text, as the places of a line, stays."""
    return re.sub(r">[^<>]*\d,\d[^<>]*<", lambda text: thin(text[0]), svg)


def day(at: str) -> str:
    """A time in UTC, to the minute."""
    return at[:16].replace("T", " ")


def named(balance: Balance, name: str) -> Balance:
    """The same sheet under another name of its site."""
    return replace(balance, site=replace(balance.site, list=replace(balance.site.list, name=name)))


def kind_line(drawn: Balance) -> str:
    """What kind of sheet it is: the first line of a workbench."""
    if drawn.refused:
        return ""
    told = drawn.kind.text or OWN
    return f"{told}: {drawn.reason}" if drawn.reason else told
