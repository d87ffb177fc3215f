# SPDX-License-Identifier: LicenseRef-Wengeludo
"""Numbers in texts as a language writes them. Texts are made in English; German has a decimal comma, and a narrow blank between thousands,
which nobody takes for a decimal mark and which may be pasted back."""

from __future__ import annotations

import re
from typing import Iterable, List

from ..read.lists import PipeList

_FIGURE = re.compile(r"(?<![\w.,/-])(?:\d{1,3}(?:,\d{3})+|\d+)(?:\.\d+)?(?![\w]*[.,]\d|[:-]\d)")
_MARKED = re.compile(r"\d[.,]\d")
THIN = "\u202f"


def spoken(text: str, lang: str, names: Iterable[str] = ()) -> str:
    """A text with its numbers as a language writes them; names that have such marks in them stay as they are."""
    if lang != "de" or not _MARKED.search(text):
        return text
    kept = sorted((name for name in names if name in text), key=len, reverse=True)
    parts: List[str] = re.split("(" + "|".join(map(re.escape, kept)) + ")", text) if kept else [text]
    return "".join(part if k % 2 else _FIGURE.sub(lambda found: found[0].replace(",", THIN).replace(".", ","), part) for k, part in enumerate(parts))


def marked_names(pipes: PipeList) -> List[str]:
    """The names of a list that have marks between digits, as a number has."""
    texts = [text for pipe in pipes.pipes for text in (pipe.label, pipe.what, pipe.silent, *pipe.extra)]
    return [text for text in {pipes.name, *pipes.places, *pipes.extras, *texts} if _MARKED.search(text)]
