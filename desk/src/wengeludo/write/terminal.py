# SPDX-License-Identifier: LicenseRef-Wengeludo
"""What the commands print."""

from __future__ import annotations

import os
import sys
from typing import Any, Dict, Iterable, List, Sequence, Tuple, Union

from rich.box import SIMPLE_HEAD
from rich.console import Console
from rich.table import Table
from rich.text import Text

from wengeludo_balance import Verdict

from ..balance.sheet import Balance
from ..explain.steps import steps
from ..read.lists import PipeList
from . import view
from .columns import NUMERIC, WIDE
from .language import marked_names, spoken

STYLES = {"good": "bold green", "poor": "bold yellow", "bad": "bold red"}
MARKS = {"worst": "bold red", "notable": "yellow", "": ""}
WIDTH = 140  # of a file or a pipe
NARROW = 118  # columns below which a sheet is shown with names above one another
_voice: Dict[str, Any] = {"lang": "en", "names": ()}


def speak(pipes: PipeList) -> None:
    """From now on numbers are printed as the language of this list writes them."""
    _voice.update(lang=pipes.form.lang, names=marked_names(pipes))


def said(text: str) -> Text:
    """A text as it is printed."""
    return Text(spoken(text, _voice["lang"], _voice["names"]))


def console(error: bool = False) -> Console:
    """Where to print: as wide as the terminal, or as a file can bear."""
    stream = sys.stderr if error else sys.stdout
    width = None if stream.isatty() else int(os.environ.get("COLUMNS") or WIDTH)
    return Console(file=stream, width=width, highlight=False, markup=False, emoji=False, soft_wrap=False)


def lines(texts: Iterable[str]) -> None:
    """Lines as they are."""
    out = console()
    for text in texts:
        out.print(said(text), soft_wrap=not out.is_terminal)


def narrow() -> bool:
    """Whether names have to stand above one another."""
    return console().width < NARROW


def above(name: str, below: str) -> Text:
    """Two texts, one above the other."""
    text = Text(f"{name}\n" if name and below else name)
    return text.append(spoken(below, _voice["lang"], _voice["names"]), style="dim")


def table(heads: Sequence[str], rows: Iterable[Tuple[Sequence[Union[str, Text]], str]], numeric: Iterable[str] = (), close: bool = False) -> None:
    """A table; each row with its style. Close: with little between the columns."""
    right = frozenset(numeric)
    shown = Table(box=SIMPLE_HEAD, show_edge=False, pad_edge=False, header_style="bold", padding=(0, 1, 0, 0) if close else (0, 1))
    for head in heads:
        shown.add_column(Text(head), justify="right" if head in right else "left", no_wrap=head in right)
    for cells, style in rows:
        shown.add_row(*(cell if isinstance(cell, Text) else said(cell) for cell in cells), style=style)
    console().print(shown)


def show(balance: Balance) -> None:
    """A sheet: verdict, table, what to do next."""
    out = console()
    speak(balance.site.list)
    first = said(view.first_line(balance))
    first.stylize(STYLES[view.tone(balance)])
    out.print(Text(balance.site.list.name, style="bold"), first, sep="  ")
    out.print(said(view.summary(balance)))
    out.print()
    _streams(balance, out.width)
    if not balance.flowless:
        out.print(Text(view.whose(balance), style="dim"))
    out.print()
    bullets([*steps(balance), *hints(balance)])


def hints(balance: Balance) -> List[str]:
    """The commands that tell more of this sheet."""
    if balance.verdict is Verdict.FAIL:
        return ["More: `wengeludo suspects` lists all meters, `wengeludo why LIST STREAM` shows what checks one."]
    return []


def _streams(balance: Balance, width: int) -> None:
    """The table of streams; on a narrow terminal names stand above one another, and what can be worked out is left out."""
    named = dict(zip(view.heads(balance), view.titles(balance)))
    if width >= NARROW or balance.flowless and width >= 90:
        table(list(named.values()), ((row.signed, MARKS[row.mark]) for row in view.rows(balance)), [named[head] for head in named if head in NUMERIC])
        return
    kept = [head for head in named if head in NUMERIC and head not in WIDE] + (["how known"] if "how known" in named else [])
    rows = []
    for row in view.rows(balance):
        cells = dict(zip(named, row.signed))
        cells["how known"] = cells.get("how known", "").split(",")[0]
        rows.append(((cells["stream"], above(cells["what"], f"{cells['from']} → {cells['to']}"), *(cells[head] for head in kept)), MARKS[row.mark]))
    table((named["stream"], named["what"], *(named[head] for head in kept)), rows, [named[head] for head in kept if head in NUMERIC], close=True)
    console().print(Text(f"From {NARROW} columns on: corrections and columns of the list too.", style="dim"))


def bullets(texts: List[str]) -> None:
    """Lines with a mark before each and a hanging indent."""
    grid = Table.grid(padding=(0, 1))
    for text in texts:
        grid.add_row(Text("→"), said(text))
    console().print(grid)
