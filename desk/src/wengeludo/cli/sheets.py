# SPDX-License-Identifier: LicenseRef-Wengeludo
"""Commands over one sheet: sheet, why, suspects."""

from __future__ import annotations

from fractions import Fraction
from pathlib import Path
from typing import Optional, Sequence

import click

from wengeludo_balance import Verdict

from ..explain import suspects
from ..explain.why import overfull, why
from ..write import outputs, terminal
from ..write.view import headline
from .options import FAILED, LIST, OFFICE, OUTPUT, REFUSED, UNIT, drawn_of, sheet_of


@click.command()
@LIST
@OUTPUT
@UNIT
@OFFICE
@click.option("--live", is_flag=True, help="Puts the engine into the .html page: it recomputes by itself, for readings that are tried and not kept.")
@click.option("--last", type=click.IntRange(0, 2**32 - 1), default=0, help="The office's last sheet number; `keep` counts by itself.")
def sheet(list: Path, outputs_: Sequence[Path], unit: Optional[Fraction], office: int, live: bool, last: int) -> int:
    """The sheet of LIST: flows, corrections, verdict, and what to do next."""
    paths = [outputs.checked(path, list) for path in outputs_]
    if live and not any(path.suffix.lower() == ".html" for path in paths):
        raise click.UsageError("--live is for a page: -o page.html would do")
    drawn = drawn_of(list, unit, office, last)
    terminal.show(drawn)
    outputs.write_all(drawn, paths, live)
    if drawn.verdict is None:
        return REFUSED
    return FAILED if drawn.verdict is Verdict.FAIL else 0


@click.command("why")
@LIST
@click.argument("stream", required=False)
@UNIT
def why_(list: Path, stream: Optional[str], unit: Optional[Fraction]) -> int:
    """Why STREAM of LIST has its number, or none; where there is no sheet, why there is none."""
    drawn = drawn_of(list, unit)
    if drawn.flowless:
        terminal.lines(overfull(drawn) if drawn.refused else [headline(drawn)])
        return REFUSED
    if stream is None:
        raise click.UsageError("a sheet can be drawn: name a stream")
    terminal.lines(why(drawn, drawn.site.list.find(stream)))
    return 0


@click.command("suspects")
@LIST
@UNIT
def suspects_(list: Path, unit: Optional[Fraction]) -> int:
    """The meters worth a visit: the cost without each, and what its pipe would then carry."""
    drawn = sheet_of(list, unit)
    site, listed = drawn.site, suspects.suspects(drawn)
    if not listed:
        terminal.lines(["No meter is checked by another, so none can be suspected."])
        return 0
    terminal.lines([f"The sheet costs {drawn.cost:,.1f}: {headline(drawn)}.", ""])
    likely = {s.index for s in suspects.likeliest(drawn, listed) if not s.why_not} if drawn.verdict is Verdict.FAIL else set()
    rows = []
    for s in listed:
        pipe = site.list.pipes[s.index]
        off = site.shown((pipe.reading or 0) - s.flow, "+")
        others = [other.index for other in listed if other.index in drawn.alike(s.index) and other is not s and not other.why_not]
        apart = f" or {suspects.titles(drawn, others)}: no balance tells them apart" if others else ""
        remark = s.why_not or (f"visit this one{apart}" if s.index in likely else "")
        cells = (pipe.label, pipe.what, f"{s.cost:,.1f}", s.verdict.name.lower(), site.shown(pipe.reading or 0), site.shown(s.flow), off, remark)
        rows.append((cells, "bold" if s.index in likely else ""))
    heads = ("stream", "what", "cost without it", "verdict then", "reads", "would carry", "off by", "")
    if terminal.narrow():
        heads = ("stream", "what", "cost then", "verdict", "reads", "would carry", "off by")
        rows = [((cells[0], terminal.above(cells[1], cells[-1]), *cells[2:-1]), style) for cells, style in rows]
    terminal.table(heads, rows, ("cost without it", "cost then", "reads", "would carry", "off by"), close=terminal.narrow())
    return 0
