# SPDX-License-Identifier: LicenseRef-Wengeludo
"""Commands over meters and charges: buy, layouts, bill."""

from __future__ import annotations

from fractions import Fraction
from pathlib import Path
from typing import Optional

import click

from wengeludo_balance import Verdict

from ..balance.kind import SheetKind
from ..explain import purchase
from ..explain.charges import bill as bill_of
from ..explain.charges import by_the_tool
from ..write import terminal
from ..write.view import headline
from .options import FAILED, LIST, UNIT, sheet_of, site_in


@click.command()
@LIST
@UNIT
def buy(list: Path, unit: Optional[Fraction]) -> int:
    """The cheapest meters that leave nothing unknown."""
    site = site_in(list, unit)
    bought = purchase.cheapest(site)
    if not bought.pipes:
        terminal.lines(["Nothing to buy: no stream is unknown."])
        return 0
    heads = ("buy a meter for", "what", "from", "to", "price")
    rows = [((p.label, p.what, site.place(p.source), site.place(p.target), f"{p.price:,}" if p.price else "not said"), "") for p in bought.pipes]
    terminal.table(heads, rows, ("price",))
    terminal.lines(purchase.account(bought))
    return 0


@click.command()
@LIST
@UNIT
def layouts(list: Path, unit: Optional[Fraction]) -> int:
    """How many layouts of k meters leave nothing unknown, for each k; for at most 12 streams."""
    rows = [((str(k), f"{count:,}"), "") for k, count in purchase.layouts(site_in(list, unit))]
    terminal.table(("meters", "layouts that leave nothing unknown"), rows, ("meters", "layouts that leave nothing unknown"))
    return 0


@click.command()
@LIST
@UNIT
@click.option("--failing", is_flag=True, help="Bill from a sheet that fails its test too.")
def bill(list: Path, unit: Optional[Fraction], failing: bool) -> int:
    """What each stream to the outside is charged for one hour, by the column `rate`."""
    drawn = sheet_of(list, unit)
    failed = drawn.verdict is Verdict.FAIL
    if failed and not failing:
        terminal.console(error=True).print(terminal.said(f"{list}: no bill: the sheet fails its test ({headline(drawn)}); --failing bills it all the same"), soft_wrap=True)
        return FAILED
    site, (charges, cents) = drawn.site, bill_of(drawn, list)
    rows = [((c.pipe.label, c.pipe.what, site.shown(c.flow), f"{c.rate:,}", f"{c.cents:,}"), "") for c in charges]
    rows.append((("", "bill", "", "", f"{cents:,}"), "bold"))
    terminal.table(("stream", "what", "kg", "1/10,000 cent per kg", "cents"), rows, ("kg", "1/10,000 cent per kg", "cents"))
    why = by_the_tool(drawn)
    terminal.lines([f"Flows: {drawn.kind.text}."] if drawn.kind is SheetKind.CHECKED else [])
    terminal.lines([f"Charges worked out by the tool, in exact fractions, by the engine's rule: {why}."] if why else [])
    terminal.lines([f"BILLED FROM A FAILING SHEET: {headline(drawn)}."] if failed else [])
    return FAILED if failed else 0
