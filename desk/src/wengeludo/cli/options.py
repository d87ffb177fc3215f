# SPDX-License-Identifier: LicenseRef-Wengeludo
"""What the commands share: statuses, arguments, options, and the sheet of a list."""

from __future__ import annotations

from fractions import Fraction
from pathlib import Path
from typing import Any, Callable, Optional, TypeVar

import click

import wengeludo_balance as engine

from ..balance.sheet import Balance, balance
from ..balance.site import Site
from ..balance.site import site_in as plain_site
from ..balance.unit import unit_from
from ..explain.why import overfull
from ..read.faults import Stopped
from ..read.lists import Asked
from ..read.numbers import COMMA, POINT, amount
from ..write import terminal

F = TypeVar("F", bound=Callable[..., Any])
REFUSED, WRONG_USE, FAILED = 1, 2, 3
FILE = click.Path(path_type=Path)


class FloorType(click.ParamType):
    """A floor of accuracies."""

    name = "flow"

    def convert(self, value: object, param: Optional[click.Parameter], ctx: Optional[click.Context]) -> float:
        try:
            floor = amount(str(value), POINT if "." in str(value) else COMMA)
        except ValueError:
            floor = 0.0
        if not 1e-6 <= floor <= 1e12:
            self.fail(f"{value} is no floor: a number of kg/h above 0, or with its unit as 0.05 t/h, would do", param, ctx)
        return floor


def _said(context: click.Context, option: click.Parameter, value: Any) -> None:
    """Keeps what a user says of a list, for `site_in` below."""
    context.meta[f"wengeludo.{option.name}"] = value


def SAID(command: F) -> F:
    """What a user may say of a list, or of every list of a folder."""
    words = {"point": ".", ".": ".", "comma": ",", ",": ","}
    for option in (
        click.option("--lang", type=click.Choice(["en", "de"]), expose_value=False, callback=_said, help="Numbers and headings in English or German; by default as the list has them."),
        click.option("--floor", type=FloorType(), expose_value=False, callback=_said, help="No accuracy that is a share of a reading is below this one."),
        click.option("--decimal", type=click.Choice(list(words)), metavar="point|comma", expose_value=False, callback=lambda c, o, v: _said(c, o, words.get(v)),
                     help="The decimal mark of the list, if its numbers do not show it."),
    ):
        command = option(command)
    return command


def LIST(command: F) -> F:
    """The list that a command reads, and what a user may say of it."""
    return click.argument("list", type=FILE, metavar="LIST")(SAID(command))


def said() -> Asked:
    """What the user says of the list."""
    kept = click.get_current_context().meta
    return Asked(*(kept.get(f"wengeludo.{name}") for name in ("decimal", "floor", "lang")))


def site_in(path: Path, unit: Optional[Fraction]) -> Site:
    """The site of a list or a plant file, read as the user says."""
    site = plain_site(path, unit, said())
    terminal.speak(site.list)
    return site


class UnitType(click.ParamType):
    """A unit in kg/h."""

    name = "kg/h"

    def convert(self, value: object, param: Optional[click.Parameter], ctx: Optional[click.Context]) -> Fraction:
        try:
            return value if isinstance(value, Fraction) else unit_from(str(value))
        except (ValueError, ZeroDivisionError):
            self.fail(f"{value} is no unit: a number of kg/h from 0.0001 to 1,000,000,000 would do", param, ctx)


UNIT = click.option("--unit", type=UnitType(), help="The unit of the flows in kg/h; by default the best one for the list.")
OFFICE = click.option("--office", type=click.IntRange(0, 7), default=0, show_default=True, help="The office that draws the sheet.")
WRITTEN = "A file to write: .html, .svg, .xlsx, .csv, .json; .bin, .sheet, .numbers for `check`. May be given more than once."
OUTPUT = click.option("-o", "--output", "outputs_", type=FILE, multiple=True, help=WRITTEN)


def drawn_of(path: Path, unit: Optional[Fraction], office: int = 0, last: int = 0) -> Balance:
    """The sheet of a list, or its marked places."""
    lasts = tuple(last if k == office else 0 for k in range(engine.OFFICES))
    return balance(site_in(path, unit), office, lasts)


def sheet_of(path: Path, unit: Optional[Fraction]) -> Balance:
    """A sheet with flows; Stopped with the reason where there is none."""
    drawn = drawn_of(path, unit)
    if drawn.flowless:
        raise Stopped("\n".join(overfull(drawn)) if drawn.refused else f"not judged: {drawn.reason}")
    return drawn
