# SPDX-License-Identifier: LicenseRef-Wengeludo
"""Commands over files: pack, unpack."""

from __future__ import annotations

from fractions import Fraction
from pathlib import Path
from typing import Optional

import click

from ..read import plant_files
from ..read.faults import Stopped
from ..read.lists import MOST_UNITS
from ..write import outputs, packing, terminal
from .options import FILE, LIST, UNIT, UnitType, site_in


@click.command()
@LIST
@click.argument("plant", type=FILE)
@click.option("--transmitter", is_flag=True, help="Write a transmitter file, with readings and deviations as floats.")
@click.option("--units", type=click.IntRange(1, MOST_UNITS), help="How many units the plant has, where the last have no stream.")
@UNIT
def pack(list: Path, plant: Path, transmitter: bool, units: Optional[int], unit: Optional[Fraction]) -> int:
    """Writes the PLANT file of LIST."""
    site = site_in(list, unit)
    lost = packing.lost(site)
    site = packing.with_units(site, units) if units else site
    data = packing.transmitter(site) if transmitter else site.file
    outputs.write(outputs.other(plant, list), data)
    _tell_unit(outputs.other(plant_files.beside(plant), list), site.unit)
    places = ", ".join(f"{k} {name}" for k, name in enumerate(site.list.places))
    terminal.lines([f"{plant}: {len(data)} bytes, flows in units of {float(site.unit):g} kg/h; places: {places}", *lost])
    return 0


def _tell_unit(path: Path, unit: Fraction) -> None:
    """Writes the unit beside a plant file, which has no room for it; in kg/h none is written, and one that is there goes."""
    if unit != 1:
        outputs.write(path, outputs.unit_text(unit))
    elif path.is_file():
        path.unlink()


@click.command()
@click.argument("plant", type=FILE)
@click.argument("list", type=FILE, metavar="LIST")
@click.option("--unit", type=UnitType(), help="The unit of the plant file's flows in kg/h; by default the one that `pack` told beside it, else 1.")
def unpack(plant: Path, list: Path, unit: Optional[Fraction]) -> int:
    """Writes the LIST (CSV or XLSX) of a PLANT file or a transmitter file."""
    unit = unit or plant_files.unit_beside(plant) or Fraction(1)
    pipes, _ = plant_files.unpacked(plant, unit)
    if not pipes.pipes:
        raise Stopped(f"{plant}: the plant has no stream, so there is nothing to list")
    outputs.write(outputs.other(list, plant), packing.written(pipes, list))
    units, idle = len(pipes.places) - 1, packing.idle(pipes)
    terminal.lines([f"{list}: {len(pipes.pipes)} streams, {units - len(idle)} units, its flows taken as units of {float(unit):g} kg/h"])
    if idle:
        terminal.lines([f"Left out, as no stream runs from or to them: {', '.join(idle)}. `pack --units {units}` writes them again."])
    return 0
