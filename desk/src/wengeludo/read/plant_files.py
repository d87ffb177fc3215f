# SPDX-License-Identifier: LicenseRef-Wengeludo
"""Plant files and transmitter files read as lists, and place numbers read from a text."""

from __future__ import annotations

import re
from dataclasses import replace
from fractions import Fraction
from pathlib import Path
from typing import List, Optional, Tuple

import wengeludo_balance as engine

from .faults import Stopped, quoted
from .grids import read_bytes
from .lists import OUTSIDE, Pipe, PipeList
from .numbers import Marks, accuracy, deviation_of
from .texts import legible


def unpacked(path: Path, unit: Fraction = Fraction(1)) -> Tuple[PipeList, engine.Plant]:
    """The list and the plant of a plant file or a transmitter file whose flows are in this unit; Stopped where it is neither."""
    file = read_bytes(path)
    name = legible(path.stem) or "plant"
    try:
        plant = engine.read_plant(file)
        return _list(name, plant, unit), plant
    except engine.Refusal as refusal:
        first = refusal
    try:
        plant = engine.read_plant(engine.plant_from_transmitter(file))
    except engine.Refusal as refusal:
        sent = file[2:3] in (b"\x21", b"\x22", b"\x23")
        raise Stopped(f"{path}: {refused(refusal if sent else first, file, sent)}") from None
    return _list(name, plant, unit), plant


def refused(refusal: engine.Refusal, file: bytes, sent: bool = False) -> str:
    """Why a plant file, or a transmitter file, is refused, and at which byte of which stream."""
    fault = engine.fault_at(file, sent)
    return f"{refusal.text} ({refusal.number})" + (f" at {fault}" if fault and fault.number == refusal.number else "")


def beside(path: Path) -> Path:
    """The text beside a plant file that tells the unit of its flows."""
    return path.with_suffix(path.suffix + ".unit")


def unit_beside(path: Path) -> Optional[Fraction]:
    """The unit that the text beside a plant file tells; none if there is no such text, Stopped if it tells none."""
    told = beside(path)
    if not told.is_file():
        return None
    words = read_bytes(told).decode("utf-8-sig", errors="replace").split()
    try:
        unit = Fraction(words[0])
    except (ValueError, ZeroDivisionError, IndexError):
        unit = Fraction(0)
    if unit <= 0:
        raise Stopped(f"{told}: {quoted(' '.join(words))} stands there; a number of kg/h would do")
    return unit


def _list(name: str, plant: engine.Plant, unit: Fraction) -> PipeList:
    places = (OUTSIDE, *(f"unit {k}" for k in range(1, plant.units + 1)))
    return PipeList(name, tuple(_pipe(k, s, unit) for k, s in enumerate(plant.streams, 1)), places)


def _pipe(k: int, stream: engine.Stream, unit: Fraction) -> Pipe:
    pipe = Pipe(k + 1, str(k), "", stream.source, stream.target)
    if stream.weight is None:
        return pipe
    stated = f"w{stream.weight}" if unit == 1 else f"±{deviation_of(stream.weight, unit):.7g}"
    known = accuracy(stated, stream.reading, Marks(".", True))
    reading, low, high = (None if end is None else float(end * unit) for end in (stream.reading, stream.low, stream.high))
    return replace(pipe, reading=reading, accuracy=known, stated=stated, low=low, high=high)


def numbers_in(path: Path) -> List[int]:
    """Place numbers in a text, one after the other, the outside's first; Stopped where one is none."""
    words = read_bytes(path).decode("utf-8-sig", errors="replace").replace(",", " ").replace(";", " ").split()
    wrong = next((word for word in words if not re.fullmatch(r"[+-]?[0-9]{1,40}", word)), None)
    if wrong is not None:
        raise Stopped(f"{path}: {quoted(wrong)} stands there; whole numbers would do, one for each place, the outside first")
    return [int(word) for word in words]
