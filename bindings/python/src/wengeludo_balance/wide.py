# SPDX-License-Identifier: LicenseRef-Wengeludo
"""Flows of plants with wide weights: the proved check, and a solver whose answers all go through it."""

from __future__ import annotations

from array import array
from dataclasses import dataclass
from typing import Any, Sequence, Tuple

from ._slices import ffi, fitting, lent, lib, out, raise_for
from .plant import Stream

WIDE_WEIGHT = int(lib.WENGELUDO_MAX_WIDE_WEIGHT)
WIDE_READING = int(lib.WENGELUDO_MAX_WIDE_READING)
WIDE_FLOW = int(lib.WENGELUDO_MAX_WIDE_FLOW)
WIDE_NUMBER = int(lib.WENGELUDO_MAX_WIDE_NUMBER)
_LEAST, _MOST = -(2**63), 2**63 - 1
_PLACES_OF_C = 256


@dataclass(frozen=True)
class WidePlant:
    """Units 1 to `units`, and the streams in order: weights from 1 to 2^40, readings within 2^40, any range. It has no file."""

    units: int
    streams: Tuple[Stream, ...] = ()


@dataclass(frozen=True)
class WideFlow:
    """A flow for each stream and a number for each place, the outside first, that the proved check has passed.

    Metered flows are the only ones of least cost, or of several the one that is least on the first metered stream, then on the
    second, and so on (the last is the solver's word). What unmetered streams carry is one of the flows that balance.
    """

    flows: Tuple[int, ...]
    numbers: Tuple[int, ...]


@dataclass(frozen=True)
class WideRows:
    """Of each row its answer (0: passed by the check), and row after row the flows, `streams` each, and numbers, `places` each."""

    answers: bytes
    flows: "array[int]"
    numbers: "array[int]"


class NotCertified(Exception):
    """The solver, which is not proved, found no flow that passes the proved check. There may be one."""

    def __init__(self) -> None:
        super().__init__("not certified: no flow was found that passes the check")


def _columns(streams: Sequence[Stream]) -> Tuple[Any, ...]:
    """The eight slices of a plant's parts; a number that does not fit its field is handed over as one that is refused."""
    ranged = [s.ranged for s in streams]
    ends = [(s.low, s.high) if r else (0, 0) for s, r in zip(streams, ranged)]
    ends = [(low, high) if _LEAST <= low and high <= _MOST else (1, 0) for low, high in ends]
    return (
        fitting("uint8_t[]", (s.source for s in streams), 0, 255, 255),
        fitting("uint8_t[]", (s.target for s in streams), 0, 255, 255),
        ffi.new("uint8_t[]", [s.metered for s in streams]),
        fitting("uint64_t[]", (s.weight or 0 for s in streams), 0, 2**64 - 1, 0),
        fitting("int64_t[]", (s.reading if s.metered else 0 for s in streams), _LEAST, _MOST, _MOST),
        ffi.new("uint8_t[]", ranged),
        fitting("int64_t[]", (low for low, _ in ends), _LEAST, _MOST, _MOST),
        fitting("int64_t[]", (high for _, high in ends), _LEAST, _MOST, _LEAST),
    )


def _units(plant: WidePlant) -> int:
    return plant.units if 0 <= plant.units <= 255 else 0


def check_flow(plant: WidePlant, flows: Sequence[int], numbers: Sequence[int]) -> None:
    """Checks a flow found elsewhere, with one number for each place. Refused: 1, 5 to 10, 18, 26.

    What passes is balanced, in range and of least cost among all whole flows; that is proved. More flows than streams, or numbers than
    places, are 1, as fewer are.
    """
    if len(flows) != len(plant.streams) or len(numbers) != _units(plant) + 1:
        raise_for(1)
    columns = (
        *_columns(plant.streams),
        fitting("int64_t[]", flows, _LEAST, _MOST, _MOST),
        fitting("int64_t[]", numbers, _LEAST, _MOST, _MOST),
    )
    slices = [part for column in columns for part in lent(column)]
    raise_for(lib.wengeludo_check_flow(_units(plant), len(plant.streams), *slices))


def _lent_plant(units: int, columns: Sequence[Any]) -> Any:
    """The plant as the solver in C takes it; the columns must outlive it."""
    return ffi.new("wide_plant *", [units, len(columns[0]), *columns])


def wide_solve(plant: WidePlant) -> WideFlow:
    """A flow of least cost with numbers that show it, passed by `check_flow`. Refused: 5 to 10, 18, 19 (with the marked places).

    The solver is not proved; `NotCertified` where nothing that it finds passes. The marked places of a 19 were counted, in C, to take
    in more than they can let out.
    """
    columns = _columns(plant.streams)
    units = _units(plant)
    flow, number, marked = out("int64_t", max(1, len(plant.streams))), out("int64_t", _PLACES_OF_C), ffi.new("uint64_t *")
    answer = lib.wide_checked(_lent_plant(units, columns), flow, number, marked)
    if answer == lib.WIDE_NOT_CERTIFIED:
        raise NotCertified()
    raise_for(answer, marked[0])
    return WideFlow(tuple(flow[0 : len(plant.streams)]), tuple(number[0 : units + 1]))


def _words(element: str, values: Any) -> Any:
    """A buffer of whole numbers of 8 bytes, as the solver in C takes it; ValueError for one of other elements."""
    view = memoryview(values)
    if view.itemsize != 8 or view.format not in ("q", "Q", "l", "L", "n", "N") or not view.c_contiguous:
        there = f"these are of kind {view.format}{'' if view.c_contiguous else ', with gaps'}"
        raise ValueError(f"weights and readings are whole numbers of 8 bytes, row after row without gaps; {there}")
    return ffi.from_buffer(f"{element}[]", values)


def wide_rows(plant: WidePlant, weights: Any, readings: Any) -> WideRows:
    """`wide_solve` of many rows of one plant, whose own weights and readings are not looked at.

    `weights` (unsigned) and `readings` are buffers of 8-byte whole numbers, row after row, as `array("Q")` and `array("q")`, or numpy
    has them. A weight of 0 makes the stream unmetered in that row. Flows and numbers of a row that is not answered 0 are 0.
    """
    count, units = len(plant.streams), _units(plant)
    weight, reading = _words("uint64_t", weights), _words("int64_t", readings)
    rows = len(weight) // count if count else 0
    if len(reading) != len(weight) or rows * count != len(weight):
        raise ValueError("weights and readings are as many, a whole number of rows")
    answers, flows, numbers = bytearray(rows), array("q", bytes(8 * rows * count)), array("q", bytes(8 * rows * (units + 1)))
    columns = _columns(plant.streams)
    lib.wide_rows(
        _lent_plant(units, columns), rows, weight, reading,
        ffi.from_buffer("int64_t[]", flows), ffi.from_buffer("int64_t[]", numbers), ffi.from_buffer("uint8_t[]", answers),
    )  # fmt: skip
    return WideRows(bytes(answers), flows, numbers)


def overfull(plant: WidePlant, places: Sequence[int]) -> bool:
    """Whether these places must take in more than they can let out: then no balanced flow lies within all ranges."""
    within, total = set(places), 0
    for s in plant.streams:
        if (s.source in within) == (s.target in within):
            continue
        if not s.ranged:
            return False
        total += s.low if s.target in within else -s.high
    return total > 0
