# SPDX-License-Identifier: LicenseRef-Wengeludo
"""Rows: one plant's structure and arrays of readings in, arrays of sheets out. The one part of this package that needs numpy."""

from __future__ import annotations

from concurrent.futures import ThreadPoolExecutor
from dataclasses import dataclass, fields
from typing import Any, Dict, List, Optional, Sequence, Tuple

from ._slices import ffi, fitting, lib
from .plant import Plant
from .sheet import PLACES

MEASURED, HELD, FAULT = lib.WENGELUDO_MEASURED, lib.WENGELUDO_HELD, lib.WENGELUDO_FAULT
ADJUSTED, AS_READ, GIVEN, WITHHELD = lib.WENGELUDO_ADJUSTED, lib.WENGELUDO_AS_READ, lib.WENGELUDO_GIVEN, lib.WENGELUDO_WITHHELD
BLOCK = 4_096  # rows that a thread takes at a time

# What a call writes: the array, its element in C and in numpy, and what a row has of it.
_SHEET = (
    ("refusal", "uint8_t", ()), ("flows", "int64_t", ("streams",)), ("kinds", "uint8_t", ("streams",)), ("cost", "uint64_t", ()),
    ("degrees", "uint8_t", ()), ("verdict", "uint8_t", ()),
)
_SUSPECTS = (
    ("dropped", "uint8_t", ("most",)), ("dropped_flow", "int64_t", ("most",)), ("dropped_cost", "uint64_t", ("most",)), ("cleared", "uint8_t", ()),
)
_CHARGES = (("cents", "int64_t", ("charged",)), ("bill", "int64_t", ()), ("unbilled", "uint8_t", ()))
_CHECK = (("numbers", "int64_t", ("places",)), ("checked", "uint8_t", ()))


@dataclass(frozen=True)
class Rows:
    """The sheets of rows, as numpy arrays with a row for each.

    refusal  0, or the number with which the row was refused; all else of such a row is 0
    flows, kinds  for each stream; `kinds` are ADJUSTED, AS_READ, GIVEN, WITHHELD, and a flow that is withheld is 0
    cost (thousandths), degrees, verdict  as on a sheet
    dropped, dropped_flow, dropped_cost, cleared  with suspects: the meters taken out one after the other (counted from 1, 0 past the
        last), what the pipe of each carries on the sheet without it and those before it, what that sheet costs, the verdict at the end
    cents, bill, unbilled  with rates: the charge of each stream to the outside, the bill, and the number of a refusal of the charges
    numbers, checked  with the check: 33 numbers of places, and what the check of sheet and numbers says, 0 where it passes
    """

    refusal: Any
    flows: Any
    kinds: Any
    cost: Any
    degrees: Any
    verdict: Any
    dropped: Any = None
    dropped_flow: Any = None
    dropped_cost: Any = None
    cleared: Any = None
    cents: Any = None
    bill: Any = None
    unbilled: Any = None
    numbers: Any = None
    checked: Any = None

    def arrays(self) -> Dict[str, Any]:
        """The arrays that were asked for, by name."""
        return {field.name: getattr(self, field.name) for field in fields(self) if getattr(self, field.name) is not None}


def deviation_for(weights: Any) -> Any:
    """Deviations of which the translator makes exactly these weights, 1 to 1,000: in the middle of what rounds down to each."""
    import numpy as np

    return np.sqrt(1_000 / (np.asarray(weights, float) + 0.5))


class _Lent:
    """Arrays handed to C: contiguous, of the right kind, and kept while the call runs."""

    def __init__(self) -> None:
        self.kept: List[Any] = []

    def array(self, values: Any, element: str, shape: Optional[Tuple[int, ...]] = None) -> Any:
        """A pointer to these values; ValueError if they have another shape."""
        import numpy as np

        kind = {"float": np.float32, "double": np.float64}.get(element) or np.dtype(element[:-2])
        array = np.ascontiguousarray(values, kind)
        if shape is not None and array.shape != shape:
            raise ValueError(f"an array has the shape {array.shape} where {shape} is needed")
        self.kept.append(array)
        return ffi.cast(f"{element} *", array.ctypes.data)

    def own(self, array: Any) -> Any:
        """A pointer to an array of C."""
        self.kept.append(array)
        return array


def _structure(plant: Plant, rates: Optional[Sequence[int]], lent: _Lent) -> Any:
    """What the rows have in common, for C; a number that does not fit its field becomes one that the call refuses."""
    made = ffi.new("rows_plant *")
    streams = plant.streams
    made.units, made.streams = plant.units if 0 <= plant.units <= 255 else 0, len(streams)
    setattr(made, "from", lent.own(fitting("uint8_t[]", (s.source for s in streams), 0, 255, 255)))
    made.to = lent.own(fitting("uint8_t[]", (s.target for s in streams), 0, 255, 255))
    if any(s.ranged for s in streams):
        made.ranged = lent.own(ffi.new("uint8_t[]", [s.ranged for s in streams]))
        made.low = lent.own(fitting("int32_t[]", (s.low or 0 for s in streams), -(2**31), 2**31 - 1, -(2**31)))
        made.high = lent.own(fitting("int32_t[]", (s.high or 0 for s in streams), -(2**31), 2**31 - 1, 2**31 - 1))
    if rates is not None:
        made.rates, made.charged = lent.own(fitting("uint16_t[]", rates, 0, 65_535, 65_535)), len(rates)
    return made


def _outputs(wanted: Sequence[Tuple[str, str, Tuple[str, ...]]], rows: int, sizes: Dict[str, int], lent: _Lent) -> Tuple[Any, Rows]:
    """Memory for the sheets, as C takes it and as numpy shows it."""
    import numpy as np

    made, arrays = ffi.new("rows_out *"), {}
    made.most = sizes["most"]
    for name, element, each in wanted:
        arrays[name] = np.zeros((rows, *(sizes[size] for size in each)), element[:-2])
        setattr(made, name, lent.array(arrays[name], element))
    return made, Rows(**arrays)


def rows(plant: Plant, readings: Any, deviations: Any, status: Any, *, suspects: int = 0, rates: Optional[Sequence[int]] = None,
         check: bool = False, threads: int = 1) -> Rows:
    """The sheet of each row, by the archive's calls: translator, plant writer where streams have ranges, sheet call, sheet reader.

    plant      its units, ends and ranges; weights and readings in it play no part
    readings   rows x streams, in units of the plant; a fault's is not looked at
    deviations one for each stream, or rows x streams, in the same unit (`deviation_for` gives those of weights)
    status     rows x streams: MEASURED, HELD, or FAULT, also for a stream without a meter
    suspects   how many meters are at most taken out of a row that fails, one after the other, until it does not
    rates      one for each stream to the outside: the hour's charges
    check      place numbers, and the check of each sheet with them
    threads    they take blocks of 4,096 rows; the interpreter's lock is not held

    ValueError if shapes do not fit. A row that a call refuses has that number in `refusal`, and no row ends the others.
    """
    import numpy as np

    lent, streams = _Lent(), len(plant.streams)
    shape = np.shape(readings)
    if len(shape) != 2 or shape[1] != streams:
        raise ValueError(f"readings have the shape {shape} where rows of {streams} streams are needed")
    wide = np.ndim(deviations) == 2
    given = ffi.new("rows_in *")
    given.values, given.status = lent.array(readings, "float", shape), lent.array(status, "uint8_t", shape)
    given.deviations, given.step = lent.array(deviations, "double", shape if wide else (streams,)), streams if wide else 0
    sizes = {"streams": streams, "most": max(0, suspects), "charged": len(rates or ()), "places": PLACES}
    wanted = _SHEET + (_SUSPECTS if sizes["most"] else ()) + (_CHARGES if rates is not None else ()) + (_CHECK if check else ())
    made, sheets = _outputs(wanted, shape[0], sizes, lent)
    structure = _structure(plant, rates, lent)
    _over_blocks(shape[0], threads, lambda first, last: lib.rows_balance(structure, given, made, first, last))
    return sheets


def _over_blocks(count: int, threads: int, work: Any) -> None:
    """Blocks of rows one after the other, or each to a thread that is free."""
    blocks = [(at, min(count, at + BLOCK)) for at in range(0, count, BLOCK)]
    if threads <= 1 or len(blocks) <= 1:
        for block in blocks:
            work(*block)
        return
    with ThreadPoolExecutor(threads) as pool:
        list(pool.map(lambda block: work(*block), blocks))
