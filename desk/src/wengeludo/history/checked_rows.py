# SPDX-License-Identifier: LicenseRef-Wengeludo
"""Rows by the rule for lists of any span: whole flows of least cost by a solver that is not proved, each row passed by the proved call
`check_flow`. Cost and verdict are of the list's own deviations: in floats where these decide, in exact fractions near the limit.

One unit and one factor for the run, by the rule of a single list (balance/wide.py).
"""

from __future__ import annotations

import threading
from concurrent.futures import ThreadPoolExecutor
from dataclasses import dataclass
from fractions import Fraction
from typing import Any, Dict, List, Optional, Sequence, Tuple

import wengeludo_balance as engine
from wengeludo_balance import ADJUSTED, FAULT, HELD, MEASURED, WITHHELD, Verdict

from ..balance import wide
from ..balance.checked import GUARD, OPEN, REACH, Checked
from ..balance.exact import Exact, Exacts
from ..balance.limits import CRITICAL

NOT_JUDGED = 26  # of rows: no flow passed the check, or it may be over a tenth of a deviation from the list's own
QUARTER = 4  # a held cell counts with a quarter of its weight
BLOCK = 4_096
FEW = 256  # rows that fail whose meters are taken out at a time
SURE = 1e-7  # of the terms of a cost: what floats may be off by
MOST_COST = 1.8e16  # of a row: its thousandths are kept in 64 bits
LIMITS = (0.0, *(value / 1000 for value in CRITICAL))


@dataclass(frozen=True)
class Shape:
    """A plant of any span in whole numbers: ends and ranges, the unit in kg/h, the factor of its weights, and the list's exact variances."""

    units: int
    listed: Tuple[Exact, ...]
    unit: Fraction
    factor: Fraction

    @property
    def plant(self) -> engine.WidePlant:
        """Ends and ranges for the solver; weights and readings come with the rows."""
        return engine.WidePlant(self.units, tuple(self._stream(s) for s in self.listed))

    def _stream(self, s: Exact) -> engine.Stream:
        if s.variance is None or (s.low is None and s.high is None):
            return engine.Stream(s.source, s.target, 1 if s.variance is not None else None)
        low, high = self.end(s.low, -1), self.end(s.high, 1)
        return engine.Stream(s.source, s.target, 1, 0, low, high)

    def end(self, end: Optional[Fraction], side: int) -> int:
        """The end of a range in units, inside that of the list; one past the reach is no end."""
        if end is None or end * side > REACH * self.unit:
            return side * OPEN
        return -(-end // self.unit) if side < 0 else end // self.unit

    @property
    def weights(self) -> List[int]:
        """The weight of each meter; 0 without one."""
        made = self.factor * self.unit * self.unit
        return [0 if s.variance is None else max(1, min(engine.WIDE_WEIGHT, round(made / s.variance))) for s in self.listed]

    @property
    def variances(self) -> Any:
        """Of each stream, in units squared, as floats; 1 without a meter."""
        import numpy as np

        return np.array([1.0 if s.variance is None else float(s.variance / self.unit**2) for s in self.listed])

    def smaller(self) -> "Shape":
        """The same with lesser weights, if the numbers of the places were too large."""
        return Shape(self.units, self.listed, self.unit, self.factor * wide.TOPS[1] / wide.TOPS[0])


def shape_of(units: int, listed: Sequence[Exact], typed: Sequence[Fraction], reach: Fraction) -> Optional[Shape]:
    """The shape of a run: `typed` are the finest steps of its readings, `reach` its greatest; none if no unit holds that."""
    counted = [s.variance for s in listed if s.variance is not None]
    ends = [end for s in listed for end in (s.low, s.high) if end is not None]
    smallest = min(counted, default=Fraction(1))
    fits = [unit for unit in wide.UNITS if 16 * reach <= 15 * REACH * unit]
    if not fits:
        return None
    fine = [unit for unit in fits if (unit * wide.PARTS) ** 2 <= smallest]
    whole = [unit for unit in fine if (unit * wide.FINEST) ** 2 >= smallest and all((n / unit).denominator == 1 for n in [*typed, *ends])]
    unit = whole[-1] if whole else fine[-1] if fine else fits[0]
    return Shape(units, tuple(listed), unit, wide.TOPS[0] * smallest / (unit * unit))


def rows(shape: Shape, readings: Any, status: Any, suspects: int = 0, check: bool = False, threads: int = 1) -> engine.Rows:
    """The sheets of rows, as `wengeludo_balance.rows` gives those of the engine; readings are whole numbers of the shape's unit."""
    import numpy as np

    blocks = [slice(at, at + BLOCK) for at in range(0, max(1, len(readings)), BLOCK)]
    work, whole = _Work(shape), Whole(len(readings))
    made = lambda part: whole.put(part, work.block(np.ascontiguousarray(readings[part], np.int64), status[part], suspects, check))
    made(blocks[0])
    if threads > 1 and len(blocks) > 2:
        with ThreadPoolExecutor(threads) as pool:
            list(pool.map(made, blocks[1:]))
    else:
        list(map(made, blocks[1:]))
    return engine.Rows(**whole.arrays)


class Whole:
    """Arrays of all rows, filled block by block; flows take half the memory as long as they fit."""

    def __init__(self, rows: int) -> None:
        self.rows, self.arrays, self.lock = rows, {}, threading.Lock()  # type: int, Dict[str, Any], threading.Lock

    def put(self, part: slice, block: Dict[str, Any]) -> None:
        """Puts a block at its rows."""
        import numpy as np

        small = np.abs(block["flows"]).max(initial=0) < 2**31
        with self.lock:
            for name, array in block.items():
                if name not in self.arrays:
                    kind = np.int32 if name == "flows" and small else array.dtype
                    self.arrays[name] = np.zeros((self.rows, *array.shape[1:]), kind)
                elif name == "flows" and not small:
                    self.arrays[name] = self.arrays[name].astype(np.int64, copy=False)
                self.arrays[name][part] = array


class _Work:
    """What blocks of a run have in common."""

    def __init__(self, shape: Shape) -> None:
        import numpy as np

        self.shape, self.plant = shape, shape.plant
        self.source, self.target = (np.array([getattr(s, end) for s in shape.listed], int) for end in ("source", "target"))
        self.weights, self.variances = np.array(shape.weights, np.uint64), shape.variances
        self.low, self.high = (np.array([getattr(s, end) if s.ranged else side * float(OPEN) for s in self.plant.streams], float) for end, side in (("low", -1), ("high", 1)))
        bare = tuple(engine.Stream(s.source, s.target) for s in shape.listed)
        self.bare = engine.Plant(shape.units, bare)

    def block(self, readings: Any, status: Any, suspects: int, check: bool) -> Dict[str, Any]:
        """The arrays of a block of rows."""
        import numpy as np

        made, numbers = self.solved(readings, status)
        if suspects:
            made |= self.eliminated(readings, status, made, suspects)
        if check:
            padded = np.zeros((len(readings), 33), np.int64)
            padded[:, : numbers.shape[1]] = numbers
            made |= {"numbers": padded, "checked": made["refusal"].copy()}
        return made

    def solved(self, readings: Any, status: Any) -> Tuple[Dict[str, Any], Any]:
        """Flows, classes, costs and verdicts, and the numbers of the places."""
        import numpy as np

        kinds, degrees = self.classes(status)
        weights = np.where(status == FAULT, 0, np.where(status == HELD, np.maximum(1, self.weights // QUARTER), self.weights)).astype(np.uint64)
        found = engine.wide_rows(self.plant, np.ascontiguousarray(weights), readings)
        answers = np.frombuffer(found.answers, np.uint8).copy()
        flows = np.frombuffer(found.flows, np.int64).reshape(readings.shape).copy()
        numbers = np.frombuffer(found.numbers, np.int64).reshape(len(readings), -1)
        flows[kinds == WITHHELD] = 0
        cost, least, sure = self.costs(readings, status, flows, numbers, kinds)
        verdict = self.verdicts(degrees, cost, least, sure, lambda row: self.exactly(readings[row], status[row], flows[row], numbers[row]))
        refusal = np.where(answers > 0, answers, np.where(cost - least > float(GUARD) + sure, NOT_JUDGED, 0)).astype(np.uint8)
        gone = refusal > 0
        flows[gone], kinds[gone], degrees[gone], verdict[gone], cost[gone] = 0, 0, 0, 0, 0
        told = {"refusal": refusal, "flows": flows, "kinds": kinds, "cost": np.rint(np.minimum(cost, MOST_COST) * 1000).astype(np.uint64), "degrees": degrees, "verdict": verdict}
        return told, numbers

    def classes(self, status: Any) -> Tuple[Any, Any]:
        """Classes and degrees, by the engine: once for each pattern of status."""
        import numpy as np

        status = np.ascontiguousarray(status)
        whole = status.view(np.dtype((np.void, status.shape[1]))).ravel()
        _, first, which = np.unique(whole, return_index=True, return_inverse=True)
        some = np.where(status[first] == FAULT, FAULT, MEASURED)
        drawn = engine.rows(self.bare, np.zeros(some.shape), np.full(some.shape[1], 10.0), some)
        return drawn.kinds[which], drawn.degrees[which]

    def costs(self, readings: Any, status: Any, flows: Any, numbers: Any, kinds: Any) -> Tuple[Any, Any, Any]:
        """The cost of the flows, a bound below which no balanced flow costs, and by how much floats may be off."""
        import numpy as np

        metered = status != FAULT
        variances = np.where(status == HELD, QUARTER * self.variances, self.variances)
        off = np.where(metered, (flows - readings).astype(float), 0.0)
        cost = (off * off / variances).sum(1)
        scale = float(self.shape.factor)
        price = np.where(kinds == ADJUSTED, (numbers[:, self.target] - numbers[:, self.source]) / scale, 0.0)
        best = np.clip(price * variances / 2, self.low - readings, self.high - readings)
        best = np.where(kinds == ADJUSTED, best, off)
        terms = np.where(metered, best * best / variances - price * (best + readings), 0.0)
        return cost, terms.sum(1), SURE * (1 + cost) + 1e-12 * np.abs(np.where(metered, price * readings, 0.0)).sum(1)

    def verdicts(self, degrees: Any, cost: Any, least: Any, sure: Any, exactly: Any) -> Any:
        """Verdicts; of rows that floats do not decide, by exact fractions."""
        import numpy as np

        limits = np.array(LIMITS)[degrees]
        verdict = np.where(cost <= limits, Verdict.PASS, Verdict.FAIL).astype(np.uint8)
        verdict[degrees == 0] = Verdict.NONE
        near = (np.abs(cost - limits) <= sure) | ((cost > limits) & (least <= limits + sure))
        for row in np.flatnonzero(near & (degrees > 0) & (cost - least <= 1)):
            verdict[row] = exactly(row)
        return verdict

    def exactly(self, readings: Any, status: Any, flows: Any, numbers: Any) -> int:
        """The verdict of a row in exact fractions, by the rule of a single sheet."""
        def own(k: int, s: Exact) -> Exact:
            if s.variance is None or status[k] == FAULT:
                return Exact(s.source, s.target)
            return Exact(s.source, s.target, int(readings[k]) * self.shape.unit, s.variance * (QUARTER if status[k] == HELD else 1), s.low, s.high)

        listed = Exacts(self.shape.units, tuple(own(k, s) for k, s in enumerate(self.shape.listed)))
        streams = tuple(self.cell(k, s, status[k], int(readings[k])) for k, s in enumerate(self.plant.streams))
        plant = engine.WidePlant(self.shape.units, streams)
        try:
            return int(Checked(listed, self.shape.unit, self.shape.factor, plant, tuple(map(int, flows)), tuple(map(int, numbers))).judged.verdict)
        except engine.Refusal:
            return int(Verdict.CLOSE)

    def cell(self, k: int, s: engine.Stream, kind: int, reading: int) -> engine.Stream:
        """A stream as a row has it."""
        if kind == FAULT:
            return engine.Stream(s.source, s.target)
        weight = int(self.weights[k])
        return engine.Stream(s.source, s.target, max(1, weight // QUARTER) if kind == HELD else weight, reading, s.low, s.high)

    def eliminated(self, readings: Any, status: Any, made: Dict[str, Any], most: int) -> Dict[str, Any]:
        """Of rows that fail: the meter without which the cost is least is taken out, and so on until the row no longer fails."""
        import numpy as np

        rows = len(readings)
        told = {"dropped": np.zeros((rows, most), np.uint8), "dropped_flow": np.zeros((rows, most), np.int64), "dropped_cost": np.zeros((rows, most), np.uint64),
                "cleared": made["verdict"].copy()}
        fails = np.flatnonzero((made["refusal"] == 0) & (made["verdict"] == Verdict.FAIL))
        for at in range(0, len(fails), FEW):
            self.eliminate(readings, status, fails[at : at + FEW], made["kinds"], told)
        return told

    def eliminate(self, readings: Any, status: Any, left: Any, kinds: Any, told: Dict[str, Any]) -> None:
        """Takes meters out of some rows that fail, step by step, and puts what that gives to `told`."""
        import numpy as np

        now, kinds = status[left].copy(), kinds[left]
        for step in range(told["dropped"].shape[1]):
            if not len(left):
                break
            out, sheets, has = self.without_one(readings[left], now, kinds)
            told["dropped"][left[has], step] = out[has] + 1
            told["dropped_flow"][left[has], step] = sheets["flows"][has, out[has]]
            told["dropped_cost"][left[has], step] = sheets["cost"][has]
            told["cleared"][left[has]] = sheets["verdict"][has]
            go = has & (sheets["verdict"] == Verdict.FAIL)
            now[np.arange(len(now)), out] = np.where(has, FAULT, now[np.arange(len(now)), out])
            left, now, kinds = left[go], now[go], sheets["kinds"][go]

    def without_one(self, readings: Any, status: Any, kinds: Any) -> Tuple[Any, Dict[str, Any], Any]:
        """For each row the checked meter without which it costs least, the sheet without it, and whether there is one."""
        import numpy as np

        rows, meters = np.nonzero(kinds == ADJUSTED)
        tried = status[rows].copy()
        tried[np.arange(len(rows)), meters] = FAULT
        made = self.solved(np.ascontiguousarray(readings[rows]), tried)[0] if len(rows) else self.solved(readings[:0], status[:0])[0]
        best, at = np.full(len(readings), np.iinfo(np.uint64).max, np.uint64), np.full(len(readings), -1)
        for j in np.flatnonzero(made["refusal"] == 0):
            if made["cost"][j] < best[rows[j]]:
                best[rows[j]], at[rows[j]] = made["cost"][j], j
        has = at >= 0
        picked = np.where(has, at, 0)
        if not len(rows):
            return np.zeros(len(readings), int), {name: np.zeros((len(readings), *array.shape[1:]), array.dtype) for name, array in made.items()}, has
        return np.where(has, meters[picked], 0), {name: array[picked] for name, array in made.items()}, has
