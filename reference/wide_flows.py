"""The check of a flow that was found elsewhere, of a plant by its parts, rule by rule: by products, in unbounded integers.

A plant is the solver's own, with wide weights and readings. Numbers with which a flow of least cost passes are distances (foreign.py).
"""

from typing import NamedTuple

from reference import solver

WEIGHT = 2**40
READING = 2**40
FLOW = 2**55
NUMBER = 2**61


class Parts(NamedTuple):
    """What the call takes: `units`, `count`, and ten slices."""

    units: int
    count: int
    source: tuple
    target: tuple
    metered: tuple
    weight: tuple
    reading: tuple
    ranged: tuple
    low: tuple
    high: tuple
    flow: tuple
    numbers: tuple


def parts_of(plant, flow, numbers):
    """The parts of a plant, the solver's or one whose unmetered streams have no weight, a flow and numbers."""
    streams = plant.streams
    columns = (
        [s.source for s in streams], [s.target for s in streams], [int(s.metered) for s in streams], [s.weight or 0 for s in streams],
        [s.reading for s in streams], [int(s.ranged) for s in streams], [s.low or 0 for s in streams], [s.high or 0 for s in streams],
        flow, numbers,
    )
    return Parts(plant.units, len(streams), *map(tuple, columns))


def fault(parts, k):
    """The first fault of stream k, 0 if it has none."""
    source, target = parts.source[k], parts.target[k]
    if source > parts.units or target > parts.units:
        return 7
    if source == target:
        return 8
    if not parts.metered[k]:
        return 0
    if not 1 <= parts.weight[k] <= WEIGHT:
        return 9
    if abs(parts.reading[k]) > READING:
        return 10
    return 18 if parts.ranged[k] and parts.low[k] > parts.high[k] else 0


def broken(parts):
    """The rules that the flow and the numbers break, each by its name."""
    flow, numbers = parts.flow[: parts.count], parts.numbers[: parts.units + 1]
    if any(abs(x) > FLOW for x in flow):
        yield "flows within their limit"
    if any(abs(x) > NUMBER for x in numbers):
        yield "numbers within their limit"
    nets = [0] * (parts.units + 1)
    for k, amount in enumerate(flow):
        nets[parts.source[k]] -= amount
        nets[parts.target[k]] += amount
        yield from stream_broken(parts, k, amount, numbers[parts.target[k]] - numbers[parts.source[k]])
    if any(nets):
        yield "balance"


def stream_broken(parts, k, amount, difference):
    """The rules that one stream breaks."""
    if not parts.metered[k]:
        if difference:
            yield "equal numbers"
        return
    weight, d, ranged = parts.weight[k], amount - parts.reading[k], parts.ranged[k]
    if difference < weight * (2 * d - 1) and not (ranged and amount <= parts.low[k]):
        yield "bottom"
    if difference > weight * (2 * d + 1) and not (ranged and amount >= parts.high[k]):
        yield "top"
    if ranged and not parts.low[k] <= amount <= parts.high[k]:
        yield "range"


def check_call(parts):
    """What the call returns: 1, 6, 5, the first stream's fault, 26 where a rule is broken, else 0."""
    if any(len(column) < parts.count for column in parts[2:11]) or len(parts.numbers) < parts.units + 1:
        return 1
    if not 1 <= parts.units <= solver.UNITS:
        return 6
    if parts.count > solver.STREAMS:
        return 5
    faults = (fault(parts, k) for k in range(parts.count))
    return next((number for number in faults if number), 0) or (26 if any(True for _ in broken(parts)) else 0)
