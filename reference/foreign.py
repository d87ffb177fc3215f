"""Sheets drawn up elsewhere, in exact integers: the check, rule by rule, and numbers of the places by shortest ways.

Classes, degrees, cost and verdict are compared with the reference solver's. Numbers with which a sheet of least cost
passes are distances over the streams that can carry one more or one less (Bellman and Ford).
"""

from functools import lru_cache

from reference import solver

LIMIT = 10**18
PLACES = solver.UNITS + 1


@lru_cache(maxsize=64)
def ours(plant):
    """Our balance of a plant; None where it has none."""
    try:
        return solver.balance(plant)
    except solver.Overfull:
        return None


def broken(plant, kept, numbers):
    """The rules that a sheet breaks, each by its name."""
    if len(numbers) != plant.units + 1:
        yield "one number for each place"
        return
    if any(abs(x) > LIMIT for x in numbers):
        yield "numbers within their limit"
    balance = ours(plant)
    if balance is None:
        yield "a plant that has a sheet"
        return
    if kept.classes != balance.classes:
        yield "classes"
        return
    if kept.degrees != balance.degrees:
        yield "degrees"
    if kept.cost != min(balance.cost, solver.MOST_COST):
        yield "cost"
    if kept.verdict != balance.verdict:
        yield "verdict"
    for stream, flow in zip(plant.streams, kept.flows):
        difference = numbers[stream.target] - numbers[stream.source]
        if not stream.metered:
            if difference:
                yield "equal numbers"
            continue
        d = flow - stream.reading
        if difference < stream.weight * (2 * d - 1) and not (stream.ranged and flow == stream.low):
            yield "bottom"
        if difference > stream.weight * (2 * d + 1) and not (stream.ranged and flow == stream.high):
            yield "top"
        if stream.ranged and not stream.low <= flow <= stream.high:
            yield "range"
    if any(nets(plant, kept)):
        yield "sums"


def nets(plant, kept):
    """Of each set of places joined by W streams, the known flows in less those out."""
    sets = list(range(plant.units + 1))
    for stream, letter in zip(plant.streams, kept.classes):
        if letter == "W":
            one, other = sets[stream.source], sets[stream.target]
            sets = [one if x == other else x for x in sets]
    net = [0] * (plant.units + 1)
    for stream, letter, flow in zip(plant.streams, kept.classes, kept.flows):
        if letter != "W":
            net[sets[stream.target]] += flow
            net[sets[stream.source]] -= flow
    return net


def check_call(file, sheet, numbers):
    """The check: the plant reader's refusals, then the sheet reader's, then 26; 0 where the sheet passes."""
    try:
        plant = solver.read_plant(file)
        kept = solver.read_sheet(sheet)
    except solver.Refused as refusal:
        return refusal.number
    return 26 if any(True for _ in broken(plant, kept, numbers)) else 0


def numbers_call(file, room):
    """(returned number, count) of the call over numbers of the places, for a slice with room for so many."""
    try:
        if room < PLACES:
            raise solver.Refused(1)
        plant = solver.read_plant(file)
        if ours(plant) is None:
            raise solver.Refused(19)
    except solver.Refused as refusal:
        return refusal.number, 0
    return 0, plant.units + 1


def numbers_for(plant, flow):
    """Numbers by which a flow of least cost is seen to be one."""
    hops = []
    for stream, amount in zip(plant.streams, flow):
        d = amount - stream.reading
        if not (stream.ranged and amount == stream.high):
            hops.append((stream.source, stream.target, stream.weight * (2 * d + 1)))
        if not (stream.ranged and amount == stream.low):
            hops.append((stream.target, stream.source, -stream.weight * (2 * d - 1)))
    numbers = [0] * (plant.units + 1)
    for _ in range(plant.units + 2):
        changed = False
        for a, b, length in hops:
            if numbers[a] + length < numbers[b]:
                numbers[b] = numbers[a] + length
                changed = True
        if not changed:
            return numbers
    raise ValueError("a flow that is not of least cost")


def turned(plant):
    """The plant with all flows turned round: readings and ranges with the other sign."""
    return plant._replace(streams=tuple(
        s._replace(reading=-s.reading, low=None if s.low is None else -s.high, high=None if s.high is None else -s.low)
        for s in plant.streams
    ))


def last_flow(plant):
    """Of the flows of least cost the last by the tie rule's order, where the sheet shows the first."""
    return [-x for x in solver.cheapest_flow(turned(plant))]
