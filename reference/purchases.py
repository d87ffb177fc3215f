"""Meters to buy, in two ways.

best_set: unmetered streams from the dearest to the cheapest, of equal prices the higher number first, are left as they are where
they close no loop with those left before; the others are bought (Kruskal's forest, by a sort).
all_sets: every set of unmetered streams is tried. One serves where no flow runs in the streams left alone, that is where their
rows of the incidence matrix are independent. For plants with few unmetered streams.
"""

from itertools import combinations

from reference.solver import STREAMS, Refused, read_plant

PRICE = 1_000_000  # the greatest


def priced(plant, prices):
    """(number, stream, price) of each unmetered stream, or Refused with 21."""
    unmetered = [(k, s) for k, s in enumerate(plant.streams, 1) if not s.metered]
    if len(prices) != len(unmetered) or not all(1 <= price <= PRICE for price in prices):
        raise Refused(21)
    return [(k, s, price) for (k, s), price in zip(unmetered, prices)]


def best_set(plant, prices):
    """The numbers of the streams to be metered, rising."""
    leader = list(range(plant.units + 1))

    def lead(place):
        while leader[place] != place:
            place = leader[place]
        return place

    bought = []
    for k, s, _ in sorted(priced(plant, prices), key=lambda entry: (-entry[2], -entry[0])):
        one, other = lead(s.source), lead(s.target)
        if one == other:
            bought.append(k)
        else:
            leader[one] = other
    return sorted(bought)


def independent(rows):
    """Whether rows of whole numbers are independent, by elimination without fractions."""
    rows = [list(row) for row in rows]
    while rows:
        row = rows.pop()
        column = next((j for j, x in enumerate(row) if x), None)
        if column is None:
            return False
        rows = [[row[column] * x - other[column] * y for x, y in zip(other, row)] for other in rows]
    return True


def all_sets(plant, prices):
    """The same: of all sets that serve the cheapest, of these the one whose numbers come first."""
    streams = priced(plant, prices)

    def serves(chosen):
        left = [s for k, s, _ in streams if k not in chosen]
        return independent([[(s.target == u) - (s.source == u) for u in range(plant.units + 1)] for s in left])

    price = {k: cost for k, _, cost in streams}
    sets = (chosen for size in range(len(streams) + 1) for chosen in combinations(sorted(price), size))
    return list(min((sum(map(price.get, chosen)), chosen) for chosen in sets if serves(chosen))[1])


def buy_call(data, prices, room):
    """(returned number, numbers, price) of the call, lent a slice for so many numbers."""
    try:
        if room < STREAMS:
            raise Refused(1)
        plant = read_plant(data)
        price = {k: cost for k, _, cost in priced(plant, prices)}
    except Refused as refusal:
        return refusal.number, [], 0
    bought = best_set(plant, prices)
    return 0, bought, sum(map(price.get, bought))
