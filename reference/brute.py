"""Self-check of the reference solver, mostly against brute force on small plants.

    python3 reference/brute.py

The brute force follows the definitions word for word: it lists the balanced
flows in range that could be the cheapest and takes the least by cost and tie
rule; where there are none, the set of places is tested, and where there are some,
that no set of places must take in more than it can let out.

Compared with:

- the answers that the definition states, its listing, and a file or more for each refusal; the critical values, from
  the chi-square distribution;
- 60,000 drawn small plants, half of them with ranges, by brute force: all balanced whole flows in a box that holds
  the cheapest, classes by pairs of flows, groups by Warshall's closure, degrees by ranks;
- 2,000 small plants with a cost near the critical value: a fail is above it over flows in fractions too;
- meters worth a visit on 6,000 small plants by brute force, and on larger ones by the whole solve;
- 5,000 lists of shares: the sort against all sets;
- 4,000 small plants: every flow of least cost passes the check with the numbers of one, and no dearer one does;
- 80 large plants: balance, cost against the least cost in fractions, and the same after renumbering.
"""

import math
import random
import struct
import sys
import time
from fractions import Fraction
from itertools import combinations, product

if not __package__:
    import by_path  # started by its path

from reference import charges, foreign, purchases, solver, visits
from reference.solver import Plant, Stream

# Brute force


def net_inflow(plant, flow):
    """For each place, the outside included, the flows in minus the flows out."""
    net = [0] * (plant.units + 1)
    for s, x in zip(plant.streams, flow):
        net[s.source] -= x
        net[s.target] += x
    return net


def balanced_flows(plant, budget):
    """Balanced flows in range of cost up to the budget, enough of them to tell the cheapest and the classes.

    Metered amounts: the cost of one stream alone keeps within the budget. Also
    none exceeds the sum of all sizes of readings and ends of ranges, the greatest of
    each stream: take a flow apart into cycles of ones that run as it runs; if it is
    cheapest, taking away one cycle gains nothing or leaves a range, so some metered
    stream of the cycle carries no more than its reading or its end; hence there are
    at most that many cycles with metered streams.

    Unmetered amounts: if some balance the metered ones, so do some over a forest,
    each at most half of what the metered ones leave over at all places; and if two
    differ on a stream, adding a cycle of ones gives a second. So the bound, one
    more than half, hides no answer.
    """
    streams = plant.streams
    order = sorted(range(len(streams)), key=lambda i: not streams[i].metered)
    closes = {i: [] for i in order}
    for place in range(plant.units + 1):
        ends = [i for i in order if place in streams[i][:2]]
        if ends:
            closes[ends[-1]].append(place)
    most = farthest(plant)
    flow = [0] * len(streams)
    left = [0] * (plant.units + 1)

    def choose(k, spare, bound):
        if k == len(order):
            yield tuple(flow)
            return
        i = order[k]
        source, target, weight, reading, least, greatest = streams[i]
        if weight:
            reach = math.isqrt(spare // weight)
            low, high = max(-most, reading - reach), min(most, reading + reach)
            if least is not None:
                low, high = max(low, least), min(high, greatest)
        else:
            if bound is None:
                bound = sum(map(abs, left)) // 2 + 1
            low, high = -bound, bound
        for x in range(low, high + 1):
            flow[i] = x
            left[source] -= x
            left[target] += x
            if not any(left[place] for place in closes[i]):
                yield from choose(k + 1, spare - weight * (x - reading) ** 2, bound)
            left[source] += x
            left[target] -= x

    return choose(0, budget, None)


def farthest(plant):
    """What no metered amount of a cheapest flow exceeds."""
    return sum(max(abs(s.reading), abs(s.low or 0), abs(s.high or 0)) for s in plant.streams)


def must_take_more(plant, places):
    """Whether the places must take in more than they can let out, from the definition."""
    across = [s for s in plant.streams if (s.source in places) != (s.target in places)]
    if not all(s.metered and s.ranged for s in across):
        return False
    return sum(s.low for s in across if s.target in places) > sum(s.high for s in across if s.source in places)


def some_overfull(plant):
    """Whether some set of places must take in more than it can let out: all are tried."""
    places = range(plant.units + 1)
    return any(must_take_more(plant, chosen) for k in places for chosen in combinations(places, k))


def brute_flows(plant):
    """The least cost, how many choices of metered amounts have it, and flows with the one to take; None where there are none."""

    def key(flow):
        amounts = tuple(x for s, x in zip(plant.streams, flow) if s.metered)
        return sum(s.weight * (x - s.reading) ** 2 for s, x in zip(plant.streams, flow)), amounts

    budget = 1
    dearest = sum(s.weight * (farthest(plant) + abs(s.reading)) ** 2 for s in plant.streams)
    while not (flows := list(balanced_flows(plant, budget))):
        if budget > dearest:
            return None
        budget *= 2
    keys = set(map(key, flows))
    best = min(keys)
    equal = sum(cost == best[0] for cost, _ in keys)
    return best[0], equal, [flow for flow in flows if key(flow) == best]


def joined(plant, chosen):
    """Whether a chain of chosen streams joins two places, by Warshall's closure."""
    places = range(plant.units + 1)
    join = [[a == b for b in places] for a in places]
    for s in plant.streams:
        if chosen(s):
            join[s.source][s.target] = join[s.target][s.source] = True
    for via, a, b in product(places, repeat=3):
        join[a][b] = join[a][b] or join[a][via] and join[via][b]
    return join


def brute_balance(plant):
    """The balance of a plant, and whether the tie rule chose it; None where no balanced flow is in range."""
    if (found := brute_flows(plant)) is None:
        return None
    cost, equal, flows = found
    group = joined(plant, lambda s: not s.metered)
    piece = joined(plant, lambda s: True)
    classes, numbers = "", []
    for i, s in enumerate(plant.streams):
        seen = {flow[i] for flow in flows}
        if s.metered:
            classes += "R" if group[s.source][s.target] else "A"
        else:
            classes += "G" if len(seen) == 1 else "W"
        numbers.append(seen.pop() if len(seen) == 1 else None)
    degrees = len({tuple(row) for row in group}) - len({tuple(row) for row in piece})
    if degrees == 0:
        verdict = 2
    else:
        # How far the cost is above the critical value, in quarters of the A streams' weights.
        over = cost - solver.CRITICAL[degrees - 1]
        quarter = Fraction(sum(s.weight for s, letter in zip(plant.streams, classes) if letter == "A"), 4)
        verdict = 0 if over <= 0 else 3 if over <= quarter else 1
    return solver.Balance(classes, tuple(numbers), cost, degrees, verdict), equal > 1


# Tries


def small_plant(rng):
    units = rng.randint(1, 4)
    metered_share = rng.choice((0.3, 0.6, 0.8, 1.0))
    weights = rng.choice(((1,), (10,), (1, 2), (1, 2, 3), (1, 1000)))
    span = rng.randint(1, 4)
    streams = []
    for _ in range(rng.randint(0, 5)):
        source, target = rng.sample(range(units + 1), 2)
        if rng.random() < metered_share:
            streams.append(Stream(source, target, rng.choice(weights), rng.randint(-span, span)))
        else:
            streams.append(Stream(source, target))
    return Plant(units, tuple(streams))


def ranged_plant(rng):
    """A small plant, some of its meters with ranges."""
    plant = small_plant(rng)
    share = rng.choice((0.3, 0.7, 1.0))
    span = rng.randint(0, 5)

    def within(s):
        if not s.metered or rng.random() > share:
            return s
        low, high = sorted((rng.randint(-span, span), rng.randint(-span, span)))
        if rng.random() < 0.2:
            low = high
        return s._replace(low=low, high=high)

    return plant._replace(streams=tuple(map(within, plant.streams)))


def large_plant(rng, units, count, metered_share):
    streams = []
    for _ in range(count):
        source, target = rng.sample(range(units + 1), 2)
        if rng.random() < metered_share:
            streams.append(Stream(source, target, rng.choice((1, 1000, rng.randint(1, 1000))), rng.randint(-10**6, 10**6)))
        else:
            streams.append(Stream(source, target))
    return Plant(units, tuple(streams))


def rank(rows):
    """Rank of a matrix of fractions, by elimination."""
    rows = [[Fraction(x) for x in row] for row in rows]
    found = 0
    for column in range(len(rows[0]) if rows else 0):
        pivot = next((r for r in range(found, len(rows)) if rows[r][column]), None)
        if pivot is None:
            continue
        rows[found], rows[pivot] = rows[pivot], rows[found]
        for r in range(found + 1, len(rows)):
            factor = rows[r][column] / rows[found][column]
            if factor:
                rows[r] = [x - factor * y for x, y in zip(rows[r], rows[found])]
        found += 1
    return found


def incidence(plant, chosen):
    return [
        [(s.target == place) - (s.source == place) for place in range(plant.units + 1)]
        for s in plant.streams
        if chosen(s)
    ]


def real_cost(plant):
    """Least cost over all balanced flows in fractions, an exact fraction.

    With unmetered streams merged away, flow = reading - (what one end asks minus
    what the other asks) / weight, and the balances give one equation per group.
    """
    links = solver.links_of(plant, lambda s: not s.metered)
    groups = sorted(solver.parts_of(links), key=min)
    number = {place: k for k, group in enumerate(groups) for place in group}
    size = len(groups)
    rows = [[Fraction(0)] * (size + 1) for _ in range(size)]
    for s in plant.streams:
        if s.metered and number[s.source] != number[s.target]:
            for end, sign in ((number[s.source], -1), (number[s.target], 1)):
                rows[end][number[s.target]] += Fraction(sign, s.weight)
                rows[end][number[s.source]] -= Fraction(sign, s.weight)
                rows[end][size] += sign * s.reading
    pivots = []
    for column in range(size):
        pivot = next((r for r in range(len(pivots), size) if rows[r][column]), None)
        if pivot is None:
            continue
        at = len(pivots)
        rows[at], rows[pivot] = rows[pivot], rows[at]
        rows[at] = [x / rows[at][column] for x in rows[at]]
        for r in range(size):
            if r != at and rows[r][column]:
                factor = rows[r][column]
                rows[r] = [x - factor * y for x, y in zip(rows[r], rows[at])]
        pivots.append(column)
    asked = [Fraction(0)] * size
    for at, column in enumerate(pivots):
        asked[column] = rows[at][size]
    return sum(
        (asked[number[s.target]] - asked[number[s.source]]) ** 2 / s.weight
        for s in plant.streams
        if s.metered
    )


def chi_square_below(degrees, value):
    """Probability that chi-square of these degrees is below the value."""
    half, a = value / 2, degrees / 2
    term = total = 1 / a
    k = 0
    while term > total * 1e-17:
        k += 1
        term *= half / (a + k)
        total += term
    return total * math.exp(a * math.log(half) - half - math.lgamma(a))


def metered(source, target, reading, weight=10, low=None, high=None):
    return Stream(source, target, weight, reading, low, high)


# The plants to try whose answers the definition states.
STATED = (
    ((metered(0, 1, 103), metered(1, 0, 60), metered(1, 0, 40)), 1, "AAA", (102, 61, 41), 30, 1, 0),
    ((metered(0, 1, 101), metered(1, 0, 60), metered(1, 0, 40)), 1, "AAA", (100, 60, 40), 10, 1, 0),
    ((metered(0, 1, 100), metered(1, 0, 103)), 1, "AA", (101, 101), 50, 1, 0),
    ((metered(0, 1, 100, 30), metered(1, 0, 104)), 1, "AA", (101, 101), 120, 1, 0),
    ((metered(0, 1, 100), Stream(1, 0)), 1, "RG", (100, 100), 0, 0, 2),
    ((metered(0, 1, 7),), 1, "A", (0,), 490, 1, 0),
    ((metered(0, 1, 61, 1),), 1, "A", (0,), 3721, 1, 0),
    ((metered(0, 1, 62, 1),), 1, "A", (0,), 3844, 1, 1),
    # Close: half a unit between them, 3,797.5 and 3,822, would pass; and one that even so would fail, at 3,846.5.
    ((metered(0, 1, 100, 155), metered(1, 0, 107, 155)), 1, "AA", (103, 103), 3875, 1, 3),
    ((metered(0, 1, 100, 156), metered(1, 0, 107, 156)), 1, "AA", (103, 103), 3900, 1, 3),
    ((metered(0, 1, 100, 157), metered(1, 0, 107, 157)), 1, "AA", (103, 103), 3925, 1, 1),
    ((), 1, "", (), 0, 0, 2),
    ((metered(0, 1, 100), Stream(1, 2), Stream(1, 2), metered(2, 0, 98)), 2, "AWWA", (99, None, None, 99), 20, 1, 0),
    # With ranges: an end blocks the tie, one gives way for another, the nearest value in range is shown and costs.
    ((metered(0, 1, 100, low=102, high=105), metered(1, 0, 103)), 1, "AA", (102, 102), 50, 1, 0),
    ((metered(0, 1, 101), metered(1, 0, 60, low=61, high=70), metered(1, 0, 40)), 1, "AAA", (101, 61, 40), 10, 1, 0),
    ((metered(0, 1, 100, low=-5, high=7), Stream(1, 0)), 1, "RG", (7, 7), 86_490, 0, 2),
)

LISTING_PLANT = "01 02  02 00 01 00 0A 00 00 00 64  03 01 02  03 01 02  02 02 00 00 0A 00 00 00 62  04 04"
LISTING = "1 A 99\n2 W -\n3 W -\n4 A 99\ntotal 1 20 1 pass\n"

# Files for each refusal of a file, and for 19.
REFUSED = (
    ("", 3), ("01", 3), ("01 01", 3), ("01 01 04", 3), ("01 01 02 00 01 00 0A 00 00 00", 3),
    ("00", 4), ("02", 4), ("01 01 01", 4), ("01 01 05", 4), ("01 01 11", 4),
    ("01 01" + 97 * " 03 00 01", 5), ("01 01" + 96 * " 03 00 01" + " 02", 5),
    ("01 00", 6), ("01 21", 6),
    ("01 01 03 02 00", 7), ("01 01 03 00 02", 7), ("01 01 03 02 02", 7),
    ("01 01 03 00 00", 8), ("01 01 03 01 01", 8),
    ("01 01 02 00 01 00 00 00 00 00 00", 9), ("01 01 02 00 01 03 E9 00 00 00 00", 9),
    ("01 01 02 00 01 00 01 00 3D 09 01", 10), ("01 01 02 00 01 00 01 FF C2 F6 FF", 10),
    ("01 01 06 00 01 00 01 00 00 00 05 00 00 00 01 00 00 00 00", 18),
    ("01 01 06 00 01 00 01 00 00 00 05 00 00 00 01 77 35 94 01", 18),
    ("01 01 06 00 01 00 01 00 00 00 05 88 CA 6B FF 00 00 00 00", 18),
    ("01 01 06 00 01 00 01 00 3D 09 01 00 00 00 01 00 00 00 00", 10),
    ("01 01 06 00 01 00 00 00 00 00 05 00 00 00 01 00 00 00 00", 9),
    ("01 01 06 00 01 00 01 00 00 00 05 00 00 00 01 00 00 00 09 04 01", 19),
    ("01 01 06 00 01 00 01 00 00 00 05 00 00 00 01 00 00 00 09 04 00", 11),
    ("01 01 06 00 01 00 01 00 00 00 05 00 00 00 01 00 00 00 09 04 01 00", 12),
    ("01 01 04 01", 11), ("01 01 03 00 01 04 00", 11), ("01 01 04 01 00", 11),
    ("01 01 04 00 00", 12),
)


def expect(what, got, wanted):
    if got != wanted:
        sys.exit(f"self-check: {what}\n  got    {got}\n  wanted {wanted}")


def check_stated():
    for streams, units, *wanted in STATED:
        expect(streams, solver.balance(Plant(units, streams)), solver.Balance(*wanted))
    expect("listing", solver.listing(bytes.fromhex(LISTING_PLANT)), LISTING)
    sheet = b"".join((
        struct.pack(">Bq", 0x11, 99), b"\x14\x14", struct.pack(">Bq", 0x11, 99),
        struct.pack(">BBIQBB", 0x1E, 5, 8, 20, 1, 0),
    ))
    lasts = (1, 2, 3, 4, 5, 7, 2**32 - 1, 0)
    expect("sheet", solver.sheet_call(bytes.fromhex(LISTING_PLANT), 5, lasts, 880), (0, 36, lasts[:5] + (8,) + lasts[6:], sheet))
    expect("kept", solver.read_sheet(sheet), solver.Kept("AWWA", (99, 0, 0, 99), 0x1E, 5, 8, 20, 1, 0))
    plain = sheet[:20] + b"\x1F" + sheet[22:]
    expect("plain", solver.read_sheet(plain), solver.Kept("AWWA", (99, 0, 0, 99), 0x1F, 0, 8, 20, 1, 0))
    return len(STATED)


def check_refused():
    for text, number in REFUSED:
        data = bytes.fromhex(text)
        for last in (0, 7, 2**32 - 2):
            lasts = (2**32 - 1,) * 3 + (last,) + (2**32 - 1,) * 4
            expect(text, solver.sheet_call(data, 3, lasts, 880), (number, 0, lasts, b""))
        lasts = (0,) * 3 + (2**32 - 1,) + (0,) * 4
        expect(text, solver.sheet_call(data, 3, lasts, 880), (2, 0, lasts, b""))
        expect(text, solver.sheet_call(data, 8, lasts, 880), (22, 0, lasts, b""))
        expect(text, solver.sheet_call(data, 3, lasts, 879), (1, 0, lasts, b""))
        expect(text, solver.sheet_call(data, 8, lasts, 879), (1, 0, lasts, b""))
        expect(text, solver.listing(data), f"refused {number}\n")
    return len(REFUSED)


def check_critical():
    for degrees, value in enumerate(solver.CRITICAL, 1):
        below = chi_square_below(degrees, (value - 0.5) / 1000)
        above = chi_square_below(degrees, (value + 0.5) / 1000)
        expect(f"critical value, degrees {degrees}", below < 0.95 < above, True)
    return len(solver.CRITICAL)


def check_small(count):
    rng = random.Random(1)
    ties = 0
    letters = ""
    for _ in range(count):
        plant = small_plant(rng)
        result = solver.balance(plant)
        wanted, tied = brute_balance(plant)
        expect(plant, result, wanted)
        ties += tied
        letters += result.classes
        for letter, amount, s in zip(result.classes, result.numbers, plant.streams):
            if letter == "R":
                expect(plant, amount, s.reading)
        ranks = rank(incidence(plant, lambda s: True)) - rank(incidence(plant, lambda s: not s.metered))
        expect(plant, result.degrees, ranks)
    print(f"  with ties {ties};", *(f"{letter} {letters.count(letter)}" for letter in "ARGW"))
    return count


def check_ranged(count):
    """Small plants with ranges: the balance, or the set of places where there is none."""
    rng = random.Random(3)
    none = ties = 0
    for _ in range(count):
        plant = ranged_plant(rng)
        try:
            result = solver.balance(plant)
        except solver.Overfull as overfull:
            none += 1
            expect((plant, overfull.places), must_take_more(plant, overfull.places), True)
            expect(plant, brute_balance(plant), None)
            continue
        wanted = brute_balance(plant)
        expect(plant, wanted is not None, True)
        expect(plant, result, wanted[0])
        expect(plant, some_overfull(plant), False)
        ties += wanted[1]
        for letter, amount, s in zip(result.classes, result.numbers, plant.streams):
            if letter == "R" and s.ranged:
                expect(plant, amount, sorted((s.low, s.reading, s.high))[1])
    print(f"  with ties {ties}; with no flow in range {none}")
    return count


def check_close(count):
    """Plants whose cost is near the critical value: what each verdict says of the optimum in fractions."""
    rng = random.Random(3)
    told = [0] * 4
    rounded = 0
    while sum(told) < count:
        units = rng.randint(1, 3)
        ends = [rng.sample(range(units + 1), 2) for _ in range(rng.randint(units, 6))]
        light = Plant(units, tuple(metered(a, b, rng.randint(-6, 6), rng.randint(1, 3)) for a, b in ends))
        result = solver.balance(light)
        if result.degrees == 0 or result.cost == 0:
            continue
        # Weights so many times as great have the same flow, and so many times the cost.
        value = solver.CRITICAL[result.degrees - 1]
        times = value // result.cost + rng.randint(-2, 3)
        if not 1 <= times <= 333:
            continue
        plant = Plant(units, tuple(s._replace(weight=s.weight * times) for s in light.streams))
        result, least = solver.balance(plant), real_cost(plant)
        if result.verdict == 1:
            expect(plant, least > value, True)
        else:
            expect(plant, result.cost <= value, result.verdict == 0)
        told[result.verdict] += 1
        rounded += least <= value < result.cost
    print(f"  pass {told[0]}, close {told[3]}, fail {told[1]}; above the value by rounding alone {rounded}")
    return count


def check_purchases(count):
    """Meters to buy on small plants: the sort against all sets, and that the plant with these meters has no W."""
    rng = random.Random(4)
    ties = bought = 0
    for _ in range(count):
        plant = large_plant(rng, rng.randint(1, 5), rng.randint(0, 8), rng.choice((0.0, 0.2, 0.4)))
        top = rng.choice((1, 2, 3, 50))
        prices = [rng.randint(1, top) for s in plant.streams if not s.metered]
        found = purchases.best_set(plant, prices)
        expect(plant, found, purchases.all_sets(plant, prices))
        then = Plant(plant.units, tuple(s._replace(weight=1) if k in found else s for k, s in enumerate(plant.streams, 1)))
        expect(plant, "W" in solver.balance(then).classes, False)
        bought += len(found)
        ties += len(set(prices)) < len(prices)
    print(f"  with equal prices {ties}; streams bought {bought}")
    return count


def check_visits(count):
    """Meters worth a visit on small plants, half of them with ranges: the flows of each plant with a meter less are listed."""
    rng = random.Random(5)
    none = entries = lower = equal = 0
    for k in range(count):
        plant = ranged_plant(rng) if k % 2 else small_plant(rng)
        found = brute_balance(plant)
        if found is None:
            none += 1
            continue
        group = joined(plant, lambda s: not s.metered)
        wanted = []
        for i, s in enumerate(plant.streams):
            if s.metered and not group[s.source][s.target]:
                streams = [Stream(s.source, s.target) if j == i else other for j, other in enumerate(plant.streams)]
                wanted.append((brute_flows(Plant(plant.units, tuple(streams)))[0], i + 1))
        wanted.sort()
        expect(plant, visits.visits_of(plant), [(stream, cost) for cost, stream in wanted])
        expect(plant, all(cost <= found[0].cost for cost, _ in wanted), True)
        entries += len(wanted)
        lower += sum(cost < found[0].cost for cost, _ in wanted)
        equal += len(wanted) - len({cost for cost, _ in wanted})
    print(f"  entries {entries}, below the sheet's cost {lower}, equal to one before {equal}; plants with no flow in range {none}")
    return count


def check_large_visits(count):
    """On larger plants: each entry is the cost of the whole solve of its plant; without ranges it keeps to the bound in fractions."""
    rng = random.Random(6)
    for k in range(count):
        units, streams = ((12, 36), (20, 60), (32, 48))[k % 3]
        plant = large_plant(rng, units, streams, rng.choice((0.6, 1.0)))
        for stream, cost in visits.least_costs(plant):
            less = visits.without(plant, stream - 1)
            result, least = solver.balance(less), real_cost(less)
            expect(less, cost, result.cost)
            slack = Fraction(sum(s.weight for s, letter in zip(less.streams, result.classes) if letter == "A"), 4)
            expect(less, least <= cost <= least + slack, True)
    return count


def check_charges(count):
    """Charges of drawn shares, credits among them: the sort against all sets; the sum, and how far each is from its share."""
    rng = random.Random(7)
    ties = credits = missing = 0
    for _ in range(count):
        top, unit = rng.choice(((1, 2), (2, 4), (3, 10), (50_000, 10_000), (50_000, 10_000)))
        shares = [Fraction(rng.randint(-top, top), unit) for _ in range(rng.randint(0, 8))]
        cents = charges.shared(shares)
        expect(shares, cents, charges.of_all_sets(shares))
        expect(shares, sum(cents), math.floor(sum(shares)))
        expect(shares, all(abs(cent - share) < 1 for cent, share in zip(cents, shares)), True)
        parts = [share - math.floor(share) for share in shares]
        ties += len(set(parts)) < len(parts)
        credits += any(share < 0 for share in shares)
        missing += sum(cents) - sum(map(math.floor, shares))
    print(f"  with equal remainders {ties}, with a credit {credits}; cents missing {missing}")
    return count


def check_foreign(count):
    """Sheets drawn up elsewhere, on small plants: of all balanced flows in range up to some cost, those of least cost pass with the
    same numbers, and no dearer one does, its total told as ours, with any numbers of a box."""
    rng = random.Random(5)
    equal = dearer = 0
    for _ in range(count):
        plant = ranged_plant(rng)
        ours = foreign.ours(plant)
        if ours is None:
            continue
        numbers = foreign.numbers_for(plant, solver.cheapest_flow(plant))
        tried = [numbers, [0] * len(numbers)] + [[rng.randint(-6, 6) for _ in numbers] for _ in range(6)]
        for flow in balanced_flows(plant, ours.cost + 6):
            shown = solver.balance_by(plant, flow)
            kept = solver.read_sheet(solver.sheet_bytes(ours._replace(numbers=shown.numbers), 1))
            least = shown.cost == ours.cost
            if least:
                expect((plant, flow), list(foreign.broken(plant, kept, numbers)), [])
            else:
                expect((plant, flow), all(any(foreign.broken(plant, kept, some)) for some in tried), True)
            equal += least
            dearer += not least
    print(f"  flows of least cost {equal}, dearer ones {dearer}")
    return count


def check_large(count):
    """On large plants: balance, the bound from the optimum in fractions, and renumbered places."""
    rng = random.Random(2)
    for k in range(count):
        units, streams = ((32, 96), (32, 40), (12, 96), (5, 60))[k % 4]
        plant = large_plant(rng, units, streams, rng.choice((0.3, 0.7, 1.0)))
        result = solver.balance(plant)
        flow = solver.cheapest_flow(plant)
        expect(plant, set(net_inflow(plant, flow)), {0})
        for letter, amount, x in zip(result.classes, result.numbers, flow):
            if letter != "W":
                expect(plant, amount, x)
        least = real_cost(plant)
        slack = Fraction(sum(s.weight for s, letter in zip(plant.streams, result.classes) if letter == "A"), 4)
        expect(plant, least <= result.cost <= least + slack, True)
        names = list(range(units + 1))
        rng.shuffle(names)
        moved = [s._replace(source=names[s.source], target=names[s.target]) for s in plant.streams]
        expect(plant, solver.balance(Plant(units, tuple(moved))), result)
    return count


def main():
    for what, check in (
        ("stated plants", check_stated),
        ("refused files", check_refused),
        ("critical values", check_critical),
        ("small plants against brute force", lambda: check_small(30_000)),
        ("small plants with ranges against brute force", lambda: check_ranged(30_000)),
        ("plants near the critical value", lambda: check_close(2_000)),
        ("meters to buy against all sets", lambda: check_purchases(3_000)),
        ("meters worth a visit against brute force", lambda: check_visits(6_000)),
        ("meters worth a visit on larger plants", lambda: check_large_visits(6)),
        ("steam charges against all sets", lambda: check_charges(5_000)),
        ("sheets drawn up elsewhere against brute force", lambda: check_foreign(4_000)),
        ("large plants", lambda: check_large(80)),
    ):
        start = time.monotonic()
        count = check()
        print(f"{what}: {count} right, {time.monotonic() - start:.1f} s")


if __name__ == "__main__":
    main()
