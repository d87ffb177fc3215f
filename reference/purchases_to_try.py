"""Cases of the call over meters to buy."""

from reference import purchases, samples, shapes
from reference.parts import Buying, Draws, end_record, metered, plant_file, ranged, site_record, unmetered
from reference.purchases import PRICE
from reference.solver import STREAMS, Plant

FEW = 7  # up to so many unmetered streams every set is tried as well


def bought(units, streams, prices, expected=0, **more):
    """A case; small plants by both ways."""
    plant = Plant(units, tuple(streams))
    if expected == 0 and len(prices) <= FEW:
        by_sort, by_sets = purchases.best_set(plant, prices), purchases.all_sets(plant, prices)
        if by_sort != by_sets:
            raise ValueError(f"{plant}, {prices}: {by_sort} by the sort, {by_sets} of all sets")
    return Buying(plant_file(units, streams), tuple(prices), expected=expected, **more)


def plants():
    """Plants that show one thing each."""
    pair = samples.LISTING.streams
    for prices in ((5, 3), (3, 5), (4, 4), (1, 1), (PRICE, PRICE), (1, PRICE), (PRICE, 1)):
        yield bought(2, pair, prices)
    for sample in samples.SAMPLES:
        count = sum(not s.metered for s in sample.streams)
        for prices in ([100] * count, range(1, count + 1), range(count, 0, -1), [k * 7 % 11 + 1 for k in range(count)]):
            yield bought(len(sample.units), sample.streams, list(prices))
    yield bought(len(samples.BLIND_SITE.units), samples.BLIND_SITE.streams, samples.PRICES)
    # Nothing is withheld: no streams, meters alone, a tree.
    yield bought(1, [], [])
    yield bought(1, [metered(0, 1, 7)], [])
    yield bought(32, [unmetered(k, k + 1) for k in range(32)], [PRICE] * 32)
    # A metered stream closes no loop; ranges and a plant without a flow in range make no difference.
    yield bought(2, [unmetered(0, 1), unmetered(1, 2), metered(2, 0, 5)], [3, 3])
    yield bought(2, [unmetered(0, 1), unmetered(1, 2), unmetered(2, 0), metered(2, 0, 5)], [3, 3, 3])
    yield bought(1, [ranged(0, 1, 5, 1, 9)], [])
    yield bought(2, [ranged(0, 1, 5, 1, 9), unmetered(0, 2), unmetered(2, 0)], [2, 2])
    # All but one of parallel streams; the greatest total.
    for count in (2, 3, 95, 96):
        yield bought(1, [unmetered(0, 1)] * count, [PRICE] * count)
        yield bought(1, [unmetered(k % 2, 1 - k % 2) for k in range(count)], [1 + k % 3 for k in range(count)])
        yield bought(1, [unmetered(0, 1)] * count, list(range(1, count + 1)))
    # A loop of loops: a dear stream that two cheap ones go round.
    yield bought(2, [unmetered(0, 1), unmetered(0, 2), unmetered(2, 1)], [10, 1, 1])
    yield bought(2, [unmetered(0, 1), unmetered(0, 2), unmetered(2, 1)], [1, 10, 10])
    yield bought(3, [unmetered(0, 1), unmetered(1, 2), unmetered(2, 3), unmetered(3, 0), unmetered(0, 2), unmetered(1, 3)], [5] * 6)


def faults():
    """21 and its limits; what comes before it."""
    pair = samples.LISTING.streams
    three = [unmetered(0, 1), metered(0, 1, 5), unmetered(1, 2), unmetered(1, 2)]
    for prices in ((), (5,), (5, 3, 4), (5,) * 4, (0, 3), (5, 0), (PRICE + 1, 3), (5, PRICE + 1), (2**32 - 1, 3), (5, 2**32 - 1)):
        yield bought(2, pair, prices, expected=21)
    for place in range(3):
        for price, expected in ((0, 21), (1, 0), (PRICE, 0), (PRICE + 1, 21), (2**31, 21)):
            prices = [9, 9, 9]
            prices[place] = price
            yield bought(2, three, prices, expected=expected)
    # Where nothing is withheld too.
    yield bought(1, [], [1], expected=21)
    yield bought(1, [], [], expected=0)
    yield bought(1, [unmetered(0, 1)], [], expected=21)
    yield bought(1, [unmetered(0, 1)], [0], expected=21)
    yield bought(1, [metered(0, 1, 7)], [1], expected=21)
    yield bought(1, [unmetered(0, 1)] * 96, [1] * 95, expected=21)
    yield bought(1, [unmetered(0, 1)] * 96, [1] * 97, expected=21)
    yield bought(1, [unmetered(0, 1)] * 96, [1] * 95 + [0], expected=21)
    # A file's refusals come first, whatever the prices; 1 before them.
    good = plant_file(2, pair)
    broken = (
        (b"", 3), (good[:-1], 3), (b"\x05", 4), (site_record(0), 6), (plant_file(1, [unmetered(0, 2)]), 7),
        (plant_file(1, [unmetered(1, 1)]), 8), (plant_file(1, [metered(0, 1, 5, 1_001)]), 9),
        (plant_file(1, [metered(0, 1, 4_000_001)]), 10), (site_record(2) + end_record(1), 11), (good + b"\x00", 12),
        (plant_file(1, [ranged(0, 1, 5, 9, 8)]), 18), (plant_file(1, [unmetered(0, 1)] * 97), 5),
    )
    for file, number in broken:
        for prices in ((), (5, 3), (0, 0)):
            yield Buying(file, prices, expected=number)
            yield Buying(file, prices, room=STREAMS - 1, expected=1)
    for room in (0, 1, 95):
        yield bought(2, pair, (5, 3), expected=1, room=room)
        yield bought(2, pair, (5,), expected=1, room=room)
    for room in (96, 97, 200):
        yield bought(2, pair, (5, 3), room=room)
        yield bought(1, [unmetered(0, 1)] * 96, [7] * 96, room=room)


def drawn():
    """Plants of all sizes, prices that tie and prices that do not."""
    draws = Draws(20_090)
    for units, most, times in ((2, 5, 60), (4, 9, 60), (8, 24, 40), (16, 48, 30), (32, 96, 40)):
        for _ in range(times):
            share = draws.pick((40, 70, 90, 100))
            streams = []
            for _ in range(draws.between(1, most)):
                ends = draws.two_places(units)
                streams.append(unmetered(*ends) if draws.chance(share) else metered(*ends, draws.between(-50, 50)))
            top = draws.pick((1, 2, 3, 10, PRICE))
            count = sum(not s.metered for s in streams)
            yield bought(units, streams, [draws.between(1, top) for _ in range(count)])


def networks():
    """Rings, ladders and trees with parallel streams."""
    draws = Draws(20_091)
    for ends in (shapes.path(32), shapes.path(12) * 3, shapes.path(31) * 3):
        units = max(max(pair) for pair in ends)
        for top in (1, 2, 1_000, PRICE):
            yield bought(units, [unmetered(*pair) for pair in ends], [draws.between(1, top) for _ in ends])


def cases():
    yield from plants()
    yield from faults()
    yield from drawn()
    yield from networks()
