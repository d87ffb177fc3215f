"""Plants of plain shapes: paths, stars, rings, ladders, trees, parallel streams, several pieces; and the shape of a site."""

from reference.parts import Draws, metered, taken, unmetered
from reference.solver import READING as MOST


def path(units):
    """From the outside through all units and back."""
    return [(k, k + 1) for k in range(units)] + [(units, 0)]


def open_path(units):
    return [(k, k + 1) for k in range(units)]


def star(units):
    return [(0, k) for k in range(1, units + 1)]


def wheel(units):
    return star(units) + [(k, k % units + 1) for k in range(1, units + 1)]


def ring(units):
    """Round the units, the outside apart."""
    return [(k, k % units + 1) for k in range(1, units + 1)]


def star_of_unit(units):
    """One unit in the middle, each other unit joined to it in both directions, in and out of it."""
    return [(0, 1), (1, 0)] + [e for k in range(2, units + 1) for e in ((1, k), (k, 1))]


def ladder(units):
    half = units // 2
    ends = [(0, 1), (half + 1, 0)]
    for k in range(1, half):
        ends += [(k, k + 1), (half + k + 1, half + k)]
    return ends + [(k, half + k) for k in range(1, half + 1)]


def tree(units):
    return [(k // 2, k) for k in range(1, units + 1)]


def all_pairs(units):
    return [(a, b) for a in range(units + 1) for b in range(a + 1, units + 1)]


def two_pieces(units):
    half = units // 2
    first = [(0, 1)] + ring(half)
    return first + [(k, k + 1) for k in range(half + 1, units)] + [(units, half + 1)]


SHAPES = (
    (path, 32), (open_path, 32), (star, 32), (wheel, 32), (ring, 32), (star_of_unit, 32), (ladder, 32), (tree, 32),
    (all_pairs, 13), (two_pieces, 32), (path, 7), (wheel, 5), (ring, 3), (tree, 6),
)


def site_streams(draws, boilers, turbines, buildings, per_cent):
    """A steam and condensate network and its number of units.

    Deaerator, feed pump, boilers, high and low header, turbines, buildings, condensate tank.
    """
    deaerator, pump, high, low, tank = 1, 2, 3, 4, 5
    units = 5 + boilers + turbines + buildings
    boiler = range(6, 6 + boilers)
    turbine = range(6 + boilers, 6 + boilers + turbines)
    building = range(6 + boilers + turbines, units + 1)
    ends = [(0, deaerator), (deaerator, pump), (low, deaerator), (tank, deaerator), (deaerator, 0), (high, low)]
    for b in boiler:
        ends += [(pump, b), (b, high), (b, 0)]
    for t in turbine:
        ends += [(high, t), (t, low), (t, tank)]
    for k, b in enumerate(building):
        ends += [(low if k % 3 else high, b), (b, tank)]
        if draws.chance(60):
            ends.append((b, 0))
        if k and draws.chance(25):
            ends.append((b - 1, b))
    ends = draws.shuffled(ends)[:96] if draws.chance(30) else ends[:96]
    weights = draws.pick(((10,), (1, 4, 10, 40, 100), (1_000, 250, 1), (1, 1_000)))
    streams = [
        metered(a, b, 0, draws.pick(weights)) if draws.chance(per_cent) else unmetered(a, b)
        for a, b in ends
    ]
    return units, streams


def cases():
    draws = Draws(104)
    for shape, units in SHAPES:
        ends = shape(units)
        yield taken(units, [metered(a, b, draws.between(-MOST, MOST)) for a, b in ends])
        yield taken(units, [metered(a, b, draws.pick((-MOST, MOST)), 1 + 999 * (k % 2)) for k, (a, b) in enumerate(ends)])
        yield taken(units, [metered(a, b, 1_000 + k % 3, 10) for k, (a, b) in enumerate(ends)])
        for per_cent in (20, 50, 80):
            yield taken(units, [
                metered(a, b, draws.between(-MOST, MOST), draws.between(1, 1_000)) if draws.chance(per_cent) else unmetered(a, b)
                for a, b in draws.shuffled(ends)
            ])
    # Parallel streams.
    for count in (2, 3, 95, 96):
        yield taken(1, [metered(0, 1, 1 - k % 2, 10) for k in range(count)])
        yield taken(1, [metered(k % 2, 1 - k % 2, MOST, 1_000) for k in range(count)])
        yield taken(1, [metered(0, 1, draws.between(-MOST, MOST), draws.pick((1, 1_000))) for k in range(count)])
        yield taken(2, [metered(1, 2, k, 1 + k) if k % 3 else unmetered(2, 1) for k in range(count)])
    # Weights 1 and 1,000 side by side.
    for length in (1, 2, 5, 31):
        streams = []
        for a, b in path(length):
            streams += [metered(a, b, draws.between(-MOST, MOST), 1), metered(a, b, draws.between(-MOST, MOST), 1_000)]
        yield taken(length, streams)
        yield taken(length, [s._replace(reading=draws.between(0, 9)) for s in streams])
    # Several pieces, units without streams.
    for size in (1, 2, 3, 4, 8):
        streams = []
        for first in range(1, 33 - size, size + 1):
            for k in range(size):
                a, b = first + k, first + k + 1
                streams += [metered(a, b, draws.between(-99, 99)), metered(b, a, draws.between(-99, 99))]
        yield taken(32, streams[:96])
        yield taken(32, [unmetered(s.source, s.target) if k % 4 == 1 else s for k, s in enumerate(streams[:96])])
    yield taken(32, [])
    yield taken(32, [metered(31, 32, 5), metered(32, 31, 9)])
    yield taken(32, [unmetered(5, 9), unmetered(9, 5), metered(9, 20, 77)])
    yield taken(32, [metered(17, 3, -8), unmetered(3, 17)])
