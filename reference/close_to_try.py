"""Plants next to a critical value: at it, one above, the last that is close, the first that fails; costs around 2^62."""

import math

from reference import solver
from reference.parts import metered, taken, unmetered, within
from reference.solver import CLOSE, CRITICAL, FAIL, NONE, PASS


def meant(units, streams, cost, degrees, verdict):
    """The case of a plant, held to what it was made for."""
    result = solver.balance(solver.Plant(units, tuple(streams)))
    if (result.cost, result.degrees, result.verdict) != (cost, degrees, verdict):
        raise ValueError(f"{streams} are not of cost {cost}, degrees {degrees}, verdict {verdict}")
    return taken(units, streams)


def dead_ends(degrees, weights):
    """A streams that cost nothing: one into each unit, and more into the first, of these weights in sum."""
    shares = [1] * degrees
    rest = weights - degrees
    for k in range(degrees):
        more = min(rest, 999)
        shares[k] += more
        rest -= more
    while rest > 0:
        shares.append(min(rest, 1_000))
        rest -= shares[-1]
    return [metered(0, 1 + k % degrees, 0, weight) for k, weight in enumerate(shares)]


def as_read(unit, cost):
    """R streams of this cost: an unmetered stream joins their ends, and each is moved to its range. One, which costs nothing, is heavy."""
    streams = [unmetered(0, unit), metered(0, unit, 5, 1_000)]
    while cost > 0:
        off = math.isqrt(cost)
        streams.append(within(metered(unit, 0, off, 1), 0, 0))
        cost -= off * off
    return streams


def edges(value, weights):
    """(cost, verdict) on both sides of each edge, the A streams having these weights in sum."""
    quarter = weights // 4
    yield value, PASS
    yield value + 1, CLOSE if quarter else FAIL
    yield value + quarter, CLOSE if quarter else PASS
    yield value + quarter + 1, FAIL


def two_streams(value, more):
    """One unit, in and out, whose cheapest flow costs the last that is close, and so many more."""
    for first in range(1, 1_001):
        for second in range(1, first + 1):
            cost = value + (first + second) // 4 + more
            apart = math.isqrt(cost * (first + second) // (first * second))
            for d in (apart, apart + 1):
                # Readings d and 0: the flow x costs first * (x - d)^2 + second * x^2.
                x = (2 * first * d + first + second) // (2 * (first + second))
                if first + second > 4 and x and first * (x - d) ** 2 + second * x * x == cost:
                    return cost, [metered(0, 1, d, first), metered(1, 0, 0, second)]
    raise ValueError(f"no plant found at {value}")


def all_adjusted(degrees, more):
    """Dead ends alone, as many as there are degrees, that cost the last that is close, and so many more."""
    value = CRITICAL[degrees - 1]
    for first in range(1, 1_001):
        for second in range(1, 60):
            cost = value + (first + second + degrees - 2) // 4 + more
            most = math.isqrt(cost // first)
            for r in range(most, max(0, most - 20), -1):
                rest = cost - first * r * r
                other = math.isqrt(rest // second)
                if second * other * other == rest:
                    ends = [(first, r), (second, -other)] + [(1, 0)] * (degrees - 2)
                    return cost, [metered(0, k, reading, weight) for k, (weight, reading) in enumerate(ends, 1)]
    raise ValueError(f"no dead ends found for {degrees} degrees")


def close():
    for degrees in (1, 2, 3, 10, 31):
        value = CRITICAL[degrees - 1]
        for weights in (*range(degrees, degrees + 5), 999, 1_000, 1_001, 1_002, 30_003, 60_000):
            for cost, verdict in edges(value, weights):
                streams = dead_ends(degrees, weights) + as_read(degrees + 1, cost)
                yield meant(degrees + 1, streams, cost, degrees, verdict)
    for more, verdict in ((0, CLOSE), (1, FAIL)):
        cost, streams = two_streams(CRITICAL[0], more)
        yield meant(1, streams, cost, 1, verdict)
        for degrees in (2, 5, 17, 32):
            cost, streams = all_adjusted(degrees, more)
            yield meant(degrees, streams, cost, degrees, verdict)
    # Four times these costs, cut to 64 bits, would be small: 2^62 and its multiples, and small costs beside them.
    value, weights = CRITICAL[0], 1_002
    for times in (1, 2, 3, 4, 5):
        for small in (0, 1, value, value + 1, value + weights // 4, value + weights // 4 + 1):
            far = [within(metered(0, 2, 0, 4 * times), 2**30, 2**30)]
            cost = times * 2**62 + small
            yield meant(2, dead_ends(1, weights) + as_read(2, small) + far, cost, 1, FAIL)
    # No degrees: none, whatever the cost.
    for cost in (0, 1, 3_841, 3_842, 5_000):
        yield meant(1, as_read(1, cost), cost, 0, NONE)
    yield meant(1, as_read(1, 0) + [within(metered(0, 1, 0, 4), 2**30, 2**30)], 2**62, 0, NONE)
