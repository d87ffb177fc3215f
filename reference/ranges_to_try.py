"""Plants with ranges: each function makes the cases of one file."""

import math

from reference import foreign, shapes, solver
from reference.parts import (
    Case, Draws, Unhinted, balanced_amounts, end_record, metered, metered_record, plant_file, ranged_record,
    read_with_noise, site_record, taken, unmetered, within,
)
from reference.solver import LAST_SHEET, RANGE, READING as MOST, SHEET_LENGTH


def none_in_range(units, streams, last=0):
    """A case whose plant has no balanced flow in range."""
    return Case(plant_file(units, streams), last, expected=19)


def circulation(draws, units, streams, most):
    """A balanced flow: amounts sent round the cycles that the streams close over a forest."""
    links = solver.links_of(solver.Plant(units, streams), lambda s: True)
    above, depth = {}, {}
    for root in range(units + 1):
        if root in depth:
            continue
        depth[root] = 0
        order = [root]
        for at in order:
            for other, i in links[at]:
                if other not in depth:
                    depth[other] = depth[at] + 1
                    above[other] = i
                    order.append(other)
    flow = [0] * len(streams)
    for i, s in enumerate(streams):
        if i in (above.get(s.source), above.get(s.target)):
            continue
        amount = draws.between(-most, most)
        flow[i] += amount
        # What arrives at the target goes back to the source, over the forest.
        ends = [s.target, s.source]
        while ends[0] != ends[1]:
            lower = 0 if depth[ends[0]] >= depth[ends[1]] else 1
            way = streams[above[ends[lower]]]
            upwards = way.source == ends[lower]
            flow[above[ends[lower]]] += amount if upwards == (lower == 0) else -amount
            ends[lower] = way.target if upwards else way.source
    return flow


def kept(x):
    return max(-RANGE, min(RANGE, x))


def drawn_streams(draws, units, count, per_cent, span, weights):
    streams = []
    for _ in range(count):
        source, target = draws.two_places(units)
        if draws.chance(per_cent):
            streams.append(metered(source, target, draws.between(-span, span), draws.pick(weights)))
        else:
            streams.append(unmetered(source, target))
    return streams


def drawn_range(draws, manner, size, amount, reading):
    """Low and high: round an amount of a balanced flow, round the reading, anywhere, at the edges."""
    if manner == "any":
        ends = draws.between(-size, size), draws.between(-size, size)
    elif manner == "tight":
        ends = amount - draws.between(0, 3), amount + draws.between(0, 3)
    elif manner == "wide":
        ends = amount - draws.between(0, size // 2), amount + draws.between(0, size // 2)
    elif manner == "near":
        ends = reading - draws.between(-1, size // 4 + 1), reading + draws.between(-1, size // 4 + 1)
    elif manner == "point":
        ends = amount, amount
    else:
        ends = draws.pick((-size, 0, size)), draws.pick((-size, size))
    return kept(min(ends)), kept(max(ends))


MANNERS = ("any", "tight", "wide", "near", "point", "edge")


def with_ranges(draws, units, streams, per_cent, size, manner):
    """The streams, so many of a hundred metered ones with ranges."""
    amounts = circulation(draws, units, streams, size // 8 + 1)
    return [
        within(s, *drawn_range(draws, draws.pick(MANNERS) if manner == "mixed" else manner, size, x, s.reading))
        if s.metered and draws.chance(per_cent) else s
        for s, x in zip(streams, amounts)
    ]


# Drawn plants of all sizes


def ranges():
    draws = Draws(110)
    sizes = ((1, 4), (2, 6), (3, 9), (4, 12), (6, 20), (10, 30), (20, 60), (32, 96))
    for k in range(260):
        units, count = sizes[k % len(sizes)]
        if units == 32 and k % 3:
            units, count = 8, 24
        weights = draws.pick(((1,), (10,), (1, 2, 3), (1, 1_000), tuple(range(1, 1_001))))
        streams = drawn_streams(draws, units, count, draws.pick((50, 80, 100)), draws.pick((5, 1_000, MOST)), weights)
        size = draws.pick((4, 30, 5_000, MOST, RANGE))
        streams = with_ranges(draws, units, streams, draws.pick((20, 60, 100)), size, draws.pick(MANNERS + ("mixed",)))
        yield Case(plant_file(units, streams), draws.between(0, LAST_SHEET - 1), draws.between(SHEET_LENGTH, 1_000))


# Ties among flows in range, and ties that an end blocks


def blocked(units, streams):
    """Whether the ranges change the flow, though not its cost: an end blocks the tie."""
    open_plant = solver.Plant(units, tuple(s._replace(low=None, high=None) for s in streams))
    try:
        shut = solver.cheapest_flow(solver.Plant(units, tuple(streams)))
    except solver.Overfull:
        return False
    free = solver.cheapest_flow(open_plant)
    same = solver.cost_of(streams, free) == solver.cost_of(streams, shut)
    return same and any(s.metered and x != y for s, x, y in zip(streams, free, shut))


def tied(units, streams):
    """Whether the greatest cheapest flow in range is not the least one."""
    plant = solver.Plant(units, tuple(streams))
    try:
        least = solver.cheapest_flow(plant)
    except solver.Overfull:
        return False
    return any(s.metered and x != y for s, x, y in zip(streams, least, foreign.last_flow(plant)))


def range_ties():
    # In 100, out 103: 101 by the tie rule, unless an end is in the way.
    for low, high in ((101, 101), (102, 102), (102, 105), (90, 101), (100, 100), (103, 200), (-7, 7), (101, 102)):
        yield taken(1, [within(metered(0, 1, 100), low, high), metered(1, 0, 103)])
        yield taken(1, [metered(0, 1, 100), within(metered(1, 0, 103), low, high)])
    # One in, three out: which of the three gives way.
    for shut in range(3):
        for low, high in ((33, 33), (34, 40), (20, 32), (33, 34)):
            out = [metered(1, 0, 33) for _ in range(3)]
            out[shut] = within(out[shut], low, high)
            yield taken(1, [metered(0, 1, 101), *out])
    draws = Draws(111)
    for wanted in (blocked, tied):
        found = 0
        while found < 50:
            units = draws.between(1, 5)
            weights = draws.pick(((1,), (10,), (1, 2)))
            streams = drawn_streams(draws, units, draws.between(2, 12), draws.pick((70, 100)), draws.pick((1, 3, 20)), weights)
            manner = draws.pick(("any", "near", "tight"))
            streams = with_ranges(draws, units, streams, draws.pick((20, 50)), draws.pick((4, 30)), manner)
            if wanted(units, streams):
                found += 1
                yield taken(units, streams)


# Low = high everywhere, ranges that leave one flow, ranges that miss by one


def range_points():
    draws = Draws(112)
    for k in range(60):
        units = draws.pick((1, 2, 4, 9, 20, 32))
        count = min(96, 3 * units + draws.between(0, 3))
        most = draws.pick((1, 50, 100_000, RANGE // 100))
        streams = drawn_streams(draws, units, count, draws.pick((100, 100, 80)), draws.pick((9, MOST)), (1, 10, 1_000))
        amounts = [kept(x) for x in circulation(draws, units, streams, most)]
        points = [within(s, x, x) if s.metered else s for s, x in zip(streams, amounts)]
        # All points; then one stream's range moved by one, or opened by one where the others leave it no room.
        yield taken(units, points)
        i = draws.between(0, count - 1)
        if not streams[i].metered:
            continue
        x = amounts[i]
        for low, high in ((x + 1, x + 1), (x - 1, x - 1), (x - 1, x), (x, x + 1), (x - 5, x + 5)):
            if -RANGE <= low and high <= RANGE and draws.chance(45):
                moved = list(points)
                moved[i] = within(streams[i], low, high)
                yield Case(plant_file(units, moved))
    # One stream after another round a ring, each a point: one flow, or none by one.
    for length in (2, 3, 8, 32):
        ring = [within(metered(k, (k + 1) % (length + 1), 10 * k), 7, 7) for k in range(length + 1)]
        yield taken(length, ring)
        yield none_in_range(length, ring[:-1] + [within(ring[-1], 8, 9)])
        yield none_in_range(length, [within(ring[0], 5, 6)] + ring[1:])
        yield taken(length, [within(ring[0], 5, 7)] + [within(s, 7, 9) for s in ring[1:]])


# Sites: a meter's range is what its pipe can carry


def range_sites():
    draws = Draws(113)
    for k in range(110):
        boilers, turbines, buildings = draws.between(1, 4), draws.between(0, 3), draws.between(1, 8)
        units, streams = shapes.site_streams(draws, boilers, turbines, buildings, draws.pick((70, 85, 100)))
        streams = streams[:96]
        amounts = balanced_amounts(draws, units, streams, 6 * len(streams), 4_000)
        read = read_with_noise(draws, streams, amounts)
        share, tightness = draws.pick((30, 70, 100)), draws.pick((0, 5, 40))
        piped = [
            within(s, draws.pick((0, 0, -20, x - x * tightness // 100)), x + x * draws.between(0, tightness) // 100)
            if s.metered and draws.chance(share) else s
            for s, x in zip(read, amounts)
        ]
        # In one of four a pipe cannot carry what the site needs.
        meters = [i for i, s in enumerate(piped) if s.ranged]
        if meters and k % 4 == 3:
            i = draws.pick(meters)
            less = amounts[i] - draws.between(1, 1 + amounts[i] // 2)
            piped[i] = within(piped[i], min(piped[i].low, less), less)
        yield Case(plant_file(units, piped))


# No balanced flow in range


def overfull():
    draws = Draws(114)
    dead_end = within(metered(0, 1, 5), 1, 9)
    yield none_in_range(1, [dead_end])
    yield none_in_range(1, [within(metered(1, 0, 5), 1, 9)])
    yield none_in_range(1, [within(metered(1, 0, -5), -9, -1)])
    yield taken(1, [within(metered(0, 1, 5), 0, 9)])
    yield taken(1, [within(metered(0, 1, 5), -9, 0)])
    for last in (0, 7, LAST_SHEET - 1):
        yield none_in_range(1, [dead_end], last)
    # At the limits, by one.
    for low in (-RANGE, -1, 0, 1, RANGE - 1):
        pair = [within(metered(0, 1, 0), low + 1, RANGE), within(metered(1, 0, 0), -RANGE, low)]
        yield none_in_range(1, pair)
        yield taken(1, [within(metered(0, 1, 0), low, RANGE), pair[1]])
    yield none_in_range(1, [within(metered(0, 1, MOST), RANGE, RANGE)] * 48 + [within(metered(1, 0, MOST), -RANGE, RANGE)] * 47)
    yield taken(1, [within(metered(0, 1, MOST), RANGE, RANGE)] * 48 + [within(metered(1, 0, MOST), -RANGE, RANGE)] * 48)
    # Several pieces, each for itself without a flow, or one of them alone.
    for pieces in (2, 3, 5, 16):
        ends = [(2 * k + 1, 2 * k + 2) for k in range(pieces)]
        piece = [[within(metered(a, b, 10), 5, 9), within(metered(b, a, 10), 10, 20)] for a, b in ends]
        good = [[within(metered(a, b, 10), 5, 9), within(metered(b, a, 10), 9, 20)] for a, b in ends]
        units = 2 * pieces
        yield none_in_range(units, sum(piece, []))
        for k in sorted({0, pieces // 2, pieces - 1}):
            yield none_in_range(units, sum(good[:k] + [piece[k]] + good[k + 1 :], []))
        yield taken(units, sum(good, []))
    # A chain of unmetered streams joins the places of the set; metered ones without a range inside it.
    for length in (2, 5, 20):
        inside = [unmetered(k, k + 1) if k % 2 else metered(k, k + 1, 50) for k in range(1, length)]
        across = [within(metered(0, 1, 5), 100, 200), within(metered(length, 0, 5), 0, 40), within(metered(0, length, 5), -50, 0)]
        yield none_in_range(length, inside + across)
        yield taken(length, inside + [within(across[0], 90, 200)] + across[1:])
    # Drawn: all streams ranged, in one piece or in several.
    found = 0
    while found < 70:
        pieces = draws.pick((1, 1, 2, 3))
        size = draws.between(1, 10)
        streams = []
        for piece in range(pieces):
            base = piece * (size + 1)
            part = drawn_streams(draws, size, draws.between(size, 3 * size + 2), 100, draws.pick((9, MOST)), (1, 10, 1_000))
            part = with_ranges(draws, size, part, 100, draws.pick((9, 2_000, RANGE)), draws.pick(("any", "near", "edge", "mixed")))
            streams += [s._replace(source=s.source + base, target=s.target + base) for s in part]
        units = pieces * (size + 1) - 1
        if units > 32 or len(streams) > 96:
            continue
        try:
            solver.flow_in_range(solver.Plant(units, tuple(streams)))
        except solver.Overfull:
            found += 1
            yield none_in_range(units, streams)


# The limits: readings far outside their range, the greatest flows, costs round powers of two


def squares(cost):
    """(weight, off) of meters whose weight times off squared sum to `cost`."""
    found = []
    while cost:
        weight = 1_000 if cost > 10**12 else 1
        off = min(math.isqrt(cost // weight), RANGE)
        found.append((weight, off))
        cost -= weight * off * off
    return found


def costing(cost):
    """Plants of this cost: as read meters forced off their readings, and pairs of adjusted ones."""
    forced = squares(cost)
    yield 1, [unmetered(0, 1)] + [within(metered(0, 1, 0, w), d, d) for w, d in forced]
    yield 1, [unmetered(1, 0)] + [within(metered(0, 1, 0, w), -RANGE, -d) for w, d in forced]
    # In and out of unit 1 flows so much; the rest of the cost is at dead ends that take in what their range forces out again.
    through = math.isqrt(cost // 2_000)
    first = [within(metered(0, 1, 0, 1_000), through, RANGE), metered(1, 0, 0, 1_000)]
    rest = squares(cost - 2_000 * through * through)
    more = [within(metered(0, 1, 0, w), d, d) for w, d in rest]
    back = [within(metered(1, 0, min(d, MOST), 1), d, d) for _, d in rest]
    if all(d <= MOST for _, d in rest):
        yield 1, first + more + back


def range_limits():
    draws = Draws(115)
    for power in (62, 63, 64):
        for by in (-2, -1, 0, 1, 2):
            for units, streams in costing(2**power + by):
                result = solver.balance(solver.Plant(units, tuple(streams)))
                if result.cost != 2**power + by:
                    raise ValueError(f"{streams} costs {result.cost}")
                yield taken(units, streams)
    for sign in (1, -1):
        # Readings far outside their range, alone and together.
        for low, high in ((RANGE, RANGE), (-RANGE, -RANGE), (RANGE - 5, RANGE), (MOST + 1, RANGE), (-RANGE, -MOST - 1)):
            yield taken(1, [within(metered(0, 1, sign * MOST, 1_000), low, high), metered(1, 0, -sign * MOST, 1)])
            yield taken(1, [within(metered(0, 1, sign * MOST, 1), low, high), unmetered(1, 0)])
        # 95 forced streams push the last one to 1.9 x 10^11: metered, given, over a long way.
        point = sign * RANGE
        forced = within(metered(0, 1, -sign * MOST, 1_000), point, point)
        yield taken(1, [forced] * 95 + [metered(1, 0, 0, 1)])
        yield taken(1, [metered(1, 0, sign * MOST, 1_000)] + [forced] * 95)
        yield taken(1, [forced] * 95 + [unmetered(1, 0)])
        yield taken(32, [forced] * 64 + [metered(a, b, 0, 1_000) for a, b in shapes.path(32)[1:]])
        yield taken(32, [forced] * 64 + [unmetered(a, b) for a, b in shapes.path(32)[1:]])
        mixed = [metered(k, k + 1, 0, 1) if k % 2 else unmetered(k, k + 1) for k in range(1, 32)]
        yield taken(32, [forced] * 64 + mixed + [metered(32, 0, 5, 3)])
        yield none_in_range(1, [forced] * 95 + [within(metered(1, 0, 0, 1), -RANGE, RANGE)])
        # The widest ranges change nothing.
        wide = [within(metered(0, 1, sign * MOST, 1_000), -RANGE, RANGE)] * 95
        yield taken(1, wide + [within(metered(1, 0, -sign * MOST, 1), -RANGE, RANGE)])
    for k in range(24):
        streams = []
        while len(streams) < 96:
            source, target = draws.two_places(32)
            if draws.chance(draws.pick((100, 80, 60))):
                streams.append(metered(source, target, draws.pick((-MOST, MOST)), draws.pick((1, 1_000, 999))))
            else:
                streams.append(unmetered(source, target))
        streams = with_ranges(draws, 32, streams, draws.pick((40, 100)), RANGE, ("wide", "tight", "point", "edge")[k % 4])
        yield Case(plant_file(32, streams), LAST_SHEET - 1, draws.pick((SHEET_LENGTH, 1_000)))


# Files with ranges


def range_files():
    good = ranged_record(0, 1, 10, 100, 0, 200)
    back = metered_record(1, 0, 10, 98)

    def file(*records, count, after=b""):
        return site_record(1) + b"".join(records) + end_record(count) + after

    plant = file(good, back, count=2)
    # 3: cut anywhere. 4: kinds round it.
    for length in range(len(plant)):
        yield Case(plant[:length], expected=3)
    for kind in (0x05, 0x07, 0x16, 0x26, 0x86):
        yield Case(file(bytes((kind,)) + good[1:], count=1), expected=4)
    yield Case(good + plant, expected=4)
    # 5: a 97th stream; the longest file.
    longest = plant_file(32, [within(metered(k % 32, k % 32 + 1, k, 1_000), -RANGE, RANGE) for k in range(96)])
    assert len(longest) == solver.FILE_LENGTH
    yield Case(longest, expected=0)
    for extra in (good, good[:1], good[:9], back):
        yield Case(longest[:-2] + extra, expected=5)
    yield Case(longest[:-1], expected=3)
    yield Case(longest + b"\0", expected=12)
    # 18: low above high, or an end outside its limit.
    for low, high in (
        (1, 0), (0, -1), (-1, -2), (5, 4), (RANGE, RANGE - 1), (RANGE, -RANGE), (2**31 - 1, -(2**31)), (-(2**31), 2**31 - 1),
        (-RANGE - 1, 0), (0, RANGE + 1), (RANGE + 1, RANGE + 1), (-RANGE - 1, -RANGE - 1), (-RANGE, RANGE + 1), (-RANGE - 1, RANGE),
    ):
        yield Case(file(ranged_record(0, 1, 10, 5, low, high), count=1), expected=18)
        yield Case(file(back, good, ranged_record(1, 0, 10, 5, low, high), count=3), expected=18)
    # Ranges that are taken: a dead end has a flow if 0 is in range.
    for low, high in ((0, 0), (-1, 0), (0, 1), (-RANGE, RANGE), (-RANGE, -RANGE), (RANGE, RANGE), (98, 98), (1, RANGE), (-RANGE, -1)):
        yield Case(file(ranged_record(0, 1, 10, 5, low, high), count=1), expected=0 if low <= 0 <= high else 19)
        yield Case(file(back, ranged_record(0, 1, 10, 5, low, high), count=2), expected=0)
    # Order: 3, then 7, 8, 9, 10, 18 in a record; the first record with a fault; 11 and 12 before 19, 1 and 2 before all.
    bad = (3, -3)
    for records, number in (
        ((ranged_record(9, 9, 0, 2**31 - 1, *bad)[:16],), 3),
        ((ranged_record(9, 9, 0, 2**31 - 1, *bad),), 7),
        ((ranged_record(1, 1, 0, 2**31 - 1, *bad),), 8),
        ((ranged_record(0, 1, 0, 2**31 - 1, *bad),), 9),
        ((ranged_record(0, 1, 1_001, MOST + 1, *bad),), 9),
        ((ranged_record(0, 1, 1, MOST + 1, *bad),), 10),
        ((ranged_record(0, 1, 1, -MOST - 1, 0, RANGE + 1),), 10),
        ((ranged_record(0, 1, 1, MOST, *bad), metered_record(9, 9, 0, 0)), 18),
        ((good, metered_record(0, 1, 0, 0), ranged_record(0, 1, 1, 0, *bad)), 9),
        ((ranged_record(0, 1, 1, 0, *bad), b"\x07"), 18),
    ):
        yield Case(site_record(1) + b"".join(records), expected=number)
    full = ranged_record(0, 1, 10, 5, 1, 9)
    yield Case(file(full, count=1), expected=19)
    yield Case(file(full, count=2), expected=11)
    yield Case(file(full, count=1, after=b"\0"), expected=12)
    yield Case(file(full, count=1)[:-1], expected=3)
    yield Case(file(full, count=1), LAST_SHEET, expected=2)
    yield Case(file(full, count=1), LAST_SHEET, SHEET_LENGTH - 1, expected=1)
    yield Case(file(full, count=1), 3, SHEET_LENGTH - 1, expected=1)
    yield Case(file(full, ranged_record(0, 1, 10, 5, *bad), count=2), expected=18)
    # One byte changed, anywhere.
    draws = Draws(116)
    for place in range(len(plant)):
        changed = bytearray(plant)
        changed[place] ^= 1 << draws.between(0, 7)
        yield Case(bytes(changed))


def unhinted_ranges():
    """The solver without a hint goes by phases; so do few plants with one."""
    draws = Draws(117)
    for k in range(60):
        units, count = ((2, 6), (5, 15), (12, 36), (32, 96))[k % 4]
        streams = drawn_streams(draws, units, count, draws.pick((60, 85, 100)), draws.pick((9, MOST)), (1, 10, 1_000))
        size = draws.pick((9, 5_000, MOST, RANGE))
        streams = with_ranges(draws, units, streams, draws.pick((30, 100)), size, ("wide", "tight", "point", "any", "edge")[k % 5])
        yield Unhinted(plant_file(units, streams), None)
