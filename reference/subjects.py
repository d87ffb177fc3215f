"""The cases by subject: each function makes the cases of one file."""

import math

from reference import (
    charges_to_try, close_to_try, compressions_to_try, files_to_try, foreign, foreign_to_try, layouts_to_try, moves_to_try,
    offices_to_try, plants_to_try, published_to_try, purchases_to_try, ranges_to_try, refusals, samples, shapes, sheets_to_try, signals_to_try,
    solver, visits_to_try
)
from reference.parts import (
    Case, Draws, balanced_amounts, end_record, metered, metered_record, plant_file, read_with_noise,
    site_record, taken, unmetered,
)
from reference.solver import LAST_SHEET, READING as MOST, SHEET_LENGTH


# Plants to try, and their edges


def plants():
    line = [metered(0, 1, 100), metered(1, 0, 103)]

    def weighed(weight, place):
        records = [metered_record(0, 1, 10, 100), metered_record(1, 2, 10, 90), metered_record(2, 0, 10, 95)]
        records[place] = metered_record(place, (place + 1) % 3, weight, 100)
        return site_record(2) + b"".join(records) + end_record(3)

    def read(reading, place):
        records = [metered_record(0, 1, 10, 100), metered_record(1, 2, 10, 90), metered_record(2, 0, 10, 95)]
        records[place] = metered_record(place, (place + 1) % 3, 10, reading)
        return site_record(2) + b"".join(records) + end_record(3)

    for place in range(3):
        for weight in (1, 2, 999, 1_000):
            yield Case(weighed(weight, place), expected=0)
        for weight in (0, 1_001, 1_024, 0x8000, 0xFFFF):
            yield Case(weighed(weight, place), expected=9)
        for reading in (-MOST, 1 - MOST, -1_000_001, -1, 0, 1, 1_000_001, MOST - 1, MOST):
            yield Case(read(reading, place), expected=0)
        for reading in (-MOST - 1, MOST + 1, -(2**31), 2**31 - 1):
            yield Case(read(reading, place), expected=10)
    for units in (1, 2, 31, 32):
        yield taken(units, [])
        yield taken(units, line)
        yield taken(units, [metered(0, units, 5), unmetered(units, 0)])
    for units in (0, 33, 34, 128, 255):
        yield Case(plant_file(units, []), expected=6)
        yield Case(plant_file(units, line), expected=6)
    for count in (95, 96):
        yield taken(1, [metered(0, 1, 7)] * count)
        yield taken(1, [unmetered(0, 1)] * count)
        yield taken(2, ([metered(0, 1, 7), unmetered(1, 2), metered(2, 0, 8)] * 32)[:count])
    for count in (97, 98, 105):
        yield Case(plant_file(1, [metered(0, 1, 7)] * count), expected=5)
        yield Case(plant_file(1, [unmetered(0, 1)] * count), expected=5)
        yield Case(plant_file(2, ([metered(0, 1, 7), unmetered(1, 2), metered(2, 0, 8)] * 40)[:count]), expected=5)
    for length in (SHEET_LENGTH, SHEET_LENGTH + 1, 1_000):
        yield taken(1, line, slice_length=length)
        yield taken(1, [metered(0, 1, 7)] * 96, slice_length=length)
    for length in (SHEET_LENGTH - 1, 868, 0):
        yield Case(plant_file(1, line), slice_length=length, expected=1)
        yield Case(plant_file(1, [metered(0, 1, 7)] * 96), slice_length=length, expected=1)
    # Rounding stream by stream would not balance these.
    yield taken(1, [metered(0, 1, 10), metered(1, 0, 4), metered(1, 0, 4), metered(1, 0, 4)])
    yield taken(1, [metered(0, 1, 9), metered(1, 0, 4), metered(1, 0, 4)])
    yield taken(2, [metered(0, 1, 7), metered(1, 2, 5), metered(2, 0, 6), metered(1, 0, 1)])
    # Streams hanging off a loop are given; a metered dead end is forced to 0.
    yield taken(3, [metered(0, 1, 50), unmetered(1, 2), unmetered(2, 1), unmetered(2, 3), metered(3, 0, 50)])
    yield taken(4, [unmetered(0, 1), unmetered(1, 2), unmetered(2, 0), unmetered(2, 3), unmetered(3, 4)])
    yield taken(2, [metered(0, 1, 20), unmetered(1, 0), metered(2, 1, 9)])
    yield taken(2, [metered(0, 1, -20), metered(1, 2, 0)])


# Ties


def tied(streams, units):
    """Whether another flow costs as much: the greatest cheapest flow is not the least one."""
    plant = solver.Plant(units, tuple(streams))
    return any(s.weight and x != y for s, x, y in zip(streams, solver.cheapest_flow(plant), foreign.last_flow(plant)))


def ties():
    draws = Draws(101)
    # In and out of one unit, equal weights: every remainder over up to 9 streams.
    for count in range(2, 10):
        for over in range(1, count):
            if over < 4 or over == count - 1:
                yield taken(1, [metered(0, 1, 100 + over)] + [metered(1, 0, 100)] + [metered(1, 0, 0)] * (count - 2))
    # Streams in series.
    for length in range(1, 9):
        for first in (1, 2, 3):
            readings = [first] + [0] * (length - 1) + [first * length]
            places = list(range(length + 1)) + [0]
            yield taken(length, [metered(a, b, r) for a, b, r in zip(places, places[1:], readings)])
    # Pairs of streams in parallel, in series with one another.
    for length in (1, 2, 3, 4, 5):
        for weight in (1, 10, 1_000):
            places = list(range(length + 1)) + [0]
            streams = []
            for k, (a, b) in enumerate(zip(places, places[1:])):
                streams += [metered(a, b, 3 * k, weight), metered(a, b, 5 - k, weight)]
            yield taken(length, streams)
    # Drawn plants, kept only if the tie rule decides.
    kept = 0
    while kept < 100:
        units = draws.between(1, 6)
        weights = draws.pick(((1,), (10,), (1_000,), (1, 2), (1, 3), (2, 2, 4)))
        per_cent = draws.pick((60, 85, 100))
        span = draws.pick((1, 3, 20, MOST))
        streams = []
        for _ in range(draws.between(2, 14)):
            source, target = draws.two_places(units)
            if draws.chance(per_cent):
                streams.append(metered(source, target, draws.between(-span, span), draws.pick(weights)))
            else:
                streams.append(unmetered(source, target))
        if tied(streams, units):
            kept += 1
            yield taken(units, streams)


# Plants as a site has them


def sites():
    draws = Draws(102)
    units, streams = samples.STEAM_SITE.units, samples.STEAM_SITE.streams
    yield taken(len(units), streams)
    for k in range(130):
        boilers = draws.between(1, 5)
        turbines = draws.between(0, 5)
        buildings = draws.between(1, 27 - boilers - turbines if k % 3 == 0 else 8)
        units, streams = shapes.site_streams(draws, boilers, turbines, buildings, draws.pick((100, 85, 70, 50, 30)))
        amounts = balanced_amounts(draws, units, streams, 40, draws.pick((40, 2_000, 20_000)))
        streams = read_with_noise(draws, streams, amounts)
        if k % 4 == 3:
            # One meter far off.
            far = draws.between(0, len(streams) - 1)
            if streams[far].weight:
                streams[far] = streams[far]._replace(reading=draws.between(-MOST, MOST))
        yield taken(units, streams, last=draws.between(0, 10_000), slice_length=draws.between(SHEET_LENGTH, 1_000))


# Drawn plants of all sizes


def drawn_streams(draws, units, count, per_cent, weights, readings):
    streams = []
    for _ in range(count):
        source, target = draws.two_places(units)
        if draws.chance(per_cent):
            streams.append(metered(source, target, readings(), weights()))
        else:
            streams.append(unmetered(source, target))
    return streams


def sizes():
    draws = Draws(103)
    weights = (
        lambda: draws.between(1, 1_000),
        lambda: draws.pick((1, 1_000)),
        lambda: 10,
        lambda: draws.pick((1, 2, 3)),
    )
    readings = (
        lambda: draws.between(-MOST, MOST),
        lambda: draws.pick((-MOST, MOST)),
        lambda: draws.pick((-MOST, MOST, 0, 1, -1, MOST - 1)),
        lambda: draws.between(-50, 50),
        lambda: draws.between(MOST - 9, MOST),
    )
    for k in range(170):
        units = draws.between(1, 32)
        count = 96 if k % 5 == 0 else draws.between(0, 96)
        if k % 10 == 0:
            units = 32
        per_cent = draws.pick((100, 100, 90, 70, 50, 20))
        streams = drawn_streams(draws, units, count, per_cent, draws.pick(weights), draws.pick(readings))
        yield taken(units, streams, last=draws.between(0, LAST_SHEET - 1), slice_length=draws.between(SHEET_LENGTH, 1_000))


# Unmetered streams: loops, and streams hanging off them


def loops():
    draws = Draws(105)
    for _ in range(120):
        units = draws.between(2, 32)
        most = draws.pick((12, 40, 96))
        hung = draws.pick((15, 45, 75, 95))
        places = draws.shuffled(range(units + 1))
        # A loop of some places, the others hung on one by one or not, more loops closed here and there.
        loop = places[: draws.between(2, min(units + 1, 6))]
        streams = [unmetered(a, b) for a, b in zip(loop, loop[1:])]
        if draws.chance(80):
            streams.append(unmetered(loop[-1], loop[0]))
        for used in range(len(loop), units + 1):
            if draws.chance(hung):
                other = places[draws.between(0, used - 1)]
                streams.append(unmetered(*draws.shuffled((places[used], other))))
        for _ in range(draws.pick((0, 0, 1, 2, 5))):
            streams.append(unmetered(*draws.two_places(units)))
        span = draws.pick((5, 5_000, MOST))
        while len(streams) < most and draws.chance(93):
            source, target = draws.two_places(units)
            streams.append(metered(source, target, draws.between(-span, span), draws.between(1, 1_000)))
        yield taken(units, draws.shuffled(streams)[:96])


# Costs at the critical values


def weighed_squares(cost, count):
    """(weight, reading) of up to `count` dead ends whose costs sum to `cost`, or None."""
    if cost == 0:
        return []
    if count == 0:
        return None
    for weight in range(1, 1_001):
        reading = math.isqrt(cost // weight)
        if weight * reading * reading == cost:
            return [(weight, reading)]
    for weight in range(1, 60) if count > 1 else ():
        reading = math.isqrt(cost // weight)
        for less in range(reading, max(0, reading - 20), -1):
            rest = weighed_squares(cost - weight * less * less, count - 1)
            if rest is not None:
                return [(weight, less)] + rest
    return None


def one_degree(cost):
    """Streams in and out of one unit whose cheapest flow has this cost."""
    for first in range(1, 1_001):
        for second in range(1, first + 1):
            # Readings d and 0: the flow x costs first * (x - d)^2 + second * x^2.
            apart = math.isqrt(cost * (first + second) // (first * second))
            for d in (apart - 1, apart, apart + 1):
                if d > 0:
                    x = (2 * first * d + first + second) // (2 * (first + second))
                    if first * (x - d) ** 2 + second * x * x == cost:
                        return [metered(0, 1, d, first), metered(1, 0, 0, second)]
    raise ValueError(f"no plant of one degree found for cost {cost}")


def verdicts():
    """For each number of degrees a cost one below, at, and one above the critical value."""
    for degrees, value in enumerate(solver.CRITICAL, 1):
        for cost in (value - 1, value, value + 1):
            ends = weighed_squares(cost, min(degrees, 2))
            if ends is None:
                streams = one_degree(cost)
                if degrees > 1:
                    raise ValueError(f"no dead ends found for cost {cost}")
            else:
                ends += [(1, 0)] * (degrees - len(ends))
                streams = [metered(0, k, r if k % 2 else -r, w) for k, (w, r) in enumerate(ends, 1)]
            plant = solver.Plant(degrees, tuple(streams))
            result = solver.balance(plant)
            near = 4 * (cost - value) <= sum(s.weight for s in streams)  # all of them are A
            meant = solver.PASS if cost <= value else solver.CLOSE if near else solver.FAIL
            if (result.cost, result.degrees, result.verdict) != (cost, degrees, meant):
                raise ValueError(f"{plant} misses cost {cost}")
            yield taken(degrees, streams)


# The limits


def limits():
    draws = Draws(106)
    for sign in (1, -1):
        # The dearest plants: all readings in one direction, nothing to send them back.
        yield taken(1, [metered(0, 1, sign * MOST, 1_000)] * 96)
        yield taken(1, [metered(k % 2, 1 - k % 2, sign * MOST * (-1) ** k, 1_000) for k in range(96)])
        yield taken(32, [metered(k // 3, k // 3 + 1, sign * MOST, 1_000) for k in range(96)])
        yield taken(32, [metered(0, 1 + k % 32, sign * MOST, 1_000) for k in range(96)])
        # The greatest given flow, forward and backward.
        yield taken(1, [metered(0, 1, sign * MOST, 1_000)] * 95 + [unmetered(1, 0)])
        yield taken(1, [unmetered(0, 1)] + [metered(0, 1, sign * MOST, 1)] * 95)
        yield taken(32, [metered(0, 1, sign * MOST)] * 64 + [unmetered(k, k + 1) for k in range(1, 32)] + [unmetered(0, 32)])
        yield taken(32, [metered(0, 1, sign * MOST)] * 63 + [unmetered(k, k + 1) for k in range(1, 32)] + [unmetered(0, 32)] * 2)
        # The greatest adjusted flows: many heavy streams against light ones, over one stretch and over many.
        yield taken(1, [metered(0, 1, sign * MOST, 1_000)] * 95 + [metered(1, 0, -sign * MOST, 1)])
        yield taken(1, [metered(1, 0, -sign * MOST, 1)] + [metered(0, 1, sign * MOST, 1_000)] * 95)
        yield taken(32, [metered(0, 1, sign * MOST, 1_000)] * 64 + [metered(a, b, -sign * MOST, 1) for a, b in shapes.path(32)[1:]])
        # Everything as read: a chain of unmetered streams joins all places.
        joins = [unmetered(k, k + 1) for k in range(32)]
        yield taken(32, joins + [metered(*draws.two_places(32), sign * MOST, 1_000) for _ in range(64)])
        # A long way round: heavy streams along the path, one light one back.
        yield taken(32, [metered(a, b, sign * MOST, 1_000) for a, b in shapes.path(32)[:-1]] + [metered(32, 0, -sign * MOST, 1)])
        yield taken(32, [metered(a, b, -sign * MOST, 1) for a, b in shapes.path(32)[:-1]] + [metered(32, 0, sign * MOST, 1_000)])
        # Three streams beside each stretch of the path.
        yield taken(31, [metered(a, b, sign * MOST * (-1) ** k, 1_000 if k % 3 else 1) for k, (a, b) in enumerate(shapes.path(31) * 3)])
    for per_cent in (100, 100, 100, 100, 60, 60, 30, 30):
        for weights in ((1_000,), (1, 1_000), (999, 1_000)):
            streams = []
            while len(streams) < 96:
                source, target = draws.two_places(32)
                if draws.chance(per_cent):
                    streams.append(metered(source, target, draws.pick((-MOST, MOST)), draws.pick(weights)))
                else:
                    streams.append(unmetered(source, target))
            yield taken(32, streams, last=LAST_SHEET - 1, slice_length=draws.pick((SHEET_LENGTH, 1_000)))


# A name, what makes its cases, and what they try (for the table of reference/README.md).
SUBJECTS = (
    ("plants", plants, "the plants to try that are not in the proved table, and their edges"),
    ("ties", ties, "equal weights, parallel and serial streams; drawn plants where the tie rule decides"),
    ("sites", sites, "steam and condensate sites, readings near a balanced flow, errors by weight, some with one meter far off"),
    ("sizes", sizes, "drawn plants of all sizes, extreme readings"),
    ("shapes", shapes.cases, "paths, stars, rings, ladders, trees, 96 parallel streams, weights 1 and 1,000 side by side, several pieces, units without streams"),
    ("loops", loops, "many unmetered streams, loops and streams hanging off them"),
    ("verdicts", verdicts, "for each number of degrees a cost one below, at, and one above the critical value; some of these are close"),
    ("limits", limits, "the dearest plants, the greatest flows, 32 units with 96 streams"),
    ("damaged", refusals.damaged, "each refusal 3 to 12 and 18, cut files, changed bytes, bytes after the end"),
    ("calls", refusals.calls, "office 0: slices, last sheet numbers, the order of refusals 1, 2, then the file's"),
    ("classes", plants_to_try.classes, "plants with classes and degrees by hand: loops, streams hanging off them, parallel streams, pieces, ladders, all 32 units"),
    ("flows", plants_to_try.flows, "plants with known flows"),
    ("reader", files_to_try.reader, "the plant reader: each refusal, their order, the limits, a file cut at every byte, the longest file, every stream record"),
    ("writer", files_to_try.writer, "the plant writer: each refusal and their order, slices around 1,636 bytes, what is written and what is left alone"),
    ("unhinted", plants_to_try.unhinted, "the solver without a hint, on plants with known flows"),
    ("listings", files_to_try.listings, "the listing: the samples, fail, close, none with R and G, flows that run backwards, no streams, refusals, 96 streams, ranges, slices too short"),
    ("kept", sheets_to_try.kept, "the sheet reader: fields at their edges, each refusal and their order, sheets cut at every byte, 96 and 97 records, changed bytes; totals of every office and plain ones"),
    ("signals", signals_to_try.translations, "the translator: halves on both sides of 0, −0.0, subnormal values, the edges of readings, NaNs and infinities; deviations whose square is 0 or infinite, ratios next to 1, 1,000 and 1,001; held weights; each refusal in its order; slices; a file cut at every byte"),
    ("ranges", ranges_to_try.ranges, "drawn plants with ranges, of all sizes; ranges round a balanced flow, round the readings, anywhere, at the edges"),
    ("range_ties", ranges_to_try.range_ties, "ties among flows in range; ties that an end blocks"),
    ("range_points", ranges_to_try.range_points, "low = high everywhere, ranges that leave one flow, ranges that miss by one"),
    ("range_sites", ranges_to_try.range_sites, "sites whose meters have the ranges of their pipes, some of them too small"),
    ("overfull", ranges_to_try.overfull, "no balanced flow in range: dead ends, at the limits by one, in several pieces, round unmetered chains, drawn with all streams ranged; and their neighbours that have one"),
    ("range_limits", ranges_to_try.range_limits, "costs of 2^62, 2^63 and 2^64, one and two below and above; readings far outside their range; streams pushed to 1.9 × 10^11; 32 units with 96 streams"),
    ("range_files", ranges_to_try.range_files, "damaged files with ranges, 18 and its limits, the order 9, 10, 18, 11, 12, 19"),
    ("range_phases", ranges_to_try.unhinted_ranges, "the solver without a hint, on plants with ranges"),
    ("compressions", compressions_to_try.compressions, "the compression, on made-up potentials"),
    ("moves", moves_to_try.moves_made, "the moves: each refusal both ways, 20 after all others, ranges next to the widest, slices, each plant there, home again, and home as it is"),
    ("moved_sheets", moves_to_try.moved_sheets, "sheet calls before and after the move: plants without ranges, and the two mixed plants"),
    ("close", close_to_try.close, "for several degrees and weights of the A streams, the costs at the critical value, one above, the last that is close, the first that fails; costs near multiples of 2^62; no degrees with a cost"),
    ("purchases", purchases_to_try.cases, "meters to buy: the samples, parallel streams, rings, drawn plants, prices that tie; 21 and its limits, a file's refusals before it, slices around 96 elements"),
    ("surveys", layouts_to_try.surveys, "the survey of meter layouts: plants with counts by hand, shapes, drawn plants of 0 to 12 streams, metered and ranged as they come; 23 and its order"),
    ("layouts", layouts_to_try.texts, "the text of a survey: the same by hand, refusals, slices too short"),
    ("visits", visits_to_try.cases, "meters worth a visit: lists by hand, the published serial system, no A streams; equal costs by number; costs at the cap; streams that join two groups; plants of all sizes, with and without ranges; one meter far off; 19; refusals in their order; slices"),
    ("visit_texts", visits_to_try.texts, "their text: the same by hand, the samples, 96 lines at the cap, refusals, slices too short"),
    ("offices", offices_to_try.cases, "sheet calls by any office: no number left, offices above 7, the order 1, 22, 2, the file's, 19; sequences of calls by drawn offices, the last numbers handed on"),
    ("charges", charges_to_try.cases, "steam charges: shares on both sides of zero, missing cents and who gets them, credits, given flows, flows at an end of a range, a sheet that fails; 24 and 25, their limits and their order; the greatest flows and 95 charges"),
    ("foreign", foreign_to_try.checks, "the check of a sheet: for each rule sheets that break it and no other, ends that excuse, numbers at their limit, flows of 2^59 on 32 streams, totals of both kinds, refusals in their order; other sheets of the same cost, sheets with something changed"),
    ("place_numbers", foreign_to_try.numbers, "numbers of the places: drawn plants, each with our sheet and with another of the same cost, which must pass; slices around 33 numbers, each refusal"),
    ("published", published_to_try.published, "nine plants of examples in print, with their published classes and figures (docs/PUBLISHED.md)"),
)
