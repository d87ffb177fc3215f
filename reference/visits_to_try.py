"""The cases of meters worth a visit: by hand, equal costs, costs at the cap, drawn plants, sites, and each refusal in its order."""

from reference import samples, shapes
from reference.parts import (
    Draws, Visiting, VisitText, balanced_amounts, end_record, metered, metered_record, plant_file, ranged, ranged_record,
    read_with_noise, site_record, stream_record, unmetered, within,
)
from reference.ranges_to_try import drawn_streams, squares, with_ranges
from reference.solver import MOST_COST, RANGE, READING as MOST
from reference.visits import TEXT_LENGTH

# Three units in a row, the first fed back to from the second; six meters of weight 10. Published in tenths, with true flows of
# 100 150 50 100 200 200: the fourth meter is the one that is off, and without it the cost is 1,250.
SERIAL = 3, [
    metered(0, 1, 105), metered(1, 2, 145), metered(2, 1, 55), metered(0, 2, 140), metered(2, 3, 195), metered(3, 0, 205),
]

# Plants whose lists can be told by hand, with these.
BY_HAND = (
    (1, [], []),
    (2, samples.LISTING.streams, [(1, 0), (4, 0)]),
    (1, [metered(0, 1, 103), metered(1, 0, 60), metered(1, 0, 40)], [(1, 0), (2, 0), (3, 0)]),
    (1, [metered(0, 1, 100), metered(1, 0, 103)], [(1, 0), (2, 0)]),
    (1, [metered(0, 1, 7)], [(1, 0)]),  # a dead end
    (1, [metered(0, 1, 7)] * 12, [(k, 0) for k in range(1, 13)]),
    # Without the second meter the other two agree; without one of these the others are 4 apart.
    (2, [metered(0, 1, 100), metered(1, 2, 104), metered(2, 0, 100)], [(2, 0), (1, 80), (3, 80)]),
    (2, [metered(0, 1, 104), metered(1, 2, 100), metered(2, 0, 100)], [(1, 0), (2, 80), (3, 80)]),
    # Dead ends: what each costs by itself is saved.
    (3, [metered(0, 1, 1), metered(0, 2, 3), metered(0, 3, 2)], [(2, 50), (3, 100), (1, 130)]),
    # No A streams: as read, given, withheld; also where a stream as read costs something.
    (1, [metered(0, 1, 100), unmetered(1, 0)], []),
    (2, [unmetered(0, 1), unmetered(1, 2), unmetered(2, 0)], []),
    (1, [ranged(0, 1, 100, -5, 7), unmetered(1, 0)], []),
    # What a stream as read costs is in every entry.
    (2, [unmetered(0, 1), ranged(0, 1, 7, 0, 0), metered(0, 2, 5)], [(3, 490)]),
    (3, [unmetered(0, 1), ranged(0, 1, 7, 0, 0), metered(0, 2, 5), metered(3, 0, 6)], [(4, 740), (3, 850)]),
    # Its range goes with the meter; the other is then as read, or at the nearest value in range.
    (1, [metered(0, 1, 100), ranged(1, 0, 50, 60, 70)], [(2, 0), (1, 1_000)]),
    (1, [ranged(0, 1, 100, 0, 90), ranged(1, 0, 50, 60, 70)], [(1, 1_000), (2, 1_000)]),
    (1, [ranged(0, 1, 100, 0, 80), ranged(1, 0, 50, 60, 70)], [(1, 1_000), (2, 4_000)]),
    (1, [ranged(1, 0, 5, 5, 5), ranged(0, 1, 5, 5, 5)], [(1, 0), (2, 0)]),
    # Unmetered, the first stream joins units 1 and 2: the third, an A stream, is then at the nearest value in range, 15.
    (2, [metered(1, 2, 30), metered(0, 1, 40), ranged(1, 2, 9, 15, 20), metered(2, 0, 40)], [(3, 0), (1, 360), (2, 490), (4, 490)]),
)


# 96 streams are listed.
MOST_LISTED = 32, [metered(0, 1 + k % 32, k % 7) for k in range(96)]


def by_hand():
    for units, streams, listed in BY_HAND:
        yield Visiting(plant_file(units, streams), 0, listed)
    yield Visiting(plant_file(*SERIAL), 0, [(4, 1_250)])
    for sample in samples.SAMPLES + (samples.FAR_OFF_SITE,):
        yield Visiting(sample.file, 19 if sample is samples.OVERFULL_SITE else 0)
    # The slice: what lies past the list is as it was.
    for length, filling in ((864, 0), (864, 0xFF), (865, 0xA5), (1_000, 7), (2_560, 0xA5)):
        yield Visiting(samples.FAR_OFF_SITE.file, 0, slice_length=length, filling=filling)
        yield Visiting(plant_file(*MOST_LISTED), 0, slice_length=length, filling=filling)
        yield Visiting(b"", 3, slice_length=length, filling=filling)
        yield Visiting(plant_file(1, [ranged(0, 1, 0, 1, 1)]), 19, slice_length=length, filling=filling)


def equal_costs():
    """Many entries of one cost, in the order of their numbers; and costs that fall as the numbers rise."""
    for count in (2, 3, 12, 32):
        yield Visiting(plant_file(count, [metered(0, k, 5) for k in range(1, count + 1)]), 0)
        yield Visiting(plant_file(count, [metered(0, k, k) for k in range(1, count + 1)]), 0)
        yield Visiting(plant_file(count, [metered(0, k, count - k) for k in range(1, count + 1)]), 0)
        yield Visiting(plant_file(count, [metered(k, 0, 5 + k % 2) for k in range(1, count + 1)]), 0)
        yield Visiting(plant_file(count, [metered(0, count + 1 - k, 5 + k % 3, 1 + k % 2) for k in range(1, count + 1)]), 0)
    # Three beside each other: without one of them the other two are as read.
    yield Visiting(plant_file(*MOST_LISTED), 0)
    yield Visiting(plant_file(32, [metered(0, 1 + k // 3, k % 5, 1 + k % 4) for k in range(96)]), 0)
    # In a row: what each is off the others.
    for length in (2, 3, 7, 31):
        yield Visiting(plant_file(length, [metered(a, b, 100 + 10 * (a % 3)) for a, b in shapes.path(length)]), 0)
        yield Visiting(plant_file(length, [metered(a, b, 100) if a else metered(a, b, 200) for a, b in shapes.path(length)]), 0)


def at_the_cap(more, shares):
    """Dead ends that cost so much each, beside streams as read that cost the rest: all but share k come to 2^64 + more - share k."""
    rest = 2**64 + more - sum(shares)
    as_read = [unmetered(0, 1)] + [within(metered(0, 1, 0, weight), off, off) for weight, off in squares(rest)]
    ends = [metered(0, unit, 1, share) for unit, share in enumerate(shares, 2)]
    listed = sorted((min(2**64 + more - share, MOST_COST), len(as_read) + k) for k, share in enumerate(shares, 1))
    return Visiting(plant_file(len(shares) + 1, as_read + ends), 0, [(stream, cost) for cost, stream in listed])


def capped():
    """Costs at the cap and above: those above are equal, and stand by number."""
    for more in range(-2, 5):
        yield at_the_cap(more, (1, 2, 3))
        yield at_the_cap(more, (3, 2, 1))
        yield at_the_cap(more, (2, 1, 3, 1, 2))
    # All far above it, the dearer the higher the number: by cost alone the last would come first.
    for units in (2, 3, 8, 24, 32):
        there = [within(metered(0, k, 0, k), RANGE, RANGE) for k in range(1, units + 1)]
        back = [metered(k, 0, 0, 1_000) for k in range(1, units + 1)]
        yield Visiting(plant_file(units, there + back), 0)
        yield Visiting(plant_file(units, back[::-1] + there[::-1]), 0)
        yield Visiting(plant_file(units, [s for pair in zip(there, back) for s in pair]), 0)
    # Far above it but without one stream, or its range: that one comes first.
    far = within(metered(0, 1, 0, 1_000), RANGE, RANGE)
    yield Visiting(plant_file(1, [metered(0, 1, 3), metered(0, 1, 4), metered(1, 0, 9), far]), 0, [(4, 0)])
    yield Visiting(plant_file(2, [metered(0, 2, 3), metered(0, 1, 4), metered(1, 0, 9), far, metered(2, 0, 8)]), 0)
    for sign in (1, -1):
        point = within(metered(0, 1, -sign * MOST, 1_000), sign * RANGE, sign * RANGE)
        yield Visiting(plant_file(1, [point] * 47 + [metered(1, 0, 0, 1)]), 0)
        yield Visiting(plant_file(32, [point] * 30 + [metered(a, b, 0, 1_000) for a, b in shapes.path(32)[1:]]), 0)
        # The dearest plants without ranges.
        yield Visiting(plant_file(1, [metered(0, 1, sign * MOST, 1_000)] * 24), 0)
        yield Visiting(plant_file(32, [metered(0, 1 + k % 32, sign * MOST, 1_000) for k in range(96)]), 0)


def joining():
    """A stream that joins two groups when it is unmetered: others become as read, in range or not."""
    for low, high in ((0, 5), (9, 9), (20, 30), (-4, 8), (-RANGE, RANGE)):
        for first in (0, 2):
            streams = [metered(1, 2, 30), metered(0, 1, 40), metered(2, 0, 38)]
            streams.insert(first, within(metered(1, 2, 9), low, high))
            yield Visiting(plant_file(2, streams), 0)
            streams.insert(0, within(metered(2, 1, 3), low, high))
            yield Visiting(plant_file(2, streams), 0)
    # Pairs all along a path: each is as read when the other has no meter.
    for length in (1, 2, 5, 16):
        path = shapes.path(length)
        there = [within(metered(a, b, 50 + a), 40, 52) for a, b in path]
        yield Visiting(plant_file(length, there + [metered(b, a, 20 + a, 1 + a) for a, b in path]), 0)
        yield Visiting(plant_file(length, [unmetered(*path[0])] + there + [metered(b, a, 20 + a) for a, b in path]), 0)


def drawn():
    """Plants of all sizes, without ranges."""
    draws = Draws(801)
    spans = (1, 9, 400, MOST)
    for units, count, times in ((1, 4, 8), (3, 8, 16), (6, 18, 12), (12, 36, 8), (20, 60, 4), (32, 96, 5)):
        for k in range(times):
            weights = draws.pick(((10,), (1, 2, 3), (1, 1_000), tuple(range(1, 1_001))))
            streams = drawn_streams(draws, units, count, draws.pick((60, 85, 100)), spans[k % 4], weights)
            yield Visiting(plant_file(units, streams), 0)


def drawn_ranges():
    """The same with ranges of all kinds."""
    draws = Draws(802)
    spans = (3, 50, 5_000, MOST)
    for units, count, times in ((1, 4, 12), (3, 8, 20), (6, 18, 14), (12, 36, 8), (20, 60, 4), (32, 96, 6)):
        for k in range(times):
            weights = draws.pick(((10,), (1, 2, 3), (1, 1_000)))
            streams = drawn_streams(draws, units, count, draws.pick((70, 100)), spans[k % 4], weights)
            manner = ("wide", "tight", "near", "point", "any", "edge", "mixed")[k % 7]
            yield Visiting(plant_file(units, with_ranges(draws, units, streams, draws.pick((30, 100)), 2 * spans[k % 4], manner)))


def sites():
    """Sites with one meter far off."""
    draws = Draws(803)
    for k in range(28):
        sizes = (draws.between(1, 3), draws.between(0, 2), draws.between(1, 6)) if k < 20 else (5, 5, 17)
        units, streams = shapes.site_streams(draws, *sizes, draws.pick((100, 85, 70)))
        streams = read_with_noise(draws, streams, balanced_amounts(draws, units, streams, 60, draws.pick((2_000, 20_000))))
        meters = [i for i, s in enumerate(streams) if s.metered]
        far = draws.pick(meters)
        off = draws.pick((500, 5_000, -3_000, 40_000))
        streams[far] = streams[far]._replace(reading=streams[far].reading + off)
        if k % 3 == 1:
            streams = [within(s, min(0, s.reading), s.reading + 600) if s.metered and draws.chance(50) else s for s in streams]
        yield Visiting(plant_file(units, streams))


def overfull():
    """19, also where unmetering one of the streams would leave a flow in range."""
    dead_end = ranged(0, 1, 5, 1, 9)
    yield Visiting(plant_file(1, [dead_end]), 19)
    yield Visiting(plant_file(1, [within(dead_end, 0, 9)]), 0, [(1, 0)])
    yield Visiting(plant_file(2, [dead_end, metered(0, 2, 5)]), 19)
    yield Visiting(plant_file(1, [ranged(0, 1, 5, 6, 9), ranged(1, 0, 5, 1, 5)]), 19)
    yield Visiting(plant_file(1, [ranged(0, 1, 5, 5, 9), ranged(1, 0, 5, 1, 5)]), 0, [(1, 0), (2, 0)])
    yield Visiting(plant_file(1, [ranged(0, 1, 0, 1 - RANGE, RANGE), ranged(1, 0, 0, -RANGE, -RANGE)]), 19)
    # In two pieces, where no one meter's going would help.
    yield Visiting(plant_file(2, [dead_end, ranged(0, 2, 5, 1, 9)]), 19)
    yield Visiting(plant_file(4, [ranged(1, 2, 5, 5, 9), ranged(2, 1, 5, 10, 20), ranged(3, 4, 5, 5, 9), ranged(4, 3, 5, 9, 20)]), 19)
    for units in (3, 20, 32):
        ring = [within(metered(k, (k + 1) % (units + 1), 7 * k), 7, 7) for k in range(units + 1)]
        yield Visiting(plant_file(units, ring), 0)
        yield Visiting(plant_file(units, ring[:-1] + [within(ring[-1], 8, 9)]), 19)
        yield Visiting(plant_file(units, [within(ring[0], 5, 6)] + ring[1:]), 19)
    # A file's own faults come before it.
    full = stream_record(dead_end)
    yield Visiting(site_record(1) + full + end_record(2), 11)
    yield Visiting(site_record(1) + full + end_record(1) + b"\0", 12)
    yield Visiting(site_record(1) + full + end_record(1)[:1], 3)
    yield Visiting(site_record(1) + full + ranged_record(0, 1, 1, 0, 1, 0) + end_record(2), 18)


def refused():
    """The file's refusals, as the sheet call makes them."""
    listing, good = samples.LISTING.file, metered_record(0, 1, 10, 100)
    for length in range(len(listing)):
        yield Visiting(listing[:length], 3)
    yield Visiting(b"\x02" + listing[1:], 4)
    yield Visiting(listing[:2] + b"\x05" + listing[3:], 4)
    yield Visiting(plant_file(1, [metered(0, 1, 7)] * 97), 5)
    for units in (0, 33):
        yield Visiting(plant_file(units, [metered(0, 1, 7)]), 6)
    yield Visiting(plant_file(1, [metered(0, 2, 7)]), 7)
    yield Visiting(plant_file(1, [metered(1, 1, 7)]), 8)
    for weight in (1_001, 0xFFFF):
        yield Visiting(plant_file(1, [metered(0, 1, 7, weight)]), 9)
    for reading in (MOST + 1, -MOST - 1):
        yield Visiting(plant_file(1, [metered(0, 1, reading)]), 10)
    for low, high in ((1, 0), (-RANGE - 1, 0), (0, RANGE + 1)):
        yield Visiting(plant_file(1, [ranged(0, 1, 7, low, high)]), 18)
    yield Visiting(site_record(1) + good + end_record(0), 11)
    for after in (b"\0", b"\x04\x01", good):
        yield Visiting(listing + after, 12)
    # The first in file order.
    yield Visiting(site_record(1) + metered_record(0, 1, 0, MOST + 1) + ranged_record(0, 1, 1, 0, 1, 0), 9)
    yield Visiting(site_record(1) + ranged_record(0, 1, 1, MOST + 1, 1, 0), 10)
    yield Visiting(site_record(1) + ranged_record(0, 1, 1, 0, 1, 0) + metered_record(1, 1, 1, 0), 18)


def cases():
    for part in (by_hand, equal_costs, capped, joining, drawn, drawn_ranges, sites, overfull, refused):
        yield from part()


def texts():
    listing = samples.LISTING.file
    for units, streams, _ in BY_HAND:
        yield VisitText(plant_file(units, streams))
    yield VisitText(plant_file(*SERIAL))
    for sample in samples.SAMPLES + (samples.FAR_OFF_SITE,):
        yield VisitText(sample.file)
    # The longest text: 96 lines, every cost at the cap.
    far = [within(metered(0, k, 0, 1_000), RANGE, RANGE) for k in range(1, 33)]
    back = [metered(k, 0, 0, 1_000) for k in range(1, 33)]
    yield VisitText(plant_file(32, far + back + back))
    for file in (listing[:20], b"", listing + b"\0", plant_file(1, [ranged(0, 1, 0, 1, 1)])):
        yield VisitText(file)
    for length in (0, TEXT_LENGTH - 1, TEXT_LENGTH, TEXT_LENGTH + 1, 2_560):
        yield VisitText(listing, length)
