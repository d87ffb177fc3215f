"""The cases of the survey: by hand, drawn, and each refusal in its order."""

from reference import samples, shapes
from reference.parts import (
    Draws, LayoutText, Survey, end_record, metered, metered_record, plant_file, ranged, ranged_record, site_record, stream_record,
    unmetered,
)
from reference.survey import TEXT_LENGTH

# Plants whose counts can be told by hand, with these.
BY_HAND = (
    (1, [], [1]),
    (1, [(0, 1)], [1, 1]),  # a dead end is forced to 0
    (1, [(0, 1), (1, 0)], [0, 2, 1]),  # one meter tells both
    (2, [(0, 1), (1, 2), (1, 2), (2, 0)], [0, 0, 5, 4, 1]),  # the listing's plant
    (3, [(1, 2), (2, 3), (3, 1)], [0, 3, 3, 1]),  # a ring away from the outside
    (2, [(0, 1), (0, 2)], [1, 2, 1]),  # two dead ends
    (1, [(0, 1)] * 3, [0, 0, 3, 1]),  # side by side
    (1, [(0, 1)] * 12, [0] * 11 + [12, 1]),
    (12, [(k, k + 1) for k in range(12)], [1, 12, 66, 220, 495, 792, 924, 792, 495, 220, 66, 12, 1]),  # a path: no loop
    (11, [(k, k + 1) for k in range(11)] + [(11, 0)], [0, 12, 66, 220, 495, 792, 924, 792, 495, 220, 66, 12, 1]),  # a ring
)


def streams_of(ends, meters=()):
    return [metered(a, b, 100) if k in meters else unmetered(a, b) for k, (a, b) in enumerate(ends)]


def surveys():
    draws = Draws(1_201)
    for units, ends, counts in BY_HAND:
        yield Survey(plant_file(units, streams_of(ends)), 0, counts)
        yield Survey(plant_file(units, streams_of(ends, range(len(ends)))), 0, counts)
    # Places far apart, either way round, and units without streams.
    yield Survey(plant_file(32, [unmetered(32, 0), unmetered(0, 32), unmetered(31, 32)]), 0)
    for shape in (shapes.path, shapes.star, shapes.ring, shapes.ladder, shapes.tree, shapes.two_pieces):
        for units in (2, 3, 4, 5, 6, 8):
            ends = [(a, b) for a, b in shape(units) if a != b][:12]
            yield Survey(plant_file(units, streams_of(ends, (0, 3))), 0)
    # Metering and ranges play no part: a plant without a flow in range is surveyed.
    yield Survey(plant_file(1, [ranged(0, 1, 0, 1, 1)]), 0, [1, 1])
    yield Survey(plant_file(2, [ranged(0, 1, 7, 5, 6), unmetered(1, 2), metered(2, 0, 9), ranged(1, 0, 1, 9, 9)]), 0)
    for count in range(13):
        for units in (1, 2, 4, 7, 32):
            streams = []
            for _ in range(count):
                source, target = draws.two_places(units)
                kind = draws.between(0, 2)
                meter = (source, target, draws.between(-100, 100))
                streams.append((unmetered(source, target), metered(*meter), ranged(*meter, 5, 6))[kind])
            yield Survey(plant_file(units, streams), 0)
    yield from refused(draws)


def refused(draws):
    good, free = metered_record(0, 1, 10, 100), stream_record(unmetered(0, 1))
    many = plant_file(1, [unmetered(0, 1)] * 13)
    for count in (13, 14, 50, 95, 96):
        yield Survey(plant_file(1, [metered(0, 1, 7)] * count), 23)
        yield Survey(plant_file(2, [unmetered(*draws.two_places(2)) for _ in range(count)]), 23)
    # 23 comes after all that the file itself is refused for.
    yield Survey(many[:-1], 3)
    yield Survey(many[:-2] + b"\x05\x0d", 4)
    yield Survey(site_record(1) + free * 97 + end_record(97), 5)
    yield Survey(site_record(0) + free * 13 + end_record(13), 6)
    yield Survey(site_record(1) + free * 13 + stream_record(unmetered(0, 2)) + end_record(14), 7)
    yield Survey(site_record(1) + free * 13 + stream_record(unmetered(1, 1)) + end_record(14), 8)
    yield Survey(site_record(1) + free * 13 + metered_record(0, 1, 0, 5) + end_record(14), 9)
    yield Survey(site_record(1) + free * 13 + metered_record(0, 1, 1, 4_000_001) + end_record(14), 10)
    yield Survey(site_record(1) + free * 13 + ranged_record(0, 1, 1, 0, 1, 0) + end_record(14), 18)
    yield Survey(site_record(1) + free * 13 + end_record(12), 11)
    yield Survey(many + b"\0", 12)
    yield Survey(site_record(1) + good + ranged_record(0, 1, 1, 0, 6, 5) + end_record(2), 18)
    yield Survey(b"", 3)


def texts():
    listing = samples.LISTING.file
    for units, ends, _ in BY_HAND:
        yield LayoutText(plant_file(units, streams_of(ends)))
    for file in (listing[:20], b"", plant_file(1, [unmetered(0, 1)] * 13), plant_file(1, [ranged(0, 1, 0, 1, 1)])):
        yield LayoutText(file)
    for length in (0, TEXT_LENGTH - 1, TEXT_LENGTH, TEXT_LENGTH + 1, 1_000):
        yield LayoutText(listing, length)
