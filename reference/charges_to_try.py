"""Cases of the call over steam charges."""

from reference import charges, samples
from reference.charges import RATE
from reference.parts import Charging, Draws, balanced_amounts, drawn_meters, end_record, metered, plant_file, ranged, read_with_noise
from reference.parts import site_record, unmetered, within
from reference.solver import READING, Plant

FEW = 8  # up to so many charges every set of streams is tried as well


def charged(units, streams, rates, expected=0, cents=None):
    """A case; few charges by both ways."""
    if expected == 0 and len(rates) <= FEW:
        shares = [share for _, share in charges.shares_of(Plant(units, tuple(streams)), rates)]
        by_sort, by_sets = charges.shared(shares), charges.of_all_sets(shares)
        if by_sort != by_sets:
            raise ValueError(f"{shares}: {by_sort} by the sort, {by_sets} of all sets")
    return Charging(plant_file(units, streams), tuple(rates), expected, cents)


def flowing(*amounts):
    """One unit: streams to the outside that carry these amounts, and an unmetered one that brings them."""
    return [metered(1, 0, amount) for amount in amounts] + [unmetered(0, 1)]


def by_hand():
    """Charges that show one thing each."""
    # Around zero: each share to a ten-thousandth, on both sides.
    for amount in (-3, -2, -1, 0, 1, 2, 3):
        for rate in (0, 1, 4_999, 5_000, 5_001, 9_999, RATE):
            yield charged(1, flowing(amount), (rate,), cents=[amount * rate // 10_000])
    # Missing cents: to the largest remainders, equals to the lower stream.
    yield charged(1, flowing(1, 1, 1), (5_000,) * 3, cents=[1, 0, 0])
    yield charged(1, flowing(1, 1), (5_000,) * 2, cents=[1, 0])
    yield charged(1, flowing(-1, -1), (5_000,) * 2, cents=[0, -1])
    yield charged(1, flowing(1, -1), (5_000,) * 2, cents=[1, -1])
    yield charged(1, flowing(-1, 1), (5_000,) * 2, cents=[0, 0])
    yield charged(1, flowing(1, 1, 1), (3_333,) * 3, cents=[0, 0, 0])
    yield charged(1, flowing(1, 1, 1), (3_333, 3_334, 3_333), cents=[0, 1, 0])
    yield charged(1, flowing(1, 1, 1), (3_334, 3_333, 3_334), cents=[1, 0, 0])
    yield charged(1, flowing(-1, -1, -1), (3_333, 3_334, 3_333), cents=[0, -1, 0])
    yield charged(1, flowing(2, 1, 4), (9_999, 9_999, 9_999), cents=[2, 1, 3])
    yield charged(1, flowing(-2, -1, -4), (9_999, 9_999, 9_999), cents=[-2, -1, -4])
    # One ten-thousandth of a credit is rounded down to a cent, and its remainder is the largest.
    yield charged(1, flowing(-1, 1), (1, 1), cents=[0, 0])
    yield charged(1, flowing(-1, 0), (1, RATE), cents=[-1, 0])
    yield charged(1, flowing(1, -1, 1), (9_998, 1, 9_997), cents=[1, 0, 0])
    # Whole cents: none is missing.
    yield charged(1, flowing(7, -7, 0, 12), (RATE,) * 4, cents=[7, -7, 0, 12])
    # All streams but one get a cent.
    yield charged(1, flowing(*[1] * 5), (9_999,) * 5, cents=[1, 1, 1, 1, 0])
    # Nothing is charged: no streams, none to the outside; streams from the outside are not, whatever they carry.
    yield charged(1, [], ())
    yield charged(1, [metered(0, 1, 7)], ())
    yield charged(1, [metered(0, 1, -7), unmetered(0, 1)], ())
    yield charged(2, [metered(0, 1, 100), unmetered(1, 2), metered(2, 0, 98)], (RATE,), cents=[99])
    # A given stream is charged its number; one as read the nearest value in range; one at an end of its range.
    yield charged(1, [metered(0, 1, 103), unmetered(1, 0)], (2_500,), cents=[25])
    yield charged(1, [ranged(1, 0, 100, -5, 7), unmetered(0, 1)], (5_000,), cents=[3])
    yield charged(1, [ranged(0, 1, 100, 102, 105), metered(1, 0, 103)], (RATE,), cents=[102])
    # A sheet that fails is billed.
    yield charged(1, [metered(0, 1, 900, 1_000), metered(1, 0, 100, 1_000)], (RATE,), cents=[500])
    for sample, rates in samples.BILLS:
        yield charged(len(sample.units), sample.streams, rates, expected=25 if sample is samples.TWIN_LINES else 0)


def faults():
    """24 and 25, their limits and their order."""
    pair = [metered(1, 0, 5), metered(0, 1, 9), metered(1, 0, 4)]
    blank = [metered(1, 0, 5), unmetered(1, 0), unmetered(1, 0), metered(0, 1, 9)]
    none = [ranged(0, 1, 0, 1, 1), metered(2, 0, 5)]
    both = [ranged(0, 1, 0, 1, 1), unmetered(2, 0), unmetered(2, 0)]
    for rates in ((), (5,), (5, 3, 4), (5, 3, 4, 1), (RATE + 1, 3), (5, RATE + 1), (65_535, 3), (5, 65_535)):
        yield charged(1, pair, rates, expected=24)
    for rates in ((0, 0), (RATE, RATE), (0, RATE), (RATE, 0), (1, 1)):
        yield charged(1, pair, rates)
    yield charged(1, [], (0,), expected=24)
    yield charged(1, [metered(0, 1, 7)], (0,), expected=24)
    yield charged(1, flowing(*[3] * 95), [1] * 94, expected=24)
    yield charged(1, flowing(*[3] * 95), [1] * 96, expected=24)
    yield charged(1, flowing(*[3] * 95), [1] * 94 + [RATE + 1], expected=24)
    # A charged stream is withheld: 25, at rate 0 too; one that is not charged may be.
    for rates in ((0, 0, 0), (1, 0, 0), (0, 1, 1), (RATE,) * 3):
        yield charged(1, blank, rates, expected=25)
    for rates in ((), (1, 1), (1,) * 4, (0, 0, RATE + 1)):
        yield charged(1, blank, rates, expected=24)
    yield charged(1, [metered(1, 0, 5), unmetered(0, 1), unmetered(0, 1)], (7,))
    yield charged(1, [unmetered(0, 1), unmetered(1, 0)], (0,), expected=25)
    # 19 before both.
    for rates in ((3,), (), (1, 2), (RATE + 1,)):
        yield charged(2, none, rates, expected=19)
    for rates in ((0, 0), (0,), (RATE + 1, 0)):
        yield charged(2, both, rates, expected=19)
    # A file's refusals come first, whatever the rates.
    good = plant_file(1, pair)
    broken = (
        (b"", 3), (good[:-1], 3), (b"\x05", 4), (site_record(0), 6), (plant_file(1, [unmetered(0, 2)]), 7),
        (plant_file(1, [unmetered(1, 1)]), 8), (plant_file(1, [metered(1, 0, 5, 1_001)]), 9),
        (plant_file(1, [metered(1, 0, 4_000_001)]), 10), (site_record(2) + end_record(1), 11), (good + b"\x00", 12),
        (plant_file(1, [ranged(1, 0, 5, 9, 8)]), 18), (plant_file(1, [unmetered(1, 0)] * 97), 5),
    )
    for file, number in broken:
        for rates in ((), (5, 3), (RATE + 1,)):
            yield Charging(file, rates, expected=number)


def greatest():
    """The largest flows and charges, and as many as there may be."""
    for sign in (1, -1):
        for rate in (1, 3_333, 9_999, RATE):
            yield charged(1, flowing(*[sign * READING] * 95), [rate] * 95)
            yield charged(1, [metered(0, 1, sign * READING, 1_000)] * 95 + [unmetered(1, 0)], (rate,))
            # An end of a range far out: 1.9 × 10^11 on a stream without one.
            far = [within(metered(0, 1, 0), *[sign * 2_000_000_000] * 2)] * 95
            yield charged(1, far + [metered(1, 0, 0)], (rate,))
            yield charged(1, far + [unmetered(1, 0)], (rate,))
    draws = Draws(20_130)
    for top in (1, 2, 9, 10_000):
        amounts = [draws.between(-top, top) for _ in range(95)]
        yield charged(1, flowing(*amounts), [draws.between(0, RATE) for _ in amounts])
        yield charged(1, flowing(*amounts), [5_000] * 95)
        yield charged(1, flowing(*amounts), [draws.pick((3_333, 6_667)) for _ in amounts])


def drawn():
    """Plants of all sizes, rates that tie and rates that do not."""
    draws = Draws(20_131)
    for units, most, times in ((1, 6, 60), (3, 9, 60), (6, 24, 40), (12, 48, 20), (32, 96, 20)):
        for k in range(times):
            streams = []
            for _ in range(draws.between(1, most)):
                ends = draws.two_places(units) if draws.chance(50) else (draws.between(1, units), 0)
                meter = metered(*ends, draws.between(-30, 30), draws.between(1, 1_000))
                streams.append(unmetered(*ends) if draws.chance((5, 15, 40)[k % 3]) else meter)
            if draws.chance(40):
                streams = read_with_noise(draws, streams, balanced_amounts(draws, units, streams, 8, 5_000))
            count = sum(s.target == 0 for s in streams)
            rates = draws.pick(((0, RATE), (1, 1), (5_000, 5_000), (3_333, 3_334), (9_990, RATE)))
            yield charged(units, streams, [draws.between(*rates) for _ in range(count)], expected=None)
    for _ in range(10):
        streams = list(drawn_meters(draws, 4, 20))
        count = sum(s.target == 0 for s in streams)
        yield charged(4, streams, [draws.between(0, RATE) for _ in range(count)], expected=None)


def cases():
    yield from by_hand()
    yield from faults()
    yield from greatest()
    yield from drawn()
