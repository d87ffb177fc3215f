"""Sheets to check, drawn up here and elsewhere, and plants for numbers of the places."""

from reference import foreign, ranges_to_try, samples, shapes, solver
from reference.foreign import LIMIT, PLACES
from reference.parts import Checking, Draws, Numbering, metered, plant_file, ranged, unmetered, within
from reference.refusals import LISTING, LONGEST
from reference.sheets_to_try import plain, shown, total
from reference.solver import KIND, LAST_SHEET, Plant, read_plant, read_sheet, sheet_bytes

MOST_FILE = 1_400  # a longer plant file does not fit into a case beside its sheet and its numbers


def kept_bytes(kept):
    """The bytes of a sheet from what it shows."""
    records = b"".join(shown(KIND[letter], flow) for letter, flow in zip(kept.classes, kept.flows))
    return records + total(kept.number, kept.cost, kept.degrees, kept.verdict, kept.office if kept.kind == solver.TOTAL else None)


class Sheets:
    """A plant file, our sheet of it, another of the same cost where there is one, and numbers for both."""

    def __init__(self, units, streams, number=1, office=0):
        self.plant = Plant(units, tuple(streams))
        self.file = plant_file(units, streams)
        flow = solver.cheapest_flow(self.plant)
        self.ours = sheet_bytes(solver.balance_by(self.plant, flow), number, office)
        self.other = sheet_bytes(solver.balance_by(self.plant, foreign.last_flow(self.plant)), number, office)
        self.numbers = tuple(foreign.numbers_for(self.plant, flow))

    def passes(self, sheet=None, numbers=None):
        return Checking(self.file, self.ours if sheet is None else sheet, self.numbers if numbers is None else tuple(numbers), 0)

    def breaks(self, rules, sheet=None, numbers=None, **changes):
        """A sheet, or ours with changes, that breaks these rules and no others."""
        kept = read_sheet(self.ours if sheet is None else sheet)._replace(**changes)
        numbers = self.numbers if numbers is None else tuple(numbers)
        found = set(foreign.broken(self.plant, kept, numbers))
        if found != set(rules):
            raise ValueError(f"{self.plant}: {sorted(found)} are broken, not {sorted(rules)}")
        return Checking(self.file, kept_bytes(kept), numbers, 26)


def changed(sequence, place, value):
    return tuple(value if k == place else x for k, x in enumerate(sequence))


# One unit; in 103 within 0 to 100, out 60 and 40: at high.
LINE = [metered(0, 1, 100), metered(1, 0, 103)]
HIGH = [ranged(0, 1, 103, 0, 100), metered(1, 0, 60), metered(1, 0, 40)]
LOW = [ranged(0, 1, 97, 100, 200), metered(1, 0, 60), metered(1, 0, 40)]


def rules():
    """For each rule a sheet that breaks it and no other."""
    listing = Sheets(2, samples.LISTING.streams)
    yield listing.passes()
    yield listing.breaks({"one number for each place"}, numbers=listing.numbers[:-1])
    yield listing.breaks({"one number for each place"}, numbers=listing.numbers + (0,))
    yield listing.breaks({"one number for each place"}, numbers=())
    yield listing.breaks({"one number for each place"}, numbers=(0,) * 40)
    yield listing.breaks({"classes"}, classes="RWWA")
    yield listing.breaks({"classes"}, classes="AGWA")
    yield listing.breaks({"classes"}, classes="AWWR")
    yield listing.breaks({"classes"}, classes="AWW", flows=(99, 0, 0))
    yield listing.breaks({"classes"}, classes="AWWAW", flows=(99, 0, 0, 99, 0))
    yield listing.breaks({"degrees"}, degrees=2)
    yield listing.breaks({"degrees", "verdict"}, degrees=0, verdict=2)
    for cost in (0, 19, 21, 2**64 - 1):
        yield listing.breaks({"cost"}, cost=cost)
    for verdict in (1, 3):
        yield listing.breaks({"verdict"}, verdict=verdict)
    yield listing.breaks({"equal numbers"}, numbers=(0, -10, -11))
    yield listing.breaks({"equal numbers"}, numbers=(0, -11, -10))
    # The outside against the rest: from −30 to −10 all numbers pass.
    for x, found in ((-31, {"bottom", "top"}), (-30, set()), (-29, set()), (-11, set()), (-10, set()), (-9, {"bottom", "top"})):
        numbers = (0, x, x)
        yield listing.breaks(found, numbers=numbers) if found else listing.passes(numbers=numbers)
    yield listing.breaks({"sums"}, flows=(99, 0, 0, 98))
    yield listing.breaks({"bottom"}, flows=(100, 0, 0, 100))
    # A G stream's flow, and nothing else, is wrong.
    given = Sheets(1, [metered(0, 1, 100), unmetered(1, 0)])
    yield given.passes()
    yield given.breaks({"sums"}, flows=(100, 101))
    yield given.breaks({"sums"}, flows=(100, -100))
    yield given.breaks({"sums"}, flows=(100, 2**63 - 1))
    # The top alone and the bottom alone.
    dead = Sheets(1, [metered(0, 1, 7)])
    yield dead.passes()
    for x, found in ((-151, {"bottom"}), (-150, set()), (-130, set()), (-129, {"top"})):
        yield dead.breaks(found, numbers=(0, x)) if found else dead.passes(numbers=(0, x))
    # Out of range, and nothing else: the cost told is ours, and the numbers are within the bounds of the flow.
    tight = Sheets(1, [ranged(0, 1, 103, 0, 100), metered(1, 0, 103)])
    yield tight.breaks({"range"}, numbers=(0, 0), flows=(103, 103))
    yield tight.breaks({"range"}, numbers=(0, -5), flows=(103, 103))
    full = samples.OVERFULL_SITE
    count = len(full.streams)
    yield Checking(full.file, shown(KIND["A"], 5) * count + total(), (0,) * (len(full.units) + 1), 26)


def ends():
    """A flow at an end of its range: which bound is excused."""
    high, low = Sheets(1, HIGH), Sheets(1, LOW)
    # The streams out ask for a number from −10 to 10; the stream in, of −70 to −50 at high and of 50 to 70 at low, is excused.
    for sheets in (high, low):
        for x in (-LIMIT, -71, -70, -50, -49, -11, -10, 0, 10, 11, 49, 50, 70, 71, LIMIT):
            if abs(x) <= 10:
                yield sheets.passes(numbers=(0, x))
            else:
                beyond = {"top"} if sheets is low and x > 70 else {"bottom"} if sheets is high and x < -70 else set()
                yield sheets.breaks(beyond | ({"bottom"} if x > 0 else {"top"}), numbers=(0, x))
    # The same sheets and numbers without a range, or with that flow at the other end: the bound is asked.
    for sheet, rule, reading, others in (
        (high.ours, "top", 103, ((None, None), (100, 200))),
        (low.ours, "bottom", 97, ((None, None), (0, 100))),
    ):
        for ends_of in others:
            stream = metered(0, 1, reading)
            other = Sheets(1, [stream if ends_of[0] is None else within(stream, *ends_of), *HIGH[1:]])
            yield other.passes()
            yield other.breaks({rule, "cost"}, sheet=sheet, numbers=(0, 0))
    # Low = high excuses both; beyond an end no number excuses.
    point = Sheets(1, [ranged(0, 1, 7, 100, 100), metered(1, 0, 60), metered(1, 0, 40)])
    for x in (-10, 0, 10):
        yield point.passes(numbers=(0, x))
    yield point.breaks({"range", "bottom"}, numbers=(0, 0), flows=(101, 61, 40))
    yield point.breaks({"range", "bottom", "top"}, numbers=(0, 0), flows=(99, 60, 39))
    alone = Sheets(2, [ranged(0, 1, 5, 0, 0), metered(2, 1, 0)])
    for x in (-LIMIT, -1, 0, 1, LIMIT):
        yield alone.passes(numbers=(0, x, x))


def limits():
    """Numbers at their limit, and flows that only exact sums refuse."""
    lone = Sheets(2, LINE)
    for x in (0, 1, -1, LIMIT - 1, LIMIT, 1 - LIMIT, -LIMIT):
        yield lone.passes(numbers=lone.numbers[:2] + (x,))
    for x in (LIMIT + 1, -LIMIT - 1, 2**63 - 1, -(2**63)):
        yield lone.breaks({"numbers within their limit"}, numbers=lone.numbers[:2] + (x,))
    # All numbers raised alike.
    low, high = min(lone.numbers[:2]), max(lone.numbers[:2])
    for by in (LIMIT - high, -LIMIT - low):
        yield lone.passes(numbers=tuple(x + by for x in lone.numbers[:2]) + (0,))
    for by in (LIMIT - high + 1, -LIMIT - low - 1):
        yield lone.breaks({"numbers within their limit"}, numbers=tuple(x + by for x in lone.numbers[:2]) + (0,))
    # Flows of 2^59 on 32 parallel streams: they sum to 2^64, and weight × (2d ± 1) is ±16 beside a multiple of 2^64.
    top = solver.MOST_COST
    for flow, count in ((2**59, 32), (-(2**59), 32), (2**60, 16), (2**61, 8), (2**62, 4), (-(2**63), 2)):
        streams = [metered(0, 1, 0, 16)] * count
        file = plant_file(1, streams)
        for cost, verdict in ((top, 1), (0, 0)):
            yield Checking(file, shown(KIND["A"], flow) * count + total(cost=cost, verdict=verdict), (0, 0), 26)
    # A G flow that is as wrong as a multiple of 2^64 would be.
    given = Sheets(1, [metered(0, 1, 0, 16)] * 4 + [unmetered(1, 0)])
    for flow in (2**62, -(2**62), 2**63 - 1, -(2**63)):
        sheet = shown(KIND["R"], flow) * 4 + shown(KIND["G"], 0) + total(degrees=0, verdict=2, cost=0)
        yield Checking(given.file, sheet, given.numbers, 26)
    for flow in (2**46, 2**46 + 1, -(2**46), 2**47, 2**55):
        yield Checking(given.file, shown(KIND["R"]) * 4 + shown(KIND["G"], flow) + total(degrees=0, verdict=2, cost=0), given.numbers, 26)
    # The greatest flows that pass, and a cost above 64 bits.
    for streams in (
        [ranged(0, 1, 0, 2 * 10**9, 2 * 10**9, 1_000)] * 48 + [metered(1, 0, -4_000_000, 1)],
        [ranged(1, 0, 0, -2 * 10**9, -2 * 10**9, 1_000)] * 40 + [unmetered(1, 0)],
        [ranged(0, 1, 4_000_000, -2 * 10**9, -2 * 10**9, 1_000), metered(1, 0, 4_000_000, 1_000)],
    ):
        sheets = Sheets(1, streams)
        yield sheets.passes()
        yield sheets.breaks({"cost"}, cost=read_sheet(sheets.ours).cost - 1)


def totals():
    """Sheet number, office and the kind of the total are free."""
    listing = Sheets(2, samples.LISTING.streams)
    yield listing.passes(plain(listing.ours))
    for office in range(solver.OFFICES):
        for number in (1, 2, LAST_SHEET):
            yield Sheets(2, samples.LISTING.streams, number, office).passes()
    yield listing.breaks({"cost"}, sheet=plain(listing.ours), cost=21)


def refused():
    """The plant reader's refusals, then the sheet reader's, whatever follows; then 26."""
    listing = Sheets(2, samples.LISTING.streams)
    files = (
        (b"", 3), (LISTING[:-1], 3), (b"\x05", 4), (b"\x01\x00", 6), (plant_file(1, [unmetered(0, 2)]), 7),
        (plant_file(1, [unmetered(1, 1)]), 8), (plant_file(1, [metered(0, 1, 5, 1_001)]), 9),
        (plant_file(1, [metered(0, 1, 4_000_001)]), 10), (b"\x01\x01\x04\x01", 11), (LISTING + b"\x00", 12),
        (plant_file(1, [ranged(0, 1, 5, 9, 8)]), 18), (LONGEST[:866] + b"\x03", 5),
    )
    sheets = ((listing.ours, 0), (b"", 13), (listing.ours[:-1], 13), (total(0), 14), (total(office=8), 14), (listing.ours + b"\0", 15))
    for file, number in files:
        for sheet, _ in sheets[:4]:
            yield Checking(file, sheet, listing.numbers, number)
        yield Checking(file, listing.ours, (), number)
    for sheet, number in sheets[1:]:
        for numbers in (listing.numbers, (), (2**63 - 1,) * 3):
            yield Checking(LISTING, sheet, numbers, number)
    # A plant without a sheet is 26, never 19, after the sheet reader's.
    full = samples.OVERFULL_SITE.file
    for sheet, number in sheets:
        yield Checking(full, sheet, (0,) * 4, number or 26)


def plants():
    """Plants of all kinds and sizes that have a sheet: units and streams."""
    for sample in samples.SAMPLES:
        if sample is not samples.OVERFULL_SITE:
            yield len(sample.units), list(sample.streams)
    yield 1, []
    yield 32, []
    yield 1, HIGH
    yield 1, LOW
    yield 2, [metered(0, 1, 10), unmetered(1, 2), unmetered(1, 2), unmetered(2, 0)]
    for ends_of in (shapes.path(8), shapes.ring(6), shapes.star(5), shapes.ladder(8), shapes.tree(9)):
        units = max(max(pair) for pair in ends_of)
        yield units, [metered(a, b, 3 * k % 7, 1 + k % 2) for k, (a, b) in enumerate(ends_of)]
        yield units, [metered(a, b, 3 * k % 7) if k % 3 else unmetered(a, b) for k, (a, b) in enumerate(ends_of)]
    draws = Draws(151)
    for units, most, times in ((1, 3, 12), (3, 6, 30), (6, 14, 30), (12, 36, 16), (32, 90, 8)):
        for k in range(times):
            span = draws.pick((2, 20, 1_000, 4_000_000))
            weights = draws.pick(((1,), (10,), (1, 2, 3), (1, 1_000)))
            streams = ranges_to_try.drawn_streams(draws, units, draws.between(1, most), draws.pick((50, 80, 100)), span, weights)
            if k % 2:
                manner = draws.pick(("tight", "wide", "near", "point"))
                streams = ranges_to_try.with_ranges(draws, units, streams, draws.pick((30, 60)), draws.pick((4, 30, 5_000)), manner)
            if foreign.ours(Plant(units, tuple(streams))) is not None:
                yield units, streams


def drawn():
    """Sheets of these plants, others of the same cost, and both with something changed."""
    draws = Draws(152)
    for units, streams in plants():
        if len(plant_file(units, streams)) > MOST_FILE:
            continue
        sheets = Sheets(units, streams, draws.between(1, 9), draws.between(0, 7))
        yield sheets.passes()
        yield sheets.passes(sheets.other)
        raised = draws.between(-(10**17), 10**17)
        yield sheets.passes(sheets.other, [x + raised for x in sheets.numbers])
        for _ in range(4):
            yield damaged(draws, sheets)


def damaged(draws, sheets):
    """A sheet with one or two things changed; what comes of it is for the reference to say."""
    kept, numbers = read_sheet(draws.pick((sheets.ours, sheets.other))), sheets.numbers
    for _ in range(draws.pick((1, 1, 2))):
        what = draws.between(0, 5)
        if what <= 2 and kept.flows:
            place = draws.between(0, len(kept.flows) - 1)
            if kept.classes[place] != "W":
                by = draws.pick((-1, 1, 1, -1, 2, 1_000, 2**59, -(2**62)))
                kept = kept._replace(flows=changed(kept.flows, place, kept.flows[place] + by))
        elif what == 3:
            place = draws.between(0, len(numbers) - 1)
            numbers = changed(numbers, place, numbers[place] + draws.pick((-1, 1, 7, -1_000, 10**15)))
        elif what == 4:
            kept = kept._replace(cost=(kept.cost + draws.pick((1, 2**64 - 1))) % 2**64)
        elif kept.classes:
            place = draws.between(0, len(kept.classes) - 1)
            letter = draws.pick("ARGW")
            kept = kept._replace(
                classes=kept.classes[:place] + letter + kept.classes[place + 1 :],
                flows=changed(kept.flows, place, 0 if letter == "W" else kept.flows[place]),
            )
    return Checking(sheets.file, kept_bytes(kept), numbers)


def checks():
    yield from rules()
    yield from ends()
    yield from limits()
    yield from totals()
    yield from refused()
    yield from drawn()


def numbers():
    for units, streams in plants():
        sheets = Sheets(units, streams)
        yield Numbering(sheets.file, sheets.ours, expected=0)
        yield Numbering(sheets.file, sheets.other, 40, 0)
    for streams in (HIGH, LOW):
        sheets = Sheets(1, streams)
        for room in (0, 1, 2, PLACES - 1):
            yield Numbering(sheets.file, sheets.ours, room, 1)
        for room in (PLACES, PLACES + 1, 40):
            yield Numbering(sheets.file, sheets.ours, room, 0)
    for file, number in (
        (b"", 3), (LISTING[:-1], 3), (b"\x05", 4), (LONGEST[:866] + b"\x03", 5), (b"\x01\x00", 6),
        (plant_file(1, [unmetered(0, 2)]), 7), (plant_file(1, [unmetered(1, 1)]), 8),
        (plant_file(1, [metered(0, 1, 5, 1_001)]), 9), (plant_file(1, [metered(0, 1, 4_000_001)]), 10),
        (b"\x01\x01\x04\x01", 11), (LISTING + b"\x00", 12), (plant_file(1, [ranged(0, 1, 5, 9, 8)]), 18),
        (samples.OVERFULL_SITE.file, 19), (plant_file(1, [ranged(0, 1, 5, 1, 9)]), 19),
    ):
        yield Numbering(file, expected=number)
        yield Numbering(file, room=PLACES - 1, expected=1)
        yield Numbering(file, room=40, expected=number)
