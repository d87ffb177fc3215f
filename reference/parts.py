"""What the cases are made of: repeatable draws, plant files from their parts, cases."""

import math
from typing import NamedTuple

from reference import cases, charges, foreign, moves, purchases, solver, survey, transmitter, visits
from reference.solver import FILE_LENGTH, READING, SHEET_LENGTH, Stream, offices_from

TEXT_LENGTH = 2_544  # a slice of so many bytes holds every listing


class Draws:
    """Repeatable draws (splitmix64), the same in every version of Python."""

    def __init__(self, seed):
        self.state = seed

    def bits(self):
        self.state = (self.state + 0x9E3779B97F4A7C15) % 2**64
        z = self.state
        z = (z ^ (z >> 30)) * 0xBF58476D1CE4E5B9 % 2**64
        z = (z ^ (z >> 27)) * 0x94D049BB133111EB % 2**64
        return z ^ (z >> 31)

    def between(self, low, high):
        """A whole number from low to high, both included."""
        return low + (self.bits() * (high - low + 1) >> 64)

    def chance(self, per_cent):
        return self.between(1, 100) <= per_cent

    def pick(self, choices):
        return choices[self.between(0, len(choices) - 1)]

    def two_places(self, units):
        """Two different places out of 0 to units."""
        source = self.between(0, units)
        target = self.between(0, units - 1)
        return source, target + (target >= source)

    def shuffled(self, items):
        items = list(items)
        for k in range(len(items) - 1, 0, -1):
            other = self.between(0, k)
            items[k], items[other] = items[other], items[k]
        return items

    def noise(self, weight):
        """An error of a meter: about normal, variance 1,000 / weight, made whole."""
        half = math.isqrt(10**9 // weight) // 2
        return (sum(self.between(-half, half) for _ in range(12)) + 500) // 1_000


class Case(NamedTuple):
    """A sheet call of office 0, the others' last numbers being 0: plant file, its last sheet number, slice length; the number meant to be returned, if said; the slice's bytes."""

    file: bytes
    last: int = 0
    slice_length: int = SHEET_LENGTH
    expected: int | None = None
    filling: int = 0xA5

    def record(self):
        number, written, after, sheet = solver.sheet_call(self.file, 0, offices_from(self.last), self.slice_length)
        return meant(self, cases.Record(
            cases.SHEET, self.file, self.slice_length, sheet, self.filling, self.last, number, written, after[0],
        ))


class Drawing(NamedTuple):
    """A sheet call of any office: plant file, office, all last sheet numbers, length of the slice for the sheet."""

    file: bytes
    office: int
    lasts: tuple
    slice_length: int = SHEET_LENGTH
    expected: int | None = None
    filling: int = 0xA5

    def record(self):
        number, written, after, sheet = solver.sheet_call(self.file, self.office, self.lasts, self.slice_length)
        given = bytes((self.office,)) + cases.lasts(self.lasts) + self.file
        answer = cases.lasts(after) + sheet
        return meant(self, cases.Record(
            cases.OFFICES, given, cases.LASTS + self.slice_length, answer, self.filling, returned=number, count=written,
        ))


class Reading(NamedTuple):
    """A call of the plant reader."""

    file: bytes
    expected: int | None = None

    def record(self):
        number, units, streams = solver.read_call(self.file)
        answer = parts_of(streams)
        return meant(self, cases.Record(
            cases.READER, self.file, len(answer), answer, returned=number, count=units, number_back=len(streams),
        ))


class Writing(NamedTuple):
    """A call of the plant writer: units, how many streams, the streams (96 records are handed in, the rest empty)."""

    units: int
    count: int
    streams: tuple
    slice_length: int = FILE_LENGTH
    expected: int | None = None
    filling: int = 0xA5

    def record(self):
        number, written, file = solver.write_call(self.units, self.count, self.streams, self.slice_length)
        given = bytes((self.units, self.count)) + parts_of(self.streams)
        return meant(self, cases.Record(
            cases.WRITER, given, self.slice_length, file, self.filling, returned=number, count=written,
        ))


class Unhinted(NamedTuple):
    """The solver without a hint, on an accepted file; compared are all flows that are not withheld."""

    file: bytes
    expected: int | None = 0

    def record(self):
        try:
            result = solver.balance(solver.read_plant(self.file))
        except solver.Overfull:
            return meant(self, cases.Record(cases.UNHINTED, bytes(cases.STREAMS) + self.file, 8 * cases.STREAMS, b"", returned=19))
        asked = bytes(amount is not None for amount in result.numbers).ljust(cases.STREAMS, b"\0")
        flows = b"".join(cases.number(amount or 0, 8) for amount in result.numbers).ljust(8 * cases.STREAMS, b"\0")
        return meant(self, cases.Record(cases.UNHINTED, asked + self.file, len(flows), flows))


class Listing(NamedTuple):
    """The listing of a plant file; a slice that is too short gets no text."""

    file: bytes
    slice_length: int = TEXT_LENGTH
    expected: int | None = None

    def record(self):
        text = solver.listing(self.file).encode() if self.slice_length >= TEXT_LENGTH else b""
        return meant(self, cases.Record(cases.LISTING, self.file, self.slice_length, text, count=len(text)))


class Keeping(NamedTuple):
    """A call of the sheet reader."""

    sheet: bytes
    expected: int | None = None

    def record(self):
        number, kept = solver.reopen_call(self.sheet)
        answer = bytes((kept.kind, kept.office)) + cases.number(kept.cost, 8) + bytes((kept.degrees, kept.verdict))
        answer += b"".join(bytes((solver.KIND[letter],)) + cases.number(flow, 8) for letter, flow in zip(kept.classes, kept.flows))
        return meant(self, cases.Record(
            cases.KEPT, self.sheet, 876, answer, returned=number, count=len(kept.flows), number_back=kept.number,
        ))


class Translation(NamedTuple):
    """A call of the translator, on a transmitter file."""

    file: bytes
    slice_length: int = FILE_LENGTH
    expected: int | None = None
    filling: int = 0xA5

    def record(self):
        number, written, file = transmitter.translate_call(self.file, self.slice_length)
        return meant(self, cases.Record(
            cases.TRANSLATOR, self.file, self.slice_length, file, self.filling, returned=number, count=written,
        ))


class Move(NamedTuple):
    """A call of one of the two moves, on a plant file."""

    file: bytes
    move: object
    slice_length: int = FILE_LENGTH
    expected: int | None = None
    filling: int = 0xA5

    def record(self):
        number, written, file = moves.move_call(self.file, self.slice_length, self.move)
        call = cases.FORTH if self.move is moves.widened else cases.HOME
        return meant(self, cases.Record(call, self.file, self.slice_length, file, self.filling, returned=number, count=written))


class Compression(NamedTuple):
    """The compression of potentials: before, and after."""

    before: tuple
    after: tuple
    expected: int | None = None

    def record(self):
        given, answer = (b"".join(cases.number(potential, 8) for potential in potentials) for potentials in (self.before, self.after))
        return meant(self, cases.Record(cases.COMPRESSION, given, len(answer), answer))


class Buying(NamedTuple):
    """The call over meters to buy: a plant file, prices, and for how many numbers a slice is lent."""

    file: bytes
    prices: tuple
    room: int = cases.STREAMS
    expected: int | None = None

    def record(self):
        number, bought, price = purchases.buy_call(self.file, self.prices, self.room)
        given = cases.number(len(self.prices), 2) + b"".join(cases.number(price, 4) for price in self.prices) + self.file
        return meant(self, cases.Record(
            cases.BUYING, given, self.room, bytes(bought), returned=number, count=len(bought), number_back=price,
        ))


class Survey(NamedTuple):
    """A survey of meter layouts, with the counts, if said."""

    file: bytes
    expected: int | None = None
    counts: list | None = None

    def record(self):
        number, count, counts = survey.layouts_call(self.file)
        if self.counts is not None and counts != self.counts:
            raise ValueError(f"{self}: {counts} counted")
        answer = b"".join(cases.number(k, 2) for k in counts + [0] * (survey.SIZE - len(counts)))
        return meant(self, cases.Record(cases.SURVEY, self.file, len(answer), answer, returned=number, count=count))


class LayoutText(NamedTuple):
    """The text of a survey; a slice that is too short gets no text."""

    file: bytes
    slice_length: int = survey.TEXT_LENGTH
    expected: int | None = None

    def record(self):
        text = survey.text(self.file).encode() if self.slice_length >= survey.TEXT_LENGTH else b""
        return meant(self, cases.Record(cases.LAYOUTS, self.file, self.slice_length, text, count=len(text)))


class Visiting(NamedTuple):
    """Meters worth a visit, with the first of the list or all of it, if said."""

    file: bytes
    expected: int | None = None
    first: list | None = None
    slice_length: int = visits.ENTRY * cases.STREAMS
    filling: int = 0xA5

    def record(self):
        number, listed = visits.visits_call(self.file)
        if self.first is not None and listed[: len(self.first)] != self.first:
            raise ValueError(f"{self}: {listed} listed")
        answer = b"".join(bytes((stream,)) + cases.number(cost, 8) for stream, cost in listed)
        return meant(self, cases.Record(
            cases.VISITS, self.file, self.slice_length, answer, self.filling, returned=number, count=len(listed),
        ))


class VisitText(NamedTuple):
    """The text of that list; a slice that is too short gets no text."""

    file: bytes
    slice_length: int = visits.TEXT_LENGTH
    expected: int | None = None

    def record(self):
        text = visits.text(self.file).encode() if self.slice_length >= visits.TEXT_LENGTH else b""
        return meant(self, cases.Record(cases.VISIT_TEXT, self.file, self.slice_length, text, count=len(text)))


class Charging(NamedTuple):
    """A call over steam charges: a plant file and rates, with the cents, if said."""

    file: bytes
    rates: tuple
    expected: int | None = None
    cents: list | None = None

    def record(self):
        number, streams, cents, bill = charges.charge_call(self.file, self.rates, cases.STREAMS)
        if self.cents is not None and cents != self.cents:
            raise ValueError(f"{self}: {cents} charged")
        given = cases.number(len(self.rates), 2) + b"".join(cases.number(rate, 2) for rate in self.rates) + self.file
        answer = cases.number(bill, 8) + b"".join(bytes((k,)) + cases.number(charge, 8) for k, charge in zip(streams, cents))
        return meant(self, cases.Record(cases.CHARGES, given, 872, answer, returned=number, count=len(streams)))


class Checking(NamedTuple):
    """The check of a sheet: a plant file, a sheet, the numbers of the places."""

    file: bytes
    sheet: bytes
    numbers: tuple
    expected: int | None = None

    def record(self):
        front = cases.number(len(self.numbers), 2) + cases.number(len(self.sheet), 2)
        given = front + b"".join(cases.number(x, 8) for x in self.numbers) + self.sheet + self.file
        number = foreign.check_call(self.file, self.sheet, self.numbers)
        return meant(self, cases.Record(cases.CHECK, given, 0, b"", returned=number))


class Numbering(NamedTuple):
    """Numbers of the places: a plant file, for how many a slice is lent, and a sheet that must pass with them."""

    file: bytes
    sheet: bytes = b""
    room: int = foreign.PLACES
    expected: int | None = None

    def record(self):
        number, count = foreign.numbers_call(self.file, self.room)
        given = cases.number(self.room, 2) + cases.number(len(self.sheet), 2) + self.sheet + self.file
        return meant(self, cases.Record(cases.NUMBERS, given, 0, b"", returned=number, count=count))


def meant(case, record):
    """The record, if it has the number that the case was built for."""
    if case.expected is not None and record.returned != case.expected:
        raise ValueError(f"{case}: {record.returned} returned, {case.expected} meant")
    return record


def parts_of(streams):
    """The 96 records of streams, empty ones past the last."""
    empty = (0, 0, False, 0, 0, False, 0, 0)
    whole = [(s.source, s.target, s.metered, s.weight, s.reading, s.ranged, s.low or 0, s.high or 0) for s in streams]
    return b"".join(cases.stream(*s) for s in whole + [empty] * (cases.STREAMS - len(whole)))


def unmetered(source, target):
    return Stream(source, target)


def metered(source, target, reading, weight=10):
    return Stream(source, target, weight, reading)


def ranged(source, target, reading, low, high, weight=10):
    return Stream(source, target, weight, reading, low, high)


def within(stream, low, high):
    """The stream with a range."""
    return stream._replace(low=low, high=high)


def drawn_meters(draws, units, count):
    """Streams without ranges, three of four metered, with any readings."""
    for _ in range(count):
        source, target = draws.two_places(units)
        meter = metered(source, target, draws.between(-READING, READING), draws.between(1, 1_000))
        yield meter if draws.chance(75) else unmetered(source, target)


def site_record(units):
    return bytes((0x01, units))


def stream_record(stream):
    """A record of a stream; weights, readings and ranges out of their limits are written as they are."""
    if stream.weight == 0:
        return bytes((0x03, stream.source, stream.target))
    return ranged_record(*stream) if stream.ranged else metered_record(*stream[:4])


def metered_record(source, target, weight, reading):
    return bytes((0x02, source, target)) + weight.to_bytes(2, "big") + reading.to_bytes(4, "big", signed=True)


def ranged_record(source, target, weight, reading, low, high):
    ends = low.to_bytes(4, "big", signed=True) + high.to_bytes(4, "big", signed=True)
    return b"\x06" + metered_record(source, target, weight, reading)[1:] + ends


def end_record(count):
    return bytes((0x04, count))


def plant_file(units, streams):
    return site_record(units) + b"".join(map(stream_record, streams)) + end_record(len(streams))


def taken(units, streams, last=0, slice_length=SHEET_LENGTH):
    """A case whose plant is accepted."""
    return Case(plant_file(units, streams), last, slice_length, 0)


def balanced_amounts(draws, units, streams, rounds, most):
    """A balanced flow: amounts sent round cycles found by walking along the streams at random."""
    leaving = [[] for _ in range(units + 1)]
    for i, s in enumerate(streams):
        leaving[s.source].append(i)
    amounts = [0] * len(streams)
    for _ in range(rounds):
        place, walk, since = draws.between(0, units), [], {}
        while leaving[place] and place not in since:
            since[place] = len(walk)
            walk.append(draws.pick(leaving[place]))
            place = streams[walk[-1]].target
        if place in since:
            amount = draws.between(1, most)
            for i in walk[since[place] :]:
                amounts[i] += amount
    return amounts


def read_with_noise(draws, streams, amounts):
    """The streams with readings near these amounts, the error by the weight; a reading keeps in its range."""
    return [
        s._replace(reading=max(-READING, min(READING, x + draws.noise(s.weight)))) if s.weight else s
        for s, x in zip(streams, amounts)
    ]
