"""Transmitter files to try: values and deviations by their patterns, with readings and weights by hand; each refusal and their
order; files cut anywhere; drawn files."""

import math
import struct

from reference import samples
from reference.parts import Draws, Translation, end_record, site_record
from reference.solver import FILE_LENGTH, READING as MOST, STREAMS
from reference.transmitter import ratio_of, read_transmitter

MEASURED, HELD = 0x21, 0x22

# Patterns of values, and their readings; None where it is outside its range.
VALUES = (
    # 0.5, 1.5, 2.5, 3.5 and their opposites; the values next to 0.5 and to 1.5.
    (0x3F000000, 0), (0x3FC00000, 2), (0x40200000, 2), (0x40600000, 4),
    (0xBF000000, 0), (0xBFC00000, -2), (0xC0200000, -2), (0xC0600000, -4),
    (0x3EFFFFFF, 0), (0x3F000001, 1), (0x3FBFFFFF, 1), (0x3FC00001, 2), (0xBF000001, -1), (0xBFBFFFFF, -1),
    # 0.0 and -0.0; the least and the greatest subnormal, the least normal number, and their opposites.
    (0x00000000, 0), (0x80000000, 0), (0x00000001, 0), (0x80000001, 0),
    (0x007FFFFF, 0), (0x807FFFFF, 0), (0x00800000, 0), (0x80800000, 0),
    # 1, -1, 100.25, 99.75, 1,048,576.5 and 1,048,577.5.
    (0x3F800000, 1), (0xBF800000, -1), (0x42C88000, 100), (0x42C78000, 100), (0x49800004, 1_048_576), (0x4980000C, 1_048_578),
    # 3,999,999.25, .5 and .75; 4,000,000, .25 and .5, taken; .75 and 4,000,001, outside; and their opposites.
    (0x4A7423FD, 3_999_999), (0x4A7423FE, 4_000_000), (0x4A7423FF, 4_000_000), (0x4A742400, 4_000_000),
    (0x4A742401, 4_000_000), (0x4A742402, 4_000_000), (0x4A742403, None), (0x4A742404, None),
    (0xCA7423FD, -3_999_999), (0xCA7423FE, -4_000_000), (0xCA742400, -4_000_000),
    (0xCA742401, -4_000_000), (0xCA742402, -4_000_000), (0xCA742403, None), (0xCA742404, None),
    # 8,388,607.5, 8,388,608, 2^31, the greatest finite value, and opposites.
    (0x4AFFFFFF, None), (0x4B000000, None), (0x4F000000, None), (0x7F7FFFFF, None), (0xCB000000, None), (0xFF7FFFFF, None),
)

# Patterns of values that are not finite: infinities, quiet and signalling NaNs, of both signs and with payloads.
NOT_FINITE = (
    0x7F800000, 0xFF800000, 0x7FC00000, 0xFFC00000, 0x7F800001, 0xFF800001, 0x7FBFFFFF, 0xFFBFFFFF, 0x7FFFFFFF, 0xFFFFFFFF,
    0x7FD00D1E, 0xFFAABBCC,
)

# Patterns of deviations, and their weights; None where it is 0 or over 1,000.
DEVIATIONS = (
    # 1, the deviation next below it, 2, 3, 10, 31, 32, a half.
    (0x3FF0000000000000, 1_000), (0x3FEFFFFFFFFFFFFF, 1_000), (0x4000000000000000, 250), (0x4008000000000000, 111),
    (0x4024000000000000, 10), (0x403F000000000000, 1), (0x4040000000000000, None), (0x3FE0000000000000, None),
    # About 3.8925: by rounded operations 66, where the exact quotient is below 66.
    (0x400F23D445ADC557, 66),
    # Squares that underflow to 0 or to a subnormal number: the least and the greatest subnormal, 10^-200, 10^-160.
    (0x0000000000000001, None), (0x000FFFFFFFFFFFFF, None), (0x0010000000000000, None),
    (0x16687E92154EF7AC, None), (0x1EB67E9C127B6E74, None),
    # Squares that overflow: 10^200, the greatest finite deviation.
    (0x6974E718D7D7625A, None), (0x7FEFFFFFFFFFFFFF, None),
)

# Patterns of deviations that are no finite number above 0: zeros, opposites, infinities, NaNs of both signs.
NO_DEVIATION = (
    0x0000000000000000, 0x8000000000000000, 0x8000000000000001, 0xBFF0000000000000, 0xFFEFFFFFFFFFFFFF, 0x7FF0000000000000,
    0xFFF0000000000000, 0x7FF8000000000000, 0xFFF8000000000000, 0x7FF0000000000001, 0xFFF0000000000001, 0x7FFFFFFFFFFFFFFF,
    0xFFFFFFFFFFFFFFFF, 0x7FFC0FFEE0DDF00D,
)

ONE, TEN = 0x3F800000, 0x4024000000000000


def signal(source, target, value=ONE, deviation=TEN, kind=MEASURED):
    """A record of patterns, whatever they are."""
    return struct.pack(">BBBIQ", kind, source, target, value, deviation)


def sent(kind, source, target, value, deviation):
    """A record of numbers."""
    return struct.pack(">BBBfd", kind, source, target, value, deviation)


def fault(source, target):
    return bytes((0x23, source, target))


def file_of(*records, units=2, count=None):
    return site_record(units) + b"".join(records) + end_record(len(records) if count is None else count)


def pattern(deviation):
    return struct.unpack(">Q", struct.pack(">d", deviation))[0]


def edge(ratio):
    """The greatest deviation whose rounded ratio is at least this."""
    deviation = math.sqrt(1000.0 / ratio)
    while ratio_of(deviation) >= ratio:
        deviation = math.nextafter(deviation, math.inf)
    while ratio_of(deviation) < ratio:
        deviation = math.nextafter(deviation, 0.0)
    return deviation


def values():
    for bits, reading in VALUES:
        file = file_of(signal(0, 1, bits))
        yield Translation(file, expected=10 if reading is None else 0)
        if reading is not None:
            assert read_transmitter(file)[1][0].reading == reading, hex(bits)
    for bits in NOT_FINITE:
        yield Translation(file_of(signal(0, 1, bits)), expected=16)
        yield Translation(file_of(signal(0, 1), signal(1, 0, bits, kind=HELD)), expected=16)


def deviations():
    for bits, weight in DEVIATIONS:
        for kind in (MEASURED, HELD):
            file = file_of(signal(0, 1, deviation=bits, kind=kind))
            yield Translation(file, expected=9 if weight is None else 0)
            if weight is not None:
                kept = max(weight // 4, 1) if kind == HELD else weight
                assert read_transmitter(file)[1][0].weight == kept, hex(bits)
    for bits in NO_DEVIATION:
        for kind in (MEASURED, HELD):
            yield Translation(file_of(signal(1, 2, deviation=bits, kind=kind)), expected=17)
    # Ratios of exactly 1 and 1,000 or just above, 1,000.9 (the whole part counts), and 1,001; the deviations next to each.
    for ratio in (1.0, 2.0, 4.0, 8.0, 999.0, 1000.0, 1000.9, math.nextafter(1001.0, 0.0), 1001.0):
        least = edge(ratio)
        for deviation in (math.nextafter(least, 0.0), least, math.nextafter(least, math.inf)):
            ratio_here = ratio_of(deviation)
            taken = 1 <= math.floor(ratio_here) <= 1_000
            yield Translation(file_of(signal(0, 1, deviation=pattern(deviation))), expected=0 if taken else 9)
    # Held at weights 1 to 8, and as measured.
    for weight in (1, 2, 3, 4, 5, 6, 7, 8, 9, 11, 12, 999, 1_000):
        bits = pattern(math.sqrt(1000.0 / (weight + 0.5)))
        file = file_of(signal(0, 1, deviation=bits), signal(1, 0, deviation=bits, kind=HELD))
        yield Translation(file, expected=0)
        assert [s.weight for s in read_transmitter(file)[1]] == [weight, max(weight // 4, 1)]
    # A weight of 4,000 is refused, though its quarter would be allowed.
    yield Translation(file_of(signal(0, 1, deviation=pattern(0.5), kind=HELD)), expected=9)


def refusals():
    nan, far, bad, light = 0x7FC00000, 0x7F7FFFFF, 0x8000000000000000, 0x4090000000000000
    good = signal(0, 1)
    # In a record 3, 4, 5, 3, 7, 8, 16, 17, 9, 10: each file has every later fault as well.
    for body, number in (
        (signal(3, 3, nan, bad), 7), (signal(1, 1, nan, bad), 8), (signal(1, 2, nan, bad), 16), (signal(1, 2, far, bad), 17),
        (signal(1, 2, far, light), 9), (signal(1, 2, far), 10),
    ):
        for kind in (MEASURED, HELD):
            record = bytes((kind,)) + body[1:]
            yield Translation(file_of(record, count=7) + b"\0", expected=number)
            yield Translation(file_of(good, fault(1, 2), record), expected=number)
            # Cut in its last byte.
            yield Translation(site_record(2) + record[:-1], expected=3)
    for record, number in ((fault(3, 3), 7), (fault(1, 3), 7), (fault(1, 1), 8), (fault(0, 0), 8), (fault(0, 2), 0)):
        yield Translation(file_of(record), expected=number)
    # The first record with a fault decides.
    yield Translation(file_of(signal(1, 2, far), signal(3, 3, nan, bad)), expected=10)
    yield Translation(file_of(signal(1, 2, nan), fault(1, 1)), expected=16)
    # Kinds of a plant file, and kinds of no file, where an item is due; a site record twice.
    for kind in (0x00, 0x01, 0x02, 0x03, 0x06, 0x11, 0x20, 0x24, 0xA1, 0xFF):
        yield Translation(site_record(2) + bytes((kind,)) + good[1:], expected=4)
        yield Translation(site_record(2) + good + bytes((kind,)), expected=4)
    for kind in (0x00, 0x02, 0x04, 0x21, 0x22, 0x23):
        yield Translation(bytes((kind,)) + file_of(good)[1:], expected=4)
    for units, number in ((0, 6), (33, 6), (255, 6), (1, 0), (32, 0)):
        yield Translation(file_of(good, units=units), expected=number)
    yield Translation(site_record(0) + b"\x09", expected=6)
    # The end: its count, bytes after it.
    for count in (0, 2, 255):
        yield Translation(file_of(good, count=count), expected=11)
        yield Translation(file_of(good, count=count) + b"\0", expected=11)
    for after in (b"\0", b"\x04\x01", good):
        yield Translation(file_of(good) + after, expected=12)
    yield Translation(file_of(), expected=0)
    yield Translation(file_of()[:-1], expected=3)
    # As many streams as there may be; a 97th, refused before its body is looked at.
    most = [signal(1, 2, 0x4A742402, 0x3FF0000000000000), signal(2, 1, kind=HELD), fault(0, 1)] * 32
    yield Translation(file_of(*most), expected=0)
    yield Translation(file_of(*[most[0]] * STREAMS, units=32), expected=0)
    yield Translation(file_of(*most, count=95), expected=11)
    for more in (signal(3, 3, nan, bad), good[:1], b"\x22", b"\x23", fault(1, 2)):
        yield Translation(site_record(2) + b"".join(most) + more, expected=5)
    yield Translation(site_record(2) + b"".join(most) + b"\x02", expected=4)
    # 1 before everything; slices just long enough, and longer, whatever they hold.
    for file in (samples.TRANSMITTER, file_of(*most), b"", b"\x02"):
        for length in (0, 4, FILE_LENGTH - 1):
            yield Translation(file, length, 1)
    for length in (FILE_LENGTH, FILE_LENGTH + 1, 1_700):
        for filling in (0xA5, 0x00, 0xFF):
            yield Translation(samples.TRANSMITTER, length, 0, filling)
            yield Translation(file_of(*[most[0]] * STREAMS), length, 0, filling)
            yield Translation(b"\x01\x02\x07", length, 4, filling)
    # A good file cut at every byte.
    for length in range(len(samples.TRANSMITTER)):
        yield Translation(samples.TRANSMITTER[:length], expected=3)


def drawn():
    """Files of numbers as meters send them, and of patterns as they come."""
    draws = Draws(111)

    def value():
        near = draws.between(-4 * MOST - 8, 4 * MOST + 8) / 4
        return draws.pick((near, near / 1_000, draws.between(-2_000, 2_000) / 2))

    for count in (1, 2, 3, 5, 12, 40, 95, 96) * 4:
        units = draws.between(1, 32)
        records = []
        for _ in range(count):
            source, target = draws.two_places(units)
            deviation = math.sqrt(1000.0 / (draws.between(1_000, 1_000_000) / 1_000))
            kind = draws.pick((MEASURED, MEASURED, HELD))
            records.append(fault(source, target) if draws.chance(15) else sent(kind, source, target, value(), deviation))
        yield Translation(file_of(*records, units=units))
    for _ in range(60):
        bits = draws.pick((draws.bits(), pattern(draws.between(1, 64_000) / 1_999)))
        near = struct.unpack(">I", struct.pack(">f", value()))[0]
        yield Translation(file_of(signal(0, 1, draws.pick((draws.bits() % 2**32, near)), bits, draws.pick((MEASURED, HELD)))))


def translations():
    for part in (values, deviations, refusals, drawn):
        yield from part()
