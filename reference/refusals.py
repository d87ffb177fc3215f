"""The cases of damaged files and of calls: slices, counters, the order of refusals."""

from reference import samples
from reference.parts import (
    Case, Draws, end_record, metered, metered_record, plant_file, ranged_record, site_record, stream_record, unmetered,
)
from reference.solver import LAST_SHEET, RANGE, READING as MOST, SHEET_LENGTH

LISTING = samples.LISTING.file
LONGEST = plant_file(32, [metered(k % 32, k % 32 + 1, 1_000 + k, 10) for k in range(96)])


def damaged():
    draws = Draws(107)
    listing, longest = LISTING, LONGEST
    good = metered_record(0, 1, 10, 100)
    back = metered_record(1, 0, 10, 98)
    free = stream_record(unmetered(0, 1))

    def file(*records, units=1, count=None, after=b""):
        ending = b"" if count is None else end_record(count)
        return site_record(units) + b"".join(records) + ending + after

    # 3: cut anywhere.
    for length in range(len(listing)):
        yield Case(listing[:length], expected=3)
    for length in (1, 2, 3, 10, 434, 860, 865, 866, 867):
        yield Case(longest[:length], expected=3)
    # 4: a kind not allowed where it stands.
    for kind in (0x00, 0x02, 0x03, 0x04, 0x05, 0x11, 0x1F, 0xFF):
        yield Case(bytes((kind,)) + listing[1:], expected=4)
    for kind in (0x00, 0x01, 0x05, 0x10, 0x11, 0x81, 0xFF):
        yield Case(file(bytes((kind,)), b"\x01"), expected=4)
        yield Case(file(good, free, bytes((kind,))), expected=4)
    yield Case(longest[:866] + b"\x01\x20", expected=4)
    yield Case(longest[:866] + b"\x05\x60", expected=4)
    # 5: a 97th stream.
    for extra in (good, free, good[:1], free[:1], good[:5], free[:2]):
        yield Case(longest[:866] + extra, expected=5)
    yield Case(longest[:866] + metered_record(40, 40, 0, 2**31 - 1), expected=5)
    yield Case(longest[:866] + good + end_record(97), expected=5)
    yield Case(file(*[free] * 96) + free + end_record(96), expected=5)
    # 6: the number of units.
    for units in (0, 33, 100, 255):
        yield Case(file(good, units=units, count=1), expected=6)
        yield Case(site_record(units), expected=6)
    # 7: a place above n.
    for source, target in ((2, 0), (0, 2), (2, 1), (255, 0), (0, 255), (2, 2), (33, 34)):
        yield Case(file(stream_record(unmetered(source, target)), count=1), expected=7)
        yield Case(file(good, metered_record(source, target, 10, 5), count=2), expected=7)
    yield Case(plant_file(32, [unmetered(0, 32), unmetered(33, 32)]), expected=7)
    yield Case(plant_file(31, [unmetered(0, 31), metered(32, 31, 5)]), expected=7)
    # 8: from a place to itself.
    for place in (0, 1):
        yield Case(file(stream_record(unmetered(place, place)), count=1), expected=8)
        yield Case(file(back, metered_record(place, place, 10, 5), count=2), expected=8)
    yield Case(plant_file(32, [unmetered(0, 32), metered(32, 32, 7)]), expected=8)
    # 9: the weight.
    for weight in (0, 1_001, 0x0400, 0xFFFF):
        yield Case(file(metered_record(0, 1, weight, 5), count=1), expected=9)
        yield Case(file(good, free, metered_record(1, 0, weight, -5), count=3), expected=9)
    # 10: the reading.
    for reading in (MOST + 1, -MOST - 1, 2**31 - 1, -(2**31), 2**24, -(2**24)):
        yield Case(file(metered_record(0, 1, 10, reading), count=1), expected=10)
        yield Case(file(free, back, metered_record(1, 0, 1_000, reading), count=3), expected=10)
    # 18: the range.
    for low, high in ((1, 0), (0, -1), (-RANGE - 1, 0), (0, RANGE + 1), (RANGE + 1, RANGE + 1), (2**31 - 1, -(2**31))):
        yield Case(file(ranged_record(0, 1, 10, 5, low, high), count=1), expected=18)
        yield Case(file(free, back, ranged_record(1, 0, 1_000, -5, low, high), count=3), expected=18)
    # 11: the count at the end.
    for count in (0, 1, 3, 4, 98, 255):
        yield Case(file(good, back, count=count), expected=11)
    yield Case(longest[:867] + b"\x5f", expected=11)
    yield Case(longest[:867] + b"\x61", expected=11)
    yield Case(b"\x01\x20\x04\x01", expected=11)
    # 12: bytes after the end.
    for after in (b"\0", b"\x04", b"\x04\x02", good, b"\xff" * 900):
        yield Case(file(good, back, count=2, after=after), expected=12)
    for after in (1, 2, 9, 132):
        yield Case(longest + bytes(after), expected=12)
    yield Case(b"\x01\x01\x04\x00\x00", expected=12)
    # Several at once: the first in file order, in a record the first in the table's order.
    for records, number in (
        ((metered_record(9, 9, 0, 2**31 - 1),), 7),
        ((metered_record(0, 0, 0, 2**31 - 1),), 8),
        ((metered_record(0, 1, 0, 2**31 - 1),), 9),
        ((metered_record(0, 1, 1, 2**31 - 1), metered_record(9, 9, 0, 0)), 10),
        ((metered_record(0, 1, 0, 5), free[:2]), 9),
        ((free, metered_record(0, 1, 0, 5)[:8]), 3),
        ((stream_record(unmetered(1, 1)), b"\x07"), 8),
        ((good, b"\x07" + b"\0" * 3), 4),
    ):
        yield Case(file(*records), expected=number)
    yield Case(file(good, count=2, after=b"\0\0"), expected=11)
    yield Case(file(good, after=b"\x04"), expected=3)
    yield Case(site_record(0) + b"\x09", expected=6)
    yield Case(b"\x01\x00\x04\x05\x00", expected=6)
    # One byte changed, anywhere; what comes of it is for the reference to say.
    for place in range(len(listing)):
        changed = bytearray(listing)
        changed[place] ^= 1 << draws.between(0, 7)
        yield Case(bytes(changed))
    for _ in range(24):
        changed = bytearray(longest)
        changed[draws.between(0, len(changed) - 1)] = draws.between(0, 255)
        yield Case(bytes(changed))
    # Bytes of any kind.
    for _ in range(20):
        yield Case(bytes(draws.between(0, 255) for _ in range(draws.between(1, 40))))
    for _ in range(20):
        yield Case(bytes((1, draws.between(1, 3))) + bytes(draws.between(0, 4) for _ in range(draws.between(1, 40))))


def calls():
    draws = Draws(108)
    files = (
        (LISTING, 0),
        (b"\x01\x01\x04\x00", 0),
        (LONGEST, 0),
        (b"", 3),
        (b"\x02", 4),
        (LONGEST[:866] + b"\x03", 5),
        (b"\x01\x00", 6),
        (b"\x01\x01\x03\x02\x00", 7),
        (b"\x01\x01\x03\x01\x01", 8),
        (site_record(1) + metered_record(0, 1, 0, 0), 9),
        (site_record(1) + metered_record(0, 1, 1, MOST + 1), 10),
        (b"\x01\x01\x04\x01", 11),
        (b"\x01\x01\x04\x00\x00", 12),
    )
    for file, number in files:
        for last in (0, LAST_SHEET):
            for length in (SHEET_LENGTH - 1, 0):
                yield Case(file, last, length, 1)
        for length in (SHEET_LENGTH, 1_000):
            yield Case(file, LAST_SHEET, length, 2)
        for last in (0, 1, LAST_SHEET - 1):
            yield Case(file, last, SHEET_LENGTH, number)
    for length in (880, 881, 882, 900, 999, 1_000):
        for last in (0, 1, 255, 256, 65_535, 2**31 - 1, 2**31, LAST_SHEET - 1):
            yield Case(LISTING if length % 2 else LONGEST, last, length, 0)
    for length in (0, 1, 15, 27, 28, 35, 500, 867, 868, 869, 878, 879):
        yield Case(LISTING, draws.between(0, LAST_SHEET), length, 1)
    for last in (LAST_SHEET - 256, LAST_SHEET - 65_536, 2**24 - 1, 2**24, 4_278_190_079):
        yield Case(LISTING, last, SHEET_LENGTH, 0)
