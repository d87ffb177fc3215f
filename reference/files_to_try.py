"""Plant files and parts to try with the reader and the writer alone: each refusal, their order, the edges, there and back."""

from typing import NamedTuple

from reference import samples
from reference.parts import TEXT_LENGTH, Draws, Listing, Reading, Writing, metered, plant_file, ranged, unmetered
from reference.solver import FILE_LENGTH, RANGE, READING as MOST, STREAMS, read_plant

# A slice of so many bytes is long enough for the writer, and longer.
ROOMY = 1_700

# Files, and the number that the reader gives for them.
FILES = (
    # 3: bytes end where a record is due, or inside a body.
    ("", 3),
    ("01", 3),
    ("01 02", 3),
    ("01 02 02", 3),
    ("01 02 02 00 01 00 0A 00 00 00", 3),
    ("01 02 03 00", 3),
    ("01 02 03 00 01", 3),
    ("01 02 04", 3),
    # 4: a kind that is not allowed at its place.
    ("00 02 04 00", 4),
    ("02 00 01 00 0A 00 00 00 64", 4),
    ("04 00", 4),
    ("01 02 01 02 04 00", 4),
    ("01 02 00 04 00", 4),
    ("01 02 05 04 00", 4),
    ("01 02 FF", 4),
    # 6: n is 0 or over its limit.
    ("01 00 04 00", 6),
    ("01 21 04 00", 6),
    ("01 FF 04 00", 6),
    # 7: from or to above n.
    ("01 02 03 03 01 04 01", 7),
    ("01 02 03 01 03 04 01", 7),
    ("01 02 02 FF 01 00 0A 00 00 00 64 04 01", 7),
    ("01 02 02 01 FF 00 0A 00 00 00 64 04 01", 7),
    # 8: from equals to.
    ("01 02 03 01 01 04 01", 8),
    ("01 02 03 00 00 04 01", 8),
    ("01 02 02 02 02 00 0A 00 00 00 64 04 01", 8),
    # 9: weight 0 or over its limit.
    ("01 02 02 00 01 00 00 00 00 00 64 04 01", 9),
    ("01 02 02 00 01 03 E9 00 00 00 64 04 01", 9),
    ("01 02 02 00 01 FF FF 00 00 00 64 04 01", 9),
    # 10: a reading outside its range.
    ("01 02 02 00 01 00 0A 00 3D 09 01 04 01", 10),
    ("01 02 02 00 01 00 0A FF C2 F6 FF 04 01", 10),
    ("01 02 02 00 01 00 0A 7F FF FF FF 04 01", 10),
    ("01 02 02 00 01 00 0A 80 00 00 00 04 01", 10),
    # 11: the end count differs from the streams read. 12: bytes after the end record.
    ("01 02 04 01", 11),
    ("01 02 03 00 01 04 00", 11),
    ("01 02 03 00 01 04 FF", 11),
    ("01 02 04 00 00", 12),
    ("01 02 04 00 04 00", 12),
    ("01 02 03 00 01 04 01 FF", 12),
    # Between records: the first record with a fault decides.
    ("02", 4),
    ("01 00", 6),
    ("01 21 03 01 01", 6),
    ("01 02 03 01 01 03 03 01 04 02", 8),
    ("01 02 03 03 01 03 01 01 04 02", 7),
    ("01 02 03 01 01 04 07 FF", 8),
    # In a stream record: 3, then 7, 8, 9, 10.
    ("01 02 03 03", 3),
    ("01 02 02 03 03 00 00 7F FF FF", 3),
    ("01 02 03 03 03 04 01", 7),
    ("01 02 02 03 03 00 00 7F FF FF FF 04 01", 7),
    ("01 02 02 01 01 00 00 7F FF FF FF 04 01", 8),
    ("01 02 02 01 02 00 00 7F FF FF FF 04 01", 9),
    ("01 02 02 01 02 03 E9 80 00 00 00 04 01", 9),
    # In the end record: 3, then 11, then 12.
    ("01 02 03 00 01 04", 3),
    ("01 02 04 01 00", 11),
    ("01 02 03 00 01 04 02 04 01", 11),
    # The limits, taken and passed by one.
    ("01 02 02 00 01 00 01 00 00 00 64 04 01", 0),
    ("01 02 02 00 01 03 E8 00 00 00 64 04 01", 0),
    ("01 02 02 00 01 03 E9 00 00 00 64 04 01", 9),
    ("01 02 02 00 01 00 0A 00 00 00 00 04 01", 0),
    ("01 02 02 00 01 00 0A FF FF FF FF 04 01", 0),
    ("01 02 02 00 01 00 0A 00 3D 09 00 04 01", 0),
    ("01 02 02 00 01 00 0A 00 3D 09 01 04 01", 10),
    ("01 02 02 00 01 00 0A FF C2 F7 00 04 01", 0),
    ("01 02 02 00 01 00 0A FF C2 F6 FF 04 01", 10),
    # Beyond the limit of earlier plant files, and taken since.
    ("01 02 02 00 01 00 0A 00 0F 42 41 04 01", 0),
    ("01 02 02 00 01 00 0A FF F0 BD BF 04 01", 0),
    ("01 01 04 00", 0),
    ("01 20 04 00", 0),
    ("01 21 04 00", 6),
    ("01 20 03 20 00 04 01", 0),
    ("01 20 03 21 00 04 01", 7),
)

# A stream with a range, by what stands behind from and to: weight, reading, low, high; and the number that the reader gives.
RANGES = (
    # The limits, taken and passed by one; low = high.
    ("00 0A 00 00 00 64 00 00 00 00 00 00 00 00", 0),
    ("00 0A 00 00 00 64 FF FF FF FF 00 00 00 01", 0),
    ("00 0A 00 00 00 64 88 CA 6C 00 77 35 94 00", 0),
    ("00 0A 00 00 00 64 77 35 94 00 77 35 94 00", 0),
    ("00 0A 00 00 00 64 88 CA 6C 00 88 CA 6C 00", 0),
    ("00 0A 00 00 00 64 00 00 00 00 77 35 94 01", 18),
    ("00 0A 00 00 00 64 88 CA 6B FF 00 00 00 00", 18),
    ("00 0A 00 00 00 64 77 35 94 01 77 35 94 01", 18),
    ("00 0A 00 00 00 64 88 CA 6B FF 88 CA 6B FF", 18),
    ("00 0A 00 00 00 64 80 00 00 00 7F FF FF FF", 18),
    # Low above high.
    ("00 0A 00 00 00 64 00 00 00 01 00 00 00 00", 18),
    ("00 0A 00 00 00 64 00 00 00 00 FF FF FF FF", 18),
    ("00 0A 00 00 00 64 FF FF FF FF FF FF FF FE", 18),
    ("00 0A 00 00 00 64 77 35 94 00 88 CA 6C 00", 18),
    ("00 0A 00 00 00 64 7F FF FF FF 80 00 00 00", 18),
    # The reading may lie outside the range.
    ("00 0A 00 00 00 64 00 00 00 C8 00 00 01 2C", 0),
    ("03 E8 FF C2 F7 00 77 35 93 FF 77 35 94 00", 0),
    # 9, then 10, then 18.
    ("00 00 00 3D 09 01 00 00 00 01 00 00 00 00", 9),
    ("03 E9 00 00 00 64 00 00 00 01 00 00 00 00", 9),
    ("00 0A 00 3D 09 01 00 00 00 01 00 00 00 00", 10),
    ("00 0A FF C2 F6 FF 77 35 94 01 77 35 94 01", 10),
)

# Files with ranges, and the number that the reader gives for them.
RANGED_FILES = (
    # 3, 4 and 5 come before the values of a record, 7 and 8 before 9, 10 and 18.
    ("01 02 06", 3),
    ("01 02 06 03 03 00 00 7F FF FF FF 00 00 00 01 00 00 00", 3),
    ("06 00 01 00 0A 00 00 00 64 00 00 00 00 00 00 00 00", 4),
    ("01 02 06 03 03 00 00 7F FF FF FF 00 00 00 01 00 00 00 00 04 01", 7),
    ("01 02 06 01 01 00 00 7F FF FF FF 00 00 00 01 00 00 00 00 04 01", 8),
    # 18 before the next record's fault, before 11 and before 12.
    ("01 02 06 00 01 00 0A 00 00 00 64 00 00 00 01 00 00 00 00 03 01 01 04 02", 18),
    ("01 02 06 00 01 00 0A 00 00 00 64 00 00 00 01 00 00 00 00 04 02", 18),
    ("01 02 06 00 01 00 0A 00 00 00 64 00 00 00 01 00 00 00 00 04 01 00", 18),
    ("01 02 03 01 01 06 00 01 00 0A 00 00 00 64 00 00 00 01 00 00 00 00 04 02", 8),
    ("01 02 06 00 01 00 0A 00 00 00 64 00 00 00 00 00 00 00 01 04 02", 11),
    ("01 02 06 00 01 00 0A 00 00 00 64 00 00 00 00 00 00 00 01 04 02 00", 11),
    ("01 02 06 00 01 00 0A 00 00 00 64 00 00 00 00 00 00 00 01 04 01 00", 12),
    # A body of the other length is not that of the kind.
    ("01 02 02 00 01 00 0A 00 00 00 64 00 00 00 00 00 00 00 01 04 01", 4),
    ("01 02 06 00 01 00 0A 00 00 00 64 04 01", 3),
)

# The listing's plant, its last reading made negative.
NEGATIVE = bytes.fromhex("01 02  02 00 01 00 0A 00 00 00 64  03 01 02  03 01 02  02 02 00 00 0A FF FF FF 9E  04 04")

# The listing's plant with a range on its last stream.
WITH_RANGE = bytes.fromhex(
    "01 02  02 00 01 00 0A 00 00 00 64  03 01 02  03 01 02  06 02 00 00 0A 00 00 00 62 FF FF FF 9C 00 00 00 64  04 04"
)

# As many units and streams as there may be, at the ends of their ranges.
LONGEST = 96 * (ranged(32, 0, -MOST, -RANGE, RANGE, 1_000),)


class Part(NamedTuple):
    """A stream as the writer is handed it, whatever its values."""

    source: int
    target: int
    weight: int
    reading: int
    metered: bool = True
    ranged: bool = False
    low: int = 0
    high: int = 0


def drawn_plants():
    """Plants to read and to write: the samples, and drawn ones that mix the kinds of stream."""
    for sample in samples.SAMPLES:
        yield len(sample.units), sample.streams
    draws = Draws(109)
    for count in (1, 2, 3, 5, 12, 40, 95, 96):
        units = draws.between(1, 32)
        streams = []
        for _ in range(count):
            source, target = draws.two_places(units)
            meter = metered(source, target, draws.between(-MOST, MOST), draws.between(1, 1_000))
            if draws.chance(50):
                low, high = sorted((draws.between(-RANGE, RANGE), draws.between(-RANGE, RANGE)))
                meter = meter._replace(low=low, high=high)
            streams.append(meter if draws.chance(60) else unmetered(source, target))
        yield units, tuple(streams)


def reader():
    for text, number in FILES:
        yield Reading(bytes.fromhex(text), number)
    for text, number in RANGES:
        yield Reading(bytes.fromhex("01 02 06 00 01" + text + "04 01"), number)
    for text, number in RANGED_FILES:
        yield Reading(bytes.fromhex(text), number)
    # A good file cut at every byte ends where a record is due or inside a body.
    for length in range(len(NEGATIVE)):
        yield Reading(NEGATIVE[:length], 3)
    for length in range(len(NEGATIVE) - 11, len(WITH_RANGE)):
        yield Reading(WITH_RANGE[:length], 3)
    assert read_plant(NEGATIVE) == (2, (metered(0, 1, 100), unmetered(1, 2), unmetered(1, 2), metered(2, 0, -98)))
    yield Reading(NEGATIVE, 0)
    assert read_plant(WITH_RANGE) == (2, (metered(0, 1, 100), unmetered(1, 2), unmetered(1, 2), ranged(2, 0, 98, -100, 100)))
    yield Reading(WITH_RANGE, 0)
    # The longest file; a byte past it; a 97th stream, refused before its body is looked at.
    longest = plant_file(32, LONGEST)
    assert len(longest) == FILE_LENGTH
    yield Reading(longest, 0)
    yield Reading(longest + b"\0", 12)
    for kind, number in ((2, 5), (3, 5), (6, 5), (5, 4)):
        yield Reading(longest[:-2] + bytes((kind, 96, 0)), number)
        yield Reading(longest[:-2] + bytes((kind,)), number)
    for units, streams in drawn_plants():
        yield Reading(plant_file(units, streams), 0)


def writer():
    good = Part(0, 1, 10, 100)

    def within(low, high, weight=10, reading=100):
        return Part(0, 1, weight, reading, True, True, low, high)

    def alone(part, number):
        """96 times the same stream, one of them listed."""
        return Writing(2, 1, STREAMS * (part,), ROOMY, number)

    # Each refusal.
    for units in (0, 33, 255):
        yield Writing(units, 1, STREAMS * (good,), ROOMY, 6)
    for count in (97, 255):
        yield Writing(2, count, STREAMS * (good,), ROOMY, 5)
    for part, number in (
        (Part(3, 1, 10, 100), 7), (Part(1, 3, 10, 100), 7), (Part(3, 3, 0, 0, False), 7), (Part(255, 0, 0, 0, False), 7),
        (Part(1, 1, 10, 100), 8), (Part(0, 0, 10, 100), 8), (Part(1, 1, 0, 0, False), 8),
        (Part(0, 1, 0, 100), 9), (Part(0, 1, 1_001, 100), 9), (Part(0, 1, 65_535, 100), 9),
        (Part(0, 1, 10, MOST + 1), 10), (Part(0, 1, 10, -MOST - 1), 10),
        (Part(0, 1, 10, 2**31 - 1), 10), (Part(0, 1, 10, -(2**31)), 10),
        (within(1, 0), 18), (within(-RANGE - 1, 0), 18), (within(0, RANGE + 1), 18),
        (within(RANGE + 1, RANGE + 1), 18), (within(-RANGE - 1, -RANGE - 1), 18), (within(2**31 - 1, -(2**31)), 18),
    ):
        yield alone(part, number)
        # After good ones, and as the last of 96.
        yield Writing(2, 3, (good, good, part), ROOMY, number)
        yield Writing(2, 96, 95 * (good,) + (part,), ROOMY, number)
        # Past the count it is not looked at.
        yield Writing(2, 2, (good, good, part), ROOMY, 0)
    # 6 before 5, 5 before 7, 7 before 8, 8 before 9, 9 before 10, 10 before 18; the first stream with a fault decides.
    worst = Part(3, 3, 0, MOST + 1)
    yield Writing(0, 97, STREAMS * (worst,), ROOMY, 6)
    yield Writing(2, 97, STREAMS * (worst,), ROOMY, 5)
    yield alone(worst, 7)
    yield alone(Part(1, 1, 0, MOST + 1), 8)
    yield alone(Part(0, 1, 0, MOST + 1), 9)
    yield Writing(2, 2, (Part(0, 1, 10, MOST + 1), worst), ROOMY, 10)
    yield alone(within(1, 0, 0, MOST + 1), 9)
    yield alone(within(1, 0, 10, MOST + 1), 10)
    yield Writing(2, 2, (within(1, 0), worst), ROOMY, 18)
    # A slice one byte too short comes first of all; one just long enough is taken.
    for length in (0, 4, FILE_LENGTH - 1):
        yield Writing(32, 96, LONGEST, length, 1)
        yield Writing(0, 97, LONGEST, length, 1)
        yield Writing(1, 0, (), length, 1)
    for length in (FILE_LENGTH, FILE_LENGTH + 1, ROOMY, 1_700):
        for filling in (0xA5, 0x00, 0xFF):
            yield Writing(32, 96, LONGEST, length, 0, filling)
            yield Writing(1, 0, (), length, 0, filling)
    # What is written; an unmetered stream's weight, reading and range make no difference, nor do low and high without a range.
    yield Writing(2, 0, STREAMS * (worst,), ROOMY, 0)
    for part in (Part(1, 2, 0, 0, False), Part(1, 2, 65_535, -(2**31), False), Part(0, 1, 10, -98), Part(2, 0, 1, MOST)):
        yield alone(part, 0)
    for low, high in ((-RANGE, RANGE), (0, 0), (-RANGE, -RANGE), (RANGE, RANGE), (200, 300)):
        yield alone(within(low, high), 0)
    yield alone(Part(1, 2, 0, 0, False, True, 1, 0), 0)
    yield alone(Part(1, 2, 10, 100, True, False, 1, 0), 0)
    for units, streams in drawn_plants():
        yield Writing(units, len(streams), streams, ROOMY, 0)


def listings():
    for sample in samples.SAMPLES:
        yield Listing(sample.file)
    sample = samples.LISTING.file
    # A plant that fails the test, one that is close, one without degrees (R and G), one whose flows run backwards, one without
    # streams.
    yield Listing(plant_file(1, [metered(0, 1, 62, 1)]))
    yield Listing(plant_file(1, [metered(0, 1, 100, 155), metered(1, 0, 107, 155)]))
    yield Listing(plant_file(1, [metered(0, 1, 100), unmetered(1, 0)]))
    yield Listing(plant_file(1, [metered(0, 1, -103), metered(1, 0, -60), metered(1, 0, -40)]))
    yield Listing(plant_file(1, []))
    # A file that is cut, and one that goes on after its end record.
    yield Listing(sample[:20])
    yield Listing(plant_file(1, []) + b"\0")
    # Streams by the most, of each class and sign, and the longest numbers.
    yield Listing(plant_file(1, [metered(0, 1, -MOST, 1_000)] * STREAMS))
    yield Listing(plant_file(1, [metered(0, 1, -MOST, 1)] * (STREAMS - 1) + [unmetered(0, 1)]))
    yield Listing(plant_file(1, [unmetered(0, 1)] * STREAMS))
    # With ranges: an end in the way, none in range, a cost above what 64 bits hold.
    yield Listing(plant_file(1, [ranged(0, 1, 100, 0, 98), metered(1, 0, 104)]))
    yield Listing(plant_file(1, [ranged(0, 1, 100, 1, 98)]))
    yield Listing(plant_file(1, [ranged(0, 1, 0, RANGE, RANGE, 1_000)] * 95 + [unmetered(1, 0)]))
    yield Listing(plant_file(1, [ranged(0, 1, 0, -RANGE, -RANGE, 1_000)] * 95 + [metered(1, 0, 0, 1)]))
    # A slice that is longer than it must be, and slices that are too short.
    yield Listing(sample, TEXT_LENGTH + 1)
    yield Listing(sample, TEXT_LENGTH - 1)
    yield Listing(sample, 0)
