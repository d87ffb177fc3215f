"""Plant files to move: each refusal and 20 after it, ranges next to the widest, mixed plants, the trip, sheets before and after."""

from reference import files_to_try, moves
from reference.parts import (
    Case, Draws, Move, drawn_meters, end_record, metered, metered_record,
    plant_file, ranged, ranged_record, site_record, unmetered
)
from reference.solver import FILE_LENGTH, RANGE, READING as MOST, balance, read_plant

FORTH, HOME = moves.widened, moves.bared

# Mixed plants: one whose sheet is another in the ranged form, one that then has none.
OTHER_SHEET = (ranged(0, 1, 0, RANGE, RANGE, 1), metered(0, 1, 3_001_000, 1_000), metered(1, 0, 0, 1))
NO_SHEET = (ranged(0, 1, 0, 1_200_000_000, RANGE, 1), ranged(0, 1, 0, 1_200_000_000, RANGE, 1), metered(1, 0, 0, 1))

# Ranges next to the widest, and whether they are narrower.
ENDS = (
    (-RANGE, RANGE, False), (-RANGE + 1, RANGE, True), (-RANGE, RANGE - 1, True), (-RANGE + 1, RANGE - 1, True),
    (-RANGE, -RANGE, True), (RANGE, RANGE, True), (0, 0, True), (-RANGE, 0, True), (0, RANGE, True),
)


def file(*records, count, after=b""):
    return site_record(1) + b"".join(records) + end_record(count) + after


def both(given, number=None, length=FILE_LENGTH):
    """The file moved both ways, refused alike or not at all."""
    yield Move(given, FORTH, length, number)
    yield Move(given, HOME, length, number)


def refusals():
    for text, number in files_to_try.FILES + files_to_try.RANGED_FILES:
        yield from both(bytes.fromhex(text), number or None)
    narrow = ranged_record(0, 1, 10, 5, 0, 9)
    # 20 only when the whole file is read: after 3, 4, 7 to 10, 18, 11 and 12 of what follows.
    for records, after, count, number in (
        ((narrow,), b"\0", 1, 12),
        ((narrow,), b"", 2, 11),
        ((narrow, metered_record(9, 0, 1, 0)), b"", 2, 7),
        ((narrow, metered_record(1, 1, 1, 0)), b"", 2, 8),
        ((narrow, metered_record(1, 0, 0, 0)), b"", 2, 9),
        ((narrow, metered_record(1, 0, 1, MOST + 1)), b"", 2, 10),
        ((narrow, ranged_record(1, 0, 1, 0, 1, 0)), b"", 2, 18),
        ((narrow, b"\x07"), b"", 1, 4),
    ):
        yield from both(file(*records, count=count, after=after), number)
    given = file(narrow, count=1)
    yield from both(given[:-1], 3)
    yield Move(given, HOME, expected=20)
    yield Move(given, FORTH, expected=0)
    # 1 comes first.
    for length in (0, FILE_LENGTH - 1):
        for other in (b"", given, file(metered_record(0, 1, 10, 5), count=1)):
            yield from both(other, 1, length)
    for length in (FILE_LENGTH, FILE_LENGTH + 1, FILE_LENGTH + 60):
        yield from both(file(metered_record(0, 1, 10, 5), count=1), 0, length)


def ends():
    plain, wide = metered_record(1, 0, 10, 98), ranged_record(1, 0, 7, 98, -RANGE, RANGE)
    for low, high, narrower in ENDS:
        record = ranged_record(0, 1, 10, 100, low, high)
        for records in ((record,), (plain, record), (record, wide), (wide, plain, record, wide)):
            given = file(*records, count=len(records))
            yield Move(given, FORTH, expected=0)
            yield Move(given, HOME, expected=20 if narrower else 0)


def trips():
    """Each file there, home again, and home as it is; where no stream has a range it is the file itself."""
    draws = Draws(118)
    plants = list(files_to_try.drawn_plants())
    plants += [(1, ()), (1, OTHER_SHEET), (1, NO_SHEET), (32, files_to_try.LONGEST)]
    for count in (1, 2, 4, 9, 30, 96):
        units = draws.between(1, 32)
        plants.append((units, tuple(drawn_meters(draws, units, count))))
    for units, streams in plants:
        given = plant_file(units, streams)
        there = moves.move_call(given, FILE_LENGTH, FORTH)[2]
        yield Move(given, FORTH, expected=0)
        yield Move(given, HOME)
        yield Move(there, FORTH, expected=0)
        yield Move(there, HOME)
        if not any(s.ranged for s in streams):
            assert moves.move_call(there, FILE_LENGTH, HOME) == (0, len(given), given)
            assert balance(read_plant(there)) == balance(read_plant(given))


def moved_sheets():
    """Sheet calls before and after: the same without ranges, not so for mixed plants."""
    draws = Draws(119)
    for k in range(24):
        units, count = ((1, 3), (3, 8), (8, 24), (32, 96))[k % 4]
        given = plant_file(units, tuple(drawn_meters(draws, units, count)))
        there = moves.move_call(given, FILE_LENGTH, FORTH)[2]
        before, after = Case(given, k, expected=0), Case(there, k, expected=0)
        assert before.record()[3:] == after.record()[3:]
        yield before
        yield after
    for streams, number in ((OTHER_SHEET, 0), (NO_SHEET, 19)):
        given = plant_file(1, streams)
        there = moves.move_call(given, FILE_LENGTH, FORTH)[2]
        before, after = Case(given, expected=0), Case(there, expected=number)
        assert before.record()[3:] != after.record()[3:]
        yield before
        yield after


def moves_made():
    yield from refusals()
    yield from ends()
    yield from trips()
