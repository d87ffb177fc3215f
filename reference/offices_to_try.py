"""Sheet calls by several offices: one after the other, each handed the last numbers that the one before gave back; refusals and their order."""

from reference import samples
from reference.parts import Draws, Drawing, end_record, metered_record, site_record
from reference.refusals import LISTING, LONGEST
from reference.solver import LAST_SHEET, OFFICES, SHEET_LENGTH, offices_from, sheet_call

NO_FLOW = samples.OVERFULL_SITE.file
FILES = (
    (LISTING, 0), (samples.STEAM_SITE.file, 0), (samples.RATED_SITE.file, 0), (NO_FLOW, 19), (b"", 3), (b"\x01\x00", 6),
    (site_record(1) + metered_record(0, 1, 0, 0) + end_record(1), 9), (LISTING + b"\x00", 12),
)


def sequence(seed, count, lasts):
    """Calls by drawn offices on drawn files, the last numbers handed on."""
    draws = Draws(seed)
    for _ in range(count):
        file, number = draws.pick(FILES)
        office = draws.pick((0, 0, 1, 2, 3, 4, 5, 6, 7, 7, 8, 255))
        length = draws.pick((SHEET_LENGTH, SHEET_LENGTH, SHEET_LENGTH, 1_000, SHEET_LENGTH - 1))
        expected = 1 if length < SHEET_LENGTH else 22 if office >= OFFICES else 2 if lasts[office] == LAST_SHEET else number
        yield Drawing(file, office, lasts, length, expected)
        lasts = sheet_call(file, office, lasts, length)[2]


def cases():
    full = (LAST_SHEET,) * OFFICES
    for office in range(OFFICES):
        # By the calling office's number alone: the others have none left, or it alone has none left.
        one_left = full[:office] + (LAST_SHEET - 1,) + full[office + 1 :]
        none_left = tuple(LAST_SHEET if k == office else k for k in range(OFFICES))
        for file, number in FILES:
            yield Drawing(file, office, one_left, expected=number)
            yield Drawing(file, office, none_left, expected=2)
            yield Drawing(file, office, none_left, SHEET_LENGTH - 1, 1)
        yield Drawing(LONGEST, office, tuple(256**k % LAST_SHEET for k in range(OFFICES)), 1_000, 0)
    # No such office: after 1, before 2 and the file's.
    for office in (OFFICES, OFFICES + 1, 31, 128, 255):
        for lasts in (offices_from(0), full):
            for file, _ in FILES[:5]:
                yield Drawing(file, office, lasts, expected=22)
                yield Drawing(file, office, lasts, SHEET_LENGTH - 1, 1)
    # After the change: the one number passes to office 0.
    yield from sequence(141, 120, offices_from(0))
    yield from sequence(142, 120, offices_from(77))
    yield from sequence(143, 60, tuple(LAST_SHEET - k for k in range(OFFICES)))
