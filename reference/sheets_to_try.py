"""Sheets to try with the sheet reader: those of plants, damaged ones, each refusal, their order, the edges."""

from reference import files_to_try, samples
from reference.parts import Draws, Keeping, plant_file
from reference.solver import KIND, LAST_SHEET, OFFICES, PLAIN, STREAMS, TOTAL, Overfull, balance, read_plant, sheet_bytes

KINDS = tuple(KIND.values())


def shown(kind, flow=0):
    """A stream record; the blank has no body."""
    return bytes((kind,)) + (b"" if kind == KIND["W"] else flow.to_bytes(8, "big", signed=True))


def total(number=1, cost=20, degrees=1, verdict=0, office=0):
    """The total; without an office it is that of sheets drawn before there were offices."""
    front = (PLAIN,) if office is None else (TOTAL, office)
    return bytes(front) + number.to_bytes(4, "big") + cost.to_bytes(8, "big") + bytes((degrees, verdict))


def sheet_of(units, streams, number=1, office=0):
    return sheet_bytes(balance(read_plant(plant_file(units, streams))), number, office)


def plain(sheet):
    """A sheet as it was drawn before there were offices."""
    return sheet[:-16] + bytes((PLAIN,)) + sheet[-14:]


def whole():
    """Sheets that are read."""
    for k, (units, streams) in enumerate(files_to_try.drawn_plants(), 1):
        try:
            sheet = sheet_of(units, streams, k, k % OFFICES)
        except Overfull:
            continue  # such a plant has no sheet
        yield sheet
        if k % 3 == 0:
            yield plain(sheet)
    yield total()
    for office in (*range(OFFICES), None):
        yield total(office=office)
        yield shown(0x13, 2**33) + shown(0x14) + total(office=office)
        yield shown(0x12, -1) * STREAMS + total(LAST_SHEET, 2**64 - 1, 32, 3, office)
    for number in (1, 2, 2**31, LAST_SHEET):
        yield total(number)
    for cost in (0, 1, 2**63, 2**64 - 1):
        yield total(cost=cost)
    for flow in (0, 1, -1, 255, 256, -256, 2**31, -(2**31), 2**63 - 1, -(2**63)):
        for kind in KINDS[:3]:
            yield shown(kind, flow) + total()
    for kind in KINDS:
        for count in (1, STREAMS - 1, STREAMS):
            yield shown(kind, -7) * count + total()
    # A body may hold any bytes, those of kinds and of totals among them.
    yield shown(0x11, int.from_bytes(total()[:8], "big")) + total()
    # No field is compared with the streams.
    yield shown(0x14) * 3 + total(degrees=32, verdict=1)
    yield total(degrees=0, verdict=2, cost=7)


def kept():
    listing = sheet_bytes(balance(read_plant(samples.LISTING.file)), 1)
    for sheet in whole():
        yield Keeping(sheet, 0)
    # 13: cut anywhere, whatever the total's fields hold so far.
    for sheet in (listing, plain(listing), shown(0x14) + total(0, degrees=33, verdict=9, office=9), shown(0x14) + total(0, degrees=33, office=None)):
        for length in range(len(sheet)):
            yield Keeping(sheet[:length], 13)
    # 13: a kind that is none of a sheet's, first, between and after.
    for kind in (0x00, 0x01, 0x02, 0x03, 0x04, 0x10, 0x15, 0x1D, 0x20, 0x91, 0xFF):
        other = bytes((kind,)) + bytes(8)
        yield Keeping(other + total(), 13)
        yield Keeping(shown(0x14) + other + total(), 13)
        yield Keeping(shown(0x12, 5) * STREAMS + other, 13)
    # 13: a 97th stream record, whole or cut, of each kind, also with a total behind it.
    for kind in KINDS:
        for before in KINDS:
            yield Keeping(shown(before, 7) * STREAMS + shown(kind, 7) + total(), 13)
        yield Keeping(shown(kind, 7) * STREAMS + shown(kind, 7)[:5], 13)
        yield Keeping(shown(kind, 7) * (STREAMS + 1), 13)
    # 13: no total.
    for kind in KINDS:
        for count in (1, STREAMS):
            yield Keeping(shown(kind, 3) * count, 13)
    # 14: each field of the total that is not allowed, alone and after streams.
    wrong = [total(0), total(0, degrees=0, verdict=2), total(degrees=33), total(degrees=255, verdict=1), total(degrees=33, verdict=2)]
    wrong += [total(degrees=0, verdict=v) for v in (0, 1, 3, 255)]
    wrong += [total(office=k) for k in (OFFICES, OFFICES + 1, 30, 31, 255)]
    wrong += [total(0, office=None), total(degrees=33, office=None), total(degrees=0, verdict=0, office=None), total(verdict=2, office=None)]
    wrong += [total(degrees=d, verdict=v) for d in (1, 2, 31, 32) for v in (2, 4, 255)]
    for ending in wrong:
        yield Keeping(ending, 14)
        yield Keeping(shown(0x11, -5) + shown(0x14) + ending, 14)
        # 14 before 15.
        yield Keeping(ending + b"\0", 14)
        yield Keeping(shown(0x13, 9) * STREAMS + ending + total(), 14)
    for degrees in (1, 2, 31, 32):
        for verdict in (0, 1, 3):
            yield Keeping(total(degrees=degrees, verdict=verdict), 0)
    # 15: bytes after the total.
    for after in (b"\0", b"\xFF", b"\x14", total(), total()[:5], listing, bytes(900)):
        yield Keeping(total() + after, 15)
        yield Keeping(total(office=None) + after, 15)
        yield Keeping(total(office=7) + after, 15)
        yield Keeping(shown(0x12, 2**40) * STREAMS + total(degrees=0, verdict=2) + after, 15)
    # A changed byte, or some of them.
    draws = Draws(113)
    for _ in range(120):
        sheet = bytearray(listing)
        for _ in range(draws.pick((1, 1, 2, 4))):
            sheet[draws.between(0, len(sheet) - 1)] = draws.pick((0, 1, 2, 0x11, 0x14, TOTAL, PLAIN, 0x20, draws.between(0, 255)))
        yield Keeping(bytes(sheet))
        if sheet[-16] == TOTAL:
            yield Keeping(plain(bytes(sheet)))
