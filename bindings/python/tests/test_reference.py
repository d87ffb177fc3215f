# SPDX-License-Identifier: LicenseRef-Wengeludo
"""Every call against the reference solver, on drawn plants, whole and damaged.

WENGELUDO_DRAWN (default 300)  how many plants
"""

import os
import random

import wengeludo_balance as w
from reference import charges as charging
from reference import foreign, moves, purchases, solver, survey, transmitter
from reference import visits as visiting

DRAWN = int(os.environ.get("WENGELUDO_DRAWN") or 300)


def drawn_stream(rng, units):
    source, target = rng.sample(range(units + 1), 2)
    if rng.random() < 0.4:
        return w.Stream(source, target)
    reading = rng.choice((rng.randint(-50, 200), rng.randint(-4_000_000, 4_000_000)))
    middle = rng.choice((reading, rng.randint(-50, 200)))
    low, high = rng.choice(((None, None), (middle - rng.randint(0, 90), middle + rng.randint(0, 90))))
    return w.Stream(source, target, rng.choice((1, 10, 444, rng.randint(1, 1_000))), reading, low, high)


def drawn_file(rng):
    units = rng.randint(1, 7)
    file = w.write_plant(units, [drawn_stream(rng, units) for _ in range(rng.randint(0, 12))])
    damage = rng.random()
    if damage < 0.1:
        return file[: rng.randrange(len(file) + 1)]
    if damage < 0.2:
        at = rng.randrange(len(file))
        return file[:at] + bytes((rng.randrange(256),)) + file[at + 1 :]
    return file


def told(call, *words):
    """(number, result) of a call of the binding."""
    try:
        return 0, call(*words)
    except w.Refusal as refusal:
        return refusal.number, None


def files(seed):
    rng = random.Random(seed)
    return ((rng, drawn_file(rng)) for _ in range(DRAWN))


def test_sheets():
    for rng, file in files(1):
        lasts = tuple(rng.choice((0, 7, 2**32 - 1, rng.randrange(2**32))) for _ in range(8))
        office = rng.randrange(9)
        number, written, after, sheet = solver.sheet_call(file, office, lasts, w.SHEET_SIZE)
        got, drawn = told(w.balance_plant, file, office, lasts)
        assert got == number, file.hex()
        if drawn:
            assert (drawn.sheet, drawn.lasts) == (sheet, tuple(after)), file.hex()


def test_marked_places():
    for _, file in files(2):
        try:
            w.balance_plant(file)
        except w.Refusal as refusal:
            if refusal.number == 19:
                within, streams = refusal.places, w.read_plant(file).streams
                across = [s for s in streams if (s.source in within) != (s.target in within)]
                assert all(s.ranged for s in across)
                assert sum(s.low for s in across if s.target in within) > sum(s.high for s in across if s.source in within)


def test_reader():
    for rng, file in files(3):
        drawn = told(w.balance_plant, file)[1]
        sheet = drawn.sheet if drawn else file
        at = rng.randrange(len(sheet) + 1)
        for data in (sheet, sheet[:at], sheet[:at] + b"\x1e" + sheet[at + 1 :]):
            number, kept = solver.reopen_call(data)
            got, read = told(w.read_sheet, data)
            assert got == number
            if read:
                assert "".join(r.kind.value for r in read.records) == kept.classes
                assert tuple(r.flow or 0 for r in read.records) == tuple(kept.flows)
                total = (read.office, read.number, read.cost, read.degrees, int(read.verdict), 0x1F if read.plain else 0x1E)
                assert total == (kept.office, kept.number, kept.cost, kept.degrees, kept.verdict, kept.kind)


def test_moves():
    for _, file in files(4):
        for call, move in ((w.to_ranged, moves.widened), (w.from_ranged, moves.bared)):
            number, _, moved = moves.move_call(file, w.FILE_SIZE, move)
            assert told(call, file) == (number, None if number else moved)


def test_translator():
    rng = random.Random(5)
    for _ in range(DRAWN):
        units = rng.randint(1, 4)
        signals = []
        for _ in range(rng.randint(0, 6)):
            source, target = rng.sample(range(units + 1), 2)
            value = rng.choice((None, 0.5, -1.5, rng.uniform(-5e6, 5e6), float("inf")))
            signals.append(w.Signal(source, target, value, rng.choice((1.0, 5.0, 0.9, 31.7, rng.uniform(1, 31))), rng.random() < 0.3))
        file = w.transmitter_file(units, signals)
        number, _, plant = transmitter.translate_call(file, w.FILE_SIZE)
        assert told(w.plant_from_transmitter, file) == (number, None if number else plant)


def test_buying():
    for rng, file in files(6):
        number, plant = told(w.read_plant, file)
        bare = sum(not s.metered for s in plant.streams) if plant else 0
        prices = [rng.choice((1, 5, rng.randint(1, 1_000_000))) for _ in range(bare + rng.choice((0, 0, 0, 1)))]
        number, streams, price = purchases.buy_call(file, prices, w.MAX_STREAMS)
        assert told(w.meters_to_buy, file, prices) == (number, None if number else w.Purchase(tuple(streams), price))


def test_layouts():
    for _, file in files(7):
        number, _, counts = survey.layouts_call(file)
        assert told(w.layouts_of, file) == (number, None if number else tuple(counts))


def test_visits():
    for _, file in files(8):
        number, listed = visiting.visits_call(file)
        assert told(w.visits, file) == (number, None if number else tuple(w.Visit(*entry) for entry in listed))


def test_charges():
    for rng, file in files(9):
        number, plant = told(w.read_plant, file)
        outward = sum(s.target == 0 for s in plant.streams) if plant else 0
        rates = [rng.choice((0, 10_000, rng.randint(0, 10_000))) for _ in range(outward + rng.choice((0, 0, 0, 1)))]
        number, streams, cents, bill = charging.charge_call(file, rates, w.MAX_STREAMS)
        assert told(w.charges, file, rates) == (number, None if number else w.Bill(tuple(zip(streams, cents)), bill))


def test_checks():
    for rng, file in files(10):
        got, numbers = told(w.place_numbers, file)
        assert got == foreign.numbers_call(file, 33)[0]
        if numbers is None:
            assert told(w.check_sheet, file, b"", ()) == (got if got != 19 else 13, None)
            continue
        sheet = w.balance_plant(file).sheet
        w.check_sheet(file, sheet, numbers)
        changed = list(numbers)
        changed[rng.randrange(len(numbers))] += rng.choice((-1, 1, 40, 2**62))
        at = rng.randrange(len(sheet))
        other = sheet[:at] + bytes(((sheet[at] + rng.choice((1, 255))) % 256,)) + sheet[at + 1 :]
        for data, given in ((sheet, changed), (other, numbers), (sheet, numbers[:-1]), (sheet, (*numbers, 0))):
            assert told(w.check_sheet, file, data, given)[0] == foreign.check_call(file, data, tuple(given)), file.hex()
