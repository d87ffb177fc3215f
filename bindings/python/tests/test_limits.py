# SPDX-License-Identifier: LicenseRef-Wengeludo
"""Every limit of the header and the binding against the archive's calls: taken at it, refused beyond it; kinds, verdicts, the critical
values, the last place of an overfull set, and an archive that answers what is not known."""

import re
from math import isqrt

import pytest

import build_native
import wengeludo_balance as w
from wengeludo_balance._native import lib

HEADER = build_native.HEADER.read_text(encoding="utf-8")
LIMITS = {name: int(number) for name, number in re.findall(r"#define WENGELUDO_(\w+) (?:INT64_C\()?(\d+)\)?$", HEADER, re.MULTILINE)}


def number_of(call, *words):
    """The number of the refusal, 0 for none."""
    try:
        call(*words)
        return 0
    except w.Refusal as refusal:
        return refusal.number


def full(streams):
    """A plant of one unit, with so many meters to it and from it by turns, each with a range."""
    return w.Plant(1, tuple(w.Stream(k % 2, 1 - k % 2, 1, 0, 0, 5) for k in range(streams)))


@pytest.mark.parametrize(
    "limit, field, refused",
    [("MAX_WEIGHT", "weight", 9), ("MAX_READING", "reading", 10), ("MAX_RANGE", "high", 18)],
)
def test_meters(limit, field, refused):
    words = {"weight": 1, "reading": 0, "low": -1, "high": 1}
    assert number_of(w.write_plant, 1, [w.Stream(0, 1, **{**words, field: LIMITS[limit]})]) == 0
    assert number_of(w.write_plant, 1, [w.Stream(0, 1, **{**words, field: LIMITS[limit] + 1})]) == refused


@pytest.mark.parametrize("limit, field, refused", [("MAX_READING", "reading", 10), ("MAX_RANGE", "low", 18)])
def test_lesser_ones(limit, field, refused):
    words = {"weight": 1, "reading": 0, "low": -1, "high": 1}
    assert number_of(w.write_plant, 1, [w.Stream(0, 1, **{**words, field: -LIMITS[limit]})]) == 0
    assert number_of(w.write_plant, 1, [w.Stream(0, 1, **{**words, field: -LIMITS[limit] - 1})]) == refused


def test_plants():
    assert number_of(w.write_plant, LIMITS["MAX_UNITS"], []) == 0 and number_of(w.write_plant, LIMITS["MAX_UNITS"] + 1, []) == 6
    file = full(w.MAX_STREAMS).file()
    assert len(file) == w.FILE_SIZE == LIMITS["FILE_SIZE"] and number_of(full(w.MAX_STREAMS + 1).file) == 5
    assert len(w.balance_plant(file).sheet) == w.SHEET_SIZE == LIMITS["SHEET_SIZE"]
    assert len(w.read_plant(file).streams) == len(w.visits(file)) == w.MAX_STREAMS == LIMITS["MAX_STREAMS"]
    assert number_of(w.read_plant, file + b"\0") == number_of(w.balance_plant, file + b"\0") == 12
    assert number_of(w.balance_plant, file, w.OFFICES - 1) == 0 and number_of(w.balance_plant, file, w.OFFICES) == 22
    assert w.OFFICES == len(w.NO_SHEETS) == LIMITS["OFFICES"] and w.WIDEST == LIMITS["MAX_RANGE"]
    moved = w.read_plant(w.to_ranged(w.Plant(1, (w.Stream(0, 1, 1, 0),)).file())).streams[0]
    assert (moved.low, moved.high) == (-w.WIDEST, w.WIDEST)


def test_transmitter_files():
    signals = [w.Signal(0, 1, 100.0, 10.0)] * w.MAX_STREAMS
    assert len(w.transmitter_file(1, signals)) == LIMITS["TRANSMITTER_SIZE"]
    assert number_of(w.plant_from_transmitter, w.transmitter_file(1, signals)) == 0
    assert number_of(w.plant_from_transmitter, w.transmitter_file(1, [*signals, signals[0]])) == 5


def test_lists_of_streams():
    bare = w.Plant(1, (w.Stream(0, 1),) * w.MAX_STREAMS).file()
    top = LIMITS["MAX_PRICE"]
    assert w.meters_to_buy(bare, [top] * w.MAX_STREAMS) == w.Purchase(tuple(range(1, w.MAX_STREAMS)), top * (w.MAX_STREAMS - 1))
    assert number_of(w.meters_to_buy, bare, [top] * (w.MAX_STREAMS - 1) + [top + 1]) == 21
    outward = w.Plant(1, (w.Stream(1, 0, 1, 0),) * w.MAX_STREAMS).file()
    top = LIMITS["MAX_RATE"]
    assert len(w.charges(outward, [top] * w.MAX_STREAMS).charges) == w.MAX_STREAMS
    assert number_of(w.charges, outward, [top + 1] * w.MAX_STREAMS) == 24


def test_surveys_and_places():
    surveyed = LIMITS["MAX_SURVEYED"]
    assert len(w.layouts_of(w.Plant(1, (w.Stream(0, 1),) * surveyed).file())) == surveyed + 1 == LIMITS["SURVEY_SIZE"]
    assert number_of(w.layouts_of, w.Plant(1, (w.Stream(0, 1),) * (surveyed + 1)).file()) == 23
    file = w.Plant(LIMITS["MAX_UNITS"]).file()
    numbers = list(w.place_numbers(file))
    assert len(numbers) == LIMITS["MAX_PLACES"]
    sheet, most = w.balance_plant(file).sheet, LIMITS["MAX_NUMBER"]
    for number, refused in ((most, 0), (-most, 0), (most + 1, 26), (-most - 1, 26)):
        assert number_of(w.check_sheet, file, sheet, [*numbers[:-1], number]) == refused


def test_the_last_place_of_an_overfull_set():
    last = LIMITS["MAX_UNITS"]
    with pytest.raises(w.Refusal) as caught:
        w.balance_plant(w.Plant(last, (w.Stream(0, last, 1, 5, 1, 9),)).file())
    assert last in caught.value.places and 0 not in caught.value.places
    assert str(caught.value).endswith(f"too much goes into places {', '.join(map(str, sorted(caught.value.places)))}")


def ring(units, cost):
    """A ring of meters from the outside through so many units and back, shut at 0, that costs this; its sheet and its weights' sum."""
    root = isqrt(cost)
    rest = cost - root * root
    meters = [(1, root), (rest, 1) if rest else (1, 0)] + [(1, 0)] * (units - 1)
    streams = [w.Stream(k, (k + 1) % (units + 1), weight, reading, 0, 0) for k, (weight, reading) in enumerate(meters)]
    sheet = w.balance(w.Plant(units, tuple(streams)).file())
    assert (sheet.cost, sheet.degrees) == (cost, units)
    return sheet.verdict, sum(weight for weight, _ in meters)


def test_critical_values_of_the_reference():
    from reference.solver import CRITICAL

    assert len(CRITICAL) == LIMITS["MAX_UNITS"]
    for units, value in enumerate(CRITICAL, 1):
        assert ring(units, value)[0] is w.Verdict.PASS
        verdict, weights = ring(units, value + 1)
        assert verdict is (w.Verdict.FAIL if weights < 4 else w.Verdict.CLOSE)
        assert ring(units, value + 2_000)[0] is w.Verdict.FAIL


def test_kinds_and_verdicts():
    plant = w.Plant(3, (w.Stream(0, 1, 1, 7), w.Stream(1, 0), w.Stream(2, 3), w.Stream(2, 3)))
    sheet = w.balance(plant.file())
    assert [r.kind for r in sheet.records] == [w.Kind.AS_READ, w.Kind.GIVEN, w.Kind.WITHHELD, w.Kind.WITHHELD]
    assert (sheet.verdict, sheet.degrees) == (w.Verdict.NONE, 0)
    told = {name: getattr(lib, f"WENGELUDO_{name}") for name in ("PASS", "FAIL", "NONE", "CLOSE")}
    assert told == {verdict.name: int(verdict) for verdict in w.Verdict}
    assert str(sheet) == "1 R 7\n2 G 7\n3 W -\n4 W -\ntotal 1 0 0 none\n"


def test_rows_at_the_limits_and_beyond():
    """A row that is refused is empty, and numbers that no field of C holds are refused like any other."""
    np = pytest.importorskip("numpy")
    for ends in ((), (-9, LIMITS["MAX_READING"])):
        refused_row(np, w.Plant(1, (w.Stream(0, 1, 1, 0, *ends), w.Stream(1, 0, 1, 0))))
    one = [w.MEASURED]
    for streams, rates, refused in (((w.Stream(0, 256, 1, 0),), None, 7), ((w.Stream(1, 0, 1, 0),), [-1], 24), ((w.Stream(1, 0, 1, 0),), [65_536], 24)):
        told = w.rows(w.Plant(1, streams), [[5]], [10.0], [one], rates=rates).arrays()
        assert int(told["unbilled" if rates else "refusal"][0]) == refused, told


def refused_row(np, plant):
    """The second of three rows is refused, and nothing of it is left."""
    readings = np.array([[LIMITS["MAX_READING"]] * 2, [LIMITS["MAX_READING"] + 1] * 2, [5, 7]])
    done = w.rows(plant, readings, np.array([10.0, 10.0]), np.full((3, 2), w.MEASURED), rates=[5])
    found = done.arrays()
    assert list(found["refusal"]) == [0, 10, 0]
    for name, array in found.items():
        if name not in ("refusal", "unbilled"):
            assert not np.any(array[1]), f"{name} of a row that is refused"
