# SPDX-License-Identifier: LicenseRef-Wengeludo
"""Rows are the sheets that the calls give one by one; what a row cannot be is told in that row alone."""

import os
import random

import pytest

np = pytest.importorskip("numpy")

import wengeludo_balance as engine
from wengeludo_balance import FAULT, HELD, MEASURED, Plant, Refusal, Signal, Stream, Verdict, deviation_for, rows

DRAWN = int(os.environ.get("WENGELUDO_DRAWN", "300"))


def drawn(seed, most=26):
    """A plant with some ranges, and 8 rows for it: readings, weights, status."""
    rng = random.Random(seed)
    units, count = rng.randint(1, 12), rng.randint(1, most)
    streams = []
    for _ in range(count):
        source = rng.randint(0, units)
        target = rng.choice([place for place in range(units + 1) if place != source])
        low = rng.randint(-3000, 3000) if rng.random() < 0.15 else None
        streams.append(Stream(source, target, 1, 0, low, None if low is None else low + rng.randint(0, 6000)))
    readings = np.array([[rng.randint(-200, 5000) for _ in streams] for _ in range(8)])
    status = np.array([[rng.choice((MEASURED, MEASURED, HELD, FAULT)) for _ in streams] for _ in range(8)])
    return Plant(units, tuple(streams)), readings, np.array([rng.randint(1, 1000) for _ in streams]), status


def by_one(plant, readings, weights, status):
    """The plant of one row, by hand: a held weight is a quarter, at least 1."""
    def stream(s, reading, weight, kind):
        if kind == FAULT:
            return Stream(s.source, s.target)
        return Stream(s.source, s.target, int(weight) if kind == MEASURED else max(1, int(weight) // 4), int(reading), s.low, s.high)

    return Plant(plant.units, tuple(map(stream, plant.streams, readings, weights, status)))


def eliminated(plant, most):
    """Streams, flows and costs as meters are taken out, by single calls."""
    found, sheet = [], engine.balance(plant.file())
    while sheet.verdict is Verdict.FAIL and len(found) < most:
        listed = engine.visits(plant.file())
        if not listed:
            break
        k = listed[0].stream
        plant = Plant(plant.units, tuple(s.unmetered() if j == k else s for j, s in enumerate(plant.streams, 1)))
        sheet = engine.balance(plant.file())
        found.append((k, sheet.records[k - 1].flow or 0, sheet.cost))
    return found, sheet.verdict


def padded(values, most, each):
    return values + [0 if each is None else (0, 0, 0)] * (most - len(values))


@pytest.mark.parametrize("seed", range(DRAWN // 10))
def test_rows_are_the_sheets_of_single_calls(seed):
    plant, readings, weights, status = drawn(seed)
    rates = [random.Random(seed).randint(0, 10_000) for s in plant.streams if s.target == 0]
    made = rows(plant, readings, deviation_for(weights), status, suspects=3, rates=rates, check=True)
    for k in range(len(readings)):
        one = by_one(plant, readings[k], weights, status[k])
        try:
            sheet = engine.balance(one.file())
        except Refusal as refusal:
            assert made.refusal[k] == refusal.number
            assert not any(np.any(array[k]) for name, array in made.arrays().items() if name != "refusal")
            continue
        assert made.refusal[k] == 0 and made.checked[k] == 0
        assert made.flows[k].tolist() == [record.flow or 0 for record in sheet.records]
        letters = {engine.ADJUSTED: "A", engine.AS_READ: "R", engine.GIVEN: "G", engine.WITHHELD: "W"}
        assert [letters[kind] for kind in made.kinds[k]] == [record.kind.value for record in sheet.records]
        assert (made.cost[k], made.degrees[k], made.verdict[k]) == (sheet.cost, sheet.degrees, sheet.verdict)
        found, last = eliminated(one, 3)
        assert list(zip(made.dropped[k].tolist(), made.dropped_flow[k].tolist(), made.dropped_cost[k].tolist())) == padded(found, 3, 3)
        assert made.cleared[k] == last
        numbers = engine.place_numbers(one.file())
        assert made.numbers[k].tolist() == padded(list(numbers), 33, None)
        try:
            bill = engine.charges(one.file(), rates)
            assert made.unbilled[k] == 0 and made.bill[k] == bill.cents and made.cents[k].tolist() == [cents for _, cents in bill.charges]
        except Refusal as refusal:
            assert made.unbilled[k] == refusal.number and not made.bill[k] and not made.cents[k].any()


def test_every_weight_and_every_edge_survives_the_floats():
    weights = np.arange(1, 1001)
    for kind, expected in ((MEASURED, weights), (HELD, np.maximum(1, weights // 4))):
        for part in np.array_split(weights, 20):
            signals = [Signal(0, 1, 1.0, float(d), kind == HELD) for d in deviation_for(part)]
            plant = engine.read_plant(engine.plant_from_transmitter(engine.transmitter_file(1, signals)))
            assert [s.weight for s in plant.streams] == expected[part - 1].tolist()
    edges = [0, 1, -1, 2**21 - 1, 2**21 + 1, 3_999_999, 4_000_000, -3_999_999, -4_000_000, 1_048_577]
    plant = Plant(1, (Stream(0, 1, 1), Stream(1, 0)))
    made = rows(plant, np.array([[edge, 0] for edge in edges]), deviation_for([1000, 1]), np.array([[MEASURED, FAULT]] * len(edges)))
    assert made.flows.tolist() == [[edge, edge] for edge in edges]


def test_one_rule_stands_in_the_middle_of_a_weights_reach():
    assert (np.floor(1000 / deviation_for(np.arange(1, 1001)) ** 2) == np.arange(1, 1001)).all()


@pytest.mark.parametrize("reading, deviation, kind, number", [
    (4_000_001, 5, MEASURED, 10), (float("nan"), 5, MEASURED, 16), (1, 0, MEASURED, 17), (1, float("inf"), HELD, 17), (1, 40, MEASURED, 9), (1, 5, 7, 4),
])
def test_a_row_that_is_refused_says_so_and_leaves_the_others(reading, deviation, kind, number):
    plant = Plant(1, (Stream(0, 1, 1), Stream(1, 0, 1)))
    made = rows(plant, np.array([[10, 12], [reading, 12], [10, 12]]), np.array([[5.0, 5], [deviation, 5], [5, 5]]),
                np.array([[MEASURED] * 2, [kind, MEASURED], [MEASURED] * 2]), suspects=2, check=True)
    assert made.refusal.tolist() == [0, number, 0]
    assert made.flows.tolist() == [[11, 11], [0, 0], [11, 11]] and made.checked.tolist() == [0, 0, 0]


@pytest.mark.parametrize("units", [-1, 0, 33, 255, 256, 1_000])
def test_units_beyond_the_limit_are_refused_in_every_row(units):
    made = rows(Plant(units, (Stream(0, 1, 1, 0), Stream(1, 0, 1, 0))), [[1, 1]] * 2, [1.0, 1.0], [[MEASURED] * 2] * 2)
    assert made.refusal.tolist() == [6, 6]


@pytest.mark.parametrize("place", [-1, 2, 255, 256, 1_000])
def test_places_that_do_not_fit_are_refused_in_every_row(place):
    for ends in ((place, 1), (1, place)):
        made = rows(Plant(1, (Stream(*ends, 1, 0), Stream(1, 0, 1, 0))), [[1, 1]] * 2, [1.0, 1.0], [[MEASURED] * 2] * 2)
        assert made.refusal.tolist() == [7, 7]


def test_the_plants_own_faults_are_told_in_every_row():
    def refused(units, *streams):
        count = len(streams)
        return set(rows(Plant(units, streams), np.ones((3, count)), np.full(count, 5.0), np.full((3, count), MEASURED)).refusal.tolist())

    assert refused(0, Stream(0, 1, 1)) == {6} and refused(300, Stream(0, 1, 1)) == {6}
    assert refused(1, Stream(0, 9, 1)) == {7} and refused(1, Stream(1, 1, 1)) == {8}
    assert refused(1, *[Stream(0, 1, 1)] * 97) == {5}
    assert refused(1, Stream(0, 1, 1, 0, 5, 2)) == {18}
    assert refused(1, Stream(0, 1, 1, 0, 5, 9), Stream(1, 0, 1, 0, 1, 2)) == {19}


def test_threads_and_blocks_make_no_difference(monkeypatch):
    plant, readings, weights, status = drawn(3)
    readings, status = np.tile(readings, (40, 1)), np.tile(status, (40, 1))
    whole = rows(plant, readings, deviation_for(weights), status, suspects=2)
    monkeypatch.setattr("wengeludo_balance.row_sheets.BLOCK", 7)
    cut = rows(plant, readings, deviation_for(weights), status, suspects=2, threads=3)
    for name, array in whole.arrays().items():
        assert (array == cut.arrays()[name]).all(), name


def test_shapes_that_do_not_fit_are_told():
    plant = Plant(1, (Stream(0, 1, 1), Stream(1, 0)))
    for readings, deviations, status in ((np.ones((3, 3)), np.ones(2), np.ones((3, 2))), (np.ones((3, 2)), np.ones(3), np.ones((3, 2))),
                                         (np.ones((3, 2)), np.ones(2), np.ones((2, 2))), (np.ones(2), np.ones(2), np.ones(2))):
        with pytest.raises(ValueError, match="shape"):
            rows(plant, readings, deviations, status)
    assert rows(plant, np.ones((0, 2)), np.ones(2), np.ones((0, 2))).flows.shape == (0, 2)


def test_the_published_example_of_serial_elimination():
    """Source 001, example 7.3: six flows, f4 is off; without it the cost is 1.25 and the test passes."""
    ends = ((0, 1), (1, 2), (2, 1), (0, 2), (2, 3), (3, 0))
    plant = Plant(3, tuple(Stream(a, b, 1) for a, b in ends))
    made = rows(plant, np.array([[105, 145, 55, 140, 195, 205]]), deviation_for([10] * 6), np.full((1, 6), MEASURED), suspects=3)
    assert made.verdict[0] == Verdict.FAIL and made.dropped[0].tolist() == [4, 0, 0]
    assert (made.dropped_flow[0, 0], made.dropped_cost[0, 0], made.cleared[0]) == (100, 1250, Verdict.PASS)


def test_nothing_is_left_of_what_stood_in_the_memory(monkeypatch):
    """Rows that are refused, and what a row has no use for, are 0 over memory that held other numbers."""
    refused = 0
    for seed in range(12):
        plant, readings, weights, status = drawn(seed, 8)
        readings[::3, 0] = 5_000_000  # beyond the limit
        status[::3, 0] = MEASURED
        words = {"suspects": 3, "rates": [3_000] * sum(s.target == 0 for s in plant.streams), "check": True}
        clean = rows(plant, readings, deviation_for(weights), status, **words)
        with monkeypatch.context() as patch:
            patch.setattr(np, "zeros", lambda shape, kind: np.full(shape, 119, kind))
            dirty = rows(plant, readings, deviation_for(weights), status, **words)
        for name, values in clean.arrays().items():
            assert (values == dirty.arrays()[name]).all(), name
            if name != "refusal" and name != "unbilled" and name != "checked":
                assert not values[clean.refusal != 0].any(), name
        refused += int((clean.refusal != 0).sum())
    assert refused > 20
