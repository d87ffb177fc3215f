# SPDX-License-Identifier: LicenseRef-Wengeludo
"""The check of a flow with wide weights, and the solver whose answers all go through it.

WENGELUDO_DRAWN (default 300)   drawn plants of each test
WENGELUDO_AGREED (default 300)  drawn plants on which the solver is held against the proved engine; 100,000 take half a minute
"""

import os
import random
from array import array

import pytest
from conftest import REFERENCE

import wengeludo_balance as w
from reference import foreign, solver, wide_flows
from wengeludo_balance._native import ffi, lib

DRAWN = int(os.environ.get("WENGELUDO_DRAWN") or 300)
AGREED = int(os.environ.get("WENGELUDO_AGREED") or 300)
LEAST, MOST = -(2**63), 2**63 - 1


def narrow_range(rng, reading, far):
    """A range near the reading, as a plant file takes it."""
    low = max(-w.WIDEST, reading + rng.randint(-far, far))
    return low, min(w.WIDEST, low + rng.randint(0, 3 * far))


def narrow_stream(rng, units, small, equal, ranged):
    """A stream that a plant file takes; small readings and equal weights make ties."""
    source, target = rng.sample(range(units + 1), 2)
    if rng.random() < 0.22:
        return w.Stream(source, target)
    reading = rng.randint(-20, 20) if small else rng.choice((rng.randint(-4_000_000, 4_000_000), rng.randint(-3_000, 3_000)))
    ends = narrow_range(rng, reading, 25 if small else rng.choice((50, 100_000, 4_000_000))) if rng.random() < ranged else (None, None)
    weight = rng.choice((1, 1, 2, 5, 10, 10, 30)) if rng.random() < 0.7 else rng.choice((1, 1_000, rng.randint(1, 1_000)))
    return w.Stream(source, target, 10 if equal else weight, reading, *ends)


def narrow_plant(rng):
    """A plant that both the engine and the solver take."""
    units = rng.randint(1, 32 if rng.random() < 0.3 else 10)
    kind = (rng.random() < 0.5, rng.random() < 0.35, rng.choice((0.1, 0.35)))
    return w.WidePlant(units, tuple(narrow_stream(rng, units, *kind) for _ in range(rng.randint(1, 96 if rng.random() < 0.3 else 24))))


def wide_stream(rng, units, top, size):
    """A stream with any weight to 2^top and any reading to 2^size, some with a range that binds."""
    source, target = rng.sample(range(units + 1), 2)
    if rng.random() < 0.15:
        return w.Stream(source, target)
    reading = rng.choice((rng.randint(-(2**size), 2**size), int(2 ** rng.uniform(0, size))))
    half = int(2 ** rng.uniform(0, size))
    middle = reading + rng.randint(-half, half)
    ends = (middle - half, middle + half) if rng.random() < 0.3 else (None, None)
    return w.Stream(source, target, max(1, int(2 ** rng.uniform(0, top))), reading, *ends)


def wide_plant(rng, top, size, most=40):
    units = rng.randint(1, 12)
    return w.WidePlant(units, tuple(wide_stream(rng, units, top, size) for _ in range(rng.randint(1, most))))


def told(call, *words):
    """(number, result) of a call of the binding; 26 where nothing was certified."""
    try:
        return 0, call(*words)
    except w.NotCertified:
        return 26, None
    except w.Refusal as refusal:
        return refusal.number, None


def as_reference(plant):
    """The plant as the reference has it."""
    streams = (solver.Stream(s.source, s.target, s.weight or 0, s.reading, s.low, s.high) for s in plant.streams)
    return solver.Plant(plant.units, tuple(streams))


def checked(plant, flows, numbers):
    """What the check says, held against the reference."""
    number = told(w.check_flow, plant, flows, numbers)[0]
    assert number == wide_flows.check_call(wide_flows.parts_of(plant, flows, numbers)), (plant, flows, numbers)
    return number


def turned(plant):
    """The plant with all flows turned round: its first flow of least cost, turned back, is the last of the plant."""
    ends = [(-s.high, -s.low) if s.ranged else (None, None) for s in plant.streams]
    return w.WidePlant(plant.units, tuple(w.Stream(s.source, s.target, s.weight, -s.reading, *e) for s, e in zip(plant.streams, ends)))


def agreed(plant):
    """Solver and engine on one plant: same metered and forced flows, same refusal; gives (has a sheet, has flows equally cheap)."""
    file = w.write_plant(plant.units, plant.streams)
    number, found = told(w.wide_solve, plant)
    assert number == told(w.balance, file)[0] and number in (0, 19), plant
    if number:
        return False, False
    raw = w.balance_plant(file).sheet
    shown = [record.flow for record in w.read_sheet(raw).records]
    assert all(flow is None or flow == own for flow, own in zip(shown, found.flows)), plant
    w.check_sheet(file, raw, found.numbers)
    last = tuple(-flow for flow in w.wide_solve(turned(plant)).flows)
    w.check_flow(plant, last, found.numbers)
    return True, any(s.metered and a != b for s, a, b in zip(plant.streams, found.flows, last))


def test_solver_and_engine_agree():
    rng = random.Random(42)
    sheets, ties = (sum(column) for column in zip(*(agreed(narrow_plant(rng)) for _ in range(AGREED))))
    print(f"{AGREED} plants, no difference: {sheets} sheets, {ties} with ties; {AGREED - sheets} without a flow in range")
    assert AGREED < 100 or 0.6 < sheets / AGREED < 0.95 and ties / AGREED > 0.05


def test_engine_s_numbers_pass():
    """Each of the engine's sheets without a blank passes the check with the engine's own numbers."""
    rng, met = random.Random(43), 0
    for _ in range(DRAWN):
        plant = narrow_plant(rng)
        file = w.write_plant(plant.units, plant.streams)
        number, sheet = told(w.balance, file)
        flows = [] if number else [record.flow for record in sheet.records]
        if flows and None not in flows:
            met += 1
            assert checked(plant, flows, w.place_numbers(file)) == 0
    assert met > DRAWN / 20


def test_places_that_take_in_as_much_as_they_let_out_are_not_overfull():
    for high, over in ((4, True), (5, False), (6, False)):
        plant = w.WidePlant(1, (w.Stream(0, 1, 1, 5, 5, 9), w.Stream(1, 0, 1, 5, 0, high)))
        assert w.overfull(plant, {1}) == over


def test_overfull_places_are_counted():
    rng, met = random.Random(44), 0
    for _ in range(DRAWN):
        plant = narrow_plant(rng)
        try:
            w.wide_solve(plant)
        except w.Refusal as refusal:
            met += 1
            assert refusal.number == 19 and w.overfull(plant, refusal.places)
            assert not w.overfull(plant, set(range(plant.units + 1)) - refusal.places)
    assert met > DRAWN / 20


def test_wide_plants_against_the_reference():
    """Metered flows are those that cancelling cycles finds, ties included; with the reference's numbers they pass too."""
    rng, met = random.Random(45), 0
    for _ in range(max(10, DRAWN // 10)):
        plant = wide_plant(rng, 40, 20, 14)
        try:
            flow = solver.cheapest_flow(as_reference(plant))
        except solver.Overfull:
            assert told(w.wide_solve, plant)[0] == 19
            continue
        number, found = told(w.wide_solve, plant)
        numbers = foreign.numbers_for(as_reference(plant), flow)
        past = max(map(abs, numbers)) > w.WIDE_NUMBER
        assert checked(plant, flow, numbers) == (26 if past else 0)
        assert number == 0 or past
        if found:
            met += 1
            assert [x for x, s in zip(found.flows, plant.streams) if s.metered] == [x for x, s in zip(flow, plant.streams) if s.metered]
            assert checked(plant, found.flows, found.numbers) == 0
    assert met > 5


def test_times_one_number_the_same_flows():
    rng = random.Random(46)
    for _ in range(DRAWN):
        plant = narrow_plant(rng)
        by = rng.choice((3, 1_000_003, 2**20))
        times = [w.Stream(s.source, s.target, s.weight and s.weight * by, s.reading, s.low, s.high) for s in plant.streams]
        number, found = told(w.wide_solve, plant)
        other, same = told(w.wide_solve, w.WidePlant(plant.units, tuple(times)))
        assert number == other
        if found:
            assert found.flows == same.flows


def test_weights_to_two_to_the_30_are_all_certified():
    rng = random.Random(47)
    for _ in range(DRAWN):
        plant = wide_plant(rng, 30, rng.choice((10, 20, 28)), 60)
        number, found = told(w.wide_solve, plant)
        assert number in (0, 19), plant
        if found:
            assert found.numbers[0] == 0 and checked(plant, found.flows, found.numbers) == 0


def spoilt(rng, plant, found):
    """Something changed of a flow that passes: a flow, a number, a weight, a reading or a range."""
    flows, numbers, streams = list(found.flows), list(found.numbers), list(plant.streams)
    step = rng.choice((1, -1)) * rng.choice((1, 1, 2, 100, 2**40, 2**62))
    what, k = rng.randrange(5), rng.randrange(len(streams))
    s = streams[k]
    if what == 0 or not s.metered:
        flows[k] += step
    elif what == 1:
        numbers[rng.randrange(len(numbers))] += step
    elif what == 2:
        streams[k] = w.Stream(s.source, s.target, s.weight * rng.choice((2, 3, 1024)) // rng.choice((1, 4)), s.reading, s.low, s.high)
    elif what == 3:
        streams[k] = w.Stream(s.source, s.target, s.weight, s.reading + step, s.low, s.high)
    else:
        streams[k] = w.Stream(s.source, s.target, s.weight, s.reading, flows[k] + rng.choice((-1, 0, 1)), flows[k] + 1)
    return w.WidePlant(plant.units, tuple(streams)), flows, numbers


def test_spoilt_flows_against_the_reference():
    rng, seen = random.Random(48), set()
    for _ in range(DRAWN):
        plant = wide_plant(rng, rng.choice((1, 10, 40)), rng.choice((3, 20, 28)), 12)
        number, found = told(w.wide_solve, plant)
        if found:
            for _ in range(6):
                seen.add(checked(*spoilt(rng, plant, found)))
    assert {0, 10, 26} <= seen


def both(first, second, flows=(0, 0), numbers=(0, 0)):
    """What the check says of a unit with a stream in and a stream out."""
    return checked(w.WidePlant(1, (w.Stream(0, 1, *first), w.Stream(1, 0, *second))), flows, numbers)


@pytest.mark.parametrize(
    "number, first, flows, numbers",
    [
        (0, (2**40, 0), (0, 0), (0, 0)),
        (9, (2**40 + 1, 0), (0, 0), (0, 0)),
        (9, (0, 0), (0, 0), (0, 0)),
        (0, (1, 2**40, 0, 0), (0, 0), (0, 0)),
        (10, (1, 2**40 + 1, 0, 0), (0, 0), (0, 0)),
        (0, (1, -(2**40), 0, 0), (0, 0), (0, 0)),
        (10, (1, -(2**40) - 1, 0, 0), (0, 0), (0, 0)),
        (10, (1, LEAST, 0, 0), (0, 0), (0, 0)),
        (0, (1, 0, LEAST, MOST), (0, 0), (0, 0)),
        (18, (1, 0, 1, 0), (0, 0), (0, 0)),
        (18, (1, 0, MOST, LEAST), (0, 0), (0, 0)),
        (26, (1, 0, 1, MOST), (0, 0), (0, 0)),
        (26, (1, 0, LEAST, -1), (0, 0), (0, 0)),
        (0, (1, 0, 0, 0), (0, 0), (2**61, 2**61)),
        (26, (1, 0, 0, 0), (0, 0), (2**61 + 1, 2**61 + 1)),
        (26, (1, 0, 0, 0), (0, 0), (LEAST, LEAST)),
        (26, (1, 0, 0, 0), (2**55 + 1, 2**55 + 1), (0, 0)),
        (26, (1, 0, 0, 0), (LEAST, LEAST), (0, 0)),
        (26, (1, 0, 0, 0), (0, MOST), (0, 0)),
    ],
)
def test_limits(number, first, flows, numbers):
    assert both(first, (1, 0), flows, numbers) == number


def test_unmetered_flows_to_their_limit():
    plant = w.WidePlant(1, (w.Stream(0, 1), w.Stream(1, 0)))
    for flow, number in ((2**55, 0), (2**55 + 1, 26), (-(2**55), 0), (-(2**55) - 1, 26)):
        assert checked(plant, (flow, flow), (0, 0)) == number
    assert checked(plant, (0, 0), (0, 1)) == 26


@pytest.mark.parametrize("weight", [1, 3, 1_000, 2**30, 2**40])
def test_each_bound_to_its_unit(weight):
    """A stream d off its reading of 7: numbers between the bounds pass, those one beyond do not, but at an end that excuses them."""
    for d in (-3, 0, 1, 4):
        bottom, top, flow = weight * (2 * d - 1), weight * (2 * d + 1), 7 + d
        pinned = (1, flow, flow, flow)  # its numbers are free
        for number in (bottom - 1, bottom, top, top + 1):
            for ends, passes in (((), bottom <= number <= top), ((flow, flow + 1), number <= top), ((flow - 1, flow), number >= bottom)):
                assert both((weight, 7, *ends), pinned, (flow, flow), (0, number)) == (0 if passes else 26)


@pytest.mark.parametrize(
    "number, plant",
    [
        (6, w.WidePlant(0)),
        (6, w.WidePlant(33)),
        (6, w.WidePlant(256)),
        (6, w.WidePlant(-1)),
        (5, w.WidePlant(1, (w.Stream(0, 1),) * 97)),
        (5, w.WidePlant(1, (w.Stream(0, 1),) * 1_000)),
        (7, w.WidePlant(1, (w.Stream(0, 2),))),
        (7, w.WidePlant(1, (w.Stream(-1, 1),))),
        (8, w.WidePlant(1, (w.Stream(1, 1),))),
        (9, w.WidePlant(1, (w.Stream(0, 1, 2**64, 0),))),
        (9, w.WidePlant(1, (w.Stream(0, 1, -1, 0),))),
        (9, w.WidePlant(1, (w.Stream(0, 1, 0, 0),))),
        (10, w.WidePlant(1, (w.Stream(0, 1, 1, 2**70),))),
        (10, w.WidePlant(1, (w.Stream(0, 1, 1, -(2**70)),))),
        (18, w.WidePlant(1, (w.Stream(0, 1, 1, 0, -(2**70), 0),))),
        (18, w.WidePlant(1, (w.Stream(0, 1, 1, 0, 0, 2**70),))),
    ],
)
def test_faults_and_numbers_that_do_not_fit(number, plant):
    flows = [0] * len(plant.streams)
    assert told(w.check_flow, plant, flows, [0] * (max(0, plant.units) % 256 + 1))[0] == number
    assert told(w.wide_solve, plant)[0] == number


def test_numbers_of_flows_and_places_that_are_missing_or_extra():
    plant = w.WidePlant(1, (w.Stream(0, 1, 1, 0), w.Stream(1, 0, 1, 0)))
    for flows, numbers in (((0,), (0, 0)), ((0, 0, 0), (0, 0)), ((0, 0), (0,)), ((0, 0), (0, 0, 0))):
        assert told(w.check_flow, plant, flows, numbers)[0] == 1
    assert told(w.check_flow, plant, (0, 2**70), (0, 0))[0] == 26
    assert told(w.check_flow, plant, (0, 0), (0, -(2**70)))[0] == 26


def test_what_the_solver_cannot_show_is_not_certified():
    """Least flows whose numbers pass 2^61: a reading of 2^39 off at a weight of 2^40."""
    plant = w.WidePlant(1, (w.Stream(0, 1, 2**40, 2**39), w.Stream(1, 0, 2**40, -(2**39))))
    with pytest.raises(w.NotCertified) as caught:
        w.wide_solve(plant)
    assert str(caught.value) == "not certified: no flow was found that passes the check"


def test_rows_are_the_plants_one_by_one():
    rng = random.Random(49)
    for _ in range(max(3, DRAWN // 30)):
        plant = wide_plant(rng, 40, 25, 30)
        rows = [[(0 if rng.random() < 0.1 else s.weight or 0, s.reading + rng.randint(-50, 50)) for s in plant.streams] for _ in range(8)]
        weights = array("Q", [weight for row in rows for weight, _ in row])
        readings = array("q", [reading for row in rows for _, reading in row])
        found = w.wide_rows(plant, weights, readings)
        count, places = len(plant.streams), plant.units + 1
        for r, row in enumerate(rows):
            read = zip(plant.streams, row)
            streams = [w.Stream(s.source, s.target, weight, y, s.low, s.high) if weight else s.unmetered() for s, (weight, y) in read]
            number, one = told(w.wide_solve, w.WidePlant(plant.units, tuple(streams)))
            shown = tuple(found.flows[r * count : (r + 1) * count]), tuple(found.numbers[r * places : (r + 1) * places])
            assert found.answers[r] == number
            assert shown == ((one.flows, one.numbers) if one else ((0,) * count, (0,) * places))


def test_rows_that_pass_are_counted():
    from wengeludo_balance import wide

    plant = w.WidePlant(1, (w.Stream(0, 1, 1, 0), w.Stream(1, 0, 1, 0)))
    columns, ffi = wide._columns(plant.streams), wide.ffi
    for readings, passed in (([5, 5, 2**60, 5, 7, 9], 2), ([2**60, 0], 0), ([1, 1] * 3, 3)):
        rows = len(readings) // 2
        out = [ffi.new("int64_t[]", 2 * rows), ffi.new("int64_t[]", 2 * rows), ffi.new("uint8_t[]", rows)]
        assert wide.lib.wide_rows(wide._lent_plant(1, columns), rows, ffi.new("uint64_t[]", [1] * 2 * rows), ffi.new("int64_t[]", readings), *out) == passed
        assert list(out[2]).count(0) == passed


def test_rows_that_do_not_fit():
    plant = w.WidePlant(1, (w.Stream(0, 1, 1, 0), w.Stream(1, 0, 1, 0)))
    for weights, readings in (([1], [0]), ([1, 1], [0]), ([1, 1, 1], [0, 0, 0])):
        with pytest.raises(ValueError):
            w.wide_rows(plant, array("Q", weights), array("q", readings))
    two = array("Q", [1, 1])
    for weights, readings in ((array("I", [1] * 4), array("q", [0, 0])), (two, array("d", [0, 0])), (b"\1" * 16, b"\0" * 16)):
        with pytest.raises(ValueError, match="whole numbers of 8 bytes"):
            w.wide_rows(plant, weights, readings)
    assert w.wide_rows(plant, array("Q"), array("q")).answers == b""


def cases():
    """The committed cases: what is returned, units, count, and the ten slices."""
    for line in (REFERENCE / "flows.cases").read_text(encoding="utf-8").splitlines():
        if not line.startswith("#"):
            number, units, count, *words = map(int, line.split())
            slices = []
            while words:
                slices.append(words[1 : words[0] + 1])
                words = words[words[0] + 1 :]
            yield number, units, count, slices


def test_committed_cases():
    """The call itself, as the binding does not hand over slices of other lengths."""
    kinds, met = ("uint8_t", "uint8_t", "uint8_t", "uint64_t", "int64_t", "uint8_t", *["int64_t"] * 4), set()
    for number, units, count, slices in cases():
        lent = [part for kind, values in zip(kinds, slices) for part in (ffi.new(f"{kind}[]", values), len(values))]
        assert lib.wengeludo_check_flow(units, count, *lent) == number, (number, units, count, slices)
        met.add(number)
    assert met == {0, 1, 5, 6, 7, 8, 9, 10, 18, 26}
