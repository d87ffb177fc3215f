# SPDX-License-Identifier: LicenseRef-Wengeludo
"""Rows of a run are the desk's sheets, hour by hour, at several units; numbers survive on their way; published examples."""

from dataclasses import replace
from fractions import Fraction

import numpy as np
import pytest
import simulator as sim

import wengeludo_balance as engine
from wengeludo.balance import unit as units, wide
from wengeludo.balance.exact import Exact, Exacts, exacts_of
from wengeludo.balance.sheet import balance
from wengeludo.balance.site import site_of
from wengeludo.history import checked_rows, kept, run as runs
from wengeludo.history.analysis import analysed
from wengeludo.history.estimates import Standardized, checks, sets_of
from wengeludo.history.tables import LETTERS
from wengeludo.read.numbers import Accuracy, exact
from wengeludo_balance import FAULT, HELD, MEASURED, Verdict


@pytest.mark.parametrize("name, unit", [("steam_site", Fraction(1)), ("two_percent", Fraction(20)), ("steam_site", Fraction(1, 2)), ("steam_site", Fraction(1, 5)), ("two_percent", Fraction(50))])
def test_a_row_is_the_engines_sheet_of_that_hour(name, unit):
    made = sim.site(name)
    rng = np.random.default_rng(3)
    readings = np.round(sim.read_by(made, sim.true_flows(made, 60, rng), rng), 1)
    run = sim.run_of(made, readings, unit=unit)
    pipes = run.list.pipes
    for hour in range(0, 60, 5):
        typed = tuple(replace(p, reading=float(readings[hour, k])) if p.reading is not None else p for k, p in enumerate(pipes))
        sheet = engine.balance(site_of(replace(run.list, pipes=typed), run.unit).plant.file())
        assert run.sheets.flows[hour].tolist() == [record.flow or 0 for record in sheet.records]
        assert (run.sheets.cost[hour], run.sheets.verdict[hour], run.sheets.degrees[hour]) == (sheet.cost, sheet.verdict, sheet.degrees)


def test_a_reading_is_rounded_to_whole_units_exactly():
    rng = np.random.default_rng(0)
    values = np.r_[np.round(rng.uniform(-5000, 5000, 4000), 1), np.round(rng.uniform(-5, 5, 500), 7), 0.5, 1.5, -0.5, 2.5, 0.1, 1e6 + 0.05, 3999999.5]
    for ratio in (Fraction(1), Fraction(5), Fraction(1, 20), Fraction(2), Fraction(1, 50), Fraction(1000, 3), Fraction(22, 7) / 10**9):
        expected = [round(Fraction(repr(float(value))) * ratio) for value in values]
        assert runs.whole_units(values, ratio).tolist() == expected
    assert runs.whole_units(np.array([2.5000004, 2.4999996, -3.5000004]), Fraction(1)).tolist() == [3, 2, -4]  # more decimals than are shown
    assert np.rint(0.3 / 0.2) == 1 and runs.whole_units(np.array([0.3]), Fraction(5)).tolist() == [2]  # a half, to the even number


def test_a_held_cell_counts_a_quarter_and_a_fault_nothing():
    made = sim.site()
    readings = np.tile(made.flow.round(), (3, 1))
    readings[:, 4] += 300
    status = sim.all_measured(made, 3)
    status[1, 4], status[2, 4] = HELD, FAULT
    run = sim.run_of(made, readings, status)
    off = np.abs(run.sheets.flows[:, 4] - made.flow[4])
    assert off[0] > off[1] > off[2] and run.sheets.kinds[2, 4] == engine.GIVEN


def test_the_unit_is_one_for_the_run_and_holds_its_greatest_reading():
    made = sim.site("two_percent")
    readings = np.tile(made.flow, (4, 1))
    calm = sim.run_of(made, readings.copy())
    readings[2, 4] = 3e8
    wild = sim.run_of(made, readings)
    assert wild.unit > calm.unit and wild.sheets.refusal.tolist() == [0, 0, 0, 0] and wild.sheets.verdict.tolist() == [0, 0, 1, 0]


def test_z_is_the_measurement_test():
    """Source 001, example 7.3 by its own figures: the greatest z is that of f4, and taking it out clears the row."""
    ends = ((0, 1), (1, 2), (2, 1), (0, 2), (2, 3), (3, 0))
    plant = engine.Plant(3, tuple(engine.Stream(a, b, 10) for a, b in ends))
    readings, status = np.array([[105, 145, 55, 140, 195, 205]]), np.full((1, 6), MEASURED)
    sheets = engine.rows(plant, readings, engine.deviation_for([10] * 6), status, suspects=3)
    found = checks(plant, np.full((2, 6), 100.0), status[0])
    z = (readings[0] - sheets.flows[0])[found.adjusted] / found.deviations
    assert found.adjusted[np.abs(z).argmax()] == 3 and sheets.dropped[0].tolist() == [4, 0, 0]
    assert float(sheets.cost[0] - sheets.dropped_cost[0, 0]) / 1000 == pytest.approx(float(np.abs(z).max() ** 2), abs=0.5)


PAIRS = {(1, 2): (0.969, 0.910), (1, 3): (0.969, 0.908), (1, 4): (0.974, 0.929), (2, 5): (1.0, 0.956), (2, 6): (0.989, 0.951), (2, 7): (0.999, 0.954),
         (3, 5): (0.999, 0.956), (3, 6): (0.988, 0.949), (3, 7): (0.999, 0.951), (4, 7): (0.999, 0.965), (5, 7): (0.996, 0.949)}


@pytest.mark.parametrize("pair", PAIRS)
def test_pairs_of_biases_are_found_as_published(pair):
    """Source 001, example 7.5: seven flows, biases of 7 and 4 deviations; the share of biased meters that serial elimination names."""
    rng, trials = np.random.default_rng(pair[0] * 8 + pair[1]), 2000
    ends = ((0, 1), (1, 2), (2, 3), (3, 1), (3, 4), (4, 1), (4, 0))
    plant = engine.Plant(4, tuple(engine.Stream(a, b, 1) for a, b in ends))
    true = np.array([5, 15, 15, 5, 10, 5, 5.0])
    own = 0.025 * true
    bias = np.zeros(7)
    bias[pair[0] - 1], bias[pair[1] - 1] = 7 * own[pair[0] - 1], 4 * own[pair[1] - 1]
    mean = own / np.sqrt(10)
    readings = np.rint((true + bias + rng.normal(size=(trials, 7)) * mean) / 0.01)
    weights = np.rint(1000 * 0.01**2 / mean**2).astype(int)
    made = engine.rows(plant, readings, engine.deviation_for(weights), np.full((trials, 7), MEASURED), suspects=3)
    named = sum((made.dropped == number).any(1).astype(int) for number in pair)
    assert named.mean() / 2 == pytest.approx(PAIRS[pair][0], abs=0.03)


def test_sets_of_the_steam_site():
    made = sim.site()
    found = sets_of(checks(made.plant, np.array([made.deviations**2] * 2), np.where(made.deviations > 0, MEASURED, FAULT)))
    assert [[k + 1 for k in together] for together in found] == [[2, 15, 20, 22], [5, 6], [7], [9, 11], [12, 13], [17, 25], [24]]


def test_z_in_blocks_is_z_of_the_whole(monkeypatch):
    made = sim.site()
    rng = np.random.default_rng(5)
    status = sim.all_measured(made, 90)
    status[30:50, 4] = FAULT
    run = sim.run_of(made, sim.read_by(made, sim.true_flows(made, 90, rng), rng), status)
    whole = next(Standardized(run).blocks())[1]
    monkeypatch.setattr("wengeludo.history.estimates.BLOCK", 7)
    cut = np.concatenate([z for _, z in Standardized(run).blocks()])
    assert np.array_equal(whole, cut, equal_nan=True)
    assert np.isnan(whole[30:50, 4]).all() and np.isfinite(whole[:30, 4]).all()


WIDE = """stream,from,to,reading,accuracy,low,high
1,outside,a,80000,2%,,
2,a,b,79000,2%,,
3,a,outside,1010,2%,,
4,b,outside,40,2%,0,45
5,b,c,3,2%,,
6,b,outside,79100,2%,,
7,c,outside,,,,
"""


@pytest.mark.parametrize("name", ["steam_site", "two_percent", "rated_site", "wide"])
def test_a_row_of_checked_flows_is_the_sheet_of_that_hour(name, tmp_path):
    """Of each hour's list by itself: the same verdict and cost; the same flows in the same unit, within it in another."""
    path = sim.SAMPLES / f"{name}.csv"
    if name == "wide":
        path = tmp_path / "wide.csv"
        path.write_text(WIDE)
    made = sim.of_list(sim.read_list(path))
    rng = np.random.default_rng(4)
    readings = np.round(sim.read_by(made, np.tile(made.flow, (12, 1)), rng, more=1.2), 1)
    run = sim.run_of(made, readings)
    assert run.exact or name == "rated_site"
    listed = exacts_of(run.list)
    same = 0
    for hour in range(12):
        typed = [Exact(s.source, s.target, Fraction(repr(float(readings[hour, k]))), s.variance, s.low, s.high) if s.metered else s for k, s in enumerate(listed.streams)]
        one = wide.solve(Exacts(listed.units, tuple(typed)))
        assert run.sheets.verdict[hour] == one.judged.verdict and run.sheets.degrees[hour] == one.sheet.degrees
        assert run.sheets.cost[hour] / 1000 == pytest.approx(float(one.judged.cost), abs=0.02 if run.exact else 1)
        within = max(one.unit, run.unit) if run.exact else Fraction(1)
        for k in made.metered:
            assert abs(int(run.sheets.flows[hour, k]) * run.unit - one.flows[k] * one.unit) <= within
        same += one.unit == run.unit and one.factor == checked_factor(run)
    assert same or not run.exact


def scaled(made, times):
    """A site with all its readings and accuracies so many times as large."""
    pipes = tuple(replace(p, reading=p.reading * times, accuracy=Accuracy(p.accuracy.deviation * times), stated=f"{p.accuracy.deviation * times:.9g}") if p.accuracy else p
                  for p in made.tagged.list.pipes)
    return sim.of_list(replace(made.tagged.list, pipes=pipes))


@pytest.mark.parametrize("name, times, step, unit", [
    ("steam_site", 1, 1, None), ("steam_site", 1, 1, Fraction(1)), ("steam_site", 20, 20, Fraction(20)), ("steam_site", 0.1, 0.1, Fraction(1, 10)),
    ("steam_site", 1, 0.1, None), ("rated_site", 1, 0.1, None), ("two_percent", 1, 0.1, None), ("two_percent", 50, 0.1, None), ("two_percent", 0.01, 0.1, None)])
def test_a_row_is_the_sheet_that_the_desk_shows_of_that_hour(name, times, step, unit):
    """By `balance` of the hour's own list: verdict, classes and cost; the same flows in the same unit, within it in another. A run of checked flows
    may have hours whose own sheet by the engine stands: these are within a tenth of a deviation."""
    made = scaled(sim.site(name), times)
    readings, status = sim.read_by(made, np.tile(made.flow, (16, 1)), np.random.default_rng(6), more=1.3), sim.all_measured(made, 16)
    readings = np.round(np.round(readings / step) * step, 1)
    status[3, made.metered[2]] = status[5, made.metered[0]] = FAULT
    status[7, made.metered[1]] = HELD if unit or step < 1 else MEASURED  # a quarter of a weight, rounded down, would not stand
    run = sim.run_of(made, readings, status, unit=unit, typed=True)
    assert run.exact == (unit is None and step < 1) and (unit is None or run.unit == unit)
    same = 0
    for hour in range(16):
        listed = kept.hour_list(run, hour)
        shown = balance(site_of(listed, None if run.exact else run.unit), estimated=False)
        assert [pipe.reading for pipe in listed.pipes] == [None if run.status[hour, k] == FAULT else readings[hour, k] for k in range(len(listed.pipes))]
        assert (run.sheets.verdict[hour], run.sheets.degrees[hour]) == (shown.verdict, shown.degrees)
        assert [LETTERS[kind] for kind in run.sheets.kinds[hour].tolist()] == [line.kind.value for line in shown.lines]
        off = [abs(int(flow) * run.unit - (record.flow or 0) * shown.site.unit) for flow, record in zip(run.sheets.flows[hour], shown.sheet.records)]
        if shown.kind is not run.kind:
            assert run.exact and all(o <= 0.1 * p.accuracy.deviation for o, p in zip(off, listed.pipes) if p.accuracy)
            continue
        alike = not run.exact or (shown.site.unit, shown.checked.factor) == (run.unit, run.factor)
        assert run.sheets.cost[hour] / 1000 == pytest.approx(shown.cost, abs=0.02 if run.exact else 1e-9)
        assert max(off) == 0 if alike else all(o <= max(run.unit, shown.site.unit) for o, p in zip(off, listed.pipes) if p.accuracy)
        same += alike
    assert same >= 8


def checked_factor(run):
    smallest = min(pipe.accuracy.variance for pipe in run.list.pipes if pipe.accuracy)
    return wide.TOPS[0] * smallest / run.unit**2


def test_checked_flows_name_suspects_as_the_engine_does(monkeypatch):
    monkeypatch.setattr(runs, "STANDS", 0.0)
    made = sim.site()
    rng = np.random.default_rng(8)
    readings = np.round(sim.read_by(made, sim.true_flows(made, 40, rng), rng))
    readings[::2, 4] += 12 * made.deviations[4]
    readings[5::6, 8] += 14 * made.deviations[8]
    checked, own = sim.run_of(made, readings), sim.run_of(made, readings, unit=Fraction(1))
    assert checked.exact and not own.exact
    fails = own.sheets.verdict == Verdict.FAIL
    alike = {k: number for number, together in enumerate(analysed(own).sets) for k in together}
    agree = [alike[int(a) - 1] == alike[int(b) - 1] for a, b in zip(checked.sheets.dropped[fails, 0], own.sheets.dropped[fails, 0])]
    assert fails.sum() >= 20 and np.mean(agree) > 0.9
    assert (checked.sheets.cleared[fails] != Verdict.FAIL).mean() > 0.9


def test_the_engines_own_sheets_are_shown_only_if_they_stand_in_every_row(monkeypatch):
    made = sim.site()
    rng = np.random.default_rng(8)
    readings = np.round(sim.read_by(made, sim.true_flows(made, 40, rng), rng))
    own = sim.run_of(made, readings)
    assert own.kind.value == "engine" and own.unit == 1
    monkeypatch.setattr(runs, "STANDS", 0.02)
    assert sim.run_of(made, readings).kind.value == "checked"
    assert sim.run_of(sim.site("two_percent"), readings).kind.value == "checked"  # no unit of the engine's holds these accuracies


def test_certified_rows_of_checked_flows_pass_the_proved_call():
    made = sim.site("two_percent")
    rng = np.random.default_rng(9)
    run = sim.run_of(made, np.round(sim.read_by(made, np.tile(made.flow, (6, 1)), rng), 1), check=True)
    from wengeludo.history.checked_rows import Shape

    listed = exacts_of(run.list)
    shape = Shape(listed.units, tuple(Exact(s.source, s.target, None, s.variance, s.low, s.high) for s in listed.streams), run.unit, checked_factor(run))
    for row in range(6):
        streams = tuple(engine.Stream(s.source, s.target, w or None, int(r)) for s, w, r in zip(shape.plant.streams, shape.weights, run.readings[row]))
        blank = run.sheets.kinds[row] == engine.WITHHELD
        assert not run.sheets.checked[row]
        if not blank.any():
            engine.check_flow(engine.WidePlant(listed.units, streams), run.sheets.flows[row].tolist(), run.sheets.numbers[row, : listed.units + 1].tolist())


@pytest.mark.parametrize("ends", [(None, None), (0, 5_058), (4_942, None), (-5, 10_000)])
def test_quick_verdicts_of_checked_flows_are_those_of_exact_fractions(ends):
    """Around the limit, where whole flows cost a little more than flows in fractions: held cells, ends of ranges and a pipe without a meter among them."""
    between = 0
    for variance in (Fraction(k, 20) for k in (*range(55_600, 55_630, 2), *range(55_500, 56_300, 40))):
        listed = (Exact(0, 1, None, variance), Exact(1, 0, None, variance, *ends), Exact(1, 2), Exact(2, 0, None, variance))
        shape = checked_rows.Shape(2, listed, Fraction(1), wide.TOPS[0] * variance)
        offs = [sign * off for off in (0, 1, 177, 178, 179, 180, 253, 254, 255) for sign in (1, -1)]
        readings = np.array([[10_000, 5_000, 0, 5_000 - off] for off in offs] * 2, np.int64)
        status = np.full(readings.shape, MEASURED, np.uint8)
        status[:, 2], status[: len(offs), 3] = FAULT, HELD
        work = checked_rows._Work(shape)
        made, numbers = work.solved(readings, status)
        good = np.flatnonzero(made["refusal"] == 0)
        cost, least, _ = work.costs(readings, status, made["flows"], numbers, made["kinds"])
        between += np.count_nonzero((cost > checked_rows.LIMITS[1])[good] & (least < checked_rows.LIMITS[1])[good])
        for row in good:
            assert made["degrees"][row] == 1 and made["verdict"][row] == work.exactly(readings[row], status[row], made["flows"][row], numbers[row]), (variance, row)
    assert between > 1


def test_a_cost_past_its_field_is_the_greatest_and_fails(recwarn):
    listed = (Exact(0, 1, None, Fraction(1, 400)), Exact(1, 0, None, Fraction(1, 400)))
    shape = checked_rows.Shape(1, listed, Fraction(1), wide.TOPS[1] / Fraction(400))
    made, _ = checked_rows._Work(shape).solved(np.array([[10**9, 2], [100, 104]], np.int64), np.full((2, 2), MEASURED, np.uint8))
    assert list(made["verdict"]) == [Verdict.FAIL, Verdict.FAIL] and list(made["cost"]) == [18 * 10**18, 3_200_000] and not recwarn.list
