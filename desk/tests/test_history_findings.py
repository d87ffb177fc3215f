# SPDX-License-Identifier: LicenseRef-Wengeludo
"""What is found in a year: the right meter, leak and events, and little in a year without fault.

WENGELUDO_YEARS (default 3)   years without fault, and runs of each fault; 50 makes docs/HISTORY.md's tables (python3 tests/test_history_findings.py)
"""

import json
import os
import sys
from fractions import Fraction
from functools import lru_cache
from types import SimpleNamespace

import numpy as np
import pytest
import simulator as sim

from wengeludo.history.analysis import analysed
from wengeludo.history.findings import findings, sentence
from wengeludo_balance import FAULT, Verdict

YEARS = int(os.environ.get("WENGELUDO_YEARS") or 3)


@lru_cache(maxsize=1)
def bad():
    year = sim.bad_year()
    return year, analysed(sim.run_of(year.site, year.readings, year.status))


def names(finding):
    return [(cause.kind, cause.index + (cause.kind == "meter")) for cause in finding.causes]


def test_the_findings_of_the_year():
    year, found = bad()
    meter, leak = found.findings
    assert names(meter) == [("meter", 9), ("meter", 11)] and meter.weeks == 21
    assert (found.run.at(meter.start), found.run.at(meter.end)) == ("2025-05-14T00:00Z", "2025-10-08T00:00Z")
    assert abs(meter.causes[0].off / year.site.deviations[8] - 3) < 0.3
    assert names(leak)[0] == ("meter", 20) and set(names(leak)[:4]) == {("meter", 20), ("meter", 15), ("meter", 2), ("meter", 22)}
    places = [year.site.tagged.list.places[index] for kind, index in names(leak) if kind == "leak"]
    assert "condensate tank" in places and len(names(leak)) == 7
    assert abs(leak.causes[-1].off - 150) < 8 and leak.causes[-1].off > 0


def test_the_events_of_the_year():
    _, found = bad()
    told = [(e.kind, e.stream + 1, e.start, e.end) for e in found.events]
    assert told == [
        ("spike", 5, 1089, 1090), ("frozen", 17, 1440, 1512), ("spike", 7, 1857, 1858), ("step", 14, 2400, 2400), ("spike", 12, 2889, 2890),
        ("no signal", 0, 4805, 4835), ("no signal", 5, 5520, 5616), ("zero", 24, 6000, 6008), ("held", 2, 6360, 6408), ("spike", 2, 6489, 6490),
        ("spike", 9, 7929, 7930),
    ]
    assert next(e for e in found.events if e.kind == "frozen").size == 3920.6  # as it is typed


def test_a_finding_says_what_to_do():
    _, found = bad()
    told = sentence(found.run, found.findings[0])
    assert told.startswith("14 May 2025 to 7 Oct 2025, 21 weeks: 9 steam from boiler 2 reads ")
    assert "too high" in told and "or 11 blowdown of boiler 2" in told and "No balance tells these apart" in told
    assert "A meter on 26 condensate to the polisher would tell" in sentence(found.run, found.findings[1])


def test_a_meter_that_would_tell_them_apart_does():
    """With the pipe that the finding names metered, the sets of the leak's finding fall apart."""
    from dataclasses import replace

    from wengeludo.history.estimates import checks, sets_of
    from wengeludo_balance import MEASURED, Plant, Stream

    year, found = bad()
    ask = found.findings[1].ask
    streams = list(found.run.plant.streams)
    streams[ask] = Stream(streams[ask].source, streams[ask].target, 40)
    plant = Plant(found.run.plant.units, tuple(streams))
    own = np.array([year.site.deviations**2] * 2)
    own[:, ask] = 25
    together = sets_of(checks(plant, own, np.where(own[0] > 0, MEASURED, FAULT)))
    before = next(part for part in found.sets if 19 in part)
    assert not any(set(before) <= set(part) for part in together)


def test_the_least_bias_of_a_meter_falls_with_how_far_it_is_checked():
    """Four limits of a week: the meters that are checked have one, by the share of the others, and no other meter has."""
    year, found = bad()
    checked = {k: share for k, share in found.share.items() if share > 0.001}
    least = {k: found.least_bias(k) for k in checked}
    assert len(checked) > 5 and all(one > 0 for one in least.values())
    worth = [least[k] ** 2 * checked[k] / found.run.deviations[k] ** 2 for k in checked]
    assert max(worth) == pytest.approx(min(worth)) and found.least_bias(len(found.run.plant.streams)) is None


def test_weights_of_a_week_are_within_the_engines_limits():
    from wengeludo.history.weeks import Trial

    week = SimpleNamespace(unit=0.5, variances=np.array([0, 0.25, 0.5, 1e-9, 250, 1e6]))
    assert Trial.weights.fget(week).tolist() == [0, 1000, 500, 1000, 1, 1]


def test_a_second_run_with_the_meter_as_fault_passes_again():
    year, found = bad()
    meter = found.findings[0]
    status = year.status.copy()
    status[meter.start : meter.end, 8] = FAULT
    again = analysed(sim.run_of(year.site, year.readings, status))
    fails = [np.mean(one.fails()[meter.start : meter.end]) for one in (found, again)]
    assert fails[0] > 0.3 and fails[1] < 0.08
    assert not any(("meter", 9) in names(finding) for finding in again.findings)


def week(number, fails, cost=20.0, then=8.0, index=3):
    from wengeludo.history.weeks import Candidate, Week

    return Week(number * 10, number * 10 + 10, cost, 11.0, fails, ((Candidate("meter", index, 5.0, then, 1.0),),) if fails else ())


@pytest.mark.parametrize("pattern, spans", [("FF", [(0, 20)]), ("FPF", [(0, 30)]), ("FPPF", []), ("F", []), ("PPFFPPFPF", [(20, 40), (60, 90)]), ("FPPPPF", [])])
def test_weeks_make_a_series_over_at_most_one_that_passes(pattern, spans):
    run = SimpleNamespace(plant=SimpleNamespace(streams=()))
    found = findings(run, [week(number, letter == "F") for number, letter in enumerate(pattern)])
    assert [(one.start, one.end) for one in found] == spans and all(one.causes[0].name == ("meter", 3) for one in found)


def test_one_week_is_a_finding_if_it_explains_four_limits():
    run = SimpleNamespace(plant=SimpleNamespace(streams=()))
    assert not findings(run, [week(0, True, 50.0, 7.0)]) and len(findings(run, [week(0, True, 52.0, 8.0)])) == 1
    assert not findings(run, [week(0, True), week(1, True, index=4)])


def clean(made, seed, memory=0.5, more=1.0, rows=sim.YEAR):
    rng = np.random.default_rng(seed)
    flows = sim.true_flows(made, rows, rng)
    return sim.read_by(made, flows, rng, memory, more=more)


def false_findings(made, years, memory=0.5, more=1.0):
    """Findings of years without fault, and their events."""
    found = [analysed(sim.run_of(made, clean(made, 1000 + year, memory, more), unit=Fraction(1))) for year in range(years)]
    return [len(one.findings) for one in found], [len(one.events) for one in found]


def test_a_year_without_fault_has_hardly_a_finding():
    found, events = false_findings(sim.site(), YEARS)
    assert sum(found) <= max(1, 0.3 * YEARS) and sum(events) <= YEARS


def test_an_hour_without_fault_fails_one_time_in_twenty():
    run = sim.run_of(sim.site(), clean(sim.site(), 77))
    assert 0.02 < np.mean(run.sheets.verdict == Verdict.FAIL) < 0.08


def injected(made, kind, size, seed, rows=20 * 168):
    """One run with one fault: what it is, where it starts, and what was found."""
    rng = np.random.default_rng(5000 + seed)
    flows = sim.true_flows(made, rows, rng)
    start = int(rng.integers(6, 12)) * 168 + int(rng.integers(0, 168))
    checked = sorted(k for together in analysed_sets(made) for k in together)
    k = int(rng.choice(checked if kind in ("bias", "drift", "spike") else made.metered))
    target = ("meter", k)
    if kind == "leak":
        target = ("leak", int(rng.integers(1, made.plant.units + 1)))
        flows = sim.leaked(made, flows, start, rows, target[1], size)
    readings, own = sim.read_by(made, flows, rng), made.deviations[k]
    if kind == "unchecked":
        k = int(rng.choice([j for j in made.metered if j not in checked]))
        target, own = ("meter", k), made.deviations[k]
    if kind in ("bias", "unchecked"):
        readings[start:, k] += size * own * rng.choice([-1, 1])
    if kind == "drift":
        readings[start:, k] += np.minimum(1, np.arange(rows - start) / (28 * 24)) * size * own
    if kind == "spike":
        readings[start, k] += size * own
    if kind in ("frozen", "zero"):
        readings[start : start + int(size), k] = 0 if kind == "zero" else np.round(readings[start, k], 1)
    return target, start, analysed(sim.run_of(made, readings, unit=Fraction(1)))


@lru_cache(maxsize=4)
def sets_by_plant(plant):
    from wengeludo.history.estimates import checks, sets_of
    from wengeludo_balance import MEASURED

    own = np.array([[1000 / s.weight if s.weight else 0 for s in plant.streams]] * 2)
    return sets_of(checks(plant, own, np.where(own[0] > 0, MEASURED, FAULT)))


def analysed_sets(made):
    return sets_by_plant(made.plant)


def power(made, kind, size, runs):
    """Share found within four weeks, of those the share whose set has the true cause, and that ranks it first; others a year."""
    hits = right = first = others = 0
    for seed in range(runs):
        (what, index), start, found = injected(made, kind, size, seed)
        if kind in ("frozen", "zero", "spike"):
            good = [e for e in found.events if e.kind == kind and e.start <= start + 1 and e.end > start]
            alike = [set(part) for part in analysed_sets(made) if index in part] or [{index}]
            hits += bool(good)
            right += bool(good) and good[0].stream in alike[0]
            first += bool(good) and good[0].stream == index
            others += len([e for e in found.events if e.kind != "step"]) - len(good)
            continue
        good = [f for f in found.findings if f.end > start and f.start < start + 28 * 24]
        hits += bool(good)
        right += bool(good) and (what, index) in [(c.kind, c.index) for c in good[0].causes]
        first += bool(good) and (what, index) == (good[0].causes[0].kind, good[0].causes[0].index)
        others += len(found.findings) - bool(good)
    return {"kind": kind, "size": size, "runs": runs, "found": hits / runs, "right": right / max(1, hits), "first": first / max(1, hits),
            "others a year": others / runs * 52 / 20}


def test_what_is_put_in_is_found():
    made, runs = sim.site(), max(3, YEARS)
    assert power(made, "bias", 3, runs)["right"] >= 0.9 and power(made, "bias", 3, runs)["found"] >= 0.9
    assert power(made, "frozen", 24, runs)["found"] == 1 and power(made, "zero", 8, runs)["found"] == 1
    assert power(made, "drift", 3, runs)["found"] >= 0.66


def test_what_nothing_checks_is_not_found():
    assert power(sim.site(), "unchecked", 3, max(3, YEARS))["right"] == 0


def tables(runs):
    """The tables of docs/HISTORY.md, line by line."""
    for name, made, runs in (("steam site, 26 streams", sim.site(), runs), ("drawn site, 72 streams", sim.drawn_site(), max(3, runs * 2 // 5))):
        for memory, more in ((0.5, 1.0), (0.9, 1.0), (0.5, 1.5)):
            found, events = false_findings(made, runs, memory, more)
            yield {"site": name, "nothing": f"memory {memory}, noise {more} times stated", "years": runs, "false findings a year": sum(found) / runs,
                   "events a year": sum(events) / runs}
        kinds = [("bias", (0.5, 1, 2, 3)), ("drift", (3,)), ("leak", (25, 100)), ("frozen", (6, 24)), ("zero", (8,)), ("spike", (6, 12))]
        for kind, sizes in kinds + ([("unchecked", (3,))] if name.startswith("steam") else []):
            for size in sizes:
                yield {"site": name, **power(made, kind, size, runs)}


if __name__ == "__main__":
    for line in tables(int(sys.argv[1]) if len(sys.argv) > 1 else YEARS):
        print(json.dumps(line), flush=True)


@pytest.mark.parametrize("exact, slack", [(True, 0.25 * (4 / 5 + 4 / 8)), (False, 0.25 * (0.3 + 0.9))])
def test_what_rounding_can_make_of_a_cost_goes_by_the_kind_of_the_sheets(exact, slack):
    from types import SimpleNamespace

    from wengeludo.history import weeks
    from wengeludo_balance import ADJUSTED, AS_READ

    of = SimpleNamespace(unit=2.0, variances=np.array([5.0, 7.0, 8.0]), weights=np.array([300.0, 500.0, 900.0]), exact=exact)
    assert weeks.Trial.slack(of, np.array([ADJUSTED, AS_READ, ADJUSTED])) == pytest.approx(slack)
