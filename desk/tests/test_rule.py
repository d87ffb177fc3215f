# SPDX-License-Identifier: LicenseRef-Wengeludo
"""Lists of any span by the rule: true figures, spoilt solvers and spoilt records, the individual test, charges, a plant file's unit.

WENGELUDO_WIDE (default 8)  drawn lists of each span beside an independent least squares; 500 is the table of docs/desk/wide.md
"""

import csv
import json
import os
import random
import sqlite3
from dataclasses import replace
from fractions import Fraction

import monte_carlo
import openpyxl
import pytest
from conftest import SAMPLES
from test_book import altered

import wengeludo_balance as engine
from wengeludo.balance import individual, wide
from wengeludo.balance.checked import Checked, rounded, wide_plant
from wengeludo.balance.exact import Exact, Exacts, exacts_of
from wengeludo.balance.kind import SheetKind
from wengeludo.balance.sheet import balance, by_rule, checked_balance
from wengeludo.balance.site import read_site
from wengeludo.explain.charges import apportioned
from wengeludo.explain.steps import steps
from wengeludo.explain.suspects import eliminated, suspects
from wengeludo.read.faults import Stopped
from wengeludo.read.lists import read_list

SENTENCE = "whole flows of least cost, checked by a proved call; cost and verdict in exact fractions"
# A boiler house: 8 pipes from 180 t/h to 55 kg/h, all meters of 2 %, all readings honest.
BOILER_HOUSE = """stream,what,from,to,reading,accuracy
1,feedwater,outside,boiler,180000,2%
2,steam,boiler,outside,176900,2%
3,blowdown,boiler,flash vessel,400,2%
4,flash steam,flash vessel,heater,55,2%
5,drain of the vessel,flash vessel,cooler,343,2%
6,drain of the cooler,cooler,outside,347,2%
7,condensate of the heater,heater,tank,56,2%
8,condensate of the tank,tank,outside,55,2%
"""
# Two meters one behind the other on a small pipe read 60 and 200, among flows of 250 t/h.
IN_SERIES = """stream,what,from,to,reading,accuracy
1,feedwater,outside,boiler,250000,2%
2,steam,boiler,header,249700,2%
3,steam to the works,header,works,249100,2%
4,condensate,works,outside,248800,2%
5,dosing,outside,tank,60,2%
6,dosed,tank,outside,200,2%
"""


@pytest.fixture
def house(listed):
    return listed(BOILER_HOUSE, "house.csv")


@pytest.fixture
def series(listed):
    return listed(IN_SERIES, "series.csv")


def test_the_boiler_house(house):
    """The engine's own sheet of it fails at 14,070, with a blowdown of 400 ± 8 at 494.5: the list itself passes at 0.99."""
    site = read_site(house)
    own, drawn = engine.balance(site.file), balance(site)
    assert (own.verdict, own.cost, float(own.records[2].flow * site.unit)) == (engine.Verdict.FAIL, 14_069_975, 494.5)
    assert (drawn.kind, drawn.verdict, drawn.degrees) == (SheetKind.CHECKED, engine.Verdict.PASS, 5)
    real, cost = monte_carlo.reference(site.list, [0.0] * 8)
    assert drawn.cost == pytest.approx(cost, abs=1e-3) and cost == pytest.approx(0.99296, abs=1e-5)
    assert all(abs(drawn.lines[k].flow - flow) < 0.01 * site.list.pipes[k].accuracy.deviation for k, flow in real.items())
    assert [drawn.lines[k].flow for k in (2, 3)] == [400.22, 55.32]


def test_two_in_series(series, run):
    """The engine's own sheet of it passes at 0.03, with both at 0: the list itself fails at 1,123.89, with both at 71.56."""
    site = read_site(series)
    own, drawn = engine.balance(site.file), balance(site)
    assert (own.verdict, own.cost, [own.records[k].flow for k in (4, 5)]) == (engine.Verdict.PASS, 30, [0, 0])
    assert (drawn.kind, drawn.verdict) == (SheetKind.CHECKED, engine.Verdict.FAIL)
    small = Fraction(140**2) / (Fraction("1.2") ** 2 + 4**2)
    assert 1123 < small < drawn.exact_cost < small + Fraction(1, 20) and f"{drawn.cost:.2f}" == "1123.89"
    assert drawn.cost == pytest.approx(monte_carlo.reference(site.list, [0.0] * 6)[1], abs=1e-3)
    assert [drawn.lines[k].flow for k in (4, 5)] == [71.56, 71.56]
    assert run("sheet", series).status == 3


def test_three_meters_at_the_limit(listed):
    """Three meters of ±7.55 whose true cost is 4.107, above 3.841: the engine's own sheet passes, as its weight is 4 for 4.39."""
    site = read_site(listed("from,to,reading,accuracy\noutside,a,100,7.55\na,outside,40,7.55\na,outside,33.5,7.55\n"))
    drawn = balance(site)
    assert drawn.verdict is engine.Verdict.FAIL and drawn.kind is SheetKind.CHECKED
    assert drawn.cost == pytest.approx(26.5**2 / (3 * 7.55**2), abs=1e-4)


def test_all_that_is_written_says_so(house, run, tmp_path):
    paths = {suffix: tmp_path / f"sheet{suffix}" for suffix in (".html", ".svg", ".xlsx", ".csv", ".json")}
    ended = run("sheet", house, *(word for path in paths.values() for word in ("-o", path)))
    assert ended.status == 0 and ended.out.splitlines()[0] == f"house  pass: the meters agree; {SENTENCE}"
    assert "office" not in ended.out.splitlines()[1] and "every other number comes from the proved engine" not in ended.out
    for suffix in (".html", ".svg"):
        assert SENTENCE in paths[suffix].read_text(encoding="utf-8"), suffix
    assert any(SENTENCE in str(row[0]) for row in openpyxl.load_workbook(paths[".xlsx"]).worksheets[0].values)
    assert SENTENCE in paths[".csv"].read_text(encoding="utf-8-sig").splitlines()[0]
    told = json.loads(paths[".json"].read_text(encoding="utf-8"))
    assert (told["kind"], told["checked"]) == ("checked", SENTENCE) and "sheet" not in told and Fraction(told["cost_exact"]) > 0


def test_samples_as_they_were():
    """The engine's own sheet stands of every sample but one; a list in weights stays the engine's, and the step tells what the rule says."""
    kinds = {path.stem: balance(read_site(path)).kind for path in SAMPLES.glob("*.csv") if ".places" not in path.name}
    assert [name for name, kind in kinds.items() if kind is not SheetKind.ENGINE] == ["two_percent"]
    header = balance(read_site(SAMPLES / "small_header.csv"))
    assert header.verdict is engine.Verdict.CLOSE and steps(header)[0].startswith("In a finer unit, in exact fractions, the list passes: its least cost is 3.700")


def test_as_read_is_as_read(listed):
    """A custody meter that no other checks is shown as it reads, whatever the unit of the others; its correction is none."""
    text = "from,to,reading,accuracy\noutside,a,9870,1%\na,outside,,\noutside,b,250000,2%\nb,outside,251000,2%\noutside,c,58.25,3%\nc,outside,,\n"
    drawn = balance(read_site(listed(text)))
    assert [drawn.lines[k].flow for k in (0, 4)] == [9870, 58.25] and [drawn.lines[k].correction for k in (0, 4)] == [0, 0]
    assert drawn.lines[1].flow == 9870 and drawn.lines[5].flow == 58.25, "what follows from them too"


def test_sigma_is_of_the_list(series):
    drawn = balance(read_site(series))
    line = drawn.lines[4]
    assert line.sigmas == pytest.approx((line.flow - 60) / 1.2) and line.sigmas > 9


# ---------------------------------------------------------------- spoilt solvers, spoilt records


def lists(count, seed=3):
    rng = random.Random(seed)
    return [monte_carlo.drawn(rng, span, k % 2, k % 3 == 1)[0] for k in range(count) for span in (5, 200, 5_000)]


def moved(flows, k, by):
    return (*flows[:k], flows[k] + by, *flows[k + 1 :])


@pytest.mark.parametrize("spoilt", ["a flow", "all flows", "a number", "no numbers", "too few"])
def test_spoilt_solvers_are_seen(spoilt, monkeypatch):
    """Whatever a wrong solver hands over, nobody sees it as a sheet."""
    right = engine.wide_solve

    def wrong(plant):
        found = right(plant)
        if spoilt == "a flow":
            return replace(found, flows=moved(found.flows, 0, 1))
        if spoilt == "all flows":  # balanced, but not of least cost
            return replace(found, flows=(0,) * len(found.flows))
        if spoilt == "a number":
            most = max(range(len(found.numbers)), key=lambda g: abs(found.numbers[g]))
            return replace(found, numbers=moved(found.numbers, most, 2**45))
        return replace(found, numbers=(0,) * len(found.numbers)) if spoilt == "no numbers" else replace(found, flows=found.flows[1:])

    monkeypatch.setattr(engine, "wide_solve", wrong)
    for listed in lists(2):
        drawn = by_rule(listed)
        assert drawn.kind is SheetKind.UNJUDGED and "do not pass the proved check" in drawn.reason and not drawn.lines


def test_spoilt_records_are_seen(house):
    """One number of a kept record changed: it is seen, by the list or by the proved call; or its flows are still of least cost."""
    rng, seen, passed = random.Random(5), 0, 0
    for listed in [read_list(house), *lists(4)]:
        checked = wide.solve(exacts_of(listed))
        for _ in range(12):
            text = spoil(rng, checked)
            try:
                Checked.from_json(text).recheck()
            except Stopped:
                seen += 1
                continue
            passed += 1
            again = Checked.from_json(text)
            assert again.listed == checked.listed and again.plant == checked.plant, "only flows or numbers of equal worth pass"
            assert again.judged.cost == checked.judged.cost or again.flows != checked.flows
    assert seen > 10 * passed and seen > 100


def spoil(rng, checked):
    told = json.loads(checked.to_json())
    k = rng.choice(checked.listed.checked)
    what, step = rng.choice(("list", "streams", "flows", "numbers", "unit", "factor")), rng.choice((1, -1))
    if what == "list":
        told["list"][k][2] = str(Fraction(told["list"][k][2]) + step * checked.unit)
    elif what == "streams":
        told["streams"][k][rng.choice((0, 1))] += step
    elif what == "flows":
        told["flows"][k] += step
    elif what == "numbers":
        told["numbers"][rng.randrange(1, len(told["numbers"]))] += step * 2**42
    else:
        told[what] = str(Fraction(told[what]) * 2)
    return json.dumps(told)


@pytest.mark.parametrize("text", ["", "{}", "[]", "null", '{"version": 2}', '{"version": 1, "units": "x"}'])
def test_damaged_records(text):
    with pytest.raises(Stopped):
        Checked.from_json(text)


@pytest.mark.parametrize("name, value", [("unit", "0"), ("factor", "-1"), ("units", 10**9), ("units", 2), ("flows", ["x"]), ("streams", []), ("list", [[0, 1, "5", "0", None, None]])])
def test_numbers_of_a_record_that_are_none(name, value, house):
    told = json.loads(wide.solve(exacts_of(read_list(house))).to_json())
    with pytest.raises(Stopped):
        Checked.from_json(json.dumps({**told, name: value}))


def test_a_record_comes_back(house):
    listed = read_list(house)
    drawn = balance(read_site(house))
    back = Checked.from_json(drawn.checked.to_json())
    back.recheck()
    again = checked_balance(listed, back)
    assert (back, again.lines, again.cost, again.verdict) == (drawn.checked, drawn.lines, drawn.cost, drawn.verdict)


def test_kept_and_opened(house, run, tmp_path):
    """Checked flows are kept under a number of their own kind; the office's numbers are left alone."""
    book = tmp_path / "sheets.book"
    assert "kept as checked flows 1 of office 3" in run("keep", house, book, "--office", "3").out
    assert "kept as sheet 1 of office 3" in run("keep", SAMPLES / "steam_site.csv", book, "--office", "3").out
    opened = run("open", book, "1", "--office", "3", "--flows")
    assert opened.status == 0 and SENTENCE in opened.out and "it passes" in opened.out


@pytest.mark.parametrize("what", ["flows", "numbers", "streams", "list"])
def test_a_spoilt_book_is_seen(what, house, run, tmp_path):
    """A number of a kept record changed in the book: it is not opened, and the record itself is named beside the chain."""
    path = tmp_path / "sheets.book"
    run("keep", house, path)
    told = json.loads(sqlite3.connect(path).execute("SELECT sheet FROM sheets WHERE kind = 1").fetchone()[0])
    if what == "list":  # a sound record, of another list than the one that is kept beside it
        house.write_text(BOILER_HOUSE.replace("400,2%", "401,2%"))
        told = json.loads(wide.solve(exacts_of(read_list(house))).to_json())
    elif what == "streams":
        told["streams"][2][1] += 100
    else:
        told[what][2] += 2**42
    spoilt = altered(path, tmp_path / "spoilt.book", ("UPDATE sheets SET sheet = ? WHERE kind = 1", json.dumps(told).encode()))
    opened = run("open", spoilt, "1", "--flows")
    said = {"list": "other readings", "streams": "not those of its list"}.get(what, "do not pass the check")
    assert opened.status == 1 and "the chain is broken" in opened.err and said in opened.err


# ---------------------------------------------------------------- not judged, overfull


def test_not_judged(listed, run, tmp_path, monkeypatch):
    """If the guard does not hold the first line says so and why; nothing of it is kept or billed."""
    monkeypatch.setattr("wengeludo.balance.checked.GUARD", Fraction(0))
    path = listed(BOILER_HOUSE.replace("accuracy\n", "accuracy,rate\n").replace("2%\n", "2%,100\n"))
    ended = run("sheet", path, *(word for suffix in ("html", "svg", "csv", "json", "xlsx") for word in ("-o", tmp_path / f"sheet.{suffix}")))
    first = ended.out.splitlines()[0]
    assert ended.status == 1 and "not judged: the accuracies span so much that a flow may be" in first and "pass" not in first
    for suffix in ("html", "svg", "csv", "json"):
        assert "not judged" in (tmp_path / f"sheet.{suffix}").read_text(encoding="utf-8-sig"), suffix
    assert "not judged" in str(openpyxl.load_workbook(tmp_path / "sheet.xlsx").worksheets[0]["A2"].value)
    for words in (("keep", path, tmp_path / "x.book"), ("bill", path)):
        refused = run(*words)
        assert refused.status == 1 and "not judged" in refused.err
    assert not (tmp_path / "x.book").exists()


def test_no_solver(house, run, tmp_path, monkeypatch):
    """If nothing is found that passes the check, readings are shown and no flow."""

    def none(plant):
        raise engine.NotCertified()

    monkeypatch.setattr(engine, "wide_solve", none)
    ended = run("sheet", house, "-o", tmp_path / "sheet.html", "-o", tmp_path / "sheet.svg")
    assert ended.status == 1 and "not judged: no flows were found that pass the proved check" in ended.out and "180,000" in ended.out
    assert "balanced" not in ended.out and run("why", house, "3").status == 1 and run("suspects", house).status == 1


def test_overfull_by_the_lists_own_numbers(listed, run):
    """A wide list whose ranges cannot be kept is refused with the places; ends that only whole units forbid are not."""
    text = "from,to,reading,accuracy,low,high\noutside,a,250000,2%,249999.5,250000\na,outside,55,2%,,56\na,outside,,,,\n"
    assert not balance(read_site(listed(text))).refused
    shut = balance(read_site(listed(text.replace("a,outside,,,,\n", ""))))
    assert shut.refused and shut.marked == {1}
    ended = run("why", listed(text.replace("a,outside,,,,\n", "")))
    assert ended.status == 1 and "At least 249,999.5" in ended.out


def test_a_range_with_one_end(listed, run):
    ended = run("sheet", listed("from,to,reading,accuracy,low,high\noutside,a,100,2%,,90\na,outside,95,2%,80,\n"))
    assert ended.status in (0, 3) and "at its high end" in ended.out
    assert run("sheet", listed("from,to,reading,accuracy,low\noutside,a,100,2%,90\na,outside,95,2%,\n"), "--unit", "0.1").status in (0, 3)


# ---------------------------------------------------------------- the individual test, suspects


def test_individual_by_hand(listed):
    """Two meters one behind the other: the difference over the root of both squares, the same for both, however unlike they are."""
    drawn = balance(read_site(listed("from,to,reading,accuracy\noutside,a,100,1\na,outside,105,0.5\n")))
    z = 5 / 1.25**0.5
    assert [abs(line.test) for line in drawn.lines] == pytest.approx([z, z]) and drawn.worst == (0, 1)
    assert [line.test > 0 for line in drawn.lines] == [True, False]
    assert drawn.bound == pytest.approx(2.2365, abs=1e-4)


def test_a_precise_meter_does_not_hide(listed):
    """A correction of a tenth of a deviation of its meter is far beyond its own: the sheet passes, and the meters are named."""
    pairs = [row for k in range(9) for row in (f"outside,p{k},100,1", f"p{k},outside,100,1")]
    rows = ["outside,a,1000,10", "a,outside,1032.2,0.5", *pairs]
    drawn = balance(read_site(listed("from,to,reading,accuracy\n" + "\n".join(rows) + "\n")))
    assert drawn.verdict is engine.Verdict.PASS and abs(drawn.lines[1].sigmas) < 0.2 and abs(drawn.lines[1].test) == pytest.approx(3.216, abs=1e-3)
    assert drawn.worst == (0, 1) and drawn.bound == pytest.approx(3.016, abs=1e-3)
    told = "the sheet passes, yet its correction is 3.2 times its own deviation, and chance takes a meter above 3.0 in 5 of 100 sheets"
    assert steps(drawn)[0] == f"Keep an eye on 1 or 2 (no balance tells them apart): {told}."
    quiet = balance(read_site(listed("from,to,reading,accuracy\n" + "\n".join(["outside,a,1000,10", "a,outside,1025,0.5", *pairs]) + "\n")))
    assert quiet.worst == () and quiet.lines[0].notable and quiet.lines[1].notable
    assert "▲ marks a test value over 1.96 (1, 2): chance marks some of 20 meters in 64 of 100 sheets." in steps(quiet)[0]


def test_the_test_is_what_the_cost_falls_by(series, house):
    """Without ranges the cost falls, without a meter, by the square of its test value."""
    for listed in [read_list(series), read_list(house), *lists(2, 8)]:
        drawn = by_rule(listed)
        if drawn.kind is not SheetKind.CHECKED or any(pipe.low is not None for pipe in listed.pipes):
            continue
        tests = individual.tests(drawn.site.exacts, {})
        for suspect in suspects(drawn):
            assert drawn.cost - suspect.cost == pytest.approx(tests[suspect.index] ** 2, abs=0.01 + 0.001 * drawn.cost)


def test_meters_that_no_balance_tells_apart(series, run):
    """Both are marked, both are named, in whatever order."""
    drawn = balance(read_site(series))
    assert drawn.worst == (4, 5)
    words = " ".join(run("suspects", series).out.split())
    assert "visit this one or 6 dosed" in words and "visit this one or 5 dosing" in words
    assert "No balance tells it apart from 6 dosed" in " ".join(steps(drawn)) and "Visit the meter of 6" not in " ".join(steps(drawn))
    assert run("sheet", series).out.count("⚠") == 2


def test_two_gross_errors(listed):
    """One meter after the other is taken out, until the sheet no longer fails: both are named."""
    rows = ["outside,a,1000,1%", "a,b,1002,1%", "b,c,1150,1%", "c,d,998,1%", "d,e,1001,1%", "e,f,860,1%", "f,outside,999,1%"]
    drawn = balance(read_site(listed("from,to,reading,accuracy\n" + "\n".join(rows) + "\n")))
    gone = eliminated(drawn)
    assert drawn.verdict is engine.Verdict.FAIL and {one.alike for one in gone} == {(2,), (5,)}
    assert gone[0].verdict is engine.Verdict.FAIL and gone[1].verdict is engine.Verdict.PASS
    told = " ".join(steps(drawn))
    assert "More than one meter is off. Taken out one after the other, each time the one with the greatest test value: 6, then 3" in told


def test_worked_out_once(series, monkeypatch):
    calls = []
    right = wide.solve
    monkeypatch.setattr(wide, "solve", lambda listed: calls.append(1) or right(listed))
    drawn = balance(read_site(series))
    steps(drawn), steps(drawn), suspects(drawn), drawn.worst
    once = len(calls)
    steps(drawn), suspects(drawn)
    assert len(calls) == once


# ---------------------------------------------------------------- charges, plant files


@pytest.mark.parametrize("exact, cents, total", [
    (["0.5", "0.5"], [1, 0], 1), (["0.2", "0.7", "0.6"], [0, 1, 0], 1), (["-0.5", "0.75"], [-1, 1], 0), (["1.25", "-1.5"], [1, -2], -1), ([], [], 0),
])
def test_apportioned(exact, cents, total):
    assert apportioned([Fraction(one) for one in exact]) == (cents, total)


def test_a_wide_list_is_billed(listed, run):
    """By the flows of the sheet, in exact fractions."""
    text = BOILER_HOUSE.replace("accuracy\n", "accuracy,rate\n")
    text = "\n".join(line + (",2500" if ",outside," in line.split(",", 2)[2] else ",") if k else line for k, line in enumerate(text.splitlines())) + "\n"
    path = listed(text)
    drawn = balance(read_site(path))
    out = [k for k, pipe in enumerate(drawn.site.list.pipes) if pipe.target == 0]
    exact = sum(Fraction(drawn.checked.flows[k]) * drawn.checked.unit * 2500 / 10_000 for k in out)
    ended = run("bill", path)
    assert ended.status == 0 and f"{int(exact):,}" in ended.out and SENTENCE in ended.out.replace("\n", " ")


def test_pack_tells_what_is_lost_or_refuses(series, run, tmp_path):
    refused = run("pack", series, tmp_path / "plant.bin")
    assert refused.status == 1 and "would say pass, and the list's own is fail" in refused.err and not (tmp_path / "plant.bin").exists()
    told = run("pack", SAMPLES / "two_percent.csv", tmp_path / "plant.bin").out
    assert "Lost in it: accuracies of 5 (±408 as ±447), 11 (±3.16 as ±20), 25 (±4.06 as ±20)" in told.replace("\n", " ")
    assert "Lost" not in run("pack", SAMPLES / "steam_site.csv", tmp_path / "plant.bin").out


def test_a_plant_file_keeps_its_unit(run, tmp_path):
    """Packed in units of 20 kg/h it stands for the list in kg/h wherever it is read, until the unit beside it is gone."""
    plant, back = tmp_path / "plant.bin", tmp_path / "back.csv"
    run("pack", SAMPLES / "two_percent.csv", plant)
    assert (tmp_path / "plant.bin.unit").read_text() == "20 kg/h is the unit of the flows in this plant file\n"
    assert run("sheet", plant, "-o", tmp_path / "sheet.json").status == 0
    told = json.loads((tmp_path / "sheet.json").read_text())
    assert (told["unit_kg_per_hour"], told["streams"][4]["reading"], told["streams"][4]["balanced"]) == (20, 20400, 20400)
    assert run("unpack", plant, back).status == 0 and list(csv.DictReader(back.open()))[4]["reading"] == "20400"
    run("pack", SAMPLES / "steam_site.csv", plant)
    assert not (tmp_path / "plant.bin.unit").exists()
    (tmp_path / "plant.bin.unit").write_text("lots")
    assert '"lots" stands there; a number of kg/h would do' in run("sheet", plant).err


# ---------------------------------------------------------------- drawn lists


@pytest.fixture(scope="module")
def rows():
    return monte_carlo.run(int(os.environ.get("WENGELUDO_WIDE") or 8))


def test_no_false_verdict(rows):
    """Every list by the independent least squares: the same verdict, every flow within a tenth of a deviation, or not judged."""
    judged = [row for row in rows if row.kind is not SheetKind.UNJUDGED]
    assert len(judged) > 40 and {row.truth for row in judged} == {"PASS", "FAIL"}
    assert [row for row in judged if row.verdict not in (row.truth, "CLOSE") or row.far > 0.1] == []
    assert sum(row.verdict == "CLOSE" for row in judged) <= len(judged) / 100


def test_few_are_not_judged(rows):
    narrow = [row for row in rows if row.span <= 10_000]
    assert sum(row.kind is SheetKind.UNJUDGED for row in narrow) <= len(narrow) / 100


def test_next_to_the_limit():
    """Deviations scaled so that the limit lies just above and just below the list's least cost: never a wrong verdict."""
    for listed in lists(3, 21):
        checked = wide.solve(exacts_of(listed))
        limit = Fraction(monte_carlo.CRITICAL[checked.sheet.degrees - 1], 1000) if checked.sheet.degrees else None
        if limit is None or not checked.judged.least > 1:
            continue
        for side in (Fraction(999, 1000), Fraction(1001, 1000)):
            scale = checked.judged.cost / (limit * side)
            streams = tuple(s if not s.metered else replace(s, variance=s.variance * scale) for s in checked.listed.streams)
            verdict = wide.solve(replace(checked.listed, streams=streams)).judged.verdict
            assert verdict is (engine.Verdict.PASS if side < 1 else engine.Verdict.FAIL)


@pytest.mark.parametrize("end, made", [(2**30, (-(2**30), 2**30)), (2**30 + 1, (None, None)), (2**29 + 1, (-(2**29) - 1, 2**29 + 1))])
def test_the_end_of_a_range_counts_up_to_where_flows_reach(end, made):
    """In units of a quarter: at 2^30 units it is an end, beyond it none; one end alone stays."""
    unit = Fraction(1, 4)
    both, one = (Exact(0, 1, Fraction(0), Fraction(1), low, Fraction(end) * unit) for low in (-Fraction(end) * unit, Fraction(0)))
    found = wide_plant(Exacts(1, (both, one)), unit, Fraction(1)).streams
    assert (found[0].low, found[0].high) == made and found[1].low == 0 and found[1].high == (made[1] or 2**50)


@pytest.mark.parametrize("high, shares", [(Fraction(200), 0), (Fraction(401, 2), None), (None, 0)])
def test_a_range_with_one_end_is_rounded_only_by_its_end(high, shares):
    unit, factor = Fraction(1), Fraction(1000)
    listed = Exacts(1, (Exact(0, 1, Fraction(100), Fraction(1), None, high), Exact(1, 0, Fraction(101), Fraction(1), Fraction(0), None)))
    assert rounded(Checked(listed, unit, factor, wide_plant(listed, unit, factor), (100, 100), ())) == shares


def test_what_leads_the_suspects_is_what_leads_them_all(tmp_path):
    """Of a failing list of many meters the first of a few are the first of all, with the same cost and flow."""
    from bench_serve import large
    from wengeludo.explain.suspects import LEADING, leading, likeliest, suspects

    rows = large(tmp_path / "large.csv").read_text().splitlines()
    for k in (3, 30, 61):
        cells = rows[k].split(",")
        cells[4] = str(int(cells[4]) + 300)
        path = tmp_path / f"off{k}.csv"
        path.write_text("\n".join([*rows[:k], ",".join(cells), *rows[k + 1 :]]) + "\n")
        few, every = (balance(read_site(path)) for _ in range(2))
        first = likeliest(few, leading(few))
        assert first and [s.index for s in first] == [s.index for s in likeliest(every, suspects(every))] and first == likeliest(every, suspects(every))
        assert len(leading(few)) <= LEADING + sum(line.held is not None for line in few.lines) < len(suspects(every))
