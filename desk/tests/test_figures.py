# SPDX-License-Identifier: LicenseRef-Wengeludo
"""The tool's own figures against the engine's calls: critical values, limits taken at them and refused beyond them, units that are not 1,
ranges, transmitter files, signs and zeros."""

import csv
import io
import json
import math
import re
from fractions import Fraction

import pytest

import wengeludo_balance as engine
from wengeludo.balance.limits import CRITICAL
from wengeludo.balance.site import read_site
from wengeludo.read.faults import Faulty, Stopped
from wengeludo.read.lists import read_list


def ring(units, cost):
    """A ring of meters from the outside through so many units and back, shut at 0, that costs this: the engine's verdict."""
    root = math.isqrt(cost)
    rest = cost - root * root
    meters = [(1, root), (rest, 1) if rest else (1, 0)] + [(1, 0)] * (units - 1)
    streams = [engine.Stream(k, (k + 1) % (units + 1), weight, reading, 0, 0) for k, (weight, reading) in enumerate(meters)]
    drawn = engine.balance(engine.Plant(units, tuple(streams)).file())
    assert (drawn.cost, drawn.degrees) == (cost, units)
    return drawn.verdict


def test_critical_values():
    """Each is the greatest cost that the engine lets pass."""
    assert len(CRITICAL) == 32
    for units, value in enumerate(CRITICAL, 1):
        assert ring(units, value) is engine.Verdict.PASS and ring(units, value + 1) is not engine.Verdict.PASS, units


def chain(streams, reading="100", accuracy="5"):
    """A list of so many streams one behind the other, with as many units less one."""
    places = ["outside", *(f"u{k}" for k in range(1, streams)), "outside"]
    return "from,to,reading,accuracy\n" + "".join(f"{one},{two},{reading},{accuracy}\n" for one, two in zip(places, places[1:]))


def beside(streams):
    """A list of so many streams to one unit and from it by turns."""
    rows = [("outside,boiler" if k % 2 else "boiler,outside") for k in range(streams)]
    return "from,to,reading,accuracy\n" + "".join(f"{row},100,5\n" for row in rows)


def test_the_largest_lists(run, listed, tmp_path):
    for text, streams in ((beside(96), 96), (chain(33), 33)):
        ended = run("sheet", listed(text, "most.csv"), "-o", tmp_path / "most.json")
        assert ended.status == 0, ended.err
        assert len(json.loads((tmp_path / "most.json").read_text(encoding="utf-8"))["streams"]) == streams
    assert "at most 96" in run("sheet", listed(beside(97), "more.csv")).err
    assert "at most 32" in run("sheet", listed(chain(34), "units.csv")).err


@pytest.mark.parametrize("column, at, beyond", [("price", "1000000", "1000001"), ("price", "1", "0"), ("rate", "0", "-1")])
def test_prices_and_rates(column, at, beyond, listed):
    text = "from,to,reading,accuracy,{}\noutside,boiler,100,5,\nboiler,outside,,,{}\n"
    assert getattr(read_list(listed(text.format(column, at))).pipes[1], column) == int(at)
    with pytest.raises(Faulty) as caught:
        read_list(listed(text.format(column, beyond)))
    assert f"column {column}" in str(caught.value) and beyond in str(caught.value)


@pytest.mark.parametrize("unit", ["0.1", "1", "2", "5", "10", "50"])
def test_a_unit_that_is_not_1(unit, run, listed, tmp_path):
    """Readings, ranges and a transmitter file in units: what the engine is handed, in kg/h, is what the list says."""
    text = "from,to,reading,accuracy,low,high\noutside,a,1000,25,903,1097\na,outside,1000,25,,\n"
    path = listed(text)
    site = read_site(path, Fraction(unit))
    first, second = site.plant.streams
    assert [first.reading * Fraction(unit), second.reading * Fraction(unit)] == [1000, 1000]
    low, high = first.low * Fraction(unit), first.high * Fraction(unit)
    assert 903 <= low < 903 + Fraction(unit) and 1097 - Fraction(unit) < high <= 1097, "no end outside that of the list"
    bare = listed("from,to,reading,accuracy\noutside,a,1000,25\na,outside,1010,25\n", "bare.csv")
    ended = run("pack", bare, tmp_path / "t.bin", "--transmitter", "--unit", unit)
    if ended.status:
        assert "another unit" in ended.err
        return
    plant = engine.read_plant(engine.plant_from_transmitter((tmp_path / "t.bin").read_bytes()))
    ours = read_site(bare, Fraction(unit)).plant
    assert [(s.source, s.target, s.reading) for s in plant.streams] == [(s.source, s.target, s.reading) for s in ours.streams]
    assert all(abs(one.weight - two.weight) <= 1 for one, two in zip(plant.streams, ours.streams))


def test_a_range_is_never_rounded_outwards(run, listed):
    """In units of 50 the flow stays within 960 to 990, where 950 is nearer to the readings."""
    text = "from,to,reading,accuracy,low,high\noutside,a,{},50,{},{}\na,outside,{},50,,\n"
    inside = listed(text.format(900, 951, 1040, 900))
    site = read_site(inside, Fraction(50))
    assert (site.plant.streams[0].low, site.plant.streams[0].high) == (20, 20)
    narrow = listed(text.format(900, 951, 999, 900), "narrow.csv")
    with pytest.raises((Faulty, Stopped)):
        read_site(narrow, Fraction(50))


def test_a_range_with_one_end(listed):
    """The other end is as far as the engine goes, and the one that is given holds."""
    text = "from,to,reading,accuracy,low,high\noutside,a,100,5,{},{}\na,outside,100,5,,\n"
    most = engine.WIDEST
    for low, high, wanted in (("105", "", (105, most)), ("", "95", (-most, 95)), ("", "", (None, None))):
        first = read_site(listed(text.format(low, high)), Fraction(1)).plant.streams[0]
        assert (first.low, first.high) == wanted


@pytest.mark.parametrize("minus", ["-", "−", "–", "\u2010", "\u2011"])
def test_signs(minus, listed):
    """What looks like a minus is one."""
    try:
        reading = read_list(listed(f"from,to,reading,accuracy\noutside,a,{minus}12,2\na,outside,5,2\n")).pipes[0].reading
    except Faulty as faulty:
        assert "reading" in str(faulty)
        assert minus not in "-−–", "these are taken"
        return
    assert reading == -12


def test_a_minus_is_shown(run, listed, tmp_path):
    path = listed("stream,from,to,reading,accuracy\n1,outside,a,-100,2\n2,a,outside,-100,2\n")
    ended = run("sheet", path, "-o", tmp_path / "a.json", "-o", tmp_path / "a.html")
    told = json.loads((tmp_path / "a.json").read_text(encoding="utf-8"))
    assert [entry["balanced"] for entry in told["streams"]] == [-100, -100]
    assert ended.out.count("−100") >= 4 and "backwards" in ended.out and "−100" in (tmp_path / "a.html").read_text(encoding="utf-8")


def test_a_flow_of_0_is_no_blank(run, listed, tmp_path):
    """It stands as 0 wherever a flow that is not known stands as nothing or as a question mark."""
    import openpyxl

    path = listed("stream,from,to,reading,accuracy\n1,outside,a,0,±2\n2,a,outside,0,±2\n3,a,b,,\n4,a,b,,\n5,b,outside,0,±2\n")
    files = {suffix: tmp_path / f"sheet{suffix}" for suffix in (".json", ".csv", ".xlsx", ".html", ".svg")}
    ended = run("sheet", path, *(word for file in files.values() for word in ("-o", file)))
    entries = json.loads(files[".json"].read_text(encoding="utf-8"))["streams"]
    assert [entry["balanced"] for entry in entries] == [0, 0, None, None, 0] and [entry["reading"] for entry in entries] == [0, 0, None, None, 0]
    rows = list(csv.DictReader(io.StringIO(files[".csv"].read_text(encoding="utf-8-sig"), newline="")))
    assert [row["balanced"] and float(row["balanced"]) for row in rows] == [0, 0, "", "", 0]
    table = [row for row in openpyxl.load_workbook(files[".xlsx"]).worksheets[0].iter_rows(values_only=True)]
    head = next(k for k, row in enumerate(table) if "balanced" in row)
    column = table[head].index("balanced")
    assert [row[column] for row in table[head + 1 : head + 6]] == [0, 0, None, None, 0]
    lines = [line for line in ended.out.splitlines() if line[:1].isdigit()]
    zero = [True, True, False, False, True]
    assert [bool(re.search(r"\s0(\.0+)?\s", line)) for line in lines[:5]] == zero == ["?" not in line for line in lines[:5]]
    svg = files[".svg"].read_text(encoding="utf-8")
    shown = [re.search(rf'<g id="label-{k}".*?<tspan[^>]*>(.*?)</tspan>', svg, re.DOTALL)[1] for k in range(5)]
    assert [bool(re.fullmatch(r"0(\.0+)?", text)) for text in shown] == zero == [text != "?" for text in shown]


def test_columns_of_the_user_are_kept(run, listed, tmp_path):
    """In every file, beside their stream; and through a book."""
    path = listed("tag,stream,from,to,reading,accuracy,building\nFI 1,1,outside,a,100,2,north\nFI 2,2,a,outside,101,2,south\n")
    run("sheet", path, *(word for suffix in (".json", ".csv", ".html") for word in ("-o", tmp_path / f"a{suffix}")))
    run("keep", path, tmp_path / "a.book")
    run("open", tmp_path / "a.book", "1", "-o", tmp_path / "b.json")
    for name in ("a.json", "b.json"):
        text = json.dumps(json.loads((tmp_path / name).read_text(encoding="utf-8"))["streams"])
        assert text.index("FI 1") < text.index("FI 2") and text.index("north") < text.index("south"), name
    rows = list(csv.DictReader(io.StringIO((tmp_path / "a.csv").read_text(encoding="utf-8-sig"), newline="")))
    assert [(row["stream"], row["tag"], row["building"]) for row in rows] == [("1", "FI 1", "north"), ("2", "FI 2", "south")]
    page = (tmp_path / "a.html").read_text(encoding="utf-8")
    assert page.index("FI 1") < page.index("FI 2") and "building" in page


def test_a_bill_of_the_sheet_s_flows(run, listed):
    """Each flow times its rate, and the sum of all; the whole sentences of what cannot be billed."""
    text = "stream,from,to,reading,accuracy,rate\n1,outside,a,300,±1,\n2,a,outside,100,±1,{}\n3,a,outside,200,±1,{}\n"
    ended = run("bill", listed(text.format(10_000, 5_000)))
    numbers = [line.split()[-1] for line in ended.out.splitlines() if line.strip() and line.split()[-1].replace(",", "").isdigit()]
    assert numbers[-3:] == ["100", "100", "200"], ended.out
    assert run("bill", listed(text.format(10_000, ""))).status == 1
    assert "rate" in run("bill", listed(text.format(10_000, ""))).err


def test_places_that_are_not_in_centimetres():
    """Far apart or close together they keep their proportions, to the right and down; one that is far from the rest has no place."""
    from wengeludo.read.places import drawable

    names = ["outside", "a", "b", "c", "d"]
    usual = {1: (100.0, 2.0), 2: (106.0, 2.0), 3: (100.0, 9.0)}
    assert drawable(usual, names) == (usual, [])
    for factor in (100.0, 0.01):
        found, told = drawable({unit: (x * factor, y * factor) for unit, (x, y) in usual.items()}, names)
        (ax, ay), (bx, by), (cx, cy) = (found[unit] for unit in (1, 2, 3))
        assert (cy - ay) / (bx - ax) == pytest.approx(7 / 6) and (by, cx) == (pytest.approx(ay), pytest.approx(ax)) and 1 < bx - ax < 30
        assert len(told) == 1 and ("far apart" if factor > 1 else "close together") in told[0]
        assert sorted(x for x, _ in found.values())[1] == pytest.approx(0) == sorted(y for _, y in found.values())[1]
    found, told = drawable({**usual, 4: (100.0, 5000.0)}, names)
    assert set(found) == {1, 2, 3} and "d" in told[-1]
