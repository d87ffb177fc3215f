# SPDX-License-Identifier: LicenseRef-Wengeludo
"""Numbers, units, marks, languages and damaged files: what a cell means, and what is asked back."""

import csv
import io
import time
import zipfile
from fractions import Fraction

import openpyxl
import pytest
from conftest import SAMPLES
from openpyxl.utils import get_column_letter

from wengeludo.balance.site import notes, site_of
from wengeludo.read import grids, workbooks
from wengeludo.read.faults import Faulty
from wengeludo.read.flow_units import flow_unit, split_heading, split_unit
from wengeludo.read.lists import Asked, Form, read_list
from wengeludo.read.numbers import POINT, Marks, amount
from wengeludo.read.places import drawable
from wengeludo.read.texts import guarded, unguarded


def faults(path, asked=Asked()):
    with pytest.raises(Faulty) as caught:
        read_list(path, asked)
    return [str(fault) for fault in caught.value.faults]


def saved(book):
    data = io.BytesIO()
    book.save(data)
    return data.getvalue()


@pytest.mark.parametrize(
    "text, kg",
    [
        ("kg/h", 1), ("t/h", 1000), ("kg/s", 3600), ("g/s", Fraction(18, 5)), ("lb/h", Fraction(45359237, 10**8)), ("klb/h", Fraction(45359237, 10**5)),
        ("m.t/h", 1000), ("t / h", 1000), ("T/H", 1000), ("Mg/h", 1000), ("kg/min", 60), ("t/d", Fraction(125, 3)), ("lbs/hr", Fraction(45359237, 10**8)),
        ("kg per h", 1), ("t/Std.", 1000), ("tph", 1000), ("pph", Fraction(45359237, 10**8)), ("tons/h", None), ("ton/h", None), ("m3/h", None),
        ("mg/h", None), ("kg", None), ("", None), ("/", None), ("boiler/2", None),
    ],
)
def test_units_of_flow(text, kg):
    assert flow_unit(text) == kg


def test_units_beside_numbers_and_in_headings():
    assert [split_unit(text) for text in ("8.151 t/h", "8,151t/h", "8", "8 kg", "t/h", "2 m3/h", "8e3 kg/h")] == [
        ("8.151", "t/h"), ("8,151", "t/h"), ("8", None), ("8 kg", None), ("t/h", None), ("2", "m3/h"), ("8e3", "kg/h")]
    assert [split_heading(text) for text in ("reading (t/h)", "Reading [kg/s]", "Messwert in t/h", "reading, lb/h", "low t/h", "rate", "note (old)")] == [
        ("reading", "t/h"), ("Reading", "kg/s"), ("Messwert", "t/h"), ("reading", "lb/h"), ("low", "t/h"), ("rate", None), ("note (old)", None)]


@pytest.mark.parametrize(
    "header, cells, wanted",
    [
        ("reading,accuracy,low,high", "8.5 t/h,2%,1 kg/s,9000", (8500, 170, 3600, 9000)),
        ("reading (t/h),accuracy,low,high", "8.5,±0.05,8,9", (8500, 50, 8000, 9000)),
        ("reading (t/h),accuracy (kg/h),low,high [kg/h]", "8.5,50,8,9000", (8500, 50, 8000, 9000)),
        ("reading,unit,accuracy,low,high", "2.25,kg/s,2%,2,3", (8100, 162, 7200, 10800)),
        ("reading,unit,accuracy,low,high", "8.5,t/h,±50 kg/h,8,9 t/h", (8500, 50, 8000, 9000)),
        ("reading,accuracy,low,high", "12.5 lb/h,1 lb/h,,", (5.669904625, 0.45359237, None, None)),
        ("reading (t/h),accuracy,low,high", "8.5,w40,,", (8500, 5, None, None)),
    ],
)
def test_units_in_a_list(header, cells, wanted, listed):
    """In the heading, in a column of their own, in the cell, mixed; the numbers are those of the exact fractions."""
    pipes = read_list(listed(f"stream,from,to,{header}\n1,outside,a,{cells}\n2,a,outside,{cells}\n"))
    pipe = pipes.pipes[0]
    assert (pipe.reading, pipe.accuracy.deviation, pipe.low, pipe.high) == (wanted[0], pytest.approx(wanted[1], rel=1e-15), wanted[2], wanted[3])
    if "/" in header or "unit" in header:
        assert any("stand here in kg/h" in note for note in notes(site_of(pipes)))
    if "±" in cells:
        assert pipe.stated == "±50"


def test_mixed_units_row_by_row(listed):
    pipes = read_list(listed("from,to,reading,unit,accuracy\noutside,a,8.5,t/h,2%\na,outside,8500,kg/h,2%\nb,outside,2.5,kg/s,2%\noutside,b,,,\n"))
    assert [pipe.reading for pipe in pipes.pipes] == [8500, 8500, 9000, None]
    assert "numbers of the list in kg/s, t/h stand here in kg/h" in pipes.told


def test_units_that_are_not_known(listed):
    assert "m³/h is no unit of flow that is known" in faults(listed("from,to,reading [m³/h],accuracy\noutside,a,8.5,2%\n"))[0]
    told = faults(listed("from,to,reading,unit,accuracy\noutside,a,8.5,t/h,2%\na,outside,8.5,bar,2%\n"))
    assert told == ['row 3, column unit, stream 2: "bar" stands there; bar is no unit of flow that is known: kg/h, t/h, kg/s, g/s, kg/min, t/d, lb/h or klb/h would do']
    told = faults(listed("from,to,reading (t/h),unit,accuracy\noutside,a,8.5,kg/h,2%\n"))
    assert told == ['row 2, column unit, stream 1: "kg/h" stands there; the heading of the readings says t/h: one of the two would do']


def test_a_column_of_the_users_own_called_unit(listed):
    pipes = read_list(listed("from,to,unit\noutside,a,boiler house\na,outside,west\n"))
    assert pipes.extras == ("unit",) and pipes.pipes[1].extra == ("west",)


@pytest.mark.parametrize(
    "form, value, column, wanted",
    [
        ('0.000" t/h"', 8.151, 3, 8151), ('#,##0.0\\ "kg/s"', 2.5, 3, 9000), ('0.0,"t/h"', 8151, 3, 8151), ('0.0" lb/h";[Red]-0.0" lb/h"', 100, 3, 45.359237),
        ("#,##0.00", 8.151, 3, 8.151), ("General", 8.479, 3, 8.479), ('0"%"', 2, 4, 20), ("0\\%", 2, 4, 20), ("0.0%", 0.02, 4, 20), ('"±"0.0', 20, 4, 20),
        ('[$€-407] #,##0', 1000, 3, 1000), ('0 "€"', 1000, 3, 1000),
    ],
)
def test_number_formats(form, value, column, wanted, listed):
    """What a spreadsheet shows beside a number is read with it; a literal % is one, a number of 2 shown so is 2 %."""
    book = openpyxl.Workbook()
    book.active.append(["from", "to", "reading", "accuracy"])
    book.active.append(["outside", "a", 1000, "2%"])
    book.active.cell(2, column).value = value
    book.active.cell(2, column).number_format = form
    pipe = read_list(listed(saved(book), "list.xlsx")).pipes[0]
    assert (pipe.reading if column == 3 else pipe.accuracy.deviation) == pytest.approx(wanted, rel=1e-15)


def test_numbers_of_a_workbook_need_no_marks(listed):
    """A number that a workbook holds is sure; texts beside it may have decimal commas."""
    book = openpyxl.Workbook()
    for row in (["from", "to", "reading", "accuracy"], ["outside", "a", 8.479, "2,5%"], ["a", "outside", "8,5", 0.25]):
        book.active.append(row)
    pipes = read_list(listed(saved(book), "list.xlsx")).pipes
    assert [pipe.reading for pipe in pipes] == [8.479, 8.5] and pipes[0].stated == "2.5%" and pipes[1].accuracy.deviation == 0.25


@pytest.mark.parametrize("separator", ",;\t")
def test_a_mark_that_may_be_thousands_is_asked_back(separator, listed):
    rows = [["from", "to", "reading", "accuracy"], ["outside", "a", "8.479", "2%"], ["a", "outside", "9.120", "2%"]]
    path = listed("\n".join(separator.join(row) for row in rows))
    assert len(faults(path)) == 2 and all("it may be thousands or decimals: " in told for told in faults(path))
    assert [pipe.reading for pipe in read_list(path, Asked(decimal=".")).pipes] == [8.479, 9.12]
    assert [pipe.reading for pipe in read_list(path, Asked(decimal=",")).pipes] == [8479, 9120]
    assert [pipe.reading for pipe in read_list(path, Asked(lang="de")).pipes] == [8479, 9120]
    rows[1][2] = "8.4790"
    assert [pipe.reading for pipe in read_list(listed("\n".join(separator.join(row) for row in rows))).pipes] == [8.479, 9.12]


@pytest.mark.parametrize("text", ["8.479", "8,479", "-8.479", "12.345", "123,456", "+1.000"])
def test_unsure_numbers(text):
    for mark in ".,":
        with pytest.raises(ValueError, match="thousands or decimals"):
            amount(text, Marks(mark, False))


@pytest.mark.parametrize("text, value", [("0.479", 0.479), ("1234.567", 1234.567), ("8.479e3", 8479), ("8.47", 8.47), ("8.4790", 8.479), ("1 234.5", 1234.5), ("–5", -5), ("−5", -5)])
def test_sure_numbers(text, value):
    assert amount(text, POINT) == value


def test_silent_meters(listed):
    """Bad and its kin are no reading, and told; the sheet is drawn."""
    words = ["Bad", "I/O Timeout", "NaN", "#N/A", "no data", "#NV", "-", "Out of Service"]
    rows = "".join(f"s{k},outside,a,{word},2%\n" for k, word in enumerate(words))
    pipes = read_list(listed("stream,from,to,reading,accuracy\n1,a,outside,100,2%\n" + rows))
    assert [pipe.reading for pipe in pipes.pipes] == [100] + [None] * len(words)
    told = notes(site_of(pipes))
    silent = ", ".join(f"s{k} (“{word}”)" for k, word in enumerate(words))
    assert [note for note in told if "no reading" in note] == [f"no reading, so they count as streams without a meter: {silent}"]
    assert not any("plays no part: it has no reading" in note for note in told)
    assert 'stands there; a number would do' in faults(listed("from,to,reading,accuracy\noutside,a,Badd,2%\n"))[0]


def test_floors(listed):
    text = "stream,from,to,reading,accuracy,floor\n1,outside,a,0,2%,5\n2,a,outside,100,2%,5\n3,a,outside,1000,2%,5\n4,outside,a,100,±1,5\n"
    pipes = read_list(listed(text))
    assert [pipe.accuracy.deviation for pipe in pipes.pipes] == [5, 5, 20, 1]
    assert "a floor stands for an accuracy that would be smaller: 1 (±5), 2 (±5)" in pipes.told
    bare = listed(text.replace(",floor", "").replace(",5\n", "\n"))
    assert "or a floor below which no accuracy falls, would do" in faults(bare)[0]
    assert [pipe.accuracy.deviation for pipe in read_list(bare, Asked(floor=2.5)).pipes] == [2.5, 2.5, 20, 1]
    assert "above 0 would do" in faults(listed(text.replace("2%,5\n2", "2%,-5\n2")))[0]
    for floor in ("±5", "± 5", "±0.005 t/h"):
        assert [pipe.accuracy.deviation for pipe in read_list(listed(text.replace(",5\n", f",{floor}\n"))).pipes] == [5, 5, 20, 1], floor
    book = openpyxl.Workbook()
    for row in (["from", "to", "reading", "accuracy", "floor"], ["outside", "a", "8,5", "2%", 0.25], ["a", "outside", "18,25", "2%", "±0,75"]):
        book.active.append(row)
    assert [pipe.accuracy.deviation for pipe in read_list(listed(saved(book), "list.xlsx")).pipes] == [0.25, 0.75], "a number of a workbook beside decimal commas"


GERMAN = (
    "Dampfnetz, Stunde 14\n\nStrom;Bezeichnung;von;nach;Messwert;Genauigkeit;mindestens;höchstens;Preis;Tarif\n"
    "1;Speisewasser;außen;Kessel;7979,5;2%;0;9000;;\n2;Dampf;Kessel;Umgebung;7.900,0;±50;;;;100\n"
)


def test_german_lists(listed):
    pipes = read_list(listed(GERMAN))
    first, second = pipes.pipes
    assert (first.label, first.what, first.source, first.target, first.reading, first.low, first.high) == ("1", "Speisewasser", 0, 1, 7979.5, 0, 9000)
    assert (second.reading, second.target, second.rate, pipes.places, pipes.form) == (7900, 0, 100, ("außen", "Kessel"), Form("de", ";", ","))


def test_a_title_above_a_list_with_semicolons(listed):
    text = "Steam, condensate, hour 14\nfrom;to;reading;accuracy\noutside;a;8,5;2%\n"
    assert read_list(listed(text)).pipes[0].reading == 8.5


def test_german_words_alone_are_columns_of_the_users_own(listed):
    assert read_list(listed("from,to,Wert,Preis\noutside,a,1,2\n")).extras == ("Wert", "Preis")


def test_rows_beyond_the_limit(listed):
    rows = "\n" * (grids.MOST_ROWS + 5)
    assert read_list(listed("from,to\noutside,a\n" + rows)).pipes, "empty rows do no harm"
    told = faults(listed("from,to\noutside,a\n" + rows + "a,outside\n"))
    assert told == ["row 10,008: the file goes on after row 10,000: a list has at most 96 streams".replace("10,008", "10008")]
    assert "more than 5,000,000 bytes" in faults(listed("from,to\n" + "x" * 5_000_001))[0]


def test_hidden_worksheets(listed):
    book = openpyxl.Workbook()
    book.active.append(["from", "to", "reading", "accuracy"])
    book.active.append(["outside", "old", 1, 1])
    book.active.title = "last year"
    shown = book.create_sheet("now")
    for row in (["from", "to", "reading", "accuracy"], ["outside", "boiler", 8, 1]):
        shown.append(row)
    book.active = 1
    book.worksheets[0].sheet_state = "hidden"
    pipes = read_list(listed(saved(book), "list.xlsx"))
    assert pipes.places == ("outside", "boiler") and pipes.told == ("the hidden worksheet last year was not read",)
    book.worksheets[0].sheet_state, book.worksheets[1].sheet_state = "visible", "veryHidden"
    assert read_list(listed(saved(book), "other.xlsx")).places == ("outside", "old")


def limited(run, *words):
    """The tool in a process of its own, within 10 s and 500 MB."""
    import resource
    import subprocess
    import sys

    def limit():
        resource.setrlimit(resource.RLIMIT_AS, (900_000_000, 900_000_000))

    began = time.monotonic()
    ended = subprocess.run([sys.executable, "-m", "wengeludo", *map(str, words)], capture_output=True, text=True, preexec_fn=limit, timeout=60)
    assert time.monotonic() - began < 20 and "Traceback" not in ended.stderr
    used = resource.getrusage(resource.RUSAGE_CHILDREN).ru_maxrss
    assert used < 500_000, f"{used} KB"
    return ended


def zipped(**changed):
    """A small workbook with some of its parts exchanged."""
    book = openpyxl.Workbook()
    for row in (["from", "to", "reading", "accuracy"], ["outside", "a", 100, "2%"], ["a", "outside", 98, 5]):
        book.active.append(row)
    data = io.BytesIO()
    with zipfile.ZipFile(io.BytesIO(saved(book))) as old, zipfile.ZipFile(data, "w", zipfile.ZIP_DEFLATED) as new:
        for name in old.namelist():
            text = old.read(name)
            change = changed.get(name.rsplit("/", 1)[-1].split(".")[0])
            new.writestr(name, change(text) if change else text)
    return data.getvalue()


BOMBS = {
    "far cell": {"sheet1": lambda text: text.replace(b"</sheetData>", b'<row r="10000"><c r="XFD10000"><v>1</v></c></row></sheetData>')},
    "far rows": {"sheet1": lambda text: text.replace(b"</sheetData>", b"".join(b'<row r="%d"><c r="XFD%d"/></row>' % (k, k) for k in range(4, 9000)) + b"</sheetData>")},
    "endless row": {"sheet1": lambda text: text.replace(b"</sheetData>", b'<row r="99999999999"><c><v>1</v></c></row></sheetData>')},
    "a million cells": {"sheet1": lambda text: text.replace(b"</sheetData>", b"".join(b'<row r="%d">%s</row>' % (k, b"<c><v>1</v></c>" * 100) for k in range(4, 10004)) + b"</sheetData>")},
    "200 MB of blanks": {"sheet1": lambda text: text + b" " * 200_000_000},
    "a value in a far row": {"sheet1": lambda text: text.replace(b"</sheetData>", b'<row r="10001"><c r="A10001"><v>1</v></c></row></sheetData>')},
    "rows without an end": {"sheet1": lambda text: text.replace(b"</sheetData>", b'<row r="1">' * 500_000 + b"</sheetData>")},
    "strings": {"workbook": lambda text: text + b"<!-- " + b"x" * 30_000_000 + b" -->"},
    "entities": {"workbook": lambda text: b'<?xml version="1.0"?><!DOCTYPE x [<!ENTITY a "' + b"x" * 1000 + b'"><!ENTITY b "' + b"&a;" * 1000 + b'">]><x>&b;</x>'},
    "a merge of everything": {"sheet1": lambda text: text.replace(b"</sheetData>", b'</sheetData><mergeCells count="1"><mergeCell ref="A1:XFD1048576"/></mergeCells>')},
}


@pytest.mark.parametrize("name", BOMBS)
def test_workbooks_that_are_too_much(name, run, listed):
    ended = limited(run, "sheet", listed(zipped(**BOMBS[name]), "list.xlsx"))
    if name == "a merge of everything":
        assert ended.returncode == 0, "merged cells do no harm"
    else:
        assert ended.returncode == 1 and "list.xlsx" in ended.stderr and len(ended.stderr) < 500


def test_a_workbook_is_read_by_the_cells_that_are_there(monkeypatch, listed):
    """A sheet that claims a million rows is read by those it has."""
    data = zipped(sheet1=lambda text: text.replace(b'<dimension ref="A1:D3"', b'<dimension ref="A1:XFD1048576"'))
    began = time.process_time()
    assert len(read_list(listed(data, "list.xlsx")).pipes) == 2
    assert time.process_time() - began < 2


@pytest.mark.parametrize("text", ["a" * 130_000, "(" * 130_000, " " * 130_000 + "x", "1" * 130_000, "1," * 60_000, "'" * 130_000, "in " * 40_000])
def test_long_cells_take_no_time(text, listed):
    """In the header and in the columns: a fault or a list, in a moment."""
    began = time.process_time()
    for rows in ([["from", "to", text]], [["from", "to", "reading", "accuracy"], ["outside", "a", text, "2%"], ["outside", text, "5", text]]):
        data = io.StringIO(newline="")
        csv.writer(data).writerows(rows)
        with pytest.raises(Faulty):
            read_list(listed(data.getvalue()))
    assert time.process_time() - began < 3


@pytest.mark.parametrize("spot", [(400, 3), (-3, 1e300), (5e4, 5e4)])
def test_a_place_far_away(spot, run, listed, tmp_path):
    """A drawing with one unit far from the others is drawn, and told."""
    source = tmp_path / "site.csv"
    source.write_bytes((SAMPLES / "steam_site.csv").read_bytes())
    (tmp_path / "site.places.csv").write_text(f"unit,x,y\ndeaerator,{spot[0]!r},{spot[1]!r}\nfeed pumps,8,1.5\nboiler 1,4,5\nboiler 2,12,5\n")
    ended = limited(run, "sheet", source, "-o", tmp_path / "site.svg")
    assert ended.returncode == 0 and "too far from the rest of the drawing, and put where the streams draw it: deaerator" in " ".join(ended.stdout.split())
    assert (tmp_path / "site.svg").stat().st_size < 100_000


@pytest.mark.parametrize("factor", [10, 1000, 0.01])
def test_drawings_of_any_scale(factor, run, listed, tmp_path):
    """A drawing in millimetres, metres or pixels is the same drawing."""
    rows = [["unit", "x", "y"], ["deaerator", 16, 1.5], ["feed pumps", 8, 1.5], ["boiler 1", 4, 5], ["boiler 2", 12, 5], ["high-pressure header", 8, 9]]
    boxes = []
    for scale in (1, factor):
        source = tmp_path / "site.csv"
        source.write_bytes((SAMPLES / "steam_site.csv").read_bytes())
        (tmp_path / "site.places.csv").write_text("\n".join(",".join(str(cell * scale if isinstance(cell, (float, int)) else cell) for cell in row) for row in rows))
        pipes = read_list(source)
        boxes.append([pipes.spots[k] for k in sorted(pipes.spots)])
    (x0, y0), (x1, y1) = boxes[0][:2]
    (a0, b0), (a1, b1) = boxes[1][:2]
    assert (a1 - a0) * (y1 - y0) == pytest.approx((x1 - x0) * (b1 - b0)) and max(abs(v) for spot in boxes[1] for v in spot) < 40
    assert any("for centimetres" in told for told in pipes.told)


def test_formula_like_texts(listed):
    for text in ("=1+1", "+5", "-a", "@x", "'=1", "''-", "plain", "'quoted'", "\tx", ""):
        assert unguarded(guarded(text)) == text
        assert not guarded(text).startswith(("=", "+", "-", "@", "\t"))
    data = io.StringIO(newline="")
    csv.writer(data).writerows([("stream", "from", "to"), (guarded("=1+1"), "outside", guarded("@a"))])
    pipes = read_list(listed(data.getvalue()))
    assert (pipes.pipes[0].label, pipes.places[1]) == ("=1+1", "@a")


def test_columns_of_an_earlier_sheet_are_left_out(listed):
    pipes = read_list(listed("stream,from,to,reading,balanced,correction,σ,±,how known,area\n1,outside,a,,5,,,1,deduced,west\n"))
    assert pipes.extras == ("area",) and "the columns of an earlier sheet were left out: balanced, correction, σ, ±, how known" in pipes.told
    assert read_list(listed("stream,from,to,balanced\n1,outside,a,5\n")).extras == ("balanced",)


def test_wide_columns_have_names():
    assert get_column_letter(16384) == "XFD" and workbooks.MOST_WIDE > 16384


@pytest.mark.parametrize("spots", [{1: (-4.9, 1.9e246)}, {1: (1e308, 0.0), 2: (1e308, 1e308)}, {1: (3e5, 3e5), 2: (3e5 + 4, 3e5)}, {1: (1.0, 1.0), 2: (1.0, 1.0)}])
def test_places_anywhere_are_brought_to_the_page(spots):
    found, _ = drawable(spots, ["outside", "a", "b"])
    assert all(abs(value) <= 1000 for spot in found.values() for value in spot)
    if len(spots) == 2 and spots[1][0] == 3e5:
        assert found[2][0] - found[1][0] == pytest.approx(4)


TEXTS = {
    "a row of commas": "from,to\n" + "," * 4_900_000, "a wide table": "from,to\n" + ("x," * 400 + "\n") * 6_000, "many rows": "a,b,c\n" * 800_000,
    "many columns": "from,to," + ",".join(f"c{k}" for k in range(200_000)) + "\noutside,a\n", "many streams": "from,to,reading\n" + "".join(f"outside,a{k},x\n" for k in range(9_990)),
    "quotes": '"' * 4_900_000, "columns within the limit": "from,to," + ",".join(f"c{k}" for k in range(498)) + "\noutside,a\n",
}


@pytest.mark.parametrize("name", TEXTS)
def test_texts_that_are_too_much(name, run, listed):
    ended = limited(run, "why", listed(TEXTS[name]), "1")
    assert len(ended.stderr) < 60_000 and (ended.returncode == 0 if name == "columns within the limit" else ended.returncode == 1 and "list.csv" in ended.stderr)


@pytest.mark.parametrize("gap, scale, told", [
    (1.5, 1, ""), (1.49, 5 / 1.49, "too close together for centimetres: it is drawn 3.36 times as large"), (15.0, 1, ""),
    (15.1, 5 / 15.1, "too far apart for centimetres: it is drawn 0.331 times as large"), (5_000.0, 0.001, "too far apart for centimetres: it is drawn 0.001 times as large"),
])
def test_a_drawing_is_brought_to_centimetres_only_beyond_the_limits(gap, scale, told):
    spots, said = drawable({1: (0.0, 0.0), 2: (gap, 0.0), 3: (2 * gap, 0.0)}, ["outside", "a", "b", "c"])
    assert said == ([f"the drawing's places are {told}"] if told else [])
    assert spots[2][0] - spots[1][0] == pytest.approx(gap * scale) and spots[3][1] == 0


@pytest.mark.parametrize("reach, left_out", [(150.0, []), (150.1, ["d"])])
def test_a_unit_far_from_the_others_is_put_where_its_streams_draw_it(reach, left_out):
    spots, said = drawable({1: (0.0, 0.0), 2: (0.0, 5.0), 3: (0.0, 10.0), 4: (-reach, 5.0), 5: (0.0, 0.0)}, ["outside", "a", "b", "c", "d", "e"])
    assert said == [f"too far from the rest of the drawing, and put where the streams draw it: {name}" for name in left_out] and (4 in spots) == (not left_out)


def test_hidden_worksheets_up_to_the_last_that_is_read_are_told(listed):
    book = openpyxl.Workbook()
    for row in (["from", "to", "reading", "accuracy"], ["outside", "a", 100, 5], ["a", "outside", 101, 5]):
        book.active.append(row)
    for name, hidden in (("before", True), ("places", False), ("behind", True), ("third", False)):
        sheet = book.create_sheet(name)
        sheet.append(["unit", "x", "y"])
        sheet.sheet_state = "hidden" if hidden else "visible"
    assert read_list(listed(saved(book), "a.xlsx")).told == ("the hidden worksheet before was not read",)


def test_a_worksheet_with_too_many_cells_is_told(run, monkeypatch):
    monkeypatch.setattr("wengeludo.read.workbooks.MOST_CELLS", 12)
    ended = run("sheet", SAMPLES / "steam_site.xlsx")
    assert ended.status == 1 and ended.err.endswith("steam_site.xlsx: the file has a worksheet of more than 12 cells: a list has at most 96 streams\n")
