# SPDX-License-Identifier: LicenseRef-Wengeludo
"""Faults of lists, one by one: row, column, stream, what stands there and what would do; and lists of every shape that is taken."""

import io
from dataclasses import replace
from pathlib import Path

import openpyxl
import pytest

from wengeludo.read.faults import Faulty
from wengeludo.read.lists import read_list

HEAD = "stream,what,from,to,reading,accuracy,low,high,price,rate\n"
UNITS = "kg/h, t/h, kg/s, g/s, kg/min, t/d, lb/h or klb/h would do"
SHARE = "±50 (kg/h), or a floor below which no accuracy falls, would do"
FORMS = "2% (of the reading), ±50 (standard deviation in kg/h) or w40 (weight) would do"
UNSURE = "it may be thousands or decimals: 7979 or 7{}9790 would do"
LARGE = "a number from -4,000,000,000,000 to 4,000,000,000,000 would do"
BOTH = 'row 3, column reading: "2.5" stands there; row 2 has 1,5: decimal points all over the list, or decimal commas, would do'
KNOWN = "stream, what, from, to, reading, accuracy, low, high, price, rate, unit, floor"
GOOD = "1,feed,outside,boiler,100,w10,,,,\n"


def faults(path):
    with pytest.raises(Faulty) as caught:
        read_list(path)
    return [str(fault) for fault in caught.value.faults]


@pytest.mark.parametrize(
    "row, told",
    [
        ("9,x,boiler,outside,abc,2%,,,,", 'row 3, column reading, stream 9: "abc" stands there; a number would do'),
        ("9,x,boiler,outside,5,,,,,", "row 3, column accuracy, stream 9: nothing stands there; a reading needs an accuracy: 2%, ±50 or w40 would do"),
        ("9,x,boiler,outside,5,good,,,,", 'row 3, column accuracy, stream 9: "good" stands there; ' + FORMS),
        ("9,x,boiler,outside,0,2%,,,,", 'row 3, column accuracy, stream 9: "2%" stands there; a share of a reading of 0 is no accuracy: ' + SHARE),
        ("9,x,boiler,outside,5,0,,,,", 'row 3, column accuracy, stream 9: "0" stands there; the standard deviation must be above 0: ' + FORMS),
        ("9,x,boiler,outside,5,w0,,,,", 'row 3, column accuracy, stream 9: "w0" stands there; ' + FORMS),
        ("9,x,boiler,outside,5,w1001,,,,", 'row 3, column accuracy, stream 9: "w1001" stands there; ' + FORMS),
        ("9,x,boiler,outside,5,1,9,3,,", 'row 3, column low, stream 9: "9" stands there; low is above high (3): the other way round would do'),
        ("9,x,boiler,outside,5,1,,,1.5,", 'row 3, column price, stream 9: "1.5" stands there; a whole number from 1 to 1,000,000 would do'),
        ("9,x,boiler,outside,5,1,,,0,", 'row 3, column price, stream 9: "0" stands there; a whole number from 1 to 1,000,000 would do'),
        ("9,x,boiler,outside,5,1,,,,1000001", 'row 3, column rate, stream 9: "1000001" stands there; a whole number from 0 to 1,000,000 would do'),
        ("9,x,,outside,5,1,,,,", "row 3, column from, stream 9: nothing stands there; a place or outside would do"),
        ("9,x,boiler,,5,1,,,,", "row 3, column to, stream 9: nothing stands there; a place or outside would do"),
        ("9,x,Boiler ,boiler,5,1,,,,", 'row 3, column to, stream 9: "boiler" stands there; from and to are the same place: two places would do'),
        ("1,x,boiler,outside,5,1,,,,", 'row 3, column stream: "1" stands there; row 2 has the same stream: another number or name would do'),
        (",x,boiler,outside,5,1,,,,", "row 3, column stream: nothing stands there; a number or a name of the stream would do"),
        ("9,x,boiler,outside,5,1,,,,,more", 'row 3, column 11, stream 9: "more" stands there; the cell stands under no column name'),
        ("9,x,boiler,outside,1e300,1,,,,", 'row 3, column reading, stream 9: "1e300" stands there; ' + LARGE),
        ("9,x,boiler,outside,inf,1,,,,", 'row 3, column reading, stream 9: "inf" stands there; a number would do'),
        ("9,x,boiler,outside,8.151 t,1,,,,", 'row 3, column reading, stream 9: "8.151 t" stands there; a number would do'),
        ("9,x,boiler,outside,8.1 m3/h,1,,,,", 'row 3, column reading, stream 9: "8.1 m3/h" stands there; ' + "m3/h is no unit of flow that is known: " + UNITS),
        ("9,x,boiler,outside,5,8.1 tons/h,,,,", 'row 3, column accuracy, stream 9: "8.1 tons/h" stands there; ' + "tons/h is no unit of flow that is known: " + UNITS),
    ],
)
def test_fault(row, told, listed):
    assert faults(listed(HEAD + GOOD + row + "\n")) == [told]


def test_all_faults_at_once(listed):
    found = faults(listed(HEAD + "1,x,boiler,boiler,a,b,c,d,e,f\n2,y,,,1,,,,,\n"))
    assert [fault.split(":")[0] for fault in found] == [
        "row 2, column to, stream 1", "row 2, column reading, stream 1", "row 2, column low, stream 1", "row 2, column high, stream 1",
        "row 2, column price, stream 1", "row 2, column rate, stream 1", "row 3, column from, stream 2", "row 3, column to, stream 2",
        "row 3, column accuracy, stream 2",
    ]


@pytest.mark.parametrize(
    "text, told",
    [
        ("", "the list is empty: a header line with at least from and to, then a row for each stream"),
        (" , ,\n\n", "the list is empty: a header line with at least from and to, then a row for each stream"),
        (HEAD, "the list has a header line and no stream: a row for each stream would do"),
        ("stream,form,to\n1,a,b\n", "row 1: there is no column from (form is near); known columns are " + KNOWN),
        ("from,to,from\na,b,c\n", 'row 1, column from: "from" stands there; each column once would do'),
        ("a\0b", "the file is no text: a list is CSV or XLSX"),
        (b"from,to\n\xff\xfe,b\n", "row 2: the file is not UTF-8 text: save it as “CSV UTF-8” or as XLSX"),
        (HEAD + "".join(f"{k},x,outside,boiler,,,,,,\n" for k in range(97)), "row 98: the list has 97 streams: at most 96 would do"),
        (HEAD + "".join(f"{k},x,outside,u{k},,,,,,\n" for k in range(33)), "row 34, column to: the list has 33 places beside the outside: at most 32 would do"),
        ("from;to;reading;accuracy\na;outside;7.979;5\n", 'row 2, column reading, stream 1: "7.979" stands there; ' + UNSURE.format(",")),
        ('from,to,reading,accuracy\na,outside,"7,979",5\n', 'row 2, column reading, stream 1: "7,979" stands there; ' + UNSURE.format(".")),
        ("from,to,reading,accuracy\na,outside,8.479,2%\noutside,a,9.120,2%\n", 'row 2, column reading, stream 1: "8.479" stands there; it may be thousands or decimals: 8479 or 8.4790 would do'),
        ("from;to;reading;accuracy\na;outside;1,5;5\na;outside;2.5;5\n", BOTH),
    ],
)
def test_whole_list(text, told, listed):
    assert told in faults(listed(text))


def test_no_workbook(listed):
    assert faults(listed("no workbook", "list.xlsx")) == ["the file is no XLSX workbook that can be read: save it anew"]


def workbook(rows, percent=None, places=()):
    book = openpyxl.Workbook()
    for row in rows:
        book.active.append(row)
    if percent:
        book.active[percent].number_format = "0%"
    if places:
        second = book.create_sheet("places")
        for row in places:
            second.append(row)
    data = io.BytesIO()
    book.save(data)
    return data.getvalue()


def test_per_cent_of_a_spreadsheet(listed):
    data = workbook([["from", "to", "reading", "accuracy"], ["outside", "boiler", 8000, 0.02]], "D2")
    pipe = read_list(listed(data, "list.xlsx")).pipes[0]
    assert (pipe.stated, pipe.accuracy.deviation) == ("2%", 160)


def test_formula_without_a_value(listed):
    data = workbook([["from", "to", "reading", "accuracy"], ["outside", "boiler", "=1+1", 5]])
    assert faults(listed(data, "list.xlsx")) == [
        'row 2, column C: "=1+1" stands there; a formula that was never worked out: open the file in the spreadsheet and save it'
    ]


def test_places_of_a_drawing(listed):
    rows = [["from", "to"], ["outside", "boiler"], ["boiler", "header"]]
    spots = read_list(listed(workbook(rows, places=[["unit", "x", "y"], ["Boiler", 2, 3], ["header", 2, 6.5]]), "list.xlsx")).spots
    assert spots == {1: (2.0, 3.0), 2: (2.0, 6.5)}
    told = faults(listed(workbook(rows, places=[["unit", "x", "y"], ["boilr", 2, 3], ["header", "left", 1]]), "bad.xlsx"))
    assert len(told) == 2 and 'column unit (second table): "boilr" stands there' in told[0] and "centimetres" in told[1]


@pytest.mark.parametrize(
    "text",
    [
        "stream,what,from,to,reading,accuracy,low,high\n1,feed,outside,boiler,7979.5,2%,0,9000\n",
        "\ufeffstream;what;from;to;reading;accuracy;low;high\r\n1;feed;outside;boiler;7979,5;2%;0;9000\r\n",
        "stream\twhat\tfrom\tto\treading\taccuracy\tlow\thigh\n1\tfeed\tOutside\tboiler\t7979.5\t2%\t0\t9000\n",
        "TO,From,Reading,Accuracy,high,low,what,stream\nboiler,outside,7 979.5,± 2 %,9000,0,feed,1\n",
        "\n\nstream,what,from,to,reading,accuracy,low,high\n\n1,feed,outside,boiler,\"7,979.5\",2%,0,9000\n\n",
    ],
)
def test_shapes_that_are_taken(text, listed):
    pipe = read_list(listed(text)).pipes[0]
    assert (pipe.label, pipe.what, pipe.source, pipe.target, pipe.reading, pipe.low, pipe.high) == ("1", "feed", 0, 1, 7979.5, 0, 9000)
    assert pipe.accuracy.deviation == pytest.approx(159.59)


def test_titles_above_the_header(listed):
    pipes = read_list(listed("Steam site, hour 14\n\nstream,from,to\n7,outside,boiler\n"))
    assert [(pipe.label, pipe.row) for pipe in pipes.pipes] == [("7", 4)]


def test_a_text_is_no_formula(tmp_path):
    from wengeludo.write.packing import written

    path = tmp_path / "list.xlsx"
    pipes = read_list(Path(__file__).parents[1] / "samples" / "listing.csv")
    path.write_bytes(written(replace(pipes, pipes=(replace(pipes.pipes[0], label="=1+1"),)), path))
    assert read_list(path).pipes[0].label == "=1+1"


def test_unknown_columns_are_kept(listed):
    pipes = read_list(listed("tag,from,to,building\nFI 101,outside,boiler,north\n"))
    assert (pipes.extras, pipes.pipes[0].extra, pipes.pipes[0].label) == (("tag", "building"), ("FI 101", "north"), "1")


@pytest.mark.parametrize("text, deviation", [("2%", 20), ("±50", 50), ("50", 50), ("+-50", 50), ("+/-50", 50), ("w40", 5), ("W 40", 5), ("0.5 %", 5)])
def test_accuracies(text, deviation, listed):
    pipe = read_list(listed(f"from,to,reading,accuracy\noutside,boiler,1000,{text}\n")).pipes[0]
    assert pipe.accuracy.deviation == pytest.approx(deviation)


def test_unit_names_keep_their_numbers(listed):
    pipes = read_list(listed("from,to\nunit 3,outside\noutside,unit 1\n"))
    assert (pipes.places, pipes.pipes[0].source) == (("outside", "unit 1", "unit 2", "unit 3"), 3)


def test_no_file():
    with pytest.raises(OSError):
        read_list(Path("there is no such list.csv"))
