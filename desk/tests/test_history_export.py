# SPDX-License-Identifier: LicenseRef-Wengeludo
"""Exports as historians write them: cells, separators, times, zones, autumn; and everything that is wrong with one, told at once."""

import csv
from collections import Counter
from datetime import datetime, timezone

import numpy as np
import openpyxl
import pytest
from hypothesis import given, settings
from hypothesis import strategies as st

from wengeludo.history import cells, clock, export
from wengeludo.history.export import How, read_exports
from wengeludo.read.faults import Faulty, Stopped
from wengeludo.read.numbers import COMMA, POINT
from wengeludo_balance import FAULT, HELD, MEASURED


def utc(*parts):
    return int(datetime(*parts, tzinfo=timezone.utc).timestamp())


@pytest.fixture
def read(tmp_path):
    def reading(text, tags=("A", "B"), name="export.csv", **how):
        path = tmp_path / name
        path.write_bytes(text if isinstance(text, bytes) else text.encode())
        return read_exports([path], tags, How(**how))

    return reading


def faults(read, text, **how):
    with pytest.raises(Faulty) as told:
        read(text, **how)
    return str(told.value)


def test_cells_and_statuses(read):
    found = read("time,A,A.status,B\n2025-01-01T00:00Z,1.5,Good,2\n2025-01-01T01:00Z,1.6,Held,Bad\n2025-01-01T02:00Z,1.7,200,\n2025-01-01T03:00Z,1.8,68,nan\n"
                 "2025-01-01T04:00Z,1.9,0,inf\n2025-01-01T05:00Z,I/O Timeout,Good,7\n2025-01-01T06:00Z,2.0,questionable,-3\n2025-01-01T07:00Z,2.1,whatever,1e3\n")
    assert found.status[:, 0].tolist() == [MEASURED, HELD, MEASURED, HELD, FAULT, FAULT, HELD, FAULT]
    assert found.status[:, 1].tolist() == [MEASURED, FAULT, FAULT, FAULT, FAULT, MEASURED, MEASURED, MEASURED]
    assert found.values[:, 1][[0, 5, 6, 7]].tolist() == [2, 7, -3, 1000]
    assert found.words["Bad"] == 1 and found.words["(nothing)"] == 1 and found.words["I/O Timeout"] == 1 and found.words["status whatever"] == 1
    assert found.times.tolist() == [utc(2025, 1, 1, hour) for hour in range(8)]


@pytest.mark.parametrize("number, kind", [("192", MEASURED), ("255", MEASURED), ("191", FAULT), ("256", FAULT), ("64", HELD), ("127", HELD), ("63", FAULT),
                                          ("128", FAULT), ("0", FAULT), ("GOOD", MEASURED), ("Manual", HELD), ("", MEASURED), ("comm fail", FAULT)])
def test_a_status_is_told_by_word_or_number(number, kind):
    assert cells.kind_of(number) == kind


def test_decimal_commas_points_and_thousands(read):
    text = "Zeit;A;B\n20.07.2025 00:00;2658,3;1.234,5\n20.07.2025 01:00;13346,6;17\n"
    assert read(text).values.tolist() == [[2658.3, 1234.5], [13346.6, 17.0]]
    assert read('time,A,B\n2025-07-20 00:00,2658.3,"1,234.5"\n2025-07-20 01:00,1,2\n').values[0].tolist() == [2658.3, 1234.5]
    assert read("time\tA\tB\n2025-07-20 00:00\t2658.3\t1 234.5\n").values[0].tolist() == [2658.3, 1234.5]
    told = faults(read, "Zeit;A;B\n20.07.2025 00:00;151,300;7\n20.07.2025 01:00;7;152,400\n")
    assert "row 2, column A" in told and "row 3, column B" in told and "thousands or decimals" in told
    assert "decimal points all over" in faults(read, "Zeit;A;B\n20.07.2025 00:00;15,3;7.25\n")


def test_a_word_beside_fast_numbers_is_no_number():
    words = Counter()
    values, unsure = cells.numbers_of(["1.5", "Bad", "2"], POINT, words)
    assert values[[0, 2]].tolist() == [1.5, 2] and np.isnan(values[1]) and not unsure and words == {"Bad": 1}
    assert cells.numbers_of(["8.151", "8,5"], COMMA, Counter())[0].tolist() == [8151.0, 8.5]


def test_both_hours_of_autumn(read):
    rows = ["26.10.2025 01:00", "26.10.2025 02:00", "26.10.2025 02:30", "26.10.2025 02:00", "26.10.2025 02:30", "26.10.2025 03:00"]
    found = read("Zeit;A;B\n" + "".join(f"{row};1,5;2\n" for row in rows), zone="Europe/Vienna")
    first = utc(2025, 10, 25, 23)
    assert (found.times - first).tolist() == [0, 3600, 5400, 7200, 9000, 10800]
    assert [clock.shown(at, clock.zone_of("Europe/Vienna")) for at in found.times[[1, 3]]] == ["2025-10-26T02:00+02:00", "2025-10-26T02:00+01:00"]


def test_the_hour_that_spring_has_not(read):
    told = faults(read, "Zeit;A;B\n30.03.2025 01:00;1;2\n30.03.2025 02:00;1;2\n30.03.2025 03:00;1;2\n", zone="Europe/Vienna")
    assert "row 3" in told and "no such time in Europe/Vienna" in told and told.count("\n") == 0


def test_zones_and_offsets(read):
    bare = read("time,A,B\n2025-07-01 12:00,1,2\n")
    assert bare.times[0] == utc(2025, 7, 1, 12) and "taken as UTC" in bare.notes[0]
    assert read("time,A,B\n2025-07-01 12:00,1,2\n", zone="Europe/Vienna").times[0] == utc(2025, 7, 1, 10)
    offset = read("time,A,B\n2025-07-01T12:00:00+02:00,1,2\n2025-07-01T11:30:00Z,1,2\n", zone="America/New_York")
    assert offset.times.tolist() == [utc(2025, 7, 1, 10), utc(2025, 7, 1, 11, 30)] and not offset.notes
    with pytest.raises(Stopped, match="no such time zone"):
        read("time,A,B\n2025-07-01 12:00,1,2\n", zone="Mars/North")


@pytest.mark.parametrize("text, expected", [
    ("2025-07-20 13:05", (2025, 7, 20, 13, 5)), ("2025/07/20 13:05:00", (2025, 7, 20, 13, 5)), ("20.07.2025 13:05", (2025, 7, 20, 13, 5)),
    ("20-Jul-25 13:05:00", (2025, 7, 20, 13, 5)), ("20/07/2025 13:05", (2025, 7, 20, 13, 5)), ("07/20/2025 1:05 PM", (2025, 7, 20, 13, 5)),
    ("2025-07-20T13:05:00.000Z", (2025, 7, 20, 13, 5)), ("2025-07-20", (2025, 7, 20)), ("20.Okt.2025 00:00", (2025, 10, 20)),
])
def test_forms_of_times(read, text, expected):
    assert read(f"time,A,B\n{text},1,2\n").times[0] == utc(*expected)


def test_times_before_1970_are_times_too(read):
    assert list(read("time,A,B\n1969-12-31 22:00,1,2\n1969-12-31 23:00,1,2\n1970-01-01 00:00,1,2\n").times) == [-7200, -3600, 0]


def test_orders_of_dates(read):
    told = faults(read, "time,A,B\n01/02/2025 00:00,1,2\n02/02/2025 00:00,1,2\n")
    assert "day/month or month/day" in told and "--time-format" in told
    mixed = faults(read, "time,A,B\n13/02/2025 00:00,1,2\n02/14/2025 00:00,1,2\n")
    assert "different orders" in mixed
    assert read("time,A,B\n01/02/2025 00:00,1,2\n", form="%m/%d/%Y %H:%M").times[0] == utc(2025, 1, 2)
    assert faults(read, "time,A,B\n2025-01-01,1,2\n", form="%m/%d/%Y %H:%M").endswith("; no time of the form %m/%d/%Y %H:%M")


def test_faults_are_told_with_row_and_column_all_at_once(read):
    told = faults(read, "time,A,B\n2025-01-01 00:00,1,2\n2025-01-01 02:00,1,2\n2025-01-01 01:00,1,2\nyesterday,1,2\n2025-01-01 05:00,1\n")
    assert 'row 4, column time: "2025-01-01 01:00" stands there; the time goes back' in told
    assert 'row 5, column time: "yesterday" stands there' in told
    assert "row 6: the row has 2 cells, the header 3 (the export is cut off)" in told and told.count("\n") == 2


def test_of_several_exports_every_fault_is_told_with_file_row_and_column(tmp_path, monkeypatch):
    rows = {"b": "2025-01-02 00:00,1,2\n2025-01-01 00:00,1,2\n", "a": "2025-01-01 00:00,1\nnever,1,2\n", "good": "2025-01-03 00:00,1,2\n"}
    paths = [tmp_path / f"{name}.csv" for name in rows]
    for path in paths:
        path.write_text("time,A,B\n" + rows[path.stem])
    headless = tmp_path / "headless.csv"
    headless.write_text("time,A,C\n2025-01-04 00:00,1,2\n")
    with pytest.raises(Stopped) as told:
        read_exports([*paths, headless, tmp_path / "absent.csv"], ("A", "B"), How())
    lines = str(told.value).splitlines()
    assert [line.split(": ")[0].rsplit("/", 1)[1] for line in lines] == ["b.csv", "a.csv", "a.csv", "headless.csv", "absent.csv"]
    assert "row 3, column time" in lines[0] and "row 2: the row has 2 cells" in lines[1] and "row 3, column time" in lines[2] and "tag B has no column" in lines[3]
    assert "No such file" in lines[4]
    monkeypatch.setattr(export, "MOST_FILES", 2)
    with pytest.raises(Stopped) as told:
        read_exports([*paths, headless], ("A", "B"), How())
    assert "headless.csv" not in str(told.value) and str(told.value).endswith("a.csv: and 1 exports more have faults")


def test_tags_that_are_missing_or_twice(read):
    told = faults(read, "time,A,A,C\n2025-01-01,1,2,3\n")
    assert "the list's tag B has no column; the header has A, A, C" in told and 'column 3: "A" stands there; each tag once' in told
    assert "1 columns of export.csv are no tag of the list: C" in read("time,A,B,C\n2025-01-01,1,2,3\n").notes[-1]


def test_what_is_no_table(read, tmp_path):
    table = "the file is no table: a header with a time column and tags, then a row for each time, would do"
    for text, told in (
        (b"\x00\x01\x02\x03binary\x00", "the file is no text: an export is CSV or XLSX"), ("", table), ("just a line of prose\nand one more\n", table),
        ("time,A,B\n2025-01-01,1,\xe4\n".encode("latin-1"), "the file is not UTF-8 text: save it as “CSV UTF-8” or as XLSX"),
        ("time,A,B\n", "the export has a header and no row"), ("time,A,B\n2025-01-01,1," + "2" * 200_000 + "\n", "the file is no CSV: field larger than field limit (131072)"),
    ):
        assert faults(read, text) == f"{tmp_path}/export.csv: {told}"
    assert "no XLSX workbook" in faults(read, b"PK\x03\x04 not a workbook", name="export.xlsx")
    assert "no cell of the column is a number" in faults(read, "time,A,B\n2025-01-01,on,2\n2025-01-02,off,2\n")
    with pytest.raises(Faulty, match="absent.csv: No such file or directory"):
        read_exports([tmp_path / "absent.csv"], ["A"], How())


def test_too_many_rows_are_told_before_they_are_read(read, monkeypatch):
    monkeypatch.setattr(export, "MOST_ROWS", 2000)
    text = "time,A,B\n" + "".join(f"2025-01-{1 + k // 1440:02d} {k // 60 % 24:02d}:{k % 60:02d},1.5,2.5\n" for k in range(9000))
    assert faults(read, text).endswith(": the export has some 9,000 rows: at most 3,000,000 would do, by --every 1h or by --from and --to")
    assert len(read(text, every=3600).times) == 150


def test_a_workbook_is_an_export_too(tmp_path):
    book = openpyxl.Workbook()
    book.active.append(["time", "A", "B"])
    book.active.append([datetime(2025, 1, 1, 0), 1.25, "Bad"])
    book.active.append([datetime(2025, 1, 1, 1), 2, 8.479])
    book.save(tmp_path / "export.xlsx")
    found = read_exports([tmp_path / "export.xlsx"], ["A", "B"], How())
    assert found.times.tolist() == [utc(2025, 1, 1), utc(2025, 1, 1, 1)] and found.values[1].tolist() == [2, 8.479] and found.status[0, 1] == FAULT


def test_exports_follow_each_other_in_time(tmp_path):
    for name, month in (("b.csv", 2), ("a.csv", 3), ("c.csv", 1)):
        (tmp_path / name).write_text(f"time,A,B\n2025-0{month}-01,1,{month}\n2025-0{month}-02,1,{month}\n")
    paths = [tmp_path / name for name in ("a.csv", "b.csv", "c.csv")]
    assert read_exports(paths, ["A", "B"], How()).values[:, 1].tolist() == [1, 1, 2, 2, 3, 3]
    (tmp_path / "c.csv").write_text("time,A,B\n2025-01-01,1,1\n2025-02-02,1,1\n")
    with pytest.raises(Faulty, match="overlap"):
        read_exports(paths, ["A", "B"], How())


def test_from_to_and_twice_and_missing(read):
    text = "time,A,B\n" + "".join(f"2025-01-01 {hour:02d}:00,{hour},2\n" for hour in (0, 1, 1, 2, 5, 6))
    found = read(text)
    assert any("1 rows have the time of the row before" in note for note in found.notes) and any("2 rows are missing in 1 gaps" in note for note in found.notes)
    assert read(text, start=utc(2025, 1, 1, 1), end=utc(2025, 1, 1, 5)).values[:, 0].tolist() == [1, 1, 2]
    assert "between --from and --to" in faults(read, text, start=utc(2026, 1, 1))


def test_means_of_intervals(read):
    rows = [("00:00", "10"), ("00:15", "Bad"), ("00:30", "20"), ("00:45", "30"), ("01:00", "Bad"), ("01:15", "Bad"), ("01:30", "Bad"), ("01:45", "50"), ("02:00", "7")]
    found = read("time,A,B\n" + "".join(f"2025-01-01 {at},{cell},2\n" for at, cell in rows), every=3600)
    assert found.times.tolist() == [utc(2025, 1, 1, hour) for hour in range(3)]
    assert found.values[[0, 2], 0].tolist() == [20, 7] and found.status[:, 0].tolist() == [MEASURED, FAULT, MEASURED]


def test_blocks_make_no_difference(read, monkeypatch):
    text = "time,A,A.q,B\n" + "".join(f"2025-01-{1 + k // 24:02d} {k % 24:02d}:00,{k}.5,{'Held' if k % 7 == 0 else ''},{'Bad' if k % 5 == 0 else k}\n" for k in range(200))
    whole, means = read(text), read(text, every=7200)
    monkeypatch.setattr(export, "BLOCK", 1)
    for one, other in ((whole, read(text)), (means, read(text, every=7200))):
        assert np.array_equal(one.times, other.times) and np.array_equal(one.values, other.values, equal_nan=True) and np.array_equal(one.status, other.status)
        assert one.words == other.words


@settings(max_examples=150, deadline=None)
@given(st.data())
def test_an_export_of_any_shape_is_read_or_told(tmp_path_factory, data):
    cell = st.one_of(st.sampled_from(["1.5", "2,5", "Bad", "", "nan", "1e9", "2025-01-01 00:00", "13/02/2025", "8.479", "-", "\0", "=1+1", "“"]), st.text(max_size=6))
    rows = data.draw(st.lists(st.lists(cell, max_size=5), max_size=6))
    separator = data.draw(st.sampled_from([",", ";", "\t"]))
    path = tmp_path_factory.mktemp("any") / "export.csv"
    head = data.draw(st.sampled_from([["time", "A", "B"], ["time", "A"], [], ["A", "B", "time"], ["time", "A", "A.q", "B"]]))
    with open(path, "w", newline="", encoding="utf-8", errors="replace") as file:
        csv.writer(file, delimiter=separator, escapechar="\\").writerows([head, *rows])
    try:
        found = read_exports([path], ["A", "B"], How(zone=data.draw(st.sampled_from([None, "Europe/Vienna"])), every=data.draw(st.sampled_from([None, 3600]))))
        assert found.values.shape == found.status.shape == (len(found.times), 2)
        assert (np.isfinite(found.values) | (found.status == FAULT)).all()
    except (Faulty, Stopped) as told:
        assert str(told)


@settings(max_examples=60, deadline=None)
@given(st.binary(max_size=400))
def test_a_file_of_any_bytes_is_read_or_told(tmp_path_factory, data):
    path = tmp_path_factory.mktemp("any") / "export.csv"
    path.write_bytes(b"time,A,B\n" + data)
    try:
        read_exports([path], ["A", "B"], How())
    except (Faulty, Stopped) as told:
        assert str(told)
