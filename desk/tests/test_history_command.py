# SPDX-License-Identifier: LicenseRef-Wengeludo
"""The command `history`: statuses, every file, all of them whole or none, whose numbers, the page in a browser, the bill, overrides."""

import csv
import html
import json
import os
import re
import shutil
import subprocess
from dataclasses import replace
from fractions import Fraction
from types import SimpleNamespace
from xml.etree import ElementTree

import numpy as np
import openpyxl
import pytest
import simulator as sim

import wengeludo_balance as engine
from wengeludo.history import charts
from wengeludo.history.analysis import analysed
from wengeludo.history.page import page
from wengeludo.keep.book import Book
from wengeludo_balance import FAULT, HELD

CHROMIUM = shutil.which(os.environ.get("CHROMIUM", "chromium"))
MOST = 200_000


@pytest.fixture(scope="session")
def year(tmp_path_factory):
    """A year with faults as files: the list, the export, and what stands in them."""
    folder, made = tmp_path_factory.mktemp("year"), sim.bad_year()
    sim.write_list(made.site, folder / "site.csv")
    sim.write_export(made, folder / "export.csv")
    sim.write_export(made, folder / "spring.csv", slice(0, 900), separator=",")
    return SimpleNamespace(folder=folder, list=folder / "site.csv", export=folder / "export.csv", spring=folder / "spring.csv", truth=made)


def table(path):
    with open(path, encoding="utf-8-sig", newline="") as file:
        return list(csv.DictReader(file))


def test_all_tables_of_a_year(run, year, tmp_path):
    ended = run("history", year.list, year.export, "--zone", "Europe/Vienna", "-o", f"{tmp_path}/out/", "-o", tmp_path / "run.npz")
    assert ended.status == 3 and "2 findings" in ended.out and "9 steam from boiler 2 reads" in ended.out
    out = tmp_path / "out"
    assert sorted(path.name for path in out.iterdir()) == ["events.csv", "findings.csv", "flows.csv", "meters.csv", "overrides.csv", "rows.csv", "run.html"]
    rows, flows = table(out / "rows.csv"), table(out / "flows.csv")
    assert len(rows) == len(flows) == sim.YEAR and rows[0]["time"] == "2025-01-01T01:00+01:00"
    assert sum(row["verdict"] == "fail" for row in rows) == int(re.search(r"([\d,]+) of 8,730 tested rows fail", ended.out)[1].replace(",", ""))
    assert {row["classes"] for row in rows[:24]} == {"RAGGAAARAGAAAGARAWWAGAGAAG"} and flows[0]["18"] == "" and float(flows[0]["1"]) == year.truth.readings[0, 0]
    assert {row["sheet"] for row in rows} == {row["sheet"] for row in flows} == {"checked"}
    assert [row["suspect"] for row in rows if row["time"].startswith("2025-02-15T10:00")] == ["5"]
    kept = np.load(tmp_path / "run.npz")
    unit = Fraction(str(kept["unit"]))
    assert [Fraction(text["5"]) for text in flows[:200]] == [int(flow) * unit for flow in kept["flows"][:200, 4]]
    assert len(table(out / "meters.csv")) == 17 and len(table(out / "findings.csv")) == 9 and len(table(out / "events.csv")) == 11
    assert [(row["stream"], row["status"]) for row in table(out / "overrides.csv")] == [("9", "fault"), ("20", "fault"), ("17", "fault"), ("24", "fault")]


def test_what_is_the_tools_is_called_an_estimate_in_every_file(run, year, tmp_path):
    run("history", year.list, year.spring, "-o", f"{tmp_path}/out/", "-o", tmp_path / "run.xlsx")
    engines = {"rows": {"time", "sheet", "verdict", "cost", "limit", "degrees", "classes", "suspect", "flow without it", "verdict without", "refusal"}}
    for name, own in engines.items():
        heads = set(next(csv.reader(open(tmp_path / "out" / f"{name}.csv", encoding="utf-8-sig", newline=""))))
        assert own <= heads and all(head.endswith("(estimate)") for head in heads - own)
    for name in ("meters", "findings", "events"):
        assert "(estimate)" in (tmp_path / "out" / f"{name}.csv").read_text(encoding="utf-8-sig").splitlines()[0]
    book = openpyxl.load_workbook(tmp_path / "run.xlsx")
    assert book.sheetnames == ["rows", "flows", "meters", "findings", "events", "overrides"]
    assert book["flows"]["B2"].value == "checked" and book["flows"]["C2"].value == pytest.approx(float(table(tmp_path / "out" / "flows.csv")[0]["1"]))
    text = (tmp_path / "out" / "run.html").read_text(encoding="utf-8")
    assert "The tool’s, estimates" in text and "proved" in text


def test_a_run_without_finding_ends_with_0(run, year, tmp_path):
    ended = run("history", year.list, year.spring, "-o", tmp_path / "run.html")
    assert ended.status == 0 and "no finding" in ended.out and (tmp_path / "run.html").stat().st_size < MOST


def test_certified_rows_pass_the_check(run, year, tmp_path):
    assert run("history", year.list, year.spring, "--certify", "-o", tmp_path / "rows.csv", "-o", tmp_path / "run.npz").status == 0
    assert {row["check"] for row in table(tmp_path / "rows.csv")} == {"passes"}
    kept = np.load(tmp_path / "run.npz")
    assert kept["numbers"].shape == (900, 33) and not kept["checked"].any()


def test_wrong_use_writes_nothing(run, year, tmp_path, monkeypatch):
    folder = tmp_path / "here"
    folder.mkdir()
    monkeypatch.chdir(folder)
    for words, told in (
        (("-o", "x.docx"), "the name says what is written"), (("-o", "table.csv"), "the name says"), (("-o", year.list), "the name says"), (("-o", "bill.csv"), "no month"),
        (("-o", "rows.csv", "-o", "rows.csv"), "twice"), (("--zone", "Nowhere"), "no such time zone"), (("--every", "fortnight"), "1h, 15min"),
        (("--from", "soon"), "soon"), (("--reference", "2025"), "would do"), (("--reference", "2025-02-01..2025-01-01"), "before the first"),
        (("--bill", "July"), "2025-07 would do"), (("--bill", "2031-01", "--unit", "1"), "no row of that month"), (("--from", "2031-01-01"), "between --from and --to"),
        (("--overrides", "absent.csv"), "absent.csv"), (("--unit", "0.0001"), "a larger --unit"),
    ):
        ended = run("history", year.list, year.spring, *words, *(("-o", "rows.csv") if "-o" not in words else ()))
        assert ended.status in (1, 2) and told in ended.err and "Traceback" not in ended.err, (words, ended)
        assert not list(folder.iterdir()), words
    assert run("history", year.list).status == 2
    kept = year.spring.read_bytes()
    lost = tmp_path / "rows.csv"
    lost.write_bytes(kept)
    assert "that is what is read" in run("history", year.list, lost, "-o", lost).err and lost.read_bytes() == kept


def test_lists_without_tags_or_with_wrong_ones(run, listed, year):
    head = "stream,from,to,tag,accuracy,factor\n"
    for text, told in (("stream,from,to,reading,accuracy\n1,outside,a,5,1\n", "no column tag"), (head + "1,outside,a,,\n", "no pipe of the list has a tag"),
                       (head + "1,outside,a,FI-101,5\n2,a,outside,FI-101,5\n", "row 2 has the same tag"), (head + "1,outside,a,FI-101,\n", "needs an accuracy"),
                       (head + "1,outside,a,FI-101,5,zero\n", "kg/h in one unit of the tag"), (head + "1,outside,a,FI-999,5\n", "tag FI-999 has no column")):
        ended = run("history", listed(text), year.spring)
        assert ended.status == 1 and told in ended.err, ended


def test_a_factor_makes_kg_of_tonnes(run, listed, tmp_path):
    (tmp_path / "export.csv").write_text("time,T,K\n" + "".join(f"2025-01-01 {hour:02d}:00,1.2345,1234\n" for hour in range(4)))
    path = listed("stream,from,to,tag,accuracy,factor\n1,outside,a,T,5,1000\n2,a,outside,K,5,\n")
    assert run("history", path, tmp_path / "export.csv", "--unit", "0.5", "-o", tmp_path / "flows.csv", "-o", tmp_path / "run.npz").status == 0
    assert np.load(tmp_path / "run.npz")["readings"].tolist() == [[2469, 2468]] * 4
    assert table(tmp_path / "flows.csv")[0]["1"] in ("1234.0", "1234.5")


def test_a_disk_that_is_full_leaves_nothing_half_written(run, year, tmp_path, monkeypatch):
    from wengeludo.history import files

    def full(*_):
        raise OSError(28, "No space left on device")

    monkeypatch.setattr(files, "_arrays", full)
    ended = run("history", year.list, year.spring, "-o", tmp_path / "rows.csv", "-o", tmp_path / "run.npz")
    assert ended.status == 1 and "No space left" in ended.err and not list(tmp_path.iterdir())


def test_overrides_are_taken_only_if_handed_back(run, year, tmp_path, listed):
    override = listed("stream,from,to,status,why\n9,2025-01-10,2025-01-12,fault,\n,,,,\n2,2025-01-03 00:00,2025-01-04 00:00,held,by hand\n", "overrides.csv")
    assert run("history", year.list, year.spring, "--overrides", override, "-o", tmp_path / "run.npz").status == 0
    status = np.load(tmp_path / "run.npz")["status"]
    assert (status[216:264, 8] == FAULT).all() and status[215, 8] != FAULT and status[264, 8] != FAULT and (status[48:72, 1] == HELD).all()
    wrong = listed("stream,from,to,status\n9,2025-01-10,2025-01-09,fault\n77,never,2025-01-02,gone\n", "wrong.csv")
    ended = run("history", year.list, year.spring, "--overrides", wrong)
    assert ended.status == 1 and ended.err.count("row 2") == 1 and ended.err.count("row 3") == 3
    assert "no column status" in run("history", year.list, year.spring, "--overrides", listed("stream,from,to\n", "none.csv")).err


def test_each_colour_of_the_map_has_its_number():
    """Mean z from three below to three above in 31 steps, beyond them as at the ends, and grey for no value."""
    made = charts.palette()
    assert charts.shades(np.array([-9, -3, -0.2, -0.09, 0, 0.09, 0.2, 3, 9, np.nan])).tolist() == [0, 0, 14, 15, 15, 15, 16, 30, 30, 31] and len(made) == 32
    assert (made[0], made[15], made[30], made[31]) == ((33, 102, 172, 255), (250, 250, 250, 255), (178, 24, 43, 255), (214, 218, 222, 255))
    assert all(one[0] < one[2] for one in made[:15]) and all(one[0] > one[2] for one in made[16:31])


def test_days_are_put_together_if_they_are_more_than_the_columns():
    daily = np.arange(761.0).reshape(-1, 1)
    daily[3:6] = np.nan
    found, each = charts._columns(daily)
    assert each == 3 and len(found) == 254 and np.isnan(found[1]) and found[0] == 1 and found[-1] == 759.5 and charts._columns(daily[:380])[1] == 1


def billed_list(year, path, rates={"20": "2500", "21": "2500"}):
    """The year's list with rates: these, and 0 of what else goes outside."""
    with open(year.list, newline="") as file:
        rows = list(csv.reader(file))
    for row in rows[1:]:
        row[9] = rates.get(row[0], "0" if row[3] == "outside" else "")
    with open(path, "w", newline="") as file:
        csv.writer(file).writerows(rows)
    return path


def cents_of(flows, unit, rates):
    """The charges of an hour by another way: the whole bill rounded down, cents handed out one by one to the largest remainder."""
    shares = [int(flow) * unit * rate / 10_000 for flow, rate in zip(flows, rates)]
    cents = [share.numerator // share.denominator for share in shares]
    total = sum(shares)
    while sum(cents) < total.numerator // total.denominator:
        cents[max(range(len(shares)), key=lambda k: (shares[k] - cents[k] if shares[k] - cents[k] < 1 else -1, -k))] += 1
    return cents


def july_of(kept):
    start, end = (np.searchsorted(kept["times"], at) for at in (1751320800, 1753999200))  # 1 July and 1 August, 00:00 in Vienna
    return np.arange(start, end)


def test_the_bill_is_the_sum_of_the_hours(run, year, tmp_path):
    path = billed_list(year, tmp_path / "site.csv")
    words = ("--zone", "Europe/Vienna", "--unit", "1", "--bill", "2025-07", "-o", tmp_path / "bill.csv", "-o", tmp_path / "run.npz")
    ended = run("history", path, year.export, *words, "-o", tmp_path / "run.html")
    assert ended.status == 3 and "2025-07:" in ended.out and "by the proved call" in ended.out and "rounded once" in ended.out
    rows = table(tmp_path / "bill.csv")
    kept = np.load(tmp_path / "run.npz")
    july = july_of(kept)
    good = july[(kept["refusal"][july] == 0) & (kept["unbilled"][july] == 0)]
    assert int(rows[-1]["cents"]) == int(kept["bill"][good].sum()) == sum(int(row["cents"]) for row in rows[:-1]) > 100_000
    twenty = next(f"{int(row['cents']):,}" for row in rows if row["stream"] == "20")
    assert f'<td class="n">{twenty}</td><td class="n">{twenty}</td>' in (tmp_path / "run.html").read_text(encoding="utf-8")
    assert {row["charged by"] for row in rows} == {"proved call"} and all(row["cents by the proved call"] == row["cents"] for row in rows)
    assert int(rows[0]["hours billed"]) == len(good) and int(rows[0]["hours not billed"]) == 744 - len(good)
    sheet = engine.Plant(13, tuple(engine.Stream(s.source, s.target, s.weight, int(r)) if w == 0x21 else engine.Stream(s.source, s.target)
                                   for s, r, w in zip(year.truth.site.plant.streams, kept["readings"][good[5]], kept["status"][good[5]])))
    rates = [{"20": 2500, "21": 2500}.get(p.label, 0) for p in year.truth.site.tagged.list.pipes if p.target == 0]
    assert engine.charges(sheet.file(), rates).cents == kept["bill"][good[5]]
    once = sum(int(kept["flows"][good, k].sum()) * rate // 10_000 for k, rate in ((19, 2500), (20, 2500)))
    assert int(rows[-1]["cents rounded once (estimate)"]) == once >= int(rows[-1]["cents"])


@pytest.mark.parametrize("rates, words, why", [
    ({"20": "2500", "21": "2500"}, (), "not of the engine's own sheet"), ({"20": "333", "21": "1000000"}, ("--unit", "1"), "rates up to 10,000, and 21 has more"),
    ({"20": "2501", "21": "7"}, ("--unit", "1/2"), "whole rates up to 10,000 for each unit of 0.5 kg"), ({"20": "999999", "21": "1"}, (), "not of the engine's own sheet")])
def test_a_bill_that_the_engine_does_not_charge_is_the_tools_and_of_the_flows_shown(run, year, tmp_path, rates, words, why):
    path = billed_list(year, tmp_path / "site.csv", rates)
    every = ("--zone", "Europe/Vienna", "--from", "2025-06-20", "--to", "2025-08-02", *words)
    ended = run("history", path, year.export, *every, "--bill", "2025-07", "-o", tmp_path / "bill.csv", "-o", tmp_path / "run.npz", "-o", tmp_path / "run.html")
    assert "hours by the tool, in exact fractions of the flows that the rows show" in ended.out and why in ended.out and "by the proved call" not in ended.out
    text = (tmp_path / "run.html").read_text(encoding="utf-8")
    assert "by the tool, in exact fractions" in text and "cents, by the tool" in text and "by the proved call" not in text and "not known (25)" in text
    rows, kept = table(tmp_path / "bill.csv"), np.load(tmp_path / "run.npz")
    assert {row["charged by"] for row in rows} == {"tool"} and {row["cents by the proved call"] for row in rows} == {""}
    run("history", path, year.export, *every, "-o", tmp_path / "plain.npz")  # the rows are the same without a bill
    plain = np.load(tmp_path / "plain.npz")
    assert np.array_equal(kept["flows"], plain["flows"]) and kept["sheet"] == plain["sheet"] and kept["unit"] == plain["unit"]
    unit, july = Fraction(str(kept["unit"])), july_of(kept)
    outward = [(k, int(rates.get(p.label, "0"))) for k, p in enumerate(year.truth.site.tagged.list.pipes) if p.target == 0]
    good = [row for row in july if not kept["refusal"][row] and not any(kept["kinds"][row, k] == engine.WITHHELD for k, _ in outward)]
    told = np.array([cents_of(kept["flows"][row, [k for k, _ in outward]], unit, [rate for _, rate in outward]) for row in good], object)
    assert [int(row["cents"]) for row in rows[:-1]] == told.sum(0).tolist() and int(rows[-1]["cents"]) == told.sum() > 1000
    assert int(rows[0]["hours billed"]) == len(good) and int(rows[0]["hours billed"]) + int(rows[0]["hours not billed"]) + int(rows[0]["hours without a row"]) == 744


def test_a_bill_that_the_engine_charges_otherwise_is_none(run, year, tmp_path, monkeypatch):
    from wengeludo.history import bill

    path = billed_list(year, tmp_path / "site.csv")
    monkeypatch.setattr(bill, "apportioned", lambda exact: ([1 for _ in exact], len(exact)))
    ended = run("history", path, year.spring, "--unit", "1", "--bill", "2025-01", "-o", tmp_path / "bill.csv")
    assert ended.status == 1 and "charges the hour" in ended.err and not (tmp_path / "bill.csv").exists()


def test_a_bill_needs_hours_and_rates(run, year, tmp_path):
    path = billed_list(year, tmp_path / "site.csv")
    assert "a bill takes hours" in run("history", path, year.spring, "--every", "2h", "--bill", "2025-01").err
    assert run("history", path, year.spring, "--unit", "2", "--bill", "2025-01").out.count("by the proved call") == 1
    assert "nothing to bill" in run("history", billed_list(year, tmp_path / "none.csv", {}), year.spring, "--bill", "2025-01").err
    ended = run("history", billed_list(year, tmp_path / "one.csv", {"20": "5", "21": ""}), year.spring, "--bill", "2025-01")
    assert ended.status == 1 and ended.err.count("needs a rate") == 1 and "column rate, stream 21" in ended.err


@pytest.mark.parametrize("words", [("--unit", "1"), ()], ids=["engine", "checked"])
def test_the_hours_are_kept_in_a_book_each_once(run, year, tmp_path, words):
    """Rows with a fault and a held cell among them; a second run, and one that goes further, keep what is not there."""
    book, span = tmp_path / "sheets.book", ("--zone", "Europe/Vienna", "--from", "2025-09-22T20:00")
    first = run("history", year.list, year.export, *span, "--to", "2025-09-23T08:00", *words, "--book", book, "--office", "3", "-o", tmp_path / "run.npz")
    assert "12 sheets kept: office 3 of" in first.out
    further = run("history", year.list, year.export, *span, "--to", "2025-09-23T12:00", *words, "--book", book, "--office", "3", "-o", tmp_path / "run.npz")
    assert "4 sheets kept, 12 were there before: office 3 of" in further.out
    kept = np.load(tmp_path / "run.npz")
    assert (kept["status"] == HELD).any() and run("book", "check", book).status == 0
    unit = Fraction(str(kept["unit"]))
    with Book(book) as opened:
        sheets = list(opened.sheets())
        assert [one.hour for one in sheets] == [f"2025-09-{22 + (20 + k) // 24}T{(20 + k) % 24:02d}:00+02:00" for k in range(16)] and {one.office for one in sheets} == {3}
        for row, one in enumerate(sheets):
            drawn = one.balance()
            assert not opened.faults(one) and drawn.kind.value == str(kept["sheet"]) and drawn.verdict == kept["verdict"][row]
            typed = [None if s == FAULT else r for s, r in zip(kept["status"][row], year.truth.readings[6354 + row])]
            assert [line.pipe.reading for line in drawn.lines] == typed
            off = [abs((record.flow or 0) * drawn.site.unit - int(flow) * unit) for record, flow in zip(drawn.sheet.records, kept["flows"][row])]
            assert max(off) == 0 if str(kept["sheet"]) == "engine" or not (kept["status"][row] == HELD).any() else max(off) <= unit


def test_a_book_of_hours_is_a_file_or_on_a_server(run, year, new_book):
    name = new_book()
    Book(name, make=True).close()
    words = ("--to", "2025-01-01T05:00", "--book", name, "--office", "7")
    assert "5 sheets kept: office 7" in run("history", year.list, year.spring, *words).out
    assert "0 sheets kept, 5 were there before: office 7" in run("history", year.list, year.spring, *words).out
    assert run("book", "check", name).status == 0


def test_what_is_kept_of_means_says_so_and_a_faulty_run_makes_no_book(run, year, tmp_path):
    book = tmp_path / "sheets.book"
    assert run("history", year.list, year.spring, "--zone", "Nowhere", "--book", book).status == 1 and not book.exists()
    assert "that is what is read" in run("history", year.list, year.spring, "--book", tmp_path / "rows.csv", "-o", tmp_path / "rows.csv").err
    assert "12 sheets kept" in run("history", year.list, year.spring, "--every", "2h", "--to", "2025-01-02", "--book", book).out
    with Book(book) as opened:
        assert {one.note for one in opened.sheets()} == {"the readings are means over 2h"}


def wild(made, rows, step=3600, seed=1):
    """A run in which everything happens often."""
    rng = np.random.default_rng(seed)
    readings = sim.read_by(made, np.tile(made.flow, (rows, 1)), rng, memory=0, more=3)
    status = sim.all_measured(made, rows)
    status[rng.random(status.shape) < 0.02] = FAULT
    status[:, made.deviations == 0] = FAULT
    from pathlib import Path

    from wengeludo.history import run as runs

    return runs.balanced(made.tagged, sim.exported(made, readings, status, step=step), Path("x"), None, runs.Wanted())


@pytest.mark.parametrize("made, rows, step", [(sim.site, 15_000, 3600), (lambda: sim.drawn_site(2, 32, 96, 90), 1_500, 36_000)])
def test_a_page_stays_small_whatever_the_rows(made, rows, step):
    found = analysed(wild(made(), rows, step))
    text = page(found, [])
    assert len(text.encode()) < MOST and len(found.events) > 300


def test_names_that_are_markup_stay_names():
    made = sim.site()
    pipes = tuple(replace(p, label=f"<b>{p.label}", what='"><script>alert(1)</script>&amp;') for p in made.tagged.list.pipes)
    places = tuple(f"<i>{place}" for place in made.tagged.list.places)
    made.tagged = replace(made.tagged, list=replace(made.tagged.list, name="</title><script>", pipes=pipes, places=places))
    truth = sim.bad_year()
    text = page(analysed(sim.run_of(made, truth.readings, truth.status)), [])
    assert "<b>" not in text and "<i>" not in text and text.count("<script") == 2 and "alert(1)</script>" not in text


def test_the_page_fetches_nothing(year):
    found = analysed(sim.run_of(year.truth.site, year.truth.readings, year.truth.status))
    text = page(found, [])
    assert not re.search(r'(?:src|href)\s*=\s*"(?!#|data:image/png)|@import|https?://(?!www\.w3\.org/2000/svg)', text)
    assert text.count("<tr>") == 17 + 2 and text.count('class="weeks"') == 3
    drawings = [ElementTree.fromstring(one.replace("&nbsp;", " ")) for one in re.findall(r"<svg.*?</svg>", text, re.S)]
    assert len(drawings) == text.count("<svg") == 3 and not [part.tail for one in drawings for part in one.iter() if (part.tail or "").strip()]


PROBE = """<script>
addEventListener("load", () => {
  const told = {fields: document.querySelectorAll(".week").length, errors: window.errors, wide: document.documentElement.scrollWidth - innerWidth, hidden: document.getElementById("week").hidden};
  document.querySelector('.week[data-week="20"]').dispatchEvent(new Event("click"));
  told.after = document.getElementById("week").hidden; told.what = document.getElementById("week-what").textContent;
  told.rows = document.querySelectorAll("#week-rows tr").length; told.nine = document.querySelectorAll("#week-rows tr")[8].innerText;
  const out = document.createElement("script"); out.type = "application/json"; out.id = "probe"; out.textContent = JSON.stringify(told); document.body.append(out);
});
</script>"""
CATCH = '<script>window.errors = []; addEventListener("error", (event) => window.errors.push(event.message));</script>'


@pytest.mark.skipif(not CHROMIUM, reason="no chromium")
@pytest.mark.parametrize("width", [1400, 390])
def test_a_click_on_a_week_shows_its_sheet(year, tmp_path, width):
    found = analysed(sim.run_of(year.truth.site, year.truth.readings, year.truth.status))
    text = page(found, []).replace("<body", CATCH + "<body", 1).replace("</body>", PROBE + "</body>")
    (tmp_path / "probe.html").write_text(text, encoding="utf-8")
    words = [CHROMIUM, "--headless", "--no-sandbox", "--disable-gpu", f"--user-data-dir={tmp_path / 'profile'}", f"--window-size={width},1000", "--dump-dom"]
    done = subprocess.run([*words, (tmp_path / "probe.html").as_uri()], capture_output=True, text=True, timeout=300)
    told = json.loads(html.unescape(re.search(r'id="probe">(.*?)</script>', done.stdout, re.DOTALL)[1]))
    assert told["errors"] == [] and told["hidden"] and not told["after"] and told["rows"] == 26 and told["fields"] == 3 * sum(week.cost is not None for week in found.weeks)
    assert "fails" in told["what"] and "9 steam from boiler 2 reads" in told["what"] and told["nine"].startswith("9 steam from boiler 2")
    assert told["wide"] <= 0 or width == 390  # headless chromium has a least width of its own


def test_the_decimal_mark_may_be_said(run, listed, tmp_path):
    (tmp_path / "export.csv").write_text("time;T;K\n" + "".join(f"2025-01-01 {hour:02d}:00;123,450;123,460\n" for hour in range(4)))
    path = listed("stream,from,to,tag,accuracy\n1,outside,a,T,5\n2,a,outside,K,5\n")
    assert "thousands or decimals" in run("history", path, tmp_path / "export.csv").err
    ended = run("history", path, tmp_path / "export.csv", "--decimal", "comma", "-o", tmp_path / "flows.csv")
    assert ended.status == 0 and 123 < float(table(tmp_path / "flows.csv")[0]["1"]) < 124


def test_an_idle_pipe_has_a_floor(run, listed, tmp_path):
    (tmp_path / "export.csv").write_text("time,T,K\n" + "".join(f"2025-01-01 {hour:02d}:00,0,0\n" for hour in range(4)))
    path = listed("stream,from,to,tag,accuracy\n1,outside,a,T,2%\n2,a,outside,K,2%\n")
    assert "a share of a reading of 0" in run("history", path, tmp_path / "export.csv").err
    assert run("history", path, tmp_path / "export.csv", "--floor", "5").status == 0


def test_the_legend_of_a_drift_has_a_long_name_on_two_lines():
    drawn = charts._drift_legend("17 condensate of the heating station in the north", 100.0, True)
    assert re.findall(r'y="([\d.]+)"[^>]*>([^<]+)<', drawn)[:4] == [("112.0", "17"), ("127.0", "condensate of the heating"), ("141.0", "station in the north"), ("164.0", "reading − balanced, kg/h")]
