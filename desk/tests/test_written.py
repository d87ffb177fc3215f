# SPDX-License-Identifier: LicenseRef-Wengeludo
"""What is written: columns said once, files that are read again, languages, all files or none, the bill and its marks."""

import csv
import io
import json
import re
import subprocess
from fractions import Fraction

import openpyxl
import pytest
from conftest import SAMPLES
from hypothesis import given
from hypothesis import strategies as st

import wengeludo_balance as engine
from wengeludo.balance.sheet import balance
from wengeludo.balance.site import read_site
from wengeludo.explain.charges import apportioned
from wengeludo.read.lists import read_list
from wengeludo.write import outputs, view
from wengeludo.write.language import spoken
from wengeludo.write.page import page

NAMED = (
    "stream,what,from,to,reading,accuracy,balanced,class,σ,reading (old),columns\n1,feed,outside,a,100,2%,7777,Z,9,8,x\n2,steam,a,outside,98,2%,6666,Y,8,7,y\n"
)


def rows_of(text, **form):
    """The rows of a CSV file from its heading on."""
    rows = list(csv.reader(io.StringIO(text.decode("utf-8-sig"), newline=""), **form))
    return rows[next(k for k, row in enumerate(rows) if row[0] in ("stream", "Strom")) :]


def test_columns_of_the_user_never_stand_for_the_engines(run, listed, tmp_path):
    """Columns called balanced, class or σ: in JSON, CSV, XLSX and page the engine's are the engine's, and theirs are told apart."""
    paths = [tmp_path / f"s.{suffix}" for suffix in ("json", "csv", "xlsx", "html")]
    assert run("sheet", listed(NAMED), *(word for path in paths for word in ("-o", path))).status == 0
    told = json.loads(paths[0].read_text())["streams"][0]
    assert told["balanced"] == 99.0 and told["class"] == "A" and told["columns"] == {"balanced": "7777", "class": "Z", "σ": "9", "reading (old)": "8", "columns": "x"}
    heads, first, _ = rows_of(paths[1].read_bytes())
    assert len(set(heads)) == len(heads) and first[heads.index("balanced")] == "99.0" and first[heads.index("balanced (of the list)")] == "7777"
    assert first[heads.index("σ (of the list)")] == "9" and first[heads.index("class")] == "Z"
    cells = [row for row in openpyxl.load_workbook(paths[2]).active.values if row[0] in ("stream", "1")]
    assert cells[1][cells[0].index("balanced")] == 99 and cells[1][cells[0].index("balanced (of the list)")] == "7777"
    heads = re.findall(r"<th.*?><button.*?>(.*?)(?:<sup>.*?)?</button>", paths[3].read_text(encoding="utf-8"))
    assert len(set(heads)) == len(heads) == 11 + 5 and "balanced (of the list)" in heads


@pytest.mark.parametrize("name", ["steam_site.csv", "steam_site_off.csv", "two_percent.csv", "rated_site.csv", "overfull_site.csv", "blind_site.csv", "listing.csv", "steam_site_comma.csv"])
@pytest.mark.parametrize("suffix", [".xlsx", ".csv"])
def test_what_is_written_is_read_again(name, suffix, run, tmp_path):
    """A sheet written as XLSX or CSV, fed back, is the same list, and gives the same sheet."""
    path = tmp_path / f"sheet{suffix}"
    first = run("sheet", SAMPLES / name, "-o", path)
    one, other = (read_list(source) for source in (SAMPLES / name, path))
    keys = ("label", "what", "source", "target", "reading", "accuracy", "low", "high", "price", "rate")
    assert [[getattr(pipe, key) for key in keys] for pipe in one.pipes] == [[getattr(pipe, key) for key in keys] for pipe in other.pipes]
    assert one.places == other.places and other.extras == ()
    again = run("sheet", path)
    assert again.status == first.status and again.out.splitlines()[1] == first.out.splitlines()[1]


def test_units_and_floors_are_read_again(run, listed, tmp_path):
    text = "stream,from,to,reading,unit,accuracy,floor,area\n1,outside,a,0,t/h,2%,0.005,=west\n2,a,outside,8.5,t/h,±0.1,,-\n3,outside,a,8.4,t/h,2%,,'x\n"
    for suffix in (".xlsx", ".csv"):
        assert run("sheet", listed(text), "-o", tmp_path / f"s{suffix}").status in (0, 3)
        other = read_list(tmp_path / f"s{suffix}")
        assert [(pipe.reading, pipe.accuracy.deviation) for pipe in other.pipes] == [(0, 5), (8500, 100), (8400, 168)]
        assert [pipe.extra for pipe in other.pipes] == [("=west",), ("-",), ("'x",)]


def test_a_workbook_shows_the_decimals_of_the_unit(run, listed, tmp_path):
    run("sheet", SAMPLES / "two_percent.csv", "-o", tmp_path / "s.xlsx")
    sheet = openpyxl.load_workbook(tmp_path / "s.xlsx").active
    head = next(row for row in sheet.iter_rows() if row[0].value == "stream")
    site = read_site(SAMPLES / "two_percent.csv")
    decimals = balance(site).site.decimals
    for name, places in (("reading", decimals), ("balanced", decimals), ("σ", 1), ("test", 1), ("±", decimals)):
        column = next(cell.column for cell in head if cell.value == name)
        cells = [sheet.cell(row, column) for row in range(head[0].row + 1, sheet.max_row + 1)]
        assert {cell.number_format for cell in cells if isinstance(cell.value, (int, float)) and cell.value % 1} <= {"#,##0" + ("." + "0" * places if places else "")}


GERMAN = (
    "Strom;Bezeichnung;von;nach;Messwert;Genauigkeit;Tarif\n1;Speisewasser 1.5 bar;außen;Kessel;12.345,5;2%;\n2;Dampf;Kessel;außen;12.000,0;2%;2500\n3;Abschlämmung;Kessel;außen;;;2500\n"
)


def test_german_out(run, listed, tmp_path):
    """A German list comes back in German: headings, numbers in the terminal, page and drawing, and a CSV that her spreadsheet opens."""
    paths = [tmp_path / f"s.{suffix}" for suffix in ("csv", "xlsx", "html", "svg", "json")]
    ended = run("sheet", listed(GERMAN), *(word for path in paths for word in ("-o", path)))
    assert ended.status == 0 and "Messwert" in ended.out and "ausgeglichen" in ended.out and "12\u202f345,5" in ended.out and "12,345.5" not in ended.out
    assert "Speisewasser 1.5 bar" in ended.out, "a name stays as it is"
    heads, first, *_ = rows_of(paths[0].read_bytes(), delimiter=";")
    assert heads[:6] == ["Strom", "Bezeichnung", "von", "nach", "Messwert", "ausgeglichen"] and first[4:6] == ["12345,5", "12345,5"] and first[2] == "außen"
    for path in paths[2:4]:
        text = path.read_text(encoding="utf-8")
        assert "12\u202f345,5" in text and "12,345.5" not in text and "Speisewasser 1.5" in text
    assert 'style="width:' not in paths[2].read_text() or re.search(r'style="width:\d+\.\d+%"', paths[2].read_text())
    assert json.loads(paths[4].read_text())["streams"][0]["reading"] == 12345.5
    for path in paths[:2]:
        again = read_list(path)
        assert again.form.lang == "de" and [pipe.reading for pipe in again.pipes] == [12345.5, 12000, None] and len(again.places) == 2


def test_lang_says_how_it_is_written(run, listed, tmp_path):
    ended = run("sheet", listed(GERMAN), "--lang", "en", "-o", tmp_path / "s.csv")
    assert "reading" in ended.out and "12,345.5" in ended.out and "outside" in ended.out
    assert rows_of((tmp_path / "s.csv").read_bytes())[1][:5] == ["1", "Speisewasser 1.5 bar", "outside", "Kessel", "12345.5"]
    ended = run("sheet", SAMPLES / "steam_site.csv", "--lang", "de", "-o", tmp_path / "d.csv")
    assert "Messwert" in ended.out and "20\u202f404" in ended.out and "20,404" not in ended.out and "cost 2,0" in ended.out
    assert rows_of((tmp_path / "d.csv").read_bytes(), delimiter=";")[0][:6] == ["Strom", "Bezeichnung", "von", "nach", "Messwert", "ausgeglichen"]
    assert run("sheet", SAMPLES / "steam_site.csv", "--lang", "fr").status == 2


@pytest.mark.parametrize("text, wanted", [
    ("= 7,931 ± 24.5 kg/h", "= 7\u202f931 ± 24,5 kg/h"), ("kept 2026-11-17 19:30", "kept 2026-11-17 19:30"), ("+0.3σ, −1,234.5", "+0,3σ, −1\u202f234,5"),
    ("18, 19, 20", "18, 19, 20"), ("cost 0.184, limit 11.1.", "cost 0,184, limit 11,1."), ("a 1.5 b", "a 1.5 b"), ("1,234,567", "1\u202f234\u202f567"), ("list.csv", "list.csv"),
])
def test_spoken(text, wanted):
    assert spoken(text, "de", ["1.5 b"]) == wanted and spoken(text, "en") == text


def test_options_of_reading(run, listed):
    ended = run("sheet", listed("from,to,reading,accuracy\noutside,a,8.479,2%\na,outside,8.479,2%\n"), "--decimal", "comma")
    assert ended.status == 0 and "8,479" in ended.out
    idle = listed("from,to,reading,accuracy\noutside,a,0,2%\na,outside,100,2%\noutside,a,100,2%\n")
    assert run("sheet", idle).status == 1
    ended = run("sheet", idle, "--floor", "5")
    assert ended.status == 0 and "a floor stands for an accuracy that would be smaller: 1 (±5), 2 (±5), 3 (±5)" in ended.out
    assert run("why", idle, "1", "--floor", "0.005 t/h").status == 0
    for wrong in ("0", "-1", "x", "1 bar"):
        assert run("sheet", idle, "--floor", wrong).status == 2


def test_formula_like_names_in_csv(run, listed, tmp_path):
    text = 'stream,what,from,to,reading,accuracy,note\n"=1+1","@cmd",outside,"+a",100,2%,"=HYPERLINK(""x"")"\n2,-x,"+a",outside,100,2%,-5\n'
    run("sheet", listed(text), "-o", tmp_path / "s.csv")
    cells = [cell for row in rows_of((tmp_path / "s.csv").read_bytes()) for cell in row if cell]
    assert not any(cell.startswith(("=", "+", "-", "@")) and not re.fullmatch(r"-?[\d.]+", cell) for cell in cells) and "'=1+1" in cells and "'-5" in cells
    again = read_list(tmp_path / "s.csv")
    assert [(pipe.label, pipe.what, pipe.extra) for pipe in again.pipes] == [("=1+1", "@cmd", ('=HYPERLINK("x")',)), ("2", "-x", ("-5",))]


def test_all_files_or_none(run, tmp_path):
    """One file that cannot be written: none is, and what was there stays."""
    (tmp_path / "s.csv").write_text("old")
    (tmp_path / "folder.json").mkdir()
    for bad in (tmp_path / "none" / "s.html", tmp_path / "folder.json"):
        ended = run("sheet", SAMPLES / "listing.csv", "-o", tmp_path / "s.csv", "-o", tmp_path / "new.xlsx", "-o", bad)
        assert ended.status == 1 and str(bad) in ended.err
        assert (tmp_path / "s.csv").read_text() == "old" and sorted(path.name for path in tmp_path.iterdir()) == ["folder.json", "s.csv"]
    assert run("sheet", SAMPLES / "listing.csv", "-o", tmp_path / "s.csv", "-o", tmp_path / "new.xlsx").status == 0
    assert sorted(path.name for path in tmp_path.iterdir()) == ["folder.json", "new.xlsx", "s.csv"] and (tmp_path / "s.csv").read_text() != "old"


def test_a_drawing_that_cannot_be_made_leaves_nothing(run, tmp_path, monkeypatch):
    monkeypatch.setenv("PATH", "/nowhere")
    ended = run("sheet", SAMPLES / "listing.csv", "-o", tmp_path / "s.csv", "-o", tmp_path / "s.svg")
    assert ended.status == 1 and "graphviz is not installed" in ended.err and not list(tmp_path.iterdir())


@pytest.mark.parametrize("name", ["steam_site", "rated_site", "listing"])
def test_what_check_needs(name, run, tmp_path):
    paths = [tmp_path / f"s{suffix}" for suffix in (".bin", ".sheet", ".numbers")]
    assert run("sheet", SAMPLES / f"{name}.csv", *(word for path in paths for word in ("-o", path))).status == 0
    ended = run("check", *paths)
    assert ended.status == 0 and ended.out.startswith("passes")
    paths[2].write_text("0\n" * len(paths[2].read_text().split()))
    assert run("check", *paths).status == 1
    ended = run("sheet", SAMPLES / "overfull_site.csv", "-o", tmp_path / "x.sheet")
    assert ended.status == 1 and "no sheet of the engine's own" in ended.err and not (tmp_path / "x.sheet").exists()


def test_a_print_says_what_it_is(run, tmp_path):
    """Not kept: no number of an office. Numbered or kept: its number."""
    ended = run("sheet", SAMPLES / "listing.csv", "-o", tmp_path / "s.html")
    assert ended.out.splitlines()[1].startswith("not kept, cost ") and "office 0" not in (tmp_path / "s.html").read_text()
    assert run("sheet", SAMPLES / "listing.csv", "--office", 2, "--last", 6).out.splitlines()[1].startswith("sheet 7 of office 2, cost ")
    run("keep", SAMPLES / "listing.csv", tmp_path / "book")
    assert "sheet 1 of office 0, cost " in run("open", tmp_path / "book", 1).out


def test_a_failing_sheet_is_billed_only_if_asked(run, listed):
    rows = (SAMPLES / "steam_site_off.csv").read_text()
    good = run("bill", SAMPLES / "steam_site.csv")
    assert good.status == 0 and "FAILING" not in good.out
    path = listed(rows)
    ended = run("bill", path)
    assert ended.status == 3 and ended.out == "" and "the sheet fails its test" in ended.err and "--failing" in ended.err and str(path) in ended.err
    ended = run("bill", path, "--failing")
    assert ended.status == 3 and "bill" in ended.out and "BILLED FROM A FAILING SHEET" in ended.out


def test_high_rates(run, listed):
    """35 €/t and 1,000 €/t, which the engine's call does not take: by its rule, and said to be the tool's."""
    text = "from,to,reading,accuracy,rate\noutside,a,1000,w10,\na,outside,333,w10,35000\na,outside,,,1000000\n"
    ended = run("bill", listed(text))
    assert ended.status == 0 and "Charges worked out by the tool, in exact fractions, by the engine's rule: the engine charges rates up to 10,000, and 2, 3 have more." in ended.out
    assert re.search(r"1 .*35,000 +1,165", ended.out.replace("2 ", "1 ", 1)) or "1,165" in ended.out
    assert "66,700" in ended.out and "67,865" in ended.out
    assert "tool" not in run("bill", SAMPLES / "steam_site.csv").out
    assert run("bill", listed(text.replace("1000000", "1000001"))).status == 1


@given(st.lists(st.tuples(st.integers(0, 4000), st.integers(0, 10_000)), min_size=1, max_size=8))
def test_charges_are_those_of_the_engine(streams):
    """The tool's apportioning beside the engine's own call, wherever the call takes the rates."""
    flows = [flow for flow, _ in streams]
    plant = engine.Plant(1, (engine.Stream(0, 1, 10, sum(flows)), *(engine.Stream(1, 0, 10, flow) for flow in flows)))
    charged = engine.charges(plant.file(), [rate for _, rate in streams])
    cents, total = apportioned([Fraction(flow * rate, 10_000) for flow, rate in streams])
    assert ([cents for _, cents in charged.charges], charged.cents) == (cents, total)


def test_ranges_of_pipes_without_a_meter(run, listed, tmp_path):
    text = "stream,what,from,to,reading,accuracy,low,high\n1,feed,outside,a,100,w10,,\n2,steam,a,outside,90,w10,,\n3,vent,a,outside,,,{},{}\n"
    kept = run("sheet", listed(text.format(0, 20))).out
    assert "its flows keep within those of 3 vent" in " ".join(kept.split()) and "range or a meter is off" not in kept
    for low, high, words in (("20", "", "at least 20"), ("", "5", "at most 5"), ("11", "12", "11 to 12"), ("-5", "9", "−5 to 9")):
        out = " ".join(run("sheet", listed(text.format(low, high)), "-o", tmp_path / "s.json").out.split())
        assert f"A range or a meter is off: a pipe without a meter is deduced outside its range: 3 vent would carry 10, its range is {words}." in out
    assert any("outside its range" in step for step in json.loads((tmp_path / "s.json").read_text())["next"])
    blank = run("sheet", listed(text.format(0, 20) + "4,bypass,a,outside,,,,9\n")).out
    assert "the flow is not known: 3 vent, 4 bypass" in " ".join(blank.split())


def test_notes_are_never_dropped(run, listed):
    """However many things are to be done, what was read otherwise than it stands there is told."""
    rows = [f"{k},s{k},u{k},outside,,,0,1" for k in range(3, 13)] + [f"b{k},x,outside,u{k},,," for k in range(3, 13)]
    text = "stream,what,from,to,reading,accuracy,low,high\n1,feed,outside,a,100,2%,,\n2,steam,a,outside,900,2%,,\n13,x,a,outside,Bad,2%,,\n" + "\n".join(rows)
    out = " ".join(run("sheet", listed(text)).out.split())
    assert "no reading, so they count as streams without a meter: 13 (“Bad”)" in out
    lone = "stream,from,to,reading,accuracy\n1,outside,a,100,2%\n2,a,outside,Bad,2%\n" + "".join(f"x{k},outside,w{k},5,1\n" for k in range(9))
    out = " ".join(run("sheet", listed(lone)).out.split())
    assert "“Bad”" in out and all(f"w{k} has a single stream" in out for k in range(9))


def test_texts_name_no_surface(listed):
    """What a page shows names no command and no option; the terminal adds its own."""
    for path in sorted(SAMPLES.glob("*.csv")):
        text = page(balance(read_site(path)))
        assert "`wengeludo" not in text and "--unit" not in re.sub(r"<style>.*?</style>", "", text, flags=re.DOTALL)


@pytest.mark.parametrize("width", [80, 100])
def test_a_narrow_terminal(width, run, monkeypatch):
    """80 columns: no line is longer, names are whole words, every flow is there."""
    monkeypatch.setenv("COLUMNS", str(width))
    from wengeludo.cli import main

    buffer = io.StringIO()
    monkeypatch.setattr("sys.stdout", buffer)
    main(["suspects", str(SAMPLES / "steam_site_off.csv")])
    listed = buffer.getvalue()
    assert max(map(len, listed.splitlines())) <= width and "…" not in listed and "would have to run backwards, at −332" in " ".join(listed.split())
    buffer.truncate(0)
    buffer.seek(0)
    main(["sheet", str(SAMPLES / "steam_site.csv")])
    lines = buffer.getvalue().splitlines()
    assert max(map(len, lines)) <= width
    text = " ".join(buffer.getvalue().split())
    drawn = balance(read_site(SAMPLES / "steam_site.csv"))
    for line in drawn.lines:
        assert ("?" if line.flow is None else drawn.site.shown(line.flow)) in text
        for word in f"{line.pipe.what} {drawn.site.place(line.pipe.source)}".split():
            assert word in text


def test_spreadsheets_open_it(run, tmp_path):
    import shutil

    if not shutil.which("soffice"):
        pytest.skip("no libreoffice")
    run("sheet", SAMPLES / "steam_site.csv", "-o", tmp_path / "s.xlsx")
    subprocess.run(["soffice", "--headless", "--convert-to", "csv", "--outdir", tmp_path, tmp_path / "s.xlsx"], check=True, capture_output=True, timeout=120)
    assert "make-up water" in (tmp_path / "s.csv").read_text(encoding="utf-8", errors="replace")


def test_view_is_said_once():
    drawn = balance(read_site(SAMPLES / "steam_site.csv"))
    heads, rows = view.filed(drawn)
    assert heads[: len(view.HEADS)] == view.HEADS and {len(row) for row in rows} == {len(heads)} and "accuracy" in heads
    assert len(outputs.FORMS) == 8


@pytest.mark.parametrize("unit, more", [("10", ["a.bin.unit"]), ("1", [])])
def test_the_unit_of_a_plant_file_stands_beside_it(unit, more, run, listed, tmp_path):
    """If it is not 1 kg/h: the file itself has no room for it. Beside no other file."""
    path = listed("from,to,reading,accuracy\noutside,a,10000,50\na,outside,10010,50\n", "b.csv")
    assert run("sheet", path, "--unit", unit, "-o", tmp_path / "a.bin", "-o", tmp_path / "a.csv").status == 0
    assert sorted(path.name for path in tmp_path.iterdir()) == ["a.bin", *more, "a.csv", "b.csv"]
    assert [(tmp_path / name).read_text() for name in more] == ["10 kg/h is the unit of the flows in this plant file\n"] * len(more)
