# SPDX-License-Identifier: LicenseRef-Wengeludo
"""Input of any shape: workbooks, places, options. Each ends in a sheet or in faults that name the file, never in a traceback, a hang or in silence.

WENGELUDO_EXAMPLES (default 100)  a third of it for each kind
"""

import csv
import io
import os
import time

import openpyxl
import pytest
from conftest import SAMPLES
from hypothesis import HealthCheck, given, settings
from hypothesis import strategies as st
from test_any_list import ends_well

from wengeludo.read.lists import Asked

EXAMPLES = int(os.environ.get("WENGELUDO_EXAMPLES") or 100)
QUIET = settings(deadline=None, max_examples=max(5, EXAMPLES // 3), suppress_health_check=list(HealthCheck), derandomize=True)
FEW = QUIET
HEADINGS = ("stream", "what", "from", "to", "reading", "reading (t/h)", "Messwert in kg/s", "von", "nach", "accuracy", "accuracy [%]", "unit", "Einheit", "floor", "low", "high",
            "rate", "price", "balanced", "correction", "how known", "σ", "", "note", "from", "reading [bar]", "=1")
NAMES = st.sampled_from(("outside", "außen", "boiler", "header", "<<1>>", "\\N", "a\x01", "{{x}}", "", "unit 1", "'=1", "📦", "\u202e"))
NUMBERS = st.one_of(st.sampled_from((None, "", "Bad", "8.479", "8,479", "8.4 t/h", "2%", "±5", "w10", "1e400", "nan", "−5", "0", "12 bar", "#N/A", "t/h", "kg/s")), st.floats(), st.integers(-10**18, 10**18),
                    st.booleans(), st.dates(), st.text(max_size=8))
FORMATS = st.sampled_from(("General", "0%", '0"%"', '0.0" t/h"', '#,##0,"t/h"', '"', "[Red]0;;", "yyyy-mm-dd", "@", '0\\', "0_", "[h]:mm"))


@st.composite
def workbooks(draw):
    """Workbooks with cells, formats and worksheets of any kind."""
    book = openpyxl.Workbook()
    for k in range(draw(st.integers(1, 3))):
        sheet = book.active if k == 0 else book.create_sheet()
        sheet.sheet_state = draw(st.sampled_from(("visible", "visible", "hidden")))
        heads = draw(st.lists(st.sampled_from(HEADINGS), min_size=1, max_size=9)) + ["from", "to"] * draw(st.booleans())
        sheet.append(draw(st.sampled_from((heads, ["unit", "x", "y"]))))
        for _ in range(draw(st.integers(0, 5))):
            row = sheet.max_row + draw(st.sampled_from((1, 1, 3)))
            for column in range(1, len(heads) + 1):
                value = draw(st.one_of(NAMES, NUMBERS))
                try:
                    cell = sheet.cell(row, column, value)
                except (ValueError, openpyxl.utils.exceptions.IllegalCharacterError):
                    continue
                cell.number_format = draw(FORMATS)
    data = io.BytesIO()
    try:
        if all(sheet.sheet_state == "hidden" for sheet in book.worksheets):
            book.worksheets[0].sheet_state = "visible"
        book.active = next(k for k, sheet in enumerate(book.worksheets) if sheet.sheet_state == "visible")
        book.save(data)
    except (ValueError, OverflowError, TypeError):
        return b""
    return data.getvalue()


@QUIET
@given(workbooks())
def test_workbooks(tmp_path, data):
    path = tmp_path / "list.xlsx"
    path.write_bytes(data)
    ends_well(path)


@QUIET
@given(st.lists(st.tuples(st.sampled_from(("boiler", "header", "tank")), st.floats(), st.floats()), max_size=4), st.sampled_from((",", ";")))
def test_places(tmp_path, spots, separator):
    """Drawings with places of any size."""
    (tmp_path / "list.csv").write_text("from,to,reading,accuracy\noutside,boiler,100,2%\nboiler,header,99,2%\nheader,tank,,\ntank,outside,98,2%\n")
    with open(tmp_path / "list.places.csv", "w", newline="") as file:
        csv.writer(file, delimiter=separator).writerows([("unit", "x", "y"), *spots])
    began = time.monotonic()
    ends_well(tmp_path / "list.csv")
    assert time.monotonic() - began < 10


@QUIET
@given(data=st.data())
def test_lists_read_as_a_user_says(tmp_path, data):
    heads = data.draw(st.permutations(["from", "to", *data.draw(st.lists(st.sampled_from(HEADINGS), max_size=6, unique=True))]))
    rows = [[data.draw(st.one_of(NAMES, NUMBERS.map(lambda value: "" if value is None else str(value)))) for _ in heads] for _ in range(data.draw(st.integers(0, 6)))]
    path = tmp_path / "list.csv"
    text = io.StringIO(newline="")
    csv.writer(text, delimiter=data.draw(st.sampled_from(",;\t"))).writerows([["any title, here"]] * data.draw(st.integers(0, 2)) + [heads, *rows])
    path.write_bytes(text.getvalue().encode("utf-8", "replace"))
    ends_well(path, Asked(data.draw(st.sampled_from((None, ".", ","))), data.draw(st.sampled_from((None, 0.5, 1e9))), data.draw(st.sampled_from((None, "en", "de")))))


WORDS = st.one_of(
    st.sampled_from(("--unit", "--office", "--last", "-o", "--decimal", "--floor", "--lang", "--failing", "--units", "--transmitter", "--jobs", "--book", "--", "-", "", "0", "1", "-1", "1e9", "x",
                     "comma", "de", "0.5", "8 t/h", "LIST", "LIST", "LIST", "out.csv", "out.html", "out.svg", "out.bin", "out.json", "folder", "none.csv", "3", "18", "\udcff", "a\0b", "99999999999999999999")),
    st.text(max_size=5),
)


@FEW
@given(st.sampled_from(("sheet", "why", "suspects", "buy", "layouts", "bill", "keep", "open", "check", "pack", "unpack", "batch", "book")), st.lists(WORDS, max_size=5),
       st.sampled_from(("steam_site.csv", "rated_site.csv", "overfull_site.csv", "steam_site.xlsx", "faulty/steam_site.csv")))
def test_options(tmp_path_factory, command, words, sample):
    """Any words after a command: a status from 0 to 3, a line if it is not 0 or 3, and the lists are as they were."""
    from wengeludo.cli import main

    folder = tmp_path_factory.mktemp("any")
    (folder / "folder").mkdir()
    path = folder / os.path.basename(sample)
    path.write_bytes((SAMPLES / sample).read_bytes())
    before, here = path.read_bytes(), os.getcwd()
    os.chdir(folder)
    out, err = io.StringIO(), io.StringIO()
    try:
        from contextlib import redirect_stderr, redirect_stdout

        with redirect_stdout(out), redirect_stderr(err):
            status = main([command, *(str(path) if word == "LIST" else word for word in words)])
    except SystemExit as ended:
        status = ended.code
    finally:
        os.chdir(here)
    assert status in (0, 1, 2, 3) and path.read_bytes() == before
    assert "Traceback" not in err.getvalue() and "fault of this program" not in err.getvalue()
    assert status in (0, 3) or err.getvalue().strip() or out.getvalue().strip(), (command, words)


@pytest.mark.parametrize("low, high", [("5", ""), ("", "5"), ("150", ""), ("", "-3"), ("10.3", "10.4")])
@pytest.mark.parametrize("unit", ["0.1", "1", "7", "1000"])
def test_ranges_with_one_end_and_a_unit(low, high, unit, run, listed):
    ended = run("sheet", listed(f"from,to,reading,accuracy,low,high\noutside,a,100,5,{low},{high}\na,outside,100,5,,\n"), "--unit", unit)
    assert ended.status in (0, 1, 3) and "TypeError" not in ended.err and (ended.status != 1 or ended.err or "no sheet" in ended.out)


@pytest.mark.parametrize("name", [b"\xff\xfe", "a\x1b[31mb".encode(), "名前".encode(), b"<b>", b"'; --"])
@pytest.mark.parametrize("suffix", [b".csv", b".bin"])
def test_names_of_files(name, suffix, run, tmp_path):
    """A file may be called anything: every output is written, and none has a control character."""
    path = os.fsdecode(os.path.join(os.fsencode(tmp_path), name + suffix))
    sample = SAMPLES / "listing.csv" if suffix == b".csv" else SAMPLES.parents[1] / "samples" / "listing.bin"
    with open(path, "wb") as file:
        file.write(sample.read_bytes())
    outputs = [tmp_path / f"out.{kind}" for kind in ("html", "svg", "xlsx", "csv", "json")]
    ended = run("sheet", path, *(word for output in outputs for word in ("-o", output)))
    assert ended.status == 0 and all(output.stat().st_size for output in outputs) and "\x1b" not in ended.out


def test_files_without_an_end(run, listed):
    for command in (("sheet", "/dev/zero"), ("check", "/dev/zero", "/dev/zero", "/dev/zero"), ("unpack", "/dev/zero", "x.csv")):
        ended = run(*command)
        assert ended.status == 1 and "/dev/zero: the file has more than 5,000,000 bytes" in ended.err


def test_hints_of_the_command_line(run, listed):
    ended = run("sheet", listed("from,to,reading,accuracy\noutside,a,0,2%\n"))
    assert ended.status == 1 and ended.err.endswith("\n--floor sets a floor for the whole list\n")
    ended = run("sheet", listed("from,to,reading,accuracy,low,high\noutside,a,10,5,10.3,10.4\na,outside,10,5,,\n"), "--unit", "1")
    assert ended.status == 1 and ended.err.endswith("\n--unit sets the unit\n")
