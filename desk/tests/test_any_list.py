# SPDX-License-Identifier: LicenseRef-Wengeludo
"""Lists of any shape: each ends in a sheet or in faults with row and column, never in a traceback.

WENGELUDO_EXAMPLES (default 100)  how many lists of each kind
"""

import csv
import io
import os
import re
from xml.etree import ElementTree

import pytest
from hypothesis import HealthCheck, given, settings
from hypothesis import strategies as st

import wengeludo_balance as engine
from wengeludo.write import view
from wengeludo.read.faults import Faulty, Stopped
from wengeludo.read.lists import COLUMNS, Asked, read_list
from wengeludo.write.layout import layout_of
from wengeludo.write.paint import paint
from wengeludo.balance.checked import Checked
from wengeludo.balance.kind import SheetKind
from wengeludo.balance.sheet import balance
from wengeludo.balance.site import site_of
from wengeludo.explain.why import overfull, why

PLACES = ("outside", "boiler", "Boiler", "header", "dryers", "tank", "unit 1", "", "<b>&\"'", "[/red]", "=1+1")
CELLS = {
    "stream": ("1", "2", "3", "FI-7", "", "é"), "what": ("", "steam", "<i>", "[bold]", "\\"), "from": PLACES, "to": PLACES,
    "reading": ("", "100", "98.5", "98,5", "-12", "1e3", "x", "4000001", "1 234", "0"),
    "accuracy": ("", "2%", "±5", "5", "w10", "w0", "0", "-1", "1e-9", "1e9"), "low": ("", "0", "50", "-99999999999"), "high": ("", "150", "90"),
    "price": ("", "1", "900", "1000001"), "rate": ("", "0", "2500", "-1"), "note": ("", "a", "=2"),
}
USUAL = {
    "from": ("outside", "boiler", "header", "dryers"), "to": ("outside", "boiler", "header", "dryers"), "reading": ("", "100", "98.5", "90"),
    "accuracy": ("2%", "±5", "w10"), "low": ("", "0"), "high": ("", "150", "95"),
}


@st.composite
def lists(draw):
    """Lists of known columns, mostly with cells that make sense."""
    columns = draw(st.permutations(["from", "to", *draw(st.sets(st.sampled_from([*COLUMNS, "note"]))).difference(("from", "to"))]))
    sane = draw(st.booleans())

    def cell(column, k):
        if sane and column == "stream":
            return str(k)
        return draw(st.sampled_from(USUAL.get(column, CELLS[column]) if sane else CELLS[column]))

    rows = [[cell(column, k) for column in columns] for k in range(draw(st.integers(0, 9)))]
    text = io.StringIO(newline="")
    csv.writer(text, delimiter=draw(st.sampled_from(",;\t"))).writerows([columns, *rows])
    return text.getvalue().encode()


def ends_well(path, asked=Asked()):
    """A sheet with everything that can be said of it, or faults."""
    try:
        pipes = read_list(path, asked)
        site = site_of(pipes)
    except Faulty as faulty:
        assert faulty.faults and all(fault.wanted for fault in faulty.faults)
        for fault in faulty.faults:  # of a cell its row and column are told, of a row its number; else it is the list or the file that is meant
            assert (fault.row and fault.column) or (fault.found is None and (fault.row or re.search("the (list|file)", fault.wanted)))
        return
    except Stopped as stopped:
        assert str(stopped)
        return
    drawn = balance(site)
    assert view.document(drawn)["streams"] and len(view.rows(drawn)) == len(pipes.pipes)
    ElementTree.fromstring(paint(layout_of(drawn), drawn))
    if drawn.refused:
        assert overfull(drawn)
        return
    if drawn.kind is SheetKind.ENGINE:
        engine.check_sheet(site.file, drawn.drawn, engine.place_numbers(site.file))
    elif drawn.checked:
        assert Checked.from_json(drawn.checked.to_json()) == drawn.checked
        drawn.checked.recheck()
    if drawn.flowless:
        assert drawn.reason
        return
    for k in range(len(pipes.pipes)):
        assert why(drawn, k)


EXAMPLES = int(os.environ.get("WENGELUDO_EXAMPLES") or 100)
QUIET = settings(deadline=None, max_examples=EXAMPLES, suppress_health_check=list(HealthCheck), derandomize=True)


@QUIET
@given(lists())
def test_lists(tmp_path, data):
    path = tmp_path / "list.csv"
    path.write_bytes(data)
    ends_well(path)


@QUIET
@given(st.binary(max_size=200))
@pytest.mark.parametrize("name", ["list.csv", "list.xlsx"])
def test_bytes(tmp_path, name, data):
    path = tmp_path / name
    path.write_bytes(data)
    ends_well(path)


@QUIET
@given(st.text(alphabet='fromt,;"\n\t 012.%w±é', max_size=120))
def test_texts(tmp_path, text):
    path = tmp_path / "list.csv"
    path.write_text(text, encoding="utf-8")
    ends_well(path)


@QUIET
@given(data=st.data())
def test_workbooks_with_changed_bytes(tmp_path, data):
    import openpyxl

    book = openpyxl.Workbook()
    for row in (["from", "to", "reading", "accuracy"], ["outside", "boiler", 100, "2%"], ["boiler", "outside", 98, 5]):
        book.active.append(row)
    memory = io.BytesIO()
    book.save(memory)
    whole = bytearray(memory.getvalue())
    for _ in range(data.draw(st.integers(1, 4))):
        whole[data.draw(st.integers(0, len(whole) - 1))] = data.draw(st.integers(0, 255))
    path = tmp_path / "list.xlsx"
    path.write_bytes(bytes(whole[: data.draw(st.integers(1, len(whole)))]))
    ends_well(path)
