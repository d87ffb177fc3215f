# SPDX-License-Identifier: LicenseRef-Wengeludo
"""The drawing: names that are no markup, units where the user has put them, labels that cover neither units nor each other."""

import csv
import io
import json
import re
import time
from dataclasses import replace
from xml.etree import ElementTree

import pytest
from conftest import SAMPLES

from wengeludo.balance.sheet import balance
from wengeludo.balance.site import read_site
from wengeludo.read.texts import legible
from wengeludo.write.beside import points_along
from wengeludo.write.layout import _general, layout_from, layout_of, unit_size
from wengeludo.write.paint import Marks, paint
from wengeludo.write.words import Label, broken, label_of, name_lines, width_of

SVG = "{http://www.w3.org/2000/svg}"
CENTIMETRE = 72 / 2.54


def test_names_that_are_no_markup(run, listed, tmp_path):
    text = 'stream,what,from,to,reading,accuracy\n"<b>1","<script>alert(1)</script>",outside,"a & ""b""",5,1\n2,"\\N [/red] {{7*7}}","a & ""b""",outside,5,1\n'
    page = tmp_path / "page.html"
    assert run("sheet", listed(text), "-o", page, "-o", tmp_path / "x.svg", "-o", tmp_path / "x.xlsx").status == 0
    shown = page.read_text(encoding="utf-8")
    assert "<script>alert" not in shown and "&lt;script&gt;alert(1)" in shown and "{{7*7}}" in shown


def unit_spots(path):
    """Where the units of a drawing stand: the middle of their names."""
    return {unit: ((left + right) / 2, (top + bottom) / 2) for unit, (left, top, right, bottom) in unit_boxes(path).items()}


def unit_boxes(path):
    """The boxes of the units in a drawing."""
    found = {}
    for group in ElementTree.parse(path).getroot().iter(f"{SVG}g"):
        if re.fullmatch(r"unit-\d+", group.get("id", "")):
            x, y, wide, high = (float(next(group.iter(f"{SVG}rect")).get(name)) for name in ("x", "y", "width", "height"))
            found[int(group.get("id")[5:])] = (x, y, x + wide, y + high)
    return found


def test_positions_are_kept(run, tmp_path):
    site = read_site(SAMPLES / "steam_site.xlsx")
    assert run("sheet", SAMPLES / "steam_site.xlsx", "-o", tmp_path / "site.svg").status == 0
    drawn = unit_spots(tmp_path / "site.svg")
    for unit, (x, y) in site.list.spots.items():
        across, down = (drawn[unit][k] - drawn[1][k] for k in (0, 1))
        wanted = tuple((here - first) * CENTIMETRE for here, first in zip((x, y), site.list.spots[1]))
        assert (across, down) == pytest.approx(wanted, abs=3)


def test_some_units_placed(run, tmp_path):
    """Those that have a place keep it, the others stand clear of them."""
    source = tmp_path / "site.csv"
    source.write_bytes((SAMPLES / "steam_site_off.csv").read_bytes())
    (tmp_path / "site.places.csv").write_text("unit,x,y\ndeaerator,16,1.5\nfeed pumps,8,1.5\nboiler 1,4,5\nboiler 2,12,5\n")
    assert run("sheet", source, "-o", tmp_path / "site.svg").status == 3
    drawn, places = unit_spots(tmp_path / "site.svg"), read_site(source).list.places
    deaerator, pumps, boiler = (drawn[places.index(name)] for name in ("deaerator", "feed pumps", "boiler 1"))
    assert (deaerator[0] - pumps[0], deaerator[1] - pumps[1]) == pytest.approx((8 * CENTIMETRE, 0), abs=3)
    assert (pumps[0] - boiler[0], boiler[1] - pumps[1]) == pytest.approx((4 * CENTIMETRE, 3.5 * CENTIMETRE), abs=3)
    boxes = list(unit_boxes(tmp_path / "site.svg").values())
    assert len(boxes) == 13 and not any(shared(a, b) for k, a in enumerate(boxes) for b in boxes[:k])


def shared(one, other):
    """The area that two boxes share."""
    across = min(one[2], other[2]) - max(one[0], other[0])
    down = min(one[3], other[3]) - max(one[1], other[1])
    return max(0.0, across) * max(0.0, down)


def label_box(laid, drawn, k):
    """The box of a label: left, top, right, bottom."""
    (x, top), (wide, high) = laid.labels[k], label_of(drawn, k).size
    return x - wide / 2, top, x + wide / 2, top + high


def test_labels_cover_nothing():
    """On the site whose units have places: no label on a unit or on another label, and each beside its own line."""
    drawn = balance(read_site(SAMPLES / "steam_site.xlsx"))
    laid = layout_of(drawn)
    boxes, lines = {k: label_box(laid, drawn, k) for k in range(26)}, [points_along(line) for line in laid.lines]
    assert len(laid.units) == 13 and len(laid.labels) == 26
    everything = [*laid.units, *boxes.values()]
    assert sum(shared(a, b) for k, a in enumerate(everything) for b in everything[:k]) < 60
    for k, (left, top, right, bottom) in boxes.items():
        near = min(max(left - x, x - right, top - y, y - bottom, 0) for x, y in lines[k])
        assert near <= 13, "beside its own line"
    assert not any(left < x < right and top < y < bottom for k, (left, top, right, bottom) in boxes.items() for x, y in lines[k])


def test_a_long_label_is_wide():
    assert Label("1", "2", ("a" * 40,), "#000").size[0] > Label("1", "2", ("a" * 20,), "#000").size[0] > 100


@pytest.mark.parametrize("name", ["low-pressure condensate collecting vessel K", "HD header of the eastern boiler houses and W", "a", "flash vessel"])
def test_a_unit_has_room_for_each_line_of_its_name(name):
    wide, high = unit_size(name)
    lines = broken(name, 28)
    assert all(width_of(line, 12.0) + 16 <= wide for line in lines) and high >= 15 * len(lines)


def test_a_lasting_layout_has_room_for_long_labels_names_and_flows():
    """A label may show any flow of eight letters beside its number, and a remark below it, on another sheet."""
    plain = read_site(SAMPLES / "blind_site.csv").list
    for change in ({"label": "FI-20-4711-a, eastern tag"}, {"what": "condensate of the eastern boiler house"}, {"label": "1", "what": ""}):
        pipes = replace(plain, pipes=tuple(replace(pipe, **change) for pipe in plain.pipes))
        for k, pipe in enumerate(pipes.pipes):
            wide, high = _general(pipes, k)
            drawn = Label(pipe.label, "88,888.8", (*name_lines(pipes, k), "read 8,888.8 (+888.8)"), "#000").size
            assert drawn[0] <= wide + 1 and drawn[1] <= high + 1, (change, k)


@pytest.mark.parametrize("name", ["steam_site.csv", "steam_site_off.csv", "blind_site.csv", "overfull_site.csv"])
@pytest.mark.parametrize("lasting", [False, True])
def test_labels_that_graphviz_places(name, lasting):
    """No label on a unit or on another label, and each beside its own line."""
    drawn = balance(read_site(SAMPLES / name))
    laid = layout_of(drawn, lasting)
    boxes = [label_box(laid, drawn, k) for k in range(len(laid.labels))]
    everything = [*laid.units, *boxes]
    assert sum(shared(a, b) for k, a in enumerate(everything) for b in everything[:k]) < 60
    for (left, top, right, bottom), line in zip(boxes, laid.lines):
        assert min(max(left - x, x - right, top - y, y - bottom, 0) for x, y in points_along(line)) <= 50, "beside its own line"
    left, top, wide, high = laid.box
    assert all(left <= box[0] and box[2] <= left + wide and top <= box[1] and box[3] <= top + high for box in laid.units)


SAMPLE_NAMES = ("steam_site.csv", "steam_site_off.csv", "steam_site.xlsx", "overfull_site.csv", "blind_site.csv")


@pytest.mark.parametrize("name", SAMPLE_NAMES)
def test_a_layout_is_plain_data(name):
    """A layout put through JSON paints the same drawing, to the byte; one of another list is not taken for this one's."""
    drawn = balance(read_site(SAMPLES / name))
    laid = layout_of(drawn, lasting=True)
    again = layout_from(json.loads(json.dumps(laid.plain())))
    assert again == laid and again.fits(drawn.site.list) and paint(again, drawn) == paint(laid, drawn)
    assert not again.fits(read_site(SAMPLES / "listing.csv").list)
    for spoilt in ({}, {**laid.plain(), "version": 2}, {**laid.plain(), "units": [[1, 2]]}, {**laid.plain(), "box": None}):
        with pytest.raises(ValueError):
            layout_from(spoilt)


def test_a_layout_serves_other_sheets():
    """The layout of one hour, painted with the numbers of another: every label says the other hour's flow, every line is where it was."""
    first, second = (balance(read_site(SAMPLES / name)) for name in ("steam_site.csv", "steam_site_off.csv"))
    laid = layout_of(first, lasting=True)
    shown = ElementTree.fromstring(paint(laid, second))
    texts = {group.get("id"): " ".join(group.itertext()) for group in shown.iter(f"{SVG}g") if group.get("id")}
    for k, line in enumerate(second.lines):
        assert ("?" if line.flow is None else second.site.shown(line.flow)) in texts[f"label-{k}"]
        assert line.pipe.what in texts[f"stream-{k}"] and second.site.place(line.pipe.source) in texts[f"stream-{k}"]
    paths = [re.findall(r' d="(.*?)"', paint(laid, drawn)) for drawn in (first, second)]
    assert paths[0] == paths[1] and len(paths[0]) == 26


def test_painting_is_quick_and_needs_no_graphviz(monkeypatch):
    drawn = balance(read_site(SAMPLES / "steam_site.csv"))
    laid = layout_of(drawn)
    monkeypatch.setenv("PATH", "/nowhere")
    began = time.process_time()
    for _ in range(10):
        paint(laid, drawn)
    assert (time.process_time() - began) / 10 < 0.02, "about 2 ms; ten times that on a slow machine"


def test_marks_of_a_trial():
    """Changed, struck and chosen streams have their class and their sign, and no other stream has."""
    drawn = balance(read_site(SAMPLES / "steam_site.csv"))
    svg = paint(layout_of(drawn), drawn, Marks(frozenset([8]), frozenset([11]), 3, True))
    found = {group.get("id"): group for group in ElementTree.fromstring(svg).iter(f"{SVG}g")}
    for k in range(26):
        wanted = {name for name, there in (("changed", k == 8), ("struck", k == 11), ("chosen", k == 3)) if there}
        assert set(found[f"stream-{k}"].get("class").split()) - {"edge"} == wanted == set(found[f"label-{k}"].get("class").split()) - {"label"}
        assert ("✎" in "".join(found[f"label-{k}"].itertext())) == (k == 8)
        assert ("✗ struck out" in "".join(found[f"label-{k}"].itertext())) == (k == 11)
        assert found[f"stream-{k}"].get("tabindex") == "0"
    assert " style=" not in svg


@pytest.mark.parametrize("name", ["<<1>>", "\\N \\G \\l", "a\x01b\x1b[31m", "]]>", "Area\\North", "名前", "x" * 300, "&#8195;"])
def test_any_name_is_drawn_as_it_is(name, run, listed, tmp_path):
    """Of streams and of units: no name is an instruction to graphviz or markup."""
    text = io.StringIO(newline="")
    csv.writer(text).writerows([("stream", "what", "from", "to", "reading", "accuracy"), (name, name, "outside", name, 5, 1), (2, "x", name, "outside", 5, 1)])
    ended = run("sheet", listed(text.getvalue()), "-o", tmp_path / "a.svg", "-o", tmp_path / "a.html", "-o", tmp_path / "a.xlsx")
    assert ended.status == 0, ended.err
    shown = "".join("".join(ElementTree.parse(tmp_path / "a.svg").getroot().itertext()).split())
    assert shown.count("".join(legible(name).split())) >= 3
    assert "\x1b" not in (tmp_path / "a.html").read_text(encoding="utf-8")
