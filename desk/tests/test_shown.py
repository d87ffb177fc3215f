# SPDX-License-Identifier: LicenseRef-Wengeludo
"""What a person is shown: names that are markup through page, drawing, chart and "what to do next"; verdicts in their colours; as many rows,
lines and labels as there are streams; the legend and the scale by the sheet; the page's own script in node."""

import csv
import io
import json
import re
import shutil
import subprocess
from html.parser import HTMLParser
from xml.etree import ElementTree

import pytest
from conftest import SAMPLES

from wengeludo.balance.sheet import balance
from wengeludo.balance.site import read_site
from wengeludo.write import page as page_of
from wengeludo.write import view
from wengeludo.write.page import scale
from wengeludo.write.spots import header

SVG = "{http://www.w3.org/2000/svg}"
NAMES = sorted(path.name for path in SAMPLES.iterdir() if path.suffix in (".csv", ".xlsx") and ".places" not in path.name)
ROWS = (
    ("stream", "what", "from", "to", "reading", "accuracy", "<u>c</u>"),
    ("<i>1</i>", "<script>w(1)</script>", "outside", "<b>p</b>", "1000", "5", "<s>v</s>"),
    ("&lt;2", "<img/onerror=w(2)>", "<b>p</b>", "'\"><q>", "1100", "5", "'\"><q>"),
    ("<!--3", "]]><a>", "'\"><q>", "outside", "1200", "5", "{{7*7}}"),
    ("<?4?>", "</title></svg>", "<b>p</b>", "'\"><q>", "", "", "</td>"),
    ("<p>5", "<svg><g>", "<b>p</b>", "'\"><q>", "", "", "</table>"),
)
SPOTS = (("unit", "x", "y"), ("<b>p</b>", "2", "2"), ("'\"><q>", "9", "2"))


def meek(text):
    """The same name without a character that markup knows."""
    return re.sub(r"[^\w.]", "q", text)


def written(folder, name, rows, change=lambda text: text):
    """A list in a folder, and its places beside it."""
    for suffix, table in ((".csv", rows), (".places.csv", SPOTS)):
        text = io.StringIO(newline="")
        csv.writer(text).writerows([[change(cell) if cell not in (*ROWS[0][:6], "outside", *SPOTS[0]) else cell for cell in row] for row in table])
        (folder / f"{name}{suffix}").write_text(text.getvalue(), encoding="utf-8")
    return folder / f"{name}.csv"


class Page(HTMLParser):
    """The tags of a page in their order, its text, and what stands in its table."""

    def __init__(self, text):
        super().__init__(convert_charrefs=True)
        self.tags, self.text, self.heads, self.rows, self.words, self.found = [], "", [], [], {}, []
        self.feed(text)

    def handle_starttag(self, tag, attrs):
        attrs = dict(attrs)
        self.tags.append((tag, tuple(attrs)))
        self.found.append((tag, attrs))
        if tag == "th":
            self.heads.append("")
        elif tag == "tr" and "data-stream" in attrs:
            self.rows.append((attrs, []))
        elif tag == "td" and self.rows:
            self.rows[-1][1].append([attrs.get("data-key", ""), ""])

    def handle_endtag(self, tag):
        self.tags.append(("/" + tag, ()))

    def handle_data(self, data):
        self.text += data
        if not self.tags:
            return
        if self.tags[-1][0] in ("button", "th") and self.heads:
            self.heads[-1] += data.strip()
        elif self.tags[-1][0] == "td" and self.rows:
            self.rows[-1][1][-1][1] += data


def squeezed(text):
    return "".join(text.split())


@pytest.mark.parametrize("suffix", [".html", ".svg"])
def test_names_that_are_markup_make_no_element(suffix, run, tmp_path):
    """The same list with meek names has the same elements, one after the other; and each name is there as it is."""
    shown = []
    for folder, change in (("wild", str), ("meek", meek)):
        (tmp_path / folder).mkdir()
        path = written(tmp_path / folder, change("<em>&amp;"), ROWS, change)
        ended = run("sheet", path, "-o", tmp_path / folder / f"page{suffix}")
        assert ended.status == 3, ended.err
        shown.append(Page((tmp_path / folder / f"page{suffix}").read_text(encoding="utf-8")))
    wild, meek_ = shown
    assert wild.tags == meek_.tags
    names = {cell for row in ROWS[1:] for cell in row[:4] + (row[6:] if suffix == ".html" else ())} - {"outside"}
    for name in (*names, "<em>&amp;"):
        assert squeezed(name) in squeezed(wild.text), name
    if suffix == ".html":
        steps = re.search(r"<ol>(.*?)</ol>", (tmp_path / "wild" / "page.html").read_text(encoding="utf-8"), re.DOTALL)[1]
        assert "&lt;" in steps and not re.findall(r"<(?!/?li>)", steps)


def test_names_that_are_markup_in_a_chart(run, tmp_path):
    shown = []
    for top, change in (("wild", str), ("meek", meek)):
        folder = tmp_path / top / change("<u>&f")
        folder.mkdir(parents=True)
        for name in ("<b>1", "<b>2", "<b>3"):
            written(folder, change(name), ROWS[:4], change)
        (folder / change("<b>4.csv")).write_text("no list")
        run("batch", folder, "-o", tmp_path / f"{top}.csv", "--jobs", "1")
        shown.append((tmp_path / f"{top}.svg").read_text(encoding="utf-8"))
    wild, meek_ = (ElementTree.fromstring(text) for text in shown)
    assert [part.tag for part in wild.iter()] == [part.tag for part in meek_.iter()]
    text = "".join(wild.itertext())
    assert all(f"<b>{k}.csv" in text for k in (1, 2, 3)) and "<u>&f" in text and text.count("<b>4.csv") >= 1


@pytest.mark.parametrize("name, tone, sign", [("steam_site.csv", "good", "✓"), ("steam_site_off.csv", "bad", "✗"), ("overfull_site.csv", "bad", "✗")])
def test_a_verdict_in_its_colour(name, tone, sign, run, tmp_path):
    run("sheet", SAMPLES / name, "-o", tmp_path / "page.html")
    text = (tmp_path / "page.html").read_text(encoding="utf-8")
    assert tone in re.search(r'<body class="([^"]*)"', text)[1].split()
    verdict = re.search(r'<p class="verdict">(.*?)</p>', text, re.DOTALL)[1]
    assert re.findall("[✓≈✗]", verdict) == [sign]
    colours = dict(re.findall(r"--(good|poor|bad): #(\w{6})", text))
    red, green = (int(colours[tone][k : k + 2], 16) for k in (0, 2))
    assert (red > green) == (tone == "bad") and f".{tone} {{ --tone: var(--{tone}); }}" in text or tone == "good"


def test_no_verdict_is_no_good_one(run, listed, tmp_path):
    run("sheet", listed("from,to,reading,accuracy\noutside,boiler,100,2\nboiler,outside,,\n"), "-o", tmp_path / "page.html")
    text = (tmp_path / "page.html").read_text(encoding="utf-8")
    assert re.findall("[✓≈✗]", re.search(r'<p class="verdict">(.*?)</p>', text, re.DOTALL)[1]) == ["≈"]


def test_colours_of_the_terminal(monkeypatch, capsys):
    from rich.console import Console
    from wengeludo.write import terminal

    for name, colour in (("steam_site", "32"), ("steam_site_off", "31"), ("overfull_site", "31")):
        drawn = balance(read_site(SAMPLES / f"{name}.csv"))
        monkeypatch.setattr(terminal, "console", lambda error=False: Console(width=140, highlight=False, markup=False, force_terminal=True, color_system="standard"))
        terminal.show(drawn)
        head = next(line for line in capsys.readouterr().out.splitlines() if view.headline(drawn)[:20] in line)
        assert re.search(rf"\x1b\[1;{colour}m{view.headline(drawn)[:20]}", head)


@pytest.mark.parametrize("name", NAMES)
def test_as_many_as_there_are_streams(name, run, tmp_path):
    files = [tmp_path / f"sheet{suffix}" for suffix in (".html", ".svg", ".csv", ".xlsx", ".json")]
    ended = run("sheet", SAMPLES / name, *(word for file in files for word in ("-o", file)))
    drawn = balance(read_site(SAMPLES / name))
    labels = [pipe.label for pipe in drawn.site.list.pipes]
    page = Page(files[0].read_text(encoding="utf-8"))
    assert [cells[0][1].strip() for _, cells in page.rows] == labels
    assert [int(attrs["data-stream"]) for attrs, _ in page.rows] == list(range(len(labels)))
    assert all(len(cells) == len(page.heads) for _, cells in page.rows)
    for text in (files[0].read_text(encoding="utf-8"), files[1].read_text(encoding="utf-8")):
        for part in ("stream", "label", "unit"):
            wanted = range(1, len(drawn.site.list.places)) if part == "unit" else range(len(labels))
            assert sorted(int(k) for k in re.findall(rf'<g id="{part}-(\d+)"', text)) == list(wanted)
    told = list(csv.reader(io.StringIO(files[2].read_text(encoding="utf-8-sig"), newline=""), delimiter="," if "," in files[2].read_text(encoding="utf-8-sig").split("\n")[0] else ";"))
    assert [row[0] for row in told if row and row[0] in labels] == labels
    assert [entry["stream"] for entry in json.loads(files[4].read_text(encoding="utf-8"))["streams"]] == labels
    import openpyxl

    column = [str(row[0]) for row in openpyxl.load_workbook(files[3]).worksheets[0].iter_rows(values_only=True)]
    assert column[-len(labels):] == labels or [cell for cell in column if cell in labels][-len(labels):] == labels
    assert all(re.search(rf"(?m)^\s*{re.escape(label)}\b", ended.out) for label in labels)


def legend_of(svg):
    """The legend: what stands beside each sample of a line, its colour, and whether it is dashed."""
    group = next(part for part in svg.iter(f"{SVG}g") if part.get("class") == "legend")
    lines, texts = (list(group.iter(f"{SVG}{tag}")) for tag in ("line", "text"))
    return {text.text: (line.get("stroke"), bool(line.get("stroke-dasharray"))) for line, text in zip(lines, texts)}


def look(svg, k):
    path = next(part for part in svg.iter(f"{SVG}g") if part.get("id") == f"stream-{k}").findall(f"{SVG}path")[-1]
    return path.get("stroke"), bool(path.get("stroke-dasharray"))


@pytest.mark.parametrize("name", ["steam_site.csv", "steam_site_off.csv", "blind_site.csv"])
def test_the_legend_says_what_the_drawing_shows(name, run, tmp_path):
    run("sheet", SAMPLES / name, "-o", tmp_path / "a.svg")
    svg, drawn = ElementTree.parse(tmp_path / "a.svg").getroot(), balance(read_site(SAMPLES / name))
    legend = legend_of(svg)
    words = {"A": "corrected", "R": "as read", "G": "deduced", "W": "not known"}
    for k, line in enumerate(drawn.lines):
        word = "beyond chance" if k in drawn.worst else "over 1.96" if line.notable else words[line.kind.value]
        assert look(svg, k) == next(sample for text, sample in legend.items() if word in text), (k, word)
    assert len(set(legend.values())) == len(legend) == 6
    assert not [part.tail for part in svg.iter() if (part.tail or "").strip()], "no text outside of a mark"


def test_the_legend_of_ranges_that_cannot_be_kept(run, tmp_path):
    run("sheet", SAMPLES / "overfull_site.csv", "-o", tmp_path / "a.svg")
    svg, drawn = ElementTree.parse(tmp_path / "a.svg").getroot(), balance(read_site(SAMPLES / "overfull_site.csv"))
    legend = legend_of(svg)
    for k, stream in enumerate(drawn.site.plant.streams):
        across = (stream.source in drawn.marked) != (stream.target in drawn.marked)
        word = "across" if across else "metered" if stream.metered else "no meter"
        assert look(svg, k) == next(sample for text, sample in legend.items() if text.startswith(word))


@pytest.mark.parametrize("name", ["steam_site.csv", "steam_site.xlsx"])
def test_arrows_lead_from_one_place_to_the_other(name, run, tmp_path):
    """Each has a head that is a triangle behind its tip, and the tip is nearer to the unit it leads to than the line's start is."""
    run("sheet", SAMPLES / name, "-o", tmp_path / "a.svg")
    svg, site = ElementTree.parse(tmp_path / "a.svg").getroot(), read_site(SAMPLES / name)
    groups = {part.get("id"): part for part in svg.iter(f"{SVG}g") if part.get("id")}
    for k, pipe in enumerate(site.list.pipes):
        tip, *sides = (tuple(map(float, point.split(","))) for point in groups[f"stream-{k}"].find(f"{SVG}polygon").get("points").split())
        knots = [tuple(map(float, point.split(","))) for point in re.findall(r"-?[\d.]+(?:e-\d+)?,-?[\d.]+(?:e-\d+)?", groups[f"stream-{k}"].findall(f"{SVG}path")[-1].get("d"))]
        drawn = [part.get("d") for part in groups[f"stream-{k}"].findall(f"{SVG}path")]
        assert all(re.fullmatch(r"M[-\d.e]+,[-\d.e]+C[-\d.e]+,[-\d.e]+( [-\d.e]+,[-\d.e]+)*", one) for one in drawn), drawn
        (ax, ay), (bx, by) = sides
        area = abs((ax - tip[0]) * (by - tip[1]) - (bx - tip[0]) * (ay - tip[1])) / 2
        assert 10 < area < 30 and abs((ax - bx) ** 2 + (ay - by) ** 2 - 4 * 2.45**2) < 1
        assert min((tip[0] - x) ** 2 + (tip[1] - y) ** 2 for x, y in (knots[-1],)) < 150
        for place, point in ((pipe.source, knots[0]), (pipe.target, tip)):
            if place:
                box = groups[f"unit-{place}"].find(f"{SVG}rect")
                left, top, wide, high = (float(box.get(word)) for word in ("x", "y", "width", "height"))
                assert left - 12 <= point[0] <= left + wide + 12 and top - 12 <= point[1] <= top + high + 12, (pipe.label, place)


def test_width_grows_with_the_flow(run, tmp_path):
    run("sheet", SAMPLES / "steam_site.csv", "-o", tmp_path / "a.svg")
    svg, drawn = ElementTree.parse(tmp_path / "a.svg").getroot(), balance(read_site(SAMPLES / "steam_site.csv"))
    known = [(abs(line.flow), k) for k, line in enumerate(drawn.lines) if line.flow is not None]
    paths = {k: next(part for part in svg.iter(f"{SVG}g") if part.get("id") == f"stream-{k}").findall(f"{SVG}path")[-1] for _, k in known}
    widths = [float(paths[k].get("stroke-width")) for _, k in sorted(known)]
    assert widths == sorted(widths) and widths[-1] > 2 * widths[0]


@pytest.mark.parametrize("name", ["steam_site.csv", "steam_site_off.csv", "blind_site.csv", "rated_site.csv"])
def test_the_scale_is_of_cost_and_limit(name, run, tmp_path):
    drawn = balance(read_site(SAMPLES / name))
    found = scale(drawn)
    assert found.cost / found.limit == pytest.approx(drawn.cost / drawn.limit) and max(found.cost, found.limit) <= 96 and found.limit > 0
    run("sheet", SAMPLES / name, "-o", tmp_path / "page.html")
    text = (tmp_path / "page.html").read_text(encoding="utf-8")
    assert float(re.search(r'class="bar" style="width:([\d.]+)%', text)[1]) == pytest.approx(found.cost, abs=0.01)
    assert float(re.search(r'class="limit" style="left:([\d.]+)%', text)[1]) == pytest.approx(found.limit, abs=0.01)
    assert float(re.search(r'class="cost[ a-z]*" style="left:([\d.]+)%', text)[1]) == pytest.approx(found.cost, abs=0.01)


NODE = """
"use strict";
const { heads, rows, script } = JSON.parse(require("fs").readFileSync(0, "utf8"));
const element = (more) => ({ attributes: {}, listeners: {}, ...more,
  getAttribute(name) { return name in this.attributes ? this.attributes[name] : null; },
  setAttribute(name, value) { this.attributes[name] = value; }, removeAttribute(name) { delete this.attributes[name]; },
  addEventListener(name, call) { this.listeners[name] = call; } });
const body = element({ rows: rows.map((row) => element({ dataset: { stream: row.stream }, children: row.keys.map((key) => ({ dataset: { key } })),
  lit: false, classList: { toggle(name, on) { lit[row.stream] = on; } } })) });
const lit = {};
body.append = (...some) => { body.rows = [...body.rows.filter((row) => !some.includes(row)), ...some]; };
body.querySelector = (what) => body.rows.find((row) => what.includes(`"${row.dataset.stream}"`));
const tops = heads.map(() => element({ firstElementChild: element({}) }));
globalThis.document = { querySelector: (what) => what === "tbody" ? body : null, getElementById: () => null,
  querySelectorAll: (what) => what === "th" ? tops : [] };
(0, eval)(script);
const orders = tops.map((top) => {
  const seen = [1, 2].map(() => { top.firstElementChild.listeners.click(); return { way: top.getAttribute("aria-sort"), order: body.rows.map((row) => row.dataset.stream) }; });
  return { seen, others: tops.filter((other) => other !== top && other.getAttribute("aria-sort") !== null).length };
});
body.rows[0].listeners.mouseenter();
const on = { ...lit };
body.rows[0].listeners.mouseleave();
console.log(JSON.stringify({ orders, on, off: { ...lit }, first: body.rows[0].dataset.stream }));
"""


@pytest.mark.skipif(not shutil.which("node"), reason="no node: the page's script is not run")
@pytest.mark.parametrize("name", ["steam_site.csv", "steam_site_off.csv", "overfull_site.csv"])
def test_the_script_sorts_numbers_as_numbers(name, run, tmp_path):
    """In node, over the table of the page: every column both ways, blanks last, all rows there."""
    run("sheet", SAMPLES / name, "-o", tmp_path / "page.html")
    text = (tmp_path / "page.html").read_text(encoding="utf-8")
    page, script = Page(text), re.search(r"<script>(.*?)</script>", text, re.DOTALL)[1]
    rows = [{"stream": attrs["data-stream"], "keys": [key for key, _ in cells]} for attrs, cells in page.rows]
    ran = subprocess.run(["node", "-e", NODE], input=json.dumps({"heads": page.heads, "rows": rows, "script": script}), capture_output=True, text=True, timeout=60)
    assert ran.returncode == 0, ran.stderr
    told = json.loads(ran.stdout)
    keys = {row["stream"]: row["keys"] for row in rows}
    for column, found in enumerate(told["orders"]):
        assert [one["way"] for one in found["seen"]] == ["ascending", "descending"] and found["others"] == 0
        for one, down in zip(found["seen"], (False, True)):
            assert sorted(one["order"], key=int) == [str(k) for k in range(len(rows))], "all rows are there"
            values = [keys[stream][column] for stream in one["order"]]
            known = [value for value in values if value != ""]
            assert values[len(known):] == [""] * (len(values) - len(known)), "blanks last"
            if all(re.fullmatch(r"-?\d+(\.\d+)?(e-?\d+)?", value) for value in known):
                numbers = [float(value) for value in known]
                assert numbers == sorted(numbers, reverse=down), page.heads[column]
    assert told["on"] == {told["first"]: True} and told["off"] == {told["first"]: False}


@pytest.mark.skipif(not shutil.which("node"), reason="no node: the page's script is not run")
@pytest.mark.parametrize("unit, decimals", [((1, 1), 0), ((1, 2), 1), ((5, 1), 0), ((1, 20), 2), ((200, 1), 0)])
def test_the_live_page_reads_and_shows_numbers_as_the_list_does(unit, decimals):
    """In node, without an engine: a text as a fraction, in whole units with halves to the even one, and shown again."""
    from fractions import Fraction
    from pathlib import Path

    import wengeludo.write

    source = (Path(wengeludo.write.__file__).parent / "templates" / "live.js").read_text(encoding="utf-8")
    functions = source[source.index("function fraction") : source.index("/** An element with a text")]
    texts = ["0", "7", "-7", "−12.5", "100", "2.5", "-2.5", "7.5", "0,25", "-0.05", "1 234.5", "+3", "12345678.9", "x", "", "1.2.3", "-", "0.1"]
    script = f"const GIVEN = {json.dumps({'unit': unit, 'decimals': decimals})};\n{functions}\nconst told = {json.dumps(texts)}.map((text) => {{"
    script += " const f = fraction(text); if (!f) return null; const n = inUnits(f); return [String(n), shown(n), shown(n, true)]; });"
    ran = subprocess.run(["node", "-e", script + "console.log(JSON.stringify(told));"], capture_output=True, text=True, timeout=60)
    assert ran.returncode == 0, ran.stderr
    for text, told in zip(texts, json.loads(ran.stdout)):
        try:
            value = Fraction(text.replace("−", "-").replace(",", ".").replace(" ", ""))
        except ValueError:
            assert told is None, text
            continue
        whole = round(value / Fraction(*unit))
        amount = float(whole * Fraction(*unit))
        shown, signed = (f"{amount:{sign},.{decimals}f}".replace("-", "−") for sign in ("", "+"))
        assert told == [str(whole), shown.lstrip("−") if not whole else shown, shown.lstrip("−") if not whole else signed], text


@pytest.mark.parametrize("name, wide", [("HP header", True), ("manifold 3", True), ("steam main", True), ("Watermains", True), ("remainder", False), ("boiler 1", False)])
def test_a_header_is_known_by_its_name(name, wide):
    assert header(name) == wide


@pytest.mark.parametrize("size", [1.0, 699.0, 700.0, 701.0, 1_371.0, 1_372.0, 5_000.0, 20_000.5])
def test_a_large_drawing_is_cut_into_equal_parts(size):
    """As few as can be, none longer than a sheet of paper, each with a little of the next, from one end to the other."""
    most, over = 700.0, page_of.OVERLAP
    parts = page_of._parts(size, most)
    starts, lengths = zip(*parts)
    assert starts[0] == 0 and starts[-1] + lengths[-1] == pytest.approx(size) and len(set(lengths)) == 1 and lengths[0] <= most + 1e-9
    assert all(a + lengths[0] - b == pytest.approx(over) for a, b in zip(starts, starts[1:]))
    assert len(parts) == 1 or (most - over) * (len(parts) - 1) + over < size
