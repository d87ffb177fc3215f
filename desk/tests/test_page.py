# SPDX-License-Identifier: LicenseRef-Wengeludo
"""Each page opened in a real browser: no error on its console, every stream and number in its text; it sorts, and it prints."""

import json
import os
import re
import shutil
import subprocess

import pytest
from conftest import SAMPLES

from wengeludo.write import view
from wengeludo.balance.sheet import balance
from wengeludo.balance.site import read_site

CHROMIUM = shutil.which(os.environ.get("CHROMIUM", "chromium"))
pytestmark = pytest.mark.skipif(not CHROMIUM, reason="no chromium")
NAMES = sorted(path.name for path in SAMPLES.iterdir() if path.suffix in (".csv", ".xlsx"))
PROBE = """
<script>
addEventListener("load", () => {
  const heads = [...document.querySelectorAll("th button")];
  const column = heads.findIndex((head) => head.textContent.startsWith("reading"));
  heads[column].click();
  const sorted = [...document.querySelectorAll("tbody tr")].map((row) => row.children[column].dataset.key);
  const out = document.createElement("script");
  out.type = "application/json"; out.id = "probe";
  out.textContent = JSON.stringify({ text: document.body.innerText, svg: document.querySelector("svg").textContent, sorted, errors: window.errors,
    edges: document.querySelectorAll("svg .edge").length, wide: document.documentElement.scrollWidth - innerWidth });
  document.body.append(out);
});
</script>
"""
CATCH = '<script>window.errors = []; addEventListener("error", (event) => window.errors.push(event.message));</script>'


def browser(profile, *words):
    command = [CHROMIUM, "--headless", "--no-sandbox", "--disable-gpu", f"--user-data-dir={profile}", "--enable-logging=stderr", *words]
    return subprocess.run(command, capture_output=True, text=True, timeout=300)


def squeezed(text):
    return " ".join(text.split())


@pytest.mark.parametrize("name", NAMES)
def test_page(name, run, tmp_path):
    page = tmp_path / "page.html"
    run("sheet", SAMPLES / name, "-o", page)
    text = page.read_text(encoding="utf-8")
    assert not re.search(r'(?:src|href)\s*=\s*"(?!#)|url\(|@import', re.sub(r"<svg.*?</svg>", "", text, flags=re.DOTALL)), "nothing is fetched"
    probe = tmp_path / "probe.html"
    probe.write_text(text.replace("<body", CATCH + "<body", 1).replace("</body>", PROBE + "</body>"), encoding="utf-8")
    done = browser(tmp_path / "profile", "--window-size=1280,1000", "--dump-dom", probe.as_uri())
    told = json.loads(re.search(r'id="probe">(.*?)</script>', done.stdout, re.DOTALL)[1].replace("&lt;", "<").replace("&amp;", "&"))
    assert told["errors"] == [] and "CONSOLE" not in done.stderr
    drawn = balance(read_site(SAMPLES / name))
    for row in view.rows(drawn):
        for cell in row.cells:
            assert squeezed(cell) in squeezed(told["text"])
    svg = squeezed(told["svg"])
    for line in drawn.lines:
        assert line.pipe.label in svg and ("?" if line.flow is None else drawn.site.shown(line.flow)) in svg
    for place in drawn.site.list.places[1:]:
        assert place in svg
    assert told["edges"] == len(drawn.site.list.pipes) and told["wide"] <= 0
    keys = [float(key) for key in told["sorted"] if key]
    assert keys == sorted(keys) and told["sorted"][len(keys):] == [""] * (len(told["sorted"]) - len(keys))


@pytest.mark.parametrize("name", ["steam_site_off.csv", "steam_site.xlsx", "overfull_site.csv"])
def test_prints_on_two_pages(name, run, tmp_path):
    if not shutil.which("pdfinfo"):
        pytest.skip("no pdfinfo")
    page, pdf = tmp_path / "page.html", tmp_path / "page.pdf"
    run("sheet", SAMPLES / name, "-o", page)
    browser(tmp_path / "profile", "--print-to-pdf-no-header", f"--print-to-pdf={pdf}", page.as_uri())
    told = subprocess.run(["pdfinfo", pdf], capture_output=True, text=True, check=True).stdout
    assert re.search(r"Pages:\s+2\n", told) and "A4" in told


PHONE = PROBE.replace("errors: window.errors,", """errors: window.errors, right: Math.max(...[...document.querySelectorAll("td, h1, li, .verdict")].map((one) => one.getBoundingClientRect().right)) - innerWidth,
    named: [...document.querySelectorAll("tbody tr:first-child td")].map((one) => getComputedStyle(one, "::before").content),""")


def test_on_a_phone(run, tmp_path):
    """390 pixels: nothing of the table or of the texts is off the screen, and each number has its name beside it."""
    page, probe = tmp_path / "page.html", tmp_path / "probe.html"
    run("sheet", SAMPLES / "steam_site_off.csv", "-o", page)
    probe.write_text(page.read_text(encoding="utf-8").replace("<body", CATCH + "<body", 1).replace("</body>", PHONE + "</body>"), encoding="utf-8")
    done = browser(tmp_path / "profile", "--window-size=390,900", "--dump-dom", probe.as_uri())
    told = json.loads(re.search(r'id="probe">(.*?)</script>', done.stdout, re.DOTALL)[1].replace("&lt;", "<").replace("&amp;", "&"))
    assert told["errors"] == [] and told["wide"] <= 0 and told["right"] <= 0
    assert '"reading"' in told["named"] and '"balanced"' in told["named"]


def test_large_drawings_print_in_parts(run, listed, tmp_path):
    """96 streams: the drawing once whole, then in parts whose letters can be read; the table after it."""
    if not shutil.which("pdftotext"):
        pytest.skip("no pdftotext")
    rows = [f"{k},line {k} of the plant,{'outside' if k < 8 else f'unit {k % 31 + 1}'},{f'unit {(k * 7) % 31 + 1}' if k < 90 else 'outside'},{1000 + k},2%" for k in range(96)]
    rows = [row for row in rows if row.split(",")[2] != row.split(",")[3]]
    page, pdf = tmp_path / "page.html", tmp_path / "page.pdf"
    run("sheet", listed("stream,what,from,to,reading,accuracy\n" + "\n".join(rows)), "-o", page)
    browser(tmp_path / "profile", "--print-to-pdf-no-header", f"--print-to-pdf={pdf}", page.as_uri())
    text = squeezed(subprocess.run(["pdftotext", "-layout", pdf, "-"], capture_output=True, text=True, check=True).stdout)
    parts = int(re.search(r"drawing, part 1 of (\d+)", text)[1])
    assert 2 <= parts <= 20 and f"drawing, part {parts} of {parts}" in text


def test_parts_of_a_drawing():
    """They cover all of it, none is larger than a page, and one that fits has none."""
    from wengeludo.write.page import TILE, tiles

    assert tiles('<svg viewBox="0 0 900 1200">') == []
    for wide, high in ((2103, 2404), (9000, 300), (700, 5000), (1148, 1553)):
        boxes = [[float(x) for x in tile.split()] for tile in tiles(f'<svg viewBox="0 0 {wide} {high}">')]
        assert boxes and all(box[2] <= TILE[0] + 1 and box[3] <= TILE[1] + 1 for box in boxes)
        for x, y in ((0, 0), (wide, high), (wide / 2, high / 3), (wide / 3, high)):
            assert any(left - 1 <= x <= left + across + 1 and top - 1 <= y <= top + down + 1 for left, top, across, down in boxes)
