# SPDX-License-Identifier: LicenseRef-Wengeludo
"""Pages that recompute by themselves (--live): what they hand to the engine, and in a browser every sheet against the binding's."""

import json
import os
import random
import re
import shutil
import subprocess

import pytest
import wengeludo_balance as engine
from conftest import SAMPLES

from wengeludo.balance.site import read_site
from wengeludo.read.faults import Stopped
from wengeludo.write import live

CHROMIUM = shutil.which(os.environ.get("CHROMIUM", "chromium"))
CHECKED = ["two_percent.csv"]  # flows found by the tool and checked by the engine: the engine in a page draws its own sheets alone
NAMES = sorted(path.name for path in SAMPLES.iterdir() if path.suffix == ".csv" and path.name not in CHECKED)
MOST_BYTES = 250_000
PATIENCE = 20_000_000  # of the browser's own clock, which runs ahead while the engine is unpacked beside much other work; no time is lost by it
PROBE = """
<script type="module">
const asked = JSON.parse(document.getElementById("asked").textContent), told = [];
while (!document.getElementById("live").dataset.ready) await new Promise((done) => setTimeout(done, 5));
const row = (k) => document.querySelector(`#live-rows tr[data-stream="${k}"]`), verdict = document.getElementById("live-verdict");
const put = (field, key, value) => { field[key] = value; field.dispatchEvent(new Event("input", { bubbles: true })); };
for (const trial of [[], ...asked]) {
  document.getElementById("live-reset").click();
  for (const [k, reading] of trial) {
    if (reading === null) put(row(k).querySelector('input[type="checkbox"]'), "checked", false);
    else put(row(k).querySelector('input[type="text"]'), "value", reading);
  }
  const rows = [...document.querySelectorAll("#live-rows tr")].map((r) => [r.dataset.kind, r.dataset.flow, r.classList.contains("tried")]);
  told.push({ rows, said: { ...verdict.dataset }, text: verdict.textContent });
}
const out = document.createElement("script");
out.type = "application/json"; out.id = "probe";
out.textContent = JSON.stringify({ told, errors: window.errors, scripted: window.scripted });
document.body.append(out);
</script>
"""
CATCH = '<script>window.errors = []; addEventListener("error", (event) => window.errors.push(event.message));</script>'


def module_there():
    try:
        live.module()
    except Stopped:
        return False
    return True


here = pytest.mark.skipif(not module_there(), reason="no WebAssembly module: bash packaging/cross/build.sh wasm32 target/cross/wengeludo.wasm")


def made(run, tmp_path, path):
    """The page of a list, with the engine inside."""
    page = tmp_path / "page.html"
    run("sheet", path, "--live", "-o", page)
    return page.read_text(encoding="utf-8")


def data(text):
    return json.loads(re.search(r'id="live-given">(.*?)</script>', text, re.DOTALL)[1])


@here
@pytest.mark.parametrize("name", NAMES)
def test_what_the_page_hands_over(name, run, tmp_path):
    text = made(run, tmp_path, SAMPLES / name)
    given, site = data(text), read_site(SAMPLES / name)
    streams = tuple(engine.Stream(s["from"], s["to"], s["weight"], s["reading"] or 0, s["low"], s["high"]) for s in given["streams"])
    assert engine.write_plant(given["units"], streams) == site.file
    assert [s["label"] for s in given["streams"]] == [pipe.label for pipe in site.list.pipes]
    assert len(text.encode()) < MOST_BYTES and text.count("not kept") >= 2
    assert not re.search(r'(?:src|href)\s*=\s*"(?!#)|url\(|@import|\bfetch\(', re.sub(r"<svg.*?</svg>", "", text, flags=re.DOTALL)), "nothing is fetched"


@here
@pytest.mark.parametrize("name", CHECKED)
def test_a_list_whose_flows_the_engine_only_checks_has_no_live_page(name, run, tmp_path):
    ended = run("sheet", SAMPLES / name, "--live", "-o", tmp_path / "x.html")
    assert ended.status == 1 and "a page without --live would do" in ended.err and not (tmp_path / "x.html").exists()


@here
def test_the_largest_list_is_small_enough(run, listed, tmp_path):
    lines = ["stream,what,from,to,reading,accuracy,low,high"]
    lines += [f"{k},what runs in pipe number {k},place {k % 33},place {(k + 1 + k // 33) % 33},{k * 1000},20,0,{k * 2000 + 5}" for k in range(1, 97)]
    assert len(made(run, tmp_path, listed("\n".join(lines).replace("place 0,", "outside,"))).encode()) < MOST_BYTES


def test_it_is_for_pages_and_needs_the_module(run, tmp_path, monkeypatch):
    ended = run("sheet", SAMPLES / "listing.csv", "--live", "-o", tmp_path / "x.csv")
    assert ended.status == 2 and "--live is for a page" in ended.err and not (tmp_path / "x.csv").exists()
    monkeypatch.setenv("WENGELUDO_WASM", str(tmp_path / "none.wasm"))
    ended = run("sheet", SAMPLES / "listing.csv", "--live", "-o", tmp_path / "x.html")
    assert ended.status == 1 and "no WebAssembly module of the engine" in ended.err and not (tmp_path / "x.html").exists()


def trials(site, rng):
    """Readings changed and meters struck: pairs of a stream's place and its reading in kg/h, or none."""
    metered = [k for k, stream in enumerate(site.plant.streams) if stream.metered]
    for _ in range(12 if metered else 0):
        chosen = rng.sample(metered, min(len(metered), rng.randint(1, 3)))
        yield [(k, rng.choice((None, str(rng.randint(-90_000, 90_000)), f"{rng.uniform(0, 30_000):.3f}", f"{rng.randint(0, 999)}.5"))) for k in chosen]


def tried(site, trial):
    """The sheet of a trial by the binding: verdict, cost and degrees, then class and flow of each stream."""
    from fractions import Fraction

    streams = list(site.plant.streams)
    for k, reading in trial:
        old = streams[k]
        streams[k] = old.unmetered() if reading is None else engine.Stream(
            old.source, old.target, old.weight, round(Fraction(reading) / site.unit), old.low, old.high)
    try:
        sheet = engine.balance(engine.write_plant(site.plant.units, streams))
    except engine.Refusal as refusal:
        return {"verdict": f"refused {refusal.number}"}, [["", ""]] * len(streams)
    total = {"verdict": sheet.verdict.name.lower(), "cost": str(sheet.cost), "degrees": str(sheet.degrees)}
    return total, [[r.kind.value, "" if r.flow is None else str(r.flow)] for r in sheet.records]


def in_browser(text, asked, tmp_path):
    """What the page shows of each trial, the list as it is first."""
    asking = f'<script type="application/json" id="asked">{json.dumps(asked)}</script>'
    probe = tmp_path / "probe.html"
    probe.write_text(text.replace("<body", CATCH + "<body", 1).replace("</body>", asking + PROBE + "</body>"), encoding="utf-8")
    words = [CHROMIUM, "--headless", "--no-sandbox", "--disable-gpu", f"--user-data-dir={tmp_path / 'profile'}", f"--virtual-time-budget={PATIENCE}"]
    done = subprocess.run([*words, "--dump-dom", probe.as_uri()], capture_output=True, text=True, timeout=300)
    return json.loads(re.search(r'id="probe">(.*?)</script>', done.stdout, re.DOTALL)[1].replace("&lt;", "<").replace("&amp;", "&"))


@here
@pytest.mark.skipif(not CHROMIUM, reason="no chromium")
@pytest.mark.parametrize("name", NAMES)
def test_sheet_for_sheet_in_a_browser(name, run, tmp_path):
    text, site = made(run, tmp_path, SAMPLES / name), read_site(SAMPLES / name)
    asked = list(trials(site, random.Random(name)))
    shown = in_browser(text, asked, tmp_path)
    assert shown["errors"] == [] and len(shown["told"]) == 1 + len(asked)
    for trial, told in zip([[], *asked], shown["told"]):
        total, records = tried(site, trial)
        assert told["said"] == total, trial
        assert [row[:2] for row in told["rows"]] == records, trial
        assert [k for k, row in enumerate(told["rows"]) if row[2]] == sorted(k for k, _ in trial)
        assert told["text"].endswith("not kept") == bool(trial)


@here
@pytest.mark.skipif(not CHROMIUM, reason="no chromium")
def test_markup_is_no_markup_and_words_are_no_readings(run, listed, tmp_path):
    evil = "</script><img src=x onerror='window.scripted=1'>"
    path = listed(f'stream,what,from,to,reading,accuracy\n1,"{evil}",outside,"{evil}",100,5\n2,b,"{evil}",outside,103,5\n')
    shown = in_browser(made(run, tmp_path, path), [[(0, "many")], [(0, "1e3")], [(0, "99999999999")]], tmp_path)
    assert "scripted" not in shown and shown["errors"] == []
    assert [told["said"] for told in shown["told"][1:]] == [{}] * 3
    assert all(told["text"].startswith("No sheet: a reading is no number") for told in shown["told"][1:])
