# SPDX-License-Identifier: LicenseRef-Wengeludo
"""The scripts of the pages in node, in a small document (dom.js): what a click, a key or a typed number does to the page, kept as text.

WENGELUDO_GOLDEN=write  writes the pages anew
"""

import json
import re
import shutil
import subprocess
from pathlib import Path

import pytest
from conftest import SAMPLES
from test_golden import same

import wengeludo.history
import wengeludo.serve
import wengeludo.write

pytestmark = pytest.mark.skipif(not shutil.which("node"), reason="no node: the pages' scripts are not run")
DOM = Path(__file__).parent / "dom.js"
START = """
"use strict";
const { Node, document, read, root, page, calls } = require(DOM);
const given = JSON.parse(require("fs").readFileSync(0, "utf8"));
globalThis.document = document;
read(given.page, root);
const out = [];
const tell = (what, node) => out.push(`== ${what}`, ...calls.splice(0), ...(node ? [page(node)] : []));
const timers = new Map(), soon = setImmediate; // a clock that goes on when it is told to
let now = 0, last = 0;
globalThis.setTimeout = (call, some = 0) => { timers.set(++last, { at: now + some, call }); return last; };
globalThis.clearTimeout = (id) => timers.delete(id);
const wait = async (some = 0) => {
  now += some;
  for (const [id, { at, call }] of [...timers]) if (at <= now && timers.delete(id)) call();
  for (let k = 0; k < 20; k += 1) await new Promise((done) => soon(done));
};
"""


def ran(page, script, acts, **more):
    """What a script and what is done then tell."""
    program = f"const DOM = {json.dumps(str(DOM))};{START}\n(async () => {{\n{acts}\nconsole.log(out.join('\\n'));\n}})();"
    given = json.dumps({"page": page, "script": script, **more})
    done = subprocess.run(["node", "-e", program], input=given, capture_output=True, text=True, timeout=60)
    assert done.returncode == 0, done.stderr
    return done.stdout


def script_of(package, name):
    return (Path(package.__file__).parent / name).read_text(encoding="utf-8")


def test_the_page_of_a_sheet(run, tmp_path):
    """Sorting by each column both ways, and rows and lines lit together."""
    run("sheet", SAMPLES / "small_header.csv", "-o", tmp_path / "page.html")
    acts = """
(0, eval)(given.script);
const body = document.querySelector("tbody"), order = () => body.rows.map((row) => row.dataset.stream).join(" ");
for (const head of document.querySelectorAll("th")) for (const turn of [1, 2, 3]) {
  head.firstElementChild.click();
  tell(`${head.textContent.trim()} ${document.querySelectorAll("th").map((one) => one.getAttribute("aria-sort")).join(" ")}: ${order()}`);
}
const lit = () => document.querySelectorAll(".lit").map((one) => one.id || one.dataset.stream).join(" ");
body.rows[1].dispatch("mouseenter"); tell(`lit ${lit()}`);
body.rows[1].dispatch("mouseleave"); tell(`lit ${lit()}`);
const edge = document.querySelectorAll("svg .edge")[2];
edge.dispatch("mouseenter"); tell(`lit ${lit()}`);
edge.dispatch("mouseleave"); tell(`lit ${lit()}`);
edge.click(); tell("clicked");
"""
    page = (tmp_path / "page.html").read_text(encoding="utf-8")
    same("script_page.txt", ran(page, script_of(wengeludo.write, "templates/page.js"), acts))


def test_the_page_of_a_history(run, tmp_path):
    """A click on a week shows its sheet; on another, that one; then none."""
    run("history", SAMPLES / "history" / "steam_site.csv", SAMPLES / "history" / "export.csv", "--jobs", "1", "-o", tmp_path / "run.html")
    acts = """
globalThis.addEventListener = (name, call) => call();
(0, eval)(given.script);
const field = (number) => document.querySelectorAll(".week").find((one) => one.dataset.week === number);
tell("fields", document.querySelectorAll(".weeks")[0]);
const told = JSON.parse(document.getElementById("sheets").textContent);
for (const number of [Object.keys(told.weeks)[0], "10", "3"]) {
  field(number).click();
  tell(`week ${number}, open ${document.querySelectorAll(".open").length}`, document.getElementById("week"));
}
document.getElementById("week-close").click();
tell(`closed, open ${document.querySelectorAll(".open").length}, ${document.getElementById("week").hidden}`);
delete told.weeks["10"];
"""
    same("script_run.txt", ran((tmp_path / "run.html").read_text(encoding="utf-8"), script_of(wengeludo.history, "templates/run.js"), acts))


def test_the_live_page():
    """Readings changed, meters struck, faults told, all put back; the engine is a stand-in that says what it is asked."""
    streams = [
        {"label": "1", "what": "in", "from": 0, "to": 1, "weight": 5, "reading": 200, "text": "100", "low": None, "high": None},
        {"label": "2", "what": "out", "from": 1, "to": 0, "weight": 5, "reading": 203, "text": "101.5", "low": 0, "high": 900},
        {"label": "3", "what": "drain", "from": 1, "to": 0, "weight": None, "reading": None, "text": "", "low": None, "high": None},
    ]
    given = {"unit": [1, 2], "decimals": 1, "units": 1, "streams": streams, "how": {"A": "adjusted", "W": "blank"}, "verdict": {"pass": "pass: fine", "none": "none"},
             "critical": [3841, 5991], "places": ["outside", "tank"]}
    page = ('<body><div id="live"><p id="live-verdict"></p><table><thead><tr id="live-heads"></tr></thead><tbody id="live-rows"></tbody></table><button id="live-reset"></button>'
            f'<script id="live-given">{json.dumps(given)}</script><script id="live-wasm">H4sIAAAAAAAAA0tMSgYAwkEkNQMAAAA=</script></div></body>')
    acts = """
class Refusal extends Error { constructor(number, places) { super("no"); Object.assign(this, { number, places, text: `refused by ${number}` }); } }
let refuse = null;
const seen = [];
const load = async (bytes) => ({ bytes: new TextDecoder().decode(bytes), version: () => `version over ${new TextDecoder().decode(bytes)}`,
  writePlant: (units, streams) => { seen.push(JSON.stringify([units, streams], (key, value) => typeof value === "bigint" ? String(value) : value)); return streams; },
  balance: (streams) => {
    if (refuse) throw refuse;
    const degrees = streams.filter((one) => one.weight !== undefined).length - 1;
    return { degrees, cost: 1234567n, verdict: degrees > 0 ? "pass" : "none", records: streams.map((one, k) => ({ kind: k < 2 ? "A" : "W", flow: k < 2 ? 201n : null })) };
  } });
await new (Object.getPrototypeOf(async function () {}).constructor)("load", "Refusal", given.script)(load, Refusal);
const row = (k) => document.querySelectorAll("#live-rows tr")[k], fields = (k) => row(k).querySelectorAll("input");
const live = document.getElementById("live");
const put = (field, more) => { Object.assign(field, more); field.dispatch("input"); };
tell(seen.splice(0).join(" "), live);
for (const text of ["102.25", "102,75", "-7", "−7.25", "1 000 000", "2000000", "2000001", "-2000001", "x", "", "100"]) {
  put(fields(0)[0], { value: text });
  tell(`${text}: ${seen.splice(0).join(" ")}`, live);
}
put(fields(1)[1], { checked: false });
tell(`struck ${seen.splice(0).join(" ")}`, live);
document.getElementById("live-reset").click();
tell(`reset ${seen.splice(0).join(" ")}`, live);
refuse = new Refusal(19, [1]); put(fields(0)[0], { value: "7" }); tell("19", document.getElementById("live-verdict"));
refuse = new Refusal(5, []); put(fields(0)[0], { value: "8" }); tell("5", document.getElementById("live-verdict"));
"""
    source = script_of(wengeludo.write, "templates/live.js")
    same("script_live.txt", ran(page, source, acts))


def test_the_page_of_the_desk(tmp_path, monkeypatch):
    """What is typed goes into the address and is asked for after a while; what comes back is put into the page."""
    pytest.importorskip("flask", reason="the desk is not served, as there is no Flask (apt-get install python3-flask)")
    from test_stories import Browser, Then
    from wengeludo.keep import schema

    monkeypatch.setattr(schema, "datetime", Then)
    for name in ("steam_site_off.csv", "small_header.csv"):
        shutil.copy(SAMPLES / name, tmp_path)
    monkeypatch.chdir(tmp_path)
    browser = Browser(tmp_path)
    browser("take", "small_header.csv")
    page = browser.client.get("/list/1?stream=2", **browser.base).text
    part = browser.client.get("/list/1?r1=900&stream=2", headers={"X-Part": "1"}, **browser.base).json
    page, part = (json.loads(re.sub(r"\b[0-9a-f]{32}\b|(?<=[?])[0-9a-f]{8}\b", "0", json.dumps(one))) for one in (page, part))
    page = re.sub(r'(?<=name="csrf" value=")[^"]+', "", re.sub(r"<svg\b.*?</svg>", '<svg><g class="edge" data-stream="1"></g><g class="label chosen"></g></svg>', page, flags=re.S))
    part["drawing"] = '<svg><g class="edge" data-stream="1"></g></svg>'
    part = {name: re.sub(r'(?<=name="csrf" value=")[^"]+', "", one) if isinstance(one, str) else one for name, one in part.items()}
    same("script_serve.txt", ran(page, script_of(wengeludo.serve, "static/serve.js"), SERVE, part=part))


SERVE = """
const asked = [];
let answer = { status: 200, ok: true, redirected: false };
Object.assign(globalThis, { location: { search: "?stream=2&kept=now", pathname: "/list/1", reload: () => calls.push("reload") },
  history: { replaceState: (...words) => calls.push(`address ${JSON.stringify(words)}`) }, print: () => calls.push("print"), matchMedia: (text) => ({ matches: (calls.push(text), true) }),
  fetch: async (address, more) => {
    asked.push(more.signal);
    calls.push(`asked ${address} ${JSON.stringify(more.headers)}`);
    if (answer === null) throw new Error("gone");
    return { ...answer, json: async () => given.part };
  } });
(0, eval)(given.script);
const $ = (id) => document.getElementById(id), all = document.querySelectorAll;
const body = document.querySelector("table.sheet tbody"), rows = () => body.rows.map((row) => `${row.dataset.stream}${row.hidden ? " hidden" : ""}`).join(", ");
const field = document.querySelectorAll("input.reading")[0];
field.focus(); field.value = " 900 "; field.selectionStart = 3;
field.dispatch("input"); field.dispatch("input");
tell("typed"); await wait(60); tell("not yet"); await wait(120); await wait();
tell("shown", document.body);
field.value = field.dataset.base; field.dispatch("input"); await wait(200); tell("as it was");
answer = { status: 403, ok: false }; field.value = "5"; field.dispatch("input"); await wait(200); tell(`not allowed, gone ${!$("gone").hidden}`);
answer = { status: 200, ok: true, redirected: true }; field.dispatch("input"); await wait(200); tell(`led elsewhere, gone ${!$("gone").hidden}`);
answer = { status: 500, ok: false }; field.dispatch("input"); await wait(200); tell(`failed, gone ${!$("gone").hidden}`);
answer = null; field.dispatch("input"); await wait(200); tell(`no server, gone ${!$("gone").hidden}`);
answer = { status: 200, ok: true }; field.dispatch("input"); await wait(200); tell(`back, gone ${!$("gone").hidden}`);
const side = $("side").querySelectorAll("input").find((one) => one.id && one.type === "text");
side.focus(); side.value = " 77 "; side.selectionStart = 2; side.dispatch("input"); await wait(200);
tell(`in the side ${document.activeElement !== side} ${document.activeElement.id === side.id}`, document.activeElement);
const keep = asked.length;
for (const key of ["Enter", " ", "a"]) { document.querySelector(".edge").dispatch("keydown", { key }); await wait(); tell(`key ${key}: ${asked.length - keep} ${asked.map((one) => one.aborted ? 1 : 0).join("")}`); }
for (const more of [{}, { ctrlKey: true }, { metaKey: true }]) { document.querySelector(".edge").click(more); await wait(); tell(`edge ${JSON.stringify(more)}`); }
for (const one of document.querySelectorAll("[data-choose]").slice(0, 1)) { one.click(); await wait(); tell("chosen"); }
for (const one of [...document.querySelectorAll("[data-drop]")].slice(0, 2)) { one.click(); await wait(); tell(`dropped ${one.dataset.drop}`); }
for (const one of document.querySelectorAll(".tokeep").slice(0, 1)) { one.click(); tell(`to keep ${$("keep").open}`); }
for (const id of ["keepform", "readings"]) if ($(id)) { $(id).dispatch("submit"); await wait(); tell(`submitted ${id}`, $(id).querySelector("button")); }
for (const name of ["mouseover", "mouseout"]) { body.rows[1].dispatch(name); tell(`${name} ${document.querySelectorAll(".lit").map((one) => `${one.tag} ${one.dataset.stream}`).join(", ")}`); }
for (const button of document.querySelectorAll("#filter button")) { button.click(); tell(`${button.dataset.filter}: ${rows()}`, $("filter")); }
$("filter").click(); tell("beside a button");
document.querySelectorAll("#filter button")[0].click();
for (const turn of [1, 2]) { $("zoom").click(); tell(`zoom ${$("drawing").className}`, $("zoom")); }
$("print").click(); tell("print");
for (const head of document.querySelectorAll("table.sheet th")) for (const turn of [1, 2]) {
  head.click();
  tell(`${head.textContent.trim().replace(/\\\\s+/g, " ")} ${document.querySelectorAll("table.sheet th").map((one) => one.getAttribute("aria-sort")).join(" ")}: ${rows()}`);
}
"""
