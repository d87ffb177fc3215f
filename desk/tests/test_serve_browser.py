# SPDX-License-Identifier: LicenseRef-Wengeludo
"""The desk in a real browser: typing, striking, choosing, keeping; keyboard, contrast, names of fields, phone and print; a server that is killed."""

import json
import re

import pytest
from conftest import SAMPLES
from served import Served, browser, missing, wait

pytestmark = pytest.mark.skipif(bool(missing()), reason=f"the desk is not opened in a browser: {missing()}")
SITES = sorted(path.name for path in SAMPLES.iterdir() if path.suffix in (".csv", ".xlsx") and "histor" not in path.name and "export" not in path.name)
CONTRAST = """
const lum = c => { const v = c.map(x => { x /= 255; return x <= .03928 ? x / 12.92 : ((x + .055) / 1.055) ** 2.4; }); return .2126 * v[0] + .7152 * v[1] + .0722 * v[2]; };
const rgb = s => { const m = s.match(/[\\d.]+/g).map(Number); return m.length > 3 && m[3] === 0 ? null : m.slice(0, 3); };
const bg = e => { for (; e; e = e.parentElement) { const c = rgb(getComputedStyle(e).backgroundColor); if (c) return c; } return [255, 255, 255]; };
const out = new Set();
for (const e of document.querySelectorAll('main *, nav *')) {
  if (![...e.childNodes].some(n => n.nodeType === 3 && n.textContent.trim())) continue;
  const st = getComputedStyle(e), svg = e instanceof SVGElement, f = rgb(svg ? st.fill : st.color);
  if (!f) continue;
  const a = lum(f), b = lum(svg ? [255, 255, 255] : bg(e)), r = (Math.max(a, b) + .05) / (Math.min(a, b) + .05);
  if (r < 4.5) out.add(e.tagName + ' ' + (svg ? st.fill : st.color) + ' ' + r.toFixed(1) + ' ' + e.textContent.slice(0, 20));
}
const nameless = [...document.querySelectorAll('input:not([type=hidden]), select, button, a')]
  .filter(e => !(e.labels && e.labels.length) && !e.getAttribute('aria-label') && !e.textContent.trim()).map(e => e.outerHTML.slice(0, 80));
return [[...out], nameless];
"""


@pytest.fixture(scope="module")
def served(tmp_path_factory):
    one = Served(tmp_path_factory.mktemp("served") / "site.book")
    yield one
    one.stop()


@pytest.fixture(scope="module")
def page(served):
    driver = browser()
    driver.get(served.address)
    yield driver
    driver.quit()


def find(page, words):
    from selenium.webdriver.common.by import By

    return page.find_element(By.CSS_SELECTOR, words)


def text_of(page, words):
    return find(page, words).text.replace("\u202f", " ")


def take(page, served, path):
    """Takes a list by the form; the page of it."""
    page.get(f"{served.root}/")
    find(page, "#list").send_keys(str(path))
    find(page, ".upload button").click()
    wait(lambda: "/list/" in page.current_url)
    return page.current_url


def typed(page, words, value):
    field = find(page, words)
    field.clear()
    field.send_keys(value)


def quiet(page, served):
    """No error in the console, no request to another host."""
    errors = [entry["message"] for entry in page.get_log("browser") if entry["level"] == "SEVERE" and "/list/" not in entry["message"]]
    asked = [json.loads(entry["message"])["message"] for entry in page.get_log("performance")]
    urls = [one["params"]["request"]["url"] for one in asked if one["method"] == "Network.requestWillBeSent"]
    foreign = [url for url in urls if not url.startswith((served.root, "data:", "chrome:", "about:"))]
    assert not errors and not foreign


@pytest.mark.parametrize("name", SITES)
def test_every_sample_is_taken_and_shown(page, served, name):
    take(page, served, SAMPLES / name)
    pipes = len(page.execute_script("return [...document.querySelectorAll('table.sheet tbody tr')]"))
    assert pipes == len(page.execute_script("return [...document.querySelectorAll('.edge')]")) > 2
    low, nameless = page.execute_script(CONTRAST)
    assert not low and not nameless
    quiet(page, served)


def test_a_reading_is_typed_a_meter_struck_a_blank_chosen_and_all_taken_back(page, served):
    take(page, served, SAMPLES / "steam_site_off.csv")
    assert "fail" in text_of(page, "#head .verdict")
    typed(page, "input.reading[name=r9]", "8.479")
    wait(lambda: "is it 8479" in text_of(page, "#band"))
    assert find(page, "input.reading[name=r9]").get_attribute("aria-invalid") == "true"
    typed(page, "input.reading[name=r9]", "7.989,0")
    wait(lambda: "→ 7 989" in text_of(page, "#band") and "pass" in text_of(page, "#head .verdict"))
    assert "r9=7.989" in page.current_url and "(was " in text_of(page, "tr[data-stream='8'] .balanced")
    find(page, "[data-drop=all]").click()
    wait(lambda: not text_of(page, "#band"))
    assert find(page, "input.reading[name=r9]").get_attribute("value") == "8479" and "r9" not in page.current_url
    page.execute_script("document.querySelector('#stream-17').focus()")
    from selenium.webdriver.common.keys import Keys

    page.switch_to.active_element.send_keys(Keys.ENTER)
    wait(lambda: "ring of streams without meters" in text_of(page, "#side"))
    assert page.switch_to.active_element.get_attribute("id") == "stream-17"
    page.execute_script("document.querySelector(\"table.sheet [data-choose='8']\").click()")
    wait(lambda: find(page, "#px9"))
    find(page, "#px9").click()
    wait(lambda: "meter struck out" in text_of(page, "#band") and "pass" in text_of(page, "#head .verdict"))
    quiet(page, served)


def test_two_clicks_keep_one_sheet_and_a_reload_shows_it_again(page, served):
    take(page, served, SAMPLES / "steam_site.csv")
    find(page, ".keep summary").click()
    find(page, "#keepform select").send_keys("6")
    page.execute_script("const b = document.querySelector('#keepform button'); b.click(); b.click();")
    wait(lambda: "/sheet/6-" in page.current_url)
    first = page.current_url
    assert "Kept as sheet 1 of office 6" in text_of(page, ".done")
    page.get(f"{served.root}/book?office=6")
    assert len(re.findall(r'href="/sheet/6-', page.page_source)) == 1
    page.get(first)
    assert not page.find_elements("css selector", "input.reading") and "it passes" in text_of(page, ".title")


def test_the_server_is_killed_and_the_what_if_goes_on(page, served):
    take(page, served, SAMPLES / "steam_site.csv")
    served.kill()
    typed(page, "input.reading[name=r9]", "8000")
    wait(lambda: find(page, "#gone").is_displayed())
    served.start()
    find(page, "input.reading[name=r9]").send_keys("1")
    wait(lambda: "80 001" in text_of(page, "#band"))
    assert not find(page, "#gone").is_displayed()
    find(page, ".tokeep").click()
    find(page, "#keepform input[name=note]").send_keys("after a restart")
    find(page, "#keepform button").click()
    wait(lambda: "/sheet/0-" in page.current_url)
    page.get_log("browser")


def test_a_phone_does_not_scroll_sideways_and_a_print_has_two_pages(page, served, tmp_path):
    import base64

    take(page, served, SAMPLES / "steam_site.csv")
    path = page.current_url
    page.execute_cdp_cmd("Emulation.setDeviceMetricsOverride", {"width": 390, "height": 844, "deviceScaleFactor": 1, "mobile": True})
    try:
        for where in (path, f"{path}?stream=9&r9=8000", f"{served.root}/", f"{served.root}/book"):
            page.get(where)
            wide, high = page.execute_script("return [document.documentElement.scrollWidth, innerWidth]")
            assert wide <= high, where
        page.get(path)
        flows = page.execute_script("return [...document.querySelectorAll('td.balanced')].every(c => { const b = c.getBoundingClientRect(); return b.right <= innerWidth && b.left >= 0; })")
        assert flows
    finally:
        page.execute_cdp_cmd("Emulation.clearDeviceMetricsOverride", {})
    page.get(f"{path}?r9=8000")
    pdf = base64.b64decode(page.execute_cdp_cmd("Page.printToPDF", {"preferCSSPageSize": True, "printBackground": True})["data"])
    assert pdf.count(b"/Type /Page\n") + pdf.count(b"/Type /Page ") in (2, 3)


def test_people_come_in_by_their_password_and_see_what_they_may(tmp_path):
    pytest.importorskip("argon2", reason="people are not tried, as there is no argon2 (apt-get install python3-argon2)")
    from wengeludo.serve.people import People

    people = People(tmp_path / "people")
    people.add("planner", "correct horse planner", "reader", frozenset())
    people.add("boss", "correct horse boss", "admin", frozenset({1}))
    desk, driver = Served(tmp_path / "site.book", None, "--people", str(tmp_path / "people")), browser()
    try:
        for name, may in (("planner", False), ("boss", True)):
            driver.get(f"{desk.root}/book?office=1")
            wait(lambda: "/login" in driver.current_url)
            low, nameless = driver.execute_script(CONTRAST)
            assert not low and not nameless
            find(driver, "[name=name]").send_keys(name)
            find(driver, "[name=password]").send_keys(f"correct horse {name}")
            find(driver, ".login button").click()
            wait(lambda: "/book?office=1" in driver.current_url)
            driver.get(f"{desk.root}/")
            assert bool(driver.find_elements("css selector", ".upload")) is may
            driver.get(f"{desk.root}/people")
            assert ("Somebody new" in driver.page_source) is may
            low, nameless = driver.execute_script(CONTRAST)
            assert not low and not nameless
            find(driver, "form[action='/logout'] button").click()
            wait(lambda: "/login" in driver.current_url)
    finally:
        driver.quit()
        desk.stop()
