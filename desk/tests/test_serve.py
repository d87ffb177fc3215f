# SPDX-License-Identifier: LicenseRef-Wengeludo
"""The desk in a browser, page by page: what it shows, what it refuses, and each of its nine guards."""

import io
import re
import socket
import sys
import threading
import time
import zipfile
from html.parser import HTMLParser
from pathlib import Path

import openpyxl
import pytest

flask = pytest.importorskip("flask", reason="the desk is not served, as there is no Flask (apt-get install python3-flask)")

from conftest import SAMPLES
from wengeludo.cli import main
from wengeludo.read.faults import Stopped
from wengeludo.serve import upload, words
from wengeludo.serve.app import application
from wengeludo.serve.changes import trial_of
from wengeludo.serve.door import POLICY, Door
from wengeludo.serve.run import door_of, key_in, names_of
from wengeludo.serve.shelf import Shelf

KEY = "a-key-for-the-test"
HOST = "127.0.0.1:8417"
BASE = {"base_url": f"http://{HOST}"}
EVIL = (
    'stream,what,from,to,reading,accuracy\n1,"<script>alert(1)</script>",outside,"<img src=x onerror=alert(2)>",100,5\n'
    '2,"=1+1","<img src=x onerror=alert(2)>",outside,101,5\n'
)


@pytest.fixture
def shelf(tmp_path):
    return Shelf.opened(str(tmp_path / "site.book"))


@pytest.fixture
def desk(shelf):
    """A browser that has come in with the key."""
    client = application(shelf, Door((HOST,), key=KEY)).test_client()
    assert client.get(f"/?key={KEY}", **BASE).status_code == 303
    return client


def csrf(client):
    return re.search(r'name="csrf" value="([^"]+)"', client.get("/", **BASE).text)[1]


def take(client, name="steam_site.csv", data=None):
    """A list sent by the form; the answer."""
    data = (SAMPLES / name).read_bytes() if data is None else data
    form = {"csrf": csrf(client), "list": (io.BytesIO(data), name)}
    return client.post("/lists", data=form, content_type="multipart/form-data", **BASE)


def keep(client, path="list/1", request="0" * 32, **more):
    form = {"csrf": csrf(client), "request": request, "base": path, "office": "3", **more}
    return client.post("/keep", data=form, **BASE)


def tables(text):
    """The rows of the streams' table, tags left out."""
    body = text[text.index('<table class="sheet') :]
    return [re.sub(r"<[^>]*>", " ", row) for row in re.findall(r"<tr class=.*?</tr>", body, re.S)]


def test_a_list_is_taken_shown_kept_and_found(desk):
    answer = take(desk)
    assert (answer.status_code, answer.headers["Location"]) == (303, "/list/1")
    page = desk.get("/list/1", **BASE).text
    assert "pass: the meters agree" in page and len(tables(page)) == 26 and "no number yet" in page
    files = re.findall(r'<a href="([^"]+)" data-download>', page)
    assert [name.split("?")[0] for name in files] == ["/list/1.xlsx", "/list/1.csv", "/list/1.html"] and {desk.get(name, **BASE).status_code for name in files} == {200}
    kept = keep(desk)
    assert (kept.status_code, kept.headers["Location"]) == (303, "/sheet/3-1?kept=now")
    shown = desk.get("/sheet/3-1?kept=now", **BASE).text
    assert "Kept as sheet 1 of office 3." in shown and "checked again by the engine: it passes" in shown and 'class="reading"' not in shown
    book = desk.get("/book?q=dryers", **BASE).text
    assert 'href="/sheet/3-1"' in book
    assert 'href="/sheet/3-1"' not in desk.get("/book?q=nothing+of+that+name", **BASE).text
    assert 'href="/sheet/3-1"' not in desk.get("/book?office=4", **BASE).text and 'href="/sheet/3-1"' not in desk.get("/book?verdict=fail", **BASE).text
    assert desk.get("/book?q=3-1", **BASE).headers["Location"] == "/sheet/3-1"


def test_a_what_if_is_in_the_address_and_nowhere_else(desk, shelf):
    take(desk, "steam_site_off.csv")
    before = desk.get("/list/1", **BASE).text
    assert "fail: the meters contradict each other" in before and "What-if" not in before
    struck = desk.get("/list/1?x9=1", **BASE).text
    assert "What-if: not kept." in struck and "fail → <b>pass</b>" in re.sub(r"\s+", " ", struck) and "(was " in struck
    assert desk.get("/list/1", **BASE).text.count("What-if") == before.count("What-if")
    assert shelf.lasts() == (0,) * 8 and len(shelf.lists(None, 9)) == 1
    part = desk.get("/list/1?x9=1", headers={"X-Part": "1"}, **BASE).json
    first = desk.get("/list/1", headers={"X-Part": "1"}, **BASE).json
    moved = [k for k, (row, old) in enumerate(zip(part["rows"], first["rows"])) if row[0] != old[0]]
    assert moved and [k for k, row in enumerate(part["rows"]) if row[1]] == moved and all(part["rows"][k][1] == first["rows"][k][0] for k in moved)
    assert part["tone"] == "good" and part["whatif"] and part["changed"] == [8] and len(part["rows"]) == 26
    assert all(cell in struck for row in part["rows"] for cell in (row[0], row[1]) if cell)


def test_a_number_that_may_be_either_is_asked_back(desk):
    take(desk)
    for text, fault in (("8.479", "is it 8479"), ("8,479", "is it 8479"), ("seven", "a number would do"), ("1e99", "too large")):
        page = desk.get("/list/1", query_string={"r9": text}, **BASE).text
        assert fault in page and "not counted" in page and "pass: the meters agree" in page, text
    for text, read in (("7989,5", "7\u202f989.5"), ("7.989,0", "7\u202f989"), ("7,989.0", "7\u202f989"), ("7\u202f989", "7\u202f989")):
        assert f"<b>{read}</b>" in desk.get("/list/1", query_string={"r9": text}, **BASE).text, text
    desk.set_cookie(HOST.split(":")[0], "decimal", ",")
    assert "<b>8\u202f479</b>" in desk.get("/list/1?r9=8.479", **BASE).text


def test_changes_that_do_not_go_together_are_told_and_not_counted(shelf):
    from wengeludo.balance.site import read_site

    site = read_site(SAMPLES / "steam_site.csv")
    assert trial_of(site, {"l9": "9000", "h9": "8000"}).faults == {"l9": "low is above high", "h9": "low is above high"}
    assert "accuracy" in trial_of(site, {"r18": "100"}).faults["r18"]
    for words, most in (({"r9": "99999999999"}, "4,000,000"), ({"r9": "8000", "h9": "1e12"}, "2,000,000,000")):
        assert trial_of(site, words).faults == dict.fromkeys(words, f"in units of 1 kg/h it is over {most}: a larger unit would do")
    assert not trial_of(site, {"r9": "7979"}).changes and not trial_of(site, {"r99": "1", "z1": "2", "x18": "1"}).changes
    good = trial_of(site, {"r18": "100", "a18": "±5"})
    assert not good.faults and good.site.list.pipes[17].reading == 100 and good.streams == {17}


def test_a_changed_sheet_needs_a_note_and_a_sheet_is_kept_once(desk, shelf):
    take(desk)
    assert keep(desk, r9="8000").status_code == 422 and keep(desk, r9="8.479", note="why").status_code == 422
    assert shelf.lasts()[3] == 0
    for _ in range(3):
        assert keep(desk, r9="8000", note="read at the meter").headers["Location"].startswith("/sheet/3-1")
    assert shelf.lasts()[3] == 1
    other = keep(desk, r9="8001", note="read at the meter")
    assert other.status_code == 409 and "another sheet" in other.text
    page = desk.get("/sheet/3-1", **BASE).text
    assert "Kept with changed fields" in page and "7979 → 8000" in page and "read at the meter" in page


def test_eight_at_once_each_sent_twice_draw_eight_numbers(shelf):
    app = application(shelf, Door((HOST,), key=KEY))
    first = app.test_client()
    first.get(f"/?key={KEY}", **BASE)
    take(first)
    token, found = csrf(first), []

    def work(k):
        client = app.test_client()
        client.get(f"/?key={KEY}", **BASE)
        form = {"csrf": token, "request": f"{k:032x}", "base": "list/1", "office": "7"}
        found.extend(client.post("/keep", data=form, **BASE).headers["Location"] for _ in range(2))

    threads = [threading.Thread(target=work, args=(k,)) for k in range(8)]
    [one.start() for one in threads]
    [one.join() for one in threads]
    assert sorted(found) == sorted(f"/sheet/7-{n}?kept=now" for n in range(1, 9) for _ in range(2)) and shelf.lasts()[7] == 8


def test_a_form_older_than_the_login_is_told(doorway, shelf):
    brandt = doorway("brandt")
    take(brandt)
    old = csrf(brandt)
    brandt.post("/logout", data={"csrf": old}, **BASE)
    brandt.post("/login", data={"name": "brandt", "password": "correct horse brandt"}, **BASE)
    stale = brandt.post("/keep", data={"csrf": old, "request": "d" * 32, "base": "list/1", "office": "3"}, **BASE)
    assert stale.status_code == 403 and "reload it" in stale.text and shelf.lasts()[3] == 0


def test_files_of_what_is_not_kept_say_so(desk):
    take(desk)
    for form in ("csv", "json", "svg", "html", "xlsx"):
        answer = desk.get(f"/list/1.{form}?r9=8000", **BASE)
        assert answer.status_code == 200 and "what-if" in answer.headers["Content-Disposition"]
        text = answer.data.decode("utf-8", "replace")
        if form == "xlsx":
            text = "".join(str(row[0]) for row in openpyxl.load_workbook(io.BytesIO(answer.data)).active.iter_rows(values_only=True))
        assert "NOT KEPT" in text, form
    keep(desk)
    assert "NOT KEPT" not in desk.get("/sheet/3-1.json", **BASE).text
    assert desk.get("/list/1.exe", **BASE).status_code == 404


def test_two_sheets_are_compared_the_older_left(desk):
    take(desk)
    take(desk, "steam_site_off.csv")
    keep(desk)
    keep(desk, "list/2", "1" * 32)
    page = desk.get("/compare?s=3-2&s=3-1", **BASE).text
    assert page.index("3-1") < page.index("3-2") and len(re.findall(r"<tr class=", page)) == 26 and "▲" in page
    assert desk.get("/compare?s=3-1", **BASE).status_code == 400


def test_german_words_by_the_browser_and_by_the_reader(desk):
    german = desk.get("/", headers={"Accept-Language": "de-AT,de;q=0.9,en;q=0.5"}, **BASE).text
    assert '<html lang="de">' in german and "Übernehmen" in german
    assert '<html lang="en">' in desk.get("/", headers={"Accept-Language": "en-GB,de;q=0.9"}, **BASE).text
    assert desk.get("/words?to=de&then=/book", **BASE).headers["Location"] == "/book"
    assert '<html lang="de">' in desk.get("/book", headers={"Accept-Language": "en"}, **BASE).text
    assert desk.get("/words?to=de&then=//evil.example", **BASE).headers["Location"] == "/"


def test_every_word_of_the_pages_has_its_german():
    folder = SAMPLES.parent / "src" / "wengeludo" / "serve"
    texts = [path.read_text(encoding="utf-8") for path in (*folder.glob("templates/*.html"), *folder.glob("*.py"))]
    said = {one for text in texts for pair in re.findall(r"""(?:\b_|g\.say)\((?:"([^"]+)"|'([^']+)')\)""", text) for one in pair if one}
    assert len(said) > 80 and not [word for word in said if word not in words.GERMAN]


# -- the nine guards


def test_guard_1_the_machine_itself_with_a_key_and_others_with_people(shelf, tmp_path, monkeypatch):
    monkeypatch.setenv("XDG_STATE_HOME", str(tmp_path))
    client = application(shelf, Door((HOST,), key=KEY)).test_client()
    assert client.get("/", **BASE).status_code == 403 and client.get("/?key=wrong", **BASE).status_code == 403
    came = client.get(f"/?key={KEY}", **BASE)
    cookie = came.headers["Set-Cookie"]
    assert came.headers["Location"] == "/" and "HttpOnly" in cookie and "SameSite=Strict" in cookie and client.get("/", **BASE).status_code == 200
    for host, people, names, plain in (("192.0.2.1", None, (), False), ("192.0.2.1", tmp_path / "p", (), False), ("nowhere", None, (), False)):
        with pytest.raises(Stopped):
            door_of(host, 8417, people, names, plain)
    for names, plain in (((), False), (("desk.example",), False), ((), True)):
        with pytest.raises(Stopped, match="--people"):  # whatever else is said, nobody comes in from elsewhere without a password
            door_of("192.0.2.1", 8417, None, names, plain)
    assert door_of("127.0.0.1", 8417, None, (), False).key


def test_the_key_stays_after_a_restart_and_is_readable_by_its_owner_alone(tmp_path):
    one = key_in(tmp_path / "state")
    assert len(one) > 20 and key_in(tmp_path / "state") == one and key_in(tmp_path / "other") != one
    assert (tmp_path / "state" / "serve.key").stat().st_mode & 0o777 == 0o600


def test_guard_2_names_origins_and_tokens(desk, shelf):
    assert desk.get("/", base_url="http://evil.example").status_code == 421
    take(desk)
    form = {"csrf": csrf(desk), "request": "0" * 32, "base": "list/1", "office": "3"}
    assert desk.post("/keep", data=form, headers={"Origin": "http://evil.example"}, **BASE).status_code == 403
    assert desk.post("/keep", data={**form, "csrf": "x"}, **BASE).status_code == 403 and desk.post("/keep", data={}, **BASE).status_code == 403
    assert shelf.lasts()[3] == 0
    assert desk.post("/keep", data=form, headers={"Origin": f"http://{HOST}"}, **BASE).status_code == 303
    assert names_of("127.0.0.1", 1, ()) == ("127.0.0.1:1", "localhost:1")


@pytest.fixture
def people(tmp_path):
    pytest.importorskip("argon2", reason="people are not tried, as there is no argon2 (apt-get install python3-argon2)")
    from wengeludo.serve.people import People

    found = People(tmp_path / "people")
    found.add("planner", "correct horse planner", "reader", frozenset())
    found.add("brandt", "correct horse brandt", "engineer", frozenset({3}))
    found.add("boss", "correct horse boss", "admin", frozenset())
    return found


@pytest.fixture
def doorway(shelf, people):
    app = application(shelf, Door((HOST,), people))

    def login(name, password=None):
        client = app.test_client()
        client.answer = client.post("/login", data={"name": name, "password": password or f"correct horse {name}", "then": "/book"}, **BASE)
        return client

    return login


def test_guard_3_passwords_tokens_and_guesses(doorway, people):
    brandt = doorway("brandt")
    assert brandt.answer.headers["Location"] == "/book" and "HttpOnly" in brandt.answer.headers["Set-Cookie"] and "SameSite=Lax" in brandt.answer.headers["Set-Cookie"]
    token = re.match(r"wengeludo=([^;]+)", brandt.answer.headers["Set-Cookie"])[1].encode()
    held = people.base.execute("SELECT token, hash FROM sessions JOIN users USING (name)").fetchall()
    assert held and all(token not in one and b"correct" not in two.encode() and two.startswith("$argon2id$v=19$m=65536,t=3,p=1$") for one, two in held)  # 64 MB, thrice
    people.set("brandt", "engineer", frozenset({3}), disabled=True)
    assert brandt.get("/", **BASE).status_code == 303  # out at once
    assert [doorway("boss", f"guess {k}").answer.status_code for k in range(6)] == [403] * 5 + [429]
    assert doorway("boss").answer.status_code == 429
    people.base.execute("UPDATE failures SET at = at - 1000")
    boss = doorway("boss")
    assert boss.answer.status_code == 303 and boss.get("/", **BASE).status_code == 200
    people.base.execute("UPDATE sessions SET seen = seen - 7300")
    assert boss.get("/", **BASE).status_code == 303  # unused for two hours
    assert "password is too short" in str(pytest.raises(Stopped, people.add, "x", "short", "reader", frozenset()).value)


def test_guard_3_guesses_are_counted_by_the_address_they_come_from(doorway, people):
    people.hasher = type(people.hasher)(time_cost=1, memory_cost=64, parallelism=1)  # 21 guesses, by names that are not there
    people.nobody = people.hasher.hash("nobody")
    client = doorway("nobody").application.test_client()

    def guessed(name, address):
        return client.post("/login", data={"name": name, "password": "x", "then": "/book"}, environ_base={"REMOTE_ADDR": address}, **BASE).status_code

    people.base.execute("DELETE FROM failures")
    assert [guessed(f"name {k}", "192.0.2.1") for k in range(21)] == [403] * 20 + [429]
    assert guessed("another", "192.0.2.1") == 429 and guessed("another", "192.0.2.2") == 403


def test_guard_4_roles_hold_at_the_route(doorway, shelf):
    brandt, planner, boss = doorway("brandt"), doorway("planner"), doorway("boss")
    assert take(brandt).status_code == 303 and keep(brandt).status_code == 303
    assert keep(brandt, request="2" * 32, office="4").status_code == 403  # not her office
    assert planner.get("/list/1?x9=1", **BASE).status_code == 200 and "Keep this sheet" not in planner.get("/list/1", **BASE).text
    token = re.search(r'name="csrf" value="([^"]+)"', planner.get("/", **BASE).text)[1]
    assert planner.post("/keep", data={"csrf": token, "request": "3" * 32, "base": "list/1", "office": "3"}, **BASE).status_code == 403
    assert planner.post("/lists", data={"csrf": token, "list": (io.BytesIO(b"x"), "x.csv")}, content_type="multipart/form-data", **BASE).status_code == 403
    assert planner.get("/people", **BASE).status_code == 403 and boss.get("/people", **BASE).status_code == 200
    token = re.search(r'name="csrf" value="([^"]+)"', boss.get("/people", **BASE).text)[1]
    added = boss.post("/people", data={"csrf": token, "new": "1", "name": "mayr", "role": "engineer", "offices": "1", "password": "correct horse mayr"}, **BASE)
    assert added.status_code == 303 and doorway("mayr").answer.status_code == 303
    assert boss.post("/people", data={"csrf": token, "new": "1", "name": "x", "role": "king", "password": "correct horse"}, **BASE).status_code == 422
    assert shelf.lasts()[3] == 1


class Tags(HTMLParser):
    """The tags of a page with their attributes."""

    def __init__(self):
        super().__init__()
        self.seen = []

    def handle_starttag(self, tag, attrs):
        self.seen.append((tag, dict(attrs)))


def test_guard_5_the_policy_and_no_style_and_names_that_are_markup(desk):
    take(desk, "evil.csv", EVIL.encode())
    keep(desk)
    for path in ("/", "/list/1", "/list/1?stream=1&x1=1", "/book", "/sheet/3-1", "/compare?s=3-1&s=3-1", "/nothing"):
        answer = desk.get(path, **BASE)
        assert answer.headers["Content-Security-Policy"] == POLICY and answer.headers["X-Content-Type-Options"] == "nosniff"
        tags = Tags()
        tags.feed(answer.text)
        assert not [one for one in tags.seen if one[0] in ("img", "style", "iframe") or "style" in one[1] or any(name.startswith("on") for name in one[1])], path
        assert all("src" in one[1] for one in tags.seen if one[0] == "script"), path
    assert "unsafe" not in POLICY and "&lt;script&gt;alert(1)" in desk.get("/list/1", **BASE).text


def test_guard_6_no_path_comes_from_the_user(desk, tmp_path):
    for path in ("/list/../../etc/passwd", "/sheet/9-1", "/sheet/3-1;x", "/list/99999999999999", "/runs/..%2fsite.book", "/static/../app.py", "/list/1%00"):
        assert desk.get(path, **BASE).status_code in (404, 308), path
    assert upload.name_of("../../etc/passwd") == "passwd" and upload.name_of("C:\\a\\b.csv") == "b.csv" and upload.name_of(".hidden") == "hidden"


def packed(parts):
    data = io.BytesIO()
    with zipfile.ZipFile(data, "w", zipfile.ZIP_DEFLATED) as file:
        for name, text in parts.items():
            file.writestr(name, text)
    return data.getvalue()


def workbook(strings):
    """A workbook whose table of texts is this one."""
    data = io.BytesIO()
    book = openpyxl.Workbook()
    book.active.append(["stream", "from", "to", "reading", "accuracy"])
    book.active.append(["1", "outside", "a", 1, 1])
    book.save(data)
    parts = zipfile.ZipFile(data)
    names = [name for name in parts.namelist() if name != "xl/sharedStrings.xml"]
    return packed({**{name: parts.read(name) for name in names}, "xl/sharedStrings.xml": strings})


def test_guard_7_says_which_limit_and_reads_with_little(monkeypatch):
    many = {str(k): b"" for k in range(upload.MOST_PARTS)}
    upload.looked_over("most.csv", b"x" * upload.MOST_BYTES)
    upload.looked_over("most.xlsx", packed(many))
    upload.looked_over("most.xlsx", packed({"x": b" " * upload.MOST_UNPACKED}))
    for name, data, told in (
        ("a.csv", b"x" * (upload.MOST_BYTES + 1), "larger than 2,000,000 bytes"), ("a.xlsx", packed({"x": b" " * (upload.MOST_UNPACKED + 1)}), "unpacked the workbook"),
        ("a.xlsx", packed({**many, "one more": b""}), "unpacked the workbook"),
    ):
        with pytest.raises(upload.Unreadable, match=told):
            upload.looked_over(name, data)
    asked = {}
    real = upload.subprocess.run
    monkeypatch.setattr(upload.subprocess, "run", lambda *words, **how: asked.update(how) or real(*words, **how))
    upload.read("steam_site.csv", (SAMPLES / "steam_site.csv").read_bytes())
    assert asked["timeout"] <= 20
    ask = "import resource as r; print([r.getrlimit(x)[0] for x in (r.RLIMIT_AS, r.RLIMIT_CPU, r.RLIMIT_FSIZE)])"
    told = real([sys.executable, "-c", ask], preexec_fn=asked["preexec_fn"], capture_output=True, text=True).stdout
    assert told.strip() == str([upload.MEMORY, upload.SECONDS, 0])


def test_guard_7_uploads_that_are_too_much_are_refused(desk):
    cases = {
        "huge.csv": b"x" * (upload.MOST_BYTES + 1), "bomb.xlsx": packed({"xl/worksheets/sheet1.xml": b" " * (upload.MOST_UNPACKED + 1)}),
        "parts.xlsx": packed({str(k): b"" for k in range(upload.MOST_PARTS + 1)}), "no.xlsx": b"PK no workbook", "page.html": b"<html>", "empty.csv": b"",
    }
    for name, data in cases.items():
        answer = take(desk, name, data)
        assert answer.status_code == 422 and "cannot be taken yet" in answer.text, name
    entities = "".join(f'<!ENTITY e{k} "{f"&e{k - 1};" * 10}">' for k in range(1, 12))
    bomb = f'<?xml version="1.0"?><!DOCTYPE x [<!ENTITY e0 "{"x" * 50}">{entities}]><sst xmlns="http://schemas.openxmlformats.org/spreadsheetml/2006/main" count="1"><si><t>&e11;</t></si></sst>'
    outside = '<?xml version="1.0"?><!DOCTYPE x [<!ENTITY e SYSTEM "file:///etc/hostname">]><sst xmlns="http://schemas.openxmlformats.org/spreadsheetml/2006/main"><si><t>&e;</t></si></sst>'
    cells = "stream,from,to,reading,accuracy\n" + "," * 900_000 + "\n"
    began = time.monotonic()
    for name, data in (("entities.xlsx", workbook(bomb)), ("outside.xlsx", workbook(outside)), ("cells.csv", cells.encode())):
        answer = take(desk, name, data)
        assert answer.status_code == 422 and socket.gethostname() not in answer.text, name
    assert time.monotonic() - began < 60
    faulty = take(desk, "faulty.csv", (SAMPLES / "faulty" / "steam_site.csv").read_bytes())
    assert faulty.status_code == 422 and faulty.text.count("<li>") == 3
    assert desk.get("/list/1", **BASE).status_code == 404  # nothing was stored


def test_guard_9_files_hold_no_formula(desk):
    take(desk, "evil.csv", EVIL.encode())
    rows = desk.get("/list/1.csv", **BASE).data.decode("utf-8-sig").splitlines()
    assert not [cell for row in rows for cell in row.split(",") if cell.startswith("=")]


def test_serve_refuses_what_it_cannot_serve(tmp_path, capsys):
    assert main(["serve", str(tmp_path / "b.book"), "--host", "0.0.0.0"]) == 1 and "--people" in capsys.readouterr().err
    assert main(["serve", str(SAMPLES / "steam_site.csv")]) == 1 and "no book" in capsys.readouterr().err


# -- a database that goes and comes back


def test_the_database_goes_and_comes_back(tmp_path, caplog):
    import servers

    if servers.missing():
        pytest.skip(servers.missing())
    server = servers.Server()
    try:
        desk = application(Shelf.opened(server.fresh()), Door((HOST,), key=KEY)).test_client()
        desk.get(f"/?key={KEY}", **BASE)
        assert take(desk).status_code == 303 and desk.get("/list/1", **BASE).status_code == 200
        form = {"csrf": csrf(desk), "request": "b" * 32, "base": "list/1", "office": "3", "r9": "8000", "note": "read at the meter"}
        server.stop()
        assert "What-if: not kept." in desk.get("/list/1?r9=8000", **BASE).text  # a what-if asks nobody
        gone = desk.get("/book", **BASE)
        assert gone.status_code == 503 and "cannot be reached" in gone.text and 'http-equiv="refresh"' in gone.text
        unsure = desk.post("/keep", data=form, **BASE)
        assert unsure.status_code == 503 and "did not answer in time" in unsure.text and f'value="{"b" * 32}"' in unsure.text
        logged = [record.getMessage() for record in caplog.records]  # whoever runs the desk reads there what the pages do not tell
        told = r"(book|keep): postgresql://\S+: the server cannot be reached or is at a stand \(.*\); nothing of this is kept: the same again would do"
        assert [re.fullmatch(told, one)[1] for one in logged] == ["book", "keep"]
        server.start()
        assert [desk.post("/keep", data=form, **BASE).headers["Location"] for _ in range(2)] == ["/sheet/3-1?kept=now"] * 2
        assert "/sheet/3-1" in desk.get("/book", **BASE).text
    finally:
        server.end()


def test_checked_flows_say_so_and_have_a_number_of_their_own_kind(desk):
    wide = "stream,what,from,to,reading,accuracy\n1,steam,outside,header,180000,2%\n2,to the plant,header,outside,179300,2%\n3,blowdown,header,pit,400,8\n4,from the pit,pit,outside,404.5,8\n"
    for name, data in (("two_percent.csv", None), ("wide.csv", wide.encode())):
        where = take(desk, name, data).headers["Location"]
        page = desk.get(where, **BASE).text
        assert "whole flows of least cost, checked by a proved call; cost and verdict in exact fractions" in page and "the engine&#39;s own sheet" not in page
    kept = keep(desk, "list/2", "c" * 32)
    assert kept.headers["Location"] == "/sheet/3-f1?kept=now"
    shown = desk.get("/sheet/3-f1", **BASE).text
    assert "f1" in shown and "it passes" in shown and "checked by a proved call" in shown and "404.5" in shown
    assert desk.get("/sheet/3-1", **BASE).status_code == 404 and 'href="/sheet/3-f1"' in desk.get("/book", **BASE).text
    assert "the engine&#39;s own sheet" in desk.get(take(desk, "steam_site.csv").headers["Location"], **BASE).text


def _said():
    """The texts of the pages: templates and code of the served desk, and the words of sheets that it shows."""
    home = Path(words.__file__).parent
    parts = [*home.glob("*.py"), *home.glob("templates/*.html"), *home.glob("static/*.js"), *home.parent.glob("write/*.py"), *home.parent.glob("balance/*.py"),
             *home.parent.glob("keep/*.py")]
    return "\n".join(part.read_text() for part in parts if part.name != "words.py" or part.parent.name != "serve")


def test_german_words_are_those_of_texts_that_are_said():
    """Each English text of the table stands on a page or in the code; its German ends with the same mark and has the same places to fill."""
    said = _said()
    assert [text for text in words.GERMAN if text not in said] == []
    for text, german in words.GERMAN.items():
        marks = [re.search(r"[^\w)]*$", one)[0] for one in (text, german)]
        assert marks[0] == marks[1] and re.findall(r"\{\w+\}", text) == re.findall(r"\{\w+\}", german), text
        assert not re.search(r"[^\w\s.,:;?!()„“…–—σ{}'-]", german), german


def test_pages_of_history_runs_are_shown_shut_in(tmp_path):
    folder = tmp_path / "runs"
    folder.mkdir()
    (folder / "july.html").write_text("<h1>July</h1><script>1</script>")
    (folder / "notes.txt").write_text("not a run")
    (tmp_path / "secret.html").write_text("secret")
    client = application(Shelf.opened(str(tmp_path / "site.book"), folder), Door((HOST,), key=KEY)).test_client()
    client.get(f"/?key={KEY}", **BASE)
    listed = client.get("/runs", **BASE).text
    assert 'href="/runs/july.html"' in listed and "notes.txt" not in listed and 'href="/runs"' in client.get("/", **BASE).text
    page = client.get("/runs/july.html", **BASE)
    assert page.text.startswith("<h1>July</h1>") and "sandbox allow-scripts" in page.headers["Content-Security-Policy"] and "connect-src" not in page.headers["Content-Security-Policy"]
    for path in ("/runs/notes.txt", "/runs/..%2fsecret.html", "/runs/%2e%2e/secret.html", "/runs/june.html"):
        assert client.get(path, **BASE).status_code in (404, 308), path


def test_who_has_left_is_out_wherever_the_token_goes(doorway, people):
    brandt = doorway("brandt")
    token = re.match(r"wengeludo=([^;]+)", brandt.answer.headers["Set-Cookie"])[1]
    assert people.person(token).name == "brandt"
    brandt.post("/logout", data={"csrf": csrf(brandt)}, **BASE)
    assert people.person(token) is None


def test_a_fault_of_the_program_is_told_as_one(desk, shelf, monkeypatch):
    """A page that fails says so, and is not called one that is not there."""
    def broken():
        raise RuntimeError("broken")

    monkeypatch.setattr(shelf, "lasts", broken)
    desk.application.config["PROPAGATE_EXCEPTIONS"] = False
    answer = desk.get("/health", **BASE)
    assert answer.status_code == 500 and "This page has failed" in answer.text and "no such page" not in answer.text
