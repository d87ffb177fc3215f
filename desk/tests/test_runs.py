# SPDX-License-Identifier: LicenseRef-Wengeludo
"""Runs over folders and books: every file once, counts that add up, what is kept is on the disk, whole or not at all, with its zone of time."""

import csv
import os
import re
import sqlite3
import stat
import subprocess
import sys
import time
from datetime import datetime, timedelta, timezone
from types import SimpleNamespace
from xml.etree import ElementTree

import pytest
from conftest import SAMPLES

import wengeludo_balance as engine
from wengeludo.balance.site import read_site
from wengeludo.keep.book import Book, Draft
from wengeludo.keep.lite import Lite
from wengeludo.keep.store import Conflict, Damaged, Unreachable, Unwritable

SVG = "{http://www.w3.org/2000/svg}"
FILES = 130  # two times 64, and some more
LIST = "from,to,reading,accuracy\noutside,a,{},5\na,outside,100,5\n"


@pytest.fixture
def folder(tmp_path):
    """Lists that pass, every seventh one fails, every eleventh is none; suffixes in capitals among them."""
    place = tmp_path / "hours"
    place.mkdir()
    for k in range(FILES):
        text = "no list" if k % 11 == 3 else LIST.format(100 + k % 5 if k % 7 else 200 + k)
        (place / f"{k:04}.{'CSV' if k % 3 == 1 else 'csv'}").write_text(text)
    (place / "9998.XLSX").write_bytes((SAMPLES / "steam_site.xlsx").read_bytes())
    (place / "9999.BIN").write_bytes((SAMPLES.parents[1] / "samples" / "steam_site.bin").read_bytes())
    return place


def lines_of(path):
    return list(csv.DictReader(path.open(encoding="utf-8-sig")))


@pytest.mark.parametrize("jobs", [1, 2])
def test_every_file_once_and_counts_that_add_up(jobs, run, folder, tmp_path):
    summary = tmp_path / "summary.csv"
    ended = run("batch", folder, "-o", summary, "--jobs", jobs)
    found = lines_of(summary)
    assert [line["file"] for line in found] == sorted(path.name for path in folder.iterdir()) and len(found) == FILES + 2
    wanted = {"fault": sum(k % 11 == 3 for k in range(FILES)), "fail": sum(k % 7 == 0 and k % 11 != 3 for k in range(FILES))}
    told = {word: int(count.replace(",", "")) for count, word in re.findall(r"([\d,]+) (pass|close|fail|none|no flow in range|fault)\b", ended.out)}
    assert sum(told.values()) == len(found) and re.search(rf"\b{len(found):,} files", ended.out)
    for word in told:
        assert told[word] == sum(line["verdict"] == word for line in found)
    assert {word: told[word] for word in wanted} == wanted
    assert ended.status in (0, 3)
    assert [float(line["cost"]) > float(line["limit"]) for line in found if line["cost"]] == [line["verdict"] != "pass" for line in found if line["cost"]]


def test_the_chart_shows_each_cost_where_it_lies(run, folder, tmp_path):
    run("batch", folder, "-o", tmp_path / "summary.csv", "--jobs", "1")
    found, chart = lines_of(tmp_path / "summary.csv"), ElementTree.parse(tmp_path / "summary.svg").getroot()
    marks = [part for part in chart.iter() if part.tag in (f"{SVG}circle", f"{SVG}path")]
    known = [line for line in found if line["cost"]]
    assert [part.find(f"{SVG}title").text.split(":")[0] for part in marks] == [line["file"] for line in known]
    assert not [part.tail for part in chart.iter() if (part.tail or "").strip()], "no text outside of a mark"
    ticks = [part for part in chart.iter(f"{SVG}rect") if part.get("height") == "6"]
    assert len(ticks) == len(found) - len(known)
    across = [float(part.get("cx")) for part in marks if part.tag == f"{SVG}circle"]
    assert across == sorted(across) and len(set(across)) == len(across)
    base, limits = _base(chart), [float(p.split(",")[1]) for p in next(chart.iter(f"{SVG}polyline")).get("points").split()]
    limit = float(known[0]["limit"])
    for part, line in zip(marks, known):
        if part.tag == f"{SVG}circle":
            assert (base - float(part.get("cy"))) / (base - limits[0]) == pytest.approx(float(line["cost"]) / limit, abs=0.02)
        else:
            assert float(line["cost"]) > 2 * limit, "above the chart"
        red, green = (int(part.get("fill")[at : at + 2], 16) for at in (1, 3))
        assert (red > green) == (line["verdict"] == "fail")


def _base(chart):
    """How low 0 lies: the lowest line of the axis."""
    return max(float(line.get("y1")) for line in chart.iter(f"{SVG}line"))


@pytest.fixture
def connections(monkeypatch):
    """Every connection to SQLite: what was run on it, and how it was synchronous at its last statement."""
    seen = []
    connect = sqlite3.connect

    class Noted(sqlite3.Connection):
        def __init__(self, *words, **more):
            super().__init__(*words, **more)
            self.said = []
            self.set_trace_callback(self.said.append)
            seen.append(self)
            self.forced = None

        def execute(self, sql, *words):
            done = super().execute(sql, *words)
            if sql.lstrip().upper().startswith(("INSERT", "UPDATE", "COMMIT")):
                self.forced = super().execute("PRAGMA synchronous").fetchone()[0]
            return done

    monkeypatch.setattr(sqlite3, "connect", lambda *words, **more: connect(*words, **{**more, "factory": Noted}))
    return seen


def test_what_is_told_as_kept_is_on_the_disk(run, connections, tmp_path):
    """Every connection that writes waits for the disk at each commit."""
    assert run("keep", SAMPLES / "steam_site.csv", tmp_path / "a.book").status == 0
    writing = [one for one in connections if any("INTO sheets" in sql for sql in one.said)]
    assert writing and all(one.forced in (2, 3) for one in writing)
    assert not any(re.search(r"synchronous\s*=\s*(OFF|NORMAL|0|1)\b", sql, re.IGNORECASE) for one in connections for sql in one.said)


def test_a_run_takes_a_transaction_for_many_sheets(run, connections, folder, tmp_path):
    run("batch", folder, "-o", tmp_path / "s.csv", "--jobs", "1", "--book", tmp_path / "a.book")
    said = [sql.strip().upper() for one in connections for sql in one.said]
    assert sum("INTO SHEETS" in sql for sql in said) > 100
    assert sum(sql.startswith("BEGIN") for sql in said) <= 8


def test_all_sheets_of_a_transaction_or_none(monkeypatch, tmp_path):
    """The second of two cannot be drawn: the first is not kept either, and no number is used."""
    site, calls = read_site(SAMPLES / "steam_site.csv"), []
    drawn = engine.balance_plant

    def second_refused(*words):
        calls.append(words)
        if len(calls) == 2:
            raise engine.Refusal(2)
        return drawn(*words)

    with Book(tmp_path / "a.book", make=True) as book:
        monkeypatch.setattr(engine, "balance_plant", second_refused)
        with pytest.raises(engine.Refusal):
            book.keep([Draft(site, "one", request="one"), Draft(site, "two", request="two")], 3)
        monkeypatch.undo()
        assert book.lasts() == (0,) * 8
        assert book.keep_one(Draft(site, "three", request="three"), 3).number == 1


def test_the_time_of_keeping_has_its_zone(run, monkeypatch, tmp_path):
    """Far from Greenwich too, it is the moment of keeping."""
    monkeypatch.setenv("TZ", "Asia/Tokyo")
    time.tzset()
    try:
        run("keep", SAMPLES / "listing.csv", tmp_path / "a.book")
        with Book(tmp_path / "a.book") as book:
            kept = datetime.fromisoformat(book.sheet(0, 1).at.replace("Z", "+00:00"))
    finally:
        monkeypatch.undo()
        time.tzset()
    assert kept.tzinfo is not None and abs(datetime.now(timezone.utc) - kept) < timedelta(minutes=2)


@pytest.mark.parametrize("mask, mode", [(0o022, 0o644), (0o077, 0o600), (0o002, 0o664)])
def test_modes_of_what_is_written(mask, mode, run, tmp_path):
    files = [tmp_path / f"a{suffix}" for suffix in (".html", ".svg", ".xlsx", ".csv", ".json")]
    files[0].write_text("what was there before")
    before = os.umask(mask)
    try:
        assert run("sheet", SAMPLES / "listing.csv", *(word for file in files for word in ("-o", file))).status == 0
        assert run("pack", SAMPLES / "listing.csv", tmp_path / "a.bin").status == 0
        assert sorted(path.name for path in tmp_path.iterdir()) == ["a.bin", "a.csv", "a.html", "a.json", "a.svg", "a.xlsx"]
        assert run("keep", SAMPLES / "listing.csv", tmp_path / "a.book").status == 0
    finally:
        os.umask(before)
    assert {stat.S_IMODE(file.stat().st_mode) for file in (*files, tmp_path / "a.bin", tmp_path / "a.book.turn")} == {mode}


@pytest.mark.parametrize("name, text, kind, told", [
    ("SQLITE_FULL", "x", Unwritable, "the disk is full or fails (x)"), ("SQLITE_IOERR_WRITE", "x", Unwritable, "the disk is full or fails (x)"),
    ("", "disk I/O error", Unwritable, "the disk is full or fails (disk I/O error)"), ("SQLITE_NOTADB", "x", Damaged, "the book is damaged (x)"),
    ("", "database disk image is malformed", Damaged, "the book is damaged"), ("", "file is not a database", Damaged, "the book is damaged"),
    ("", "attempt to write a readonly database", Unwritable, "the book cannot be written"), ("", "unable to open database file", Unwritable, "the book cannot be written"),
    ("", "database is locked", Unreachable, "another program holds the book"), ("SQLITE_BUSY", "busy", Unreachable, "another program holds the book (busy)"), ("", "x", Damaged, "the book is damaged (x)"),
])
def test_what_an_error_of_the_file_comes_to(name, text, kind, told):
    error = sqlite3.OperationalError(text)
    error.sqlite_errorname = name
    found = Lite._told(SimpleNamespace(path="a.book"), error)
    assert type(found) is kind and str(found).startswith(f"a.book: {told}") and str(found).endswith(" would do")


def test_a_contradiction_is_told_as_one():
    found = Lite._told(SimpleNamespace(path="a.book"), sqlite3.IntegrityError("UNIQUE"))
    assert type(found) is Conflict and str(found) == "a.book: this contradicts what the book has (UNIQUE); nothing of this is kept"


def test_a_worker_ends_with_its_parent():
    """A process that has been tied to a parent goes as soon as that parent has gone, in the middle of its work."""
    work = "import os, sys, time\nfrom wengeludo.keep.batch import _tied\nparent = os.getpid()\nif os.fork() == 0:\n    _tied(parent)\n    print(os.getpid(), flush=True)\n    time.sleep(60)\nelse:\n    time.sleep(1)\n"
    with subprocess.Popen([sys.executable, "-c", work], stdout=subprocess.PIPE, text=True) as parent:
        worker = int(parent.stdout.readline())
        parent.wait()
        for _ in range(100):
            if not os.path.exists(f"/proc/{worker}") or open(f"/proc/{worker}/stat").read().split(")")[-1].split()[0] == "Z":
                return
            time.sleep(0.1)
    raise AssertionError("the worker is still there")
