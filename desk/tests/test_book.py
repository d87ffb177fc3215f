# SPDX-License-Identifier: LicenseRef-Wengeludo
"""The book: kept sheets, their numbers, damage, two at a time, and SIGKILL between any two writes.

WENGELUDO_KILL_STEP (default 4)  killed at every so many writes; 1 is each of them
"""

import hashlib
import json
import os
import shutil
import sqlite3
import subprocess
import sys
from dataclasses import replace
from pathlib import Path

import pytest
from conftest import SAMPLES

import wengeludo_balance as engine
from wengeludo.keep.book import Book, Draft, Receipt
from wengeludo.keep.check import check
from wengeludo.keep.record import dumps
from wengeludo.keep.store import Conflict
from wengeludo.balance.sheet import balance
from wengeludo.balance.site import read_site

HERE = Path(__file__).parent
STEP = int(os.environ.get("WENGELUDO_KILL_STEP") or 4)
KILLS_IN_SHORT = 1 if STEP == 1 else 17


def sound(path):
    """The numbers of each office's sheets, after the book was checked whole; they are those from 1 to the last."""
    book = Book(path)
    assert check(book) == []
    numbers = {}
    for kept in book.sheets():
        numbers.setdefault(kept.office, []).append(kept.number)
    for office, last in enumerate(book.lasts()):
        assert numbers.get(office, []) == list(range(1, last + 1))
    book.close()
    return numbers


def test_kept_and_reopened(run, tmp_path):
    path = tmp_path / "sheets.book"
    for office in (0, 3, 3):
        ended = run("keep", SAMPLES / "steam_site.csv", path, "--office", office)
        assert ended.status == 0
    assert "kept as sheet 2 of office 3" in ended.out
    assert sound(path) == {0: [1], 3: [1, 2]}
    assert [line.split()[:2] for line in run("open", path).out.splitlines()[2:]] == [["3", "2"], ["3", "1"], ["0", "1"]], "the newest first"
    shown = run("open", path, "2", "--office", "3", "-o", tmp_path / "sheet.html")
    assert "names, unit, readings and chain: it passes" in shown.out and "sheet 2 of office 3" in shown.out
    assert "make-up water" in (tmp_path / "sheet.html").read_text() and "kept 2" in (tmp_path / "sheet.html").read_text()
    assert run("open", path, "7").status == 1


def test_the_same_sheet_comes_back(tmp_path):
    for name in ("steam_site", "rated_site", "blind_site"):
        book, site = Book(tmp_path / name, make=True), read_site(SAMPLES / f"{name}.csv")
        assert book.keep([Draft(site, name)], 4) == [Receipt(4, 1)]
        kept = book.sheet(4, 1)
        back, drawn = kept.balance(), balance(site, 4)
        assert back.date == kept.date
        assert (back.drawn, back.lines) == (drawn.drawn, drawn.lines) or name == "rated_site"
        assert [(line.flow, line.spread) for line in back.lines] == [(line.flow, line.spread) for line in drawn.lines]


def test_a_drawing_of_its_own_is_kept(run, tmp_path):
    run("keep", SAMPLES / "steam_site.xlsx", tmp_path / "sheets.book")
    drawn, kept = read_site(SAMPLES / "steam_site.xlsx"), Book(tmp_path / "sheets.book").sheet(0, 1).balance()
    assert drawn.list.spots and kept.site.list.spots == drawn.list.spots


def test_refused_sheets_draw_no_number(run, tmp_path):
    path = tmp_path / "sheets.book"
    assert run("keep", SAMPLES / "overfull_site.csv", path).status == 1
    assert run("keep", SAMPLES / "listing.csv", path).status == 0
    assert sound(path) == {0: [1]}


def test_no_number_left(tmp_path):
    book = Book(tmp_path / "sheets.book", make=True)
    book.store.run("UPDATE offices SET last = ? WHERE office = 2", (2**32 - 1,))
    site = read_site(SAMPLES / "listing.csv")
    with pytest.raises(engine.Refusal):
        book.keep_one(Draft(site), 2)
    assert book.keep_one(Draft(site), 1) == Receipt(1, 1) and book.lasts()[2] == 2**32 - 1


@pytest.mark.parametrize("data", [b"", b"no book", b"SQLite format 3\0" + bytes(100)])
def test_no_book(data, run, listed):
    path = listed(data, "sheets.book")
    assert run("open", path).status == 1
    assert run("open", path.with_name("none.book")).status == 1


def test_another_database(run, tmp_path):
    path = tmp_path / "other.db"
    base = sqlite3.connect(path)
    base.execute("CREATE TABLE notes (text)")
    base.commit()
    ended = run("keep", SAMPLES / "listing.csv", path)
    assert ended.status == 1 and "no book of sheets" in ended.err


def altered(path, copy, *statements):
    """A copy of a closed book in which someone has altered what nobody may."""
    shutil.copy(path, copy)
    base = sqlite3.connect(copy)
    for (name,) in base.execute("SELECT name FROM sqlite_master WHERE type = 'trigger'").fetchall():
        base.execute(f"DROP TRIGGER {name}")
    for sql, *words in statements:
        base.execute(sql, words)
    base.commit()
    base.close()
    return copy


DAMAGE = {
    "sheet": b"\x14", "numbers": "[0, 0, 5]", "plant": b"", "readings": "[0]", "who": "someone else", "hour": "2020-01-01", "note": "x", "name": "other",
    "verdict": 1, "cost": 7, "blanks": 9, "source": "elsewhere", "at": "2020-01-01T00:00:00.000Z", "chain": bytes(32), "changes": "x", "request": "y",
}


@pytest.mark.parametrize("column", DAMAGE)
def test_damage_is_told(column, run, tmp_path):
    path = tmp_path / "sheets.book"
    run("keep", SAMPLES / "listing.csv", path)
    copy = altered(path, tmp_path / "copy.book", (f"UPDATE sheets SET {column} = ?", DAMAGE[column]))
    ended = run("open", copy, "1")
    assert ended.status == 1 and "sheet 1 of office 0" in ended.err
    assert run("open", copy).status == 0 and check(Book(copy))


def test_names_unit_and_readings_are_checked_beside_the_chain(run, tmp_path):
    """Even if the chain was made anew, a list that is not that of its plant file is seen."""
    path = tmp_path / "sheets.book"
    run("keep", SAMPLES / "steam_site.csv", path)
    kept = Book(path).sheet(0, 1)
    plan, readings = json.loads(kept.told), json.loads(kept.readings)
    first = next(k for k, value in enumerate(readings) if value)
    spoilt = [{**plan, "unit": "2"}, {**plan, "places": plan["places"][:-1]}, {**plan, "pipes": [{**plan["pipes"][0], "target": 3}, *plan["pipes"][1:]]},
              {**plan, "pipes": [*plan["pipes"][:first], {**plan["pipes"][first], "high": 1e5, "low": 0.0}, *plan["pipes"][first + 1:]]}]
    others = [(dumps(told), kept.readings) for told in spoilt]
    for change in ((1.0, 0), (0, 3.0), None):
        value = 0 if change is None else [readings[first][0] + change[0], readings[first][1] + change[1]]
        others.append((kept.told, dumps([*readings[:first], value, *readings[first + 1:]])))
    for told, read in others:
        bad = replace(kept, told=told, digest=hashlib.sha256(told.encode()).digest(), readings=read)
        bad = replace(bad, chain=bad.link(bytes(32)))
        copy = altered(path, tmp_path / "copy.book", ("UPDATE plans SET told = ?, digest = ?", told, bad.digest), ("UPDATE offices SET chain = ? WHERE office = 0", bad.chain),
                       ("UPDATE sheets SET readings = ?, chain = ?", read, bad.chain))
        ended = run("open", copy, "1")
        assert ended.status == 1 and "in the plant file" in ended.err or "the plant file " in ended.err, ended
        assert "chain" not in ended.err and len(check(Book(copy))) == 1


def test_missing_and_moved_numbers_are_told(tmp_path):
    path, site = tmp_path / "sheets.book", read_site(SAMPLES / "listing.csv")
    book = Book(path, make=True)
    book.keep([Draft(site) for _ in range(4)], 3)
    assert book.annul(3, 2, "A. Brandt", "a meter was off") and not book.annul(3, 2, "A. Brandt", "again")
    book.keep_one(Draft(site), 3)
    book.close()
    assert sound(path) == {3: [1, 2, 3, 4, 5]}
    changes = {
        "is missing": ("DELETE FROM sheets WHERE number = 2",), "should follow": ("DELETE FROM sheets WHERE number = 5",), "differs": ("UPDATE offices SET last = 4 WHERE office = 3",),
        "(annulled): the chain": ("UPDATE remarks SET reason = 'none'",), "altered": ("UPDATE plans SET told = '{}'",),
        "its last numbers": ("DELETE FROM sheets WHERE entry = 6",),
    }
    for word, statement in changes.items():
        faults = check(Book(altered(path, tmp_path / "copy.book", statement)))
        assert faults and (word in "".join(faults) or "last numbers" in "".join(faults)), (word, faults)


def test_annulled_and_lost_are_shown(run, tmp_path):
    path = tmp_path / "sheets.book"
    run("keep", SAMPLES / "listing.csv", path, "--note", "first")
    assert run("book", "annul", path, "1", "--reason", "meter 2 stood still", "--who", "Brandt").status == 0
    shown = run("open", path, "1")
    assert "ANNULLED by Brandt" in shown.out and "meter 2 stood still" in shown.out and "note: first" in shown.out
    assert "annulled" in run("open", path).out and run("book", "annul", path, "1", "--reason", "x").status == 1
    assert run("book", "annul", path, "2", "--reason", "x").status == 1 and sound(path) == {0: [1]}


def test_a_key_draws_one_number(tmp_path):
    book, site = Book(tmp_path / "sheets.book", make=True), read_site(SAMPLES / "listing.csv")
    draft = Draft(site, "x", request="a")
    assert book.keep([draft, draft], 2) == [Receipt(2, 1), Receipt(2, 1, True)] and book.keep_one(draft, 2) == Receipt(2, 1, True)
    for other, office in ((Draft(read_site(SAMPLES / "steam_site.csv"), request="a"), 2), (draft, 3)):
        with pytest.raises(Conflict):
            book.keep([Draft(site), other], office)
    assert sound(tmp_path / "sheets.book") == {2: [1]}, "of a refused request nothing is kept"


def test_two_at_a_time(tmp_path):
    path = tmp_path / "sheets.book"
    Book(path, make=True).close()
    command = [sys.executable, "-c", KEEPER, str(path), str(SAMPLES / "listing.csv"), "8"]
    running = [subprocess.Popen(command) for _ in range(2)]
    assert [process.wait() for process in running] == [0, 0]
    assert sound(path) == {0: list(range(1, 17))}


KEEPER = """
import sys
from pathlib import Path
from wengeludo.keep.book import Book, Draft
from wengeludo.balance.site import read_site
book, site = Book(Path(sys.argv[1]), make=True), read_site(Path(sys.argv[2]))
for _ in range(int(sys.argv[3])):
    book.keep_one(Draft(site), 0)
    print("kept", flush=True)
"""


@pytest.fixture(scope="session")
def killer(tmp_path_factory):
    compiler = shutil.which(os.environ.get("CC", "cc"))
    if not compiler:
        pytest.skip("no C compiler")
    library = tmp_path_factory.mktemp("killer") / "killer.so"
    subprocess.run([compiler, "-shared", "-fPIC", "-O1", "-o", library, HERE / "killer.c", "-ldl"], check=True)
    return library


def test_killed_between_any_two_writes(killer, tmp_path):
    """Two sheets are kept, and the process is killed at its first, second, third .. write, forcing out or removal of a file."""
    at, told, site = 0, -1, read_site(SAMPLES / "listing.csv")
    while told != 2:
        at += 1 if at < 4 else STEP
        path = tmp_path / f"{at}.book"
        words = [sys.executable, "-c", KEEPER, str(path), str(SAMPLES / "listing.csv"), "2"]
        environment = {**os.environ, "LD_PRELOAD": str(killer), "WENGELUDO_KILL": str(at)}
        done = subprocess.run(words, env=environment, capture_output=True, text=True)
        told = done.stdout.count("kept")
        assert (done.returncode, told == 2) in ((0, True), (-9, False), (-9, True)), done.stderr
        with Book(path, make=True) as book:
            book.keep([Draft(site), Draft(site)], 0)
        kept = len(sound(path)[0]) - 2
        assert told <= kept <= told + 1, "what was told as kept is there, and at most the one under way beside it"
        if done.returncode == 0:
            break
    assert at > 12, "the writes were counted"


def test_a_drawing_is_laid_out_once_for_a_plan(run, tmp_path, monkeypatch):
    from wengeludo.keep import drawn
    from wengeludo.write.layout import layout_of as real

    book = tmp_path / "site.book"
    for name in ("steam_site.csv", "steam_site.csv"):
        assert run("keep", SAMPLES / name, book).status == 0
    laid = []
    monkeypatch.setattr(drawn, "layout_of", lambda *words, **more: laid.append(1) or real(*words, **more))
    assert run("open", book, "1", "-o", tmp_path / "one.svg").status == 0 and len(laid) == 1
    assert run("open", book, "2", "-o", tmp_path / "two.svg", "-o", tmp_path / "two.html").status == 0 and len(laid) == 1
    assert (tmp_path / "one.svg").read_bytes() == (tmp_path / "two.svg").read_bytes()


def test_an_office_is_checked_some_entries_at_a_time(run, tmp_path, monkeypatch):
    """Sheets and remarks in their order, whatever the number that is read at once."""
    from wengeludo.keep import check as checks

    for _ in range(5):
        run("keep", SAMPLES / "listing.csv", tmp_path / "a.book")
    run("book", "annul", tmp_path / "a.book", "2", "--reason", "once")
    monkeypatch.setattr(checks, "_SHEETS", checks._SHEETS.replace(f"LIMIT {checks.SOME}", "LIMIT 3"))
    monkeypatch.setattr(checks, "SOME", 3)
    with Book(tmp_path / "a.book") as book:
        at = book.offices()[0]
        parts = list(checks._entries(book, at))
        assert [[getattr(one, "entry", None) or one[1] for one in part] for part in parts] == [[1, 2, 3], [4, 5, 6]]
        assert checks.check(book) == []
