# SPDX-License-Identifier: LicenseRef-Wengeludo
"""A book of version 1 made one of version 2: the same numbers, the same bytes, shown alike; cut off anywhere, run again."""

import os
import sqlite3
import subprocess
import sys

import pytest
import version1
from conftest import SAMPLES
from test_book import KILLS_IN_SHORT, killer  # noqa: F401
from test_batch import lines_of

from wengeludo.balance.site import read_site
from wengeludo.keep.book import Book, Draft, Receipt
from wengeludo.keep.check import check
from wengeludo.keep.upgrade import upgrade
from wengeludo.read.faults import Stopped

NAMES = ("steam_site.csv", "steam_site_off.csv", "two_percent.csv", "blind_site.csv", "rated_site.csv", "listing.csv", "steam_site.xlsx")


def old_book(path, rounds=1, names=("listing.csv", "steam_site.csv")):
    book, sites = version1.Book(path, make=True), [(read_site(SAMPLES / name), str(SAMPLES / name)) for name in names]
    for k in range(rounds):
        book.keep(sites, 3 + k % 2)
    return book


def test_byte_for_byte(run, tmp_path):
    old, new = tmp_path / "old.book", tmp_path / "new.book"
    book = old_book(old, 3, NAMES)
    assert run("keep", SAMPLES / "listing.csv", old).status == 1 and "book upgrade" in run("open", old).err
    assert run("book", "upgrade", old, new).status == 0
    with Book(new) as upgraded:
        assert check(upgraded) == [] and upgraded.lasts() == book.lasts()
        for kept, before in zip(upgraded.sheets(), book.sheets()):
            assert (kept.office, kept.number, kept.plant, kept.sheet, kept.source) == (before.office, before.number, before.plant, before.sheet, before.source)
            assert kept.at == before.date[:19] + ".000Z" and kept.hour == ""
            one, two = kept.balance(), before.balance()
            assert [(a.flow, a.spread, a.pipe.label, a.pipe.reading) for a in one.lines] == [(b.flow, b.spread, b.pipe.label, b.pipe.reading) for b in two.lines]
            assert one.site.list.spots == two.site.list.spots
        assert upgraded.keep_one(Draft(read_site(SAMPLES / "listing.csv")), 3) == Receipt(3, book.lasts()[3] + 1)
    with pytest.raises(sqlite3.IntegrityError, match=r"^this book has been upgraded: new.book has its sheets$"):
        book.keep([(read_site(SAMPLES / "listing.csv"), "x")], 3)
    assert run("book", "upgrade", old, new).status == 1 and run("book", "upgrade", new, tmp_path / "x").status == 1
    assert run("book", "upgrade", tmp_path / "none", tmp_path / "x").status == 1 and not (tmp_path / "x").exists()


def test_a_batch_goes_on_after_it(run, tmp_path):
    folder, old, new = tmp_path / "hours", tmp_path / "old.book", tmp_path / "new.book"
    folder.mkdir()
    for k in range(4):
        (folder / f"{k:04}.csv").write_text((SAMPLES / "listing.csv").read_text().replace("100", f"{100 + k}"))
    version1.Book(old, make=True).keep([(read_site(path), str(path)) for path in sorted(folder.iterdir())[:3]], 0)
    run("book", "upgrade", old, new)
    assert "4 files, 3 of them in the book before" in run("batch", folder, "-o", tmp_path / "s.csv", "--book", new).out
    assert [line["sheet"] for line in lines_of(tmp_path / "s.csv")] == ["1", "2", "3", "4"]


@pytest.mark.parametrize("column, value", [("sheet", b"\x14"), ("names", "{}"), ("plant", b""), ("numbers", "[1]"), ("number", 99)])
def test_a_damaged_one_is_left_alone(column, value, tmp_path):
    old = tmp_path / "old.book"
    book = old_book(old, 3)
    book.base.execute(f"UPDATE sheets SET {column} = ? WHERE office = 3 AND number = 4", (value,))
    before = old.read_bytes()
    told = {"number": "sheet 99 of office 3 does not follow sheet 3", "numbers": "the upgraded book does not pass the check: sheet 4 of office 3: .+"}
    with pytest.raises(Stopped, match=rf"^{told.get(column, 'sheet 4 of office 3 is damaged in the old book [(].+[)]')}: nothing is upgraded$"):
        upgrade(old, tmp_path / "new.book")
    assert sorted(p.name for p in tmp_path.iterdir()) == ["old.book"] and old.read_bytes() == before


def test_one_that_is_in_use_is_told(tmp_path, monkeypatch):
    old = tmp_path / "old.book"
    old_book(old, 3).base.execute("BEGIN IMMEDIATE")
    connect = sqlite3.connect
    monkeypatch.setattr(sqlite3, "connect", lambda *words, **more: connect(*words, **{**more, "timeout": 0.05}))
    with pytest.raises(Stopped) as stopped:
        upgrade(old, tmp_path / "new.book")
    assert str(stopped.value) == f"{old}: the book is damaged or in use (database is locked)" and sorted(path.name for path in tmp_path.iterdir()) == ["old.book"]


def test_a_gap_is_told(tmp_path):
    book = old_book(tmp_path / "old.book", 3)
    book.base.execute("DELETE FROM sheets WHERE office = 3 AND number = 2")
    with pytest.raises(Stopped, match="sheet 3 of office 3 does not follow sheet 1"):
        upgrade(tmp_path / "old.book", tmp_path / "new.book")


def test_cut_off_anywhere(killer, tmp_path):  # noqa: F811
    at = 0
    while True:
        at += KILLS_IN_SHORT
        folder = tmp_path / str(at)
        folder.mkdir()
        old_book(folder / "old.book").base.close()
        words = [sys.executable, "-m", "wengeludo", "book", "upgrade", str(folder / "old.book"), str(folder / "new.book")]
        status = subprocess.run(words, env={**os.environ, "LD_PRELOAD": str(killer), "WENGELUDO_KILL": str(at)}, capture_output=True).returncode
        assert status in (0, -9)
        if not (folder / "new.book").exists():
            upgrade(folder / "old.book", folder / "new.book")
        with Book(folder / "new.book") as book:
            assert check(book) == [] and book.lasts()[3] == 2 and {o.state for o in book.offices()} == {"open"}
        with pytest.raises(sqlite3.IntegrityError, match="upgraded"):
            version1.Book(folder / "old.book").keep([(read_site(SAMPLES / "listing.csv"), "x")], 3)
        if status == 0:
            break
    assert at > 20
