# SPDX-License-Identifier: LicenseRef-Wengeludo
"""What a list tells comes back with its kept sheet: hour, language, units, what stands in place of a reading."""

import csv
import subprocess
import sys
import time
from dataclasses import replace
from pathlib import Path
from types import SimpleNamespace

import pytest
from conftest import SAMPLES

from wengeludo.balance.site import read_site
from wengeludo.keep.book import Book, Draft
from wengeludo.keep.check import check
from wengeludo.keep.month import _each_once
from wengeludo.keep.record import FLOW, content_key, site_name
from wengeludo.read.faults import Stopped
from wengeludo.read.hours import hour_from, hour_within

GERMAN = "Dampf; Stand 17.11.2026 14:00 Uhr\nStrom;von;nach;Messwert;Genauigkeit\nD1;outside;Kessel;100,5;2,5\nD2;Kessel;outside;103,0;2,5\nD3;Kessel;outside;Bad;2,5\n"


@pytest.mark.parametrize("text, hour", [
    ("2026-11-17 14:00", "2026-11-17T14:00"), ("2026-11-17T14:00:30Z", "2026-11-17T14:00:30Z"), ("17.11.2026 14:00", "2026-11-17T14:00"), ("17.11.2026", "2026-11-17"),
    ("17. 11. 2026 14 Uhr", "2026-11-17T14:00"), ("2026-11-17 14:00 +01:00", "2026-11-17T14:00+01:00"), ("2026-11-31", None), ("11/12/2026", None), ("14:00", None), ("", None),
    ("2026-11-17 25:00", None), ("2026-11-17 14:00:00", "2026-11-17T14:00"),
])
def test_hours(text, hour):
    assert hour_from(text) == hour
    assert not hour or hour_within(f"steam site, {text}, shift 3") == hour


def test_no_hour_of_several():
    assert hour_within("from 2026-11-17 14:00 to 2026-11-17 15:00") is None and hour_within("no hour") is None


@pytest.mark.parametrize("name, site", [
    ("steam_site_2026-11-17T04", "steam_site"), ("0412", ""), ("20261117_steam", "steam"), ("boiler 2", "boiler 2"), ("site12", "site12"), ("hour_123", "hour_123"), ("2026-11-17", ""),
])
def test_lists_of_one_site_have_one_name(name, site):
    assert site_name(name) == site


def test_what_a_list_tells_comes_back(run, listed, tmp_path):
    path, book = listed(GERMAN, "dampf.csv"), tmp_path / "a.book"
    assert "2026-11-17T14:00" in run("keep", path, book).out
    with Book(book) as kept:
        sheet = next(kept.sheets())
        back, read = sheet.site().list, read_site(path).list
        assert sheet.hour == "2026-11-17T14:00" and (back.form, back.told, back.hour, back.places) == (read.form, read.told, read.hour, read.places)
        assert [replace(pipe, row=0) for pipe in back.pipes] == [replace(pipe, row=0) for pipe in read.pipes] and back.pipes[2].silent == "Bad"
    assert "the hour of its readings: 2026-11-17T14:00" in run("open", book, "1", *(["--flows"] if sheet.kind else [])).out
    assert "2025-01-02" in run("keep", path, book, "--at", "2.1.2025").out, "what the user says goes before"
    assert "not known" in run("keep", SAMPLES / "listing.csv", book).out and run("keep", path, book, "--at", "yesterday").status == 2


def test_hours_of_a_site_share_a_plan(tmp_path):
    text = (SAMPLES / "steam_site.csv").read_text()
    with Book(tmp_path / "a.book", make=True) as book:
        for hour in range(5):
            path = tmp_path / f"steam_{hour:04}.csv"
            path.write_text(text.replace("7979", str(7979 + hour)))
            book.keep_one(Draft(read_site(path), str(path)), 0)
        assert book.store.run("SELECT count(*), min(site) FROM plans") == [(1, "steam")]
        assert [book.sheet(0, n).site().list.name for n in (1, 5)] == ["steam_0000", "steam_0004"]


def test_the_key_of_a_list_is_its_content(tmp_path):
    text, keys = (SAMPLES / "listing.csv").read_text(), []
    for folder, name, shown in (("a", "x", text), ("b", "x", text), ("a", "y", text), ("c", "x", text.replace("100", "101"))):
        (tmp_path / folder).mkdir(exist_ok=True)
        (tmp_path / folder / f"{name}.csv").write_text(shown)
        keys.append(content_key(read_site(tmp_path / folder / f"{name}.csv"), 0))
    assert keys[0] == keys[1] and len(set(keys)) == 3
    site = read_site(tmp_path / "a" / "x.csv")
    assert len({content_key(site, 0), content_key(site, 1), content_key(site, 0, "2026-11-17T14:00")}) == 3


def test_a_batch_overwrites_no_list(run, tmp_path):
    folder = tmp_path / "hours"
    folder.mkdir()
    (folder / "a.csv").write_bytes((SAMPLES / "listing.csv").read_bytes())
    ended = run("batch", folder, "-o", folder / "a.csv", "--book", tmp_path / "a.book")
    assert ended.status == 1 and "would be lost" in ended.err and (folder / "a.csv").read_bytes() == (SAMPLES / "listing.csv").read_bytes() and not (tmp_path / "a.book").exists()
    assert run("batch", folder, "-o", folder / "sum.csv").status == 0 and run("batch", folder, "-o", folder / "sum.csv").status == 0
    assert len(list(csv.reader((folder / "sum.csv").open(encoding="utf-8")))) == 2
    (folder / "link.csv").symlink_to(folder / "a.csv")
    assert run("batch", folder, "-o", folder / "link.csv").status == 1


def test_a_moved_folder_is_not_kept_anew(run, tmp_path):
    (tmp_path / "a").mkdir()
    for k in range(3):
        (tmp_path / "a" / f"{k}.csv").write_text((SAMPLES / "listing.csv").read_text().replace("100", f"10{k}"))
    words = ("-o", tmp_path / "s.csv", "--book", tmp_path / "a.book")
    assert run("batch", tmp_path / "a", *words).status == 0
    (tmp_path / "a").rename(tmp_path / "b")
    assert "3 files, 3 of them in the book before" in run("batch", tmp_path / "b", *words).out
    with Book(tmp_path / "a.book") as book:
        assert book.lasts()[0] == 3


def test_a_failing_sheet_is_told_by_the_status(run, tmp_path):
    book = tmp_path / "a.book"
    assert run("keep", SAMPLES / "steam_site_off.csv", book).status == 3
    assert run("open", book, "1").status == 3 and run("open", book).status == 0


def test_the_bill_of_a_month(run, tmp_path):
    """Three hours of a site, one of them failing, one annulled: the sum of their bills, each hour once."""
    book, cents = tmp_path / "a.book", int(run("bill", SAMPLES / "steam_site.csv").out.split("bill")[1].split()[0].replace(",", ""))
    for hour in ("2026-11-17 14:00", "2026-11-17 15:00", "2026-11-18 00:00", "2026-12-01 00:00"):
        assert run("keep", SAMPLES / "steam_site.csv", book, "--at", hour).status == 0
    run("keep", SAMPLES / "steam_site_off.csv", book, "--at", "2026-11-18 01:00")
    assert run("book", "bill", book, "2026-11").status == 1 and "several sites" in run("book", "bill", book, "2026-11").err
    run("book", "annul", book, "3", "--reason", "x")
    ended = run("book", "bill", book, "2026-11", "--find", "steam_site")
    assert ended.status == 1, "the other site has steam_site in its name too"
    run("book", "annul", book, "5", "--reason", "x")
    ended = run("book", "bill", book, "2026-11")
    assert ended.status == 0 and f"{2 * cents:,}" in ended.out and "2 of 720 hours billed" in ended.out and "2 annulled sheets do not count" in ended.out
    run("keep", SAMPLES / "steam_site.csv", book, "--at", "2026-11-17 15:00")
    told = "2026-11-17T15 h has 2 sheets (sheet 6 of office 0, sheet 2 of office 0): `book annul` of all but one would do"
    assert told in " ".join(run("book", "bill", book, "2026-11").err.split())
    for month in ("2026-13", "2026", "2020-01", "x"):
        assert run("book", "bill", book, month).status == 1


def test_a_month_of_several_sites_names_the_first_five_in_their_order():
    lines = [SimpleNamespace(site=name, hour="2026-11-17T14:00", title="") for name in "hgfedcba"]
    with pytest.raises(Stopped) as stopped:
        _each_once(lines)
    assert str(stopped.value) == "the month has sheets of several sites (a, b, c, d, e): --find NAME would do"


def test_failing_hours_are_billed_only_if_asked(run, tmp_path):
    book = tmp_path / "a.book"
    run("keep", SAMPLES / "steam_site_off.csv", book, "--at", "2026-11-18 01:00")
    left, billed = run("book", "bill", book, "2026-11"), run("book", "bill", book, "2026-11", "--failing")
    assert left.status == billed.status == 3 and "not billed" in left.out and "FAILING" in billed.out and "1 of 720" in billed.out


def test_checked_flows_have_numbers_of_their_own(run, tmp_path):
    book = tmp_path / "a.book"
    for name, told in (("two_percent", "checked flows 1"), ("steam_site", "sheet 1"), ("two_percent", "checked flows 2"), ("steam_site", "sheet 2")):
        assert f"kept as {told} of office 4" in run("keep", SAMPLES / f"{name}.csv", book, "--office", "4").out
    with Book(book) as kept:
        assert check(kept) == [] and (kept.offices()[4].last, kept.offices()[4].flows, kept.offices()[4].entry) == (2, 2, 4)
        found = kept.sheet(4, 1, FLOW)
        for other in (replace(found, verdict=1), replace(found, cost=found.cost + 1), replace(found, blanks=9), replace(found, sheet=found.sheet.replace(b'"flows":[', b'"flows":[1')),
                      replace(found, readings=found.readings.replace("[", "[ ", 1).replace("4", "5"))):
            assert other._flow_faults() if b'"flows":[1' not in other.sheet else other.faults(kept.before(other))
    assert "it passes" in run("open", book, "2", "--office", "4", "--flows").out and "flows 2" in run("open", book).out
    assert run("open", book, "3", "--office", "4", "--flows").status == 1
    assert run("book", "annul", book, "1", "--office", "4", "--flows", "--reason", "x").status == 0 and run("book", "check", book).status == 0


def test_workers_end_with_their_parent(tmp_path):
    """A batch killed leaves no process behind."""
    (tmp_path / "a").mkdir()
    for k in range(400):
        (tmp_path / "a" / f"{k}.csv").write_bytes((SAMPLES / "steam_site.csv").read_bytes())
    command = [sys.executable, "-m", "wengeludo", "batch", str(tmp_path / "a"), "-o", str(tmp_path / "s.csv"), "--jobs", "2"]
    running = subprocess.Popen(command, stdout=subprocess.DEVNULL, stderr=subprocess.DEVNULL)
    workers = []
    for _ in range(500):
        workers = subprocess.run(["pgrep", "-P", str(running.pid)], capture_output=True, text=True).stdout.split()
        if len(workers) == 2 or running.poll() is not None:
            break
        time.sleep(0.02)
    running.kill()
    running.wait()
    assert len(workers) == 2
    for _ in range(150):
        if not any(Path(f"/proc/{pid}").exists() for pid in workers):
            return
        time.sleep(0.1)
    raise AssertionError("workers go on without their parent")


def test_two_batches_at_once_keep_each_list_once(tmp_path):
    (tmp_path / "a").mkdir()
    for k in range(20):
        (tmp_path / "a" / f"{k}.csv").write_text((SAMPLES / "listing.csv").read_text().replace("100", f"{100 + k}"))
    words = [sys.executable, "-m", "wengeludo", "batch", str(tmp_path / "a"), "--book", str(tmp_path / "a.book"), "--jobs", "1", "-o"]
    running = [subprocess.Popen([*words, str(tmp_path / f"{k}.csv")], stdout=subprocess.DEVNULL) for k in range(3)]
    assert {one.wait() for one in running} <= {0, 3}
    with Book(tmp_path / "a.book") as book:
        assert book.offices()[0].entry == 20 and check(book) == []
