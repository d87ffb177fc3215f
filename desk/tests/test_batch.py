# SPDX-License-Identifier: LicenseRef-Wengeludo
"""A folder in one run: a line for each file, faults among them; cut off in the middle, nothing that was kept is lost.

WENGELUDO_HOURS (default 200)  how many lists; 8,760 is a year
"""

import csv
import os
import random
import signal
import subprocess
import sys
import time

import pytest
from conftest import SAMPLES
from test_book import sound

from wengeludo.keep.book import Book
from wengeludo.balance.sheet import balance
from wengeludo.balance.site import read_site

HOURS = int(os.environ.get("WENGELUDO_HOURS") or 200)


@pytest.fixture(scope="session")
def year(tmp_path_factory):
    """Hours of a site: its balanced flows, each reading with noise by its accuracy; in some hours a meter is far off."""
    folder = tmp_path_factory.mktemp("year")
    rows = list(csv.DictReader((SAMPLES / "steam_site.csv").open(encoding="utf-8")))
    flows = [line.flow for line in balance(read_site(SAMPLES / "steam_site.csv")).lines]
    rng = random.Random(8760)
    for hour in range(HOURS):
        with open(folder / f"{hour:04}.csv", "w", newline="", encoding="utf-8") as file:
            writer = csv.DictWriter(file, rows[0])
            writer.writeheader()
            for row, flow in zip(rows, flows):
                reading = row["reading"] and round(flow + rng.gauss(0, float(row["accuracy"])))
                writer.writerow({**row, "reading": reading + 500 if reading and row["stream"] == "9" and hour % 50 == 7 else reading})
    return folder


def lines_of(path):
    return list(csv.DictReader(path.open(encoding="utf-8")))


def test_a_line_for_each(run, year, tmp_path):
    summary = tmp_path / "summary.csv"
    began = time.monotonic()
    ended = run("batch", year, "-o", summary)
    print(f"\n{HOURS} lists in {time.monotonic() - began:.1f} s")
    assert ended.status == 3 and f"{HOURS:,} files" in ended.out, "a sheet that fails is told by the status"
    found = lines_of(summary)
    assert [line["file"] for line in found] == [f"{hour:04}.csv" for hour in range(HOURS)]
    failed = {int(line["file"][:4]) for line in found if line["verdict"] == "fail"}
    assert {hour for hour in range(HOURS) if hour % 50 == 7} <= failed
    assert all(line["worst"] == "9" for line in found if int(line["file"][:4]) % 50 == 7)
    assert summary.with_suffix(".svg").read_text().count("<circle") + summary.with_suffix(".svg").read_text().count("<path") == HOURS


def test_bad_files_stop_nothing(run, tmp_path):
    folder = tmp_path / "mixed"
    folder.mkdir()
    (folder / "a.csv").write_text("from,to,reading,accuracy\na,a,x,\n")
    (folder / "b.csv").write_bytes((SAMPLES / "listing.csv").read_bytes())
    (folder / "c.bin").write_bytes(b"\x01")
    (folder / "d.bin").write_bytes((SAMPLES.parents[1] / "samples" / "steam_site.bin").read_bytes())
    (folder / "e.csv").write_bytes((SAMPLES / "overfull_site.csv").read_bytes())
    (folder / "f.xlsx").write_text("no workbook")
    (folder / "g.txt").write_text("left alone")
    (folder / "h.csv").mkdir()
    ended = run("batch", folder, "-o", tmp_path / "summary.csv", "--book", tmp_path / "sheets.book", "--office", "6")
    assert ended.status == 0
    found = lines_of(tmp_path / "summary.csv")
    assert [(line["file"], line["verdict"], line["sheet"]) for line in found] == [
        ("a.csv", "fault", ""), ("b.csv", "pass", "1"), ("c.bin", "fault", ""), ("d.bin", "pass", "2"), ("e.csv", "no flow in range", ""),
        ("f.xlsx", "fault", ""),
    ]
    assert "row 2, column to" in found[0]["fault"] and "overfull" in found[4]["fault"] and sound(tmp_path / "sheets.book") == {6: [1, 2]}
    assert run("batch", tmp_path / "none", "-o", tmp_path / "x.csv").status == 1


def test_cut_off_in_the_middle(year, tmp_path):
    book, summary = tmp_path / "sheets.book", tmp_path / "summary.csv"
    command = [sys.executable, "-m", "wengeludo", "batch", str(year), "-o", str(summary), "--book", str(book)]
    running = subprocess.Popen(command, stdout=subprocess.DEVNULL, start_new_session=True)
    for _ in range(3_000):
        if summary.is_file() and summary.read_bytes().count(b"\n") > HOURS // 3:
            break
        time.sleep(0.02)
    os.killpg(running.pid, signal.SIGKILL)
    running.wait()
    told = [int(line["sheet"]) for line in lines_of(summary) if line["sheet"]]
    before = sound(book)[0]
    assert set(told) <= set(before)
    again = subprocess.run(command, capture_output=True, text=True)
    assert again.returncode == 3 and f"{HOURS:,} files, {len(before):,} of them in the book before: " in again.stdout
    with Book(book) as closed:
        kept = list(closed.sheets())
    assert [k.number for k in kept] == list(range(1, HOURS + 1)) and len({k.source for k in kept}) == HOURS
    assert {line["file"]: int(line["sheet"]) for line in lines_of(summary)} == {os.path.basename(k.source): k.number for k in kept}


def test_a_list_is_kept_once_and_anew_when_it_changes(run, tmp_path):
    folder, book = tmp_path / "hours", tmp_path / "sheets.book"
    folder.mkdir()
    for name in ("a", "b"):
        (folder / f"{name}.csv").write_bytes((SAMPLES / "listing.csv").read_bytes())
    words = ("batch", folder, "-o", folder / "summary.csv", "--book", book, "--office", "2")

    def kept():
        assert run(*words).status == 0
        return [(line["file"], line["sheet"]) for line in lines_of(folder / "summary.csv")]

    assert kept() == kept() == [("a.csv", "1"), ("b.csv", "2")], "nor is the summary taken for a list"
    text = (folder / "a.csv").read_text()
    (folder / "a.csv").write_text(text.replace("100", "101"))
    assert kept() == [("a.csv", "3"), ("b.csv", "2")]
    assert run(*words[:-1], "5").status == 0 and sound(book) == {2: [1, 2, 3], 5: [1, 2]}, "another office draws its own"
