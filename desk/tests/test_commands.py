# SPDX-License-Identifier: LicenseRef-Wengeludo
"""Every command: its status, what it writes, and wrong use of it."""

import csv
import json
import os
import subprocess
import sys

import openpyxl
import pytest
from conftest import SAMPLES

import wengeludo_balance as engine

ENGINE_SAMPLES = SAMPLES.parents[1] / "samples"


def test_statuses(run, listed):
    assert run("sheet", SAMPLES / "steam_site.csv").status == 0
    assert run("sheet", SAMPLES / "steam_site_off.csv").status == 3
    assert run("sheet", SAMPLES / "overfull_site.csv").status == 1
    faulty = run("sheet", listed("from,to,reading,accuracy\na,a,x,\n"))
    assert faulty.status == 1 and faulty.err.count("row 2") == 2 and faulty.out == ""
    assert run("sheet", "there is no such list.csv").status == 1
    for wrong in ((), ("sheet",), ("nothing",), ("sheet", "--unit", "x", "a.csv"), ("sheet", "--office", "8", "a.csv")):
        assert run(*wrong).status in ((0, 2) if wrong == () else (2,))


def test_unknown_suffix_and_stream(run):
    ended = run("sheet", SAMPLES / "steam_site.csv", "-o", "sheet.docx")
    assert ended.status == 1 and ".html, .svg, .xlsx, .csv, .json" in ended.err
    ended = run("sheet", SAMPLES / "steam_site.csv", "-o", "no such folder/sheet.html")
    assert ended.status == 1 and ended.err == "no such folder/sheet.html: No such file or directory\n"
    ended = run("why", SAMPLES / "listing.csv", "77")
    assert ended.status == 1 and "has no stream 77" in ended.err
    assert run("why", SAMPLES / "listing.csv").status == 2


def test_outputs(run, tmp_path):
    paths = [tmp_path / f"sheet{suffix}" for suffix in (".html", ".svg", ".xlsx", ".csv", ".json")]
    words = [word for path in paths for word in ("-o", path)]
    assert run("sheet", SAMPLES / "steam_site.csv", "--office", "5", "--last", "41", *words).status == 0
    page, drawing, workbook, table, document = paths
    assert "make-up water" in page.read_text() and drawing.read_text().startswith("<svg")
    cells = [row for row in openpyxl.load_workbook(workbook).active.values]
    assert ("1", "make-up water", "outside", "deaerator", 3254, 3254) in [row[:6] for row in cells]
    rows = list(csv.reader(table.open(encoding="utf-8-sig")))
    assert len(rows) == 27 and rows[4][:6] == ["4", "vent of the deaerator", "deaerator", "outside", "", "67.0"]
    told = json.loads(document.read_text())
    assert (told["office"], told["sheet"], told["verdict"], told["cost_thousandths"]) == (5, 42, "pass", 2021)


def test_a_list_is_not_written_over(run, listed):
    """Nor is a plant file."""
    workbook, plant = (SAMPLES / "steam_site.xlsx").read_bytes(), (ENGINE_SAMPLES / "listing.bin").read_bytes()
    path, file = listed(workbook, "mine.xlsx"), listed(plant, "plant.bin")
    for words in (("sheet", path, "-o", path.parent / "." / "mine.xlsx"), ("pack", path, path), ("unpack", file, file)):
        ended = run(*words)
        assert ended.status == 1 and "that is what is read, and would be lost: another name would do" in ended.err
    assert (path.read_bytes(), file.read_bytes()) == (workbook, plant)


def test_no_sheet_number_left(run):
    ended = run("sheet", SAMPLES / "listing.csv", "--last", 2**32 - 1)
    assert ended.status == 1 and "last sheet number is 4,294,967,295 (2)" in ended.err


def test_bill_faults(run, listed):
    ended = run("bill", SAMPLES / "listing.csv")
    assert ended.status == 1 and "row 5, column rate, stream 4" in ended.err
    text = "from,to,reading,accuracy,rate\noutside,a,100,w10,\na,outside,,,100\na,outside,,,100\n"
    ended = run("bill", listed(text))
    assert ended.status == 1 and "is not known (25)" in ended.err
    text = "from,to,reading,accuracy,rate\noutside,a,100000,5000,\na,outside,,,10000\n"
    ended = run("bill", listed(text))
    assert ended.status == 0 and "100,000" in ended.out, "the engine's call takes no such rate in this unit; in exact fractions it is billed"
    assert "Charges worked out by the tool, in exact fractions, by the engine's rule: the engine charges whole rates up to 10,000 for each unit of" in ended.out


@pytest.mark.parametrize("name", ["listing", "steam_site", "rated_site", "overfull_site", "small_header", "blind_site", "sighted_site"])
def test_packed_and_unpacked(name, run, tmp_path):
    plant = ENGINE_SAMPLES / f"{name}.bin"
    for suffix in (".csv", ".xlsx"):
        assert run("unpack", plant, tmp_path / f"list{suffix}").status == 0
        assert run("pack", tmp_path / f"list{suffix}", tmp_path / "plant.bin").status == 0
        assert (tmp_path / "plant.bin").read_bytes() == plant.read_bytes()


def test_units_without_a_stream(run, listed, tmp_path):
    """Units 3 to 5 have no stream; 3 stands below 4 and is kept, the last are told and can be asked for."""
    plant = engine.write_plant(6, (engine.Stream(0, 1, 10, 100), engine.Stream(1, 4), engine.Stream(4, 0, 10, 98)))
    ended = run("unpack", listed(plant, "plant.bin"), tmp_path / "list.csv")
    assert ended.status == 0 and "4 units" in ended.out and "Left out, as no stream runs from or to them: unit 5, unit 6" in ended.out
    assert run("pack", tmp_path / "list.csv", tmp_path / "back.bin", "--units", "6").status == 0
    assert (tmp_path / "back.bin").read_bytes() == plant
    assert run("pack", tmp_path / "list.csv", tmp_path / "back.bin").status == 0
    assert engine.read_plant((tmp_path / "back.bin").read_bytes()).units == 4
    ended = run("pack", tmp_path / "list.csv", tmp_path / "back.bin", "--units", "3")
    assert ended.status == 1 and "has 4 units: --units 3 is too few" in ended.err
    ended = run("unpack", listed(engine.write_plant(1, ()), "none.bin"), tmp_path / "none.csv")
    assert ended.status == 1 and "no stream" in ended.err and not (tmp_path / "none.csv").exists()
    assert run("sheet", listed(engine.write_plant(1, ()), "none.bin")).status in (0, 1)


def test_unpacked_in_another_unit(run, tmp_path):
    """A list whose unit is 20 kg/h, packed, unpacked in that unit and packed again: readings in kg/h, the same plant."""
    assert "units of 20 kg/h" in run("pack", SAMPLES / "two_percent.csv", tmp_path / "plant.bin").out
    for suffix in (".csv", ".xlsx"):
        assert run("unpack", tmp_path / "plant.bin", tmp_path / f"list{suffix}", "--unit", "20").status == 0
        assert run("pack", tmp_path / f"list{suffix}", tmp_path / "back.bin", "--unit", "20").status == 0
        assert (tmp_path / "back.bin").read_bytes() == (tmp_path / "plant.bin").read_bytes()
    rows = list(csv.DictReader((tmp_path / "list.csv").open()))
    assert rows[4]["reading"] == "20400" and rows[4]["accuracy"].startswith("±")


def test_prices_that_are_missing(run, listed):
    text = (SAMPLES / "blind_site.csv").read_text()
    whole = run("buy", SAMPLES / "blind_site.csv").out
    deduced = run("buy", listed(text.replace("dryers,condensate tank,,,,,300", "dryers,condensate tank,,,,,"))).out
    assert deduced == whole, "stream 7 is deduced: its price plays no part"
    some = run("buy", listed(text.replace("low-pressure header,,,,,650", "low-pressure header,,,,,"))).out
    assert [line.split()[0] for line in some.splitlines()[2:4]] == ["3", "8"], "4 has no price: the priced one beside it is told"
    assert "Together 1,700.\n" in some and "No price in the list for: 4 reducing station. They were taken as dearer" in some
    none = run("buy", listed(text.replace(",650", ",").replace(",1400", ","))).out
    assert "Together 300, and what the meter of 3 steam through the turbine costs.\n" in none and "not said" in none


def test_a_list_gives_the_sample(run, tmp_path):
    for name in ("listing", "rated_site", "small_header", "blind_site", "overfull_site"):
        assert run("pack", SAMPLES / f"{name}.csv", tmp_path / "plant.bin").status == 0
        assert (tmp_path / "plant.bin").read_bytes() == (ENGINE_SAMPLES / f"{name}.bin").read_bytes(), name


def test_transmitter(run, tmp_path):
    assert run("unpack", ENGINE_SAMPLES / "transmitter.bin", tmp_path / "list.csv").status == 0
    assert run("pack", tmp_path / "list.csv", tmp_path / "plant.bin").status == 0
    assert (tmp_path / "plant.bin").read_bytes() == (ENGINE_SAMPLES / "listing.bin").read_bytes()
    assert run("pack", "--transmitter", SAMPLES / "listing.csv", tmp_path / "sent.bin").status == 0
    assert engine.plant_from_transmitter((tmp_path / "sent.bin").read_bytes()) == (ENGINE_SAMPLES / "listing.bin").read_bytes()
    ended = run("pack", "--transmitter", SAMPLES / "rated_site.csv", tmp_path / "x.bin")
    assert ended.status == 1 and "has a range" in ended.err


def test_damaged_plant(run, listed):
    assert "end count differs" in run("unpack", listed(b"\x01\x01\x04\x01", "plant.bin"), "x.csv").err
    assert "(17)" in run("unpack", listed(b"\x01\x01\x21\x00\x01" + bytes(12) + b"\x04\x01", "sent.bin"), "x.csv").err


@pytest.mark.parametrize("file, number, place", [
    ("", 3, "byte 0, counted from 0"), ("0201", 4, "byte 0, counted from 0"), ("0101 070001", 4, "byte 2, counted from 0, in stream 1"),
    ("0101" + "030001" * 97 + "0461", 5, "byte 290, counted from 0, in stream 97"), ("0100 0400", 6, "byte 1, counted from 0"),
    ("0101 030002 0401", 7, "byte 4, counted from 0, in stream 1"), ("0101 030001 030101 0402", 8, "byte 7, counted from 0, in stream 2"),
    ("0101 020001 03E9 00000000 0401", 9, "byte 5, counted from 0, in stream 1"), ("0101 020001 0001 003D0901 0401", 10, "byte 7, counted from 0, in stream 1"),
    ("0101 0401", 11, "byte 3, counted from 0"), ("0101 0400 00", 12, "byte 4, counted from 0"),
    ("0101 060001 0001 00000000 00000005 00000004 0401", 18, "byte 15, counted from 0, in stream 1"),
    ("0101 210001 7fc00000 4024000000000000 0401", 16, "byte 5, counted from 0, in stream 1"),
    ("0101 230001 220001 00000000 0000000000000000 0402", 17, "byte 12, counted from 0, in stream 2"),
    ("0101 210001 00000000 4050000000000000 0401", 9, "byte 9, counted from 0, in stream 1"),
])
def test_where_a_plant_file_is_refused(run, listed, file, number, place):
    told = run("unpack", listed(bytes.fromhex(file), "plant.bin"), "x.csv")
    assert told.status == 1 and told.err.rstrip().endswith(f"({number}) at {place}")


def test_plant_files_are_lists_too(run):
    assert run("sheet", ENGINE_SAMPLES / "steam_site.bin").status == 0


class TestCheck:
    @pytest.fixture
    def files(self, tmp_path):
        plant = (ENGINE_SAMPLES / "steam_site.bin").read_bytes()
        sheet, numbers = engine.balance_plant(plant).sheet, engine.place_numbers(plant)

        def write(plant=plant, sheet=sheet, numbers=numbers):
            paths = [tmp_path / name for name in ("plant.bin", "sheet.bin", "numbers.txt")]
            for path, data in zip(paths, (plant, sheet, "\n".join(map(str, numbers)).encode())):
                path.write_bytes(data)
            return paths

        write.sheet, write.numbers = sheet, numbers
        return write

    def told(self, run, paths, status=1):
        ended = run("check", *paths)
        assert ended.status == status
        return ended.out

    def test_passes(self, run, files):
        assert self.told(run, files(), 0).startswith("passes")

    def test_rules(self, run, files):
        sheet, numbers = files.sheet, list(files.numbers)
        assert "there are 13 numbers for 14 places (26)" in self.told(run, files(numbers=numbers[:-1]))
        assert "place 2: its number is past its limit (26)" in self.told(run, files(numbers=numbers[:2] + [10**18 + 1] + numbers[3:]))
        assert "no meter, and the numbers of its places differ by" in self.told(run, files(numbers=numbers[:7] + [numbers[7] + 1] + numbers[8:]))
        assert "numbers of its places differ by 0" in self.told(run, files(numbers=[numbers[0]] * 14))
        assert "its class is R, not A" in self.told(run, files(sheet=b"\x11" + sheet[1:]))
        changed = sheet[:36] + b"\x11" + (20_500).to_bytes(8, "big") + sheet[45:]
        assert "stream 5: the numbers of its places differ by 26, too little: a smaller flow would cost less" in self.told(run, files(sheet=changed))
        total = len(sheet) - 16
        cost = sheet[: total + 6] + (2_022).to_bytes(8, "big") + sheet[total + 14 :]
        assert "the least cost is 2021, not 2022" in self.told(run, files(sheet=cost))
        verdict = sheet[:-1] + b"\x01"
        assert "the verdict is pass, not fail" in self.told(run, files(sheet=verdict))
        degrees = sheet[:-2] + b"\x06" + sheet[-1:]
        assert "the degrees are 5, not 6" in self.told(run, files(sheet=degrees))

    def test_given_flow_and_missing_stream(self, run, files):
        sheet = files.sheet
        changed = sheet[:18] + b"\x13" + (1_993).to_bytes(8, "big") + sheet[27:]
        assert "flows in and out have other sums" in self.told(run, files(sheet=changed))
        assert "the sheet lists 25 streams, the plant 26" in self.told(run, files(sheet=sheet[9:]))

    def test_refusals_first(self, run, files):
        assert "(13)" in self.told(run, files(sheet=b""))
        assert "(3) at byte 0, counted from 0" in self.told(run, files(plant=b""))
        overfull = (ENGINE_SAMPLES / "overfull_site.bin").read_bytes()
        assert "the plant has no sheet" in self.told(run, files(plant=overfull, numbers=[0] * 6))

    def test_sample(self, run):
        paths = [ENGINE_SAMPLES / f"rated_site{suffix}" for suffix in (".bin", ".sheet", ".numbers")]
        assert self.told(run, paths, 0).startswith("passes")

    def test_no_number(self, run, files):
        paths = files()
        for text in ("1 2 x", "1 2 1.5", "1 " + 50 * "9", "½"):
            paths[2].write_text(text)
            ended = run("check", *paths)
            assert ended.status == 1 and ended.err.endswith("stands there; whole numbers would do, one for each place, the outside first\n")


def test_the_workbook_is_the_list(run, tmp_path):
    """The sample that is shipped as XLSX has the streams of the CSV, and a drawing of its own."""
    from wengeludo.read.lists import read_list

    book, text = (read_list(SAMPLES / f"steam_site{suffix}") for suffix in (".xlsx", ".csv"))
    assert (book.pipes, book.places) == (text.pipes, text.places) and len(book.spots) == len(book.places) - 1 and not text.spots
    out = [run("sheet", SAMPLES / f"steam_site{suffix}").out for suffix in (".xlsx", ".csv")]
    assert out[0] == out[1]


def test_closed_output_and_own_process(tmp_path):
    command = [sys.executable, "-m", "wengeludo", "sheet", str(SAMPLES / "steam_site.csv")]
    done = subprocess.run(command, stdout=subprocess.PIPE, stderr=subprocess.PIPE, text=True)
    assert (done.returncode, done.stderr) == (0, "")
    bare = {"PATH": "/usr/bin:/bin", "LC_ALL": "C", "PYTHONIOENCODING": "ascii", "PYTHONPATH": ":".join(sys.path)}
    assert subprocess.run(command, capture_output=True, env=bare).returncode == 0


@pytest.mark.parametrize("words, status", [(("sheet", "steam_site.csv"), 0), (("sheet", "steam_site_off.csv"), 3), (("suspects", "steam_site.csv"), 0), (("--help",), 0)])
@pytest.mark.parametrize("unbuffered", ["", "1"])
def test_a_reader_that_goes(words, status, unbuffered, tmp_path):
    """Into a pipe that nobody reads: quiet, the status is the command's own, and the files that were asked for are written."""
    read, write = os.pipe()
    os.close(read)
    page = tmp_path / "page.json"
    words = [str(SAMPLES / word) if word.endswith(".csv") else word for word in words] + (["-o", str(page)] if words[0] == "sheet" else [])
    command = [sys.executable, "-m", "wengeludo", *words]
    ended = subprocess.run(command, stdout=write, stderr=subprocess.PIPE, text=True, env={**os.environ, "PYTHONUNBUFFERED": unbuffered})
    os.close(write)
    assert (ended.returncode, ended.stderr) == (status, "")
    assert page.exists() == (words[0] == "sheet")


def test_errors_name_the_file(run, listed):
    """Whatever ends a command, its file stands in the message, once."""
    blanks = listed("from,to,reading,accuracy,rate\noutside,a,100,w10,\na,outside,,,100\na,outside,,,100\n", "blanks.csv")
    for words in (("why", blanks, "77"), ("bill", blanks), ("sheet", blanks, "--last", 2**32 - 1), ("layouts", SAMPLES / "steam_site.csv"), ("suspects", SAMPLES / "overfull_site.csv"),
                  ("open", blanks), ("unpack", blanks, "x.csv"), ("pack", "--units", "1", SAMPLES / "steam_site.csv", "x.bin")):
        ended = run(*words)
        file = next(str(word) for word in words if str(word).endswith(".csv"))
        assert ended.status == 1 and ended.err.splitlines()[0].count(file) == 1, (words, ended.err)


def test_what_would_say_the_decimal_mark(run, listed):
    ended = run("sheet", listed("from,to,reading,accuracy\na,outside,8.479,2%\n"))
    assert ended.status == 1 and ended.err.endswith("8479 or 8.4790 would do\n--decimal point or --decimal comma says which it is\n")
