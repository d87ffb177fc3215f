# SPDX-License-Identifier: LicenseRef-Wengeludo
"""Every refusal by its smallest file, its number and its text; numbers that do not fit a field of C."""

import re
from pathlib import Path

import pytest

import wengeludo_balance as w

HERE = Path(__file__).resolve()
LISTING = (HERE.parents[3] / "samples" / "listing.bin").read_bytes()
ENDED = bytes.fromhex("01 01 04 00")
FULL = w.NO_SHEETS[:7] + (2**32 - 1,)


def files():
    """(number, what is called)."""
    plants = {
        3: "", 4: "00", 5: "0101" + "030001" * 96 + "02", 6: "0100", 7: "0101030200", 8: "0101030000",
        9: "01010200010000 00000000", 10: "0101020001 0001 003D0901", 11: "01010401", 12: "0101040000",
        18: "0101060001 0001 00000000 00000001 00000000", 19: "0101060001 0001 00000000 00000001 00000001 0401",
    }
    for number, text in plants.items():
        yield number, lambda text=text: w.balance_plant(bytes.fromhex(text))
    for number, text in {13: "", 14: "1F" + "00" * 14, 15: "1F00000001" + "00" * 9 + "0200"}.items():
        yield number, lambda text=text: w.read_sheet(bytes.fromhex(text))
    yield 14, lambda: w.read_sheet(bytes.fromhex("1E08 00000001 0000000000000000 00 02"))
    for number, text in {16: "0101210001 7F800000" + "00" * 8, 17: "0101210001" + "00" * 12}.items():
        yield number, lambda text=text: w.plant_from_transmitter(bytes.fromhex(text))
    yield 2, lambda: w.balance_plant(ENDED, 7, FULL)
    yield 20, lambda: w.from_ranged(bytes.fromhex("0101060001 0001" + "00" * 12 + "0401"))
    yield 21, lambda: w.meters_to_buy(ENDED, [1])
    yield 22, lambda: w.balance_plant(ENDED, 8)
    yield 23, lambda: w.layouts_of(bytes.fromhex("0101" + "030001" * 13 + "040D"))
    yield 24, lambda: w.charges(ENDED, [1])
    yield 25, lambda: w.charges(bytes.fromhex("0101 030001 030001 030100 030100 0404"), [0, 0])
    yield 26, lambda: w.check_sheet(ENDED, w.balance_plant(ENDED).sheet, [0])


@pytest.mark.parametrize("number, call", list(files()))
def test_number_and_text(number, call):
    with pytest.raises(w.Refusal) as caught:
        call()
    assert (caught.value.number, caught.value.text) == (number, w.TEXTS[number])
    assert str(caught.value).startswith(f"refused {number}: {w.TEXTS[number]}")
    assert bool(caught.value.places) == (number == 19)


def test_other_offices_are_not_full():
    assert w.balance_plant(ENDED, 6, FULL).lasts[6] == 1


def test_texts_are_those_of_the_header():
    import build_native

    text = re.sub(r"/\*.*?\*/", "", build_native.HEADER.read_text(encoding="utf-8"), flags=re.DOTALL)
    listed = re.search(r"enum \{\s*WENGELUDO_DONE = 0,(.*?)\};", text, re.DOTALL)[1]
    assert {int(n) for n in re.findall(r"WENGELUDO_\w+ = (\d+)", listed)} == set(w.TEXTS)
    texts = dict(re.findall(r"case (WENGELUDO_\w+):\s*return ((?:\"[^\"]*\"\s*)+);", text))
    for name, number in re.findall(r"(WENGELUDO_\w+) = (\d+)", listed):
        assert "".join(re.findall(r"\"([^\"]*)\"", texts[name])) == w.TEXTS[int(number)]


@pytest.mark.parametrize(
    "number, call",
    [
        (6, lambda: w.write_plant(256, [])),
        (6, lambda: w.write_plant(-1, [])),
        (7, lambda: w.write_plant(1, [w.Stream(-1, 1)])),
        (7, lambda: w.write_plant(1, [w.Stream(0, 257)])),
        (9, lambda: w.write_plant(1, [w.Stream(0, 1, 65_537, 0)])),
        (9, lambda: w.write_plant(1, [w.Stream(0, 1, -1, 0)])),
        (10, lambda: w.write_plant(1, [w.Stream(0, 1, 1, 2**32)])),
        (10, lambda: w.write_plant(1, [w.Stream(0, 1, 1, -(2**32))])),
        (18, lambda: w.write_plant(1, [w.Stream(0, 1, 1, 0, -(2**32), 0)])),
        (18, lambda: w.write_plant(1, [w.Stream(0, 1, 1, 0, 0, 2**32)])),
        (5, lambda: w.write_plant(1, [w.Stream(0, 1)] * 97)),
        (21, lambda: w.meters_to_buy(LISTING, [2**32 + 1, 1])),
        (21, lambda: w.meters_to_buy(LISTING, [-1, 1])),
        (22, lambda: w.balance_plant(LISTING, 256)),
        (22, lambda: w.balance_plant(LISTING, -1)),
        (24, lambda: w.charges(LISTING, [65_536])),
        (24, lambda: w.charges(LISTING, [-1])),
        (26, lambda: w.check_sheet(LISTING, w.balance_plant(LISTING).sheet, [2**64, 0, 0])),
    ],
)
def test_numbers_that_do_not_fit(number, call):
    with pytest.raises(w.Refusal) as caught:
        call()
    assert caught.value.number == number


def test_last_numbers():
    for lasts in ((0,) * 7, (0,) * 9, (-1,) + (0,) * 7, (2**32,) + (0,) * 7):
        with pytest.raises(ValueError):
            w.balance_plant(LISTING, 0, lasts)


@pytest.mark.parametrize("words", [{"low": 0}, {"high": 0}, {"weight": None, "low": 0, "high": 1}])
def test_half_a_range_and_one_without_a_meter(words):
    with pytest.raises(ValueError):
        w.Stream(0, 1, **{"weight": 10, **words})
