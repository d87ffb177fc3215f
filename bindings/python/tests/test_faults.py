# SPDX-License-Identifier: LicenseRef-Wengeludo
"""Where a file is refused, beside the refusals of the proved calls, over files with one fault each; and which rule a sheet breaks."""

import importlib.util

import pytest

import build_native
from wengeludo_balance import Fault, Refusal, balance_plant, broken_rule, check_sheet, fault_at, place_numbers, plant_from_transmitter, to_ranged

COMPANION = build_native.ROOT / "bindings" / "c"
companion = pytest.mark.skipif(not COMPANION.is_dir(), reason="not beside bindings/c")


def files():
    """The files of the companion's own test."""
    spec = importlib.util.spec_from_file_location("faults", COMPANION / "faults.py")
    module = importlib.util.module_from_spec(spec)
    spec.loader.exec_module(module)
    return list(module.files())


def number_of(call, file):
    try:
        call(file)
        return 0
    except Refusal as refusal:
        return refusal.number


@companion
@pytest.mark.parametrize("folder, name", [("bindings/c", "fault.c"), ("bindings/c", "wengeludo_fault.h"), ("programs", "rules.h")])
def test_one_source(folder, name):
    assert (build_native.NATIVE / name).read_bytes() == (build_native.ROOT / folder / name).read_bytes()


@companion
@pytest.mark.parametrize("transmitter, call, numbers", [(False, to_ranged, {*range(3, 13), 18}), (True, plant_from_transmitter, {*range(3, 13), 16, 17})])
def test_the_number_is_the_calls(transmitter, call, numbers):
    seen = set()
    for file in files():
        fault, number = fault_at(file, transmitter), number_of(call, file)
        assert (fault.number if fault else 0) == number, file.hex()
        assert fault is None or (fault.byte <= len(file) and fault.stream <= 97)
        seen.add(number)
    assert seen == {0, *numbers}


@pytest.mark.parametrize("file, transmitter, place", [
    ("", False, Fault(3, 0, 0)),
    ("0121", False, Fault(6, 1, 0)),
    ("0101 030001 020001 0000 00000000 0402", False, Fault(9, 8, 2)),
    ("0101 030001 030002 0402", False, Fault(7, 7, 2)),
    ("0101 030001 0402", False, Fault(11, 6, 0)),
    ("0101 230001 210001 7f800000 4024000000000000 0402", True, Fault(16, 8, 2)),
    ("0101 030001 0401", False, None),
])
def test_places(file, transmitter, place):
    assert fault_at(bytearray.fromhex(file), transmitter) == place


def test_in_words():
    assert str(Fault(9, 8, 2)) == "byte 8, counted from 0, in stream 2" and str(Fault(3, 0, 0)) == "byte 0, counted from 0"


PLANT = bytes.fromhex("0104 020001000A00000064 060102000A0000005A000000000000005F 030203 030304 020400000A00000064 030203 0406")


def test_every_broken_rule_has_words():
    """A sheet with each byte in turn made another, each number in turn raised: None if the check takes it, else words of a rule."""
    sheet, numbers = balance_plant(PLANT).sheet, list(place_numbers(PLANT))
    assert broken_rule(PLANT, sheet, numbers) is None
    spoilt = [(sheet[:at] + bytes((sheet[at] ^ bit,)) + sheet[at + 1 :], numbers) for at in range(len(sheet)) for bit in (1, 2, 128)]
    spoilt += [(sheet, numbers[:place] + [numbers[place] + more] + numbers[place + 1 :]) for place in range(5) for more in (-3000, 3000, 2 * 10**18, 10**30)]
    spoilt += [(sheet, numbers[:-1]), (sheet, [*numbers, 0])]
    told = set()
    for data, places in spoilt:
        number = number_of(lambda file: check_sheet(PLANT, file, places), data)
        if number in (0, 26):
            words = broken_rule(PLANT, data, places)
            assert (words is None) == (number == 0) and words != "a rule is broken"
            told.add(words and "".join(letter for letter in words if not letter.isdigit()))
    for part in ("its class is", "the degrees are", "the least cost is", "the verdict is", "is outside its range", "no meter", "too little", "too much",
                 "past its limit", "numbers for", "other sums"):
        assert any(words and part in words for words in told), part


def test_other_refusals_are_raised():
    sheet, numbers = balance_plant(PLANT).sheet, place_numbers(PLANT)
    for plant, data, number in ((PLANT[:-1], sheet, 3), (PLANT, sheet[:-1], 13)):
        with pytest.raises(Refusal) as refused:
            broken_rule(plant, data, numbers)
        assert refused.value.number == number
