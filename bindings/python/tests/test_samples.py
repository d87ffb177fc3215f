# SPDX-License-Identifier: LicenseRef-Wengeludo
"""Every sample, and every call on one of them."""

import doctest
from pathlib import Path

import pytest

import wengeludo_balance as w

SAMPLES = Path(__file__).resolve().parents[3] / "samples"


@pytest.mark.parametrize("name", sorted(path.stem for path in SAMPLES.glob("*.expected")))
def test_listing(name, sample):
    expected = sample(f"{name}.expected").decode()
    if expected.startswith("refused"):
        with pytest.raises(w.Refusal) as caught:
            w.balance(sample(f"{name}.bin"))
        assert expected == f"refused {caught.value.number}\n"
    else:
        assert str(w.balance(sample(f"{name}.bin"))) == expected


@pytest.mark.parametrize("name", sorted(path.stem for path in SAMPLES.glob("*.expected")))
def test_read_and_written_again(name, sample):
    file = sample(f"{name}.bin")
    assert w.read_plant(file).file() == file


def test_moves(sample):
    file = sample("steam_site.bin")
    assert w.to_ranged(file) != file
    assert w.from_ranged(w.to_ranged(file)) == file


def test_transmitter(sample):
    signals = (w.Signal(0, 1, 100.25, 10.0), w.Signal(1, 2), w.Signal(1, 2), w.Signal(2, 0, 98.5, 5.0, held=True))
    assert w.transmitter_file(2, signals) == sample("transmitter.bin")
    assert w.plant_from_transmitter(sample("transmitter.bin")) == sample("listing.bin")


def test_buying(sample):
    bought = w.meters_to_buy(sample("blind_site.bin"), (900, 1400, 650, 650, 300, 300, 420))
    assert bought == w.Purchase((4, 8), 950)


def test_layouts(sample):
    counts = w.layouts_of(sample("listing.bin"))
    assert "".join(f"{k} {count}\n" for k, count in enumerate(counts)) == sample("listing.layouts").decode()


@pytest.mark.parametrize("name", sorted(path.stem for path in SAMPLES.glob("*.visits")))
def test_visits(name, sample):
    listed = "".join(f"{visit.stream} {visit.cost}\n" for visit in w.visits(sample(f"{name}.bin")))
    assert listed == sample(f"{name}.visits").decode()


def test_charges(sample):
    bill = w.charges(sample("billed_site.bin"), (0, 8350, 8350, 7120, 9060))
    listed = "".join(f"{stream} {cents}\n" for stream, cents in bill.charges) + f"bill {bill.cents}\n"
    assert listed == sample("billed_site.charges").decode()
    with pytest.raises(w.Refusal) as caught:
        w.charges(sample("twin_lines.bin"), (8350, 8350, 8350))
    assert sample("twin_lines.charges").decode() == f"refused {caught.value.number}\n"


def test_offices(sample):
    file = sample("listing.bin")
    first = w.balance_plant(file, 3)
    second = w.balance_plant(file, 3, first.lasts)
    assert first.lasts == (0, 0, 0, 1, 0, 0, 0, 0) and second.lasts == (0, 0, 0, 2, 0, 0, 0, 0)
    sheet = w.read_sheet(second.sheet)
    assert (sheet.office, sheet.number, sheet.plain) == (3, 2, False)


def test_plain_total():
    plain = w.read_sheet(bytes.fromhex("14 1F 00000007 0000000000000000 00 02"))
    assert (plain.records, plain.office, plain.number, plain.plain) == ((w.Record(w.Kind.WITHHELD, None),), 0, 7, True)


def test_checked(sample):
    file = sample("steam_site.bin")
    sheet, numbers = w.balance_plant(file).sheet, w.place_numbers(file)
    assert len(numbers) == 14
    w.check_sheet(file, sheet, numbers)
    with pytest.raises(w.Refusal) as caught:
        w.check_sheet(file, sheet, [*numbers[:-1], numbers[-1] + 1_000])
    assert caught.value.number == 26


def test_sheet_drawn_up_elsewhere(sample):
    numbers = [int(word) for word in sample("rated_site.numbers").split()]
    w.check_sheet(sample("rated_site.bin"), sample("rated_site.sheet"), numbers)
    assert w.read_sheet(sample("rated_site.sheet")).office == 3


def test_documentation():
    assert doctest.testmod(w).failed == 0
