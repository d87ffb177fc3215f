# SPDX-License-Identifier: LicenseRef-Wengeludo
"""The binding beside the C programs over the same archive, on all samples.

WENGELUDO_PROGRAMS (default target/built)  where `bash programs/build.sh` puts them
"""

import os
import subprocess
from pathlib import Path

import pytest

import wengeludo_balance as w

ROOT = Path(__file__).resolve().parents[3]
PROGRAMS = Path(os.environ.get("WENGELUDO_PROGRAMS") or ROOT / "target" / "built")
FILES = sorted(path for path in (ROOT / "samples").glob("*.bin") if path.stem != "transmitter")
pytestmark = pytest.mark.skipif(not (PROGRAMS / "visits_file").exists(), reason="the C programs are not built")


def printed(program, *words):
    return subprocess.run([PROGRAMS / program, *map(str, words)], capture_output=True, text=True).stdout


def told(call, show):
    try:
        return show(call())
    except w.Refusal as refusal:
        return f"refused {refusal.number}\n"


@pytest.mark.parametrize("path", FILES, ids=lambda path: path.stem)
def test_sample(path):
    file = path.read_bytes()
    listing = told(lambda: w.balance(file), str)
    assert printed("balance_file", path).startswith(listing)
    assert printed("visits_file", path) == told(lambda: w.visits(file), lambda found: "".join(f"{v.stream} {v.cost}\n" for v in found))
    layouts = told(lambda: w.layouts_of(file), lambda counts: "".join(f"{k} {count}\n" for k, count in enumerate(counts)))
    assert printed("layouts_file", path) == layouts
    streams = w.read_plant(file).streams
    prices = [100 + 7 * k for k, s in enumerate(streams) if not s.metered]
    bought = told(lambda: w.meters_to_buy(file, prices), lambda p: "".join(f"buy {k}\n" for k in p.streams) + f"price {p.price}\n")
    assert printed("meters_to_buy", path, *prices) == bought
    rates = [10 * k + 3 for k, s in enumerate(streams) if s.target == 0]
    bill = told(lambda: w.charges(file, rates), lambda b: "".join(f"{k} {cents}\n" for k, cents in b.charges) + f"bill {b.cents}\n")
    assert printed("charges_file", path, *rates) == bill
    numbers = told(lambda: w.place_numbers(file), lambda found: "".join(f"{number}\n" for number in found))
    assert printed("place_numbers", path) == numbers


@pytest.mark.parametrize("path", FILES, ids=lambda path: path.stem)
def test_checked(path, tmp_path):
    """The C program passes the binding's sheet with the binding's numbers, and one with another cost not."""
    file = path.read_bytes()
    try:
        sheet, numbers = w.balance_plant(file, 5).sheet, w.place_numbers(file)
    except w.Refusal:
        return
    other = sheet[:-10] + bytes(((sheet[-10] + 1) % 256,)) + sheet[-9:]
    (tmp_path / "numbers").write_text("".join(f"{number}\n" for number in numbers))
    for data, passes in ((sheet, True), (other, False)):
        (tmp_path / "sheet").write_bytes(data)
        told = printed("check_sheet", path, tmp_path / "sheet", tmp_path / "numbers")
        assert told.startswith("passes") == passes
        assert passes or told == f"refused 26\n{w.broken_rule(file, data, numbers)}\n"
