# SPDX-License-Identifier: LicenseRef-Wengeludo
"""The samples' sheets as text and as JSON, and what the other commands say of them, as they were looked at and kept.

WENGELUDO_GOLDEN=write  writes them anew
"""

import os
from pathlib import Path

import pytest
from conftest import SAMPLES

GOLDEN = Path(__file__).parent / "golden"
STATUS = {"overfull_site": 1, "steam_site_off": 3}
SAID = {
    "why_blank": ("why", "steam_site", "18"),
    "why_given": ("why", "steam_site", "4"),
    "why_as_read": ("why", "steam_site", "1"),
    "why_adjusted": ("why", "steam_site", "9"),
    "why_rings": ("why", "blind_site", "9"),
    "why_held": ("why", "rated_site", "8"),
    "why_overfull": ("why", "overfull_site"),
    "suspects": ("suspects", "steam_site_off"),
    "buy": ("buy", "blind_site"),
    "buy_unpriced": ("buy", "listing"),
    "layouts": ("layouts", "listing"),
    "bill": ("bill", "steam_site"),
}


def same(name, text):
    path = GOLDEN / name
    if os.environ.get("WENGELUDO_GOLDEN") == "write":
        path.parent.mkdir(exist_ok=True)
        path.write_text(text, encoding="utf-8")
    assert text == path.read_text(encoding="utf-8")


@pytest.mark.parametrize("name", sorted(path.stem for path in SAMPLES.glob("*.csv") if ".places" not in path.name))
def test_sheet(name, run, tmp_path):
    ended = run("sheet", SAMPLES / f"{name}.csv", "-o", tmp_path / "sheet.json")
    assert ended.status == STATUS.get(name, 0)
    same(f"{name}.txt", ended.out)
    same(f"{name}.json", (tmp_path / "sheet.json").read_text(encoding="utf-8"))


@pytest.mark.parametrize("name", SAID)
def test_said(name, run):
    command, sample, *words = SAID[name]
    ended = run(command, SAMPLES / f"{sample}.csv", *words)
    assert ended.status == (1 if sample == "overfull_site" else 0)
    same(f"{name}.txt", ended.out)


def test_comma_and_point_are_the_same(run):
    point, comma = (run("sheet", SAMPLES / f"{name}.csv").out.splitlines()[2:] for name in ("steam_site", "steam_site_comma"))
    assert point == comma
