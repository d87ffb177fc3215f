# SPDX-License-Identifier: LicenseRef-Wengeludo
"""A package of the desk imports only what is below it; the columns of a sheet are those by which a list is known as one."""

import re
from pathlib import Path

import pytest

import wengeludo
from wengeludo.read.columns import RESULTS
from wengeludo.write.columns import HEADS

LAYERS = ("read", "balance", "explain", "write", "keep", "history", "serve", "cli")
HOME = Path(wengeludo.__file__).parent


@pytest.mark.parametrize("layer", LAYERS)
def test_imports_lead_down(layer):
    lower = LAYERS[: LAYERS.index(layer)]
    files = sorted((HOME / layer).glob("*.py"))
    assert files
    for path in files:
        named = set(re.findall(r"^\s*from \.\.(\w+)", path.read_text(encoding="utf-8"), re.M)) & set(LAYERS)
        assert named <= set(lower), f"{path.name} imports {sorted(named - set(lower))}"


def test_every_package_is_a_layer():
    assert {path.parent.name for path in HOME.glob("*/__init__.py")} == set(LAYERS)


def test_the_results_of_a_sheet_are_its_last_columns():
    assert HEADS[-len(RESULTS):] == RESULTS
