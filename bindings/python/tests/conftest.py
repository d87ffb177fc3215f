# SPDX-License-Identifier: LicenseRef-Wengeludo
"""Where the repository's samples and reference solver are."""

import os
import sys
from pathlib import Path

import pytest

ROOT = Path(__file__).resolve().parents[3]
REFERENCE = Path(os.environ.get("WENGELUDO_REFERENCE") or ROOT / "reference")
sys.path.insert(0, str(REFERENCE.resolve().parent))


@pytest.fixture
def sample():
    """The bytes of a sample by its file's name."""
    return lambda name: (ROOT / "samples" / name).read_bytes()
