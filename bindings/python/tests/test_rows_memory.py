# SPDX-License-Identifier: LicenseRef-Wengeludo
"""The rows function under ASan and UBSan, over drawn plants and rows; and the solver with its check, over drawn and hostile plants.

WENGELUDO_DRAWN (default 300)  how many rounds of three rows, by tens
"""

import os
import shutil
import subprocess
from pathlib import Path

import pytest

SCRIPT = Path(__file__).resolve().parents[1] / "native" / "sanitize.sh"
ARCHIVE = Path(os.environ.get("WENGELUDO_ARCHIVE") or Path(__file__).resolve().parents[3] / "target" / "staticlib" / "libwengeludo.a")


def test_no_byte_is_touched_that_is_not_the_rows_own():
    compiler = os.environ.get("CC", "cc")
    if not shutil.which(compiler) or not ARCHIVE.exists():
        pytest.skip("no C compiler or no archive")
    rounds = str(10 * int(os.environ.get("WENGELUDO_DRAWN", "300")))
    run = subprocess.run(["bash", str(SCRIPT), rounds], capture_output=True, text=True, timeout=600)
    if "cannot find" in run.stderr and "asan" in run.stderr:
        pytest.skip("the compiler has no ASan")
    assert run.returncode == 0, run.stdout + run.stderr
    rows, plants = run.stdout.splitlines()
    assert rows.startswith(f"{3 * int(rounds)} rows: 0: ") and plants.startswith(f"{rounds} plants: 0: "), run.stdout
