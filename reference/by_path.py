"""Imported first by a module that was started by its path: from then on the package is found, as `python3 -m reference.NAME` finds it."""

import sys
from pathlib import Path

sys.path[0] = str(Path(__file__).resolve().parent.parent)
