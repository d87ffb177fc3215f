# SPDX-License-Identifier: LicenseRef-Wengeludo
"""The version of the archive, held against the header that the compiled part was made with."""

from __future__ import annotations

from typing import Tuple

from ._native import lib

Version = Tuple[int, int, int]
HEADER: Version = (lib.WENGELUDO_VERSION_MAJOR, lib.WENGELUDO_VERSION_MINOR, lib.WENGELUDO_VERSION_PATCH)


def version() -> Version:
    """Major, minor and patch version of the engine's archive."""
    number = lib.wengeludo_version()
    return number // 10_000, number // 100 % 100, number % 100


def _held() -> None:
    """ImportError where the archive is of another major version than the header, or older than it."""
    found = version()
    if found[0] != HEADER[0] or found < HEADER:
        told, needed = (".".join(map(str, numbers)) for numbers in (found, HEADER))
        raise ImportError(f"wengeludo_balance: the archive is version {told}; the header needs {needed} or a later {HEADER[0]}")


_held()
__version__ = ".".join(map(str, HEADER))
