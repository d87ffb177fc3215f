# SPDX-License-Identifier: LicenseRef-Wengeludo
"""What the calls share: slices of C numbers, and refusals raised."""

from __future__ import annotations

from typing import Any, Iterable, Tuple

from . import _version  # noqa: F401  an archive that the header does not fit is refused before any call
from ._native import ffi, lib
from .refusal import Refusal

__all__ = ["ffi", "fitting", "given", "lent", "lib", "out", "raise_for"]


def out(element: str, length: int) -> Any:
    """Memory for a call to write to."""
    return ffi.new(f"{element}[]", length)


def lent(array: Any) -> Tuple[Any, int]:
    """Pointer and length, as the calls take them."""
    return array, len(array)


def given(data: Any) -> Tuple[bytes, int]:
    """The bytes of any bytes-like object (bytes, bytearray, memoryview, array of bytes) and their length; TypeError for anything else."""
    try:
        taken = bytes(memoryview(data))
    except TypeError:
        raise TypeError(f"a file is bytes or a bytes-like object, not {type(data).__name__}") from None
    return taken, len(taken)


def fitting(array: str, values: Iterable[Any], least: int, most: int, refused: int) -> Any:
    """An array of these numbers, and in the place of one that does not fit a number that the call refuses."""
    return ffi.new(array, [value if least <= value <= most else refused for value in values])


def raise_for(number: int, marked: int = 0) -> None:
    """Raises what a call returned, unless it is 0."""
    if number:
        raise Refusal(number, marked)
