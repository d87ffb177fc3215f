# SPDX-License-Identifier: LicenseRef-Wengeludo
"""What stands behind the numbers of a sheet: three kinds, told apart wherever a person reads."""

from __future__ import annotations

from enum import Enum


class SheetKind(Enum):
    """The kind of a sheet; its value is the word that files and books keep."""

    ENGINE = "engine"
    CHECKED = "checked"
    UNJUDGED = "not judged"

    @property
    def text(self) -> str:
        """What the first line of such a sheet says of it; nothing of the engine's own, which is drawn as it always was."""
        return _TEXTS[self]


_TEXTS = {
    SheetKind.ENGINE: "",
    SheetKind.CHECKED: "whole flows of least cost, checked by a proved call; cost and verdict in exact fractions",
    SheetKind.UNJUDGED: "not judged",
}
