# SPDX-License-Identifier: LicenseRef-Wengeludo
"""The inverse of a sum of balances, in floats, whatever the deviations span."""

from __future__ import annotations

from typing import Any

SMALL = 1e-13  # what is smaller, of a matrix with ones on its diagonal, is taken as 0


def inverse(matrix: Any) -> Any:
    """The pseudo-inverse of a symmetric matrix, scaled to ones on its diagonal first."""
    import numpy as np

    scale = np.sqrt(np.diag(matrix)).copy()
    scale[scale == 0] = 1
    return np.linalg.pinv(matrix / scale[:, None] / scale, rcond=SMALL, hermitian=True) / scale[:, None] / scale
