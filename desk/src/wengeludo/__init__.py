# SPDX-License-Identifier: LicenseRef-Wengeludo
"""The desk tool: balance sheets from pipe lists, over the proved balance engine."""

__version__ = "1.1.0"
