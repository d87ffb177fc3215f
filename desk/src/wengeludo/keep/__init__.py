# SPDX-License-Identifier: LicenseRef-Wengeludo
"""Keeping: the book of sheets, and a folder of lists in one run."""
