# SPDX-License-Identifier: LicenseRef-Wengeludo
"""Balancing: unit, weights, the site, its sheet, and how sure its numbers are."""
