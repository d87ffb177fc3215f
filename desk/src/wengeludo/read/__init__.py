# SPDX-License-Identifier: LicenseRef-Wengeludo
"""Reading: numbers, tables, pipe lists, plant files, and the faults that they have."""
