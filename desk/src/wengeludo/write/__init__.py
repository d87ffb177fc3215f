# SPDX-License-Identifier: LicenseRef-Wengeludo
"""Writing: tables, pages, drawings, files, the terminal."""
