# SPDX-License-Identifier: LicenseRef-Wengeludo
"""History: one pipe list and exports of a historian, a sheet for every row, and what the rows say together."""
