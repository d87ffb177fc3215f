# SPDX-License-Identifier: LicenseRef-Wengeludo
"""Serving: the desk in a browser."""
