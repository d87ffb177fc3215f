# SPDX-License-Identifier: LicenseRef-Wengeludo
"""Explaining: why a number stands there, what to do next, which meter to visit or to buy."""
