# SPDX-License-Identifier: LicenseRef-Wengeludo
"""The compiled part, and the tag of its wheel; everything else stands in pyproject.toml."""

from setuptools import setup

# The compiled module is of the limited API (cffi makes it so), so one wheel serves Python 3.9 and later.
setup(cffi_modules=["build_native.py:ffi"], options={"bdist_wheel": {"py_limited_api": "cp39"}})
