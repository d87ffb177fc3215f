# SPDX-License-Identifier: LicenseRef-Wengeludo
"""Where the sample lists are, and the tool run within the test."""

import os
from pathlib import Path
from typing import NamedTuple

import pytest

SAMPLES = Path(__file__).resolve().parents[1] / "samples"
os.environ.setdefault("WENGELUDO_TRACE", "1")  # a fault of the program itself is to fail the test


class Ended(NamedTuple):
    status: int
    out: str
    err: str


@pytest.fixture
def run(capsys, monkeypatch):
    """Runs the command line: status, output, messages."""
    from wengeludo.cli import main

    monkeypatch.setenv("COLUMNS", "140")

    def call(*words):
        capsys.readouterr()
        status = main([str(word) for word in words])
        return Ended(status, *capsys.readouterr())

    return call


@pytest.fixture
def listed(tmp_path):
    """A file with this text, by its name."""

    def write(text, name="list.csv"):
        path = tmp_path / name
        path.write_bytes(text.encode() if isinstance(text, str) else text)
        return path

    return write


@pytest.fixture(scope="session")
def server():
    """A private PostgreSQL server; what needs it is skipped if this machine has none."""
    import servers

    if servers.missing():
        pytest.skip(f"no book on a server is tested: {servers.missing()}")
    one = servers.Server()
    yield one
    one.end()


@pytest.fixture(params=["file", "server"])
def new_book(request, tmp_path):
    """Gives the name of a book that is not there yet: a file, then a database of a server."""
    if request.param == "server":
        return request.getfixturevalue("server").fresh
    names = iter(range(100))
    return lambda: str(tmp_path / f"{next(names)}.book")
