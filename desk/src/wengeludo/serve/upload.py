# SPDX-License-Identifier: LicenseRef-Wengeludo
"""Lists that come over the network: looked over, then read in a process of its own with little memory and time, under no path of the sender's."""

from __future__ import annotations

import io
import pickle
import resource
import subprocess
import sys
import tempfile
import zipfile
from pathlib import Path, PurePosixPath

from ..balance.site import Site, site_in
from ..read.faults import Stopped

MOST_BYTES, MOST_UNPACKED, MOST_PARTS = 2_000_000, 20_000_000, 200
SECONDS, MEMORY = 10, 700_000_000
MOST_FAULTS = 50
SUFFIXES = (".csv", ".xlsx", ".txt", ".bin")


class Unreadable(Stopped):
    """The faults of a list, a line each."""


def name_of(name: str) -> str:
    """What is shown of the sender's name of a file: no folder, no odd letters."""
    last = PurePosixPath(name.replace("\\", "/")).name
    return "".join(letter for letter in last if letter.isprintable() and letter not in "/\0")[:80].lstrip(".") or "list.csv"


def looked_over(name: str, data: bytes) -> None:
    """Unreadable if the file is too large, packed or not, or of another kind."""
    if len(data) > MOST_BYTES:
        raise Unreadable(f"the file is larger than {MOST_BYTES:,} bytes: a list is not")
    if not name.lower().endswith(SUFFIXES):
        raise Unreadable("a list is .csv or .xlsx, a plant file .bin")
    if name.lower().endswith(".xlsx"):
        try:
            parts = zipfile.ZipFile(io.BytesIO(data)).infolist()
        except (zipfile.BadZipFile, ValueError, OverflowError, NotImplementedError):
            raise Unreadable("the file is no XLSX workbook that can be read: saving it anew would do") from None
        if len(parts) > MOST_PARTS or sum(part.file_size for part in parts) > MOST_UNPACKED:
            raise Unreadable(f"unpacked the workbook is larger than {MOST_UNPACKED:,} bytes: a list is not")


def read(name: str, data: bytes) -> Site:
    """The site of a list; Unreadable with all its faults."""
    looked_over(name, data)
    with tempfile.TemporaryDirectory() as folder:
        Path(folder, name).write_bytes(data)
        try:
            done = subprocess.run(
                [sys.executable, "-m", "wengeludo.serve.upload", name], cwd=folder, capture_output=True, timeout=SECONDS + 5, preexec_fn=_little
            )
        except subprocess.TimeoutExpired:
            raise Unreadable("the list takes too long to read") from None
    if done.returncode == 3:
        raise Unreadable(done.stdout.decode(errors="replace"))
    if done.returncode:
        raise Unreadable("the list cannot be read: it takes more memory or time than a list does")
    site: Site = pickle.loads(done.stdout)  # from our own process, not from the network
    return site


def _little() -> None:
    resource.setrlimit(resource.RLIMIT_AS, (MEMORY, MEMORY))
    resource.setrlimit(resource.RLIMIT_CPU, (SECONDS, SECONDS))
    resource.setrlimit(resource.RLIMIT_FSIZE, (0, 0))
    resource.setrlimit(resource.RLIMIT_NOFILE, (64, 64))


def main() -> int:
    """Reads the list that is named and hands its site to the server, or tells its faults."""
    try:
        site = site_in(Path(sys.argv[1]), None)
    except (Stopped, OSError) as error:
        sys.stdout.write("\n".join(str(error).splitlines()[:MOST_FAULTS]))
        return 3
    sys.stdout.buffer.write(pickle.dumps(site))
    return 0


if __name__ == "__main__":
    sys.exit(main())
