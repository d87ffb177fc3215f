# SPDX-License-Identifier: LicenseRef-Wengeludo
"""Histories of many sites: a folder for each, with its list and its exports; all cores, or the workers of a dask.distributed scheduler.

A task has the bytes of a site's files and gives back the bytes of its tables, so that workers need no disk of this machine. What a site
gave is kept beside the summary and written whole; a run that was cut off goes on with the sites that are not there.
"""

from __future__ import annotations

import csv
import hashlib
import io
import json
import os
import tempfile
from concurrent.futures import FIRST_COMPLETED, Future, ProcessPoolExecutor, wait
from dataclasses import asdict, dataclass, replace
from pathlib import Path
from typing import Any, Callable, Dict, Iterator, List, Optional, Sequence, Set, Tuple

from ..read.faults import Stopped
from ..read.grids import is_header
from .command import OVERRIDES, Options, history

HEAD = ("site", "rows", "tested", "fail", "findings", "events", "sheets", "sheets that pass the check", "cents", "charged by", "first finding (estimate)", "fault")
TABLES = (".csv", ".xlsx", ".xlsm")
DONE = "done.json"
AHEAD = 2  # tasks handed over beyond the workers that are free
Files = Dict[str, bytes]


@dataclass(frozen=True)
class Outcome:
    """A line of the summary, and the files of the site's run."""

    cells: Tuple[str, ...]
    files: Files


def sites_in(folder: Path) -> List[Path]:
    """The folders of the sites, by name; Stopped if there are none."""
    try:
        found = sorted(path for path in folder.iterdir() if path.is_dir() and not path.name.startswith(".") and not path.name.endswith(".sites"))
    except OSError as error:
        raise Stopped(f"{folder}: {error.strerror}") from None
    if not found:
        raise Stopped(f"{folder}: it has no folder; one for each site, with its list and its exports, would do")
    return found


def files_of(site: Path) -> Files:
    """The tables of a site's folder, by name."""
    return {path.name: path.read_bytes() for path in sorted(site.iterdir()) if path.is_file() and path.suffix.lower() in TABLES and not path.name.startswith(".")}


def key_of(files: Files, options: Options) -> str:
    """What a site's run depends on: its files and what is asked for."""
    told = hashlib.sha256(json.dumps({**asdict(options), "threads": 0}, default=str, sort_keys=True).encode())
    for name, data in sorted(files.items()):
        told.update(f"{name}\0{len(data)}\0".encode() + data)
    return told.hexdigest()


def _is_list(name: str, data: bytes) -> bool:
    """Whether a table is a list: its header has from and to."""
    if name.lower().endswith(".csv"):
        lines = data[:20_000].decode("utf-8-sig", "replace").splitlines()[:50]
        return any(is_header(row) for mark in ",;\t" for row in csv.reader(lines, delimiter=mark))
    import openpyxl

    try:
        rows = openpyxl.load_workbook(io.BytesIO(data), read_only=True).worksheets[0].iter_rows(max_row=50, values_only=True)
        return any(is_header([str(cell or "") for cell in row]) for row in rows)
    except Exception:  # no workbook: the export's reader tells
        return False


def task(site: str, files: Files, options: Options) -> Outcome:
    """The run of one site; a fault is a line like any other."""
    with tempfile.TemporaryDirectory() as folder:
        home = Path(folder) / site
        home.mkdir()
        for name, data in files.items():
            (home / name).write_bytes(data)
        said = [name for name in files if name.casefold() == OVERRIDES]  # no export; taken only if that is asked for
        lists = [name for name, data in files.items() if name not in said and _is_list(name, data)]
        exports = [home / name for name in files if name not in lists + said]
        options = replace(options, overrides=home / said[0] if options.overrides and said else None)
        try:
            if len(lists) != 1 or not exports:
                raise Stopped(f"it has {len(lists)} lists (tables with from and to) and {len(exports)} other tables: one list and at least one export would do")
            return _outcome(site, home / lists[0], exports, options, Path(folder) / "out")
        except (Stopped, OSError) as error:
            told = " | ".join(str(error).replace(f"{folder}/", "").splitlines())
            return Outcome((site, *[""] * (len(HEAD) - 2), told), {})


def _outcome(site: str, path: Path, exports: Sequence[Path], options: Options, out: Path) -> Outcome:
    from . import files as written
    from .findings import sentence
    from .page import page
    from .tables import tables

    found, bills = history(path, exports, options)
    wanted = written.wanted([out], [f"{out}/"], [], bool(bills))
    written.write(found, tables(found, bills), lambda: page(found, bills), wanted)
    first = sentence(found.run, found.findings[0], 3) if found.findings else ""
    counts = (len(found.run.times), int(found.run.tested.sum()), int(found.fails().sum()), len(found.findings), len(found.events))
    passed = "" if found.run.sheets.checked is None else str(found.run.passed)
    cents = (str(sum(one.cents for one in bills)), bills[0].whose) if bills else ("", "")
    return Outcome((site, *map(str, counts), found.run.kind.value, passed, *cents, first, ""), {path.name: path.read_bytes() for path, _ in wanted})


def executor(cluster: Optional[str], jobs: int) -> Any:
    """What runs tasks: processes of this machine, or the workers of a scheduler. Whoever reaches a scheduler's port runs code there."""
    if cluster is None:
        return ProcessPoolExecutor(jobs)
    try:
        from distributed import Client
    except ImportError:
        raise Stopped("--cluster needs dask.distributed: apt-get install python3-distributed would do") from None
    try:
        return Client(cluster, timeout=10, set_as_default=False).get_executor(retries=2)
    except (OSError, ValueError) as error:
        raise Stopped(f"--cluster {cluster}: {error}") from None


@dataclass
class Runs:
    """The runs of a folder's sites."""

    folder: Path
    summary: Path
    options: Options
    jobs: int = 1
    cluster: Optional[str] = None

    @property
    def kept(self) -> Path:
        """Where the sites' tables are."""
        return self.summary.with_suffix(".sites")

    def run(self, told: Callable[[int, int], None] = lambda done, of: None) -> Tuple[List[Tuple[str, ...]], int]:
        """The lines of all sites in order, and how many were there before; the summary is written whole, at the end."""
        sites = sites_in(self.folder)
        lines = {site.name: line for site in sites for line in [self._before(site)] if line}
        before = len(lines)
        told(before, len(sites))
        for outcome, key in self._made([site for site in sites if site.name not in lines]):
            self._keep(outcome, key)
            lines[outcome.cells[0]] = outcome.cells
            told(len(lines), len(sites))
        ordered = [lines[site.name] for site in sites]
        self._summary(ordered)
        return ordered, before

    def _before(self, site: Path) -> Optional[Tuple[str, ...]]:
        """The line of a site that an earlier run has finished with the same files and options."""
        try:
            kept = json.loads((self.kept / site.name / DONE).read_text(encoding="utf-8"))
            return tuple(kept["cells"]) if kept["key"] == key_of(files_of(site), self.options) and len(kept["cells"]) == len(HEAD) else None
        except (OSError, ValueError, KeyError, TypeError):
            return None

    def _made(self, sites: Sequence[Path]) -> Iterator[Tuple[Outcome, str]]:
        """Outcomes as they come, with the keys of their files; a few tasks are handed over ahead."""
        if not sites:
            return
        with executor(self.cluster, self.jobs) as pool:
            left, running, keys = list(reversed(sites)), set(), {}  # type: List[Path], Set[Future], Dict[Future, str]
            while left or running:
                while left and len(running) < AHEAD * max(1, self.jobs):
                    site = left.pop()
                    files = files_of(site)
                    future = pool.submit(task, site.name, files, self.options)
                    keys[future] = key_of(files, self.options)
                    running.add(future)
                done, running = wait(running, return_when=FIRST_COMPLETED)
                for future in sorted(done, key=lambda one: one.exception() is not None):  # what is finished is kept before anything is raised
                    yield future.result(), keys.pop(future)

    def _keep(self, outcome: Outcome, key: str) -> None:
        """Writes a site's tables, and last of all that it is done."""
        from .files import Staged

        home = self.kept / outcome.cells[0]
        home.mkdir(parents=True, exist_ok=True)
        done = {DONE: json.dumps({"key": key, "cells": outcome.cells}, ensure_ascii=False).encode()}
        for some in (outcome.files, done):
            with Staged() as staged:
                for name, data in some.items():
                    with staged.open(home / name) as file:
                        file.write(data)

    def _summary(self, lines: Sequence[Tuple[str, ...]]) -> None:
        from .files import Staged
        from .tables import guarded

        text = io.StringIO(newline="")
        csv.writer(text).writerows([HEAD, *(map(guarded, line) for line in lines)])
        with Staged() as staged, staged.open(self.summary) as file:
            file.write(text.getvalue().encode("utf-8-sig"))
