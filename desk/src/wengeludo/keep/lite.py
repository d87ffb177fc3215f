# SPDX-License-Identifier: LicenseRef-Wengeludo
"""A book in one SQLite file: write-ahead log, every commit forced out, and a queue with a deadline before each transaction."""

from __future__ import annotations

import fcntl
import os
import random
import sqlite3
import tempfile
import threading
import time
from contextlib import contextmanager
from pathlib import Path
from typing import Any, Iterable, Iterator, List, Optional, Sequence

from ..read.faults import Stopped
from .schema import APPLICATION, KEPT, VERSION, first_rows, statements
from .store import Conflict, Damaged, NoBook, Row, Store, Unreachable, Unwritable

TURN_SECONDS = 10.0  # how long one waits for one's turn to write
BUSY_SECONDS = 5.0
_NO_ROOM = ("SQLITE_FULL", "SQLITE_IOERR")
_NO_FILE = ("SQLITE_NOTADB", "SQLITE_CORRUPT")
_TRIGGER = "CREATE TRIGGER {table}_{event} BEFORE {event} ON {table} BEGIN SELECT RAISE(ABORT, 'what is kept is never altered'); END"


class Lite(Store):
    """One file; one connection for each thread."""

    def __init__(self, path: Path, make: bool = False, state: str = "", identity: str = "") -> None:
        self.path, self.local, self.title = path, threading.local(), str(path)
        if make and not path.exists():
            self._make(state, identity)
        if not path.is_file():
            raise NoBook(f"{path}: there is no such book" if not path.exists() else f"{path}: this is no book of sheets: a file would do")
        self._known()

    # -- opening

    @property
    def base(self) -> sqlite3.Connection:
        found: Optional[sqlite3.Connection] = getattr(self.local, "base", None)
        if found is None:
            found = self.local.base = self._connect()
        return found

    def _connect(self) -> sqlite3.Connection:
        how = "mode=rw" if os.access(self.path, os.W_OK) and os.access(self.path.parent, os.W_OK) else "mode=ro"
        if how == "mode=ro" and not Path(f"{self.path}-wal").exists():
            how += "&immutable=1"  # a closed book on a medium that cannot be written
        try:
            base = sqlite3.connect(f"{self.path.resolve().as_uri()}?{how}", uri=True, timeout=BUSY_SECONDS, isolation_level=None)
            base.execute("PRAGMA synchronous = FULL")
            base.execute("PRAGMA foreign_keys = ON")
        except sqlite3.Error as error:
            raise self._told(error) from None
        return base

    def _known(self) -> None:
        """Stopped if the file is no book of this version."""
        with open(self.path, "rb") as file:
            head = file.read(72)
        mark, version = int.from_bytes(head[68:72], "big"), int.from_bytes(head[60:64], "big")
        if not head.startswith(b"SQLite format 3\0") or mark != APPLICATION:
            raise NoBook(f"{self.path}: this is no book of sheets: another name would do")
        if version == 1:
            raise NoBook(f"{self.path}: this is a book of version 1: `wengeludo book upgrade {self.path} NEW` would do")
        if version != VERSION:
            raise NoBook(f"{self.path}: this is a book of version {version}, this program reads version {VERSION}: a later program would do")

    def _make(self, state: str, identity: str) -> None:
        """Makes the file under a name of its own, then gives it its name: it is there whole or not at all, however many make it at once."""
        try:
            with self._turn():
                if not self.path.exists():
                    name = tempfile.mktemp(prefix=f".{self.path.name}.", dir=self.path.parent)
                    self._written(name, state, identity)
                    os.rename(name, self.path)
                    _forced(self.path.parent)
        except OSError as error:
            raise Unwritable(f"{self.path}: no book can be made here ({error.strerror}): a folder that you may write to would do") from None
        except sqlite3.Error as error:
            raise self._told(error) from None

    def _written(self, name: str, state: str, identity: str) -> None:
        base = sqlite3.connect(name, isolation_level=None)
        try:
            base.execute("PRAGMA journal_mode = WAL")
            base.execute("BEGIN")
            for one in statements("BLOB", "INTEGER PRIMARY KEY AUTOINCREMENT", "TEXT"):
                base.execute(one)
            for sql, words in first_rows(state, identity):
                base.execute(sql, words)
            for table in KEPT:
                for event in ("UPDATE", "DELETE"):
                    base.execute(_TRIGGER.format(table=table, event=event))
            base.execute(f"PRAGMA application_id = {APPLICATION}")
            base.execute(f"PRAGMA user_version = {VERSION}")
            base.execute("COMMIT")
        except BaseException:
            base.close()
            os.unlink(name)
            raise
        base.close()

    def close(self) -> None:
        base, self.local.base = getattr(self.local, "base", None), None
        if base is not None:
            base.close()

    # -- statements

    def run(self, sql: str, words: Sequence[Any] = ()) -> List[Row]:
        try:
            return self.base.execute(sql, words).fetchall()
        except sqlite3.Error as error:
            raise self._told(error) from None

    def many(self, sql: str, rows: Iterable[Sequence[Any]]) -> None:
        try:
            self.base.executemany(sql, rows)
        except sqlite3.Error as error:
            raise self._told(error) from None

    def faults(self) -> List[str]:
        return [f"{self.path}: {text}" for (text,) in self.run("PRAGMA integrity_check(10)") if text != "ok"]

    @contextmanager
    def whole(self) -> Iterator[Store]:
        with self._turn():
            self.run("BEGIN IMMEDIATE")
            try:
                yield self
                self.run("COMMIT")
            except BaseException:
                if self.base.in_transaction:
                    self.base.execute("ROLLBACK")
                raise

    @contextmanager
    def _turn(self) -> Iterator[None]:
        """Waits for one's turn, for some seconds and no longer. SQLite's own waiting favours those who have just come."""
        try:
            handle = os.open(f"{self.path}.turn", os.O_RDWR | os.O_CREAT | os.O_CLOEXEC, 0o666)
        except OSError as error:
            raise Unwritable(f"{self.path}: the book cannot be written ({error.strerror}): the right to write it and its folder would do") from None
        try:
            self._wait(handle)
            yield
        finally:
            os.close(handle)  # and lets the turn go

    def _wait(self, handle: int) -> None:
        began = time.monotonic()
        while True:
            try:
                return fcntl.flock(handle, fcntl.LOCK_EX | fcntl.LOCK_NB)
            except BlockingIOError:
                waited = time.monotonic() - began
            if waited > TURN_SECONDS:
                raise Unreachable(f"{self.path}: another program has held the book for {waited:.0f} s; nothing of this is kept: the same again would do")
            time.sleep(random.uniform(0.5, 1.5) * (0.002 / (1 + 10 * waited) if waited < 2 else 0.02))  # who has waited longer asks more often

    def _told(self, error: sqlite3.Error) -> Stopped:
        """What an error of SQLite comes to, for the user."""
        name = getattr(error, "sqlite_errorname", "") or ""
        text = str(error)
        if name.startswith(_NO_FILE) or "malformed" in text or "not a database" in text:
            return Damaged(f"{self.path}: the book is damaged ({text}): `wengeludo book restore` of a backup would do")
        if name.startswith(_NO_ROOM) or "disk" in text:
            return Unwritable(f"{self.path}: the disk is full or fails ({text}); nothing of this is kept: room on the disk and the same again would do")
        if "readonly" in text or "unable to open" in text:
            return Unwritable(f"{self.path}: the book cannot be written ({text}): the right to write it and its folder would do")
        if "locked" in text or "busy" in text:
            return Unreachable(f"{self.path}: another program holds the book ({text}); nothing of this is kept: the same again would do")
        if isinstance(error, sqlite3.IntegrityError):
            return Conflict(f"{self.path}: this contradicts what the book has ({text}); nothing of this is kept")
        return Damaged(f"{self.path}: the book is damaged ({text}): `wengeludo book restore` of a backup would do")


def handed_over(name: Path, path: Path) -> None:
    """Gives a finished book its name, if no file has it, and takes away what stood beside it."""
    try:
        os.link(name, path)
    except FileExistsError:
        raise Conflict(f"{path}: there is a file of this name, and it would be lost: another name would do") from None
    except OSError:  # a disk without such links
        os.rename(name, path)
    _forced(path.parent)


def unused(path: Path) -> Path:
    """A name beside a path, for a book that is not finished."""
    if path.exists():
        raise Conflict(f"{path}: there is a file of this name, and it would be lost: another name would do")
    return Path(tempfile.mktemp(prefix=f".{path.name}.", dir=path.parent))


def removed(path: Path) -> None:
    """Takes an unfinished book away, with the files beside it."""
    for end in ("", ".turn", "-wal", "-shm"):
        Path(f"{path}{end}").unlink(missing_ok=True)


def _forced(folder: Path) -> None:
    """Forces a folder's names out to the disk."""
    handle = os.open(folder, os.O_RDONLY)
    try:
        os.fsync(handle)
    finally:
        os.close(handle)
