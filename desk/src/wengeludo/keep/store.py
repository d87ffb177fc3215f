# SPDX-License-Identifier: LicenseRef-Wengeludo
"""A store under the book: SQLite, one file, or PostgreSQL, a server. Statements are the same text; what differs stands in `lite` and `server`."""

from __future__ import annotations

import re
import time
from contextlib import contextmanager
from pathlib import Path
from typing import Any, Callable, Iterable, Iterator, List, Optional, Sequence, Tuple, TypeVar, Union

from ..read.faults import Stopped
from .schema import OPEN

Row = Tuple[Any, ...]
Where = Union[str, Path]
T = TypeVar("T")
SERVERS = ("postgresql://", "postgres://")
PATIENCE = 8.0  # seconds for which a lost store is asked again


class NoBook(Stopped):
    """There is no book here, or none of this version."""


class Unreachable(Stopped):
    """The store cannot be reached or stays locked. What was not told as kept may be sent again with the same key."""


class Unwritable(Stopped):
    """The store is full, or may not be written by this user. Nothing of what was asked is kept."""


class Damaged(Stopped):
    """What the book holds cannot be read."""


class Closed(Stopped):
    """Nobody draws in this book: it is a backup, is being moved, or has moved."""


class Conflict(Stopped):
    """What is asked for contradicts what the book has."""


class Absent(Stopped):
    """There is no such sheet or list."""


class Store:
    """A database. `whole` is one transaction; `lock` follows a SELECT that is to hold its rows."""

    lock = ""
    title = ""  # as messages name it, without a password

    def run(self, sql: str, words: Sequence[Any] = ()) -> List[Row]:
        """The rows of a statement."""
        raise NotImplementedError

    def later(self, sql: str, words: Sequence[Any] = ()) -> None:
        """Writes within a transaction without waiting for the answer: it comes with the next statement's, at the latest with the end's."""
        self.run(sql, words)

    def many(self, sql: str, rows: Iterable[Sequence[Any]]) -> None:
        """One statement for each of these rows."""
        for row in rows:
            self.later(sql, row)

    @contextmanager
    def whole(self) -> Iterator["Store"]:
        """All that is written within is kept, or nothing."""
        raise NotImplementedError
        yield self

    def counted(self) -> None:
        """After rows came in with numbers of their own: new ones are numbered behind them."""

    def faults(self) -> List[str]:
        """What the database itself finds wrong with its pages."""
        return []

    def close(self) -> None:
        """Lets the database go."""
        raise NotImplementedError


def is_server(where: Where) -> bool:
    """Whether a book's name is that of a server's database."""
    return str(where).startswith(SERVERS)


def title_of(where: Where) -> str:
    """A book's name without a password, as messages and the book itself write it."""
    return re.sub(r"(//[^/@:]*):[^/@]*@", r"\1:…@", re.sub(r"(password=)[^&]*", r"\1…", str(where)))


def opened(where: Where, make: bool = False, state: str = OPEN, identity: str = "") -> Store:
    """The store of a book; made if there is none and `make` says so, with its offices in this state."""
    if is_server(where):
        from .server import Server

        return Server(str(where), make, state, identity)
    from .lite import Lite

    return Lite(Path(where), make, state, identity)


def patiently(work: Callable[[], T], seconds: Optional[float] = None) -> T:
    """Does what may be done twice (a read, or a keep with its key) again if the store was lost, for some seconds."""
    end, pause = time.monotonic() + (PATIENCE if seconds is None else seconds), 0.05
    while True:
        try:
            return work()
        except Unreachable:
            if time.monotonic() + pause > end:
                raise
            time.sleep(pause)
            pause = min(1.0, pause * 2)
