# SPDX-License-Identifier: LicenseRef-Wengeludo
"""A book of version 1 made one of version 2, in a new file: the same numbers, the same bytes of every sheet, checked whole before it is opened."""

from __future__ import annotations

import hashlib
import json
import sqlite3
from fractions import Fraction
from pathlib import Path
from typing import Any, Iterator, List, Set, Tuple

import wengeludo_balance as engine

from ..balance.site import Site, site_of
from ..balance.unit import MOST_RANGE
from ..read.faults import Stopped
from ..read.lists import Pipe, PipeList
from ..read.numbers import Accuracy, Marks, accuracy
from .book import Book, Office
from .check import Told, check
from .copies import _insert
from .lite import handed_over, removed, unused
from .record import FIELDS, MOST_COST, SHEET, Kept, blanks_of, clean, content_key, dumps, readings_of, told_of
from .schema import APPLICATION, OPEN
from .store import Damaged, NoBook

_CLOSED = "CREATE TRIGGER IF NOT EXISTS upgraded BEFORE INSERT ON sheets BEGIN SELECT RAISE(ABORT, '{text}'); END"


def upgrade(old: Path, new: Path, told: Told = lambda done, of: None) -> int:
    """Makes `new` of the version 1 book `old`; how many sheets it has. From the end of the copy on nobody draws in the old one, not even a
    program that has it open, and only then the new one gets its name: never two are open. Cut off, it is run again."""
    name, base = unused(new), _version_1(old)
    try:
        base.execute("BEGIN IMMEDIATE")
        with Book(name, make=True, state="being upgraded") as book:
            count = _copied(base, book, told)
            _checked(book, base)
            book.store.run("UPDATE offices SET state = ?", (OPEN,))
        base.execute(_CLOSED.format(text=f"this book has been upgraded: {new.name} has its sheets".replace("'", "''")))
        base.execute("COMMIT")
        handed_over(name, new)
        return count
    except sqlite3.Error as error:
        raise Damaged(f"{old}: the book is damaged or in use ({error})") from None
    finally:
        base.close()
        removed(name)


def _version_1(path: Path) -> sqlite3.Connection:
    if not path.is_file():
        raise NoBook(f"{path}: there is no such book")
    base = sqlite3.connect(f"{path.resolve().as_uri()}?mode=rw", uri=True, timeout=10, isolation_level=None)
    try:
        mark, version = (base.execute(f"PRAGMA {name}").fetchone()[0] for name in ("application_id", "user_version"))
    except sqlite3.Error as error:
        base.close()
        raise NoBook(f"{path}: this is no book of sheets ({error})") from None
    if (mark, version) != (APPLICATION, 1):
        base.close()
        raise NoBook(f"{path}: this is no book of version 1")
    return base


def _copied(base: sqlite3.Connection, book: Book, told: Told) -> int:
    """Writes every sheet, with its plan, its key and its link; how many."""
    of = base.execute("SELECT count(*) FROM sheets").fetchone()[0]
    count = 0
    with book.store.whole() as store:
        for (office, last) in base.execute("SELECT office, last FROM offices ORDER BY office").fetchall():
            at, keys = Office(office, 0, 0, 0, bytes(32), ""), set()  # type: Office, Set[str]
            for some in _some(base, office):
                rows, at = _rows(book, some, at, keys)
                store.many(_insert("sheets", FIELDS), rows)
                count += len(rows)
                told(count, of)
            if at.last != last:
                raise Damaged(f"office {office}: its last number is {last}, and its sheets end at {at.last}: nothing is upgraded")
            store.run("UPDATE offices SET last = ?, entry = ?, chain = ? WHERE office = ?", (at.last, at.entry, at.chain, office))
    return count


def _some(base: sqlite3.Connection, office: int) -> Iterator[List[Tuple[Any, ...]]]:
    cursor = base.execute("SELECT number, date, source, names, plant, sheet, numbers FROM sheets WHERE office = ? ORDER BY number", (office,))
    while True:
        some = cursor.fetchmany(500)
        if not some:
            return
        yield some


def _rows(book: Book, some: List[Tuple[Any, ...]], at: Office, keys: Set[str]) -> Tuple[List[Tuple[Any, ...]], Office]:
    rows = []
    for row in some:
        kept = _kept(book, row, at, keys)
        at = Office(at.office, kept.number, 0, kept.entry, kept.link(at.chain), "")
        rows.append((*(getattr(kept, name) for name in FIELDS[:-1]), at.chain))
    return rows, at


def _kept(book: Book, row: Tuple[Any, ...], at: Office, keys: Set[str]) -> Kept:
    number, date, source, names, plant, sheet, numbers = row
    title = f"sheet {number} of office {at.office}"
    if number != at.last + 1:
        raise Damaged(f"{title} does not follow sheet {at.last}: nothing is upgraded")
    try:
        site, read, numbers = _site(names, plant), engine.read_sheet(sheet), dumps(json.loads(numbers))
    except (engine.Refusal, Stopped, ValueError, KeyError, TypeError, IndexError) as error:
        raise Damaged(f"{title} is damaged in the old book ({error}): nothing is upgraded") from None
    text = told_of(site)
    digest = hashlib.sha256(text.encode()).digest()
    if digest not in book.known:
        book.known[digest] = book._plan(site, digest, text)
    key = content_key(site, at.office)
    request = f"version 1/{at.office}-{number}" if key in keys else key
    keys.add(key)
    return Kept(at.office, at.entry + 1, SHEET, number, date[:19] + ".000Z", "", "", request, clean(source), clean(site.list.name), book.known[digest], readings_of(site),
                plant, sheet, numbers, "", "", read.verdict.value, min(read.cost, MOST_COST), blanks_of(read), b"", digest)


def _site(names: str, file: bytes) -> Site:
    """The site of a sheet of version 1: its plant from the plant file, its names from what was kept beside it."""
    plant, told = engine.read_plant(file), json.loads(names)
    unit = Fraction(told["unit"])
    pipes = []
    for row, (stream, (label, what, reading, stated, deviation, price, rate, *extra)) in enumerate(zip(plant.streams, told["pipes"]), 2):
        low, high = (None if end is None or abs(end) == MOST_RANGE else float(end * unit) for end in (stream.low, stream.high))
        accurate = None if deviation is None else _accuracy(stated, reading, deviation)
        pipes.append(Pipe(row, label, what, stream.source, stream.target, reading, accurate, stated, low, high, price, rate, tuple(extra)))
    spots = {place: (float(x), float(y)) for place, x, y in told.get("spots", ())}
    return site_of(PipeList(told["site"], tuple(pipes), tuple(told["places"]), tuple(told["extras"]), spots), unit)


def _accuracy(stated: str, reading: float, deviation: float) -> Accuracy:
    """The accuracy that the list's own text gives, if its deviation is the one that was kept."""
    for mark in ".,":
        try:
            found = accuracy(stated, reading, Marks(mark, True))
        except ValueError:
            continue
        if found.deviation == deviation:
            return found
    return Accuracy(deviation)


def _checked(book: Book, base: sqlite3.Connection) -> None:
    """Every sheet of the new book passes, and has the bytes of the old one."""
    faults = check(book)
    if faults:
        raise Damaged(f"the upgraded book does not pass the check: {faults[0]}: nothing is upgraded")
    ask = "SELECT office, number, plant, sheet FROM sheets ORDER BY office, number"
    new = iter(book.store.base.execute(ask))  # type: ignore[attr-defined]
    if any(row != next(new, None) for row in base.execute(ask)) or next(new, None) is not None:
        raise Damaged("the upgraded book has other bytes than the old one: nothing is upgraded")
