# SPDX-License-Identifier: LicenseRef-Wengeludo
"""Who may do what. People are kept in a file of their own beside the book: a book that is handed on holds no password."""

from __future__ import annotations

import hashlib
import secrets
import sqlite3
import threading
import time
from dataclasses import dataclass
from pathlib import Path
from typing import FrozenSet, List, Optional, Tuple

from ..read.faults import Stopped

ROLES = ("reader", "engineer", "admin")
LONGEST_STAY, LONGEST_IDLE, SEEN_EVERY = 12 * 3600, 2 * 3600, 60
WINDOW, MOST_BY_NAME, MOST_BY_ADDRESS = 900, 5, 20
SHORTEST_PASSWORD = 10
_TABLES = """
CREATE TABLE IF NOT EXISTS users (name TEXT PRIMARY KEY, hash TEXT NOT NULL, role TEXT NOT NULL, offices TEXT NOT NULL, disabled INTEGER NOT NULL DEFAULT 0);
CREATE TABLE IF NOT EXISTS sessions (token BLOB PRIMARY KEY, name TEXT NOT NULL, csrf TEXT NOT NULL, made REAL NOT NULL, seen REAL NOT NULL);
CREATE TABLE IF NOT EXISTS failures (what TEXT NOT NULL, at REAL NOT NULL);
CREATE INDEX IF NOT EXISTS failures_what ON failures (what, at);
"""


@dataclass(frozen=True)
class Person:
    """Somebody who has come in: name, role, the offices that they keep for, and the token of their forms."""

    name: str
    role: str
    offices: FrozenSet[int]
    csrf: str
    alone: bool = False  # at the machine itself, without a login

    def may(self, what: str) -> bool:
        """Whether they may take lists, keep sheets or look after people; everybody may look."""
        return {"take": self.role in ("engineer", "admin"), "keep": bool(self.offices), "people": self.role == "admin"}[what]


class Wait(Exception):
    """Too many wrong passwords: the seconds until the next try."""

    def __init__(self, seconds: int) -> None:
        self.seconds = seconds
        super().__init__(f"{seconds} s")


def digest(token: str) -> bytes:
    """What is kept of a token."""
    return hashlib.sha256(token.encode()).digest()


class People:
    """The file of people, opened; made if there is none."""

    def __init__(self, path: Path) -> None:
        try:
            from argon2 import PasswordHasher
        except ImportError:
            raise Stopped("people need argon2 (Debian: apt-get install python3-argon2)") from None
        self.path, self.local = path, threading.local()
        self.hasher = PasswordHasher(time_cost=3, memory_cost=65536, parallelism=1)
        self.turn = threading.Semaphore(2)  # a password takes 64 MB and some 100 ms
        self.nobody = self.hasher.hash(secrets.token_hex(8))
        try:
            self.base.executescript(_TABLES)
        except sqlite3.DatabaseError as error:
            raise Stopped(f"{path}: this is no file of people ({error})") from None

    @property
    def base(self) -> sqlite3.Connection:
        """The connection of this thread."""
        if not getattr(self.local, "base", None):
            self.local.base = sqlite3.connect(self.path, timeout=10, isolation_level=None)
        found: sqlite3.Connection = self.local.base
        return found

    def add(self, name: str, password: str, role: str, offices: FrozenSet[int]) -> None:
        """Somebody new; Stopped if the name is taken or the password too short."""
        if not name.strip() or len(name) > 80:
            raise Stopped("a name of 1 to 80 letters would do")
        if len(password) < SHORTEST_PASSWORD:
            raise Stopped(f"the password is too short: at least {SHORTEST_PASSWORD} letters would do")
        try:
            self.base.execute("INSERT INTO users (name, hash, role, offices) VALUES (?, ?, ?, ?)", (name, self.hasher.hash(password), role, _listed(offices)))
        except sqlite3.IntegrityError:
            raise Stopped(f"{name} is there already: another name would do") from None

    def password(self, name: str, password: str) -> None:
        """A new password; who was in with the old one is out."""
        if len(password) < SHORTEST_PASSWORD:
            raise Stopped(f"the password is too short: at least {SHORTEST_PASSWORD} letters would do")
        self._changed(name, self.base.execute("UPDATE users SET hash = ? WHERE name = ?", (self.hasher.hash(password), name)).rowcount)
        self.base.execute("DELETE FROM sessions WHERE name = ?", (name,))

    def set(self, name: str, role: str, offices: FrozenSet[int], disabled: bool) -> None:
        """Role, offices, and whether they may come in; who may not is out at once."""
        words = (role, _listed(offices), int(disabled), name)
        self._changed(name, self.base.execute("UPDATE users SET role = ?, offices = ?, disabled = ? WHERE name = ?", words).rowcount)

    def _changed(self, name: str, rows: int) -> None:
        if not rows:
            raise Stopped(f"there is nobody called {name}")

    def all(self) -> List[Tuple[str, str, str, bool]]:
        """(name, role, offices, disabled) of everybody."""
        return [(n, r, o, bool(d)) for n, r, o, d in self.base.execute("SELECT name, role, offices, disabled FROM users ORDER BY name")]

    def login(self, name: str, password: str, address: str) -> Optional[str]:
        """A token for who knows the password, None for who does not; the same work for a name that is not there. Wait after too many."""
        now = time.time()
        self._waited(name, address, now)
        row = self.base.execute("SELECT hash, disabled FROM users WHERE name = ?", (name,)).fetchone()
        right = self._verified(row[0] if row else self.nobody, password)
        if not (right and row and not row[1]):
            self.base.executemany("INSERT INTO failures VALUES (?, ?)", [(what, now) for what, _ in _counted(name, address)])
            return None
        token = secrets.token_urlsafe(32)
        self.base.execute("DELETE FROM sessions WHERE made < ? OR seen < ?", (now - LONGEST_STAY, now - LONGEST_IDLE))
        self.base.execute("INSERT INTO sessions VALUES (?, ?, ?, ?, ?)", (digest(token), name, secrets.token_urlsafe(24), now, now))
        return token

    def _waited(self, name: str, address: str, now: float) -> None:
        for what, most in _counted(name, address):
            count, first = self.base.execute("SELECT count(*), min(at) FROM failures WHERE what = ? AND at > ?", (what, now - WINDOW)).fetchone()
            if count >= most:
                raise Wait(int(first + WINDOW - now) + 1)

    def _verified(self, hashed: str, password: str) -> bool:
        from argon2.exceptions import Argon2Error, InvalidHash

        with self.turn:
            try:
                return bool(self.hasher.verify(hashed, password))
            except (Argon2Error, InvalidHash):
                return False

    def person(self, token: str) -> Optional[Person]:
        """Who has this token; None if it is unknown, too old, unused for too long, or its owner may no longer come in."""
        now = time.time()
        question = (
            "SELECT u.name, u.role, u.offices, s.csrf, s.seen FROM sessions s JOIN users u ON u.name = s.name "
            "WHERE s.token = ? AND s.made > ? AND s.seen > ? AND NOT u.disabled"
        )
        row = self.base.execute(question, (digest(token), now - LONGEST_STAY, now - LONGEST_IDLE)).fetchone()
        if not row:
            return None
        if now - row[4] > SEEN_EVERY:
            self.base.execute("UPDATE sessions SET seen = ? WHERE token = ?", (now, digest(token)))
        return Person(row[0], row[1], frozenset(int(k) for k in row[2].split(",") if k), row[3])

    def logout(self, token: str) -> None:
        self.base.execute("DELETE FROM sessions WHERE token = ?", (digest(token),))


def _counted(name: str, address: str) -> Tuple[Tuple[str, int], ...]:
    """Under what failures are counted, and how many are too many."""
    return (f"name {name.casefold()}", MOST_BY_NAME), (f"address {address}", MOST_BY_ADDRESS)


def _listed(offices: FrozenSet[int]) -> str:
    return ",".join(str(k) for k in sorted(offices))
