# SPDX-License-Identifier: LicenseRef-Wengeludo
"""The book of kept sheets, over either store. A sheet, its number, its link in the office's chain and its audit line are one transaction.

A crash between any two statements leaves the book as it was before the sheet or as it is after it: no number is lost, none is drawn
twice. Each keep has a key: sent again after a lost answer it finds its sheet and draws no other.
"""

from __future__ import annotations

import getpass
import hashlib
import uuid
from dataclasses import dataclass, field, replace
from typing import Any, Dict, Iterator, List, Optional, Sequence, Tuple

import wengeludo_balance as engine

from ..balance.site import Site
from .record import (
    FIELDS, FLOW, KIND, MOST_COST, SHEET, Kept, blanks_of, clean, dumps, link, readings_of, site_from, site_name, thousandths, told_of, words_of,
)
from .schema import MOST_NUMBER, OPEN, now
from .store import Absent, Closed, Conflict, Damaged, Row, Store, Where, opened, patiently

PAGE = 50
SOME = 500  # rows at a time, if all are looked through
_SHEETS = ", ".join(f"s.{name}" for name in FIELDS)
_REMARK = "(SELECT r.who || ', ' || r.at || ': ' || r.reason FROM remarks r WHERE r.what = 'annulled' AND r.office = s.office AND r.kind = s.kind AND r.first = s.number)"
_FULL = f"SELECT {_SHEETS}, p.digest, p.told, coalesce({_REMARK}, '') FROM sheets s JOIN plans p ON p.plan = s.plan"
_INSERT = f"INSERT INTO sheets ({', '.join(FIELDS)}) VALUES ({', '.join('?' * len(FIELDS))})"
_AUDIT = "INSERT INTO audit (at, who, what, about) VALUES (?, ?, ?, ?)"


def someone() -> str:
    """Who runs this program."""
    try:
        return getpass.getuser()
    except (KeyError, OSError):
        return ""


def new_key() -> str:
    """A key that no other keep has."""
    return f"once/{uuid.uuid4().hex}"


@dataclass(frozen=True)
class Draft:
    """What is to be kept: a site, and what the book writes beside it. The same key draws one number, however often it is sent."""

    site: Site
    source: str = ""
    hour: str = ""  # of the readings; blank: not known
    who: str = field(default_factory=someone)
    request: str = field(default_factory=new_key)
    changes: str = ""
    note: str = ""
    checked: Any = None  # the record of checked flows, if the engine has no sheet of its own for this list


@dataclass(frozen=True)
class Receipt:
    """The number that a draft has in the book, and whether it had it before."""

    office: int
    number: int
    before: bool = False
    kind: int = SHEET


@dataclass(frozen=True)
class Office:
    """An office: its last sheet, its last checked flow, how many entries its chain has, their last link, and its state."""

    office: int
    last: int
    flows: int
    entry: int
    chain: bytes
    state: str


@dataclass(frozen=True)
class Drawn:
    """What a draft has become, before it is written."""

    kind: int
    number: int
    plant: bytes
    sheet: bytes
    numbers: str
    verdict: int
    cost: int
    blanks: int


class Book:
    """A book, opened; made if there is none and `make` says so. `where` is a file or postgresql://user@server/database."""

    def __init__(self, where: Where, make: bool = False, state: str = OPEN, identity: str = "") -> None:
        self.store: Store = opened(where, make, state, identity)
        self.known: Dict[bytes, int] = {}

    @property
    def title(self) -> str:
        """As messages name it."""
        return self.store.title

    def close(self) -> None:
        """Lets the store go; an SQLite file is then whole by itself."""
        self.store.close()

    def __enter__(self) -> "Book":
        return self

    def __exit__(self, *_: object) -> None:
        self.close()

    # -- keeping

    def keep(self, drafts: Sequence[Draft], office: int) -> List[Optional[Receipt]]:
        """Draws and keeps sheets under the office's next numbers, all of them or none; of a site whose ranges cannot be kept, none (None).
        Any other refusal is raised and nothing is kept. A store that was lost is asked again for some seconds, with the same keys."""
        ready = [_ready(draft) for draft in drafts]
        return patiently(lambda: self._keep(ready, office))

    def keep_one(self, draft: Draft, office: int) -> Optional[Receipt]:
        """Draws and keeps one sheet."""
        return self.keep([draft], office)[0]

    def _keep(self, drafts: Sequence["_Ready"], office: int) -> List[Optional[Receipt]]:
        plans = self._plans(drafts) if self.store.lock else {}  # on a server before, so that no office waits for another's plans
        with self.store.whole():
            plans = plans or self._plans(drafts)
            at = self._office(office)
            found: List[Optional[Receipt]] = []
            for ready in drafts:
                receipt, at = self._kept(ready, plans[ready.digest], at)
                found.append(receipt)
            if at.entry:
                self.store.later("UPDATE offices SET last = ?, flows = ?, entry = ?, chain = ? WHERE office = ?", (at.last, at.flows, at.entry, at.chain, office))
        self.known.update(plans)
        return found

    def _office(self, office: int) -> Office:
        """An office, held until the transaction ends."""
        rows = self.store.run(f"SELECT office, last, flows, entry, chain, state FROM offices WHERE office = ?{self.store.lock}", (office,))
        if not rows:
            raise Conflict(f"{self.title}: there is no office {office}")
        return Office(*rows[0])

    def _kept(self, ready: "_Ready", plan: int, at: Office) -> Tuple[Optional[Receipt], Office]:
        """A draft's receipt, and the office after it."""
        draft = ready.draft
        done = self.store.run("SELECT office, kind, number, plan, readings, plant FROM sheets WHERE request = ?", (draft.request,))
        if done:
            if (done[0][0], *done[0][3:]) != (at.office, plan, ready.readings, ready.plant):
                raise Conflict(f"{self.title}: this request has already kept another sheet: a new request would do")
            return Receipt(at.office, done[0][2], True, done[0][1]), at
        if at.state != OPEN:
            raise Closed(f"{self.title}: nobody draws in this book: {at.state}")
        drawn = ready.drawn(at)
        if drawn is None:
            return None, at
        kept = Kept(at.office, at.entry + 1, drawn.kind, drawn.number, now(), draft.hour, draft.who, draft.request, draft.source, ready.name, plan, ready.readings,
                    drawn.plant, drawn.sheet, drawn.numbers, draft.changes, draft.note, drawn.verdict, drawn.cost, drawn.blanks, b"", ready.digest)
        chain = kept.link(at.chain)
        self.store.later(_INSERT, (*(getattr(kept, name) for name in FIELDS[:-1]), chain))
        self.store.later(_AUDIT, (kept.at, draft.who, "kept", f"{KIND[kept.kind]} {at.office}-{kept.number}"))
        last, flows = (drawn.number, at.flows) if drawn.kind == SHEET else (at.last, drawn.number)
        return Receipt(at.office, drawn.number, False, drawn.kind), Office(at.office, last, flows, kept.entry, chain, at.state)

    def annul(self, office: int, number: int, who: str, reason: str, kind: int = SHEET) -> bool:
        """Annuls a kept sheet by an entry that stays, with who and why; false if it was annulled before."""
        if not reason.strip():
            raise Conflict("an annulment needs a reason")
        return patiently(lambda: self._annul(self.sheet(office, number, kind), clean(who), clean(reason)))

    def _annul(self, kept: Kept, who: str, reason: str) -> bool:
        with self.store.whole():
            at = self._office(kept.office)
            if at.state != OPEN:
                raise Closed(f"{self.title}: nobody writes in this book: {at.state}")
            ask = "SELECT entry FROM remarks WHERE what = 'annulled' AND office = ? AND kind = ? AND first = ?"
            if self.store.run(ask, (kept.office, kept.kind, kept.number)):
                return False
            self.remark(at, "annulled", kept.kind, (kept.number, kept.number), (who, reason))
        return True

    def remark(self, at: Office, what: str, kind: int, span: Tuple[int, int], said: Tuple[str, str]) -> Office:
        """Writes a remark on the numbers of a span as the office's next entry, within a transaction; the office after it."""
        row = (at.office, at.entry + 1, what, kind, *span, now(), *said)
        chain = link(at.chain, *row)
        after = Office(at.office, max(at.last, span[1]) if kind == SHEET else at.last, max(at.flows, span[1]) if kind == FLOW else at.flows, at.entry + 1, chain, at.state)
        self.store.later("INSERT INTO remarks (office, entry, what, kind, first, final, at, who, reason, chain) VALUES (?, ?, ?, ?, ?, ?, ?, ?, ?, ?)", (*row, chain))
        self.store.later("UPDATE offices SET last = ?, flows = ?, entry = ?, chain = ? WHERE office = ?", (after.last, after.flows, after.entry, chain, at.office))
        self.store.later(_AUDIT, (row[6], said[0], what, f"{KIND[kind]} {at.office}-{span[0]}" + (f" to {span[1]}" if span[1] > span[0] else "")))
        return after

    # -- plans and lists taken

    def _plans(self, drafts: Sequence["_Ready"]) -> Dict[bytes, int]:
        """The numbers of the drafts' plans, each kept once by its digest; in the order of the digests, so that no two wait for each other."""
        found = {}
        for ready in sorted(drafts, key=lambda one: one.digest):
            if ready.digest not in found:
                found[ready.digest] = self.known.get(ready.digest) or self._plan(ready.draft.site, ready.digest, ready.told)
        return found

    def _plan(self, site: Site, digest: bytes, told: str) -> int:
        words = (digest, clean(site_name(site.list.name)), words_of(site), told)
        self.store.run("INSERT INTO plans (digest, site, words, told) VALUES (?, ?, ?, ?) ON CONFLICT (digest) DO NOTHING", words)
        return int(self.store.run("SELECT plan FROM plans WHERE digest = ?", (digest,))[0][0])

    def layout(self, plan: int) -> Optional[str]:
        """The layout of a plan's drawing, if it was stored."""
        rows = self.store.run("SELECT layout FROM plans WHERE plan = ?", (plan,))
        return rows[0][0] if rows else None

    def set_layout(self, plan: int, layout: str) -> None:
        """Stores the layout of a plan's drawing; it is no part of what is kept."""
        with self.store.whole():
            self.store.run("UPDATE plans SET layout = ? WHERE plan = ?", (layout, plan))

    def add_list(self, draft: Draft) -> int:
        """Stores a list that was taken, without a sheet; its number."""
        ready = _ready(draft)
        with self.store.whole():
            plans = self._plans([ready])
            row = (now(), draft.who, draft.hour, draft.source, ready.name, plans[ready.digest], ready.readings, ready.plant)
            insert = "INSERT INTO lists (at, who, hour, source, name, plan, readings, plant) VALUES (?, ?, ?, ?, ?, ?, ?, ?) RETURNING list"
            number = int(self.store.run(insert, row)[0][0])
            self.store.later(_AUDIT, (row[0], draft.who, "list", f"{number} {draft.source}"))
        self.known.update(plans)
        return number

    def lists(self, before: int = 2**62, limit: int = 20) -> List["Taken"]:
        """Lists taken, the newest first, from a number on."""
        ask = "SELECT list, at, who, hour, source, name, plan FROM lists WHERE list < ? ORDER BY list DESC LIMIT ?"
        return [Taken(*row) for row in self.store.run(ask, (before, limit))]

    def list_site(self, number: int) -> Tuple["Taken", Site]:
        """A list taken, and its site; Absent if there is none."""
        ask = "SELECT l.list, l.at, l.who, l.hour, l.source, l.name, l.plan, p.told, l.readings, l.plant FROM lists l JOIN plans p ON p.plan = l.plan WHERE l.list = ?"
        for row in self.store.run(ask, (number,)):
            taken = Taken(*row[:7])
            return taken, site_from(row[7], row[8], row[9], taken.name, taken.hour)
        raise Absent(f"{self.title}: there is no list {number}")

    # -- looking

    def offices(self) -> List[Office]:
        """The eight offices."""
        return [Office(*row) for row in self.store.run("SELECT office, last, flows, entry, chain, state FROM offices ORDER BY office")]

    def lasts(self) -> Tuple[int, ...]:
        """The offices' last sheet numbers."""
        return tuple(at.last for at in self.offices())

    def identity(self) -> str:
        """What a book keeps when it moves."""
        return str(self.store.run("SELECT identity FROM book")[0][0])

    def sheet(self, office: int, number: int, kind: int = SHEET) -> Kept:
        """One kept sheet; Absent if there is none, with what is known of its number."""
        for row in self.store.run(f"{_FULL} WHERE s.office = ? AND s.kind = ? AND s.number = ?", (office, kind, number)):
            return _row(row)
        ask = "SELECT who, at, reason FROM remarks WHERE what = 'lost' AND office = ? AND kind = ? AND first <= ? AND final >= ?"
        for who, at, reason in self.store.run(ask, (office, kind, number, number)):
            raise Absent(f"{self.title}: {KIND[kind]} {number} of office {office} is lost ({who}, {at}: {reason})")
        raise Absent(f"{self.title}: office {office} has no {KIND[kind]} {number}")

    def before(self, kept: Kept) -> bytes:
        """The link before a sheet's own."""
        for table in ("sheets", "remarks"):
            for (chain,) in self.store.run(f"SELECT chain FROM {table} WHERE office = ? AND entry = ?", (kept.office, kept.entry - 1)):
                return bytes(chain)
        return bytes(32) if kept.entry == 1 else b""

    def faults(self, kept: Kept) -> List[str]:
        """What is wrong with a kept sheet: chain, names, unit, readings, the engine's check."""
        wrong = [] if hashlib.sha256(kept.told.encode()).digest() == kept.digest else ["its names or its unit were altered"]
        return wrong + kept.faults(self.before(kept))

    def sheets(self) -> Iterator[Kept]:
        """All kept sheets by office and entry."""
        for at in self.offices():
            yield from self.entries(at)

    def entries(self, at: Office) -> Iterator[Kept]:
        """The kept sheets of an office up to an entry, by entry."""
        entry = 0
        while True:
            rows = self.store.run(f"{_FULL} WHERE s.office = ? AND s.entry > ? AND s.entry <= ? ORDER BY s.entry LIMIT {SOME}", (at.office, entry, at.entry))
            yield from (_row(row) for row in rows)
            if len(rows) < SOME:
                return
            entry = rows[-1][1]


@dataclass(frozen=True)
class Taken:
    """A list that was taken."""

    list: int
    at: str
    who: str
    hour: str
    source: str
    name: str
    plan: int


def _row(row: Row) -> Kept:
    try:
        return Kept(*row)
    except TypeError as error:
        raise Damaged(f"the book is damaged ({error})") from None


@dataclass(frozen=True)
class _Ready:
    """A draft with what does not depend on its number, worked out before the office is held."""

    draft: Draft
    told: str
    digest: bytes
    readings: str
    plant: bytes
    name: str
    numbers: Optional[str]

    def drawn(self, at: Office) -> Optional[Drawn]:
        """The sheet, or the checked flows, under the office's next number; None if no flow keeps within the ranges."""
        if self.draft.checked is not None:
            return self._flows(at)
        if self.numbers is None:
            return None
        lasts = tuple(at.last if k == at.office else 0 for k in range(engine.OFFICES))
        drawn = engine.balance_plant(self.plant, at.office, lasts)
        read = engine.read_sheet(drawn.sheet)
        return Drawn(SHEET, drawn.lasts[at.office], self.plant, drawn.sheet, self.numbers, read.verdict.value, min(read.cost, MOST_COST), blanks_of(read))

    def _flows(self, at: Office) -> Drawn:
        if at.flows >= MOST_NUMBER:
            raise Conflict(f"office {at.office} has no number left for checked flows")
        checked = self.draft.checked
        judged = checked.judged
        return Drawn(FLOW, at.flows + 1, b"", checked.to_json().encode(), "[]", judged.verdict.value, thousandths(judged.cost), blanks_of(checked.sheet))


def _ready(draft: Draft) -> _Ready:
    told = told_of(draft.site)
    file, numbers = (b"", None) if draft.checked is not None else _numbered(draft.site)
    plain = replace(draft, **{name: clean(getattr(draft, name)) for name in ("source", "hour", "who", "request", "changes", "note")})
    return _Ready(plain, told, hashlib.sha256(told.encode()).digest(), readings_of(draft.site), file, clean(draft.site.list.name), numbers)


def _numbered(site: Site) -> Tuple[bytes, Optional[str]]:
    """A site's plant file and the numbers of its places; none if no flow keeps within the ranges."""
    file = site.file
    try:
        return file, dumps(engine.place_numbers(file))
    except engine.Refusal as refusal:
        if refusal.number != 19:
            raise
        return file, None
