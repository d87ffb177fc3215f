# SPDX-License-Identifier: LicenseRef-Wengeludo
"""A book copied whole: backup, restore, move. Never two open, and cut off anywhere each may be run again.

The copy goes by entries, up to those that the source had at the start: others may draw meanwhile, unless the source is being moved.
"""

from __future__ import annotations

from pathlib import Path
from typing import Dict, List, Mapping, Sequence, Tuple

from .book import SOME, Book, Office
from .check import Told, check
from .lite import handed_over, removed, unused
from .record import FIELDS, FLOW, SHEET, clean
from .schema import OPEN, now
from .store import Closed, Conflict, Damaged, Row, title_of

BACKUP, ARRIVING = "a backup", "arriving"
_REMARKS = ("office", "entry", "what", "kind", "first", "final", "at", "who", "reason", "chain")
_PLAN = FIELDS.index("plan")
_LISTS = ("list", "at", "who", "hour", "source", "name", "plan", "readings", "plant")
_AUDIT = ("entry", "at", "who", "what", "about")


def _insert(table: str, columns: Sequence[str], more: str = "") -> str:
    return f"INSERT INTO {table} ({', '.join(columns)}) VALUES ({', '.join('?' * len(columns))}){more}"


def _silent(done: int, of: int) -> None:
    """Tells nothing."""


class Copy:
    """A source copied into a target, which has the same plans, entries, lists and audit after it."""

    def __init__(self, source: Book, target: Book, told: Told = _silent) -> None:
        self.source, self.target, self.told = source, target, told
        self.heads = source.offices()
        self.plans: Dict[int, int] = {}
        self.done = 0

    def run(self) -> int:
        """Copies what the target does not have yet; how many entries that were."""
        ends = {table: self._most(table, column) for table, column in (("lists", "list"), ("audit", "entry"))}
        self._plans()
        before = sum(at.entry for at in self.target.offices())
        self.done = before
        for head in self.heads:
            self._office(head)
        self._rows("lists", _LISTS, ends["lists"])
        self._rows("audit", _AUDIT, ends["audit"])
        self.target.store.counted()
        return self.done - before

    def _most(self, table: str, column: str) -> int:
        return int(self.source.store.run(f"SELECT coalesce(max({column}), 0) FROM {table}")[0][0])

    def _plans(self) -> None:
        last = 0
        while True:
            rows = self.source.store.run(f"SELECT plan, digest, site, words, told, layout FROM plans WHERE plan > ? ORDER BY plan LIMIT {SOME}", (last,))
            with self.target.store.whole() as store:
                store.many(_insert("plans", ("digest", "site", "words", "told", "layout"), " ON CONFLICT (digest) DO NOTHING"), [row[1:] for row in rows])
            known = {bytes(digest): plan for digest, plan in self._known([row[1] for row in rows])}
            self.plans.update({row[0]: known[bytes(row[1])] for row in rows})
            if len(rows) < SOME:
                return
            last = rows[-1][0]

    def _known(self, digests: List[bytes]) -> List[Row]:
        if not digests:
            return []
        return self.target.store.run(f"SELECT digest, plan FROM plans WHERE digest IN ({', '.join('?' * len(digests))})", digests)

    def _office(self, head: Office) -> None:
        """An office's entries, some at a time, its counters and the end of its chain with them."""
        at = next(one for one in self.target.offices() if one.office == head.office)
        while at.entry < head.entry:
            at = self._some(at, min(at.entry + SOME, head.entry))
            self.done = min(self.done + SOME, sum(one.entry for one in self.heads))
            self.told(self.done, sum(one.entry for one in self.heads))

    def _some(self, at: Office, until: int) -> Office:
        span = (at.office, at.entry, until)
        sheets = self.source.store.run(f"SELECT {', '.join(FIELDS)} FROM sheets WHERE office = ? AND entry > ? AND entry <= ? ORDER BY entry", span)
        remarks = self.source.store.run(f"SELECT {', '.join(_REMARKS)} FROM remarks WHERE office = ? AND entry > ? AND entry <= ? ORDER BY entry", span)
        ends = [(row[1], bytes(row[-1])) for row in (*sheets, *remarks)]
        if len(ends) != until - at.entry:
            raise Damaged(f"{self.source.title}: office {at.office} has gaps in its entries: `wengeludo book check` tells where")
        drawn = [(row[2], row[3]) for row in sheets] + [(row[3], row[5]) for row in remarks] + [(SHEET, at.last), (FLOW, at.flows)]
        lasts = [max(number for kind, number in drawn if kind == one) for one in (SHEET, FLOW)]
        after = Office(at.office, lasts[0], lasts[1], until, max(ends)[1], at.state)
        with self.target.store.whole() as store:
            store.many(_insert("sheets", FIELDS), [(*row[:_PLAN], self.plans[row[_PLAN]], *row[_PLAN + 1 :]) for row in sheets])
            store.many(_insert("remarks", _REMARKS), remarks)
            store.run("UPDATE offices SET last = ?, flows = ?, entry = ?, chain = ? WHERE office = ?", (*lasts, until, after.chain, at.office))
        return after

    def _rows(self, table: str, columns: Sequence[str], end: int) -> None:
        """Lists or audit lines, up to the last that was there at the start."""
        key = columns[0]
        last = int(self.target.store.run(f"SELECT coalesce(max({key}), 0) FROM {table}")[0][0])
        while True:
            rows = self.source.store.run(f"SELECT {', '.join(columns)} FROM {table} WHERE {key} > ? AND {key} <= ? ORDER BY {key} LIMIT {SOME}", (last, end))
            if table == "lists":
                rows = [(*row[:6], self.plans[row[6]], *row[7:]) for row in rows]
            with self.target.store.whole() as store:
                store.many(_insert(table, columns), rows)
            if len(rows) < SOME:
                return
            last = rows[-1][0]


def same(heads: Sequence[Office], target: Book) -> bool:
    """Whether a book ends where these offices end."""
    return [at[:-1] for at in map(_ends, heads)] == [at[:-1] for at in map(_ends, target.offices())]


def _ends(at: Office) -> Tuple[int, int, int, int, bytes, str]:
    return at.office, at.last, at.flows, at.entry, bytes(at.chain), at.state


def _checked(copy: Copy, told: Told) -> None:
    faults = check(copy.target, told)
    if faults or not same(copy.heads, copy.target):
        raise Damaged(f"{copy.target.title}: the copy does not pass the check: {faults[0] if faults else 'its chains end elsewhere'}")


def backup(source: Book, path: Path, told: Told = _silent) -> int:
    """A copy in a file, checked whole, while others go on drawing; how many entries it has. Nobody draws in it: `restore` opens it."""
    name = unused(path)
    try:
        with Book(name, make=True, state=BACKUP, identity=source.identity()) as target:
            copy = Copy(source, target, told)
            copy.run()
            _checked(copy, told)
            count = sum(at.entry for at in target.offices())
        handed_over(name, path)
        return count
    finally:
        removed(name)


def missing(source: Book, printed: Mapping[int, int]) -> Dict[int, Tuple[int, int]]:
    """Of each office the first and last number that was printed and is not in the book."""
    ends = {at.office: at.last for at in source.offices()}
    return {office: (ends[office] + 1, last) for office, last in printed.items() if last > ends[office]}


def restore(source: Book, where: str, printed: Mapping[int, int], said: Tuple[str, str], told: Told = _silent) -> int:
    """A backup made a book again, behind none of the numbers that the offices have printed; how many numbers are entered as lost, with a
    name and a reason. Cut off, it is run again; until its end nobody draws in it."""
    if {at.state for at in source.offices()} != {BACKUP}:
        raise Conflict(f"{source.title}: this is no backup but the book itself: `wengeludo book move` would do")
    gone = missing(source, printed)
    who, reason = clean(said[0]), clean(said[1])
    if gone and not (who.strip() and reason.strip()):
        raise Conflict("numbers that were printed are not in the backup: a name and a reason, entered for them, would do")
    with _target(source, where, "restored") as target:
        copy = Copy(source, target, told)
        copy.run()
        _checked(copy, told)
        _lost(target, gone, (who, reason))
    return sum(last - first + 1 for first, last in gone.values())


def _lost(target: Book, gone: Mapping[int, Tuple[int, int]], said: Tuple[str, str]) -> None:
    """Enters lost numbers and opens the book, in one transaction."""
    with target.store.whole() as store:
        for office, span in sorted(gone.items()):
            target.remark(target._office(office), "lost", SHEET, span, said)
        store.run("UPDATE offices SET state = ?", (OPEN,))
        store.run("INSERT INTO audit (at, who, what, about) VALUES (?, ?, ?, ?)", (now(), said[0], "restored", f"{len(gone)} offices with lost numbers"))


def _target(source: Book, where: str, what: str) -> Book:
    """The book that is to have a copy: made so that nobody draws in it, or left by a run that was cut off."""
    state = f"{ARRIVING}: {what} from {source.identity()}"
    target = Book(where, make=True, state=state, identity=source.identity())
    states = {at.state for at in target.offices()}
    if states == {state}:
        return target
    if states == {OPEN} and target.identity() != source.identity():
        with target.store.whole() as store:  # an empty book: from here on nobody draws in it
            store.run(f"SELECT office FROM offices{store.lock}")
            if not any(at.entry for at in target.offices()):
                store.run("UPDATE offices SET state = ?", (state,))
                store.run("UPDATE book SET identity = ?", (source.identity(),))
                return target
    target.close()
    raise Conflict(f"{target.title}: this book is not empty ({', '.join(sorted(states))}): another name would do")


def move(source: Book, where: str, told: Told = _silent) -> int:
    """Moves a book; how many entries this run has copied. Never two are open. Cut off anywhere, it is run again."""
    moving, moved = f"moving to {title_of(where)}", f"moved to {title_of(where)}"
    states = {at.state for at in source.offices()}
    if not states <= {OPEN, moving, moved}:
        raise Closed(f"{source.title}: this book cannot be moved there: {', '.join(sorted(states))}")
    if states == {moved}:
        return _arrived(source, where)
    with _target(source, where, "moved") as target:
        _state(source, (OPEN, moving), moving)  # from here on nobody draws
        copy = Copy(source, target, told)
        count = copy.run()
        _checked(copy, told)
        _state(source, (moving,), moved)
        _state(target, tuple({at.state for at in target.offices()}), OPEN)
    return count


def _arrived(source: Book, where: str) -> int:
    """The end of a move that was cut off between its last two steps."""
    with Book(where) as target:
        states = {at.state for at in target.offices()}
        if target.identity() != source.identity() or all(state.startswith(ARRIVING) for state in states) and not same(source.offices(), target):
            raise Conflict(f"{target.title}: this is not the book that has moved")
        if states != {OPEN}:
            _state(target, tuple(states), OPEN)
    return 0


def stay(source: Book) -> None:
    """Gives up a move that was not finished: the source is open again. The other has not been opened, and may be removed."""
    states = {at.state for at in source.offices()}
    if not all(state.startswith("moving to ") for state in states):
        raise Conflict(f"{source.title}: this book is not being moved: {', '.join(sorted(states))}")
    _state(source, tuple(states), OPEN)


def _state(book: Book, before: Sequence[str], after: str) -> None:
    """Gives all offices a state, if each is in one of those before."""
    with book.store.whole() as store:
        store.run(f"SELECT office FROM offices{store.lock}")
        found = {at.state for at in book.offices()}
        if not found <= set(before):
            raise Closed(f"{book.title}: {', '.join(sorted(found))}")
        store.run("UPDATE offices SET state = ?", (after,))
