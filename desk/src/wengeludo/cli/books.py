# SPDX-License-Identifier: LicenseRef-Wengeludo
"""Commands over a whole book: check, offices, annul, bill, backup, restore, move, upgrade, make."""

from __future__ import annotations

import sys
from contextlib import contextmanager
from pathlib import Path
from typing import Callable, Dict, Iterator, Optional, Sequence, Tuple

import click

from ..keep import copies
from ..keep.book import Book, someone
from ..keep.check import check as checked
from ..keep.month import month_bill
from ..keep.record import FLOW, KIND, SHEET
from ..keep.schema import MOST_NUMBER, VERSION
from ..keep.store import is_server
from ..keep.upgrade import upgrade as upgraded
from ..read.faults import Stopped
from ..write import terminal
from .named import BOOK, BookType, ReferenceType
from .options import FAILED, FILE, REFUSED

WHO = click.option("--who", default=someone, show_default="your login", help="Your name, as the book writes it.")


@click.group()
def book() -> None:
    """A whole book: its check, backup, move, upgrade, offices. BOOK is a file or postgresql://user@server/database."""


@contextmanager
def progress(word: str) -> Iterator[Callable[[int, int], None]]:
    """A bar on the terminal, if there is one."""
    from rich.progress import BarColumn, MofNCompleteColumn, Progress, TextColumn, TimeRemainingColumn

    columns = (TextColumn(word), BarColumn(), MofNCompleteColumn(), TimeRemainingColumn())
    with Progress(*columns, console=terminal.console(error=True), transient=True, disable=not sys.stderr.isatty()) as shown:
        task = shown.add_task(word, total=None)
        yield lambda done, of: shown.update(task, completed=done, total=of)


@book.command("check")
@BOOK
def check_(book: str) -> int:
    """Checks BOOK whole: numbers without gaps, the chain of each office, every sheet by the engine with its names and readings."""
    with Book(book) as kept, progress("sheets") as told:
        faults = checked(kept, told)
        count = sum(at.entry for at in kept.offices())
    if faults:
        terminal.lines([*faults, f"{kept.title}: {len(faults):,} faults"])
        return REFUSED
    terminal.lines([f"{kept.title}: {count:,} entries; numbers, chains and sheets are whole"])
    return 0


@book.command()
@BOOK
def offices(book: str) -> int:
    """The offices of BOOK: last sheet, last checked flow, entries, the end of the chain, state."""
    with Book(book) as kept:
        found = kept.offices()
    rows = [((str(at.office), f"{at.last:,}", f"{at.flows:,}", f"{at.entry:,}", bytes(at.chain).hex()[:16], at.state), "") for at in found]
    terminal.table(("office", "last sheet", "last flow", "entries", "chain", "state"), rows, ("office", "last sheet", "last flow", "entries"))
    return 0


@book.command()
@BOOK
@click.argument("number", type=click.IntRange(1))
@click.option("--office", type=click.IntRange(0, 7), default=0, show_default=True, help="The office of the sheet.")
@click.option("--reason", required=True, help="Why it is annulled; it stays in the book.")
@click.option("--flows", is_flag=True, help="NUMBER is that of checked flows.")
@WHO
def annul(book: str, number: int, office: int, reason: str, flows: bool, who: str) -> int:
    """Annuls sheet NUMBER by an entry that stays: the sheet is not removed, and its number is not drawn again."""
    kind = FLOW if flows else SHEET
    with Book(book) as kept:
        if not kept.annul(office, number, who, reason, kind):
            raise Stopped(f"{kept.title}: {KIND[kind]} {number} of office {office} was annulled before: {kept.sheet(office, number, kind).annulled}")
    terminal.lines([f"{KIND[kind]} {number} of office {office} is annulled by {who}: {reason}"])
    return 0


@book.command("bill")
@BOOK
@click.argument("month", metavar="MONTH")
@click.option("--find", "words", default="", help="Sheets in which these words stand, if the book has several sites.")
@click.option("--office", type=click.IntRange(0, 7), help="Sheets of this office; by default of all.")
@click.option("--failing", is_flag=True, help="Bill from sheets that fail their test too.")
def bill_(book: str, month: str, words: str, office: Optional[int], failing: bool) -> int:
    """The bill of a MONTH (2026-11): the charges of each hour's sheet, by the hour of its readings, added in whole cents."""
    with Book(book) as kept:
        found = month_bill(kept, month, words, office, failing)
    rows = [((label, what, f"{amount:,.0f}", f"{cents:,}"), "") for (label, what), (amount, cents) in found.charges.items()]
    terminal.table(("stream", "what", "kg", "cents"), [*rows, (("", "bill", "", f"{found.cents:,}"), "bold")], ("kg", "cents"))
    terminal.lines(found.account())
    return FAILED if found.failing or found.left_out else 0


@book.command()
@BOOK
@click.argument("file", type=FILE)
def backup(book: str, file: Path) -> int:
    """Writes a copy of BOOK to FILE and checks it whole, while others go on drawing. `book restore` makes it a book again."""
    with Book(book) as kept, progress("backup") as told:
        count = copies.backup(kept, file, told)
    terminal.lines([f"{file}: a backup of {kept.title}, {count:,} entries, checked whole"])
    return 0


@book.command()
@click.argument("backup", type=FILE)
@BOOK
@click.option("--printed", type=ReferenceType(), multiple=True, metavar="OFFICE-NUMBER", help="The last number that an office has printed; asked for if it is not given.")
@click.option("--reason", default="", help="Why numbers that were printed are missing from the backup; it stays in the book.")
@WHO
def restore(backup: Path, book: str, printed: Sequence[Tuple[int, int]], reason: str, who: str) -> int:
    """Makes BACKUP a book again, BOOK, which goes on behind the last number that each office has printed."""
    with Book(backup) as kept, progress("restore") as told:
        lasts = _asked(dict(printed), kept)
        gone = copies.missing(kept, lasts)
        if gone and not reason:
            text = "were printed and are not in the backup; they are entered as lost"
            terminal.lines([f"office {office}: {first} to {last} {text}" for office, (first, last) in gone.items()])
            reason = click.prompt("Why are they lost? (it stays in the book)")
        count = copies.restore(kept, book, lasts, (who, reason), told)
    terminal.lines([f"{book}: restored and open" + (f"; {count:,} {'number is' if count == 1 else 'numbers are'} entered as lost" if count else "")])
    return 0


def _asked(printed: Dict[int, int], kept: Book) -> Dict[int, int]:
    """The last number that each office has printed."""
    for at in kept.offices():
        if at.office not in printed:
            text = f"The last sheet that office {at.office} has printed (the backup has {at.last:,})"
            printed[at.office] = click.prompt(text, type=click.IntRange(0, MOST_NUMBER), default=at.last)
    return printed


@book.command()
@click.argument("source", type=BookType(), metavar="FROM")
@click.argument("target", type=BookType(), metavar="TO", required=False)
@click.option("--stay", is_flag=True, help="Give up a move that was not finished: FROM is open again.")
def move(source: str, target: Optional[str], stay: bool) -> int:
    """Moves a book, file or server, to TO, where there is none yet. Never two are open; cut off anywhere, it is run again."""
    if stay == (target is not None):
        raise click.UsageError("TO, or --stay, would do")
    with Book(source) as kept, progress("entries") as told:
        if target is None:
            copies.stay(kept)
            terminal.lines([f"{kept.title} is open again"])
            return 0
        count = copies.move(kept, target, told)
    terminal.lines([f"moved: {count:,} entries copied and checked; {kept.title} is closed"])
    return 0


@book.command()
@click.argument("old", type=FILE)
@click.argument("new", type=FILE)
def upgrade(old: Path, new: Path) -> int:
    """Makes NEW of OLD, a book of version 1: the same numbers and the same bytes of every sheet. Nobody draws in OLD any more."""
    with progress("sheets") as told:
        count = upgraded(old, new, told)
    terminal.lines([f"{new}: {count:,} sheets, byte for byte those of {old}, checked whole; {old} is closed and may be put away"])
    return 0


@book.command()
@BOOK
@click.option("--role", default="", help="On a server: a role that keeps and reads, and can neither alter nor delete; made if there is none.")
@click.option("--password", is_flag=True, help="Ask for a password for the role.")
def make(book: str, role: str, password: bool) -> int:
    """Makes BOOK, a file or the tables in a database of a server, if there is none."""
    secret = click.prompt("Password of the role", hide_input=True, confirmation_prompt=True) if password else ""
    with Book(book, make=True) as kept:
        terminal.lines([f"{kept.title}: a book of version {VERSION}, {sum(at.entry for at in kept.offices()):,} entries"])
        if role:
            if not is_server(book):
                raise Stopped(f"{book}: a file has no roles: the right to write it, given by the system, would do")
            made = kept.store.granted(role, secret)  # type: ignore[attr-defined]
            terminal.lines([f"role {role}{' made, which' if made else ''} may keep and read, and can neither alter nor delete"])
    return 0
