# SPDX-License-Identifier: LicenseRef-Wengeludo
"""A book of a million sheets, and what listing, searching and drawing take in it.

    python3 desk/tests/million.py FOLDER|server [SHEETS]

FOLDER takes a file of 1.6 GB; `server` starts a private PostgreSQL in the temporary folder. Numbers, plans and sizes are as drawn; the
sheets are copies of one, so that the chain of this book is not whole.
"""

import random
import sys
import time
from dataclasses import replace
from datetime import datetime, timedelta, timezone
from pathlib import Path

import servers

from wengeludo.balance.site import read_site
from wengeludo.keep import server
from wengeludo.keep.book import Book, Draft
from wengeludo.keep.find import Search, find
from wengeludo.keep.record import FIELDS

SAMPLE = Path(__file__).resolve().parents[1] / "samples" / "steam_site.csv"
BEGAN = datetime(2018, 1, 1, tzinfo=timezone.utc)
SITES = 200


def rows(one, plans, count):
    """Sheets of 200 sites and eight offices, one every 274 seconds; of each hundred one fails."""
    for g in range(8, count):
        at = (BEGAN + timedelta(seconds=274 * g)).strftime("%Y-%m-%dT%H:%M:%S.000Z")
        verdict = 1 if g % 97 == 0 else 3 if g % 31 == 0 else 0
        changed = dict(office=g % 8, entry=g // 8 + 1, number=g // 8 + 1, at=at, hour=at[:13] + ":00", who=f"person {g % 40}", request=f"m{g}", source=f"hour_{g}.csv", name=f"hour_{g}",
                       plan=plans[g * 7919 % SITES], verdict=verdict, cost=g * 7727 % 20_000)
        yield tuple(changed.get(name, getattr(one, name)) for name in FIELDS)


def made(book, count):
    """Fills a book."""
    site = read_site(SAMPLE)
    for k in range(SITES):
        name = f"site {k:03} {'works north' if k % 7 else 'paper mill'}"
        book.keep_one(Draft(replace(site, list=replace(site.list, name=name, places=(*site.list.places[:-1], f"tank of {name}"))), name), k % 8)
    plans = [plan for plan, in book.store.run("SELECT plan FROM plans ORDER BY plan")]
    one = book.sheet(0, 1)
    _emptied(book)
    if book.store.lock:
        _by_the_server(book, plans, count)
    else:
        insert = f"INSERT INTO sheets ({', '.join(FIELDS)}) VALUES ({', '.join('?' * len(FIELDS))})"
        with book.store.whole() as store:
            store.many(insert, rows(one, plans, count))
    for office in range(8):
        ask = "SELECT coalesce(max(number), 0) FROM sheets WHERE office = ?"
        last = book.store.run(ask, (office,))[0][0]
        book.store.run("UPDATE offices SET last = ?, entry = ? WHERE office = ?", (last, last, office))
    book.store.run("SET statement_timeout = 0" if book.store.lock else "SELECT 1")
    book.store.run("ANALYZE")
    book.store.run("SET statement_timeout = '8s'" if book.store.lock else "SELECT 1")
    if not book.store.lock:
        book.store.run("PRAGMA synchronous = FULL")


def _emptied(book):
    """Takes the sheets out again from which the plans came."""
    if not book.store.lock:
        for name, in book.store.run("SELECT name FROM sqlite_master WHERE type = 'trigger'"):
            book.store.run(f"DROP TRIGGER {name}")
        book.store.run("PRAGMA synchronous = OFF")
    book.store.run("DELETE FROM sheets WHERE entry > 1")


def _by_the_server(book, plans, count):
    """The same rows, made by the server itself: it takes minutes less."""
    server.ANSWER_SECONDS = 600.0
    book.store.run("SET statement_timeout = 0")
    at = "to_char(timestamp '2018-01-01' + g * interval '274 seconds', 'YYYY-MM-DD\"T\"HH24:MI:SS')"
    verdict = "CASE WHEN mod(g, 97) = 0 THEN 1 WHEN mod(g, 31) = 0 THEN 3 ELSE 0 END"
    made_of = {"office": "mod(g, 8)", "entry": "g / 8 + 1", "number": "g / 8 + 1", "at": f"{at} || '.000Z'", "hour": f"left({at}, 13) || ':00'", "who": "'person ' || mod(g, 40)",
               "request": "'m' || g", "source": "'hour_' || g || '.csv'", "name": "'hour_' || g", "plan": f"(ARRAY{plans})[mod(g::bigint * 7919, {SITES}) + 1]", "verdict": verdict,
               "cost": "mod(g::bigint * 7727, 20000)"}
    cells = ", ".join(made_of.get(name, f"s.{name}") for name in FIELDS)
    for first in range(8, count, 50_000):
        source = f"sheets s, generate_series({first}, {min(first + 50_000, count) - 1}) g WHERE s.office = 0 AND s.number = 1"
        book.store.run(f"INSERT INTO sheets ({', '.join(FIELDS)}) SELECT {cells} FROM {source}")
    book.store.run("SET statement_timeout = '8s'")


def timed(title, work, times=9):
    """Prints the median and the worst of some calls; the median in ms."""
    spans, found = [], None
    for _ in range(times):
        began = time.perf_counter()
        found = work()
        spans.append((time.perf_counter() - began) * 1e3)
    spans.sort()
    count = len(found.lines) if hasattr(found, "lines") else ""
    print(f"  {title:46} median {spans[times // 2]:7.2f} ms, worst {spans[-1]:7.2f}  {count}", flush=True)
    return spans[times // 2]


def measured(book, count):
    """Prints what is asked of a book, and how long each takes; the greatest median of lists and searches."""
    rng, newest = random.Random(1), find(book)
    year = str(BEGAN.year + 1)
    asked = {
        "newest page": Search(), "office 3": Search(office=3), "verdict fail": Search(verdict=1), "office 3, verdict fail": Search(office=3, verdict=1),
        "words paper mill (29 of 200 sites)": Search("paper mill"), "words site 123 (one site)": Search("site 123"), "words dryers (all sites)": Search("dryers"),
        "a unit: tank of site 123": Search("tank of site 123"), "the name of a list": Search("hour_500"), "words that are not there": Search("zzz"),
        "site 123, fail, office 3, a month": Search("site 123", 3, 1, None, f"{year}-03", f"{year}-03"), "a month": Search(since=f"{year}-03", until=f"{year}-03"),
        "a month of readings": Search(since=f"{year}-03", until=f"{year}-03", by_hour=True), "a month of readings, fail": Search("", None, 1, None, f"{year}-03", f"{year}-03", True),
        "no sheet of kind flow": Search(kind=1), "the first day": Search(until="2018-01-01"),
    }
    worst = max(timed(title, lambda search=search: find(book, search)) for title, search in asked.items())
    worst = max(worst, timed("next page", lambda: find(book, before=newest.older)), timed("a page in the middle", lambda: find(book, before=(f"{year}-06-01", 0, 0, 0))))
    timed("one sheet by its number", lambda: book.sheet(rng.randrange(8), rng.randrange(2, count // 8)))
    timed("how many (the offices)", book.offices)
    site = read_site(SAMPLE)
    timed("a draw", lambda: book.keep_one(Draft(site, "x"), 5), 30)
    return worst


def main(where, count=1_000_000):
    """Makes the book and measures; the greatest median of lists and searches, in ms."""
    running = servers.Server() if where == "server" else None
    name = running.fresh() if running else f"{where}/million.book"
    try:
        with Book(name, make=True) as book:
            began = time.perf_counter()
            if sum(book.lasts()) < count // 2:
                made(book, count)
            print(f"{'PostgreSQL' if running else 'SQLite'}: {sum(book.lasts()):,} sheets, made in {time.perf_counter() - began:.0f} s", flush=True)
            worst = measured(book, count)
            print(f"the slowest list or search: median {worst:.1f} ms, goal 50", flush=True)
            return worst
    finally:
        if running:
            running.end()


if __name__ == "__main__":
    main(sys.argv[1], *map(int, sys.argv[2:]))
