# SPDX-License-Identifier: LicenseRef-Wengeludo
"""Offices that draw at once, under faults: every office has its numbers 1 to n, none twice, none told and lost; chains and sheets are whole.

WENGELUDO_DRAWS (default 12)  draws of each process; 500 is the long run, with 8 processes in place of 4
"""

import os
import random

import draws
import pytest
import servers

from wengeludo.keep.book import Book
from wengeludo.keep.check import check

DRAWS = int(os.environ.get("WENGELUDO_DRAWS") or 12)
LONG = DRAWS >= 100
SLOW_DISK = 2.0  # ms in which a write is forced out
PROCESSES = 8 if LONG else 4


def whole(where, folder):
    """Every draw is in the book once, under the number that was told."""
    with Book(where) as book:
        assert check(book) == [], "numbers, chains, the engine's check"
        assert sum(book.lasts()) == PROCESSES * DRAWS
        assert book.store.run("SELECT count(*), count(DISTINCT request) FROM sheets") == [(PROCESSES * DRAWS,) * 2]
    assert draws.lost(where, folder) == ([], PROCESSES * DRAWS)


def drawn(where, tmp_path, **how):
    Book(where, make=True).close()
    folder = tmp_path / "told"
    folder.mkdir()
    kills = draws.killed(where, PROCESSES, DRAWS, folder, **how)
    print(f"\n{where.split('?')[0]}: {PROCESSES} x {DRAWS} draws, {kills} kills")
    whole(where, folder)
    return kills


def test_killed_at_random_statements(new_book, tmp_path):
    """By a chance at which a run without a kill is one in a million: a server's draw has fewer statements than a file's."""
    where = str(new_book())
    assert drawn(where, tmp_path, chance=0.003 if LONG else 0.05 if where.startswith("postgresql") else 0.025) > 0


def test_killed_from_outside(new_book, tmp_path):
    assert drawn(new_book(), tmp_path, kills=150 if LONG else 4) > 0


def test_connections_cut_and_the_server_stopped(server, tmp_path):
    rng, harmed = random.Random(3), {"cut": 0, "stopped": 0}

    def harm():
        if rng.random() < 0.8 or harmed["stopped"] >= (6 if LONG else 1):
            ask = "SELECT count(pg_terminate_backend(pid)) FROM (SELECT pid FROM pg_stat_activity WHERE application_name = 'wengeludo' ORDER BY random() LIMIT 3) AS three"
            harmed["cut"] += server.asked(ask)[0][0]
        else:
            server.stop("immediate")
            server.start()
            harmed["stopped"] += 1

    drawn(server.fresh(), tmp_path, kills=40 if LONG else 2, harm=harm)
    print(f"connections cut {harmed['cut']}, server stopped at once and started {harmed['stopped']}")
    assert harmed["cut"] + harmed["stopped"] > 0


@pytest.mark.skipif(bool(servers.missing()), reason=servers.missing() or "-")
def test_rates():
    """In one run beside version 1: no draw waits for two seconds, and none of the books is much slower. On a disk that forces out slowly the
    long run holds them to 4 and 5 times its rate; on a quick one the processors decide, and all three draw about as many."""
    found = draws.rates(8, 500 if LONG else 25)
    old, slow = found["version 1"][0], found["forced out"] > SLOW_DISK
    assert max(found["SQLite"][1], found["PostgreSQL"][1]) < 2
    assert min(found["SQLite"][0], found["PostgreSQL"][0]) > old / 3
    if LONG and slow:
        assert found["SQLite"][0] >= 4 * old and found["PostgreSQL"][0] >= 5 * old
