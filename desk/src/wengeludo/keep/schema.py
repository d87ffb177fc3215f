# SPDX-License-Identifier: LicenseRef-Wengeludo
"""The tables of a book of version 2, for either store. {blob}, {id} and {text} are the only words that differ.

Every office has one chain of entries: sheets of the engine, checked flows, and remarks (annulled, lost), counted by `entry`. Times are
ISO 8601 in UTC with milliseconds, as text, so that both stores sort them alike; the hour of the readings is as the list tells it.
"""

from __future__ import annotations

import uuid
from datetime import datetime, timezone
from typing import Iterator, List, Tuple

import wengeludo_balance as engine

VERSION = 2
APPLICATION = 0x57454E47  # the mark of an SQLite file; the key of the lock under which a server's tables are made
START = bytes(32)  # what an office's chain begins with
OPEN = "open"
MOST_NUMBER = 2**32 - 1

TABLES = """
CREATE TABLE book (one INTEGER PRIMARY KEY CHECK (one = 1), version INTEGER NOT NULL, identity {text} NOT NULL, made {text} NOT NULL);
CREATE TABLE offices (
    office INTEGER PRIMARY KEY CHECK (office BETWEEN 0 AND 7),
    last BIGINT NOT NULL CHECK (last BETWEEN 0 AND 4294967295),
    flows BIGINT NOT NULL CHECK (flows BETWEEN 0 AND 4294967295),
    entry BIGINT NOT NULL CHECK (entry >= 0),
    chain {blob} NOT NULL,
    state {text} NOT NULL
);
CREATE TABLE plans (
    plan {id}, digest {blob} NOT NULL UNIQUE, site {text} NOT NULL, words {text} NOT NULL, told {text} NOT NULL, layout {text}
);
CREATE TABLE sheets (
    office INTEGER NOT NULL REFERENCES offices (office),
    entry BIGINT NOT NULL,
    kind INTEGER NOT NULL CHECK (kind IN (0, 1)),
    number BIGINT NOT NULL CHECK (number BETWEEN 1 AND 4294967295),
    at {text} NOT NULL, hour {text} NOT NULL, who {text} NOT NULL, request {text} NOT NULL UNIQUE, source {text} NOT NULL, name {text} NOT NULL,
    plan BIGINT NOT NULL REFERENCES plans (plan),
    readings {text} NOT NULL, plant {blob} NOT NULL, sheet {blob} NOT NULL, numbers {text} NOT NULL,
    changes {text} NOT NULL, note {text} NOT NULL,
    verdict INTEGER NOT NULL, cost BIGINT NOT NULL, blanks INTEGER NOT NULL,
    chain {blob} NOT NULL,
    PRIMARY KEY (office, kind, number), UNIQUE (office, entry)
);
CREATE INDEX sheets_at ON sheets (at, office, kind, number);
CREATE INDEX sheets_hour ON sheets (hour, office, kind, number);
CREATE INDEX sheets_office ON sheets (office, at, kind, number);
CREATE INDEX sheets_office_verdict ON sheets (office, verdict, at, kind, number);
CREATE INDEX sheets_flows ON sheets (at, office, number) WHERE kind = 1;
CREATE INDEX sheets_plan ON sheets (plan, at, office, kind, number, verdict);
CREATE INDEX sheets_verdict ON sheets (verdict, at, office, kind, number, plan);
CREATE INDEX sheets_name ON sheets (name, at, office, kind, number);
CREATE TABLE remarks (
    office INTEGER NOT NULL REFERENCES offices (office),
    entry BIGINT NOT NULL,
    what {text} NOT NULL CHECK (what IN ('annulled', 'lost')),
    kind INTEGER NOT NULL CHECK (kind IN (0, 1)),
    first BIGINT NOT NULL, final BIGINT NOT NULL CHECK (final >= first),
    at {text} NOT NULL, who {text} NOT NULL, reason {text} NOT NULL,
    chain {blob} NOT NULL,
    PRIMARY KEY (office, entry)
);
CREATE UNIQUE INDEX remarks_once ON remarks (office, kind, first, what);
CREATE TABLE lists (
    list {id}, at {text} NOT NULL, who {text} NOT NULL, hour {text} NOT NULL, source {text} NOT NULL, name {text} NOT NULL,
    plan BIGINT NOT NULL REFERENCES plans (plan), readings {text} NOT NULL, plant {blob} NOT NULL
);
CREATE TABLE audit (entry {id}, at {text} NOT NULL, who {text} NOT NULL, what {text} NOT NULL, about {text} NOT NULL)
"""
KEPT = ("sheets", "remarks")  # what nobody alters: a trigger in SQLite, a role without the right on a server


def now() -> str:
    """This moment, as the book writes it."""
    return datetime.now(timezone.utc).isoformat(timespec="milliseconds").replace("+00:00", "Z")


def statements(blob: str, id: str, text: str) -> List[str]:
    """What makes the tables, statement by statement."""
    return [one.strip() for one in TABLES.format(blob=blob, id=id, text=text).split(";")]


def first_rows(state: str = OPEN, identity: str = "") -> Iterator[Tuple[str, Tuple[object, ...]]]:
    """The book's own line and its eight offices: written with the tables, so that a book is there whole or not at all."""
    line = (VERSION, identity or uuid.uuid4().hex, now())
    yield "INSERT INTO book (one, version, identity, made) VALUES (1, ?, ?, ?)", line
    for office in range(engine.OFFICES):
        yield "INSERT INTO offices (office, last, flows, entry, chain, state) VALUES (?, 0, 0, 0, ?, ?)", (office, START, state)
