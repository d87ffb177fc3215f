# SPDX-License-Identifier: LicenseRef-Wengeludo
"""Drawn lists of any span, each judged by the tool and by an independent least squares, in a table.

    python3 monte_carlo.py [LISTS [SEED]]     LISTS drawn lists of each span; the table of docs/desk/wide.md is that of 500

The lists: networks of through paths of 4 to 60 streams whose side branches carry from the main flow down to 1/span of it, a quarter at most
without meters, meters of 1 to 3 %, every second list with one gross error of 4 to 15 deviations, every third with ranges of ±0.5 %.

The reference shares no method with the tool: it writes every balanced flow as a sum of rings and finds the best one by orthogonal
factors, in floats, with ranges by an active set that starts at the drawn flows; the tool minimises whole costs over shortest paths.
"""

import random
import sys
from collections import deque
from dataclasses import dataclass, field
from fractions import Fraction

import numpy as np

import wengeludo_balance as engine
from wengeludo.balance.kind import SheetKind
from wengeludo.balance.limits import CRITICAL
from wengeludo.balance.sheet import balance
from wengeludo.balance.site import site_of
from wengeludo.read.lists import Pipe, PipeList
from wengeludo.read.numbers import Marks, accuracy

SPANS = (1.2, 5, 30, 200, 1_500, 5_000, 20_000, 100_000)
CLASSES = (10, 100, 1_000, 10_000, 100_000, float("inf"))
POINT = Marks(".", True)


# ---------------------------------------------------------------- drawn lists


@dataclass
class Network:
    """Units, and streams with the flow that they really carry."""

    units: int = 0
    streams: list = field(default_factory=list)  # [source, target, flow]

    def new(self):
        self.units += 1
        return self.units

    def path(self, start, end):
        """Streams followed forwards from a place to another; None if there is no such way."""
        came, todo = {start: None}, deque([start])
        while todo and end not in came:
            at = todo.popleft()
            for k, (source, target, _) in enumerate(self.streams):
                if source == at and target not in came:
                    came[target] = k
                    todo.append(target)
        if end not in came:
            return None
        way = []
        while end != start:
            way.append(came[end])
            end = self.streams[came[end]][0]
        return way

    def branch(self, rng, flow, count):
        """One more way through the site, for so much; False if this draw finds none."""
        at, to = rng.randint(1, self.units), rng.choice([0, 0, *range(1, self.units + 1)])
        inner = min(rng.choice((0, 0, 1, 1, 2)), 32 - self.units, count - len(self.streams) - 1)
        first, last = self.path(0, at), [] if to == 0 else self.path(to, 0)
        if at == to or inner < 0 or first is None or last is None:
            return False
        for k in first + last:
            self.streams[k][2] += flow
        places = [at, *(self.new() for _ in range(inner)), to]
        self.streams += [[one, two, flow] for one, two in zip(places, places[1:])]
        return True


def network(rng, span, count):
    """A network whose least branch carries 1/span of its main flow."""
    made, top = Network(), 10 ** rng.uniform(3, 5.5)
    main = [0, *(made.new() for _ in range(rng.randint(1, 3))), 0]
    made.streams = [[one, two, top] for one, two in zip(main, main[1:])]
    done = 0
    for _ in range(500):
        if len(made.streams) >= count:
            break
        done += made.branch(rng, top / span * (1 if not done else span ** rng.uniform(0, 0.95)), count)
    return made


def drawn(rng, span, gross, ranged):
    """A list of a drawn network, and the flows that it was drawn from."""
    made = network(rng, span, rng.randint(4, 60))
    count = len(made.streams)
    bare = set(rng.sample(range(count), int(count * rng.uniform(0, 0.25))))
    bad = rng.choice([k for k in range(count) if k not in bare]) if gross else None
    pipes = [_pipe(rng, k, *stream, k in bare, k == bad, ranged) for k, stream in enumerate(made.streams)]
    return PipeList("drawn", tuple(pipes), ("outside", *(f"unit {k}" for k in range(1, made.units + 1)))), [flow for _, _, flow in made.streams]


def _pipe(rng, k, source, target, flow, bare, bad, ranged):
    if bare:
        return Pipe(k + 2, str(k + 1), "", source, target)
    share = rng.choice((1, 1.5, 2, 3))
    off = rng.choice((-1, 1)) * rng.uniform(4, 15) if bad else rng.gauss(0, 1)
    reading = float(f"{flow * (1 + off * share / 100):.4g}")
    ends = (float(f"{flow * 0.995:.6g}"), float(f"{flow * 1.005:.6g}")) if ranged and rng.random() < 0.3 else (None, None)
    return Pipe(k + 2, str(k + 1), "", source, target, reading, accuracy(f"{share}%", reading, POINT), f"{share}%", *ends)


# ---------------------------------------------------------------- the reference


def rings(listed):
    """A column for each ring of a spanning tree: every balanced flow is a sum of them."""
    parent, tree = {0: None}, set()
    grown = True
    while grown:
        grown = False
        for k, pipe in enumerate(listed.pipes):
            for one, two in ((pipe.source, pipe.target), (pipe.target, pipe.source)):
                if one in parent and two not in parent:
                    parent[two], grown = (one, k), True
                    tree.add(k)
    columns = []
    for k, pipe in enumerate(listed.pipes):
        if k not in tree:
            column = np.zeros(len(listed.pipes))
            column[k] = 1
            _climb(listed, parent, pipe.target, column, 1)
            _climb(listed, parent, pipe.source, column, -1)
            columns.append(column)
    return np.array(columns).T


def _climb(listed, parent, place, column, sign):
    """Leads one unit from a place to the outside along the tree."""
    while parent[place] is not None:
        above, k = parent[place]
        column[k] += sign if listed.pipes[k].source == place else -sign
        place = above


def reference(listed, start):
    """The flows of the list's own least squares and their cost, in floats."""
    metered = [k for k, pipe in enumerate(listed.pipes) if pipe.accuracy]
    sigma = np.array([listed.pipes[k].accuracy.deviation for k in metered])
    want = np.array([listed.pipes[k].reading for k in metered]) / sigma
    basis = rings(listed)[metered] / sigma[:, None]
    low, high = (np.array([open_ if (end := getattr(listed.pipes[k], side)) is None else end for k in metered]) / sigma
                 for side, open_ in (("low", -np.inf), ("high", np.inf)))
    at = _bounded(basis, want, low, high, np.array([start[k] for k in metered]) / sigma)
    return dict(zip(metered, at * sigma)), float(((at - want) ** 2).sum())


def _bounded(basis, want, low, high, at):
    """The nearest point to `want` in the span of the basis and within the bounds, from one within them: an active set."""
    fixed = np.zeros(len(want), bool)
    for _ in range(1_000):
        best = at + _step(basis, want - at, fixed)
        move = best - at
        with np.errstate(divide="ignore", invalid="ignore"):
            room = np.where(move > 1e-12, (high - at) / move, np.where(move < -1e-12, (low - at) / move, np.inf))
        room[fixed] = np.inf
        first = int(np.argmin(room))
        if room[first] < 1:
            at, fixed[first] = at + max(0.0, room[first]) * move, True
            continue
        at = best
        pull = _pull(basis, want - at, fixed) * np.where(np.abs(at - high) < np.abs(at - low), -1, 1)
        if not fixed.any() or pull[fixed].min() > -1e-9:
            return at
        fixed[np.flatnonzero(fixed)[int(np.argmin(pull[fixed]))]] = False
    raise ArithmeticError("the reference does not end")


def _step(basis, want, fixed):
    """The step within the span, 0 on the fixed rows, that comes nearest to what is wanted."""
    free = basis
    if fixed.any():
        _, values, turned = np.linalg.svd(basis[fixed], full_matrices=True)
        rank = int((values > 1e-10 * max(1.0, values.max(initial=0))).sum())
        free = basis @ turned[rank:].T
    return free @ np.linalg.lstsq(free, want, rcond=1e-14)[0] if free.shape[1] else np.zeros(len(want))


def _pull(basis, left, fixed):
    """How much each fixed row is pressed against its bound: negative if it should be let go."""
    pull = np.zeros(len(left))
    if fixed.any():
        pull[fixed] = -np.linalg.lstsq(basis[fixed].T, basis.T @ left, rcond=1e-12)[0]
    return pull


# ---------------------------------------------------------------- both judged


@dataclass
class Row:
    """A list: its span of flows, the kind of its sheet, both verdicts, the greatest distance of a metered flow, in deviations, and the
    verdict of the engine's own sheet, whether it stands or not."""

    span: float
    kind: SheetKind
    verdict: object
    truth: str
    far: float
    own: str = ""


def one(rng, span, gross, ranged):
    """A drawn list by both; None if nothing is to be tested in it."""
    listed, flows = drawn(rng, span, gross, ranged)
    site = site_of(listed)
    sheet = balance(site, estimated=False)
    if sheet.flowless or not sheet.degrees:
        return None if sheet.kind is not SheetKind.UNJUDGED else Row(max(flows) / min(flows), sheet.kind, None, "", 0.0)
    real, cost = reference(listed, flows)
    far = max(abs(sheet.lines[k].flow - flow) / listed.pipes[k].accuracy.deviation for k, flow in real.items())
    truth = "PASS" if cost <= CRITICAL[sheet.degrees - 1] / 1000 else "FAIL"
    return Row(max(flows) / min(flows), sheet.kind, None if sheet.verdict is None else sheet.verdict.name, truth, far, own(site))


def own(site):
    """The verdict of the engine's own sheet, in the unit that is the best for it; blank if it has none."""
    try:
        return engine.balance(site.file).verdict.name if site.fits else ""
    except engine.Refusal:
        return ""


def run(count, seed=1, spans=SPANS):
    """So many drawn lists of each span."""
    rng, rows = random.Random(seed), []
    for k in range(count):
        rows += [one(rng, span, k % 2, k % 3 == 2) for span in spans]
    return [row for row in rows if row]


def table(rows):
    """The rows by their span, as Markdown."""
    heads = ("span of flows", "lists", "engine's own", "checked flows", "not judged", "false fail", "false pass", "close", "greatest error in deviations",
             "engine alone: false fail", "engine alone: false pass")
    lines = [f"| {' | '.join(heads)} |", "|" + "---|" * len(heads)]
    below = 0.0
    for upto in CLASSES:
        some = [row for row in rows if below <= row.span < upto]
        judged = [row for row in some if row.kind is not SheetKind.UNJUDGED]
        cells = [
            f"{below:,.0f} to {upto:,.0f}" if upto < float("inf") else f"over {below:,.0f}", len(some), *(sum(row.kind is kind for row in some) for kind in SheetKind),
            sum(row.verdict == "FAIL" and row.truth == "PASS" for row in judged), sum(row.verdict == "PASS" and row.truth == "FAIL" for row in judged),
            sum(row.verdict == "CLOSE" for row in judged), f"{max((row.far for row in judged), default=0):.3f}",
            sum(row.own == "FAIL" and row.truth == "PASS" for row in some), sum(row.own == "PASS" and row.truth == "FAIL" for row in some),
        ]
        lines.append("| " + " | ".join(str(cell) for cell in cells) + " |")
        below = upto
    return "\n".join(lines)


if __name__ == "__main__":
    words = [int(word) for word in sys.argv[1:]]
    print(table(run(*words or [5])))
