# SPDX-License-Identifier: LicenseRef-Wengeludo
"""Chains, rings, groups and sides: the shape of a plant, by its streams alone."""

from __future__ import annotations

from collections import deque
from typing import Callable, Dict, FrozenSet, Iterable, List, Optional, Sequence, Tuple

from wengeludo_balance import Stream

Signed = List[Tuple[int, int]]  # index of a stream, and +1 or -1


def chain(streams: Sequence[Stream], using: Iterable[int], start: int, end: int) -> Optional[List[int]]:
    """A shortest chain of these streams, in either direction, from one place to another; None if there is none."""
    beside: Dict[int, List[Tuple[int, int]]] = {}
    for k in using:
        for one, other in ((streams[k].source, streams[k].target), (streams[k].target, streams[k].source)):
            beside.setdefault(one, []).append((k, other))
    came: Dict[int, Tuple[int, int]] = {start: (-1, start)}
    todo = deque([start])
    while todo and end not in came:
        at = todo.popleft()
        for k, other in beside.get(at, ()):
            if other not in came:
                came[other] = (k, at)
                todo.append(other)
    if end not in came:
        return None
    way = []
    while end != start:
        k, end = came[end]
        way.append(k)
    return way[::-1]


def reach(streams: Sequence[Stream], using: Iterable[int], start: int) -> FrozenSet[int]:
    """The places that chains of these streams join with one place."""
    used, seen, grown = list(using), {start}, True
    while grown:
        grown = False
        for k in used:
            ends = {streams[k].source, streams[k].target}
            if ends & seen and not ends <= seen:
                seen |= ends
                grown = True
    return frozenset(seen)


def unmetered(streams: Sequence[Stream]) -> List[int]:
    return [k for k, s in enumerate(streams) if not s.metered]


def groups(streams: Sequence[Stream], units: int) -> List[FrozenSet[int]]:
    """The groups of places that chains of unmetered streams join."""
    bare, left, found = unmetered(streams), set(range(units + 1)), []
    while left:
        group = reach(streams, bare, min(left))
        found.append(group)
        left -= group
    return found


def across(streams: Sequence[Stream], within: FrozenSet[int], counts: Callable[[int], bool] = lambda k: True) -> Signed:
    """The streams over the border of a set of places: +1 for one that runs in, -1 for one that runs out."""
    signed = []
    for k, s in enumerate(streams):
        if counts(k) and (s.source in within) != (s.target in within):
            signed.append((k, 1 if s.target in within else -1))
    return signed


def summed(streams: Sequence[Stream], k: int) -> Tuple[Signed, FrozenSet[int]]:
    """The meters of which the flow of unmetered stream k, on no ring of unmetered ones, is the sum, with their signs; and the places
    beyond it whose balance says so: those on the side that has not the outside, or else on the smaller one."""
    rest = [j for j in unmetered(streams) if j != k]
    sides = ((reach(streams, rest, streams[k].target), -1), (reach(streams, rest, streams[k].source), 1))
    beyond, sign = min(sides, key=lambda side: (0 in side[0], len(side[0])))
    return [(j, sign * way) for j, way in across(streams, beyond, lambda j: j != k)], beyond


def ring(streams: Sequence[Stream], blanks: Iterable[int], k: int) -> List[int]:
    """A shortest ring of blanks through blank k, k first."""
    way = chain(streams, (j for j in blanks if j != k), streams[k].target, streams[k].source)
    return [k, *(way or [])]


def rings(streams: Sequence[Stream], blanks: Sequence[int]) -> List[List[int]]:
    """Rings of blanks that hold every blank, each told once."""
    found: List[List[int]] = []
    for k in blanks:
        if not any(k in one for one in found):
            found.append(ring(streams, blanks, k))
    return found
