# SPDX-License-Identifier: LicenseRef-Wengeludo
"""Where units and the ends of streams to and from the outside stand, in a drawing some of whose units the user has placed."""

from __future__ import annotations

import math
import subprocess
from typing import Dict, List, Sequence, Tuple

from ..read.faults import Stopped
from ..read.lists import PipeList

Spot = Tuple[float, float]
CENTIMETRE = 72 / 2.54
AWAY = 2.9  # centimetres from the unit
WAYS = 16
SECONDS = 10  # for graphviz
APART, WIDE = 2.5, 3.2  # inches between units that graphviz places, and across a header
HEADERS = ("header", "manifold", " main", "mains")


def header(name: str) -> bool:
    """Whether a unit is drawn as a wide bar."""
    return any(word in f" {name.casefold()}" for word in HEADERS)


def graphviz(command: Sequence[str], source: str) -> str:
    """What graphviz makes of a text in its language; Stopped where it is missing or cannot."""
    try:
        done = subprocess.run(command, input=source, capture_output=True, text=True, check=True, timeout=SECONDS)
    except FileNotFoundError:
        raise Stopped("no drawing: graphviz is not installed (Debian: apt-get install graphviz)") from None
    except (subprocess.CalledProcessError, subprocess.TimeoutExpired) as error:
        raise Stopped(f"no drawing: graphviz could not lay it out ({error})") from None
    return done.stdout


def all_spots(pipes: PipeList) -> Dict[int, Spot]:
    """A place for every unit: those of the user as they are, the others where their streams draw them."""
    units = range(1, len(pipes.places))
    if all(unit in pipes.spots for unit in units):
        return dict(pipes.spots)
    source = ["graph {", f'graph [notranslate=true, overlap=false, sep="+30"]; node [shape=box, height=0.7]; edge [len={APART}];']
    for unit in units:
        x, y = pipes.spots.get(unit, (0.0, 0.0))
        pinned = f', pos="{x / 2.54:.3f},{-y / 2.54:.3f}!"' if unit in pipes.spots else ""
        source.append(f"p{unit} [width={WIDE if header(pipes.places[unit]) else 1.6}{pinned}];")
    source += [f"p{pipe.source} -- p{pipe.target};" for pipe in pipes.pipes if pipe.source and pipe.target]
    found = {}
    for line in graphviz(["neato", "-Tplain"], "\n".join([*source, "}"])).splitlines():
        if line.startswith("node p"):
            _, name, x, y = line.split()[:4]
            found[int(name[1:])] = (2.54 * float(x), -2.54 * float(y))
    return {**found, **pipes.spots}


def outside_spots(pipes: PipeList) -> Dict[int, Spot]:
    """A place for the outside end of each stream that has one, in the widest gap between the streams of its unit."""
    used: Dict[int, List[float]] = {}
    for pipe in pipes.pipes:
        for here, there in ((pipe.source, pipe.target), (pipe.target, pipe.source)):
            if here in pipes.spots and there in pipes.spots:
                (x, y), (far, down) = pipes.spots[here], pipes.spots[there]
                used.setdefault(here, []).append(math.atan2(down - y, far - x))
    found = {}
    for k, pipe in enumerate(pipes.pipes):
        unit = pipe.source or pipe.target
        if pipe.source and pipe.target or unit not in pipes.spots:
            continue
        taken = used.setdefault(unit, [])
        way = max((2 * math.pi * j / WAYS for j in range(WAYS)), key=lambda angle: min((_apart(angle, other) for other in taken), default=0.0))
        taken.append(way)
        x, y = pipes.spots[unit]
        found[k] = (x + AWAY * math.cos(way), y + AWAY * math.sin(way))
    return found


def _apart(one: float, other: float) -> float:
    """How far two directions are apart."""
    return abs(math.remainder(one - other, 2 * math.pi))
