# SPDX-License-Identifier: LicenseRef-Wengeludo
"""Sites and years of hours, with what went wrong in them: truth beside readings. For the tests of histories, and for their tables."""

from __future__ import annotations

import csv
from dataclasses import dataclass, field, replace
from datetime import datetime, timedelta, timezone
from fractions import Fraction
from pathlib import Path
from zoneinfo import ZoneInfo

import numpy as np

import wengeludo_balance as engine
from wengeludo.balance.site import site_of
from wengeludo.history import run as runs
from wengeludo.history.export import Export
from wengeludo.history.tags import Tag, Tagged
from wengeludo.read.lists import read_list
from wengeludo_balance import FAULT, HELD, MEASURED

SAMPLES = Path(__file__).resolve().parents[1] / "samples"
YEAR = 8760
FIRST = int(datetime(2025, 1, 1, tzinfo=timezone.utc).timestamp())


@dataclass
class Site:
    """A list with tags, its plant, a balanced flow near its readings."""

    tagged: Tagged
    plant: engine.Plant
    flow: np.ndarray
    deviations: np.ndarray

    @property
    def metered(self):
        return np.array([tag.index for tag in self.tagged.tags])

    @property
    def ends(self):
        return tuple(np.array([getattr(s, end) for s in self.plant.streams]) for end in ("source", "target"))


def site(name="steam_site"):
    """A site of a sample: every pipe with a reading has a tag FI-101, FI-102 and so on."""
    pipes = read_list(SAMPLES / f"{name}.csv")
    return of_list(pipes)


def of_list(pipes):
    plant = site_of(pipes).plant
    tags = tuple(Tag(k, f"FI-{101 + k}") for k, pipe in enumerate(pipes.pipes) if pipe.reading is not None)
    readings = np.array([pipe.reading or 0.0 for pipe in pipes.pipes])
    deviations = np.array([pipe.accuracy.deviation if pipe.accuracy else 0.0 for pipe in pipes.pipes])
    made = Site(Tagged(pipes, tags), plant, readings, deviations)
    made.flow = near(made, readings)
    return made


def near(made, readings):
    """A balanced flow near these readings."""
    source, target = made.ends
    count = len(source)
    balances = np.zeros((made.plant.units + 1, count))
    balances[target, np.arange(count)] += 1
    balances[source, np.arange(count)] -= 1
    free = np.where(made.deviations > 0, made.deviations**2, 1e8)
    return readings - free * (balances.T @ np.linalg.pinv((balances * free) @ balances.T) @ (balances @ readings))


def drawn_site(seed=1, units=24, streams=72, meters=60):
    """A site of another redundancy: many units, a chain through them, streams across, few checks a meter."""
    from wengeludo.read.lists import OUTSIDE, Pipe, PipeList
    from wengeludo.read.numbers import Accuracy

    rng = np.random.default_rng(seed)
    order = [int(place) for place in rng.permutation(units) + 1]
    ends = [(0, order[0]), *zip(order, order[1:]), (order[-1], 0)]
    while len(ends) < streams:
        one, other = (int(place) for place in rng.integers(0, units + 1, 2))
        ends += [(one, other)] if one != other else []
    raw = rng.uniform(2000, 20000, streams)
    metered = set(rng.permutation(streams)[:meters].tolist())
    deviations = rng.choice([5, 10, 15.8, 22.4, 31.6], streams)
    pipes = tuple(
        Pipe(k + 2, str(k + 1), f"pipe {k + 1}", a, b, float(round(raw[k], 1)) if k in metered else None, Accuracy(float(deviations[k])) if k in metered else None,
             f"{deviations[k]:g}" if k in metered else "") for k, (a, b) in enumerate(ends)
    )
    made = of_list(PipeList("drawn", pipes, (OUTSIDE, *(f"unit {k}" for k in range(1, units + 1)))))
    return made


def remembered(rng, rows, columns, memory):
    """Noise that remembers the row before."""
    noise = rng.normal(size=(rows, columns)) * np.sqrt(1 - memory * memory)
    noise[0] = rng.normal(size=columns)
    for row in range(1, rows):
        noise[row] += memory * noise[row - 1]
    return noise


def rings(made, extra=()):
    """A basis of balanced flows, as columns; `extra` are ends of pipes more."""
    source, target = (np.r_[ends, [pair[k] for pair in extra]].astype(int) for k, ends in enumerate(made.ends))
    count, parent, todo = len(source), {0: None}, [0]
    while todo:
        at = todo.pop()
        for k in range(count):
            for one, other, sign in ((source[k], target[k], 1), (target[k], source[k], -1)):
                if one == at and other not in parent:
                    parent[other] = (at, k, sign)
                    todo.append(other)
    used = {step[1] for step in parent.values() if step}

    def way(place):
        found = np.zeros(count)
        while parent[place]:
            place_before, k, sign = parent[place]
            found[k] += sign
            place = place_before
        return found

    return np.array([np.eye(count)[k] + way(source[k]) - way(target[k]) for k in range(count) if k not in used]).T


def true_flows(made, rows, rng):
    """Flows through the year: seasons, days, weekends, and slow moves of every ring."""
    hour = np.arange(rows)
    load = 1 + 0.10 * np.cos(2 * np.pi * hour / YEAR) + 0.06 * np.sin(2 * np.pi * (hour % 24 - 8) / 24) - 0.08 * (((hour // 24) % 7) >= 5)
    basis = rings(made)
    size = np.array([np.abs(made.flow[np.abs(basis[:, j]) > 0]).min() for j in range(basis.shape[1])])
    return made.flow * load[:, None] + (remembered(rng, rows, basis.shape[1], 0.97) * 0.04 * size) @ basis.T


def read_by(made, flows, rng, memory=0.5, calibration=0.4, more=1.0):
    """What meters show: a calibration offset within the stated deviation, and noise with memory; together `more` times the stated deviation."""
    rows, streams = flows.shape
    offset = np.clip(rng.normal(size=streams) * calibration, -0.8, 0.8)
    noise = remembered(rng, rows, streams, memory) * np.sqrt(1 - calibration**2)
    return flows + made.deviations * (offset + noise) * more


def leaked(made, flows, start, end, place, size):
    """The same flows with a leak at a unit, fed along one way through the plant."""
    basis = rings(made, [(place, 0)])
    column = next(j for j in range(basis.shape[1]) if abs(basis[-1, j]) == 1)
    flows[start:end] += size * (basis[:, column] * basis[-1, column])[:-1]
    return flows


def exported(made, readings, status, first=FIRST, step=3600):
    """The export that these readings would be."""
    times = first + step * np.arange(len(readings), dtype=np.int64)
    kept = np.round(readings[:, made.metered], 1)
    return Export(times, np.where(status[:, made.metered] == FAULT, np.nan, kept), status[:, made.metered].astype(np.uint8))


def all_measured(made, rows):
    return np.where(made.deviations > 0, MEASURED, FAULT).astype(np.uint8) * np.ones((rows, 1), np.uint8)


def run_of(made, readings, status=None, **asked):
    """The run of readings."""
    status = all_measured(made, len(readings)) if status is None else status
    return runs.balanced(made.tagged, exported(made, readings, status), Path("export.csv"), None, runs.Wanted(**asked))


@dataclass
class Year:
    """A year of a site with what went wrong."""

    site: Site
    flows: np.ndarray
    readings: np.ndarray
    status: np.ndarray
    truth: list = field(default_factory=list)


def bad_year(seed=7):
    """The steam site for a year: a meter off for 21 weeks, a leak for 3, and one of each event."""
    made = site()
    rng = np.random.default_rng(seed)
    flows = true_flows(made, YEAR, rng)
    flows[2400:, 13] += 1500
    flows[2400:, [11, 12]] -= 1500
    for k, more in ((25, -150), (1, -150), (0, 150)):
        flows[290 * 24 : 311 * 24, k] += more
    readings, status, own = read_by(made, flows, rng), all_measured(made, YEAR), made.deviations
    readings[19 * 168 : 40 * 168, 8] += 3 * own[8]
    readings[1440:1512, 16] = readings[1440, 16]
    status[4805:4835, made.metered] = FAULT
    status[5520:5616, 4] = FAULT
    readings[6000:6008, 23] = 0
    status[6360:6408, 1] = HELD
    readings[6360:6408, 1] = readings[6360, 1]
    for day, k in ((45, 4), (77, 6), (120, 12), (270, 14), (330, 8)):
        readings[day * 24 + 9, k] += 12 * own[k]
    readings[3600:3840, 7] += 3 * own[7]
    return Year(made, flows, np.round(readings, 1), status)


def write_list(made, path):
    """The list as a file: its tags in the place of its readings."""
    tags = {tag.index: tag.name for tag in made.tagged.tags}
    with open(path, "w", newline="", encoding="utf-8") as file:
        writer = csv.writer(file)
        writer.writerow(["stream", "what", "from", "to", "tag", "accuracy", "low", "high", "price", "rate"])
        for k, pipe in enumerate(made.tagged.list.pipes):
            ends = (made.tagged.list.places[place] for place in (pipe.source, pipe.target))
            rest = ("" if value is None else f"{value:g}" for value in (pipe.low, pipe.high, pipe.price, pipe.rate))
            writer.writerow([pipe.label, pipe.what, *ends, tags.get(k, ""), pipe.stated if k in tags else "", *rest])


def write_export(year, path, rows=slice(None), zone="Europe/Vienna", separator=";"):
    """The year as a historian of that zone writes it: decimal commas with semicolons, words for what is missing."""
    made, place = year.site, ZoneInfo(zone)
    comma = separator == ";"
    with open(path, "w", newline="", encoding="utf-8") as file:
        writer = csv.writer(file, delimiter=separator)
        names = [tag.name for tag in made.tagged.tags]
        writer.writerow(["Zeit" if comma else "time", *names[:2], f"{names[1]}.status", *names[2:]])
        for row in range(*rows.indices(len(year.readings))):
            at = datetime.fromtimestamp(FIRST + 3600 * row, place)
            cells = []
            for k in made.metered:
                text = "I/O Timeout" if year.status[row, k] == FAULT else f"{year.readings[row, k]:.1f}"
                cells.append(text.replace(".", ",") if comma and year.status[row, k] != FAULT else text)
            cells.insert(2, "Held" if year.status[row, made.metered[1]] == HELD else "Good")
            writer.writerow([at.strftime("%d.%m.%Y %H:%M") if comma else at.astimezone(timezone.utc).strftime("%Y-%m-%dT%H:%M:%SZ"), *cells])


def sample():
    """The sample of desk/README.md: sixteen weeks, a row for every four hours; from the ninth week on a meter is off."""
    made = site()
    rng = np.random.default_rng(11)
    rows = 16 * 168
    readings = read_by(made, true_flows(made, rows, rng), rng)
    readings[8 * 168 :, 8] += 3 * made.deviations[8]
    readings[900:972, 16] = readings[900, 16]
    status = all_measured(made, rows)
    status[1500:1524, 4] = FAULT
    return Year(made, readings, np.round(readings, 1), status)


if __name__ == "__main__":
    (SAMPLES / "history").mkdir(exist_ok=True)
    write_list(sample().site, SAMPLES / "history" / "steam_site.csv")
    write_export(sample(), SAMPLES / "history" / "export.csv", slice(0, 16 * 168, 4))
