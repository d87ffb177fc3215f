#!/usr/bin/env python3
# SPDX-License-Identifier: LicenseRef-Wengeludo
"""Speed and memory of `wengeludo history`: a year of hours and a year of minutes of the steam site (26 streams, 17 tags), from CSV to page.

    python3 desk/bench_history.py [hours|minutes|rows|all]     with the interpreter that has wengeludo; about a minute for all

Prints processor seconds and the greatest memory of the command alone; exports are made before, in a temporary folder. `rows`: checked flows of
26 and 96 streams a second of processor, each row solved and passed by the proved call.
"""

import resource
import subprocess
import sys
import tempfile
import time
from pathlib import Path

import numpy as np

HERE = Path(__file__).resolve().parent
sys.path.insert(0, str(HERE / "tests"))
import simulator as sim  # noqa: E402

MOST = {"hours": (3, 300), "minutes": (30, 300)}  # seconds of processor, MB


def minutes(year, path):
    """The year with a row for each minute: the hour's readings and a little noise."""
    rng = np.random.default_rng(3)
    with open(path, "w", encoding="utf-8") as file:
        file.write("time," + ",".join(tag.name for tag in year.site.tagged.tags) + "\n")
        for first in range(0, 525_600, 14_600):
            at = np.arange(first, first + 14_600)
            values = np.round(year.readings[at // 60][:, year.site.metered] + rng.normal(size=(len(at), len(year.site.metered))), 1)
            times = (np.datetime64("2025-01-01T00:00") + at.astype("timedelta64[m]")).astype(str)
            file.writelines(f"{time}:00Z,{','.join(f'{value:.1f}' for value in row)}\n" for time, row in zip(times, values))


def measured(words):
    """Processor seconds and MB of a command."""
    before = resource.getrusage(resource.RUSAGE_CHILDREN)
    done = subprocess.run([sys.executable, "-m", "wengeludo", *map(str, words)], capture_output=True, text=True)
    assert done.returncode in (0, 3), done.stderr
    after = resource.getrusage(resource.RUSAGE_CHILDREN)
    return after.ru_utime + after.ru_stime - before.ru_utime - before.ru_stime, after.ru_maxrss / 1024


def checked_rows(made, rows=8192):
    """Checked flows a second of processor."""
    from wengeludo.history import checked_rows as checked
    from wengeludo.history import run as runs

    rng = np.random.default_rng(1)
    readings = np.round(sim.read_by(made, np.tile(made.flow, (rows, 1)), rng, memory=0), 1)
    export = sim.exported(made, readings, sim.all_measured(made, rows))
    shape = runs.shape_of(made.tagged, export, runs.run_pipes(made.tagged, export, HERE))
    whole, status = runs.in_units(made.tagged, export, shape.unit)
    start = time.process_time()
    found = checked.rows(shape, whole, status)
    return rows / (time.process_time() - start), int((found.refusal > 0).sum())


def main():
    wanted = sys.argv[1] if len(sys.argv) > 1 else "all"
    for made in (sim.site(), sim.drawn_site(2, 32, 96, 64)) if wanted in ("rows", "all") else ():
        speed, refused = checked_rows(made)
        print(f"{len(made.plant.streams)} streams: {speed:,.0f} checked rows a second of processor ({refused} refused)", flush=True)
    with tempfile.TemporaryDirectory() as folder:
        home, year = Path(folder), sim.bad_year()
        sim.write_list(year.site, home / "site.csv")
        for name in [name for name in MOST if wanted in (name, "all")]:
            (lambda path: sim.write_export(year, path, separator=",") if name == "hours" else minutes(year, path))(home / "export.csv")
            size = (home / "export.csv").stat().st_size / 1e6
            seconds, memory = measured(["history", home / "site.csv", home / "export.csv", "--jobs", "1", "-o", home / "run.html", "-o", home / "rows.csv"])
            print(f"a year of {name}, {size:.0f} MB, to page and rows.csv: {seconds:.1f} s of processor (goal {MOST[name][0]}), {memory:.0f} MB (goal {MOST[name][1]})", flush=True)


if __name__ == "__main__":
    main()
