# SPDX-License-Identifier: LicenseRef-Wengeludo
"""Histories of a folder of sites: a line for each, faults are lines, a run that was cut off goes on, workers that are killed change nothing."""

import csv
import io
import itertools
import json
import shutil
import signal
import subprocess
import sys
import threading
import time

import openpyxl
import pytest
import simulator as sim

from wengeludo.history import sites
from wengeludo.history.command import Options


@pytest.fixture(scope="session")
def folder(tmp_path_factory):
    """Three sites: a year's first weeks, ten weeks with a finding, and one whose export is cut off."""
    home, year = tmp_path_factory.mktemp("sites"), sim.bad_year()
    for name, rows in (("east", slice(0, 1000)), ("north", slice(2300, 4200)), ("west", slice(0, 200))):
        (home / name).mkdir()
        sim.write_list(year.site, home / name / "list.csv")
        sim.write_export(year, home / name / "export.csv", rows, separator=",")
    with open(home / "west" / "export.csv", "a") as file:
        file.write("2025-01-09T08:00:00Z,1.0")
    return home


def lines(path):
    with open(path, encoding="utf-8-sig", newline="") as file:
        return list(csv.DictReader(file))


def tables(home):
    return {path.relative_to(home).as_posix(): path.read_bytes() for path in sorted(home.rglob("*.csv"))}


def test_a_line_for_each_site_and_its_tables_beside(run, folder, tmp_path):
    ended = run("histories", folder, "-o", tmp_path / "all.csv", "--jobs", "2")
    assert ended.status == 3 and "3 sites: 1 with findings, 1 with faults: west" in ended.out
    told = lines(tmp_path / "all.csv")
    assert [line["site"] for line in told] == ["east", "north", "west"] and told[0]["rows"] == "1000" and told[1]["findings"] == "1"
    assert told[2]["fault"].startswith("west/export.csv") and "the export is cut off" in told[2]["fault"] and "9 steam from boiler 2" in told[1]["first finding (estimate)"]
    rows = lines(tmp_path / "all.sites" / "north" / "rows.csv")
    assert int(told[1]["rows"]) == len(rows) >= int(told[1]["tested"]) > int(told[1]["fail"]) == sum(row["verdict"] == "fail" for row in rows) > 0
    assert (tmp_path / "all.sites" / "north" / "run.html").stat().st_size < 200_000


def test_bills_overrides_and_the_check_of_every_site(run, folder, tmp_path):
    home = tmp_path / "sites"
    for name in ("east", "west"):
        shutil.copytree(folder / "east", home / name)
    (home / "east" / "Overrides.csv").write_text("stream,from,to,status,why\n9,2025-01-10,2025-01-12,fault,replaced\n")
    words = ("-o", tmp_path / "all.csv", "--jobs", "1", "--certify", "--bill", "2025-01", "--bill", "2025-02")
    assert run("histories", home, *words).status == 0
    plain = {line["site"]: line for line in lines(tmp_path / "all.csv")}
    assert {line["charged by"] for line in plain.values()} == {"tool"} and plain["east"]["cents"] == plain["west"]["cents"]
    bill = lines(tmp_path / "all.sites" / "east" / "bill.csv")
    assert int(plain["east"]["cents"]) == sum(int(row["cents"]) for row in bill if row["stream"] == "all") > 100_000 and {row["month"] for row in bill} == {"2025-01", "2025-02"}
    assert {line["sheets that pass the check"] for line in plain.values()} == {"1000"}
    assert {row["check"] for row in lines(tmp_path / "all.sites" / "east" / "rows.csv")} == {"passes"}
    assert run("histories", home, *words, "--overrides").status == 0
    told = {line["site"]: line for line in lines(tmp_path / "all.csv")}
    assert told["west"] == plain["west"] and told["east"] != plain["east"]
    classes = [row["classes"] for row in lines(tmp_path / "all.sites" / "east" / "rows.csv")]
    assert all((row[8] == "G") == (216 <= hour < 264) for hour, row in enumerate(classes))
    assert run("history", home / "east" / "list.csv", home / "east" / "export.csv", "--overrides", home / "east" / "Overrides.csv", "--bill", "2025-01",
               "--bill", "2025-02", "--certify", "-o", f"{tmp_path}/one/").status == 0
    assert tables(tmp_path / "one") == tables(tmp_path / "all.sites" / "east")


def test_a_run_that_was_cut_off_goes_on(folder, tmp_path, monkeypatch):
    made = []
    monkeypatch.setattr(sites, "executor", lambda cluster, jobs: _Here(made, 1))
    runs = sites.Runs(folder, tmp_path / "all.csv", Options())
    with pytest.raises(KeyboardInterrupt):
        runs.run()
    assert made == ["east"] and not (tmp_path / "all.csv").exists()
    monkeypatch.setattr(sites, "executor", lambda cluster, jobs: _Here(made, 9))
    told, before = runs.run()
    assert before == 1 and made == ["east", "north", "west"] and len(told) == 3
    assert runs.run()[1] == 3 and len(made) == 3
    other = sites.Runs(folder, tmp_path / "all.csv", Options(every="2h"))
    assert other._before(folder / "east") is None


class _Here:
    """Runs tasks here and now; after so many it is cut off."""

    def __init__(self, made, most):
        self.made, self.most = made, most

    def __enter__(self):
        return self

    def __exit__(self, *_):
        return False

    def submit(self, task, name, *words):
        from concurrent.futures import Future

        future = Future()
        if self.most:
            self.most -= 1
            self.made.append(name)
            future.set_result(task(name, *words))
        else:
            future.set_exception(KeyboardInterrupt())
        return future


def workbook(*rows):
    book, file = openpyxl.Workbook(), io.BytesIO()
    for row in rows:
        book.active.append(row)
    book.save(file)
    return file.getvalue()


@pytest.mark.parametrize("name, data, is_list", [
    ("list.csv", "\ufeffstream;from;to;reading\n1;a;b;2\n".encode(), True), ("list.CSV", b"from\tto\treading\na\tb\t1\n", True), ("list.csv", b"from,to,reading\n", True),
    ("export.csv", b"time,1,2\n2025-01-01,3,4\n", False), ("late.csv", b"a title\n" * 49 + b"from,to,reading\n", True), ("late.csv", b"a title\n" * 50 + b"from,to,reading\n", False),
    ("list.xlsx", workbook(["from", "to", "reading"], ["a", "b", 1]), True), ("export.xlsx", workbook(["time", "1"], ["2025-01-01", 3]), False),
    ("late.xlsx", workbook(*[["a title"]] * 49, ["from", "to", "reading"]), True), ("late.xlsx", workbook(*[["a title"]] * 50, ["from", "to", "reading"]), False),
    ("none.xlsx", b"no workbook", False),
], ids=itertools.count())
def test_which_table_of_a_site_is_its_list(name, data, is_list):
    """One with from and to in its first 50 lines."""
    told = sites.task("site", {name: data, "other.csv": b"from,to,reading\n"}, Options()).cells[-1]
    assert told.startswith("it has 2 lists (tables with from and to) and 0 other tables") if is_list else not told.startswith("it has"), told


def test_wrong_use(run, tmp_path, listed):
    (tmp_path / "none").mkdir()
    assert "it has no folder" in run("histories", tmp_path / "none").err
    assert run("histories", tmp_path / "absent").status == 1
    (tmp_path / "none" / "site").mkdir()
    assert run("histories", tmp_path / "none", "-o", tmp_path / "all.csv").status == 1
    assert "one list and at least one export" in lines(tmp_path / "all.csv")[0]["fault"]
    assert "is a .csv file" in run("histories", tmp_path / "none", "-o", tmp_path / "all.xlsx").err
    for words, told in ((("--bill", "July"), "2025-07 would do"), (("--zone", "Nowhere"), "no such time zone"), (("--every", "fortnight"), "1h, 15min")):
        ended = run("histories", tmp_path / "none", *words, "-o", tmp_path / "wrong.csv")
        assert ended.status == 1 and told in ended.err and not (tmp_path / "wrong.csv").exists()


def _started(words, log):
    return subprocess.Popen([sys.executable, "-m", *words], stdout=log, stderr=log, start_new_session=True)


def _killed_at_work(address, worker):
    """Kills the first worker as soon as it has a task, when the second is there too."""
    from distributed import Client

    with Client(address, set_as_default=False) as client:
        for _ in range(1200):
            names = {at: about["name"] for at, about in client.scheduler_info()["workers"].items()}
            busy = [names.get(at) for at, tasks in client.processing().items() if tasks]
            if len(names) == 2 and "first" in busy:
                break
            time.sleep(0.05)
        worker.kill()


def test_a_worker_that_is_killed_changes_no_table(run, folder, tmp_path):
    """A scheduler and two workers on loopback; one worker is killed while it works."""
    pytest.importorskip("distributed", reason="no histories on a cluster are tested: there is no dask.distributed (apt-get install python3-distributed)")
    assert run("histories", folder, "-o", tmp_path / "here.csv", "--jobs", "1").status == 3
    log, started = open(tmp_path / "log", "w+"), []
    try:
        started.append(_started(["distributed.cli.dask_scheduler", "--host", "127.0.0.1", "--port", "0", "--no-dashboard", "--scheduler-file", str(tmp_path / "s.json")], log))
        for _ in range(300):
            if (tmp_path / "s.json").exists():
                break
            time.sleep(0.1)
        else:
            pytest.skip("no scheduler within 30 s")
        address = json.loads((tmp_path / "s.json").read_text())["address"]
        quiet = ["--no-dashboard", "--no-nanny", "--nthreads", "1", "--local-directory", str(tmp_path)]
        started += [_started(["distributed.cli.dask_worker", address, *quiet, "--name", name], log) for name in ("first", "second")]
        killer = threading.Thread(target=_killed_at_work, args=(address, started[1]))
        killer.start()
        ended = run("histories", folder, "-o", tmp_path / "there.csv", "--cluster", address)
        assert ended.status == 3, ended
        killer.join(60)
        assert started[1].wait(30) == -signal.SIGKILL
        assert (tmp_path / "there.csv").read_bytes() == (tmp_path / "here.csv").read_bytes()
        assert tables(tmp_path / "there.sites") == tables(tmp_path / "here.sites")
    finally:
        for one in started:
            if one.poll() is None:
                one.kill()
            one.wait()
        log.close()
