# SPDX-License-Identifier: LicenseRef-Wengeludo
"""Draws by many processes at once: rates beside the book of version 1, and draws under SIGKILL, cut connections and a server that stops.

    python3 desk/tests/draws.py rates [PROCESSES [DRAWS]]    three books in one run: version 1, a file, a server (if this machine has one)
    python3 desk/tests/draws.py check [SHEETS]               how long the check of a whole book takes
    python3 desk/tests/draws.py worker ...                   one of the processes
"""

import json
import os
import random
import signal
import subprocess
import sys
import tempfile
import threading
import time
from pathlib import Path

HERE = Path(__file__).resolve().parent
SAMPLE = HERE.parent / "samples" / "steam_site.csv"


def worker(where, k, count, told, chance):
    """Draws `count` sheets, each with its key, and tells each number in a file; goes on where an earlier process of this name was ended."""
    from wengeludo.balance.site import read_site
    from wengeludo.keep.store import patiently

    site, acks = read_site(SAMPLE), open(told, "a+")
    acks.seek(0)
    done = {json.loads(line)[0] for line in acks.read().splitlines() if line.endswith("]")}
    keep = patiently(lambda: _keeper(where, site, k, chance), 60)
    print("ready", flush=True)
    sys.stdin.readline()
    slowest, began = 0.0, time.time()
    for j in range(count):
        key = f"w{k}-{j}"
        if key in done:
            continue
        office, at = random.Random(key).randrange(8), time.perf_counter()
        number = patiently(lambda: keep(key, office), 60)
        slowest = max(slowest, time.perf_counter() - at)
        acks.write(json.dumps([key, office, number]) + "\n")
        acks.flush()
    print(json.dumps([began, time.time(), slowest]), flush=True)


def _keeper(where, site, k, chance):
    """What draws one sheet, by its key and office."""
    if where.startswith("version1:"):
        import version1

        old = version1.Book(Path(where[9:]), make=True)
        return lambda key, office: old.keep([(site, key)], office)[0]
    from wengeludo.keep.book import Book, Draft

    book = Book(where)
    plain = book.store.run

    def run(*words):
        if random.random() < chance:
            os.kill(os.getpid(), signal.SIGKILL)
        found = plain(*words)
        if random.random() < chance:
            os.kill(os.getpid(), signal.SIGKILL)
        return found

    if chance:
        book.store.run = run
    return lambda key, office: book.keep_one(Draft(site, "load", "", f"worker {k}", key), office).number


def start(where, k, count, folder, chance=0.0):
    words = [sys.executable, str(HERE / "draws.py"), "worker", where, str(k), str(count), str(folder / str(k)), str(chance)]
    return subprocess.Popen(words, stdin=subprocess.PIPE, stdout=subprocess.PIPE, text=True, env={**os.environ, "PYTHONPATH": f"{HERE}:{os.environ.get('PYTHONPATH', '')}"})


def rate(where, processes, count, folder):
    """Draws a second by so many processes at once, and the slowest draw, in seconds."""
    running = [start(where, k, count, folder) for k in range(processes)]
    for one in running:
        one.stdout.readline()
    for one in running:
        one.stdin.write("\n")
        one.stdin.flush()
    spans = [json.loads(one.stdout.readline()) for one in running]
    for one in running:
        one.wait()
    return processes * count / (max(s[1] for s in spans) - min(s[0] for s in spans)), max(s[2] for s in spans)


def killed(where, processes, count, folder, chance=0.0, kills=0, harm=None):
    """Draws by processes that are killed, at statements by chance or from outside, and started again until all is drawn; how many kills.
    `harm` is done to the server meanwhile, again and again."""
    rng, done, ended = random.Random(7), threading.Event(), 0
    hurting = threading.Thread(target=_harm, args=(harm, done, 0.4 if count >= 100 else 0.03))  # a few draws are soon over
    if harm:
        hurting.start()
    running = {k: _go(start(where, k, count, folder, chance)) for k in range(processes)}
    while running:
        time.sleep(rng.uniform(0.02, 0.15))
        victim = rng.choice(sorted(running)) if ended < kills else None
        if victim is not None and running[victim].poll() is None:
            running[victim].kill()
        for k, one in list(running.items()):
            status = one.poll()
            if status is None:
                continue
            assert status in (0, -9), f"a worker ended with {status}"
            ended += status == -9
            del running[k]
            if status:
                running[k] = _go(start(where, k, count, folder, chance if ended < 40 * processes else 0.0))
    done.set()
    if harm:
        hurting.join()
    return ended


def _go(process):
    try:
        process.stdin.write("\n")
        process.stdin.flush()
    except BrokenPipeError:
        pass
    return process


def _harm(harm, done, pause):
    while not done.wait(pause):
        harm()


def lost(where, folder):
    """What was told and is not in the book, or stands there otherwise; how many were told."""
    from wengeludo.keep.book import Book

    told = [json.loads(line) for path in folder.iterdir() for line in path.read_text().splitlines() if line.endswith("]")]
    with Book(where) as book:
        rows = {request: (office, number) for office, number, request in book.store.run("SELECT office, number, request FROM sheets")}
    return [one for one in told if rows.get(one[0]) != tuple(one[1:])], len({one[0] for one in told})


def forced_out(folder):
    """Milliseconds in which the disk of a folder forces a small write out: the median of 31."""
    spans, handle = [], os.open(folder / "forced", os.O_CREAT | os.O_WRONLY)
    for _ in range(31):
        os.write(handle, bytes(4096))
        began = time.perf_counter()
        os.fsync(handle)
        spans.append((time.perf_counter() - began) * 1e3)
    os.close(handle)
    return sorted(spans)[15]


def rates(processes=8, count=100):
    """Prints the rates of version 1, of a file and of a server, in one run."""
    import servers
    from wengeludo.keep.book import Book

    server = None if servers.missing() else servers.Server()
    try:
        with tempfile.TemporaryDirectory(dir=os.environ.get("WENGELUDO_LOAD_FOLDER")) as name:
            folder, found = Path(name), {}
            found["forced out"] = forced_out(folder)
            print(f"\nthe disk forces a write out in {found['forced out']:.1f} ms", flush=True)
            books = {"version 1": f"version1:{folder}/old.book", "SQLite": f"{folder}/new.book", **({"PostgreSQL": server.fresh()} if server else {})}
            for title, where in books.items():
                (folder / title).mkdir()
                if title != "version 1":
                    Book(where, make=True).close()
                found[title] = rate(where, processes, count, folder / title)
                print(f"{title}: {processes} processes x {count} draws: {found[title][0]:.0f} a second, {found[title][0] / found['version 1'][0]:.1f} times version 1, "
                      f"slowest {found[title][1]:.2f} s", flush=True)
            return found
    finally:
        if server:
            server.end()


def checked(count=100_000):
    """Prints how long the check of a book in a file takes."""
    from wengeludo.balance.site import read_site
    from wengeludo.keep.book import Book, Draft
    from wengeludo.keep.check import check

    site = read_site(SAMPLE)
    with tempfile.TemporaryDirectory() as name, Book(f"{name}/a.book", make=True) as book:
        for k in range(count // 500):
            book.keep([Draft(site, "x") for _ in range(500)], k % 8)
        began, wall = time.process_time(), time.time()
        faults = check(book)
        print(f"{sum(book.lasts()):,} sheets, {len(faults)} faults: {time.process_time() - began:.1f} s of processor time, {time.time() - wall:.1f} s on the clock")


if __name__ == "__main__":
    if sys.argv[1] == "worker":
        worker(sys.argv[2], sys.argv[3], int(sys.argv[4]), sys.argv[5], float(sys.argv[6]))
    else:
        {"rates": rates, "check": checked}[sys.argv[1]](*map(int, sys.argv[2:]))
