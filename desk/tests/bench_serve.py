#!/usr/bin/python3
# SPDX-License-Identifier: LicenseRef-Wengeludo
"""How quick the desk is in a browser: start, what-ifs in chromium, what-ifs a second with four clients, bytes of a page.

    python3 desk/tests/bench_serve.py [WHAT-IFS]      by default 200

Goals: start under 2 s; what-if at 26 streams under 50 ms in the median and 150 in the worst, at 96 under 100 in the median; workbench at most
100 KB, 250 at 96 streams; 100 what-ifs a second with four clients. The time of a what-if is from the request to the answer in the browser.
"""

import random
import sys
import tempfile
import threading
import time
import urllib.request
from pathlib import Path

sys.path.insert(0, str(Path(__file__).parent))
from served import Served, browser, missing, wait  # noqa: E402

SAMPLES = Path(__file__).resolve().parents[1] / "samples"


def large(path, streams=96, units=30):
    """A list of 96 streams whose flows balance, three of four metered, each read with some noise."""
    draw = random.Random(7)
    ends = [(k, draw.randrange(k)) for k in range(1, units + 1)]  # a tree, the leaves last
    ends += [tuple(draw.sample(range(units + 1), 2)) for _ in range(streams - units)]
    flows = [0] * units + [draw.randint(500, 9000) for _ in range(streams - units)]
    for k in range(units, 0, -1):
        flows[k - 1] = sum(flow if target == k else -flow for (source, target), flow in zip(ends, flows) if k in (source, target) and flow)
    rows = ["stream,what,from,to,reading,accuracy"]
    for k, ((source, target), flow) in enumerate(zip(ends, flows), 1):
        source, target, flow = (source, target, flow) if flow >= 0 else (target, source, -flow)
        names = ["outside" if place == 0 else f"unit {place}" for place in (source, target)]
        meter = f"{flow + draw.gauss(0, 20):.0f},20" if k % 4 else ","
        rows.append(f"{k},stream {k} of the large site,{names[0]},{names[1]},{meter}")
    path.write_text("\n".join(rows) + "\n")
    return path


def whatifs(page, count):
    """Milliseconds of so many what-ifs, each a reading typed into the first field."""
    page.execute_script("performance.setResourceTimingBufferSize(5000); performance.clearResourceTimings()")
    name = page.execute_script("return document.querySelector('input.reading:not([placeholder])').name")
    page.set_script_timeout(300)
    page.execute_async_script(
        """
        const [name, count, done] = arguments, field = document.querySelector(`input.reading[name=${name}]`), base = Number(field.dataset.base);
        let k = 0;
        const next = () => {
          if (k >= count) { done(); return; }
          const value = String(base + 1 + k++);
          const seen = new MutationObserver(() => {
            if (!document.querySelector('#band').textContent.replace(/\\u202f/g, '').includes(value)) return;
            seen.disconnect();
            setTimeout(next, 10);
          });
          seen.observe(document.querySelector('#band'), { childList: true, subtree: true });
          field.value = value;
          field.dispatchEvent(new Event('input', { bubbles: true }));
        };
        next();
        """, name, count)
    return sorted(page.execute_script("return performance.getEntriesByType('resource').filter(e => e.name.includes('/list/')).map(e => e.duration)"))


def clients(served, path, seconds=5.0, count=4):
    """What-ifs a second with so many clients."""
    done = [0] * count

    def work(k):
        end = time.monotonic() + seconds
        while time.monotonic() < end:
            ask = urllib.request.Request(f"{served.root}{path}?r9={7000 + done[k] * count + k}", headers={"X-Part": "1", "Cookie": f"wengeludo={served.key}"})
            urllib.request.urlopen(ask).read()
            done[k] += 1

    threads = [threading.Thread(target=work, args=(k,)) for k in range(count)]
    began = time.monotonic()
    [one.start() for one in threads]
    [one.join() for one in threads]
    return sum(done) / (time.monotonic() - began)


def main():
    count = int(sys.argv[1]) if len(sys.argv) > 1 else 200
    if missing():
        sys.exit(f"bench_serve: {missing()}")
    with tempfile.TemporaryDirectory() as folder:
        began = time.monotonic()
        served = Served(Path(folder) / "site.book")
        print(f"start: {time.monotonic() - began:.2f} s")
        page = browser()
        try:
            page.get(served.address)
            for name, path in (("26 streams", SAMPLES / "steam_site_off.csv"), ("96 streams", large(Path(folder) / "large.csv"))):
                page.get(f"{served.root}/")
                page.find_element("id", "list").send_keys(str(path))
                page.find_element("css selector", ".upload button").click()
                wait(lambda: "/list/" in page.current_url, 30)
                size = page.execute_script("return performance.getEntriesByType('navigation')[0].encodedBodySize")
                times = whatifs(page, count)
                print(f"{name}: workbench {size:,} bytes; {len(times)} what-ifs: median {times[len(times) // 2]:.0f} ms, worst {times[-1]:.0f}")
            print(f"4 clients: {clients(served, '/list/1'):.0f} what-ifs a second")
        finally:
            page.quit()
            served.stop()


if __name__ == "__main__":
    main()
