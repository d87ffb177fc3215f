# SPDX-License-Identifier: LicenseRef-Wengeludo
"""A server of the desk and a browser for the tests: started by them, on loopback, in a temporary folder, and stopped by them."""

import os
import re
import shutil
import signal
import socket
import subprocess
import sys
import time
import urllib.request

CHROMIUM = os.environ.get("CHROMIUM") or "chromium"


def missing():
    """What a browser's test lacks on this machine; empty if nothing."""
    if CHROMIUM == "none":
        return "no browser is wanted (CHROMIUM=none)"
    lacking = [name for name in (CHROMIUM, "chromedriver") if not shutil.which(name)]
    for module in ("selenium", "flask", "waitress"):
        try:
            __import__(module)
        except ImportError:
            lacking.append(module)
    return f"no {', '.join(lacking)}" if lacking else ""


def free_port():
    with socket.socket() as probe:
        probe.bind(("127.0.0.1", 0))
        return probe.getsockname()[1]


class Served:
    """`wengeludo serve` over a book; `address` has the key."""

    def __init__(self, book, port=None, *words):
        self.book, self.port, self.words = str(book), port or free_port(), words
        self.start()

    def start(self):
        command = [sys.executable, "-m", "wengeludo", "serve", self.book, "--port", str(self.port), *self.words]
        self.process = subprocess.Popen(command, stdout=subprocess.PIPE, stderr=subprocess.DEVNULL, text=True, env={**os.environ, "XDG_STATE_HOME": f"{self.book}.state"})
        self.address = re.search(r"http://\S+", self.process.stdout.readline())[0]
        self.root = self.address.split("?")[0].rstrip("/")
        self.key = self.address.partition("key=")[2]
        self._answers()

    def _answers(self, seconds=30):
        end = time.monotonic() + seconds
        while time.monotonic() < end:
            try:
                return urllib.request.urlopen(f"{self.root}/health", timeout=1).read()
            except OSError:
                time.sleep(0.02)
        raise AssertionError("the server does not answer")

    def kill(self):
        self.process.send_signal(signal.SIGKILL)
        self.process.wait()

    def stop(self):
        if self.process.poll() is None:
            self.process.terminate()
            self.process.wait(10)


def browser(width=1400, height=1000):
    """A headless browser; its console is kept."""
    from selenium import webdriver
    from selenium.webdriver.chrome.options import Options
    from selenium.webdriver.chrome.service import Service

    options = Options()
    options.binary_location = shutil.which(CHROMIUM)
    for word in ("--headless=new", "--no-sandbox", "--disable-gpu", "--disable-dev-shm-usage", "--lang=en", f"--window-size={width},{height}"):
        options.add_argument(word)
    options.set_capability("goog:loggingPrefs", {"browser": "ALL", "performance": "ALL"})
    return webdriver.Chrome(service=Service(shutil.which("chromedriver")), options=options)


def wait(test, seconds=30.0):
    """What a test gives once it is true."""
    end = time.monotonic() + seconds
    while time.monotonic() < end:
        try:
            found = test()
            if found:
                return found
        except Exception:  # the page is being replaced
            pass
        time.sleep(0.01)
    raise AssertionError("waited in vain")
