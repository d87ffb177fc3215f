# SPDX-License-Identifier: LicenseRef-Wengeludo
"""A page from file: with the engine inside, in Chromium: it draws the sheet of every sample, as samples/*.expected have it.

    python3 bindings/js/tests/browser.py MODULE.wasm     CHROMIUM names the browser (default: chromium)
"""

import base64
import json
import os
import re
import subprocess
import sys
import tempfile
from pathlib import Path

ROOT = Path(__file__).resolve().parents[3]
SCRIPT = """
const bytes = (text) => Uint8Array.from(atob(text), (letter) => letter.charCodeAt(0));
const said = {}, ticking = setInterval(() => {}, 5); // so that the browser's own clock waits for the engine
const engine = await load(bytes(WASM));
for (const [name, file] of Object.entries(FILES)) {
    try {
        said[name] = String(engine.balance(bytes(file)));
    } catch (refusal) {
        said[name] = `refused ${refusal.number}\\n`;
    }
}
clearInterval(ticking);
document.body.textContent = JSON.stringify(said);
"""


def page(wasm: bytes, files: dict) -> str:
    """A page of one file: the binding, the WebAssembly in base64, and the script above."""
    given = {name: base64.b64encode(file).decode() for name, file in files.items()}
    words = f"const WASM = {json.dumps(base64.b64encode(wasm).decode())}, FILES = {json.dumps(given)};"
    binding = (ROOT / "bindings" / "js" / "wengeludo.js").read_text(encoding="utf-8")
    return f'<!doctype html><meta charset="utf-8"><body>nothing yet<script type="module">{binding}\n{words}\n{SCRIPT}</script>'


def shown(path: Path) -> str:
    """What the page's body says once its script has run."""
    browser = os.environ.get("CHROMIUM") or "chromium"
    words = ["--headless", "--no-sandbox", "--disable-gpu", "--virtual-time-budget=20000000", "--dump-dom", path.as_uri()]
    text = subprocess.run([browser, *words], capture_output=True, text=True, timeout=120, check=True).stdout
    return re.search(r"<body>(.*?)</body>", text, re.S)[1]


def main() -> None:
    samples = ROOT / "samples"
    expected = {path.stem: path.read_text(encoding="utf-8") for path in sorted(samples.glob("*.expected"))}
    files = {name: (samples / f"{name}.bin").read_bytes() for name in expected}
    with tempfile.TemporaryDirectory() as folder:
        path = Path(folder) / "page.html"
        path.write_text(page(Path(sys.argv[1]).read_bytes(), files), encoding="utf-8")
        body = shown(path)
    if not body.startswith("{") or json.loads(body) != expected:
        sys.exit(f"browser: the page shows {body[:400]}")
    print(f"browser: a page from file: draws the {len(files)} sheets of the samples")


if __name__ == "__main__":
    main()
