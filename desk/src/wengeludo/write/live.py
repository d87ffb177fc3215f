# SPDX-License-Identifier: LicenseRef-Wengeludo
"""The part of a page that recomputes by itself: the engine's WebAssembly in the page, for readings that are tried and not kept."""

from __future__ import annotations

import base64
import gzip
import json
import os
from pathlib import Path
from typing import Any, Dict

from jinja2 import Environment, PackageLoader, select_autoescape
from markupsafe import Markup

from ..balance.kind import SheetKind
from ..balance.limits import CRITICAL
from ..balance.sheet import HOW, VERDICT, Balance
from ..read.faults import Stopped

HERE = Path(__file__).resolve().parent
ENGINE = HERE / "engine"  # where an installed tool has both files
ROOT = HERE.parents[3]
HOW_TO = "build it with `bash packaging/cross/build.sh wasm32 target/cross/wengeludo.wasm`, or name it in WENGELUDO_WASM"


def _first(what: str, *paths: Path) -> Path:
    """The first of these files that is there."""
    for path in paths:
        if path.is_file():
            return path
    raise Stopped(f"--live: no {what}: {HOW_TO}")


def module() -> bytes:
    """The engine's WebAssembly module."""
    named = os.environ.get("WENGELUDO_WASM")
    paths = (Path(named),) if named else (ENGINE / "wengeludo.wasm", ROOT / "target" / "cross" / "wengeludo.wasm")
    return _first("WebAssembly module of the engine", *paths).read_bytes()


def binding() -> str:
    """The JavaScript module over it."""
    return _first("JavaScript module", ENGINE / "wengeludo.js", ROOT / "bindings" / "js" / "wengeludo.js").read_text(encoding="utf-8")


def given(balance: Balance) -> Dict[str, Any]:
    """What the page hands to the engine, and the words for what the engine says; Stopped if the sheet is not the engine's own."""
    if balance.kind is not SheetKind.ENGINE:
        raise Stopped("--live: the engine in the page draws its own sheet only, and that of this list does not stand: a page without --live would do")
    site = balance.site
    streams = [
        {"from": s.source, "to": s.target, "weight": s.weight, "reading": s.reading if s.metered else None, "low": s.low, "high": s.high,
         "label": pipe.label, "what": pipe.what, "text": "" if pipe.reading is None else f"{pipe.reading:.{max(4, site.decimals)}f}".rstrip("0").rstrip(".")}
        for s, pipe in zip(site.plant.streams, site.list.pipes)
    ]
    return {
        "units": site.plant.units, "places": list(site.list.places), "unit": [site.unit.numerator, site.unit.denominator],
        "decimals": site.decimals, "streams": streams, "critical": CRITICAL, "how": {kind.value: text for kind, text in HOW.items()},
        "verdict": {verdict.name.lower(): text for verdict, text in VERDICT.items()},
    }


def compact(script: str) -> str:
    """A script without its indentation and the lines that are comments alone; no text of it goes over several lines."""
    lines = (line.strip() for line in script.splitlines())
    return "\n".join(line for line in lines if line and not line.startswith("//") and not (line.startswith("/**") and line.endswith("*/")))


def scripted(value: Any) -> Markup:
    """A value as JSON that may stand in a script of a page, whatever texts are in it."""
    return Markup(json.dumps(value, ensure_ascii=False, separators=(",", ":")).replace("<", "\\u003c").replace("\u2028", "\\u2028").replace("\u2029", "\\u2029"))


def section(balance: Balance) -> Markup:
    """The section of a page, with the engine in it. Stopped if the engine's WebAssembly is not there."""
    environment = Environment(loader=PackageLoader("wengeludo.write"), autoescape=select_autoescape(), trim_blocks=True, lstrip_blocks=True)
    return Markup(environment.get_template("live.html").render(
        given=scripted(given(balance)), wasm=base64.b64encode(gzip.compress(module(), 9, mtime=0)).decode(), binding=Markup(compact(binding())),
        script=Markup(compact(environment.get_template("live.js").render())), unit=f"{float(balance.site.unit):g}",
    ))
