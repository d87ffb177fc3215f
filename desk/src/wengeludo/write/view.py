# SPDX-License-Identifier: LicenseRef-Wengeludo
"""A balance as plain words and numbers: what tables, pages and files show, said once."""

from __future__ import annotations

import re
from dataclasses import dataclass
from typing import Any, Dict, List, Tuple

from wengeludo_balance import Verdict

from ..balance.kind import SheetKind
from ..balance.sheet import HOW, VERDICT, Balance
from ..explain.steps import steps
from ..explain.steps import told as notes_of
from ..explain.why import overfull
from ..read.columns import COLUMNS, MORE, word
from ..read.lists import Pipe, PipeList
from .columns import HEADS, MARKED, NO_SHEET, columns, correction


@dataclass(frozen=True)
class Row:
    """A stream: the cells as texts, and the numbers behind them for sorting."""

    cells: Tuple[str, ...]
    keys: Tuple[Any, ...]
    kind: str
    mark: str

    @property
    def signed(self) -> Tuple[str, ...]:
        """The cells, with a sign before a correction that is worth a look."""
        sign = {"worst": "⚠ ", "notable": "▲ "}.get(self.mark, "")
        return tuple(sign + cell if k == MARKED and self.kind else cell for k, cell in enumerate(self.cells))


OF_THE_LIST = ("accuracy", "low", "high", "price", "rate", "floor")  # columns that files have too, so that they can be read again


def heads(balance: Balance) -> Tuple[str, ...]:
    """The columns: of a sheet, or of the ranges if there is none; then those of the user's own."""
    return (*(column.name for column in columns(balance)), *own_heads(balance.site.list))


def own_heads(pipes: PipeList) -> Tuple[str, ...]:
    """The columns of the user's own; one that is called as one of the tool's is told apart."""
    taken = {name.casefold() for name in (*HEADS, *NO_SHEET, *COLUMNS, *MORE)}
    taken |= {word(name, pipes.form.lang).casefold() for name in (*HEADS, *NO_SHEET, *COLUMNS, *MORE)}
    return tuple(f"{name} (of the list)" if name.casefold() in taken else name for name in pipes.extras)


def titles(balance: Balance) -> Tuple[str, ...]:
    """The same in the language of the list."""
    lang, own = balance.site.list.form.lang, own_heads(balance.site.list)
    return tuple(head if head in own else word(head, lang) for head in heads(balance))


def filed(balance: Balance) -> Tuple[Tuple[str, ...], List[Tuple[Any, ...]]]:
    """What files have: the titles, and a row for each stream with numbers as numbers; the columns of the list too."""
    pipes, base = balance.site.list, [column.name for column in columns(balance)]
    more = [name for name in OF_THE_LIST if name not in base and any(_listed(pipe, name) is not None for pipe in pipes.pipes)]
    own = len(pipes.extras)
    shown = titles(balance)
    heads_ = (*shown[: len(base)], *(word(name, pipes.form.lang) for name in more), *shown[len(base) :])
    table = []
    for pipe, row in zip(pipes.pipes, rows(balance)):
        keys = (row.cells[0], *row.keys[1:])
        split = len(keys) - own
        table.append((*(_round(key) for key in keys[:split]), *(_listed(pipe, name) for name in more), *keys[split:]))
    return heads_, table


def _listed(pipe: Pipe, name: str) -> Any:
    """What a column of the list has for a stream; nothing if it has nothing."""
    return {"accuracy": _stated(pipe), "low": pipe.low, "high": pipe.high, "price": pipe.price, "rate": pipe.rate, "floor": pipe.floor}[name]


def _stated(pipe: Pipe) -> Any:
    """The accuracy as the list states it, a plain number as a number."""
    return float(pipe.stated) if re.fullmatch(r"\d+(\.\d+)?", pipe.stated) else pipe.stated or None


def _round(key: Any) -> Any:
    """A number without the noise of floats."""
    return round(key, 9) if isinstance(key, float) else key


def rows(balance: Balance) -> List[Row]:
    """A row for each stream."""
    return [_row(balance, k) for k in range(len(balance.site.list.pipes))]


def _row(balance: Balance, k: int) -> Row:
    pipe, shown = balance.site.list.pipes[k], columns(balance)
    values = [column.value(balance, k) for column in shown]
    cells = (*(column.cell(balance, value) for column, value in zip(shown, values)), *pipe.extra)
    keys = (k, *values[1:], *pipe.extra)
    if balance.flowless:
        return Row(cells, keys, "", "")
    line = balance.lines[k]
    return Row(cells, keys, line.kind.value, "worst" if k in balance.worst else "notable" if line.notable else "")


def cost_text(value: float) -> str:
    """A cost or a limit: one decimal, or three figures of a small one."""
    return f"{value:,.1f}" if value >= 1 or not value else f"{value:.3g}"


def headline(balance: Balance) -> str:
    """The verdict in words."""
    if balance.refused:
        return "no sheet: the ranges cannot all be kept"
    return f"not judged: {balance.reason}" if balance.verdict is None else VERDICT[balance.verdict]


def standing(balance: Balance) -> str:
    """What the sheet says of itself beside its verdict, if it is not the engine's own."""
    return balance.kind.text if balance.kind is SheetKind.CHECKED and not balance.refused else ""


def first_line(balance: Balance) -> str:
    """The verdict in words, and what stands behind it."""
    return "; ".join(text for text in (headline(balance), standing(balance)) if text)


def whose(balance: Balance) -> str:
    """Which numbers are the engine's and which the tool's, in a line."""
    mine = "σ, test, ±: estimates of the desk tool"
    if balance.kind is SheetKind.ENGINE:
        return f"{mine}; every other number comes from the proved engine"
    return f"{mine}; flows found by it and checked by the proved engine, which deduces the others; cost and verdict worked out by it, exactly"


def summary(balance: Balance) -> str:
    """Number, cost and limit, and the greatest test value, in a line."""
    unit = f"unit {float(balance.site.unit):g} kg/h"
    if balance.flowless:
        return f"{len(balance.site.list.pipes)} streams, {unit}"
    checks = "check" if balance.degrees == 1 else "checks"
    limit = f"limit {balance.limit:,.1f} for {balance.degrees} {checks}" if balance.limit is not None else "nothing to test"
    return f"{numbered(balance)}, cost {cost_text(balance.cost)}, {limit}, {unit}{_tested(balance)}"


def _tested(balance: Balance) -> str:
    """The individual test beside the global one: the greatest test value and the value above which it is a warning."""
    if not balance.greatest:
        return ""
    return f"; greatest test value {abs(balance.lines[balance.greatest[0]].test or 0):.1f}, a warning above {balance.bound:.1f}"


def numbered(balance: Balance) -> str:
    """What a sheet is: one that an office has numbered, or one that nobody has kept."""
    if balance.kind is SheetKind.ENGINE and (balance.date or balance.total.office or balance.total.number != 1):
        return f"sheet {balance.total.number} of office {balance.total.office}"
    return "kept" if balance.date else "not kept"


def tone(balance: Balance) -> str:
    """Good, poor or bad."""
    if balance.refused or balance.verdict is Verdict.FAIL:
        return "bad"
    return "good" if balance.verdict is Verdict.PASS else "poor"


def document(balance: Balance) -> Dict[str, Any]:
    """Everything, for programs."""
    site = balance.site
    told: Dict[str, Any] = {
        "site": site.list.name, "kind": balance.kind.value, "unit_kg_per_hour": float(site.unit), "verdict": headline(balance).split(":")[0],
        "next": steps(balance), "notes": notes_of(balance),
    }
    if balance.refused:
        told |= {"refusal": 19, "overfull": [site.place(p) for p in sorted(balance.marked)], "why": overfull(balance)}
    elif not balance.flowless:
        told |= {"cost": balance.cost, "limit": balance.limit, "degrees": balance.degrees, "estimates": ["sigmas", "test", "deviation"]}
        told["test_bound"] = round(balance.bound, 3) if balance.greatest else None
    told |= _standing(balance)
    told["streams"] = [_entry(balance, k) for k in range(len(site.list.pipes))]
    return told


def _standing(balance: Balance) -> Dict[str, Any]:
    """What only one kind of sheet has: the engine's number; the sentence and the exact cost of checked flows; why it is not judged."""
    if balance.kind is SheetKind.UNJUDGED:
        return {"not_judged": balance.reason}
    if balance.refused:
        return {}
    if balance.kind is SheetKind.CHECKED:
        return {"checked": standing(balance), "cost_exact": str(balance.exact_cost)}
    return {"office": balance.total.office, "sheet": balance.total.number, "cost_thousandths": balance.total.cost}


def _entry(balance: Balance, k: int) -> Dict[str, Any]:
    site, pipe = balance.site, balance.site.list.pipes[k]
    entry: Dict[str, Any] = {
        "stream": pipe.label, "what": pipe.what, "from": site.place(pipe.source), "to": site.place(pipe.target), "reading": pipe.reading,
        "accuracy": pipe.stated or None, "low": pipe.low, "high": pipe.high,
    }
    if balance.lines:
        line = balance.lines[k]
        moved = correction(line)
        entry |= {
            "class": line.kind.value, "how": HOW[line.kind], "balanced": line.flow, "correction": moved,
            "sigmas": None if moved is None or line.sigmas is None else round(line.sigmas, 3),
            "test": None if line.test is None else round(abs(line.test), 3), "deviation": None if line.spread is None else round(line.spread, 3), "held": line.held,
        }
    return entry | ({"columns": dict(zip(site.list.extras, pipe.extra))} if site.list.extras else {})
