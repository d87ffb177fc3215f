# SPDX-License-Identifier: LicenseRef-Wengeludo
"""A sheet as an engineer reads it: flows by name beside the readings, their kind, and the limit of the test."""

from __future__ import annotations

from dataclasses import dataclass, field, replace
from fractions import Fraction
from functools import cached_property
from typing import Any, Callable, Dict, FrozenSet, List, Optional, Sequence, Tuple, TypeVar

import wengeludo_balance as engine
from wengeludo_balance import Kind, Record, Verdict

from ..read.lists import Pipe, PipeList
from . import individual, wide
from .checked import Checked
from .exact import exacts_of
from .kind import SheetKind
from .limits import critical
from .site import Site, wide_site
from .spread import at_end, spreads

T = TypeVar("T")
HOW = {
    Kind.ADJUSTED: "metered, checked and corrected",
    Kind.AS_READ: "metered, as read: no other meter checks it",
    Kind.GIVEN: "deduced from meters",
    Kind.WITHHELD: "not known",
}
SHORT = {Kind.ADJUSTED: "corrected", Kind.AS_READ: "as read, unchecked", Kind.GIVEN: "deduced", Kind.WITHHELD: "not known"}
VERDICT = {
    Verdict.PASS: "pass: the meters agree",
    Verdict.FAIL: "fail: the meters contradict each other",
    Verdict.NONE: "none: no meter is checked by another",
    Verdict.CLOSE: "close: rounding to whole units may alone have taken it above the limit",
}
NEAR = Fraction(1, 100)  # the square of a tenth of a deviation: so near is the engine's own flow if its sheet stands
SHARE = Fraction(1, 100)  # of the limit or the cost, the larger: so near is its cost


def sigmas(value: Optional[float]) -> str:
    """A correction in deviations as texts show it."""
    text = f"{value or 0:+.1f}".replace("-", "−")
    return "0.0" if text in ("+0.0", "−0.0") else text


@dataclass(frozen=True)
class Line:
    """A stream of a sheet, in kg/h. `sigmas`, `spread` and `test` are the tool's own estimates: the correction in deviations of the meter
    as the list gives them, one deviation of the flow, and the correction over its own deviation."""

    pipe: Pipe
    kind: Kind
    flow: Optional[float]
    correction: Optional[float] = None
    sigmas: Optional[float] = None
    spread: Optional[float] = None
    held: Optional[str] = None
    test: Optional[float] = None

    @property
    def notable(self) -> bool:
        return self.test is not None and abs(self.test) > individual.MARKED


@dataclass(frozen=True)
class Balance:
    """The sheet of a site and its kind, or the places that a refusal 19 marks. `sheet` is the engine's: its own, or the classes, degrees
    and deduced flows of the checked ones."""

    site: Site
    lines: Tuple[Line, ...] = ()
    sheet: Optional[engine.Sheet] = None
    drawn: bytes = b""  # the bytes of the engine's own sheet
    marked: FrozenSet[int] = frozenset()
    date: str = ""  # when it was kept
    kind: SheetKind = SheetKind.ENGINE
    checked: Optional[Checked] = None
    reason: str = ""  # why it is not judged
    memo: Dict[str, Any] = field(default_factory=dict, init=False, compare=False, repr=False)

    @property
    def refused(self) -> bool:
        """Whether no flow keeps within all ranges."""
        return self.sheet is None and self.kind is not SheetKind.UNJUDGED

    @property
    def flowless(self) -> bool:
        """Whether there are no flows to show."""
        return self.sheet is None

    @property
    def total(self) -> engine.Sheet:
        """The engine's own sheet."""
        assert self.sheet is not None and self.kind is SheetKind.ENGINE
        return self.sheet

    @property
    def verdict(self) -> Optional[Verdict]:
        """The verdict; none if there is no sheet, or if it is not judged."""
        if self.kind is SheetKind.UNJUDGED or self.sheet is None:
            return None
        return self.checked.judged.verdict if self.checked else self.sheet.verdict

    @property
    def degrees(self) -> int:
        return self.sheet.degrees if self.sheet else 0

    @property
    def limit(self) -> Optional[float]:
        """The critical value beside the cost; none if there is nothing to test."""
        limit = critical(self.degrees)
        return None if limit is None else float(limit)

    @property
    def exact_cost(self) -> Fraction:
        """The cost: of checked flows by the list's own deviations, of the engine's own sheet by its weights."""
        if self.checked:
            return self.checked.judged.cost
        return Fraction(self.sheet.cost, 1000) if self.sheet else Fraction(0)

    @property
    def cost(self) -> float:
        return float(self.exact_cost)

    @property
    def blanks(self) -> List[int]:
        return [k for k, line in enumerate(self.lines) if line.kind is Kind.WITHHELD]

    @cached_property
    def bound(self) -> float:
        """Šidák's value for the meters that are tested one by one."""
        return individual.bound(sum(line.test is not None for line in self.lines))

    @cached_property
    def greatest(self) -> Tuple[int, ...]:
        """The meter with the greatest test value, and those that no balance tells apart from it."""
        tested = [(abs(line.test), -k) for k, line in enumerate(self.lines) if line.test is not None]
        return self.alike(-max(tested)[1]) if tested else ()

    @cached_property
    def worst(self) -> Tuple[int, ...]:
        """The greatest, if above Šidák's value: one meter, or several that no balance tells apart."""
        return self.greatest if self.greatest and abs(self.lines[self.greatest[0]].test or 0) > self.bound else ()

    def alike(self, k: int) -> Tuple[int, ...]:
        """The tested meters that no balance tells apart from stream k, itself among them."""
        return tuple(j for j in individual.alike(self.site.exacts, k) if self.lines[j].test is not None) or (k,)

    def once(self, name: str, work: Callable[[], T]) -> T:
        """What this work gives, done once for this balance."""
        if name not in self.memo:
            self.memo[name] = work()
        found: T = self.memo[name]
        return found


def balance(site: Site, office: int = 0, lasts: Tuple[int, ...] = engine.NO_SHEETS, estimated: bool = True) -> Balance:
    """The sheet of a site, with estimates of how sure its numbers are if they are wanted; with 19 its marked places. It is the engine's own
    if that agrees with the rule or the list is a plant of the engine; else checked flows, or not judged. Any other refusal is raised."""
    own = _own(site, office, lasts) if site.fits else None
    if own is not None and site.given:
        return _estimated(own, estimated)
    ruled = by_rule(site.list)
    return _estimated(own if own is not None and agrees(own, ruled) else ruled, estimated)


def _own(site: Site, office: int, lasts: Tuple[int, ...]) -> Balance:
    """The engine's own sheet, without estimates."""
    try:
        drawn = engine.balance_plant(site.file, office, lasts).sheet
    except engine.Refusal as refusal:
        if refusal.number != 19:
            raise
        return Balance(site, marked=refusal.places)
    return reopened(site, drawn, False)


def by_rule(listed: PipeList) -> Balance:
    """The sheet of a list by the wide rule, without estimates: checked flows, or not judged and why; with 19 its marked places."""
    try:
        checked = wide.solve(exacts_of(listed))
    except wide.Overfull as overfull:
        return Balance(wide_site(listed), marked=overfull.places)
    except wide.NotJudged as unjudged:
        return Balance(wide_site(listed), kind=SheetKind.UNJUDGED, reason=str(unjudged))
    return checked_balance(listed, checked, False)


def agrees(own: Balance, ruled: Balance) -> bool:
    """Whether the engine's own sheet stands: its flows are within a tenth of a deviation of the rule's, as read is as read, verdict and
    cost are the same; or neither finds a flow in range."""
    if own.refused or ruled.refused:
        return own.refused and ruled.refused and wide.overfull(ruled.site.exacts, own.marked)
    if ruled.checked is None or own.verdict is not ruled.verdict:
        return False
    limit = critical(own.degrees) or Fraction(1)
    if abs(own.exact_cost - ruled.exact_cost) > SHARE * max(limit, ruled.exact_cost):
        return False
    return all(_near(own, ruled.checked, k) for k, stream in enumerate(ruled.checked.listed.streams) if stream.metered)


def _near(own: Balance, checked: Checked, k: int) -> bool:
    """Whether the engine's own flow of a meter is near enough to the checked one; what no meter checks must be as read."""
    stream, flow = checked.listed.streams[k], (own.total.records[k].flow or 0) * own.site.unit
    if own.total.records[k].kind is Kind.AS_READ:
        return flow == stream.held
    return (flow - checked.flows[k] * checked.unit) ** 2 <= NEAR * (stream.variance or 0)


def reopened(site: Site, drawn: bytes, estimated: bool = True) -> Balance:
    """The balance of the engine's own sheet, read by the sheet reader."""
    sheet = engine.read_sheet(drawn)
    lines = tuple(_line(site, sheet.records[k], k) for k in range(len(sheet.records)))
    return _estimated(Balance(site, lines, sheet, drawn), estimated)


def checked_balance(listed: PipeList, checked: Checked, estimated: bool = True) -> Balance:
    """The balance of checked flows, new or kept; not judged if a flow may be farther than a tenth of a deviation from the list's own."""
    site = wide_site(listed, checked.unit, checked.plant)
    lines = tuple(_line(site, checked.sheet.records[k], k) for k in range(len(checked.flows)))
    kind, reason = SheetKind.CHECKED, ""
    if not checked.judged.guarded:
        kind = SheetKind.UNJUDGED
        reason = f"the accuracies span so much that a flow may be {checked.judged.far:.2g} deviations from the list's own, and 0.1 would do"
    return _estimated(Balance(site, lines, checked.sheet, kind=kind, checked=checked, reason=reason), estimated)


def _line(site: Site, record: Record, k: int) -> Line:
    pipe = site.list.pipes[k]
    if record.flow is None:
        return Line(pipe, record.kind, None)
    flow = site.kg(record.flow)
    if pipe.reading is None or pipe.accuracy is None:
        return Line(pipe, record.kind, flow)
    held = at_end(site.plant.streams[k], record.flow)
    if record.kind is Kind.AS_READ and not site.fits:
        flow = float(site.exacts.streams[k].held)
    correction = flow - pipe.reading
    return Line(pipe, record.kind, flow, correction, correction / pipe.accuracy.deviation, held=held)


def _estimated(drawn: Balance, wanted: bool) -> Balance:
    """The same with estimates, if they are wanted."""
    if not wanted or drawn.sheet is None:
        return drawn
    records, site = drawn.sheet.records, drawn.site
    sure = spreads(site.plant, records, deviations(site.list))
    held = {k: (records[k].flow or 0) * site.unit for k, line in enumerate(drawn.lines) if line.held}
    tests = individual.tests(site.exacts, held)
    lines = tuple(replace(line, spread=sure[k], test=tests.get(k)) for k, line in enumerate(drawn.lines))
    return replace(drawn, lines=lines)


def deviations(listed: PipeList) -> Sequence[Optional[float]]:
    """Of each stream the deviation that the list gives its meter."""
    return [pipe.accuracy.deviation if pipe.accuracy else None for pipe in listed.pipes]
