# SPDX-License-Identifier: LicenseRef-Wengeludo
"""What the rows of a run say together: events, estimates, weeks, findings, and which overrides they propose."""

from __future__ import annotations

from dataclasses import dataclass
from typing import Any, Dict, List, Optional, Tuple

from wengeludo_balance import Verdict

from . import estimates, events, findings, weeks
from .run import Run


@dataclass
class Analysis:
    """A run and what was made of it. The run's sheets are the engine's; all else is the tool's."""

    run: Run
    reference: weeks.Reference
    events: List[events.Event]
    used: Any
    summary: estimates.Summary
    checks: estimates.Checks
    sets: List[List[int]]
    weeks: List[weeks.Week]
    findings: List[findings.Finding]

    @property
    def share(self) -> Dict[int, float]:
        """How far each checked meter is checked by others."""
        return {int(k): float(share) for k, share in zip(self.checks.adjusted, self.checks.share)}

    @property
    def alike(self) -> Dict[int, List[int]]:
        """Of each checked meter those that no balance tells apart from it."""
        return {k: [other for other in together if other != k] for together in self.sets for k in together}

    def least_bias(self, k: int) -> Optional[float]:
        """The least bias, in kg/h, that one week shows for certain: four limits, of a week without gaps. None if nothing checks it."""
        share = self.share.get(k, 0.0)
        if share < 1e-6:
            return None
        limit = weeks.LIMITS[int(self.run.sheets.degrees.max())] if len(self.run.times) else 0.0
        days = len(self.reference.used) * self.run.step / weeks.DAY
        per_week = self.reference.share * (1 / 7 + 1 / max(1.0, days))
        return float(self.run.deviations[k]) * (findings.STRONG * limit * per_week / share) ** 0.5

    def fails(self) -> Any:
        """The rows that fail their test."""
        return (self.run.sheets.refusal == 0) & (self.run.sheets.verdict == Verdict.FAIL)


def analysed(run: Run, reference: Optional[Tuple[int, int]] = None) -> Analysis:
    """Everything that is made of a run; the reference by its first time and its end, or the first 28 days."""
    rows = weeks.reference_rows(run, reference)
    happened = events.events(run, rows)
    used = events.used(run, happened)
    summary = estimates.summed(run, used)
    known = weeks.reference_of(run, rows, used, summary)
    each = weeks.weeks(run, used, known)
    found = findings.findings(run, each)
    checks = estimates.checks(run.plant, run.variances, run.usual)
    return Analysis(run, known, happened, used, summary, checks, estimates.sets_of(checks), each, found)
