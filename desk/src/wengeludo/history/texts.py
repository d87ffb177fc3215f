# SPDX-License-Identifier: LicenseRef-Wengeludo
"""What a terminal is told of a run."""

from __future__ import annotations

from typing import List, Sequence

from .analysis import Analysis
from .bill import Bill, account
from .findings import sentence
from .page import happenings, headline, summary


def lines(found: Analysis, bills: Sequence[Bill]) -> List[str]:
    """Headline, findings, events, bill, notes."""
    told = [f"{found.run.list.name}  {headline(found)}", summary(found)]
    told += [f"{number}. {sentence(found.run, finding)}" for number, finding in enumerate(found.findings, 1)]
    told += [f"{when}  {what}" for when, what in happenings(found)]
    told += [line for bill in bills for line in account(bill)]
    return told + found.run.notes
