"""What a campaign found, by modules and in all, as text."""
from typing import Any, Dict, Iterator, List, NamedTuple, Optional, Sequence

from .judge import BROKEN, DETECTED, DIFFERS, POSSIBLE, REFUSED, UNDETECTED, Verdict
from .what_if import WhatIf

# What the faults outside of all instances are counted to.
TOP = "(top)"


class Coverage(NamedTuple):
    """How many faults there are, and what came of them."""

    module: str
    faults: int
    detected: int
    possible: int
    undetected: int
    refused: int

    @property
    def percent(self) -> float:
        return 100 * self.detected / self.faults if self.faults else 100.0

    def row(self) -> List[str]:
        return [*map(str, self), f"{self.percent:.1f} %"]


def coverage_of(module: str, verdicts: Sequence[Verdict]) -> Coverage:
    counts = [sum(it.status == status for it in verdicts) for status in (DETECTED, POSSIBLE, UNDETECTED, REFUSED)]
    return Coverage(module, len(verdicts), *counts)


def by_module(
    what_ifs: Sequence[WhatIf], verdicts: Sequence[Verdict], depth: Optional[int] = None
) -> List[Coverage]:
    """The coverage of each instance's own gates, by name; with `depth` those of instances further down are counted to the one
    that they stand in at this depth."""
    found: Dict[str, List[Verdict]] = {}
    for what_if, verdict in zip(what_ifs, verdicts):
        found.setdefault(".".join(what_if.module.split(".")[:depth]), []).append(verdict)
    return [coverage_of(module or TOP, found[module]) for module in sorted(found)]


def as_data(coverages: Sequence[Coverage]) -> List[Dict[str, Any]]:
    return [{**it._asdict(), "percent": round(it.percent, 1)} for it in coverages]


def table(rows: Sequence[Sequence[str]]) -> Iterator[str]:
    """Rows of words in columns; the first column is a name, the others are numbers."""
    widths = [max(len(row[at]) for row in rows) for at in range(len(rows[0]))]
    for first, *others in rows:
        yield "  ".join([first.ljust(widths[0]), *(word.rjust(width) for word, width in zip(others, widths[1:]))])


def faults_report(
    what_ifs: Sequence[WhatIf], verdicts: Sequence[Verdict], depth: Optional[int] = None
) -> Iterator[str]:
    """The coverage by modules, and the faults that are not detected."""
    modules = by_module(what_ifs, verdicts, depth)
    head = ["module", "faults", "detected", "possible", "undetected", "refused", "coverage"]
    total = [coverage_of("all", verdicts).row()] if len(modules) > 1 else []
    yield from table([head, *(it.row() for it in modules), *total])
    for what_if, verdict in zip(what_ifs, verdicts):
        if verdict.status != DETECTED:
            yield f"{verdict.status}: {what_if.name}{where(verdict)}"


def sweep_report(what_ifs: Sequence[WhatIf], verdicts: Sequence[Verdict]) -> Iterator[str]:
    """How many there are of each status, and those that stand out."""
    counts: Dict[str, int] = {}
    for it in verdicts:
        counts[it.status] = counts.get(it.status, 0) + 1
    yield ", ".join([f"what-ifs: {len(verdicts)}", *(f"{status}: {counts[status]}" for status in sorted(counts))])
    for what_if, verdict in zip(what_ifs, verdicts):
        if verdict.status in (DIFFERS, BROKEN, REFUSED):
            yield f"{verdict.status}: {what_if.name}{where(verdict)}"


def where(verdict: Verdict) -> str:
    if verdict.time is None:
        return f": {verdict.note}" if verdict.note else ""
    return f": {verdict.net} at {verdict.time} {verdict.note}"
