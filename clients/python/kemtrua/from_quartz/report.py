"""The report of a move: each row that isn't loaded, or fires otherwise, and why."""
from __future__ import annotations

from collections.abc import Iterable
from dataclasses import dataclass, field
from enum import Enum


class Outcome(Enum):
    """What becomes of a row."""

    LEFT_OUT = "left out"
    CHANGED = "loaded, and fires otherwise"
    LESSENED = "loaded, without a part of it"
    REWRITTEN = "loaded, written otherwise"
    WANTED = "wanted"


HEADS = {
    Outcome.LEFT_OUT: "Left out: what has no counterpart, and what depends on it",
    Outcome.CHANGED: "Loaded, and fires otherwise than in Quartz",
    Outcome.LESSENED: "Loaded, without a part that has no counterpart",
    Outcome.REWRITTEN: "Loaded, and written otherwise: it fires as in Quartz",
    Outcome.WANTED: "Wanted: what you have to add or to decide",
}

Told = tuple[Outcome, str]  # what is said of a row, and why


@dataclass(frozen=True)
class Remark:
    """`what` is as `trigger DEFAULT/nightly`, and `place` as `jobs.xml:12`."""

    outcome: Outcome
    what: str
    place: str
    why: str

    def __str__(self) -> str:
        return f"{self.what} ({self.place}): {self.why}"


@dataclass
class Report:
    """What is said of the rows, in the order in which they were read."""

    remarks: list[Remark] = field(default_factory=list)
    notes: list[str] = field(default_factory=list)

    def add(self, outcome: Outcome, what: str, place: str, why: str) -> None:
        self.remarks.append(Remark(outcome, what, place, why))

    def count(self, outcome: Outcome) -> int:
        """Of how many rows something of that kind is said."""
        return len({(remark.what, remark.place) for remark in self.remarks if remark.outcome is outcome})

    def lines(self, heading: Iterable[str]) -> list[str]:
        found = [*heading, ""]
        for outcome, head in HEADS.items():
            told = [remark for remark in self.remarks if remark.outcome is outcome]
            if told:
                found += [f"{head} ({self.count(outcome)})", *(f"  {remark}" for remark in told), ""]
        if self.notes:
            found += ["Of all", *(f"  {note}" for note in self.notes), ""]
        return found
