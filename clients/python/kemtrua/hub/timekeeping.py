"""Whether the hub's clock may be believed. A store's moment never falls, so one reading far ahead would spoil the store for good."""
from __future__ import annotations

from collections.abc import Iterable

from .. import clock, rows

JUMP = 60.0  # seconds by which the clock may part from the boot clock at once
PAST, BEFORE = 86_400_000, 3_600_000  # ms past the store's moment, and before it, at which the hub may begin


def moment_of(listed: Iterable[rows.Row]) -> int | None:
    """The latest reading of a clock that the rows tell of; None where they tell of none."""
    found: list[int] = []
    for row in listed:
        if isinstance(row, rows.CheckInRow):
            found.append(row.last)
        elif isinstance(row, rows.EntryRow) and row.at is not None:
            found.append(row.at)
        elif isinstance(row, rows.TriggerRow) and row.prev is not None:
            found.append(row.prev)
    return max(found, default=None)


class Timekeeping:
    """Watches the hub's clock. `doubt` says why the program isn't asked, until somebody accepts the clock as it is."""

    def __init__(self) -> None:
        self._ahead = clock.ahead_of_uptime()
        self.doubt: str | None = None

    def begin(self, moment: int | None) -> None:
        """Compares the clock with the store's moment."""
        if moment is None:
            return
        away = clock.now() - moment
        if not -BEFORE <= away <= PAST:
            self.doubt = (f"the hub's clock shows {clock.local(clock.now())}, which is {_span(abs(away))} {'past' if away > 0 else 'before'} the store's "
                          f"latest moment, {clock.local(moment)}")

    def look(self) -> bool:
        """Whether the clock may be believed at this moment."""
        if self.doubt is None:
            ahead = clock.ahead_of_uptime()
            jumped, self._ahead = ahead - self._ahead, ahead
            if jumped > JUMP:
                self.doubt = f"the hub's clock jumped ahead by {_span(round(jumped * 1000))}, to {clock.local(clock.now())}"
        return self.doubt is None

    def accept(self) -> None:
        self.doubt, self._ahead = None, clock.ahead_of_uptime()


def _span(ms: int) -> str:
    """A span for people: its greatest unit, and no more."""
    for size, unit in ((86_400_000, "days"), (3_600_000, "hours"), (60_000, "minutes")):
        if ms >= 2 * size:
            return f"{(ms + size // 2) // size} {unit}"
    return f"{ms // 1000} seconds"
