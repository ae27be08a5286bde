"""The hub's time, as a node knows it: its own clock may be wrong, and the store's is what counts."""
from __future__ import annotations

from . import clock, logs
from .errors import ClockWrong, HubRefused
from .scheduler import Scheduler

log = logs.logger("kemtrua.node")

SAMPLES = 3  # of a measurement; the one with the shortest way counts
WARN_PAST = 1000  # ms of skew
SAY_AGAIN = 60.0  # seconds between two lines of the log that say so


class HubClock:
    """Follows the hub's clock by the boot clock, which never jumps. It is measured as NTP does: the hub's moment lies in the middle of the way."""

    def __init__(self, limit: int):
        self._limit = limit  # ms of skew past which the node isn't let in
        self._ahead: float | None = None  # ms: the hub's moment less the boot clock
        self._said = -SAY_AGAIN

    def now(self) -> int:
        """The hub's moment, in ms; the own clock's before it was measured."""
        return clock.now() if self._ahead is None else round(self._ahead + clock.uptime() * 1000)

    @property
    def skew(self) -> int:
        """By how many ms the own clock is ahead of the hub's."""
        return clock.now() - self.now()

    def measure(self, scheduler: Scheduler) -> None:
        """Asks for the hub's moment. Raises what a question raises."""
        found: list[tuple[float, float]] = []
        for _ in range(SAMPLES):
            before = clock.uptime() * 1000
            try:
                moment = scheduler.clock()
            except HubRefused as refused:
                if refused.word not in ("bad-line", "not-here"):
                    raise
                return  # (a hub of before, which doesn't say its moment)
            after = clock.uptime() * 1000
            found.append((after - before, moment - (before + after) / 2))
        self._ahead = min(found)[1]
        self._warn()

    def check(self) -> None:
        """Raises ClockWrong where the skew is past the limit."""
        if abs(self.skew) > self._limit:
            raise ClockWrong(f"{self._words()}; past {self._limit / 1000:g} s a node isn't let in: set it right (NTP)")

    def _words(self) -> str:
        return f"this machine's clock is {abs(self.skew) / 1000:.1f} s {'ahead of' if self.skew > 0 else 'behind'} the hub's"

    def _warn(self) -> None:
        if abs(self.skew) > WARN_PAST and clock.uptime() - self._said >= SAY_AGAIN:
            self._said = clock.uptime()
            log.warning("%s; this node fires by the hub's, and its commands see the machine's", self._words())
