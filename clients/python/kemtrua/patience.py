"""When a hub lets nodes be taken for failed: not before each has had the time to come back to it."""
from __future__ import annotations

from . import clock

MARGIN = 7500  # ms past a check-in's interval, as in the scheduler's own rule
STALL = 3.0  # seconds between two ticks: longer, and the hub slept
JUMP = 2.0  # seconds by which the system's clock may part from the time that went by


class Patience:
    """A node isn't late for what kept the hub itself: its start, a sleep, a store that stalled, or a jump of the system's clock.

    From each of these on, a node has its check-in interval and 7.5 seconds to check in again.
    """

    def __init__(self) -> None:
        self._since = self._ticked = clock.uptime()
        self._ahead = clock.ahead_of_uptime()

    def begin_anew(self) -> None:
        """Something kept the hub from answering."""
        self._since = clock.uptime()

    def tick(self) -> bool:
        """To be called once or twice a second. Says whether the hub slept or the clock jumped since the last call."""
        present, ahead = clock.uptime(), clock.ahead_of_uptime()
        disturbed = present - self._ticked > STALL or abs(ahead - self._ahead) > JUMP
        self._ticked, self._ahead = present, ahead
        if disturbed:
            self._since = present
        return disturbed

    def left_for(self, interval: int) -> int:
        """How many ms a node with this check-in interval has left; 0 or less where it may be taken for failed."""
        self.tick()
        return interval + MARGIN - round((clock.uptime() - self._since) * 1000)
