"""What a hub counts of itself, for metrics: the lines that the program answered, and how long each took."""
from __future__ import annotations

import json

BOUNDS = (0.0005, 0.001, 0.0025, 0.005, 0.01, 0.025, 0.05, 0.1, 0.25, 0.5, 1.0, 2.5, 5.0, 10.0)  # seconds


class Figures:
    """Counts since the hub began."""

    def __init__(self) -> None:
        self._counts = [0] * (len(BOUNDS) + 1)
        self._seconds = 0.0

    def answered(self, seconds: float) -> None:
        """A line was answered so long after the program had it."""
        place = 0
        while place < len(BOUNDS) and seconds > BOUNDS[place]:
            place += 1
        self._counts[place] += 1
        self._seconds += seconds

    def told(self, **more: object) -> bytes:
        """What was counted, as the answer to `figures`. `within` has the lines up to each bound, and those above all of them last."""
        found = {"bounds": BOUNDS, "within": self._counts, "seconds": round(self._seconds, 6), **more}
        return b"rows 1\n" + json.dumps(found, separators=(",", ":")).encode()
