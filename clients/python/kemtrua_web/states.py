"""An execution as the pages show it: its state, and how long it took."""
from __future__ import annotations

from dataclasses import dataclass
from typing import TYPE_CHECKING

from kemtrua.names import Key

if TYPE_CHECKING:
    from .queries import Usual

WORDS = {"done": "done", "ended": "ended", "failed": "failed", "lost": "lost", "missing": "missing", "executing": "executing",
         "long": "long",
         "error": "ERROR", "misfired": "misfired", "missed": "didn't fire", "late": "late", "paused": "paused", "blocked": "blocked",
         "waiting": "waiting",
         "complete": "complete", "acquired": "acquired", "alive": "alive", "gone": "gone", "recovered": "recovery", "expect": "expected",
         "never": "never fired"}
BAD = ("failed", "lost", "missing")
LONG_TIMES, LONG_MORE = 3, 60_000  # an execution is long over so many times its usual, and so many ms more than it
HEAVY_CORES, HEAVY_SPAN = 2, 600_000  # a job is heavy that takes so many processors for so many ms
TRIGGER_STATES = {"WAITING": "waiting", "ACQUIRED": "waiting", "COMPLETE": "complete", "BLOCKED": "blocked", "PAUSED": "paused",
                  "PAUSED_BLOCKED": "paused",
                  "ERROR": "error"}


@dataclass(frozen=True, slots=True)
class Run:
    """A row of the executions, with the columns of `kemtrua.history.executions.COLUMNS`."""

    generation: int
    entry: int
    trigger: str
    node: str
    job: str | None
    klass: str | None
    epoch: int | None
    scheduled: int | None
    fired: int | None
    ended: int | None
    ended_by: int | None
    refires: int
    code: str | None
    recovers: int | None
    state: str
    ok: int | None
    status: int | None
    signal: int | None
    ms: int | None
    cpu: int | None
    peak: int | None
    why: str | None
    most: int | None
    told: int | None

    @property
    def took(self) -> int | None:
        return self.ended - self.fired if self.ended is not None and self.fired is not None else None

    def lasted(self, present: int) -> int:
        """How long it took, or has been executing."""
        return max(0, (self.ended if self.ended is not None else present) - (self.fired if self.fired is not None else present))

    @property
    def key(self) -> Key:
        """Its job, or where that isn't known, its trigger."""
        return Key.of_word(self.job or self.trigger)

    @property
    def late(self) -> int:
        return max(0, self.fired - self.scheduled) if self.fired is not None and self.scheduled is not None else 0

    @property
    def is_heavy(self) -> bool:
        return self.took is not None and self.took >= HEAVY_SPAN and self.cpu is not None and self.cpu >= HEAVY_CORES * self.took

def is_long(run: Run, usual: Usual | None, present: int) -> bool:
    lasts = run.lasted(present)
    return run.state == "runs" and usual is not None and lasts > max(LONG_TIMES * usual.middle, usual.middle + LONG_MORE)


def shown(run: Run, usual: Usual | None, present: int) -> str:
    """The state that a page shows."""
    if run.state == "runs":
        return "long" if is_long(run, usual, present) else "executing"
    return run.state


def how(run: Run) -> str:
    """How an execution that isn't done ended, in words."""
    words = []
    if run.why:
        words.append(run.why)
    if run.signal is not None:
        words.append(f"signal {run.signal}")
    elif run.status is not None:
        words.append(f"exit status {run.status}")
    if run.refires:
        words.append(f"after {run.refires} {'retry' if run.refires == 1 else 'retries'}")
    if not words and run.state == "lost":
        words.append("lost with its node")
    if not words and run.state == "missing":
        words.append("its end isn't known")
    return ", ".join(words) or "its node didn't say why"
