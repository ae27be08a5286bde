"""What needs a look, what settled by itself, and what is as somebody asked."""
from __future__ import annotations

from collections import Counter
from dataclasses import dataclass, field

from .moments import DAY, Clock, plural, span
from .queries import History, Usual, usual_of
from .rows import Store
from .states import Run, how, is_long

BACK = 30 * DAY  # ms in which a job's last execution is looked at
MOST = 3000  # troubles that are looked at
OVERDUE = 60_000  # ms that a fire time may be past
GATHER_FROM = 8  # from so many troubles of one cause on they are one row
SETTLED = 50  # rows of what settled


@dataclass(frozen=True)
class Trouble:
    """A job, what is with it, and which execution shows it."""

    state: str
    job: str
    what: str
    more: str
    at: int
    run: Run | None = None
    cause: str = ""
    passed: bool = False  # whether a fire time passed and didn't fire


@dataclass
class Standing:
    open: list[Trouble] = field(default_factory=list)
    settled: list[Trouble] = field(default_factory=list)
    asked: list[Trouble] = field(default_factory=list)
    executing: list[tuple[Run, Usual | None, bool]] = field(default_factory=list)
    is_whole: bool = True  # whether all troubles were looked at

    def gathered(self) -> tuple[list[tuple[Trouble, int]], list[Trouble]]:
        """Causes that stand for many jobs, and what is left one by one."""
        counts = Counter(it.cause for it in self.open if it.cause)
        many = {cause for cause, count in counts.items() if count >= GATHER_FROM}
        first: dict[str, Trouble] = {}
        for it in self.open:
            if it.cause in many:
                first.setdefault(it.cause, it)
        return [(it, counts[cause]) for cause, it in first.items()], [it for it in self.open if it.cause not in many]


class Looking:
    """Looks at the history and the rows, once for a page."""

    def __init__(self, history: History, store: Store | None, clock: Clock, since: int):
        self._history, self._store, self._clock, self._since = history, store, clock, since
        self._usual: dict[str, Usual | None] = {}
        self._seen: set[str] = set()
        self._told: set[tuple[str, str]] = set()

    def usual(self, job: str | None) -> Usual | None:
        if job is None:
            return None
        if job not in self._usual:
            self._usual[job] = usual_of(self._history.recent(job))
        return self._usual[job]

    def look(self) -> Standing:
        found = Standing()
        self._executions(found)
        self._long(found)
        self._triggers(found)
        self._misfires(found)
        in_error = {it.job for it in found.open if it.state == "error"}
        found.open = [it for it in found.open if it.state != "failed" or it.job not in in_error]
        rank = {"failed": 0, "lost": 0, "missing": 0, "error": 1, "long": 2, "late": 3}
        found.open.sort(key=lambda it: (rank.get(it.state, 4), -it.at))
        found.settled.sort(key=lambda it: -it.at)
        del found.settled[SETTLED:]
        return found

    def _executions(self, found: Standing) -> None:
        """Jobs whose last execution failed, or was lost and not made up for; and what was done since then."""
        troubles = self._history.troubles(self._clock.present - BACK, MOST)
        found.is_whole = len(troubles) < MOST
        for run in troubles:
            if run.job is None or (run.fired or 0) < self._since and run.job in self._seen:
                continue
            if run.job in self._seen:
                self._settled(found, run)
                continue
            self._seen.add(run.job)
            if self._store is not None and self._store.as_of is not None and self._store.job(run.job) is None:
                continue  # (the job isn't stored any more)
            last = self._history.latest(run.job)
            is_last = last is not None and last.entry == run.entry and last.generation == run.generation
            if is_last and (run.state != "lost" or self._history.made_up_by(run) is None):
                found.open.append(self._trouble(run))
            else:
                self._settled(found, run)

    def _trouble(self, run: Run) -> Trouble:
        words = {"failed": f"Failed: {how(run)}", "lost": "Lost with its node, and not run again", "missing": "Its end isn't known"}
        more = [f"Took {span(run.took)} on {run.node}."]
        row = self._store.job(run.job) if self._store is not None and run.job is not None else None
        if row is not None and row["next"] is not None:
            more.append(f"Fires next {self._clock.when(row['next'])}.")
        cause = f"{run.klass}: {run.status if run.status is not None else run.code or run.state}"
        return Trouble(run.state, str(run.job), words.get(run.state, run.state), " ".join(more), run.ended or run.fired or 0, run, cause)

    def _settled(self, found: Standing, run: Run) -> None:
        if (run.fired or 0) < self._since or len(found.settled) >= 4 * SETTLED or run.job is None:
            return
        if run.state == "lost":
            again = self._history.made_up_by(run)
            then = f"; run again on {again.node}, {again.state} {self._clock.when(again.ended or again.fired)}" if again else ""
            what = f"Lost with {run.node}{then}"
        else:
            done = self._history.latest_done(run.job)
            is_later = done is not None and (done.fired or 0) > (run.fired or 0)
            what = f"Failed: {how(run)}" + (f"; {done.state} {self._clock.when(done.ended)}" if done and is_later else "")
        found.settled.append(Trouble(run.state, run.job, what, "", run.ended or run.fired or 0, run))

    def _long(self, found: Standing) -> None:
        for run in self._history.open():
            usual = self.usual(run.job)
            long = is_long(run, usual, self._clock.present)
            found.executing.append((run, usual, long))
            if long and usual is not None and run.job is not None:
                more = f"On {run.node}."
                if run.most is not None and run.fired is not None:
                    more += f" Its limit of {span(run.most)} ends it at {self._clock.when(run.fired + run.most)}."
                what = f"Executing for {span(run.lasted(self._clock.present))}; usually {span(usual.middle)}"
                found.open.append(Trouble("long", run.job, what, more, run.fired or 0, run))

    def _triggers(self, found: Standing) -> None:
        if self._store is None:
            return
        present = self._clock.present
        for row in self._store.in_state(["ERROR"]):
            passed = row["next"] is not None and row["next"] < present
            what = "Trigger in ERROR: it fires no more until it is reset" + (f", and it didn't fire {self._clock.when(row['next'])}"
                                                                             if passed else "")
            last = self._history.latest(row["job"])
            at = (last.ended or last.fired) if last is not None else row["next"]
            self._once(found.open, Trouble("error", row["job"], what, self._why_error(last), at or present, last, "", passed))
        for row in self._store.in_state(["PAUSED", "PAUSED_BLOCKED"], 200):
            if row["next"] is not None and row["next"] < present:
                what = f"Paused: it didn't fire {self._clock.when(row['next'])}"
                self._once(found.asked, Trouble("paused", row["job"], what, "", row["next"], passed=True))
        for row in self._store.overdue(present - OVERDUE, 200):
            what = f"Due since {self._clock.when(row['next'])}, and nobody fires it"
            self._once(found.open, Trouble("late", row["job"], what, "A node with a free worker fires it.", row["next"]))

    def _once(self, troubles: list[Trouble], it: Trouble) -> None:
        """Puts a job's trouble of a kind once."""
        if (it.state, it.job) not in self._told:
            self._told.add((it.state, it.job))
            troubles.append(it)

    @staticmethod
    def _why_error(last: Run | None) -> str:
        return "" if last is None else f"{last.entry} ended with {last.code or last.state}: {how(last)}. Mend that, then reset the trigger."

    def _misfires(self, found: Standing) -> None:
        for row in self._history.events(["misfired"], self._since, SETTLED):
            if row["job"] is not None:
                found.settled.append(Trouble("misfired", row["job"], f"Misfired: {plural(1, 'fire time')} passed with nobody to fire it",
                                             "", row["at"]))


def look_jobs(found: Standing) -> list[str]:
    """The jobs that need a look, each once."""
    return list(dict.fromkeys(it.job for it in found.open))
