"""Where marks stand in plots: in per cent of the width, so that no script measures and text never shrinks."""
from __future__ import annotations

from collections.abc import Iterable, Sequence
from dataclasses import dataclass, field
from datetime import timedelta
from typing import Any

from .moments import DAY, HOUR, Clock, of_day, plural, span, turns_between
from .queries import Usual, usual_of
from .states import WORDS, Run, how, shown

NIGHT = (22, 6)  # the hours of a night
STRIP = 20  # executions of a strip
LEAST = 0.25  # per cent that a bar is wide at least


class Axis:
    """A span of time as the width of a plot."""

    def __init__(self, since: int, until: int, clock: Clock):
        self.since, self.until, self.clock = since, max(until, since + 1), clock

    def x(self, at: int) -> float:
        return round(100 * (at - self.since) / (self.until - self.since), 3)

    def inside(self, at: int) -> float:
        return min(max(self.x(at), 0.0), 100.0)

    def hours(self, step: int) -> list[dict[str, Any]]:
        """Marks at local hours, each moment once."""
        found = []
        for at in self.clock.whole_hours(self.since, self.until):
            local, x = self.clock.local(at), self.x(at)
            if local.hour % step or local.minute or x > 99 or step > 1 and local.fold:
                continue
            is_day = local.hour == 0
            label = f"{local:%a} {local.day}" if is_day else f"{local:%H}:00"
            minor = (local.hour % 3 != 0 or bool(local.fold)) if step == 1 else local.hour % (2 * step) != 0
            found.append({"x": x, "day": is_day, "start": x < 1.2, "label": label, "minor": minor and not is_day})
        return found

    def days(self) -> list[dict[str, Any]]:
        found, day = [], self.clock.local(self.since).date()
        while (at := of_day(self.clock.zone, day)) <= self.until:
            if at >= self.since and self.x(at) < 98:
                found.append({"x": self.x(at), "day": True, "start": self.x(at) < 3, "label": f"{day:%a} {day.day} {day:%b}",
                              "minor": False})
            day += timedelta(days=1)
        return found

    def turns(self) -> list[dict[str, Any]]:
        """The bands of turned hours, each with its words."""
        found = []
        for turn in turns_between(self.clock.zone, self.since // HOUR * HOUR, self.until):
            back = turn.before > turn.after
            begin, end = (turn.at - (turn.before - turn.after), turn.ends) if back else (turn.at - HOUR // 4, turn.at + HOUR // 4)
            first = self.clock.local(turn.at - (turn.before - turn.after) if back else turn.at - 1)
            hour = first.hour if back else (first.hour + 1) % 24
            name = f"{hour:02}:00 to {(hour + 1) % 24:02}:00"
            said = f"{name} {'comes twice' if back else 'is left out'}"
            found.append({"x": self.inside(begin), "w": self.inside(end) - self.inside(begin), "say": said})
        return found

    def nights(self) -> list[dict[str, Any]]:
        found, day = [], self.clock.local(self.since).date() - timedelta(days=1)
        while (begin := of_day(self.clock.zone, day, NIGHT[0])) < self.until:
            end = of_day(self.clock.zone, day + timedelta(days=1), NIGHT[1])
            if end > self.since:
                found.append({"x": self.inside(begin), "w": self.inside(end) - self.inside(begin)})
            day += timedelta(days=1)
        return found


@dataclass
class Strip:
    """The last executions of a job as small marks, the oldest first."""

    marks: list[str] = field(default_factory=list)
    say: str = "never fired"


def strip_of(runs: Sequence[Run], present: int) -> Strip:
    """The strip of a job's executions, which are given with the latest first."""
    usual = usual_of(runs)
    marks = [shown(run, usual, present) for run in reversed(runs[:STRIP])]
    if not marks:
        return Strip()
    counts = {state: marks.count(state) for state in ("done", "ended", "failed", "lost", "missing", "executing", "long") if state in marks}
    return Strip(marks, f"last {len(marks)}: " + ", ".join(f"{count} {WORDS[state]}" for state, count in counts.items()))


def tip_of(run: Run, state: str, clock: Clock) -> str:
    """A bar in words."""
    key = run.key
    took = f"took {span(run.took)}" if run.took is not None else f"for {span(run.lasted(clock.present))}"
    why = f": {how(run)}" if state == "failed" else ""
    return f"{key.group}/{key.name} {run.entry}: {WORDS[state]}{why}, {clock.when(run.fired)}, {took}, on {run.node}"


@dataclass
class Bar:
    """An execution in a plot."""

    run: Run | None
    state: str
    x: float
    width: float
    tip: str
    row: int = 0
    label: str = ""
    is_left: bool = False
    recovers: bool = False
    until: float = 0.0  # where it ends, however narrow it is

    @property
    def end(self) -> float:
        return round(self.x + self.width, 3)


def bar_of(run: Run, axis: Axis, usual: Usual | None) -> Bar:
    clock = axis.clock
    state = shown(run, usual, clock.present)
    begin, end = axis.inside(run.fired or 0), axis.inside(run.ended if run.ended is not None else clock.present)
    return Bar(run, state, begin, round(max(end - begin, LEAST), 3), tip_of(run, state, clock), recovers=run.recovers is not None,
               until=end)


def put_in_rows(bars: Iterable[Bar], with_labels: bool) -> int:
    """Gives each bar a row in which it meets no other one, nor its label. How many rows there are."""
    rows: list[list[tuple[float, float]]] = []
    for bar in bars:
        room = len(bar.label) * 0.72 + 2.5 if with_labels else 0.0
        bar.is_left = with_labels and bar.end + room > 100
        first, last = (bar.x - room, bar.end) if bar.is_left else (bar.x, (bar.end if with_labels else bar.until) + room)
        bar.row = next((place for place, taken in enumerate(rows) if all(last <= begin or first >= end for begin, end in taken)), len(rows))
        if bar.row == len(rows):
            rows.append([])
        rows[bar.row].append((first, last))
    return len(rows)


def durations_of(runs: Sequence[Run], usual: Usual | None, clock: Clock, height: int = 140) -> dict[str, Any] | None:
    """A job's last executions as columns, the oldest first. What is far over the usual is cut, with its span beside it."""
    shown_runs = [run for run in reversed(runs[:40]) if run.fired is not None]
    if not shown_runs:
        return None
    took = [run.lasted(clock.present) for run in shown_runs]
    top = max(took)
    if usual is not None:
        top = min(top, max(usual.high * 2, usual.middle * 2.5))
    top = max(_rounded(max(top, 1)), 1)
    width = 100 / max(len(shown_runs), 12)
    columns = [_column(run, lasted, top, height, (place, len(shown_runs), width), usual, clock) for place,
               (run, lasted) in enumerate(zip(shown_runs, took))]
    grid = [{"y": round(height * (1 - part / 4)), "label": span(top * part / 4)} for part in range(5)]
    place = {name: round(height * (1 - min(value, top) / top), 1) for name, value in
             (("low", usual.low), ("high", usual.high), ("middle", usual.middle))} if usual is not None else None
    return {"columns": columns, "grid": grid, "usual": place, "height": height, "count": len(shown_runs)}


def _column(run: Run, lasted: int, top: float, height: int, where: tuple[int, int, float], usual: Usual | None,
            clock: Clock) -> dict[str, Any]:
    place, count, width = where
    state, tall = shown(run, usual, clock.present), min(lasted / top, 1) * height
    each = -(-count // 8)
    local = clock.local(run.fired or 0)
    label = f"{local.day} {local:%b}" if place % each == 0 else ""
    return {"x": round(100 - width * (count - place) + width / 2, 3), "width": round(width * 0.6, 3), "y": round(height - tall, 1),
            "height": round(max(tall, 2), 1),
            "state": state, "over": span(lasted) if lasted > top else "", "tip": tip_of(run, state, clock), "run": run, "label": label}


def _rounded(ms: float) -> float:
    """The next span above that four lines divide well."""
    for unit in (1, 1000, 60_000, HOUR, DAY):
        for step in (4, 8, 20, 40, 80, 200, 400):
            if unit * step >= ms and (unit * step < 1000 or unit >= 1000):
                return float(unit * step)
    return ms


def merged(spans: Iterable[tuple[int, int]]) -> list[tuple[int, int]]:
    """Spans without what they have twice."""
    found: list[tuple[int, int]] = []
    for begin, end in sorted(spans):
        if found and begin <= found[-1][1]:
            found[-1] = (found[-1][0], max(end, found[-1][1]))
        else:
            found.append((begin, end))
    return found


def counted(count: int, most: int, one: str) -> str:
    return f"{plural(count, one)}" if count < most else f"{count:,} and more {one}s".replace(",", "\u202f")
