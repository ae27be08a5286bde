"""Lines of a status board as metrics, under the names that `/metrics` has; and as one live line. It needs the standard library alone."""
from __future__ import annotations

import re
from collections.abc import Iterable, Iterator
from dataclasses import dataclass
from datetime import datetime, timedelta, timezone
from typing import TextIO

LINE = re.compile(r"board (\d+) executing (\d+) jobs (\d+) triggers (\d+) next (none|-?\d+) at (-?\d+)\n?")
EPOCH = datetime(1970, 1, 1, tzinfo=timezone.utc)


@dataclass(frozen=True)
class Metric:
    """A metric's name, kind and words."""

    name: str
    kind: str
    text: str


ENTRIES = Metric("kemtrua_entries_total", "counter", "Entries of the history.")
EXECUTING = Metric("kemtrua_executing", "gauge", "Executions that go on.")
JOBS = Metric("kemtrua_jobs", "gauge", "Jobs that are stored.")
TRIGGERS = Metric("kemtrua_triggers", "gauge", "Triggers that are stored.")
NEXT = Metric("kemtrua_next_fire_time_seconds", "gauge",
              "When the first waiting trigger is due, in seconds since 1970 in UTC. Absent where none waits.")
LAST = Metric("kemtrua_last_entry_time_seconds", "gauge", "The moment of the last entry, in seconds since 1970 in UTC.")


@dataclass(frozen=True)
class Board:
    """The numbers of a board line. `next` is None where no trigger waits."""

    entries: int
    executing: int
    jobs: int
    triggers: int
    next: int | None
    last: int


def read(line: str) -> Board | None:
    """What a board line says, or None where the line is another one."""
    found = LINE.fullmatch(line)
    if not found:
        return None
    entries, executing, jobs, triggers, due, last = found.groups()
    return Board(int(entries), int(executing), int(jobs), int(triggers), None if due == "none" else int(due), int(last))


def boards(lines: Iterable[str]) -> Iterator[Board]:
    return (board for board in map(read, lines) if board)


def date(moment: int | None) -> str:
    return "none" if moment is None else (EPOCH + timedelta(milliseconds=moment)).strftime("%Y-%m-%d %H:%M:%S")


def live(board: Board) -> str:
    return (f"{board.entries} entries · {board.executing} executing · {board.jobs} jobs · {board.triggers} triggers · "
            f"next {date(board.next)} · last {date(board.last)}")


def draw(lines: Iterable[str], out: TextIO) -> int:
    """Draws each board over the one before. Where the output is no terminal, each has a line of its own. Returns how many there were."""
    count, over = 0, out.isatty()
    for count, board in enumerate(boards(lines), 1):
        out.write(f"\r\x1b[K{live(board)}" if over else f"{live(board)}\n")
        out.flush()
    if over and count:
        out.write("\n")
    return count


def seconds(moment: int | None) -> str | None:
    return None if moment is None else f"{moment // 1000}.{moment % 1000:03d}"


def metrics(board: Board) -> str:
    """The text format of Prometheus."""
    values = ((ENTRIES, str(board.entries)), (EXECUTING, str(board.executing)), (JOBS, str(board.jobs)), (TRIGGERS, str(board.triggers)),
              (NEXT, seconds(board.next)),
              (LAST, seconds(board.last)))
    lines = []
    for metric, value in values:
        lines += [f"# HELP {metric.name} {metric.text}", f"# TYPE {metric.name} {metric.kind}"]
        if value is not None:
            lines.append(f"{metric.name} {value}")
    return "".join(line + "\n" for line in lines)
