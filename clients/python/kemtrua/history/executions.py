"""One execution as a row: what the store knows of it, and what its node told."""
from __future__ import annotations

import sqlite3
from collections.abc import Iterable
from dataclasses import dataclass, fields
from operator import attrgetter


@dataclass(slots=True)
class Execution:
    """`ok` says whether it ended as its class expects, None where no node told. `most` is its class's limit in ms, `told` when its node told last."""

    generation: int
    entry: int
    trigger: str
    node: str
    job: str | None = None
    klass: str | None = None
    epoch: int | None = None
    scheduled: int | None = None
    fired: int | None = None
    ended: int | None = None
    ended_by: int | None = None
    refires: int = 0
    code: str | None = None
    recovers: int | None = None
    state: str = "acquired"
    ok: int | None = None
    status: int | None = None
    signal: int | None = None
    ms: int | None = None
    cpu: int | None = None
    peak: int | None = None
    why: str | None = None
    most: int | None = None
    told: int | None = None

    @property
    def key(self) -> tuple[int, int]:
        return self.generation, self.entry

    def state_now(self) -> str:
        """What its state is by all that is known. One that is lost stays so."""
        if self.state == "lost":
            return "lost"
        if self.ended is None:
            return "acquired" if self.fired is None else "missing" if self.state == "missing" else "runs"
        return "ended" if self.ok is None else "done" if self.ok else "failed"

    def take_report_of(self, other: Execution) -> None:
        """Takes what a node told, where another database has it."""
        self.ok, self.status, self.signal, self.ms, self.cpu, self.peak = other.ok, other.status, other.signal, other.ms, other.cpu, other.peak
        self.why, self.most, self.told = other.why, other.most, other.told
        self.state = self.state_now()

    @classmethod
    def of_row(cls, row: sqlite3.Row) -> Execution:
        return cls(*(row[name] for name in COLUMNS))

    def values(self) -> tuple[object, ...]:
        found: tuple[object, ...] = _VALUES(self)
        return found


_NAMES = [field.name for field in fields(Execution)]
_VALUES = attrgetter(*_NAMES)
COLUMNS = ["class" if name == "klass" else name for name in _NAMES]
PUT = f"INSERT OR REPLACE INTO executions ({', '.join(COLUMNS)}, changed) VALUES ({', '.join('?' * len(COLUMNS))}, ?)"


def put(connection: sqlite3.Connection, rows: Iterable[Execution], changed: int = 0) -> None:
    """Writes rows, as changed by the group of this number."""
    connection.executemany(PUT, [(*row.values(), changed) for row in rows])


def load(connection: sqlite3.Connection, generation: int, entry: int) -> Execution | None:
    row = connection.execute("SELECT * FROM executions WHERE generation = ? AND entry = ?", (generation, entry)).fetchone()
    return None if row is None else Execution.of_row(row)


def load_open(connection: sqlite3.Connection, generation: int) -> dict[int, Execution]:
    """Those that are acquired or run, by entry number."""
    rows = connection.execute("SELECT * FROM executions WHERE state IN ('acquired', 'runs') AND generation = ?", (generation,))
    return {row["entry"]: Execution.of_row(row) for row in rows}
