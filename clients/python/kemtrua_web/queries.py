"""What the pages ask of `history.db`. Each question has an index, and a bound on its answer."""
from __future__ import annotations

import os
import sqlite3
import statistics
from collections.abc import Iterable, Sequence
from dataclasses import dataclass, replace
from urllib.parse import quote

from kemtrua.history.executions import COLUMNS
from kemtrua.history.schema import FILE, READABLE, TROUBLE, NoHistory, opened

from .states import Run

SELECTED = ", ".join(COLUMNS)
TROUBLES = ", ".join(repr(state) for state in TROUBLE)
ENOUGH, OF_USUAL, RECENT = 3, 30, 60  # executions from which on, and of which, the usual is told; and those of a job that are looked at
UNINDEXED = {"done": "state = 'done'", "ended": "state = 'ended'", "recovery": "recovers IS NOT NULL"}
LOOKED_AT = 30_000  # executions among which these are looked for
Values = Sequence[object]


@dataclass(frozen=True)
class Usual:
    """How long a job's last executions that are done took, in ms: the middle, and the 10th and 90th percentile."""

    middle: float
    low: float
    high: float


def usual_of(runs: Iterable[Run]) -> Usual | None:
    """The usual of a job, from its executions, the latest first. None where too few are done."""
    took = [run.took for run in runs if run.state == "done" and run.took is not None][:OF_USUAL]
    if len(took) < ENOUGH:
        return None
    tenths = statistics.quantiles(took, n=10, method="inclusive")
    return Usual(statistics.median(took), tenths[0], tenths[8])


@dataclass(frozen=True)
class Wanted:
    """Which executions a list has: of a result, a job, a node, since a moment; those before one of them."""

    result: str = ""
    job: str | None = None
    node: str = ""
    since: int = 0
    before: tuple[int, int, int] | None = None
    limit: int = 50


def _opened(folder: str) -> sqlite3.Connection:
    """The database. Where no hub works on it, and this process may not write beside it, it is read as a file that nobody changes. Raises
    NoHistory."""
    try:
        return opened(folder, make=False)
    except NoHistory:
        path = os.path.join(folder, FILE)
        if os.path.exists(f"{path}-wal") or not os.access(path, os.R_OK):
            raise
        connection = sqlite3.connect(f"file:{quote(path)}?mode=ro&immutable=1", uri=True, isolation_level=None, check_same_thread=False)
        connection.row_factory = sqlite3.Row
        if connection.execute("PRAGMA user_version").fetchone()[0] not in READABLE:
            connection.close()
            raise
        return connection


class History:
    """One connection to a hub's database, which only reads."""

    def __init__(self, folder: str):
        self.connection = _opened(folder)
        self.connection.execute("PRAGMA mmap_size=268435456")

    def __enter__(self) -> History:
        return self

    def __exit__(self, *_: object) -> None:
        self.close()

    def close(self) -> None:
        self.connection.close()

    def _runs(self, rest: str, values: Values = ()) -> list[Run]:
        return [Run(*row) for row in self.connection.execute(f"SELECT {SELECTED} FROM executions {rest}", values)]

    def _number(self, text: str, values: Values = ()) -> int:
        (found,) = self.connection.execute(text, values).fetchone()
        return int(found or 0)

    # -- executions

    def recent(self, job: str, limit: int = RECENT) -> list[Run]:
        """A job's last executions, the latest first."""
        return self._runs("WHERE job = ? AND fired IS NOT NULL ORDER BY fired DESC, generation DESC, entry DESC LIMIT ?", (job, limit))

    def run(self, entry: int, generation: int | None = None) -> Run | None:
        """The execution of an entry number, in the latest generation that has it, or in this one."""
        where, values = ("generation = ? AND entry = ?", (generation, entry))
        if generation is not None:
            return next(iter(self._runs(f"WHERE {where}", values)), None)
        for (one,) in self.connection.execute("SELECT DISTINCT generation FROM stores ORDER BY generation DESC").fetchall():
            found = self._runs(f"WHERE {where}", (one, entry))
            if found:
                return found[0]
        return None

    def open(self, limit: int = 1000) -> list[Run]:
        """Those that execute, the oldest first."""
        return self._runs("WHERE state IN ('acquired', 'runs') AND state = 'runs' ORDER BY fired LIMIT ?", (limit,))

    def count_open(self) -> int:
        return self._number("SELECT count(*) FROM executions WHERE state IN ('acquired', 'runs') AND state = 'runs'")

    def troubles(self, since: int, limit: int) -> list[Run]:
        """What failed, was lost, or whose end is missing, the latest first."""
        return self._runs(f"WHERE state IN ({TROUBLES}) AND fired >= ? ORDER BY fired DESC LIMIT ?", (since, limit))

    def troubles_of(self, job: str, since: int, limit: int) -> list[Run]:
        return self._runs(f"WHERE state IN ({TROUBLES}) AND job = ? AND fired >= ? ORDER BY fired DESC LIMIT ?", (job, since, limit))

    def latest(self, job: str) -> Run | None:
        """The last execution of a job that isn't open."""
        return next((run for run in self.recent(job, 20) if run.state != "runs"), None)

    def latest_done(self, job: str) -> Run | None:
        """The last execution of a job that is done, or ended, among the last ones."""
        return next((run for run in self.recent(job, 20) if run.state in ("done", "ended")), None)

    def in_span(self, since: int, until: int, limit: int) -> list[Run]:
        """What went on in a span, the latest first: what fired in it, and what fired before and hadn't ended."""
        found = self._runs("WHERE fired >= ? AND fired < ? ORDER BY fired DESC LIMIT ?", (since, until, limit))
        return found + [run for run in self.open() if run.fired is not None and run.fired < since]

    def of_job_in_span(self, job: str, since: int, until: int, limit: int) -> list[Run]:
        return self._runs("WHERE job = ? AND fired >= ? AND fired < ? ORDER BY fired DESC LIMIT ?", (job, since, until, limit))

    def of_node_in_span(self, node: str, since: int, until: int, limit: int) -> list[Run]:
        return self._runs("WHERE node = ? AND fired >= ? AND fired < ? ORDER BY fired DESC LIMIT ?", (node, since, until, limit))

    def listed(self, wanted: Wanted) -> list[Run]:
        """A page of a list, the latest first."""
        text, values = self._from(wanted)
        rows = self.connection.execute(f"SELECT {SELECTED} FROM {text} ORDER BY fired DESC, generation DESC, entry DESC LIMIT ?",
                                       (*values, wanted.limit))
        return [Run(*row) for row in rows]

    def count(self, wanted: Wanted, most: int) -> int:
        """How many a list has, counted up to a bound."""
        text, values = self._from(replace(wanted, before=None))
        return self._number(f"SELECT count(*) FROM (SELECT 1 FROM {text} LIMIT ?)", (*values, most))

    @staticmethod
    def _from(wanted: Wanted) -> tuple[str, list[object]]:
        """The rows that a list is of. Where no index has a result, it is looked for among so many of the last ones alone."""
        terms, values = ["fired >= ?"], list[object]([wanted.since])
        for term, value in (("job = ?", wanted.job), ("node = ?", wanted.node or None)):
            if value is not None:
                terms.append(term)
                values.append(value)
        if wanted.before is not None:
            terms.append("fired <= ? AND (fired, generation, entry) < (?, ?, ?)")
            values += [wanted.before[0], *wanted.before]
        if wanted.result in TROUBLE:
            terms.append(f"state IN ({TROUBLES}) AND state = '{wanted.result}'")
        elif wanted.result == "executing":
            terms.append("state IN ('acquired', 'runs') AND state = 'runs'")
        where = " AND ".join(terms)
        if wanted.result not in UNINDEXED:
            return f"executions WHERE {where}", values
        inner = f"SELECT {SELECTED} FROM executions WHERE {where} ORDER BY fired DESC, generation DESC, entry DESC LIMIT {LOOKED_AT}"
        return f"({inner}) WHERE {UNINDEXED[wanted.result]}", values

    def made_up_by(self, run: Run) -> Run | None:
        """The execution that makes up for a lost one, among the next ones of its job."""
        if run.job is None or run.fired is None:
            return None
        rest = "WHERE job = ? AND fired >= ? ORDER BY fired LIMIT 500"
        return next((one for one in self._runs(rest, (run.job, run.fired)) if one.recovers == run.entry
                     and one.generation == run.generation), None)

    def output(self, run: Run) -> tuple[int, bytes, int | None]:
        """How many bytes an execution wrote, the last of them, and when the last came."""
        row = self.connection.execute("SELECT end, data, at FROM outputs WHERE generation = ? AND entry = ?",
                                      (run.generation, run.entry)).fetchone()
        return (0, b"", None) if row is None else (row["end"], bytes(row["data"]), row["at"])

    def beside(self, run: Run) -> tuple[Run | None, Run | None]:
        """The execution of the same job before this one, and the one after."""
        if run.job is None or run.fired is None:
            return None, None
        key = (run.job, run.fired, run.fired, run.generation, run.entry)
        earlier = self._runs("WHERE job = ? AND fired <= ? AND (fired, generation, entry) < (?, ?, ?) "
                             "ORDER BY fired DESC, generation DESC, entry DESC LIMIT 1", key)
        later = self._runs("WHERE job = ? AND fired >= ? AND (fired, generation, entry) > (?, ?, ?) "
                           "ORDER BY fired, generation, entry LIMIT 1", key)
        return next(iter(earlier), None), next(iter(later), None)

    # -- the rest

    def events(self, kinds: Sequence[str], since: int, limit: int, job: str | None = None) -> list[sqlite3.Row]:
        more = "" if job is None else " AND job = ?"
        among = ", ".join("?" * len(kinds))
        return self.connection.execute(f"SELECT * FROM events WHERE kind IN ({among}) AND at >= ?{more} ORDER BY at DESC LIMIT ?",
                                       (*kinds, since, *(() if job is None else (job,)), limit)).fetchall()

    def count_events(self, kinds: Sequence[str], since: int) -> int:
        return self._number(f"SELECT count(*) FROM events WHERE kind IN ({', '.join('?' * len(kinds))}) AND at >= ?", (*kinds, since))

    def audit(self, before: int | None, limit: int) -> list[sqlite3.Row]:
        where = "" if before is None else "WHERE id < ?"
        return self.connection.execute(f"SELECT * FROM audit {where} ORDER BY id DESC LIMIT ?",
                                       (*(() if before is None else (before,)), limit)).fetchall()

    def audit_after(self, last: int, limit: int) -> list[sqlite3.Row]:
        return self.connection.execute("SELECT id, line, reply FROM audit WHERE id > ? ORDER BY id LIMIT ?", (last, limit)).fetchall()

    def last_audit(self) -> int:
        """The number of the last line that the audit has; 0 where it has none."""
        return self._number("SELECT max(id) FROM audit")

    def loads(self) -> dict[str, sqlite3.Row]:
        return {row["node"]: row for row in self.connection.execute("SELECT * FROM nodes ORDER BY node LIMIT 1000")}

    def stores(self) -> list[sqlite3.Row]:
        return self.connection.execute("SELECT * FROM stores ORDER BY generation DESC, name DESC LIMIT 50").fetchall()

    def oldest(self) -> int | None:
        row = self.connection.execute("SELECT fired FROM executions WHERE fired IS NOT NULL ORDER BY fired LIMIT 1").fetchone()
        return None if row is None else int(row[0])

    def bytes_used(self) -> int:
        size, count, free = (self._number(f"PRAGMA {name}") for name in ("page_size", "page_count", "freelist_count"))
        return size * (count - free)
