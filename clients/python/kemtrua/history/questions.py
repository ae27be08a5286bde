"""What can be asked of the database. Each question has an index, and a bound on its answer."""
from __future__ import annotations

import json
import sqlite3
from dataclasses import dataclass

from . import outputs
from .executions import COLUMNS
from .schema import TROUBLE, opened

MOST = 1000  # rows of an answer
RINGS = {"late": ("late", "misfired")}  # the kinds of events for which there is one alert
SELECTED = ", ".join(COLUMNS)
Object = dict[str, object]


@dataclass(frozen=True)
class Filter:
    """Which executions are asked for: of a job, of a node, that began in a span of time, or that didn't end as they should; the latest come first."""

    job: str | None = None
    node: str | None = None
    since: int | None = None
    until: int | None = None
    failed: bool = False
    limit: int = MOST
    before: tuple[int, int, int] | None = None  # what came last in the answer before: its fired moment, generation and entry


class Questions:
    """One connection that only reads."""

    def __init__(self, folder: str):
        self._connection = opened(folder, make=False)

    def __enter__(self) -> Questions:
        return self

    def __exit__(self, *_: object) -> None:
        self._connection.close()

    def executions(self, asked: Filter) -> list[Object]:
        terms: list[str] = ["fired IS NOT NULL"]
        values: list[object] = []
        for term, value in (("job = ?", asked.job), ("node = ?", asked.node), ("fired >= ?", asked.since), ("fired < ?", asked.until)):
            if value is not None:
                terms.append(term)
                values.append(value)
        if asked.failed:
            terms.append(f"state IN ({', '.join(repr(state) for state in TROUBLE)})")
        if asked.before is not None:
            terms.append("fired <= ? AND (fired, generation, entry) < (?, ?, ?)")
            values += [asked.before[0], *asked.before]
        found = self._connection.execute(f"SELECT {SELECTED} FROM executions WHERE {' AND '.join(terms)} ORDER BY fired DESC, generation DESC, entry DESC LIMIT ?",
                                         (*values, min(max(asked.limit, 1), MOST)))
        return [execution(row) for row in found]

    def execution(self, entry: int, generation: int | None = None) -> Object | None:
        """The execution of an entry number, in the latest generation that has it, or in this one."""
        if generation is None:
            row = self._latest(entry)
        else:
            row = self._connection.execute(f"SELECT {SELECTED} FROM executions WHERE generation = ? AND entry = ?", (generation, entry)).fetchone()
        return None if row is None else execution(row)

    def _latest(self, entry: int) -> sqlite3.Row | None:
        for (generation,) in self._connection.execute("SELECT DISTINCT generation FROM stores ORDER BY generation DESC").fetchall():
            row: sqlite3.Row | None = self._connection.execute(f"SELECT {SELECTED} FROM executions WHERE generation = ? AND entry = ?", (generation, entry)).fetchone()
            if row is not None:
                return row
        return None

    def output(self, generation: int, entry: int) -> tuple[int, bytes]:
        """How many bytes an execution wrote, as far as its node told, and the last of them."""
        row = self._connection.execute("SELECT end, data FROM outputs WHERE generation = ? AND entry = ?", (generation, entry)).fetchone()
        return (0, b"") if row is None else (row["end"], bytes(row["data"]))

    def last(self) -> list[Object]:
        """The last execution of each job."""
        jobs = self._connection.execute("""
            WITH RECURSIVE found (job) AS (
                SELECT min(job) FROM executions UNION ALL
                SELECT (SELECT min(job) FROM executions WHERE executions.job > found.job) FROM found WHERE found.job IS NOT NULL)
            SELECT job FROM found WHERE job IS NOT NULL""").fetchall()
        rows = (self._connection.execute(f"SELECT {SELECTED} FROM executions WHERE job = ? AND fired IS NOT NULL ORDER BY fired DESC LIMIT 1", (job,)).fetchone()
                for (job,) in jobs)
        return [execution(row) for row in rows if row is not None]

    def audit(self, since: int | None, by: str | None, limit: int, before: int | None) -> list[Object]:
        terms: list[str] = ["1"]
        values: list[object] = []
        if by is not None:
            through = f"certificate {by}, through "  # (through a page in the browser)
            terms.append("(who IN (?, ?) OR who >= ? AND who < ?)")
            values += [f"user {by}", f"certificate {by}", through, through[:-1] + "!"]
        for term, value in (("at >= ?", since), ("id < ?", before)):
            if value is not None:
                terms.append(term)
                values.append(value)
        found = self._connection.execute(f"SELECT * FROM audit WHERE {' AND '.join(terms)} ORDER BY at DESC, id DESC LIMIT ?", (*values, min(max(limit, 1), MOST)))
        return [{name: row[name] for name in ("id", "at", "who", "line", "reply")} for row in found]

    def events(self, kinds: tuple[str, ...], since: int, job: str | None = None, limit: int = MOST) -> list[Object]:
        marks, more = ", ".join("?" * len(kinds)), " AND job = ?" if job is not None else ""
        found = self._connection.execute(f"SELECT * FROM events WHERE kind IN ({marks}) AND at >= ?{more} ORDER BY at DESC LIMIT ?",
                                         (*kinds, since, *((job,) if job is not None else ()), min(limit, MOST)))
        return [{name: row[name] for name in ("id", "at", "kind", "generation", "entry", "trigger", "job", "node", "text")} for row in found]

    def nodes(self) -> list[Object]:
        return [dict(row) for row in self._connection.execute("SELECT * FROM nodes ORDER BY node LIMIT ?", (MOST,))]

    def waiting(self, kind: str) -> tuple[int, Object] | None:
        """How many events of a kind wait for an alert, and the latest of them."""
        marks = ", ".join("?" * len(kinds := RINGS.get(kind, (kind,))))
        (count,) = self._connection.execute(f"SELECT count(*) FROM events WHERE kind IN ({marks}) AND waits = 1", kinds).fetchone()
        row = self._connection.execute(f"SELECT * FROM events WHERE kind IN ({marks}) AND waits = 1 ORDER BY id DESC LIMIT 1", kinds).fetchone()
        return None if row is None else (count, dict(row))


ALWAYS = frozenset(("generation", "entry", "trigger", "job", "node", "scheduled", "fired", "ended", "refires", "state"))
TELLS = [None if name in ("ended_by", "told") else name for name in COLUMNS]


def execution(row: sqlite3.Row) -> Object:
    """An execution as an object. What isn't known is left out, but for what each one has."""
    found: Object = {name: value for name, value in zip(TELLS, row) if name is not None and (value is not None or name in ALWAYS)}
    if "ok" in found:
        found["ok"] = bool(found["ok"])
    return found


def line_of(found: Object) -> bytes:
    """An object as a line, in ASCII: no name in it can be taken for anything else."""
    return json.dumps(found, separators=(",", ":")).encode()


def log_of(found: Object, end: int, data: bytes, after: int) -> Object:
    """What an execution wrote behind an offset, as far as it is kept."""
    begin = max(end - len(data), min(after, end))
    return {**found, "from": begin, "end": end, "data": outputs.text_of(data[len(data) - (end - begin):])}
