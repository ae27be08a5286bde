"""A history goes to a second machine part by part: what is new of a hub's database, and how a standby keeps it."""
from __future__ import annotations

import base64
import contextlib
import json
import os
import sqlite3
import zlib
from collections.abc import Iterable
from dataclasses import asdict, dataclass, field

from .. import clock, durable, logs
from ..errors import KemtruaError
from . import keeping
from .executions import COLUMNS, Execution, load, put
from .schema import FILE, NoHistory, opened
from .settings import HistorySettings

log = logs.logger("kemtrua.history")

ROWS = 1000  # of a table, in a part at most
OUTPUTS = 2**22  # bytes of output in a part, at which no further execution is taken
LONG = 2**20  # characters of lines or events in a part, at which no further one is taken
MOST = 2**26  # bytes of a part that is taken
BEFORE = ".before"  # the ending of a database whose place another one took
WHOLE = {"nodes": ("node", "at", "workers", "runs", "skew"), "stores": ("generation", "name", "last", "exact", "reply", "closed"),
         "expected": ("name", "looked")}
BY_ID = {"events": ("id", "at", "kind", "generation", "entry", "trigger", "job", "node", "text", "waits"),
         "audit": ("id", "at", "who", "line", "reply")}
OF_OUTPUTS = ("generation", "entry", "end", "data", "at")
WAITS = "waits"  # in a part: kinds of events, each with the number of the first one that waits for an alert
TAKEN = "taken:"  # how the name of a position begins among the notes of a database, which its id follows
KNOWN = 50  # databases of which something was taken that are told, at most: each hub of a team has one
PIECE = 2**19  # characters of a part in one object
REPORTED_WITHIN = 7 * 86_400_000  # ms that a node keeps a report
TABLES = {"executions": tuple(COLUMNS), "outputs": OF_OUTPUTS, **BY_ID, **WHOLE, WAITS: ("kind", "id")}


Part = dict[str, list[list[object]]]


class BadPart(KemtruaError):
    """It is no part of a history that this version knows."""


@dataclass
class Position:
    """How far a history was shipped: of the database with this id, up to these rows, and executions that were fired since a moment alone. With
    `owes` the tables that go as a whole didn't yet."""

    id: str = ""
    since: int = 0
    execution: tuple[int, int, int] = (-1, 0, 0)  # the group, the generation and the entry of the last one
    rows: dict[str, int] = field(default_factory=lambda: dict.fromkeys(BY_ID, 0))  # the numbers of the last rows
    waits: list[list[object]] = field(default_factory=list)
    owes: bool = True

    @classmethod
    def of(cls, found: object) -> Position:
        """One that was told. Raises BadPart."""
        try:
            it = cls(**found)  # type: ignore[arg-type]
            group, generation, entry = map(int, it.execution)
            return cls(str(it.id), int(it.since), (group, generation, entry), {table: int(it.rows.get(table, 0)) for table in BY_ID}, list(it.waits), bool(it.owes))
        except (TypeError, ValueError, AttributeError):
            raise BadPart("it is no position in a history") from None


@dataclass(frozen=True)
class Sizes:
    """What a part has at most: rows of a table, bytes of output and characters of lines or events at which no further one is taken."""

    rows: int
    outputs: int
    long: int


FOR_A_HUB = Sizes(500, 2**19, 2**19)  # (the hub's interpreter does little else while a part is packed)


class Shipped:
    """What is shipped of a hub's history. It goes on where one of the known positions is of this database. Else it begins anew, with the executions
    that were fired since a moment."""

    def __init__(self, folder: str, known: Iterable[Position] = (), since: int = 0, sizes: Sizes | None = None):
        self._folder, self._since, self._problem = folder, since, ""
        self._known, self.position = {it.id: it for it in known}, Position()
        self._sizes, self._has_more = sizes or Sizes(ROWS, OUTPUTS, LONG), False

    def more(self) -> bytes | None:
        """The next part; None where all was shipped, or nothing can be read now."""
        try:
            found = self.rows()
        except (NoHistory, sqlite3.Error) as error:
            if str(error) != self._problem:
                self._problem = str(error)
                log.warning("the history isn't shipped meanwhile: %s", error)
            return None
        return None if found is None else json.dumps(found, separators=(",", ":")).encode()

    def rows(self) -> Part | None:
        """The rows of the next part, by table; None where all was shipped. Raises NoHistory and sqlite3.Error."""
        with contextlib.closing(opened(self._folder, make=False)) as connection:
            return self._part(connection)

    def _part(self, connection: sqlite3.Connection) -> Part | None:
        connection.execute("BEGIN")  # (all of it is of one moment)
        found = connection.execute("SELECT value FROM meta WHERE name = 'id'").fetchone()
        if found is None:
            return None  # (no hub of this version opened it yet)
        if found["value"] != self.position.id:
            self.position = self._known[found["value"]] if found["value"] in self._known else Position(found["value"], self._since)
        part: Part = {"executions": [], "outputs": []}
        self._has_more = False
        self._add_executions(connection, part)
        for table, columns in BY_ID.items():
            part[table] = self._of_table(connection, table, columns)
        waits = lists(connection.execute("SELECT kind, min(id) FROM events WHERE waits = 1 GROUP BY kind"))
        if not any(part.values()) and waits == self.position.waits and not self.position.owes:
            return None
        self.position.waits = part[WAITS] = waits
        self.position.owes = self._has_more
        if not self._has_more:  # (they say up to where all is known)
            for table, columns in WHOLE.items():
                part[table] = lists(connection.execute(f"SELECT {', '.join(columns)} FROM {table} LIMIT ?", (ROWS,)))
        return part

    def _add_executions(self, connection: sqlite3.Connection, part: Part) -> None:
        """Executions that changed, each with its output."""
        size = count = 0
        found = f"SELECT changed, {', '.join(COLUMNS)} FROM executions WHERE (changed, generation, entry) > (?, ?, ?) AND coalesce(fired, ?) >= ?"
        with_output = f"SELECT {', '.join(OF_OUTPUTS)} FROM outputs WHERE generation = ? AND entry = ?"
        since = self.position.since
        for row in connection.execute(f"{found} ORDER BY changed, generation, entry LIMIT ?", (*self.position.execution, since, since, self._sizes.rows)):
            self.position.execution, count = (row["changed"], row["generation"], row["entry"]), count + 1
            if row["fired"] is None:
                continue  # (what is given back is removed, and nobody would say so)
            part["executions"].append(list(row)[1:])
            output = connection.execute(with_output, self.position.execution[1:]).fetchone()
            if output is not None:
                size += len(output["data"])
                part["outputs"].append([base64.b64encode(it).decode() if isinstance(it, bytes) else it for it in output])
            if size >= self._sizes.outputs:
                break
        self._has_more |= count >= self._sizes.rows or size >= self._sizes.outputs

    def _of_table(self, connection: sqlite3.Connection, table: str, columns: tuple[str, ...]) -> list[list[object]]:
        """Rows that came since the last part."""
        (highest,) = connection.execute(f"SELECT coalesce(max(id), 0) FROM {table}").fetchone()
        if highest < self.position.rows[table]:
            self.position.rows[table] = 0  # (all were too old, and numbers begin anew)
        rows, size = list[list[object]](), 0
        later = f"SELECT {', '.join(columns)} FROM {table} WHERE id > ? ORDER BY id LIMIT ?"
        for row in connection.execute(later, (self.position.rows[table], self._sizes.rows)):
            rows.append(list(row))
            self.position.rows[table] = int(row["id"])
            size += sum(len(it) for it in row if isinstance(it, str))
            if size >= self._sizes.long:
                break
        self._has_more |= len(rows) >= self._sizes.rows or size >= self._sizes.long
        return rows


def told_in(folder: str, positions: list[object], since: int) -> list[dict[str, object]]:
    """The next part of a history for another hub, as objects: how far that is shipped then, and behind it the part in pieces. Nothing where all is
    shipped. Raises BadPart, and NoHistory."""
    shipped = Shipped(folder, map(Position.of, positions), since, FOR_A_HUB)
    try:
        part = shipped.rows()
    except sqlite3.Error as error:
        raise NoHistory(f"the history can't be read: {error}") from None
    if part is None:
        return []
    data = base64.b64encode(zlib.compress(json.dumps(part, separators=(",", ":")).encode(), 1)).decode()
    pieces: list[dict[str, object]] = [{"data": data[at : at + PIECE]} for at in range(0, len(data), PIECE)]
    return [{"position": asdict(shipped.position)}, *pieces]


def heard(objects: list[dict[str, object]]) -> tuple[object, Position]:
    """The part of such objects, and how far it is shipped then. Raises BadPart."""
    try:
        unpacking = zlib.decompressobj()
        data = unpacking.decompress(base64.b64decode("".join(str(one["data"]) for one in objects[1:])), MOST)
        if not unpacking.eof:
            raise BadPart("a part of a history is cut off, or too long")
        return json.loads(data), Position.of(objects[0]["position"])
    except (ValueError, KeyError, IndexError, zlib.error):
        raise BadPart("it is no part of a history") from None


class Kept:
    """The history in a standby's folder."""

    def __init__(self, folder: str):
        self._connection = opened(folder)

    def close(self) -> None:
        self._connection.close()

    def take(self, data: bytes) -> None:
        """Takes a part. Raises BadPart, and sqlite3.Error where it can't be written."""
        try:
            found = json.loads(data)
        except ValueError:
            raise BadPart("it is no part of a history") from None
        self.take_rows(found)

    def take_rows(self, found: object, position: Position | None = None) -> None:
        """The same of one that was read, which was shipped up to this position."""
        part = checked(found)
        self._connection.execute("BEGIN IMMEDIATE")
        try:
            waits, executions = part.pop(WAITS, []), part.pop("executions", [])
            self._put_executions([Execution(*row) for row in executions])  # type: ignore[arg-type]
            for table, rows in part.items():
                columns = TABLES[table]
                names, marks = ", ".join(columns), ", ".join("?" * len(columns))
                self._connection.executemany(f"INSERT OR REPLACE INTO {table} ({names}) VALUES ({marks})", rows)
            self._end_waits({row[0]: row[1] for row in waits})
            self._note("shipped", "1")
            if position is not None:
                self._note(TAKEN + position.id, json.dumps(asdict(position)))
                if not position.owes:
                    self._note("whole", str(self._connection.execute("SELECT coalesce(max(fired), 0) FROM executions").fetchone()[0]))
            self._connection.execute("COMMIT")
        except BaseException:
            self._connection.execute("ROLLBACK")
            raise
        usual = HistorySettings()
        keeping.delete_old(self._connection, clock.now(), usual.days, usual.bytes)

    def _put_executions(self, executions: list[Execution]) -> None:
        """Writes them as changed by one more group. What a node told here stays, where the hub that ships it doesn't know that."""
        (group,) = self._connection.execute("SELECT coalesce(max(changed), 0) + 1 FROM executions").fetchone()
        for it in executions:
            if it.told is None and (own := load(self._connection, it.generation, it.entry)) is not None and own.told is not None:
                it.take_report_of(own)
        put(self._connection, executions, group)

    def _end_waits(self, first: dict[object, object]) -> None:
        """Events that somebody was alerted of wait no more: those of each kind before the first one that waits."""
        for (kind,) in self._connection.execute("SELECT DISTINCT kind FROM events WHERE waits = 1").fetchall():
            told = (kind, first.get(kind, 2**62))
            self._connection.execute("UPDATE events SET waits = 0 WHERE kind = ? AND waits = 1 AND id < ?", told)

    # -- how far it was taken, of whom

    def positions(self) -> list[object]:
        """Those of databases of which something was taken, as they are told."""
        found = self._connection.execute("SELECT value FROM meta WHERE name LIKE ? LIMIT ?", (TAKEN + "%", KNOWN)).fetchall()
        return [json.loads(value) for (value,) in found]

    def since(self) -> int:
        """Executions that were fired before this moment have changed no more since all was taken once. 0 where that never was."""
        whole = self._connection.execute("SELECT value FROM meta WHERE name = 'whole'").fetchone()
        if whole is None:
            return 0
        (begun,) = self._connection.execute("SELECT min(fired) FROM executions WHERE state IN ('acquired', 'runs')").fetchone()
        return max(0, min(int(whole[0]) - REPORTED_WITHIN, int(whole[0]) if begun is None else int(begun)))

    def _note(self, name: str, value: str) -> None:
        self._connection.execute("INSERT OR REPLACE INTO meta VALUES (?, ?)", (name, value))


def rows_of(data: bytes) -> Part:
    """The rows of a part, by table. Raises BadPart."""
    try:
        return checked(json.loads(data))
    except ValueError:
        raise BadPart("it is no part of a history") from None


def checked(found: object) -> Part:
    """The same of one that was read."""
    try:
        part = {table: [list(row) for row in rows] for table, rows in found.items()}  # type: ignore[attr-defined]
        for row in part.get("outputs", ()):
            row[OF_OUTPUTS.index("data")] = base64.b64decode(str(row[OF_OUTPUTS.index("data")]).encode(), validate=True)
    except (ValueError, TypeError, AttributeError, IndexError):
        raise BadPart("it is no part of a history") from None
    for table, rows in part.items():
        if table not in TABLES or not all(is_row(row, len(TABLES[table])) for row in rows):
            raise BadPart(f"its table {table[:40]!r} is none that this version of kemtrua knows")
    return part


def lists(rows: Iterable[sqlite3.Row]) -> list[list[object]]:
    return [list(row) for row in rows]


def is_row(row: Iterable[object], count: int) -> bool:
    found = list(row)
    return len(found) == count and all(it is None or isinstance(it, (int, str, bytes)) for it in found)


def bring(source: str, home: str) -> bool:
    """Puts the history of a standby's folder in place in a hub's folder at which nobody works. One that was there is moved away. Whether
    there is one."""
    path, target = os.path.join(source, FILE), os.path.join(home, FILE)
    if not os.path.exists(path):
        return False
    new = f"{target}.new"
    durable.remove(new)
    with contextlib.closing(opened(source)) as old, contextlib.closing(sqlite3.connect(new)) as made:
        old.backup(made)
        made.execute("PRAGMA journal_mode=WAL")
    durable.own_as_folder(new)
    durable.sync(new)
    for ending in ("-shm", "-wal", ""):
        if os.path.exists(target + ending):
            os.replace(target + ending, target + BEFORE + ending)
    os.replace(new, target)
    durable.sync(home)
    return True
