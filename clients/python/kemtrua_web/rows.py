"""The rows of the store, as the hub lists them, in a small database of this process's own: so a page of 100,000 jobs reads 50 of them."""
from __future__ import annotations

import os
import shutil
import sqlite3
import tempfile
import threading
import time
from collections.abc import Iterable, Sequence

from kemtrua import clock, logs
from kemtrua.errors import KemtruaError
from kemtrua.names import Key, unescape
from kemtrua.rows import number_or_none

from .asking import Hub

log = logs.logger("kemtrua.web")

TABLES = """
CREATE TABLE lines (line TEXT PRIMARY KEY) WITHOUT ROWID;
CREATE TABLE jobs (key TEXT PRIMARY KEY, grp TEXT, name TEXT, folded TEXT, class TEXT, durable INTEGER, exclusive INTEGER,
    recover INTEGER, next INTEGER) WITHOUT ROWID;
CREATE INDEX by_group ON jobs (grp, key);
CREATE INDEX by_next ON jobs (next, key);
CREATE TABLE triggers (key TEXT PRIMARY KEY, job TEXT, state TEXT, next INTEGER, prev INTEGER, times INTEGER, priority INTEGER,
    start INTEGER, kind TEXT, count INTEGER) WITHOUT ROWID;
CREATE INDEX of_job ON triggers (job);
CREATE INDEX by_state ON triggers (state, next);
CREATE TABLE fired (entry INTEGER PRIMARY KEY, node TEXT, epoch INTEGER, trigger TEXT, state TEXT, scheduled INTEGER, at INTEGER);
CREATE TABLE members (node TEXT PRIMARY KEY, epoch INTEGER);
CREATE TABLE checkins (node TEXT PRIMARY KEY, last INTEGER, interval INTEGER);
CREATE TABLE others (word TEXT, rest TEXT, PRIMARY KEY (word, rest)) WITHOUT ROWID;
"""
FRESH, QUICK = 3.0, 0.5  # seconds that rows are taken as they are, and that a list may take so that whoever asks waits for it
REST = 20.0  # after a list nothing is listed for so many times as long: a hub is asked one twentieth of the time at most
TRIES = 2.0  # seconds between two tries of a hub that isn't reached
NEXT_OF = "(SELECT min(next) FROM triggers INDEXED BY of_job WHERE job = {} AND state IN ('WAITING', 'ACQUIRED', 'BLOCKED'))"
ALL_AT_ONCE = 5000  # jobs with changes, from which on all are looked at
KEYS = {"jobs": ["key"], "triggers": ["key"], "fired": ["entry"], "members": ["node"], "checkins": ["node"], "others": ["word", "rest"]}


class Rows:
    """Who lists, keeps what was listed, and knows when that was."""

    def __init__(self, hub: Hub):
        self._hub = hub
        self._folder = tempfile.mkdtemp(prefix="kemtrua-web-")
        self.path = os.path.join(self._folder, "rows.db")
        self._lock = threading.Lock()
        self._known: set[str] = set()
        self._looked = self._took = float("-inf")
        self.as_of: int | None = None  # the moment of the last list
        with self.connect(writes=True) as connection:
            connection.executescript(f"PRAGMA journal_mode=WAL; PRAGMA synchronous=OFF; BEGIN; {TABLES} COMMIT;")
        connection.close()

    def close(self) -> None:
        shutil.rmtree(self._folder, ignore_errors=True)

    def connect(self, writes: bool = False) -> sqlite3.Connection:
        mode = "rwc" if writes else "ro"
        connection = sqlite3.connect(f"file:{self.path}?mode={mode}", uri=True, isolation_level=None, timeout=30, check_same_thread=False)
        connection.row_factory = sqlite3.Row
        return connection

    @property
    def is_quick(self) -> bool:
        return self._took <= QUICK

    def refresh(self) -> None:
        """Lists where that is due. Whoever asks waits, unless lists take long; then a thread of its own does it."""
        if time.monotonic() - self._looked < max(FRESH, REST * self._took):
            return
        if self.is_quick or self.as_of is None:
            self.look()
        elif self._lock.acquire(blocking=False):
            self._lock.release()
            threading.Thread(target=self.look, name="list", daemon=True).start()

    def forget_age(self) -> None:
        """Has the next page list, since something was changed."""
        self._looked = float("-inf")

    def look(self) -> None:
        """Lists now. Where the hub isn't reached, the rows stay as they were."""
        with self._lock:
            if time.monotonic() - self._looked < FRESH:
                return
            begun = time.monotonic()
            try:
                present = clock.now()
                self._take(self._hub.listed())
                self.as_of, self._took = present, time.monotonic() - begun
            except KemtruaError as error:
                log.warning("the rows can't be listed: %s", error)
                self._looked = time.monotonic() - FRESH + TRIES
                return
            self._looked = time.monotonic()

    def _take(self, lines: Sequence[str]) -> None:
        """Puts what changed since the last list."""
        now = set(lines)
        gone, new = self._known - now, now - self._known
        connection = self.connect(writes=True)
        try:
            connection.execute("BEGIN")
            changed = set[str]()
            for removed, group in ((True, gone), (False, new)):
                changed |= _put(connection, group, removed)
            if len(changed) > ALL_AT_ONCE:
                connection.execute(f"UPDATE jobs SET next = {NEXT_OF.format('jobs.key')}")
            else:
                connection.executemany(f"UPDATE jobs SET next = {NEXT_OF.format('?')} WHERE key = ?", [(job, job) for job in changed])
            connection.execute("COMMIT")
        finally:
            connection.close()
        self._known = now


def _put(connection: sqlite3.Connection, lines: Iterable[str], removed: bool) -> set[str]:
    """Puts rows, or takes them away. Gives the jobs whose next time may be another one now."""
    found: dict[str, list[tuple[object, ...]]] = {}
    for line in lines:
        table, values = values_of(line)
        found.setdefault(table, []).append(values)
    for table, several in found.items():
        if removed:
            where = " AND ".join(f"{key} = ?" for key in KEYS[table])
            connection.executemany(f"DELETE FROM {table} WHERE {where}", [values[:len(KEYS[table])] for values in several])
        else:
            connection.executemany(f"INSERT OR REPLACE INTO {table} VALUES ({', '.join('?' * len(several[0]))})", several)
    added = () if removed else found.get("jobs", ())
    return {str(values[1]) for values in found.get("triggers", ())} | {str(values[0]) for values in added}


def values_of(line: str) -> tuple[str, tuple[object, ...]]:
    """The table and the columns of a line of a list. (`kemtrua.rows` has the rows as objects; for 200,000 lines that takes ten times as
    long.)"""
    word, *words = line.split()
    if word == "trigger":
        count = int(words[15]) if len(words) > 15 else None
        return "triggers", (words[0], words[2], words[3], number_or_none(words[5]), number_or_none(words[7]), int(words[9]),
                            int(words[11]), int(words[13]), words[14], count)
    if word == "job":
        key = Key.of_word(words[0]) if "%" in words[0] else Key(*words[0].split("/", 1))
        return "jobs", (words[0], key.group, key.name, f"{key.group}/{key.name}".casefold(), unescape(words[1]), int(words[3]),
                        int(words[5]), int(words[7]), None)
    if word == "fired":
        return "fired", (int(words[0]), unescape(words[1]), int(words[2]), words[3], words[4], int(words[6]), number_or_none(words[8]))
    if word == "member":
        return "members", (unescape(words[0]), int(words[1]))
    if word == "state":
        return "checkins", (unescape(words[0]), int(words[2]), int(words[4]))
    return "others", (word, " ".join(words))


class Store:
    """One connection to the rows, which only reads."""

    def __init__(self, rows: Rows):
        self.as_of = rows.as_of
        self.connection = rows.connect()

    def __enter__(self) -> Store:
        return self

    def __exit__(self, *_: object) -> None:
        self.close()

    def close(self) -> None:
        self.connection.close()

    def _all(self, text: str, values: Sequence[object] = ()) -> list[sqlite3.Row]:
        return self.connection.execute(text, values).fetchall()

    def _number(self, text: str, values: Sequence[object] = ()) -> int:
        return int(self.connection.execute(text, values).fetchone()[0] or 0)

    def job(self, key: str) -> sqlite3.Row | None:
        return next(iter(self._all("SELECT * FROM jobs WHERE key = ?", (key,))), None)

    def triggers_of(self, job: str) -> list[sqlite3.Row]:
        return self._all("SELECT * FROM triggers WHERE job = ? ORDER BY key LIMIT 200", (job,))

    def trigger(self, key: str) -> sqlite3.Row | None:
        return next(iter(self._all("SELECT * FROM triggers WHERE key = ?", (key,))), None)

    def count(self, table: str) -> int:
        assert table in ("jobs", "triggers", "fired", "members", "checkins")
        return self._number(f"SELECT count(*) FROM {table}")

    def count_others(self, word: str) -> int:
        return self._number("SELECT count(*) FROM others WHERE word = ?", (word,))

    def groups(self, limit: int = 200) -> list[str]:
        return [row[0] for row in self._all("SELECT DISTINCT grp FROM jobs ORDER BY grp LIMIT ?", (limit,))]

    def in_state(self, states: Sequence[str], limit: int = 1000) -> list[sqlite3.Row]:
        return self._all(f"SELECT * FROM triggers WHERE state IN ({', '.join('?' * len(states))}) ORDER BY state, next LIMIT ?",
                         (*states, limit))

    def overdue(self, before: int, limit: int = 1000) -> list[sqlite3.Row]:
        return self._all("SELECT * FROM triggers WHERE state = 'WAITING' AND next < ? ORDER BY next LIMIT ?", (before, limit))

    def next_to_fire(self, after: int, limit: int) -> list[sqlite3.Row]:
        return self._all("SELECT * FROM jobs WHERE next >= ? ORDER BY next, key LIMIT ?", (after, limit))

    def paused_jobs(self, limit: int = 1000) -> list[str]:
        found = self._all("SELECT DISTINCT job FROM triggers WHERE state IN ('PAUSED', 'PAUSED_BLOCKED') ORDER BY job LIMIT ?", (limit,))
        return [row[0] for row in found]

    def count_paused_jobs(self) -> int:
        return self._number("SELECT count(DISTINCT job) FROM triggers WHERE state IN ('PAUSED', 'PAUSED_BLOCKED')")

    def nodes(self) -> list[sqlite3.Row]:
        """All members, and all nodes with a check-in."""
        return self._all("SELECT node, max(epoch) AS epoch, max(last) AS last, max(interval) AS interval, "
                         "(SELECT count(*) FROM fired WHERE fired.node = both.node AND fired.state = 'EXECUTING') AS executes FROM ("
                         "SELECT node, epoch, NULL AS last, NULL AS interval FROM members UNION ALL "
                         "SELECT node, NULL, last, interval FROM checkins) AS both GROUP BY node ORDER BY node LIMIT 1000")

    def find(self, text: str, group: str, keys: Sequence[str] | None, after: str, limit: int) -> list[sqlite3.Row]:
        """A page of jobs, by their keys."""
        where, values = self._where(text, group, keys)
        return self._all(f"SELECT * FROM jobs WHERE {where} AND key > ? ORDER BY key LIMIT ?", (*values, after, limit))

    def find_by_next(self, text: str, group: str, keys: Sequence[str] | None, after: tuple[int, str], limit: int) -> list[sqlite3.Row]:
        """A page of jobs that fire again, the next ones first."""
        where, values = self._where(text, group, keys)
        return self._all(f"SELECT * FROM jobs WHERE {where} AND next >= ? AND (next, key) > (?, ?) ORDER BY next, key LIMIT ?",
                         (*values, after[0], *after, limit))

    def count_found(self, text: str, group: str, keys: Sequence[str] | None) -> int:
        where, values = self._where(text, group, keys)
        return self._number(f"SELECT count(*) FROM jobs WHERE {where}", values)

    @staticmethod
    def _where(text: str, group: str, keys: Sequence[str] | None) -> tuple[str, list[object]]:
        terms, values = ["1"], list[object]()
        if text:
            terms.append("instr(folded, ?) > 0")
            values.append(text.casefold())
        if group:
            terms.append("grp = ?")
            values.append(group)
        if keys is not None:
            terms.append(f"key IN ({', '.join('?' * len(keys))})" if keys else "0")
            values += keys
        return " AND ".join(terms), values


def key_of(group: str, name: str) -> str:
    return str(Key(group, name))
