"""The tables of `history.db`, and how it is opened.

An execution's key is the team's generation and the entry number. Keys of jobs and triggers stand as replies print them: GROUP/NAME, escaped.
Moments are in ms since 1970. All but `outputs`, `nodes` and `audit` comes from the store; what a node told of an execution stands beside it.
"""
from __future__ import annotations

import os
import sqlite3

from .. import logs
from ..errors import KemtruaError

log = logs.logger("kemtrua.history")

FILE = "history.db"
SPOILED = ".spoiled"  # the ending of a database that was moved away
FORMAT = 2
READABLE = (1, 2)  # formats that are read; a hub brings the first one up to date

TABLES = """
CREATE TABLE meta (name TEXT PRIMARY KEY, value TEXT NOT NULL) WITHOUT ROWID;
CREATE TABLE stores (
    generation INTEGER NOT NULL, name TEXT NOT NULL,  -- the folder of the store
    last INTEGER NOT NULL,                            -- all transactions up to this number are in
    exact INTEGER NOT NULL,                           -- and up to this one with the moments that the store has
    reply TEXT NOT NULL,                              -- what that one was answered
    closed INTEGER NOT NULL,                          -- all of it is in, and nothing more will come
    PRIMARY KEY (generation, name)) WITHOUT ROWID;
CREATE TABLE executions (
    generation INTEGER NOT NULL, entry INTEGER NOT NULL, trigger TEXT NOT NULL, job TEXT, class TEXT, node TEXT NOT NULL, epoch INTEGER,
    scheduled INTEGER, fired INTEGER, ended INTEGER, ended_by INTEGER,  -- the number of the transaction that ended it
    refires INTEGER NOT NULL DEFAULT 0, code TEXT, recovers INTEGER, state TEXT NOT NULL,
    ok INTEGER, status INTEGER, signal INTEGER, ms INTEGER, cpu INTEGER, peak INTEGER, why TEXT, most INTEGER, told INTEGER,
    changed INTEGER NOT NULL DEFAULT 0,  -- the number of the group that wrote it last: for standbys
    PRIMARY KEY (generation, entry)) WITHOUT ROWID;
CREATE INDEX by_change ON executions (changed);
CREATE INDEX by_fired ON executions (fired);
CREATE INDEX by_job ON executions (job, fired);
CREATE INDEX by_node ON executions (node, fired);
CREATE INDEX by_trouble ON executions (fired) WHERE state IN ('failed', 'lost', 'missing');
CREATE INDEX by_trouble_of_job ON executions (job, fired) WHERE state IN ('failed', 'lost', 'missing');
CREATE INDEX by_trouble_of_node ON executions (node, fired) WHERE state IN ('failed', 'lost', 'missing');
CREATE INDEX by_open ON executions (state) WHERE state IN ('acquired', 'runs');
CREATE TABLE outputs (generation INTEGER NOT NULL, entry INTEGER NOT NULL, end INTEGER NOT NULL, data BLOB NOT NULL, at INTEGER NOT NULL,
    PRIMARY KEY (generation, entry));
CREATE INDEX by_age ON outputs (at);
CREATE TABLE triggers (key TEXT PRIMARY KEY, job TEXT NOT NULL) WITHOUT ROWID;
CREATE INDEX of_job ON triggers (job);
CREATE TABLE jobs (key TEXT PRIMARY KEY, class TEXT NOT NULL) WITHOUT ROWID;
CREATE TABLE events (
    id INTEGER PRIMARY KEY, at INTEGER NOT NULL, kind TEXT NOT NULL, generation INTEGER, entry INTEGER, trigger TEXT, job TEXT, node TEXT,
    text TEXT NOT NULL, waits INTEGER NOT NULL);      -- waits: nobody was alerted yet who is to be
CREATE INDEX events_at ON events (at);
CREATE INDEX events_waiting ON events (kind) WHERE waits = 1;
CREATE INDEX events_of_job ON events (job, at);
CREATE TABLE audit (id INTEGER PRIMARY KEY, at INTEGER NOT NULL, who TEXT, line TEXT NOT NULL, reply TEXT NOT NULL);
CREATE INDEX audit_at ON audit (at);
CREATE INDEX audit_by ON audit (who, at);
CREATE TABLE nodes (node TEXT PRIMARY KEY, at INTEGER NOT NULL, workers INTEGER, runs INTEGER, skew INTEGER) WITHOUT ROWID;
CREATE TABLE expected (name TEXT PRIMARY KEY, looked INTEGER NOT NULL) WITHOUT ROWID;
"""

TO_TWO = """
ALTER TABLE executions ADD COLUMN changed INTEGER NOT NULL DEFAULT 0;
CREATE INDEX by_change ON executions (changed);
"""
IDENTITY = "INSERT INTO meta VALUES ('id', lower(hex(randomblob(16))));"  # so that a standby sees where the database was made anew

# What the state of an execution says. `ended`: the store has its end, and no node told how it went. `missing`: its end isn't known.
STATES = ("acquired", "runs", "done", "failed", "ended", "lost", "missing")
TROUBLE = ("failed", "lost", "missing")


class NoHistory(KemtruaError):
    """The database can't be opened."""


def opened(folder: str, *, make: bool = True) -> sqlite3.Connection:
    """The database of a hub's folder. With `make` it is made where it isn't there, and one that is spoiled is moved away. Raises NoHistory."""
    path = os.path.join(folder, FILE)
    try:
        return _opened(path, make)
    except NoHistory as error:
        if not make or not isinstance(error.__cause__, sqlite3.DatabaseError) or isinstance(error.__cause__, sqlite3.OperationalError):
            raise
        log.error("%s; it is moved away to %s%s", error, FILE, SPOILED)
        os.replace(path, path + SPOILED)
        return _opened(path, make)


def _opened(path: str, make: bool) -> sqlite3.Connection:
    try:
        if make and not os.path.exists(path):
            _make(path)
        try:
            return _connected(path, "mode=rw" if make else "mode=ro", 30.0 if make else 5.0)
        except sqlite3.OperationalError:
            # (SQLite makes files beside one that it reads. Whoever may not do that reads it as it is, where no hub works on it.)
            if make or os.path.exists(f"{path}-wal") or not os.path.exists(path):
                raise
            return _connected(path, "mode=ro&immutable=1", 5.0)
    except sqlite3.Error as error:
        raise NoHistory(f"{path} can't be opened: {error}") from error


def _connected(path: str, how: str, timeout: float) -> sqlite3.Connection:
    connection = sqlite3.connect(f"file:{_escaped(path)}?{how}", uri=True, isolation_level=None, check_same_thread=False, timeout=timeout)
    connection.row_factory = sqlite3.Row
    (form,) = connection.execute("PRAGMA user_version").fetchone()
    connection.execute("SELECT count(*) FROM sqlite_master").fetchone()
    if form not in READABLE:
        raise NoHistory(f"{path} has the format {form}, and this version of kemtrua knows {FORMAT}: use the version that made it, or move it away")
    if form != FORMAT and how == "mode=rw":
        connection.executescript(f"BEGIN IMMEDIATE; {TO_TWO} {IDENTITY} PRAGMA user_version={FORMAT}; COMMIT;")
    return connection


def _make(path: str) -> None:
    """Makes the database beside its place, and moves it there: nobody sees one that isn't whole."""
    new = f"{path}.new"
    for name in (new, f"{new}-journal", f"{new}-wal", f"{path}-wal", f"{path}-shm"):
        if os.path.exists(name):
            os.remove(name)
    connection = sqlite3.connect(new, isolation_level=None)
    connection.execute("PRAGMA auto_vacuum=INCREMENTAL")
    connection.executescript(f"BEGIN; {TABLES} {IDENTITY} PRAGMA user_version={FORMAT}; COMMIT;")
    connection.execute("PRAGMA journal_mode=WAL")
    connection.close()
    os.replace(new, path)


def _escaped(path: str) -> str:
    return path.replace("%", "%25").replace("?", "%3f").replace("#", "%23")
