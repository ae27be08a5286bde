"""How long what ran is kept, and the room that it takes."""
from __future__ import annotations

import os
import sqlite3

DAY = 86_400_000  # ms
AT_ONCE = 2000  # rows that are deleted at once
PAGES = 2000  # pages that are given back to the disk at once


def used(connection: sqlite3.Connection) -> int:
    """The bytes of the database that are in use."""
    size, count, free = (connection.execute(f"PRAGMA {name}").fetchone()[0] for name in ("page_size", "page_count", "freelist_count"))
    return int(size * (count - free))


def size_of(path: str) -> int:
    """The bytes of the files of a database."""
    return sum(os.path.getsize(it) for it in (path, f"{path}-wal") if os.path.exists(it))


def delete_old(connection: sqlite3.Connection, now: int, days: float, most: int) -> bool:
    """Deletes some of what is older than so many days, or, where the database has more bytes than it may, some of the oldest. Whether more is to be deleted."""
    before = now - round(days * DAY)
    if not _delete_before(connection, before):
        if used(connection) <= most:
            connection.execute(f"PRAGMA incremental_vacuum({PAGES})").fetchall()
            return False
        oldest = connection.execute("SELECT fired FROM executions WHERE fired IS NOT NULL ORDER BY fired LIMIT 1 OFFSET ?", (AT_ONCE,)).fetchone()
        if oldest is None:
            oldest = connection.execute("SELECT max(at) FROM audit").fetchone()
        if oldest[0] is None or not _delete_before(connection, oldest[0]):
            return False
    return True


def _delete_before(connection: sqlite3.Connection, moment: int) -> bool:
    """Deletes a number of rows from before this moment; what runs stays. Whether there were any."""
    keys = connection.execute("SELECT generation, entry FROM executions WHERE fired < ? AND state NOT IN ('acquired', 'runs') ORDER BY fired LIMIT ?",
                              (moment, AT_ONCE)).fetchall()
    connection.execute("BEGIN")
    try:
        for table in ("outputs", "executions"):
            connection.executemany(f"DELETE FROM {table} WHERE generation = ? AND entry = ?", [tuple(key) for key in keys])
        gone = len(keys)
        for table, key in (("events", "id"), ("audit", "id")):
            gone += connection.execute(f"DELETE FROM {table} WHERE {key} IN (SELECT {key} FROM {table} WHERE at < ? ORDER BY at LIMIT ?)", (moment, AT_ONCE)).rowcount
        connection.execute("DELETE FROM expected WHERE looked < ?", (moment,))
        connection.execute("COMMIT")
    except BaseException:
        connection.execute("ROLLBACK")
        raise
    return gone > 0


def vacuum(connection: sqlite3.Connection) -> None:
    """Rewrites the database without what it doesn't use."""
    connection.execute("VACUUM")
    connection.execute("PRAGMA wal_checkpoint(TRUNCATE)").fetchall()
