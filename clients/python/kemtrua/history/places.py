"""How far the database has read a store."""
from __future__ import annotations

import sqlite3
from dataclasses import dataclass


@dataclass(slots=True)
class Place:
    """A store of a generation, by the name of its folder. All its transactions up to `last` are known, and up to `exact` with the moments that it has.
    `reply` is what that one was answered. A store that is closed gets no further ones."""

    generation: int
    store: str
    last: int = 0
    exact: int = 0
    reply: str = ""
    closed: bool = False
    is_new: bool = True

    @classmethod
    def read(cls, connection: sqlite3.Connection, generation: int, store: str) -> Place:
        row = connection.execute("SELECT last, exact, reply, closed FROM stores WHERE generation = ? AND name = ?", (generation, store)).fetchone()
        return cls(generation, store) if row is None else cls(generation, store, row["last"], row["exact"], row["reply"], bool(row["closed"]), False)

    def write(self, connection: sqlite3.Connection) -> None:
        if self.store:
            connection.execute("INSERT OR REPLACE INTO stores VALUES (?, ?, ?, ?, ?, ?)",
                               (self.generation, self.store, self.last, self.exact, self.reply, int(self.closed)))


def unfinished(connection: sqlite3.Connection, generation: int) -> list[str]:
    """The stores of a generation of which something may not be known."""
    return [str(name) for (name,) in connection.execute("SELECT name FROM stores WHERE generation = ? AND closed = 0 ORDER BY name", (generation,))]


def follows_on_another(connection: sqlite3.Connection, generation: int) -> bool:
    """Whether the database knows an earlier generation and nothing of this one: then its store was restored."""
    known = {found for (found,) in connection.execute("SELECT DISTINCT generation FROM stores")}
    return bool(known) and generation > max(known)


def knows_former(connection: sqlite3.Connection, generation: int, store: str) -> bool:
    """Whether all is known of the store that was made before this one."""
    found = connection.execute("SELECT closed FROM stores WHERE generation = ? AND name < ? ORDER BY name DESC LIMIT 1", (generation, store)).fetchone()
    return found is not None and bool(found[0])
