"""The thread that writes the database: what came in since it looked last is one group, and one transaction of the database."""
from __future__ import annotations

import json
import os
import sqlite3
import threading
import time
from collections import deque
from collections.abc import Callable
from concurrent.futures import Future
from dataclasses import dataclass

from .. import clock, logs
from ..errors import KemtruaError
from . import keeping
from .places import Place
from .schema import FILE, NoHistory, opened
from .story import Story
from .transactions import Transaction, learns

log = logs.logger("kemtrua.history")

GATHER = 0.05  # seconds that a group gathers
GROUP = 1000  # things of a group at most
MOST = 200_000  # things that wait; what comes then is passed over, and filled in from the store's history
REST = 2.0  # seconds until a group that couldn't be written is tried again
SAY_AGAIN = 600.0  # seconds between two lines of the log about the same trouble
LOOK_AT_AGE = 600.0  # seconds between two looks at what is too old
LOOK_AGAIN = 5.0  # seconds until the thread looks whether the database is there, where nothing comes


@dataclass(slots=True)
class Task:
    """Something to be done in the writer's thread. `done` gets its result once that is in the database."""

    work: Callable[[Writer], object]
    done: Future[object] | None = None
    syncs: bool = False
    is_sql: bool = False  # it is of the database alone, so it is done again with a group that is written again


# A transaction that was answered: since which opening of the store, the so-many-th since then, when, the line's bytes, the reply, and the epoch of the node. (It is
# made at each answer, so it is no more than that.)
Told = tuple[int, int, int, bytes, str, "int | None"]


class Writer:
    """Whoever has something for it calls `put`, from any thread, and doesn't wait. `days` and `bytes` are what is kept."""

    def __init__(self, folder: str, generation: int, days: float, most: int):
        self.folder, self.generation, self.days, self.most = folder, generation, days, most
        self._items: deque[tuple[int, Task | Told]] = deque()  # each with its number
        self._changed = threading.Condition()
        self._count = 0  # the number of the last thing that came, also of one that was passed over
        self._missing = 0  # the last one at which something was found missing; 0 where nothing is
        self._ending = False
        self._opening, self._base = 0, 0
        self.has_word = True  # the program tells its history
        self.place = Place(generation, "")
        self._said: dict[str, float] = {}
        self._inode = 0
        self._looked = 0.0
        self.connection = self._connect()
        self.story = Story(self.connection, generation, clock.now)
        self._thread = threading.Thread(target=self._run, name="history", daemon=True)

    def start(self) -> None:
        self._thread.start()

    def tell(self, told: Told) -> None:
        if len(self._items) >= MOST:
            self.miss()
        else:
            self.put(told)

    def put(self, item: Task | Told) -> None:
        with self._changed:
            self._count += 1
            self._items.append((self._count, item))
            if len(self._items) == 1:
                self._changed.notify()

    # -- what is missing

    @property
    def lags(self) -> bool:
        """Something was passed over, and isn't filled in yet."""
        return self._missing > 0

    def miss(self, number: int | None = None) -> None:
        """Something is missing that came before the thing of this number, or just now: it is to be filled in."""
        with self._changed:
            if number is None:
                self._count += 1
                number = self._count
            self._missing = max(self._missing, number)

    def mark(self) -> int:
        """To be asked before a store is copied: what came so far is in the copy, and what comes from now on may not be."""
        with self._changed:
            return self._count

    def filled(self, mark: int) -> None:
        """What was missing when this mark was given isn't any more."""
        with self._changed:
            if self._missing <= mark:
                self._missing = 0

    def do(self, work: Callable[[Writer], object], syncs: bool = False, is_sql: bool = False) -> Future[object]:
        """Has something done in its turn. With `syncs` it is on the disk when it is told."""
        done: Future[object] = Future()
        done.set_running_or_notify_cancel()  # (so whoever waits no longer can't take it back)
        self.put(Task(work, done, syncs, is_sql))
        return done

    def end(self, seconds: float) -> None:
        """Writes what there is, and ends."""
        self._ending = True
        with self._changed:
            self._changed.notify()
        self._thread.join(seconds)
        if not self._thread.is_alive():
            self.connection.close()

    # -- the database

    def _connect(self) -> sqlite3.Connection:
        connection = opened(self.folder)
        self._inode = os.stat(os.path.join(self.folder, FILE)).st_ino
        return connection

    def _is_gone(self) -> bool:
        try:
            return os.stat(os.path.join(self.folder, FILE)).st_ino != self._inode
        except OSError:
            return True

    def _anew(self) -> None:
        """Somebody deleted the database: a new one is made, and filled from the store's history."""
        log.error("%s was deleted: a new one is made, and filled in from the store's own history", os.path.join(self.folder, FILE))
        self.connection.close()
        self.connection = self._connect()
        self.story = Story(self.connection, self.generation, clock.now)
        self.place = Place(self.generation, self.place.store)
        self.miss()

    # -- the thread

    def _run(self) -> None:
        while True:
            with self._changed:
                if not self._items and not self._ending:
                    self._changed.wait(LOOK_AGAIN)
            if not self._items and self._ending:
                return
            if not self._ending and len(self._items) < GROUP:
                time.sleep(GATHER)
            try:
                self._group()
                self._look_at_age()
            except Exception:  # (a fault of this thread is no reason to end it: what it passed over is filled in)
                log.exception("the history met what nobody foresaw")
                self.miss()

    def _group(self) -> None:
        """Takes a group and writes it, as often as that needs."""
        items = [self._items.popleft() for _ in range(min(GROUP, len(self._items)))]
        results: dict[int, object] = {}
        while True:
            try:
                if self._is_gone():
                    self._anew()
                self._write(items, results)
                break
            except (sqlite3.Error, NoHistory, OSError) as error:
                self.say("writing", f"the history can't be written, and is tried again: {error}")
                if self._ending:
                    results = dict.fromkeys(range(len(items)), error)
                    break
                time.sleep(REST)
        for place, (_, item) in enumerate(items):
            if isinstance(item, Task) and item.done is not None:
                result = results[place]
                if isinstance(result, BaseException):
                    item.done.set_exception(result)
                else:
                    item.done.set_result(result)

    def _write(self, items: list[tuple[int, Task | Told]], results: dict[int, object]) -> None:
        """Does all of a group within one transaction of the database. What came of an item that the story has stays, where the group is written again."""
        syncs = any(isinstance(item, Task) and item.syncs for _, item in items)
        self.connection.execute(f"PRAGMA synchronous={'FULL' if syncs else 'NORMAL'}")
        self.connection.execute("BEGIN IMMEDIATE")
        try:
            for place, (number, item) in enumerate(items):
                if place not in results or isinstance(item, Task) and item.is_sql:
                    results[place] = self._do(number, item)
            self.commit(begins=False)
        except BaseException:
            if self.connection.in_transaction:
                self.connection.execute("ROLLBACK")
            raise

    def commit(self, begins: bool = True) -> None:
        """Writes what the story has, and commits; maybe begins the next one."""
        self.story.write()
        self.place.write(self.connection)
        self.connection.execute("COMMIT")
        self.story.written()
        if begins:
            self.connection.execute("BEGIN IMMEDIATE")

    def _do(self, number: int, item: Task | Told) -> object:
        if isinstance(item, tuple):
            self._learn(number, item)
            return None
        try:
            return item.work(self)
        except sqlite3.Error:
            raise
        except Exception as error:  # (what one asks for must not end the thread)
            if not isinstance(error, KemtruaError):
                log.exception("the history met what nobody foresaw")
            return error

    def _learn(self, came: int, item: Told) -> None:
        """A transaction that was answered. It counts where it follows on the last one; a hole is filled in later."""
        opening, offset, at, data, reply, epoch = item
        number = self._base + offset
        if opening != self._opening:
            self.miss(came)
            return
        if number <= self.place.last:
            return
        if number > self.place.last + 1 and self.has_word:
            self.miss(came)
            return
        if learns(reply):
            self.story.apply(Transaction(number, at, json.loads(data), reply, epoch))
        self.place.last = number

    def begin(self, opening: int, base: int | None = None) -> int:
        """The store was opened: then its last transaction had the number `base`, or the one up to which all is known. Gives that number."""
        self._opening, self._base = opening, self.place.last if base is None else base
        return self._base

    # -- age and room

    def _look_at_age(self) -> None:
        if clock.uptime() - self._looked < LOOK_AT_AGE or self._ending:
            return
        try:
            if not keeping.delete_old(self.connection, clock.now(), self.days, self.most):
                self._looked = clock.uptime()
        except sqlite3.Error as error:
            self._looked = clock.uptime()
            self.say("age", f"what is too old can't be deleted from the history: {error}")

    def say(self, matter: str, text: str) -> None:
        """Logs a warning, and one of the same matter not again for a while."""
        if clock.uptime() - self._said.get(matter, -SAY_AGAIN) >= SAY_AGAIN:
            self._said[matter] = clock.uptime()
            log.warning("%s", text)
