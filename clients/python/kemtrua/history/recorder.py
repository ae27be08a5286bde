"""What the process does that keeps a hub's history: it takes what it is told, and fills in what it wasn't told."""
from __future__ import annotations

import json
import os
import sqlite3
import threading
from collections.abc import Callable
from concurrent.futures import Future

from .. import clock, logs
from ..checking import Line
from ..errors import KemtruaError
from ..program import STORE_FILES
from . import keeping, outputs
from .filling import Copy, Filling, remove_copies
from .places import Place, unfinished
from .reports import Report
from .schema import FILE, NoHistory, opened
from .settings import HistorySettings
from .writer import Task, Told, Writer

log = logs.logger("kemtrua.history")

FILLS_WITHIN = 30.0  # seconds that a filling has, before it is said that it takes long
FILL_AGAIN = 5.0  # seconds between two fillings, where something was passed over
ENDS_WITHIN = 20.0  # seconds that the last group has
LONGEST_LINE = 65536  # characters of a client's line that are kept: the page in the browser reads definitions from them


class Recorder:
    """One for each hub, in the process that keeps its history. `opened` and `tell` are told all openings of the store, and all that it
    answered, in order."""

    def __init__(self, folder: str, program: str, settings: HistorySettings, generation: int):
        self.folder, self._program = folder, program
        self._writer = Writer(folder, generation, settings.days, settings.bytes)
        self._stores = ""
        self._copying = threading.Lock()  # so that stores are filled from in the order in which they were opened
        self._filled = 0.0
        remove_copies(folder)
        self._writer.start()

    @property
    def lags(self) -> bool:
        return self._writer.lags

    # -- what the store does

    def opened(self, stores: str, opening: int) -> Future[object]:
        """The store was opened for the so-many-th time, and nothing was answered since. It copies the files, so it takes a moment. The
        future says which number the last transaction had then."""
        with self._copying:
            self._stores, mark = stores, self._writer.mark()
            copy = Copy(stores, self._program, self.folder)
            self._writer.put(Task(lambda it: self._fill_rest(it, stores), is_sql=True))

            def begin(writer: Writer, is_filled: bool) -> tuple[int, int]:
                if not is_filled:
                    writer.miss()
                return opening, writer.begin(opening)

            return self._fill(copy, mark, begin)

    def resumed(self, stores: str, opening: int, base: int | None) -> None:
        """This process took the place of one that ended. The last transaction before this opening had the number `base`, if that is
        known."""
        self._stores = stores
        if base is not None:
            self._writer.put(Task(lambda it: it.begin(opening, base)))
        self.passed_over()

    def tell(self, told: Told) -> None:
        """A transaction that was answered."""
        self._writer.tell(told)

    def passed_over(self) -> None:
        """Something was answered that wasn't told: it is to be filled in."""
        self._writer.miss()

    def said(self, at: int, who: str, line: Line, reply: str) -> None:
        """A client's line, and what it was answered."""
        text = json.dumps(line, separators=(",", ":"))[:LONGEST_LINE]
        self._writer.put(Task(lambda it: it.story.take_said(at, who, text, reply)))
        if line["do"] == "trigger_now" and reply.startswith("refused"):
            job = f"{line.get('group', 'DEFAULT')}/{line['name']}"
            self._writer.put(Task(lambda it: it.story.take_refused(at, job, f"{who} couldn't fire it: {reply}")))

    def settle(self, closes: bool = False) -> Future[object]:
        """Has the database take all that was answered, with the store's own moments. The future says whether it has; with `closes` nothing
        more comes to this store."""
        with self._copying:
            mark = self._writer.mark()
            return self._fill(Copy(self._stores, self._program, self.folder), mark, lambda _, is_filled: is_filled, closes)

    def catch_up(self) -> None:
        """Fills in what was passed over. To be called from time to time."""
        if self._stores and self._writer.lags and clock.uptime() - self._filled >= FILL_AGAIN:
            try:
                self.settle().result(FILLS_WITHIN)
            except (KemtruaError, OSError, TimeoutError, sqlite3.Error) as error:
                log.warning("what was passed over isn't filled in yet: %s", str(error) or f"it takes more than {FILLS_WITHIN:g} seconds")
            self._filled = clock.uptime()

    def needed(self) -> Future[object]:
        """The names of the stores of which the database doesn't have all yet."""
        return self._writer.do(lambda it: unfinished(it.connection, it.generation), is_sql=True)

    def end(self) -> None:
        self._writer.end(ENDS_WITHIN)

    def _fill(self, copy: Copy, mark: int, then: Callable[[Writer, bool], object], closes: bool = False) -> Future[object]:
        """Takes what a copy tells, and gives what comes of `then`, which is told whether all was taken."""

        def work(it: Writer) -> object:
            return then(it, Filling(it, copy).run(mark, closes))

        done = self._writer.do(work)
        done.add_done_callback(lambda _: copy.close())
        return done

    def _fill_rest(self, writer: Writer, stores: str) -> None:
        """Takes what isn't known of former stores, as far as they are still there."""
        before, current = os.path.split(os.path.realpath(stores))
        for name in unfinished(writer.connection, writer.generation):
            folder = os.path.join(before, name)
            if name == current:
                continue
            if not all(os.path.exists(os.path.join(folder, it)) for it in STORE_FILES):
                self._give_up(writer, name)
                continue
            copy = Copy(folder, self._program, self.folder)
            try:
                Filling(writer, copy).run(0, closes=True)
                writer.commit()
            finally:
                copy.close()

    @staticmethod
    def _give_up(writer: Writer, name: str) -> None:
        """A former store isn't there any more, and the database hasn't all of it."""
        writer.place = Place.read(writer.connection, writer.generation, name)
        writer.place.closed = True
        text = f"what the store {name} did after its transaction {writer.place.last} isn't known, since that store isn't there any more: it is missing"
        writer.story.take_event(clock.now(), "gap", text)
        log.warning("%s", text)
        writer.commit()

    # -- what nodes tell

    def report(self, node: str, report: Report) -> Future[object]:
        """Takes a report. The future says whether it is kept, once it is on the disk."""
        return self._writer.do(lambda it: it.story.take_report(node, report), syncs=True)

    def piece(self, node: str, key: tuple[int, int], begin: int, data: bytes, most: int | None) -> Future[object]:
        """Takes a piece of an execution's output."""

        def work(it: Writer) -> bool:
            if not it.story.take_limit(node, *key, most):
                return False
            if data:
                outputs.add(it.connection, key, begin, data, clock.now())
            return True

        return self._writer.do(work, syncs=True, is_sql=True)

    def load(self, at: int, node: str, workers: int, runs: int, skew: int) -> None:
        row = (node, at, workers, runs, skew)
        self._writer.put(Task(lambda it: it.connection.execute("INSERT OR REPLACE INTO nodes VALUES (?, ?, ?, ?, ?)", row), is_sql=True))

    # -- for those who look after it

    def do(self, work: Callable[[Writer], object]) -> Future[object]:
        """Has something of the database's own done in the writer's thread."""
        return self._writer.do(work, is_sql=True)

    def event(self, at: int, kind: str, text: str) -> None:
        self._writer.put(Task(lambda it: it.story.take_event(at, kind, text)))

    def vacuum(self) -> Future[object]:
        """Gives the room that nothing uses back to the disk. The future gives the bytes before and after."""
        path = os.path.join(self.folder, FILE)

        def work(it: Writer) -> tuple[int, int]:
            before = keeping.size_of(path)
            it.connection.execute("COMMIT")
            try:
                while keeping.delete_old(it.connection, clock.now(), it.days, it.most):
                    pass
                keeping.vacuum(it.connection)
            finally:
                it.connection.execute("BEGIN IMMEDIATE")
            return before, keeping.size_of(path)

        return self._writer.do(work, is_sql=True)


# What a hub may ask for.
CALLS: dict[str, Callable[..., object]] = {
    name: getattr(Recorder, name) for name in
    ("opened", "resumed", "passed_over", "said", "settle", "needed", "report", "piece", "load", "event", "vacuum")}


def vacuum_in(folder: str) -> tuple[int, int]:
    """The same for a folder whose hub has ended, by the usual limits. Raises NoHistory."""
    if not os.path.exists(path := os.path.join(folder, FILE)):
        raise NoHistory(f"{path} isn't there")
    before, usual, connection = keeping.size_of(path), HistorySettings(), opened(folder)
    try:
        while keeping.delete_old(connection, clock.now(), usual.days, usual.bytes):
            pass
        keeping.vacuum(connection)
    except sqlite3.Error as error:
        raise NoHistory(f"{path}: {error}") from None
    finally:
        connection.close()
    return before, keeping.size_of(path)
