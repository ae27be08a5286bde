"""The process that keeps a hub's history: it hears from its hub at the standard input, and answers at the standard output.

Both are pickles, which these two processes of one user make for each other. First come the settings (`Begin`), which are answered by None
once the database is open, or by a text that says why it isn't. Then come groups, each a list of transactions that were answered (`Told`),
and of calls: a name, a number, and words. A call whose number isn't 0 is answered by its number, whether it was done, and the result or why
not. At the end of the input it writes what it has, and ends.
"""
from __future__ import annotations

import fcntl
import logging
import os
import pickle
import signal
import sqlite3
import sys
import threading
import time
from concurrent.futures import Future
from typing import BinaryIO

from .. import clock, logs
from ..errors import KemtruaError
from .alerts import Alerts
from .expecting import Expecting
from .recorder import CALLS, Recorder
from .schema import NoHistory
from .settings import HistorySettings
from .writer import Told

log = logs.logger("kemtrua.history")

LOCK = "history.lock"  # locked by the process that keeps the history of a folder
FREE_WITHIN = 40.0  # seconds that the one of a hub which was killed has to end
TICK = 1.0  # seconds between two looks at what was passed over, and at what is expected
END = "end"  # the call after which nothing comes

Begin = tuple[str, str, HistorySettings, int, int]  # the folder, the program, the settings, the team's generation, and the level of the log
Call = tuple[str, int, tuple[object, ...]]


class Served:
    """One recorder, and the hub that speaks to it."""

    def __init__(self, begin: Begin, answers: BinaryIO):
        folder, program, settings, generation, _ = begin
        self._recorder = Recorder(folder, program, settings, generation)
        self._alerts = Alerts(self._recorder, settings.alerts)
        self._expecting = Expecting(self._recorder, settings.expects)
        self._answers, self._lock = answers, threading.Lock()
        self._ending = threading.Event()

    def run(self, source: BinaryIO) -> None:
        """Does what the hub says, to its end."""
        self._alerts.start()
        looking = threading.Thread(target=self._look, name="looks", daemon=True)
        looking.start()
        while self._take(group_of(source)):
            pass
        self._ending.set()
        self._alerts.end()
        self._recorder.end()

    def _take(self, group: list[Told | Call]) -> bool:
        """Whether more may come."""
        for item in group:
            if isinstance(item[0], int):
                self._recorder.tell(item)
            elif item[0] == END:
                return False
            else:
                self._do(*item)
        return bool(group)

    def _do(self, name: str, number: int, words: tuple[object, ...]) -> None:
        try:
            found = CALLS[name](self._recorder, *words)
        except (KemtruaError, sqlite3.Error, OSError) as error:
            self.answer(number, False, f"{name}: {error}")
            return
        if name == "opened":  # (it is answered once the store was copied, and what the database knew then is told later)
            self.answer(number, True, None)
            number = 0
        if isinstance(found, Future):
            found.add_done_callback(lambda done: self._done(number, done))
        else:
            self.answer(number, True, found)

    def _done(self, number: int, done: Future[object]) -> None:
        if (error := done.exception()) is not None:
            self.answer(number, False, str(error))
        else:
            self.answer(number, True, done.result())

    def answer(self, number: int, holds: bool, value: object) -> None:
        """Answers a call. 0 is no call's number: it goes with what the hub is told unasked."""
        if number or value is not None:
            try:
                with self._lock:
                    self._answers.write(pickle.dumps((number, holds, value)))
                    self._answers.flush()
            except OSError:
                pass  # (the hub is gone, and this process ends, too)

    def _look(self) -> None:
        while not self._ending.wait(TICK):
            try:
                self._recorder.catch_up()
                self._expecting.look()
            except Exception:  # (a fault of this thread is no reason to look no more)
                log.exception("the history met what nobody foresaw")


def group_of(source: BinaryIO) -> list[Told | Call]:
    """The next group; an empty one at the end."""
    try:
        found = pickle.load(source)
    except (EOFError, OSError, pickle.UnpicklingError):
        return []
    assert isinstance(found, list)
    return found


def hold(folder: str, within: float | None = None) -> int:
    """Keeps others from this history. Waits for the process of a hub that was killed: what that has it still writes. Raises NoHistory."""
    path, until = os.path.join(folder, LOCK), clock.uptime() + (FREE_WITHIN if within is None else within)
    descriptor = os.open(path, os.O_RDWR | os.O_CREAT | os.O_CLOEXEC, 0o640)
    while True:
        try:
            fcntl.flock(descriptor, fcntl.LOCK_EX | fcntl.LOCK_NB)
            return descriptor
        except BlockingIOError:
            if clock.uptime() > until:
                os.close(descriptor)
                raise NoHistory(f"another process keeps the history of {folder}") from None
        time.sleep(0.05)


def main() -> None:
    for number in (signal.SIGTERM, signal.SIGINT, signal.SIGHUP):
        signal.signal(number, lambda *_: None)  # (it ends with its hub. A handler, since commands would inherit what is ignored)
    source, answers = os.fdopen(os.dup(0), "rb"), os.fdopen(os.dup(1), "wb")
    nothing = os.open(os.devnull, os.O_RDONLY)
    os.dup2(nothing, 0)  # (programs that it calls hear and say nothing there)
    os.dup2(2, 1)
    begin: Begin = pickle.load(source)
    logs.to_stderr(begin[4])
    logging.captureWarnings(True)
    try:
        hold(begin[0])
        served = Served(begin, answers)
    except (NoHistory, OSError) as error:
        pickle.dump(str(error), answers)
        answers.flush()
        sys.exit(1)
    pickle.dump(None, answers)
    answers.flush()
    served.run(source)
