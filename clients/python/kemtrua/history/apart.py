"""The hub's side of the history: what was answered goes to a process of its own, in groups, and nobody who tells it waits.

So the hub's interpreter has no part in what the database costs. Where that process ends by itself, it is begun again, and fills in what it
missed from the store's history.
"""
from __future__ import annotations

import asyncio
import io
import itertools
import logging
import os
import pickle
import subprocess
import sys
import threading
from collections import deque
from collections.abc import Iterable
from concurrent.futures import Future
from typing import BinaryIO

from .. import clock, logs
from ..checking import Line
from .process import END, Begin, Call
from .reports import Report
from .schema import NoHistory
from .settings import HistorySettings
from .transactions import NOT_DONE, STEPS
from .writer import MOST, Told

log = logs.logger("kemtrua.history")

MAIN = os.path.join(os.path.dirname(os.path.abspath(__file__)), "__main__.py")
GATHER = 0.05  # seconds that a group gathers
GROUP = 1000  # things of a group at most: the interpreter does nothing else while it is packed
OPENS_WITHIN = 60.0  # seconds that the copy of a store has, before it is answered from
SETTLES_WITHIN = 30.0  # seconds that the database has to take all that was answered, before whoever waits for it goes on
ASKED_WITHIN = 5.0  # seconds that the database has to say what it doesn't have yet
ENDS_WITHIN = 25.0  # seconds that the last groups have
REST, LONGEST_REST = 1.0, 60.0  # seconds until the process is begun again


class Apart:
    """One for each hub. `opened` and `answered` are told all openings of the store, and all that it answered, in order. Raises
    NoHistory."""

    def __init__(self, folder: str, program: str, settings: HistorySettings, generation: int):
        self.folder = folder
        self._begin: Begin = (folder, program, settings, generation, logging.getLogger().getEffectiveLevel())
        self._items: deque[Told | Call] = deque()
        self._woken = threading.Event()
        self._numbers, self._waiting = itertools.count(1), dict[int, Future[object]]()
        self._stores, self._opening, self._offset = "", 0, 0
        self._base: int | None = None  # the number of the last transaction before this opening, once it is known
        self._passed_over, self._ending = False, threading.Event()
        self._process, self._answers = self._begun()
        self._threads = [threading.Thread(target=work, name="history", daemon=True) for work in (self._send, self._hear)]
        for thread in self._threads:
            thread.start()

    # -- what the store does

    def opened(self, stores: str) -> None:
        """The store was opened, and nothing was answered since. Its files are copied meanwhile, so it takes a moment."""
        self._stores, self._base = stores, None
        self._opening, self._offset = self._opening + 1, 0
        try:
            self._call("opened", stores, self._opening).result(OPENS_WITHIN)
        except (NoHistory, TimeoutError) as error:
            why = str(error) or "it takes too long"
            log.warning("the store can't be copied, so what the history doesn't know may stay missing: %s", why)
            self._opening += 1  # (nobody knows which numbers its transactions have: they are filled in)

    def answered(self, line: Line, data: bytes, reply: str, epoch: int | None) -> None:
        """A line was answered; `data` are its bytes. It is called for each answer, so it does no more than it must."""
        if line["do"] not in STEPS or reply.startswith(NOT_DONE):
            return
        self._offset += 1
        if len(self._items) < MOST:
            self._items.append((self._opening, self._offset, clock.now(), data, reply, epoch))
        else:
            self._passed_over = True
        if not self._woken.is_set():
            self._woken.set()

    def said(self, who: str, line: Line, reply: str) -> None:
        """A client's line, and what it was answered."""
        self._put(("said", 0, (clock.now(), who, line, reply)))

    async def settled(self, closes: bool = False) -> bool:
        """Waits until the database has all that was answered, with the store's own moments. Whether it has; with `closes` nothing more
        comes to this store."""
        try:
            return bool(await asyncio.wait_for(asyncio.wrap_future(self._call("settle", closes)), SETTLES_WITHIN))
        except (NoHistory, TimeoutError) as error:
            log.warning("the history doesn't have all of the store yet: %s", str(error) or f"it takes more than {SETTLES_WITHIN:g} seconds")
            return False

    def needed(self) -> set[str]:
        """The names of the stores of which the database doesn't have all yet. Raises NoHistory, or TimeoutError where it can't be asked."""
        found = self._call("needed").result(ASKED_WITHIN)
        assert isinstance(found, list)
        return set(found)

    def end(self) -> None:
        """Has all written that there is, and ends the process."""
        until = clock.uptime() + ENDS_WITHIN
        self._ending.set()
        self._put((END, 0, ()))
        try:
            self._threads[0].join(ENDS_WITHIN)
            self._process.wait(max(until - clock.uptime(), 0.1))
        except subprocess.TimeoutExpired:
            log.error("the process that keeps the history doesn't end, and is killed: what it didn't write is filled in later")
            self._process.kill()
            self._process.wait()
        self._threads[1].join(ENDS_WITHIN)
        self._close()

    # -- what nodes tell, and those who look after it

    def report(self, node: str, report: Report) -> Future[object]:
        """Takes a report. The future says whether it is kept, once it is on the disk."""
        return self._call("report", node, report)

    def piece(self, node: str, key: tuple[int, int], begin: int, data: bytes, most: int | None) -> Future[object]:
        """Takes a piece of an execution's output."""
        return self._call("piece", node, key, begin, data, most)

    def load(self, node: str, workers: int, runs: int, skew: int) -> None:
        self._put(("load", 0, (clock.now(), node, workers, runs, skew)))

    def event(self, kind: str, text: str) -> None:
        self._put(("event", 0, (clock.now(), kind, text)))

    def vacuum(self) -> tuple[int, int]:
        """Gives the room that nothing uses back to the disk. The bytes before and after. It takes as long as it takes. Raises NoHistory."""
        found = self._call("vacuum").result()
        assert isinstance(found, tuple)
        return int(found[0]), int(found[1])

    # -- the process

    def _put(self, item: Call) -> None:
        self._items.append(item)
        self._woken.set()

    def _call(self, name: str, *words: object) -> Future[object]:
        """Has something done in its turn. Where it can't be done the future raises NoHistory."""
        done: Future[object] = Future()
        done.set_running_or_notify_cancel()  # (so whoever waits no longer can't take it back)
        number = next(self._numbers)
        self._waiting[number] = done
        self._put((name, number, words))
        return done

    def _begun(self) -> tuple[subprocess.Popen[bytes], BinaryIO]:
        """A new process that has the database open, and where it answers."""
        process = subprocess.Popen([sys.executable, "-I", MAIN], stdin=subprocess.PIPE, stdout=subprocess.PIPE, bufsize=0)
        assert isinstance(process.stdout, io.RawIOBase)
        answers = io.BufferedReader(process.stdout)
        try:
            _write(process, pickle.dumps(self._begin))
            problem = pickle.load(answers)
        except (OSError, EOFError, pickle.UnpicklingError):
            problem = "the process that keeps it ended at once"
        if problem is not None:
            process.kill()
            process.wait()
            _close(process, answers)
            raise NoHistory(problem)
        return process, answers

    def _close(self) -> None:
        _close(self._process, self._answers)

    def _send(self) -> None:
        """A thread: hands on what there is, group by group. It is woken where it had nothing to do, and not for each group."""
        while not self._ending.is_set() or self._has_some():
            self._woken.wait()
            self._ending.wait(GATHER)
            if not self._has_some():
                self._woken.clear()
            if self._has_some():  # (also what came just before it was cleared)
                self._woken.set()
            while self._has_some():
                self._send_group()

    def _has_some(self) -> bool:
        return bool(self._items) or self._passed_over

    def _send_group(self) -> None:
        items = [self._items.popleft() for _ in range(min(GROUP, len(self._items)))]
        if self._passed_over:
            self._passed_over = False
            items.append(("passed_over", 0, ()))
        try:
            _write(self._process, pickle.dumps(items))
        except (OSError, ValueError):  # (it has ended, and `_hear` begins another one)
            self._refuse(item[1] for item in items if isinstance(item[0], str))

    def _refuse(self, numbers: Iterable[int]) -> None:
        for number in numbers:
            if (done := self._waiting.pop(number, None)) is not None:
                done.set_exception(NoHistory("the process that keeps the history ended"))

    def _hear(self) -> None:
        """A thread: takes the answers. Where the process ends by itself, another one takes its place."""
        while True:
            try:
                number, holds, value = pickle.load(self._answers)
            except (OSError, EOFError, ValueError, pickle.UnpicklingError):
                self._refuse(list(self._waiting))
                if not self._begin_again():
                    return
                continue
            if number:
                self._take(self._waiting.pop(number, None), holds, value)
            elif holds and value[0] == self._opening:
                self._base = value[1]

    @staticmethod
    def _take(done: Future[object] | None, holds: bool, value: object) -> None:
        if done is not None and holds:
            done.set_result(value)
        elif done is not None:
            done.set_exception(NoHistory(str(value)))

    def _begin_again(self) -> bool:
        """Whether it goes on with another process."""
        rest, process, answers = REST, self._process, self._answers
        if not self._ending.is_set():
            log.error("the process that keeps the history ended with status %d, and is begun again", process.wait())
        while not self._ending.wait(rest):
            try:
                made = self._begun()
            except (NoHistory, OSError) as error:
                rest = min(2 * rest, LONGEST_REST)
                log.error("no history is kept meanwhile: %s", error)
                continue
            if self._ending.is_set():
                _close(*made)  # (so that it ends, too)
                return False
            self._items.appendleft(("resumed", 0, (self._stores, self._opening, self._base)))
            self._process, self._answers = made
            self._woken.set()
            _close(process, answers)
            return True
        return False


def _write(process: subprocess.Popen[bytes], data: bytes) -> None:
    assert process.stdin is not None
    left = memoryview(data)
    while left:
        left = left[process.stdin.write(left) :]


def _close(process: subprocess.Popen[bytes], answers: BinaryIO) -> None:
    answers.close()
    if process.stdin is not None:
        process.stdin.close()
