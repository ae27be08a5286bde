"""A store on this machine, held open by one call of `qz_sched script`."""
from __future__ import annotations

import os
import threading
import time
from collections.abc import Callable

from . import clock, logs
from .checking import Line, check_line
from .errors import BadLine, KemtruaError, ProgramEnded, Unanswered
from .folder import Folder, is_team_folder
from .ledger import Ledger
from .program import Gone, Program, call, make_store, opened, wait_until_free
from .scheduler import Scheduler

log = logs.logger("kemtrua.store")

LINES_OF_A_CALL = 1_000_000  # a script has at most 1048576 lines
REOPENED = {2, 3, 4, 9}  # exit statuses after which the store is opened again; after a signal it is, too
HANGS = 2.0  # seconds without an answer, after which whoever gives up may kill the program
QUICK_ENDS = 3  # so many in a row without a reply between them, and it isn't tried again

# Steps after which something may be due sooner.
WAKING = frozenset("add_trigger add_calendar resume_trigger reset_trigger resume_group resume_job_group trigger_now threshold join fire release complete "
                   "misfires leave recover".split())


class Store(Scheduler):
    """Keeps one `qz_sched script` open on a folder: one line out, one reply in. Safe for threads.

    Where the program ends for a reason that passes (a signal, want of memory, the lines that one call takes), the store is
    opened again, and each node that held an epoch holds it again. Else each further question raises ProgramEnded.
    """

    def __init__(self, folder: str | os.PathLike[str], program: str = "qz_sched", *, make: bool = False, wait_for_lock: float = 20.0):
        self.program = program
        self._holder: Folder | None = None  # of a hub's folder, where no hub works
        self._lock = threading.RLock()
        self._wait = wait_for_lock
        self._watchers: list[Callable[[], None]] = []
        self._running: Program | None = None
        self._broken: KemtruaError | None = None
        self._lines = self._ends = 0
        self._asked: float | None = None  # the uptime at which the question was asked that isn't answered
        self.ledger = Ledger()
        self.folder = self._stores_in(os.fspath(folder))
        try:
            if make:
                make_store(program, self.folder)
            self._open({})
        except KemtruaError:
            self._let_go()
            raise

    def __enter__(self) -> Store:
        return self

    def __exit__(self, *_: object) -> None:
        self.close()

    def answer(self, line: Line) -> str:
        data = check_line(line)
        with self._lock:
            reply = self._answer(line, data)
        if line["do"] in WAKING and not reply.startswith(("refused", "stopped", "closed")):
            for watcher in self._watchers:
                watcher()
        return reply

    def peers(self) -> list[str]:
        with self._lock:
            return self.ledger.peers()

    def entries_of(self, node: str) -> list[int]:
        with self._lock:
            return self.ledger.entries_of(node)

    def clock(self) -> int:
        return time.time_ns() // 1_000_000  # (the program reads the machine's clock itself)

    def watch(self, call: Callable[[], None]) -> None:
        self._watchers.append(call)

    @property
    def late_after(self) -> int:  # type: ignore[override]
        return self.ledger.threshold

    def close(self) -> None:
        """Ends the program, and waits for it."""
        with self._lock:
            running, self._running = self._running, None
            self._broken = self._broken or KemtruaError("the store was closed")
            if running is not None:
                status, said = running.end()
                log.info("qz_sched ended with status %d %s", status, said)
            self._let_go()

    def _stores_in(self, folder: str) -> str:
        """The folder of the store files. A hub's folder is held while this store is open."""
        if not is_team_folder(folder):
            return folder
        self._holder = Folder(folder)
        self._holder.hold(self._wait)
        try:
            return self._holder.current
        except KemtruaError:
            self._let_go()
            raise

    def _let_go(self) -> None:
        if self._holder is not None:
            self._holder.let_go()

    def cut(self) -> None:
        """Kills a program that hasn't answered for a while. What was acknowledged is in the store."""
        running, asked = self._running, self._asked
        if running is not None and asked is not None and clock.uptime() - asked > HANGS:
            log.error("the store gives no answer: its program is killed")
            running.kill()

    def _answer(self, line: Line, data: bytes) -> str:
        if self._broken is not None:
            raise self._broken
        if self._running is None or self._lines >= LINES_OF_A_CALL:
            self._open_again()
        assert self._running is not None
        try:
            self._lines, self._asked = self._lines + 1, clock.uptime()
            reply = self._running.ask(data)
        except Gone:
            raise self._ended() from None
        finally:
            self._asked = None
        self._ends = 0
        self.ledger.learn(line, reply)
        return reply

    def _ended(self) -> KemtruaError:
        """What to raise for a line that the program left without an answer."""
        assert self._running is not None
        running, self._running = self._running, None
        status, said = running.end()
        log.error("qz_sched ended with status %d: %s", status, said or "it said nothing")
        self._ends += 1
        if status >= 0 and status not in REOPENED or self._ends >= QUICK_ENDS:
            self._broken = ProgramEnded(status, said)
            return self._broken
        if status == 2:
            return BadLine([f"qz_sched took it for no step: {said}"])
        return Unanswered(f"qz_sched ended with status {status} before it answered: {said or 'it said nothing'}")

    def _open_again(self) -> None:
        if self._running is not None:
            running, self._running = self._running, None
            status, said = running.end()
            log.info("opening the store again after %d lines (status %d %s)", self._lines, status, said)
            if status:
                self._broken = ProgramEnded(status, said)
                raise self._broken
        self._open(self.ledger.held)

    def _open(self, held: dict[str, int]) -> None:
        """Reads the rows, opens the store, and lets the nodes that held an epoch hold it again."""
        try:
            wait_until_free(self.folder, self._wait)
            self.ledger = Ledger(call(self.program, self.folder, "list").splitlines())
            self._running, self._lines = opened(self.program, self.folder), 0
        except KemtruaError as error:
            self._broken = error
            raise
        for node, epoch in held.items():
            if self.ledger.members.get(node) == epoch:
                line: Line = {"do": "resume", "node": node, "epoch": epoch}
                self._answer(line, check_line(line))
