"""Hands lines to the program as they come, up to a bound, without waiting for the answer before. The program answers in order.

Whose turn it is goes round the connections, one line each, and a check-in with nothing of its own connection before it comes next. So it
waits behind those that the program has already, at most BOUND, and behind other check-ins.
"""
from __future__ import annotations

import asyncio
import os
from collections import deque
from collections.abc import Callable
from dataclasses import dataclass
from typing import Protocol

from .. import clock, hooks, logs
from ..checking import Line, bytes_of
from ..errors import BadLine, HubRefused, KemtruaError, NotFitting, ProgramEnded, Unanswered
from ..history.apart import Apart
from ..ledger import Ledger
from ..patience import STALL
from ..program import Gone, Program, call, ended, opened, wait_until_free
from ..store import LINES_OF_A_CALL, QUICK_ENDS, REOPENED, WAKING
from .figures import Figures

log = logs.logger("kemtrua.hub")

BOUND = 64  # lines that the program has and hasn't answered
LOCK_WITHIN = 20.0  # seconds that another program has to leave the store

Taken = Callable[["str | KemtruaError"], None]
Answered = list[tuple["Question", str, "int | None"]]  # what was answered together, each with the epoch that its node held then


@dataclass(slots=True)
class Question:
    """A line for the program, and who takes the answer: a reply, or why there is none."""

    line: Line
    data: bytes
    take: Taken
    since: float = 0.0  # the uptime at which the program got it


class Turn:
    """The lines of one connection that wait to be handed on."""

    __slots__ = ("lines",)

    def __init__(self) -> None:
        self.lines: deque[Question] = deque()


@dataclass
class Events:
    """Who is told what of the store: that something may be due sooner, that it ended for good, that it stalled; who says whether it may be
    asked at all, and which nodes may be resumed."""

    woken: Callable[[], None]
    failed: Callable[[KemtruaError], None]
    stalled: Callable[[float], None]
    answered: Callable[[], None]
    resumes: Callable[[str], bool]
    doubt: Callable[[], KemtruaError | None]


class Holding(Protocol):
    """Whoever holds answers of a hub of several, until all others can know what came of them."""

    def hold(self, release: Callable[[], None], drop: Callable[[KemtruaError], None]) -> None:
        """Calls `release` then, in the order of these calls; or `drop`, where that never comes."""

    def doubt(self) -> KemtruaError | None:
        """Why nothing is asked of the store."""

    async def settled(self) -> None:
        """Waits until all that the program has done by now is known so. Raises Unanswered."""

    async def change(self, stores: str) -> None:
        """Other stores take the place of these."""

    def figures(self) -> dict[str, object]:
        """What is counted of it, for metrics."""


class Asking:
    """Keeps one `qz_sched script` open on a folder. Where that ends for a reason that passes, the store is opened again.

    With `holding`, what the program answers is held until that lets it go.
    """

    def __init__(self, folder: str, program: str, events: Events, holding: Holding | None = None):
        self.folder, self.program, self.ledger, self.holding = folder, program, Ledger(), holding
        self._events = events
        self._turns: deque[Turn] = deque()
        self._sent: deque[Question] = deque()
        self._own = Turn()
        self._running: Program | None = None
        self._broken: KemtruaError | None = None
        self._out = b""
        self._unwritten = b""
        self._heard = 0.0  # the uptime at which the program had nothing to answer, or answered
        self._lines = self._ends = 0
        self._opening: asyncio.Task[None] | None = None
        self._let_stay: Program | None = None  # one that ends
        self._is_to_pump = False
        self._listed: list[str] | None = None
        self._quiet: asyncio.Future[None] | None = None  # whoever waits until no line is in flight; none is handed on meanwhile
        self.recorder: Apart | None = None  # who is told all that is answered
        self.figures = Figures()

    async def open(self) -> None:
        """Opens the store. Raises what keeps it from that."""
        self._loop = asyncio.get_running_loop()
        await self._open({})

    def ask(self, turn: Turn, line: Line, take: Taken) -> None:
        """Hands a line on in its turn. `take` gets what is answered, in the order of the turn's lines."""
        question = Question(line, bytes_of(line), take)
        turn.lines.append(question)
        if len(turn.lines) == 1:
            if line["do"] == "check_in":
                self._turns.appendleft(turn)
            else:
                self._turns.append(turn)
        self._pump_soon()

    def take_listed(self) -> list[str]:
        """The rows of the store when it was opened first. They are given once."""
        listed, self._listed = self._listed or [], []
        return listed

    async def own(self, line: Line) -> str:
        """The answer to a line of the hub's own."""
        answered: asyncio.Future[str] = self._loop.create_future()

        def take(said: str | KemtruaError) -> None:
            if answered.done():
                return
            if isinstance(said, str):
                answered.set_result(said)
            else:
                answered.set_exception(said)

        self.ask(self._own, line, take)
        return await answered

    @property
    def waits_since(self) -> float | None:
        """Since when the program owes an answer and has given none; None where it owes none."""
        return self._heard if self._sent else None

    async def close(self) -> None:
        """Ends the program, and waits for it."""
        self._broken = self._broken or KemtruaError("the hub ends")
        if self._opening is not None:
            await asyncio.wait([self._opening])
        running = self._let_go()
        self._refuse_all(self._broken)
        await self.settle()
        if running is not None:
            status, said = await asyncio.to_thread(running.end)
            log.info("qz_sched ended with status %d %s", status, said)

    async def change(self, make: Callable[[], str]) -> None:
        """Lets what is in flight end, ends the program, has `make` say in which folder the stores are from now on, and opens them there.

        Lines wait meanwhile, and the nodes for which a connection speaks hold their epochs afterwards. What `make` raises is raised
        once the stores are open again where they were.
        """
        done: asyncio.Future[None] = self._loop.create_future()
        await self.settle()  # (so that little is left to be settled in the pause)
        try:
            while not await self._is_quiet():
                pass
            await self.shown()
            self._put_off_recoveries()
            self._start(self._changed(make, done))
        finally:
            self._quiet = None
            self._pump_soon()
        await done

    async def shown(self) -> None:
        """Waits until whatever the program has done by now may be shown. Raises Unanswered."""
        if self.holding is not None:
            await self.holding.settled()

    async def _is_quiet(self) -> bool:
        """Waits for the answers in flight, and for an opening. Whether the program runs then and has nothing to answer."""
        if self._opening is not None and not self._opening.done():
            await asyncio.wait([self._opening])
        if self._broken is not None:
            raise self._broken
        self._quiet = self._loop.create_future()
        if self._sent:
            await self._quiet
        return self._running is not None and not self._sent and (self._opening is None or self._opening.done())

    def _put_off_recoveries(self) -> None:
        """A node that was late before a pause has time to check in after it."""
        for turn in list(self._turns):
            for question in [it for it in turn.lines if it.line["do"] == "recover"]:
                turn.lines.remove(question)
                question.take(HubRefused("wait", "the stores are about to be opened anew: ask again later"))
            if not turn.lines:
                self._turns.remove(turn)
        self._events.answered()

    def _tell_quiet(self) -> None:
        if self._quiet is not None and not self._sent and not self._quiet.done():
            self._quiet.set_result(None)

    async def _changed(self, make: Callable[[], str], done: asyncio.Future[None]) -> None:
        assert self._let_stay is not None
        error: KemtruaError | None = None
        await self.settle(closes=True)
        status, said = await asyncio.to_thread(self._let_stay.end)
        if status:
            error = ProgramEnded(status, said)
            log.error("qz_sched ended with status %d: %s", status, said or "it said nothing")
        else:
            try:
                self.folder = await asyncio.to_thread(make)
            except KemtruaError as failure:
                error = failure
        try:
            if error is None and self.holding is not None:
                await self.holding.change(self.folder)
        except KemtruaError as failure:
            self._give_up(failure)
        if status > 0 and status not in REOPENED:
            self._give_up(ProgramEnded(status, said))
        elif self._broken is None:
            await self._open_again()
        error = self._broken or error
        if error is not None and not done.done():
            done.set_exception(error)
        elif not done.done():
            done.set_result(None)

    # -- to the program

    def _pump_soon(self) -> None:
        """Hands on what there is, once all that came with it is there, too."""
        if not self._is_to_pump:
            self._is_to_pump = True
            self._loop.call_soon(self._pump)

    def _pump(self) -> None:
        self._is_to_pump = False
        if self._quiet is not None:
            self._tell_quiet()
            return
        error = self._broken or (self._events.doubt() if self._turns else None)
        if error is not None:
            self._refuse_all(error, self._broken is not None)
            return
        if self._running is None or not self._turns:
            return
        pieces, present = [], clock.uptime()
        while self._turns and len(self._sent) < BOUND:
            if self._lines >= LINES_OF_A_CALL:
                self._end_call()
                break
            turn = self._turns.popleft()
            question = turn.lines.popleft()
            if turn.lines:
                self._turns.append(turn)
            if not self._sent:
                self._heard = present
            question.since = present
            self._sent.append(question)
            self._lines += 1
            pieces.append(question.data)
        if pieces:
            self._write(b"".join(pieces))

    def _write(self, data: bytes) -> None:
        if self._running is None:
            return
        self._unwritten += data
        try:
            count = os.write(self._running.input, self._unwritten)
        except BlockingIOError:
            count = 0
        except OSError:
            self._unwritten = b""
            return  # (its output ends, too, and that tells)
        self._unwritten = self._unwritten[count:]
        if self._unwritten:
            self._loop.add_writer(self._running.input, self._write, b"")
        else:
            self._loop.remove_writer(self._running.input)

    # -- from the program

    def _read(self) -> None:
        running = self._running
        if running is None:
            return
        try:
            data = os.read(running.output, 1 << 18)
        except BlockingIOError:
            return
        except OSError:
            data = b""
        if not data:
            self._start(self._ended())
            return
        present, since = clock.uptime(), self._heard
        self._heard, self._ends = present, 0
        if present - since > STALL:
            self._events.stalled(present - since)
        *replies, self._out = (self._out + data).split(b"\n")
        answered: Answered = []
        for reply in replies:
            question = self._sent.popleft()
            self.figures.answered(present - question.since)
            text = reply.decode()
            self.ledger.learn(question.line, text)
            answered.append((question, text, self.ledger.held.get(str(question.line.get("node")))))
        if self.holding is None:
            self._tell(answered)
        else:
            self._hold(answered)
        if self._lines >= LINES_OF_A_CALL and not self._sent:
            self._end_call()
        else:
            self._pump()

    def _hold(self, answered: Answered) -> None:
        assert self.holding is not None
        if hooks.asked("shows_first"):
            self._tell([it for it in answered if str(it[0].line["do"]).startswith("show")])
            answered = [it for it in answered if not str(it[0].line["do"]).startswith("show")]
        self.holding.hold(lambda: self._tell(answered), lambda error: self._drop(answered, error))

    def _tell(self, answered: Answered) -> None:
        """Gives the answers to those who asked, and wakes whom they concern."""
        wakes = False
        for question, text, epoch in answered:
            if self.recorder is not None:
                self.recorder.answered(question.line, question.data, text, epoch)
            if question.line["do"] in WAKING and not text.startswith(("refused", "stopped", "closed")):
                wakes = True
            question.take(text)
        if wakes:
            self._events.woken()
        self._events.answered()

    def _drop(self, answered: Answered, error: KemtruaError) -> None:
        for question, _, _ in answered:
            question.take(error)
        self._events.answered()

    # -- where a call of the program ends

    def _start(self, work: object) -> None:
        if self._opening is None or self._opening.done():
            self._let_stay = self._let_go()
            self._opening = self._loop.create_task(work)  # type: ignore[arg-type]
        else:
            work.close()  # type: ignore[attr-defined]

    def _let_go(self) -> Program | None:
        """The program that runs, with which nobody speaks from now on."""
        running, self._running = self._running, None
        if running is not None:
            self._loop.remove_reader(running.output)
            self._loop.remove_writer(running.input)
        self._unwritten = self._out = b""
        return running

    async def _ended(self) -> None:
        """The program ended in place of an answer: what it had is unanswered, and the store is opened again or given up."""
        assert self._let_stay is not None
        status, said = await asyncio.to_thread(self._let_stay.end)
        log.error("qz_sched ended with status %d: %s", status, said or "it said nothing")
        self._ends += 1
        if status >= 0 and status not in REOPENED or self._ends >= QUICK_ENDS:
            self._give_up(ProgramEnded(status, said))
            return
        text = f"qz_sched ended with status {status} before it answered: {said or 'it said nothing'}"
        for place, question in enumerate(self._take_sent()):
            question.take(BadLine([f"qz_sched took it for no step: {said}"]) if status == 2 and not place else Unanswered(text))
        self._events.answered()
        await self._open_again()

    def _end_call(self) -> None:
        """A call takes so many lines only: it ends once it has answered what it has, and the store is opened again."""
        if not self._sent:
            self._start(self._next_call())

    async def _next_call(self) -> None:
        assert self._let_stay is not None
        await self.settle()
        status, said = await asyncio.to_thread(self._let_stay.end)
        log.info("opening the store again after %d lines (status %d %s)", self._lines, status, said)
        if status:
            self._give_up(ProgramEnded(status, said))
        else:
            await self._open_again()

    async def settle(self, closes: bool = False) -> None:
        """Waits until the recorder has all that was answered, with the store's own moments: so it has little to do behind the snapshot or the
        opening that comes next. With `closes` other stores take the place of these."""
        if self.recorder is not None:
            await self.recorder.settled(closes)

    async def _open_again(self) -> None:
        begun = clock.uptime()
        try:
            await self._open(self.ledger.held)
        except KemtruaError as error:
            self._give_up(error)
            return
        if clock.uptime() - begun > STALL:
            self._events.stalled(clock.uptime() - begun)
        self._pump()

    async def _open(self, held: dict[str, int]) -> None:
        """Reads the rows, opens the store, and lets the nodes hold their epochs again for which a connection speaks."""
        self.ledger, running = await asyncio.to_thread(self._opened)
        members = self.ledger.members
        for node, epoch in held.items():
            if members.get(node) == epoch and self._events.resumes(node):
                line: Line = {"do": "resume", "node": node, "epoch": epoch}
                try:
                    self.ledger.learn(line, await asyncio.to_thread(running.ask, bytes_of(line)))
                except Gone:
                    raise ended(self.folder, *await asyncio.to_thread(running.end)) from None
        os.set_blocking(running.input, False)
        os.set_blocking(running.output, False)
        self._running, self._lines, self._heard = running, len(held) + 1, clock.uptime()
        self._loop.add_reader(running.output, self._read)

    def _opened(self) -> tuple[Ledger, Program]:
        wait_until_free(self.folder, LOCK_WITHIN)
        listed = call(self.program, self.folder, "list").splitlines()
        running = opened(self.program, self.folder)
        if self._listed is None:
            self._see_that_fits(running)
        self._listed = listed if self._listed is None else []
        if self.recorder is not None:
            self.recorder.opened(self.folder)
        return Ledger(listed), running

    def _see_that_fits(self, running: Program) -> None:
        """Raises where the program hasn't the lines that a hub needs."""
        try:
            running.ask(bytes_of({"do": "show_room"}))
        except Gone:
            status, said = running.end()
            if status != 2:
                raise ended(self.folder, status, said) from None
            raise NotFitting(f"the program {self.program} is too old for this hub: it doesn't know the line show_room; install the one of this version") from None

    def _take_sent(self) -> list[Question]:
        sent = list(self._sent)
        self._sent.clear()
        return sent

    def _give_up(self, error: KemtruaError) -> None:
        self._broken = error
        self._refuse_all(error)
        self._events.failed(error)

    def _refuse_all(self, error: KemtruaError, those_sent: bool = True) -> None:
        for question in self._take_sent() if those_sent else ():
            question.take(error)
        self._tell_quiet()
        while self._turns:
            turn = self._turns.popleft()
            while turn.lines:
                turn.lines.popleft().take(error)
        self._events.answered()


