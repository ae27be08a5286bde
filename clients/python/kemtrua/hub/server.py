"""The hub: one process, which holds the store and answers the lines of many connections."""
from __future__ import annotations

import asyncio
import signal
import socket
import ssl
import sys
from collections.abc import Awaitable, Callable, Coroutine, Sequence
from dataclasses import dataclass
from typing import Any

from .. import clock, logs, rows
from ..address import Address, Tls, common_name
from ..certificates import warn_of
from ..errors import BadSettings, KemtruaError
from ..folder import KEEP, Folder
from ..history.settings import HistorySettings
from ..notify import notify
from ..program import check_version
from ..team import Team
from .asking import Asking, Events, Holding
from .entrance import OF_ONE, Entrance
from .lines import Home, Lines
from .recording import Recording
from .rights import Door, Grant, Identity, Rights
from .tending import Tending, Watchers
from .timekeeping import moment_of
from .visitor import Visitor

log = logs.logger("kemtrua.hub")

TICK = 0.5  # seconds
DAY = 86400.0
SWITCH = 0.0005  # seconds that another thread may keep the interpreter while an answer waits
HELD_WITHIN = 3.0  # seconds that held answers have to go out, before a hub ends
LATEST = 0.2  # seconds that an answer has to go out, before a hub whose store failed ends


@dataclass(frozen=True)
class HubSettings:
    """Where a hub's stores are, where it listens, and who may do what. It keeps so many old stores.

    Whoever may open a socket of `addresses` operates; at one of `node_addresses`, which belongs to `nodes_group`, connections are nodes alone.
    """

    folder: str
    program: str = "qz_sched"
    make: bool = False
    addresses: Sequence[Address] = ()
    node_addresses: Sequence[Address] = ()
    nodes_group: str | None = None
    tls: Tls | None = None
    operators: Sequence[str] = ()
    nodes: Sequence[Grant] = ()
    keep: int = KEEP
    history: HistorySettings = HistorySettings()


class Hub:
    """Serves a store until SIGTERM or SIGINT. At SIGHUP it reads its certificates again."""

    def __init__(self, settings: HubSettings, holding: Holding | None = None, team: Callable[[], Awaitable[bytes]] | None = None):
        self.settings = settings
        if any(not address.path for address in settings.addresses) and settings.tls is None:
            raise BadSettings("a hub listens over TCP only with TLS: give it a certificate, a key and an authority")
        if any(not address.path for address in settings.node_addresses):
            raise BadSettings("over TCP a certificate says what somebody is: --listen-nodes is for Unix sockets")
        self._context: ssl.SSLContext | None = settings.tls.context(server=True) if settings.tls else None
        self._ended = asyncio.Event()
        events = Events(self._woken, self.fail, self.stalled, lambda: self.lines.flush(), lambda node: self.lines.speakers.has(node),
                        lambda: self.lines.doubt())
        self._folder = Folder(settings.folder, settings.keep)
        self._asking = Asking(settings.folder, settings.program, events, holding)
        self.lines = Lines(self._asking, Rights(settings.operators, settings.nodes), self.fail)
        self.lines.connections = lambda: len(self._visitors)
        self.lines.team = team
        self.lines.turns.heard = self._wake
        self._entrance = Entrance(self._visitor, self._tls_context)
        self._visitors: dict[Visitor, None] = {}  # in the order in which they came
        self._tasks: set[asyncio.Task[None]] = set()
        self.failure: KemtruaError | None = None

    def run(self) -> None:
        """Serves to the end. Raises what ended the store, if it ended."""
        sys.setswitchinterval(SWITCH)
        asyncio.run(self._run())
        if self.failure is not None:
            raise self.failure

    async def _run(self) -> None:
        check_version(self.settings.program)
        self._folder.hold()
        try:
            team = self._folder.open(self.settings.program, self.settings.make)
            for number in (signal.SIGTERM, signal.SIGINT):
                asyncio.get_running_loop().add_signal_handler(number, self.end)
            asyncio.get_running_loop().add_signal_handler(signal.SIGHUP, self.read_certificates)
            await self.serve(team)
        finally:
            self._folder.let_go()

    def end(self) -> None:
        """Has it end in good order."""
        self._ended.set()

    async def serve(self, team: Team) -> None:
        """Works in a folder that somebody holds and has opened. What ended it is in `failure`."""
        self._loop = asyncio.get_running_loop()
        self._asking.folder = self._folder.current
        self._history = Recording(self.settings.folder, self.settings.program, self.settings.history, team.generation)
        self._asking.recorder = self._history.recorder
        try:
            await self._work(team)
        finally:
            await asyncio.to_thread(self._history.end)

    async def _work(self, team: Team) -> None:
        await self._asking.open()
        try:
            await self._serve(team)
        finally:
            await self._end()

    async def _serve(self, team: Team) -> None:
        log.info("%s; the stores are in %s", team, self._asking.folder)
        await self._compare_clock()
        tending = Tending(self._asking, self._folder, team, Watchers(self.lines.patience.begin_anew, self.fail, self._history.needed))
        self.lines.home = Home(self._folder.path, team, tending.compact)
        for door, addresses in ((Door.OPERATORS, self.settings.addresses), (Door.NODES, self.settings.node_addresses)):
            for address in addresses:
                self._entrance.listen(address, door, self.settings.nodes_group if door is Door.NODES else None)
        self._start(self._tick())
        self._start(self._look_at_certificates())
        self._start(tending.run())
        self.lines.telling = self._history.telling()
        self._start(self._history.run(self._asking.own))
        log.info("listening at %s", ", ".join(map(str, self._entrance.listening)))
        notify("READY=1")
        await self._ended.wait()

    async def _compare_clock(self) -> None:
        """Whether the clock and the store's latest moment are of about the same time."""
        self.lines.timekeeping.begin(await asyncio.to_thread(moment_of, map(rows.row_of, self._asking.take_listed())))
        self.lines.doubt()  # (which says so)

    async def _end(self) -> None:
        notify("STOPPING=1")
        log.info("ending; %d connections are closed", len(self._visitors))
        self._entrance.close()
        await self._let_held_go()
        await self.lines.end()
        for visitor in list(self._visitors):
            visitor.close()
        for task in list(self._tasks):
            task.cancel()
        await asyncio.gather(*self._tasks, return_exceptions=True)
        await self._asking.close()
        for visitor in list(self._visitors):
            visitor.abort()
        self._entrance.remove()

    async def _let_held_go(self) -> None:
        """What the program has answered goes out before the connections are closed, where it may."""
        if self.failure is None:
            try:
                await asyncio.wait_for(self._asking.shown(), HELD_WITHIN)
            except (KemtruaError, TimeoutError):
                log.warning("answers that are held are dropped")

    def _start(self, work: Coroutine[Any, Any, None]) -> None:
        task = self._loop.create_task(work)
        self._tasks.add(task)
        task.add_done_callback(self._tasks.discard)

    # -- connections

    def _visitor(self, door: Door, sock: socket.socket) -> Visitor:
        return Visitor(self, door, sock)

    def met(self, visitor: Visitor) -> bool:
        if visitor.door is Door.TLS:
            visitor.who = Identity(Door.TLS, common_name(visitor.certificate))
            visitor.ends = ssl.cert_time_to_seconds(str(visitor.certificate["notAfter"]))
            same = [it for it in self._visitors if it.who == visitor.who]
            if len(same) >= OF_ONE:
                idle = next((it for it in same if it.node is None), None)
                log.warning("%s has %d connections; %s", visitor.who, len(same), "the first that speaks for no node is closed" if idle else "no further one gets in")
                if idle is None:
                    return False
                idle.abort()
        else:
            visitor.who = Identity(visitor.door, visitor.peer_user())
        self._visitors[visitor] = None
        self._entrance.count[visitor.door] += 1
        return not self._ended.is_set()

    def said(self, visitor: Visitor, data: bytes) -> None:
        self.lines.said(visitor, data)

    def gone(self, visitor: Visitor) -> None:
        if visitor in self._visitors:
            del self._visitors[visitor]
            self._entrance.count[visitor.door] -= 1
        if not self._ended.is_set():
            self.lines.gone(visitor)

    # -- what happens at the store

    def fail(self, error: KemtruaError) -> None:
        """It can't go on."""
        if self.failure is None and not self._ended.is_set():
            log.error("%s", error)
            self.failure = error
            asyncio.get_running_loop().call_later(LATEST, self._ended.set)

    def stalled(self, seconds: float, who: str = "the store") -> None:
        """Nobody was answered for so long."""
        log.warning("%s gave no answer for %.1f seconds: no node is taken for failed before it could check in", who, seconds)
        self.lines.patience.begin_anew()

    def _woken(self) -> None:
        """Something may be due sooner than those know who sleep."""
        if self.lines.turns.is_wanted or any(visitor.watches and visitor.asleep for visitor in self._visitors):
            self.lines.turns.look()

    def _wake(self, due: int) -> None:
        for visitor in list(self._visitors):
            visitor.wake(due)

    # -- what happens as time goes by

    async def _tick(self) -> None:
        while True:
            await asyncio.sleep(TICK)
            if self.lines.patience.tick():
                log.warning("the hub slept, or the system's clock jumped: no node is taken for failed before it could check in")
            self.lines.doubt()
            for visitor in [it for it in self._visitors if it.ends is not None and it.ends <= clock.now() / 1000]:
                log.warning("%s is sent away: its certificate has ended", visitor)
                visitor.abort()

    async def _look_at_certificates(self) -> None:
        while self.settings.tls is not None:
            try:
                warn_of(self.settings.tls)
            except BadSettings as error:  # (as of a file that is being replaced: the next day it is looked at again)
                log.error("%s", error)
            await asyncio.sleep(DAY)

    def _tls_context(self) -> ssl.SSLContext:
        assert self._context is not None
        return self._context

    def read_certificates(self) -> None:
        """Takes the files as they are now, and closes what came in by the former ones: whoever is still trusted comes back at once."""
        if self.settings.tls is None:
            return
        try:
            self._context = self.settings.tls.context(server=True)
            warn_of(self.settings.tls)
        except BadSettings as error:
            log.error("the former certificates go on: %s", error)
            return
        over_tls = [visitor for visitor in self._visitors if visitor.door is Door.TLS]
        log.info("the certificates were read again; %d connections over TLS are closed, and come back", len(over_tls))
        for visitor in over_tls:
            visitor.abort()

