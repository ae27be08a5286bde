"""Where a hub that stands by listens: each line is answered by who leads."""
from __future__ import annotations

import asyncio
import ssl
from collections.abc import Awaitable, Callable, Sequence

from .. import logs
from ..address import Address, Tls, common_name
from ..checking import value_of
from ..errors import BadSettings, KemtruaError
from ..hub.entrance import Entrance
from ..hub.rights import Door, Identity, Rights
from ..hub.visitor import Visitor

log = logs.logger("kemtrua.hub")


class StandbyDoor:
    """Answers `hub standby ADDRESS` to all that comes, and `team` to operators."""

    def __init__(self, tls: Tls | None, rights: Rights, leader: Callable[[], str | None], team: Callable[[], Awaitable[bytes]]):
        self._tls, self._rights, self._leader, self._team = tls, rights, leader, team
        self._context: ssl.SSLContext | None = None
        self._entrance = Entrance(lambda door, sock: Visitor(self, door, sock), self._tls_context)
        self._visitors: set[Visitor] = set()
        self._tasks: set[asyncio.Task[None]] = set()
        self.read_certificates()

    def open(self, addresses: Sequence[tuple[Door, Sequence[Address], str | None]]) -> None:
        for door, listened, group in addresses:
            for address in listened:
                self._entrance.listen(address, door, group)

    def close(self) -> None:
        self._entrance.close()
        for visitor in list(self._visitors):
            visitor.close()
        for task in self._tasks:
            task.cancel()
        self._entrance.remove()

    def read_certificates(self) -> None:
        """Takes the files as they are now."""
        if self._tls is not None:
            try:
                self._context = self._tls.context(server=True)
            except BadSettings as error:
                if self._context is None:
                    raise
                log.error("the former certificates go on: %s", error)

    def _tls_context(self) -> ssl.SSLContext:
        assert self._context is not None
        return self._context

    # -- what a connection calls

    def met(self, visitor: Visitor) -> bool:
        name = common_name(visitor.certificate) if visitor.door is Door.TLS else visitor.peer_user()
        visitor.who = Identity(visitor.door, name)
        self._visitors.add(visitor)
        self._entrance.count[visitor.door] += 1
        return True

    def said(self, visitor: Visitor, data: bytes) -> None:
        slot = visitor.slot()
        try:
            line = value_of(data)
            if isinstance(line, dict) and line.get("do") == "team" and self._rights.is_operator(visitor.who):
                self._later(visitor, lambda answer: visitor.answer(slot, answer))
                return
        except KemtruaError:
            pass  # (whatever it is, it is for the leader)
        leader = self._leader()
        visitor.answer(slot, f"hub standby {leader or 'none'} this hub stands by{'' if leader else ', and none leads at this moment'}")

    def gone(self, visitor: Visitor) -> None:
        if visitor in self._visitors:
            self._visitors.discard(visitor)
            self._entrance.count[visitor.door] -= 1

    def _later(self, visitor: Visitor, answer: Callable[[str | bytes], None]) -> None:
        async def work() -> None:
            try:
                answer(await self._team())
            except KemtruaError as error:
                answer(f"hub etcd {' '.join(str(error).split())}")
            visitor.flush()

        task = asyncio.get_running_loop().create_task(work())
        self._tasks.add(task)
        task.add_done_callback(self._tasks.discard)
