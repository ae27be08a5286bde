"""A hub that stands by takes the leader's history into its own folder, so that it knows what ran where it leads next."""
from __future__ import annotations

import asyncio
import os
import sqlite3
import threading
from collections.abc import Callable
from contextlib import closing

from .. import logs
from ..address import Address, Tls
from ..connection import Connection
from ..errors import HubRefused, KemtruaError
from ..history.process import hold
from ..history.schema import NoHistory
from ..history.shipping import BadPart, Kept, heard

log = logs.logger("kemtrua.hub")

EACH = 10.0  # seconds between two looks at what is new
ANSWER_WITHIN = 20.0  # seconds that the leader has to tell a part


class Taking:
    """Takes it from time to time, until `end`. `leader` says where the one that leads listens, if one does."""

    def __init__(self, folder: str, tls: Tls | None, leader: Callable[[], str | None]):
        self._folder, self._tls, self._leader = folder, tls, leader
        self._one = threading.Lock()  # part at a time, and none once it has ended
        self._ended = False
        self._hub: Connection | None = None  # who is asked at this moment
        self._said = ""

    async def run(self) -> None:
        while True:
            await asyncio.sleep(EACH)
            if (address := self._leader()) is not None:
                await asyncio.to_thread(self._take_all, address)

    async def end(self) -> None:
        """Takes no further part. Returns once that is sure."""

        def work() -> None:
            with self._one:
                self._ended = True
                if self._hub is not None:
                    self._hub.cut()  # (a leader that hangs has long for a part, and this process ends no sooner than the thread that asks)

        await asyncio.to_thread(work)

    def _take_all(self, address: str) -> None:
        """Takes all that is new. What goes wrong is said once, and it is tried again later."""
        try:
            with Connection(Address.parse(address), self._tls, ANSWER_WITHIN) as self._hub:
                while self._take(self._hub):
                    pass
            self._said = ""
        except (KemtruaError, OSError, sqlite3.Error) as error:
            self._say(error)

    def _take(self, hub: Connection) -> bool:
        """Takes a part, if there is one, and this hub still stands by."""
        asked: list[tuple[list[object], int]] = []
        if not self._with(lambda kept: asked.append((kept.positions(), kept.since()))):
            return False
        positions, since = asked[0]
        objects = hub.rows("ship", positions=positions, since=since)
        if not objects:
            return False
        found, position = heard(objects)
        return self._with(lambda kept: kept.take_rows(found, position))

    def _with(self, work: Callable[[Kept], None]) -> bool:
        """Does something to this hub's history, for a moment. False where this hub doesn't stand by any more."""
        with self._one:
            if self._ended:
                return False
            descriptor = hold(self._folder, 0.0)
            try:
                with closing(Kept(self._folder)) as kept:
                    work(kept)
            finally:
                os.close(descriptor)
            return True

    def _say(self, error: Exception) -> None:
        if str(error) == self._said:
            return
        self._said = str(error)
        if isinstance(error, HubRefused) and error.word == "no-right":
            log.warning("the leader tells this hub no history: name its certificate with --operator at the other hubs (%s)", error)
        elif isinstance(error, (BadPart, NoHistory, sqlite3.Error)):
            log.error("the leader's history isn't taken: %s", error)
        else:
            log.debug("the leader's history isn't taken: %s", error)
