"""A hub's history as the hub has it: the process that keeps it, and events that the hub alone sees, as that nobody fires what is due."""
from __future__ import annotations

import asyncio
import shutil
from collections.abc import Awaitable, Callable

from .. import clock, logs
from ..checking import Line
from ..errors import KemtruaError
from ..history.apart import Apart
from ..history.schema import NoHistory
from ..history.settings import HistorySettings
from ..replies import Room, read
from ..scheduler import the
from .room import CROWDED, share
from .telling import Telling

log = logs.logger("kemtrua.history")

TICK = 1.0  # seconds
LOOK_AT_NEXT = 30.0  # seconds between two looks at whether something that is due fires
LATE = 60_000  # ms that something may be due before it is told
TELL_AGAIN = 3600.0  # seconds until it is told again
LOOK_AT_ROOM = 60.0  # seconds between two looks at the room that is left
LEFT = 0.05  # of a disk that is free, at which somebody is told
ROOM_AGAIN = 86_400.0  # seconds until the same is told again

Ask = Callable[[Line], Awaitable[str]]


class Recording:
    """Where the database can't be opened, the hub goes on without: `recorder` is None then."""

    def __init__(self, folder: str, program: str, settings: HistorySettings, generation: int):
        self.recorder: Apart | None = None
        self._looked = self._told = self._looked_at_room = -TELL_AGAIN
        self._told_room: dict[str, float] = {}
        try:
            self.recorder = Apart(folder, program, settings, generation)
        except (NoHistory, OSError) as error:
            log.error("no history is kept: %s", error)

    def needed(self) -> set[str] | None:
        """The names of stores that have to stay, since the database doesn't have all of them; None where it can't say. It waits for that."""
        try:
            return set() if self.recorder is None else self.recorder.needed()
        except (NoHistory, TimeoutError) as error:
            log.warning("the database doesn't say which stores it needs: %s", str(error) or "it takes too long")
            return None

    def telling(self) -> Telling | None:
        return None if self.recorder is None else Telling(self.recorder)

    async def run(self, ask: Ask) -> None:
        """Looks from time to time at what is late, and how full all is."""
        if self.recorder is None:
            return
        while True:
            await asyncio.sleep(TICK)
            await self._look_at_next(ask)
            if clock.uptime() - self._looked_at_room >= LOOK_AT_ROOM:
                self._looked_at_room = clock.uptime()
                await self._look_at_room(ask)

    def end(self) -> None:
        if self.recorder is not None:
            self.recorder.end()

    async def _look_at_next(self, ask: Ask) -> None:
        """Something that has been due for long, and that nobody fires, is an event: no node lives, or none has a free worker."""
        present = clock.uptime()
        if self.recorder is None or present - self._looked < LOOK_AT_NEXT:
            return
        self._looked = present
        try:
            reply = await ask({"do": "show_next"})
        except KemtruaError:
            return
        words = reply.split()
        if words[0] == "next" and words[1] != "none" and (late := clock.now() - int(words[1])) > LATE and present - self._told >= TELL_AGAIN:
            self._told = present
            self.recorder.event("late", f"something has been due for {late // 1000} s, and nobody fires it: no node lives, or none has a free worker")

    async def _look_at_room(self, ask: Ask) -> None:
        """A store or a disk that fills is an event, once a day."""
        assert self.recorder is not None
        try:
            used = share(the(Room, read(await ask({"do": "show_room"}))))
        except KemtruaError:
            used = 0.0
        if used >= CROWDED:
            self._tell_room("store", f"a store is full to {used * 100:.0f}%")
        try:
            disk = shutil.disk_usage(self.recorder.folder)
        except OSError:
            return
        if disk.free < LEFT * disk.total:
            self._tell_room("disk", f"the disk of {self.recorder.folder} has {disk.free // 2**20} MiB left of {disk.total // 2**20}")

    def _tell_room(self, matter: str, text: str) -> None:
        present = clock.uptime()
        if self.recorder is not None and present - self._told_room.get(matter, -ROOM_AGAIN) >= ROOM_AGAIN:
            self._told_room[matter] = present
            log.warning("%s", text)
            self.recorder.event("room", text)
