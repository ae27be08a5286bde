"""Tends the stores: snapshots, compactions and old stores, so that a team's store has no end."""
from __future__ import annotations

import asyncio
import os
from collections.abc import Callable
from dataclasses import dataclass
from datetime import datetime, timedelta, timezone

from .. import clock, hooks, logs
from ..compaction import Compacted, NotCompacted, compact
from ..errors import HubRefused, KemtruaError, ProgramEnded
from ..folder import Folder
from ..journal import snapshot_in
from ..program import STORE_FILES
from ..replies import Room, read
from ..scheduler import the
from ..team import Team
from .asking import Asking
from .room import COUNT_LIMIT, CROWDED, Snapshot, compaction_is_due, share, snapshot_is_due

log = logs.logger("kemtrua.hub")

LOOK_AGAIN = 10.0  # seconds between two looks at the stores
BETWEEN_SNAPSHOTS = 600.0  # seconds
AFTER_A_FAILURE = 600.0  # seconds until a compaction is tried again by itself
WEEK = timedelta(days=7)
SAY_AGAIN = 3600.0  # seconds between two lines of the log that say that a store is filling


@dataclass(frozen=True)
class Watchers:
    """Who is told that nobody could check in for a while, and who of a disk's fault; and who says which old stores it needs still (None: maybe all)."""

    paused: Callable[[], None]
    failed: Callable[[KemtruaError], None]
    needed: Callable[[], set[str] | None]


class Tending:
    """Looks at the stores from time to time."""

    def __init__(self, asking: Asking, folder: Folder, team: Team, watchers: Watchers):
        self._asking, self._folder, self._team, self._watchers = asking, folder, team, watchers
        self._one = asyncio.Lock()  # compaction at a time
        self._snapshot: Snapshot | None = None
        self._made = self._tried = self._said = -float("inf")  # the uptimes of the last snapshot, compaction that failed, and warning

    async def run(self) -> None:
        self._snapshot = await self._last_snapshot()
        await asyncio.to_thread(self._prune)  # (a kill may have come before it)
        while True:
            try:
                await self._look()
            except HubRefused:
                pass  # (the clock is in doubt)
            except KemtruaError as error:
                log.warning("the stores weren't looked at: %s", error)
            await asyncio.sleep(hooks.number("look", LOOK_AGAIN))

    async def compact(self, why: str) -> Compacted:
        """Compacts both stores. Raises NotCompacted, and what the program ended with."""
        async with self._one:
            log.info("the stores are compacted: %s", why)
            hooks.reached("asked")
            begun, found = clock.uptime(), []

            def make() -> str:
                found.append(compact(self._folder, self._asking.program, self._team, begun))
                return self._folder.current

            try:
                await self._asking.change(make)
            except KemtruaError as error:
                self._tried = clock.uptime()
                log.error("the stores go on as they are: %s", error)
                raise
            finally:
                self._watchers.paused()
            hooks.reached("opened")
            done = Compacted(found[0].before, found[0].after, clock.uptime() - begun)
            log.info("compacted: %s; they are in %s", done, self._folder.current)
            self._snapshot = await self._last_snapshot()
        await asyncio.to_thread(self._prune)
        hooks.reached("pruned")
        return done

    def _prune(self) -> None:
        needed = self._watchers.needed()
        if needed is not None:
            self._folder.prune(needed)

    async def _look(self) -> None:
        room = the(Room, read(await self._asking.own({"do": "show_room"})))
        payloads = 2 * hooks.number("compact_at", COUNT_LIMIT / 2)  # (a test's number of payloads counts as the half)
        if compaction_is_due(room, self._snapshot, self._is_old(), payloads) and clock.uptime() - self._tried >= AFTER_A_FAILURE:
            try:
                await self.compact(f"{share(room, payloads) * 100:.0f}% of a store are used")
            except NotCompacted:
                pass  # (it was logged)
        elif snapshot_is_due(room, self._snapshot) and clock.uptime() - self._made >= BETWEEN_SNAPSHOTS:
            await self._checkpoint(room)
        elif share(room) >= CROWDED and clock.uptime() - self._said >= SAY_AGAIN:
            self._said = clock.uptime()
            log.warning("a store is full to %d%%, and a compaction would free little: what it has are jobs and triggers", round(share(room) * 100))

    def _is_old(self) -> bool:
        """Whether the stores were made more than a week ago."""
        try:
            made = datetime.fromisoformat(os.path.basename(self._folder.current)[:10]).replace(tzinfo=timezone.utc)
        except ValueError:
            return False
        return datetime.now(timezone.utc) - made >= WEEK

    async def _checkpoint(self, room: Room) -> None:
        await self._asking.settle()
        begun = clock.uptime()
        said = await self._asking.own({"do": "checkpoint"})
        self._made = clock.uptime()
        if said == "fault":
            self._watchers.failed(ProgramEnded(5, "a disk failed in a snapshot"))
        log.info("%s: %d transactions came after the last one; it took %.2f s", said, room.behind, clock.uptime() - begun)
        self._snapshot = await self._last_snapshot()

    async def _last_snapshot(self) -> Snapshot | None:
        path = os.path.join(self._folder.current, STORE_FILES[0])
        found = await asyncio.to_thread(snapshot_in, path)
        return Snapshot(*found) if found is not None else None
