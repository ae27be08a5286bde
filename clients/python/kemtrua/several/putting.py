"""The leader's side: each reply is held until etcd has what came of it, under this hub's term.

One put at a time is on its way, and takes all bytes that came meanwhile, of both files. What shows state and changed nothing is held,
too, until a quorum has said that the term goes on.
"""
from __future__ import annotations

import asyncio
import os
from collections import deque
from collections.abc import Callable
from dataclasses import dataclass, replace

from .. import clock, hooks, logs
from ..errors import HubRefused, KemtruaError, Unanswered
from ..etcd import EtcdError, delete, end_of
from ..patience import STALL
from .layout import FORMAT, Block, TeamRow, Write
from .mirror import Known
from .reign import Reign
from .tail import Tail

log = logs.logger("kemtrua.hub")

SAVE_AGAIN = 2.0  # seconds between two notes of how far the files are etcd's


@dataclass(slots=True)
class Held:
    """What waits for etcd: what is done then, or where this hub doesn't lead any more, and since when it waits."""

    release: Callable[[], None]
    drop: Callable[[KemtruaError], None]
    since: float


class Counts:
    """What was put since this hub leads."""

    def __init__(self) -> None:
        self.puts = self.bytes = self.confirmed = 0
        self.seconds = self.longest = 0.0

    def add(self, size: int, seconds: float) -> None:
        self.puts, self.bytes = self.puts + 1, self.bytes + size
        self.seconds, self.longest = self.seconds + seconds, max(self.longest, seconds)


class Putting:
    """Holds replies, and puts what came of them. `run` goes on to the end of the reign, and raises Deposed."""

    def __init__(self, reign: Reign, folder: str, known: Known, tail: Tail):
        self.reign, self._folder, self.known, self._tail = reign, folder, known, tail
        self._held: deque[Held] = deque()
        self._wanted, self._over = asyncio.Event(), False
        self._one = asyncio.Lock()  # put at a time
        self._saved = clock.uptime()
        self.counts = Counts()
        self.stalled: Callable[[float], None] = lambda seconds: None

    # -- what the hub asks of it

    def hold(self, release: Callable[[], None], drop: Callable[[KemtruaError], None]) -> None:
        """Calls `release` once etcd has all that the program has done by now, in the order of these calls; or `drop`."""
        if self._over:
            drop(self._why())
            return
        if hooks.asked("answers_first"):
            release()
            release, drop = (lambda: None), (lambda error: None)
        self._held.append(Held(release, drop, clock.uptime()))
        self._wanted.set()

    def doubt(self) -> KemtruaError | None:
        """Why nothing is asked of the store: nobody knows whether this hub still leads."""
        if self._over:
            return self._why()
        return None if self.reign.is_valid else HubRefused("etcd", "etcd doesn't answer, so nothing is asked of the store until it does")

    async def settled(self) -> None:
        """Waits until etcd has all that the program has done by now. Raises Unanswered."""
        done: asyncio.Future[None] = asyncio.get_running_loop().create_future()

        def release() -> None:
            if not done.done():
                done.set_result(None)

        def drop(error: KemtruaError) -> None:
            if not done.done():
                done.set_exception(error)

        self.hold(release, drop)
        await done

    def figures(self) -> dict[str, object]:
        """What was put since this hub leads, and what waits for it."""
        counts = self.counts
        return {"term": self.reign.term, "place": self.known.place, "held": len(self._held), "puts": counts.puts, "put_bytes": counts.bytes,
                "put_seconds": round(counts.seconds, 6), "longest_put": round(counts.longest, 6), "confirmed": counts.confirmed}

    async def run(self) -> None:
        try:
            while True:
                await self._wanted.wait()
                self._wanted.clear()
                await self._put_once()
        finally:
            self._drop_all()

    async def _put_once(self) -> None:
        count = len(self._held)
        async with self._one:
            await self._put_new()
            while not self.reign.is_valid:
                await self.reign.kept()
                await self.reign.confirm()
        self._release(count)

    def _release(self, count: int) -> None:
        oldest = self._held[0].since if count else clock.uptime()
        for _ in range(count):
            self._held.popleft().release()
        if clock.uptime() - oldest > STALL:
            self.stalled(clock.uptime() - oldest)
        if clock.uptime() - self._saved > SAVE_AGAIN:
            self.save()

    def save(self) -> None:
        """Notes how far the files are etcd's: the program has synced all that was put."""
        self._saved = clock.uptime()
        self.known.write(self._folder)

    async def finish(self) -> None:
        """Puts what the program did at its end."""
        async with self._one:
            await self._put_new()
        self.save()

    async def found(self, row: TeamRow) -> None:
        """Puts the whole files for the first time, and then the team."""
        async with self._one:
            await self._forget(row.stores)  # (somebody may have been killed in the middle of it)
            self.known = await self._put_all(self._tail, self.known)
            await self.reign.put(self.reign.keys.team, row.data())
        self.save()

    async def change(self, stores: str) -> None:
        """Puts other stores in place of these. They count from one transaction on; what was there before is deleted then."""
        async with self._one:
            known = replace(self.known, stores=os.path.basename(stores), place=0, sum=0, sizes=(0, 0), headers=(b"", b""))
            tail = Tail(stores)
            known = await self._put_all(tail, known)
            await self.reign.put(self.reign.keys.team, row_of(known).data(), row_of(self.known).data())
            before, self._tail, self.known = self.known, tail, known
            self.save()
        await self._forget(before.stores)

    async def forget_others(self) -> None:
        """Deletes blocks of stores that don't count, as a leader may have left them that was killed while it changed the stores."""
        keys, own = self.reign.keys, self.reign.keys.blocks(self.known.stores)
        others = [delete(keys.all_blocks, own), delete(end_of(own), end_of(keys.all_blocks))]
        try:
            await self.reign.etcd.transact(self.reign.compares, others, [])
        except EtcdError as error:
            log.warning("blocks that don't count stay in etcd: %s", error)

    async def _forget(self, stores: str) -> None:
        """Deletes blocks that count no more. Where that fails they stay, and take room alone."""
        begin = self.reign.keys.blocks(stores)
        try:
            await self.reign.etcd.transact(self.reign.compares, [delete(begin, end_of(begin))], [])
        except EtcdError as error:
            log.warning("the blocks of %s stay in etcd: %s", stores, error)

    # -- puts

    async def _put_new(self) -> None:
        """Puts what is new of both files; where nothing is, asks whether the term goes on."""
        before = self.known.place
        self.known = await self._put_all(self._tail, self.known)
        if self.known.place == before:
            await self.reign.confirm()
            self.counts.confirmed += 1

    async def _put_all(self, tail: Tail, known: Known) -> Known:
        while True:
            parts, is_all = tail.read()
            for writes in parts:
                known = await self._put(writes, known)
                tail.took(writes)
            if is_all:
                return known

    async def _put(self, writes: list[Write], known: Known) -> Known:
        body = b"".join(it.encoded() for it in writes)
        block, begun = Block(1, known.sum, body), clock.uptime()
        revision = await self.reign.put(self.reign.keys.block(known.stores, known.place), block.encoded())
        self.counts.add(len(body), clock.uptime() - begun)
        return known.with_writes(writes, block, revision)

    # -- the end

    def _why(self) -> KemtruaError:
        return Unanswered("this hub doesn't lead any more: the step was done or not, and the hub that leads knows")

    def _drop_all(self) -> None:
        self._over = True
        if self._held:
            log.warning("%d replies are dropped: this hub doesn't lead any more, and etcd doesn't have what came of them", len(self._held))
        while self._held:
            self._held.popleft().drop(self._why())


def row_of(known: Known) -> TeamRow:
    """The team whose stores these are."""
    return TeamRow(FORMAT, known.id, known.generation, known.stores, known.cluster)
