"""Answers that are held, as those of a hub of several are, without etcd."""
from __future__ import annotations

import asyncio
import os
import unittest
from collections.abc import Callable

from kemtrua.errors import KemtruaError, Unanswered
from kemtrua.hub.asking import Asking, Events, Turn
from kemtrua.program import make_store
from tests.helpers import PROGRAM, WithFolder, job

Taken = list[str | KemtruaError]


class Shelf:
    """Holds all answers until somebody says so."""

    def __init__(self) -> None:
        self.held: list[tuple[Callable[[], None], Callable[[KemtruaError], None]]] = []
        self.changed: list[str] = []

    def hold(self, release: Callable[[], None], drop: Callable[[KemtruaError], None]) -> None:
        self.held.append((release, drop))

    def doubt(self) -> KemtruaError | None:
        return None

    async def settled(self) -> None:
        done = asyncio.Event()
        self.hold(done.set, lambda error: None)
        await done.wait()

    async def change(self, stores: str) -> None:
        self.changed.append(stores)

    def figures(self) -> dict[str, object]:
        return {}

    def let_go(self) -> None:
        while self.held:
            self.held.pop(0)[0]()


class Held(WithFolder):
    def run_(self, work: object) -> None:
        async def run() -> None:
            self.shelf, self.woken = Shelf(), 0
            events = Events(self.wake, lambda _: None, lambda _: None, lambda: None, lambda _: False, lambda: None)
            one = Asking(self.folder, PROGRAM, events, self.shelf)
            make_store(PROGRAM, self.folder)
            await one.open()
            try:
                await work(one)  # type: ignore[operator]
            finally:
                await one.close()

        asyncio.run(run())

    def wake(self) -> None:
        self.woken += 1

    async def until_held(self, count: int) -> None:
        while len(self.shelf.held) < count:
            await asyncio.sleep(0.02)

    def test_nothing_goes_out_before(self) -> None:
        """Neither what changes something nor what shows it, nor a wake. The ledger knows it: the program does."""
        async def work(one: Asking) -> None:
            taken: Taken = []
            turn = Turn()
            for line in ({"do": "join", "node": "A"}, {"do": "add_job", "job": job("j", durable=True)}, {"do": "show_job", "name": "j"}):
                one.ask(turn, line, taken.append)
                await self.until_held(len(self.shelf.held) + 1)
            self.assertEqual((taken, self.woken, one.ledger.members), ([], 0, {"A": 1}))
            self.shelf.let_go()
            self.assertEqual([str(it).split()[0] for it in taken], ["joined", "ok", "job"])
            self.assertEqual(self.woken, 1)

        self.run_(work)

    def test_what_is_dropped(self) -> None:
        async def work(one: Asking) -> None:
            taken: Taken = []
            one.ask(Turn(), {"do": "add_job", "job": job("j")}, taken.append)
            await self.until_held(1)
            self.shelf.held.pop()[1](Unanswered("another one leads"))
            self.assertEqual(list(map(str, taken)), ["another one leads"])

        self.run_(work)

    def test_other_stores(self) -> None:
        """They come once nothing is held any more, and are said before the program opens them."""
        async def work(one: Asking) -> None:
            os.mkdir(other := os.path.join(self.folder, "other"))
            make_store(PROGRAM, other)
            taken: Taken = []
            one.ask(Turn(), {"do": "add_job", "job": job("j")}, taken.append)
            changing = asyncio.create_task(one.change(lambda: other))
            await self.until_held(2)
            await asyncio.sleep(0.1)
            self.assertEqual((taken, self.shelf.changed), ([], []))
            self.shelf.let_go()
            await changing
            self.assertEqual((taken, self.shelf.changed, one.folder), (["ok"], [other], other))

        self.run_(work)


if __name__ == "__main__":
    unittest.main()
