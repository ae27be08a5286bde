"""Lines to the program without waiting for each answer: their order, the bound, and calls that end."""
from __future__ import annotations

import asyncio
import os
import signal
import threading
import unittest
from unittest import mock

from kemtrua.errors import KemtruaError, ProgramEnded, Unanswered
from kemtrua.hub import asking
from kemtrua.hub.asking import Asking, Events, Turn
from kemtrua.hub.listing import Listing
from kemtrua.program import make_store
from tests.helpers import IS_STAND_IN, PROGRAM, WithFolder, job

Taken = list[str | KemtruaError]


class Askings(WithFolder):
    def setUp(self) -> None:
        super().setUp()
        self.failures: list[KemtruaError] = []
        self.stalls: list[float] = []
        self.held: set[str] = set()

    def run_(self, work: object) -> None:
        """Does something with an open store."""

        async def run() -> None:
            events = Events(lambda: None, self.failures.append, self.stalls.append, lambda: None, self.held.__contains__, lambda: None)
            one = Asking(self.folder, PROGRAM, events)
            make_store(PROGRAM, self.folder)
            await one.open()
            try:
                await work(one)  # type: ignore[operator]
            finally:
                await one.close()

        asyncio.run(run())

    async def until(self, holds: object) -> None:
        while not holds():  # type: ignore[operator]
            await asyncio.sleep(0.02)

    def test_many_lines_over_many_calls(self) -> None:
        """A call of the program takes so many lines only; nothing is lost or asked twice where the next one begins, and nodes go on."""
        taken: Taken = []
        self.held.add("A")

        async def work(one: Asking) -> None:
            first = one._running
            await one.own({"do": "join", "node": "A"})
            turn = Turn()
            for number in range(100):
                one.ask(turn, {"do": "add_job", "job": job(f"j{number}", durable=True)}, taken.append)
                one.ask(turn, {"do": "show_job", "name": f"j{number}"}, taken.append)
            await self.until(lambda: len(taken) == 200)
            self.assertIsNot(one._running, first)
            self.assertEqual(await one.own({"do": "acquire", "node": "A", "no_later": 0}), "acquired none")  # (it holds its epoch)

        with mock.patch.object(asking, "LINES_OF_A_CALL", 70):
            self.run_(work)
        self.assertEqual(taken[0::2], ["ok"] * 100)
        self.assertEqual([str(it).split()[1] for it in taken[1::2]], [f"DEFAULT/j{number}" for number in range(100)])

    def test_no_more_than_the_bound_are_under_way(self) -> None:
        async def work(one: Asking) -> None:
            turns, most = [Turn() for _ in range(5)], 0
            taken: Taken = []
            for turn in turns:
                for _ in range(100):
                    one.ask(turn, {"do": "show_next"}, taken.append)
            while len(taken) < 500:
                most = max(most, len(one._sent))
                await asyncio.sleep(0)
            self.assertLessEqual(most, asking.BOUND)
            self.assertGreater(most, 1)

        self.run_(work)

    def test_turns_go_round_and_a_check_in_comes_next(self) -> None:
        order: list[str] = []

        async def work(one: Asking) -> None:
            greedy, modest, node = Turn(), Turn(), Turn()
            for _ in range(300):
                one.ask(greedy, {"do": "show_next"}, lambda _: order.append("greedy"))
            for _ in range(5):
                one.ask(modest, {"do": "show_next"}, lambda _: order.append("modest"))
            await asyncio.sleep(0)  # (now the program has the first ones)
            one.ask(node, {"do": "check_in", "node": "A"}, lambda _: order.append("check-in"))
            await self.until(lambda: len(order) == 306)

        self.run_(work)
        self.assertLessEqual(order.index("check-in"), asking.BOUND)
        self.assertLess(max(place for place, who in enumerate(order) if who == "modest"), 20)

    def test_lines_are_answered_while_a_list_is_copied(self) -> None:
        """Before, the store's files were copied in the thread of the lines, and everybody waited for it."""
        copies, may_end, copy = threading.Event(), threading.Event(), Listing._copy_to

        def slow(listing: Listing, folder: str) -> None:
            copies.set()
            may_end.wait(60)
            copy(listing, folder)

        async def work(one: Asking) -> None:
            rows = asyncio.create_task(Listing(lambda: self.folder, PROGRAM).rows())
            await self.until(copies.is_set)
            self.assertEqual(await one.own({"do": "show_next"}), "next none")
            self.assertFalse(rows.done())
            may_end.set()
            self.assertNotIn(b"DEFAULT/", await rows)

        with mock.patch.object(Listing, "_copy_to", slow):
            self.run_(work)

    def test_a_program_that_is_killed_leaves_nothing_in_doubt_but_what_it_had(self) -> None:
        taken: Taken = []
        self.held.add("A")

        async def work(one: Asking) -> None:
            await one.own({"do": "join", "node": "A"})
            await one.own({"do": "join", "node": "B"})
            assert one._running is not None
            os.kill(one._running.pid, signal.SIGSTOP)
            turn = Turn()
            for _ in range(100):
                one.ask(turn, {"do": "show_next"}, taken.append)
            await self.until(lambda: len(one._sent) == asking.BOUND)
            os.kill(one._running.pid, signal.SIGKILL)
            await self.until(lambda: len(taken) == 100)
            self.assertEqual(one.ledger.held, {"A": 1})  # (a connection speaks for A, and none for B)

        self.run_(work)
        self.assertTrue(all(isinstance(it, Unanswered) for it in taken[: asking.BOUND]))
        self.assertEqual(taken[asking.BOUND :], ["next none"] * (100 - asking.BOUND))

    def test_a_stall_is_told(self) -> None:
        async def work(one: Asking) -> None:
            assert one._running is not None
            os.kill(one._running.pid, signal.SIGSTOP)
            asked = asyncio.ensure_future(one.own({"do": "show_next"}))
            await asyncio.sleep(3.5)
            os.kill(one._running.pid, signal.SIGCONT)
            await asked

        self.run_(work)
        self.assertGreater(self.stalls[0], 3.0)

    @unittest.skipUnless(IS_STAND_IN, "the stand-in makes this fault")
    def test_a_full_journal_ends_all(self) -> None:
        taken: Taken = []

        async def work(one: Asking) -> None:
            turn = Turn()
            for number in range(10):
                one.ask(turn, {"do": "add_job", "job": job(f"j{number}")}, taken.append)
            await self.until(lambda: len(taken) == 10)

        with mock.patch.dict(os.environ, {"STAND_IN": "full:3"}):
            self.run_(work)
        self.assertEqual(taken[:2], ["ok", "ok"])
        self.assertTrue(all(isinstance(it, ProgramEnded) and it.status == 7 for it in taken[2:]))
        self.assertEqual(len(self.failures), 1)


if __name__ == "__main__":
    unittest.main()
