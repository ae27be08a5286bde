"""What the hub does to its stores as time goes by."""
from __future__ import annotations

import asyncio
import unittest
from unittest import mock

from kemtrua.compaction import Compacted, NotCompacted
from kemtrua.errors import KemtruaError
from kemtrua.folder import Folder
from kemtrua.hub import tending
from kemtrua.hub.asking import Asking
from kemtrua.hub.room import Snapshot
from kemtrua.hub.tending import Tending, Watchers
from kemtrua.team import Team


class Answers:
    """A store that answers as it is told, and keeps what it was asked."""

    def __init__(self, *replies: str):
        self.replies, self.asked, self.program = list(replies), [], "qz_sched"

    async def settle(self) -> None:
        self.asked.append("settle")

    async def own(self, line: dict[str, object]) -> str:
        self.asked.append(line["do"])
        return self.replies.pop(0)


class Looks(unittest.TestCase):
    def setUp(self) -> None:
        self.failures: list[KemtruaError] = []
        self.compactions: list[str] = []

    def tending(self, answers: Answers, snapshot: Snapshot | None = None, is_old: bool = False) -> Tending:
        made = Tending(answers, Folder("/nowhere"), Team.new(), Watchers(lambda: None, self.failures.append, set))  # type: ignore[arg-type]

        async def last() -> Snapshot | None:
            return snapshot

        async def compact(why: str) -> Compacted:
            self.compactions.append(why)
            made._tried = tending.clock.uptime()
            raise NotCompacted("no room")

        made._last_snapshot, made.compact, made._is_old, made._snapshot = last, compact, lambda: is_old, snapshot  # type: ignore[method-assign]
        return made

    def look(self, it: Tending, times: int = 1) -> None:
        async def run() -> None:
            for _ in range(times):
                await it._look()

        asyncio.run(run())

    def test_a_snapshot_when_it_is_due_and_once_in_ten_minutes(self) -> None:
        room = "room triggers 9000 5000 behind 4096 states 100 5"
        answers = Answers(room, "checkpoint made", room, room)
        it = self.tending(answers)
        self.look(it, 2)
        self.assertEqual(answers.asked, ["show_room", "settle", "checkpoint", "show_room"])
        it._made -= tending.BETWEEN_SNAPSHOTS
        answers.replies.append("checkpoint no room")
        self.look(it)
        self.assertEqual(answers.asked[4:], ["show_room", "settle", "checkpoint"])
        self.assertEqual(self.failures, [])

    def test_none_where_little_came_after_the_last(self) -> None:
        for reply, snapshot in (("room triggers 9000 5000 behind 4095 states 100 5", None), ("room triggers 9000 5000 behind 4096 states 100 5", Snapshot(5000, 4001))):
            answers = Answers(reply)
            self.look(self.tending(answers, snapshot))
            self.assertEqual(answers.asked, ["show_room"])

    def test_a_disk_that_fails_in_one_ends_the_hub(self) -> None:
        self.look(self.tending(Answers("room triggers 9000 5000 behind 4096 states 100 5", "fault")))
        self.assertEqual(len(self.failures), 1)

    def test_a_compaction_that_fails_is_tried_again_after_a_while(self) -> None:
        room = "room triggers 9000 4194304 behind 1 states 100 5"
        it = self.tending(Answers(*[room] * 4), Snapshot(0, 1000))
        self.look(it, 3)
        self.assertEqual(self.compactions, ["50% of a store are used"])
        it._tried -= tending.AFTER_A_FAILURE
        self.look(it)
        self.assertEqual(len(self.compactions), 2)

    def test_each_week_where_it_frees_something(self) -> None:
        for size, wanted in ((1000, 1), (8900, 0)):
            self.compactions.clear()
            self.look(self.tending(Answers("room triggers 9000 40 behind 1 states 100 5"), Snapshot(0, size), is_old=True))
            self.assertEqual(len(self.compactions), wanted)

    def test_stores_whose_rows_fill_them_are_told(self) -> None:
        room = f"room triggers {int(0.9 * 2**29)} 40 behind 1 states 100 5"
        with self.assertLogs("kemtrua.hub") as logs:
            self.look(self.tending(Answers(room, room), Snapshot(0, int(0.895 * 2**29))), 2)
        self.assertEqual(self.compactions, [])
        self.assertEqual(sum("is full to 90%" in line for line in logs.output), 1)

    def test_how_old_the_stores_are(self) -> None:
        it = Tending(Asking("/nowhere", "x", None), Folder("/nowhere"), Team.new(), Watchers(lambda: None, self.failures.append, set))  # type: ignore[arg-type]
        for name, wanted in (("2020-01-01T000000.000Z", True), ("2199-01-01T000000.000Z+", False), ("mine", False)):
            with mock.patch.object(Folder, "current", f"/nowhere/stores/{name}"):
                self.assertEqual(it._is_old(), wanted)


if __name__ == "__main__":
    unittest.main()
