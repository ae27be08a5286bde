"""A node's membership: connections that are new, hubs that end, and clocks that are wrong."""
from __future__ import annotations

import threading
import time
import unittest
from collections.abc import Callable
from unittest import mock

from kemtrua import clock
from kemtrua.checking import Line
from kemtrua.errors import Unanswered
from kemtrua.membership import GivenUp, Membership
from kemtrua.scheduler import Scheduler


class Answers(Scheduler):
    """A scheduler that answers by a list, and keeps what it was asked."""

    def __init__(self, *answers: str):
        self.answers, self.asked = list(answers), []

    def answer(self, line: Line) -> str:
        self.asked.append(line["do"])
        return self.answers.pop(0)

    def peers(self) -> list[str]:
        return self.answer({"do": "members"}).split()[1:]

    def entries_of(self, node: str) -> list[int]:
        return []

    def clock(self) -> int:
        return clock.now() + self.ahead

    def watch(self, call: Callable[[], None]) -> None:
        pass

    def close(self) -> None:
        pass

    ahead = 0


JOINED, REFUSED = "joined 3 executions 0 triggers 0", "hub not-yours this connection hasn't joined"


def members_of(scheduler: Scheduler) -> Membership:
    return Membership("N", 1000, lambda: scheduler, lambda: None)


class Resuming(unittest.TestCase):
    def test_a_connection_that_has_not_resumed_is_no_failure(self) -> None:
        scheduler = Answers(JOINED, REFUSED, "ok", "ok", "ok")
        members = members_of(scheduler)
        members.join()
        with self.assertRaises(Unanswered):
            members.ask(lambda it: it.check_in("N", 1000))
        members.ask(lambda it: it.check_in("N", 1000))
        self.assertEqual(scheduler.asked, ["join", "check_in", "resume", "check_in", "check_in"])

    def test_a_hub_that_ends_is_waited_for_by_those_who_look(self) -> None:
        """Before, `hub ended` to a line that asks ended the node, and its commands with it."""
        scheduler = Answers(JOINED, "hub ended a store is full", "next 5")
        members = members_of(scheduler)
        members.join()
        self.assertEqual(members.look(lambda it: it.show_next()), 5)

    def test_a_hub_whose_clock_is_in_doubt_is_waited_for(self) -> None:
        scheduler = Answers("hub clock it jumped", JOINED, "hub clock it jumped", "ok")
        members = members_of(scheduler)
        self.assertEqual(members.join().epoch, 3)
        members.sure(lambda it: it.check_in("N", 1000))
        self.assertEqual(scheduler.asked, ["join", "join", "check_in", "check_in"])

    def test_a_node_that_is_given_up_waits_for_nothing(self) -> None:
        scheduler = Answers(JOINED, "hub ended x")
        members = members_of(scheduler)
        members.join()
        members.give_up()
        with self.assertRaises(GivenUp):
            members.look(lambda it: it.show_next())


class Clocks(unittest.TestCase):
    def test_the_skew_is_measured_and_borne(self) -> None:
        scheduler = Answers(JOINED)
        scheduler.ahead = 3000
        members = members_of(scheduler)
        with self.assertLogs("kemtrua.node", "WARNING") as logs:
            members.join()
        self.assertIn("3.0 s behind the hub's", logs.output[0])
        self.assertAlmostEqual(members.clock.now(), clock.now() + 3000, delta=300)

    def test_the_hubs_time_goes_on_where_this_clock_jumps(self) -> None:
        members = members_of(Answers(JOINED))
        members.join()
        before = members.clock.now()
        with mock.patch.object(clock, "now", lambda: before + 3600000):
            self.assertAlmostEqual(members.clock.now(), before, delta=500)
            self.assertAlmostEqual(members.clock.skew, 3600000, delta=500)

    def test_a_node_past_the_limit_is_not_let_in(self) -> None:
        """Before, a node whose clock was 70 s slow joined, and fired nothing; an hour fast, it hoarded what was due in half an hour."""
        for ahead in (-3600000, 70000):
            scheduler = Answers(JOINED)
            scheduler.ahead = ahead
            members = members_of(scheduler)
            threading.Timer(0.3, members.give_up).start()
            with self.assertLogs("kemtrua.node", "WARNING") as logs, self.assertRaises(GivenUp):
                members.join()
            self.assertIn("a node isn't let in", logs.output[-1])
            self.assertEqual(scheduler.asked, [])

    def test_of_several_samples_the_one_with_the_shortest_way_counts(self) -> None:
        scheduler, late = Answers(JOINED), iter((0.4, 0.0, 0.3))

        def slow() -> int:
            time.sleep(next(late))
            return clock.now()

        with mock.patch.object(scheduler, "clock", slow):
            members = members_of(scheduler)
            members.join()
        self.assertLess(abs(members.clock.skew), 100)


if __name__ == "__main__":
    unittest.main()
