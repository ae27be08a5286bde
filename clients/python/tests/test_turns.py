"""Whose turn it is: one node for each due trigger, and the next one where it isn't taken. By a clock of the test's own."""
from __future__ import annotations

import unittest
from collections.abc import Callable
from dataclasses import dataclass, field
from unittest import mock

from kemtrua import clock
from kemtrua.errors import KemtruaError, Unanswered
from kemtrua.hub.turns import ASKS_WITHIN, LASTS, LOOKS_AGAIN, Turns
from kemtrua.ledger import Ledger

START = 1_700_000_000_000
WAIT = round(ASKS_WITHIN * 1000)


@dataclass(eq=False)
class Timer:
    at: int
    call: Callable[[], None]
    is_off: bool = False

    def cancel(self) -> None:
        self.is_off = True


@dataclass(eq=False)
class Node:
    """A node that sleeps. It keeps when it was woken, for which moment, and whether that may be misfired."""

    world: World
    ahead: int = 1000
    woken: list[tuple[int, int, bool]] = field(default_factory=list)

    def give_turn(self, moment: int, is_late: bool) -> None:
        self.woken.append((self.world.passed - START, moment - START, is_late))


class World:
    """The program, the time that passes, and what is due, all by hand. Moments are in ms from START."""

    def __init__(self, *due: int) -> None:
        self.due, self.passed, self.jump = sorted(START + it for it in due), START, 0
        self.timers: list[Timer] = []
        self.asked: list[Callable[[str | KemtruaError], None]] = []
        self.fails = False
        self.count = 0
        self.turns = Turns(self.asked.append, lambda: 60000, later=self.later)

    def node(self, ahead: int = 1000) -> Node:
        """One that went to sleep."""
        one = Node(self, ahead)
        self.sleeps(one)
        return one

    def later(self, seconds: float, call: Callable[[], None]) -> Timer:
        self.timers.append(Timer(self.passed + round(seconds * 1000), call))
        return self.timers[-1]

    def next(self) -> int | None:
        return self.due[0] if self.due else None

    def answer(self) -> None:
        while self.asked:
            self.count += 1
            take = self.asked.pop(0)
            take(Unanswered("it ended") if self.fails else f"next {self.next() or 'none'}")

    def to(self, moment: int) -> None:
        """Lets the time pass, with all that is to be done meanwhile."""
        self.answer()
        while found := [it for it in self.timers if not it.is_off and it.at <= START + moment]:
            first = min(found, key=lambda it: it.at)
            self.passed, first.is_off = max(self.passed, first.at), True
            first.call()
            self.answer()
        self.passed = START + moment

    # -- what nodes do

    def sleeps(self, one: Node) -> None:
        self.turns.slept(one, self.next())

    def takes(self, one: Node) -> None:
        """It acquires the first trigger, if one is there."""
        self.turns.asks(one)
        taken = self.due.pop(0) if self.due else None
        self.turns.acquired(one, taken is not None)
        self.answer()


class Given(unittest.TestCase):
    def setUp(self) -> None:
        self.world = World()
        for name, moment in (("now", lambda: self.world.passed + self.world.jump), ("uptime", lambda: self.world.passed / 1000)):
            patched = mock.patch.object(clock, name, moment)
            patched.start()
            self.addCleanup(patched.stop)

    def of(self, *due: int) -> World:
        self.world = World(*due)
        return self.world

    def test_a_due_trigger_wakes_one_node_at_its_time(self) -> None:
        """Before, each trigger woke all nodes."""
        world = self.of(5000)
        nodes = [world.node() for _ in range(16)]
        world.to(3999)
        self.assertEqual([it.woken for it in nodes], [[]] * 16)
        world.to(4000)
        world.takes(nodes[0])
        world.to(60_000)
        self.assertEqual([it.woken for it in nodes], [[(4000, 5000, False)]] + [[]] * 15)

    def test_each_in_its_turn(self) -> None:
        world = self.of(*range(1000, 9000, 1000))
        nodes = [world.node(ahead=500) for _ in range(3)]
        order = []
        for moment in range(500, 8500, 1000):
            world.to(moment)
            one = next(it for it in nodes if it.woken and it.woken[-1][0] == moment)
            order.append(nodes.index(one))
            world.takes(one)
            world.sleeps(one)
        self.assertEqual(order, [0, 1, 2, 0, 1, 2, 0, 1])
        self.assertEqual(sum(len(it.woken) for it in nodes), 8)

    def test_one_that_does_not_ask_costs_a_tenth_of_a_second(self) -> None:
        world = self.of(1000)
        hangs, dies, lives, rests = (world.node() for _ in range(4))
        self.assertEqual(hangs.woken, [(0, 1000, False)])
        world.to(WAIT - 1)
        self.assertEqual(dies.woken, [])
        world.to(WAIT)
        self.assertEqual(dies.woken, [(WAIT, 1000, False)])
        world.to(WAIT + 30)
        world.turns.gone(dies)
        world.answer()
        self.assertEqual(lives.woken, [(WAIT + 30, 1000, False)])
        world.takes(lives)
        world.to(20_000)
        self.assertEqual([len(it.woken) for it in (hangs, dies, lives, rests)], [1, 1, 1, 0])

    def test_one_that_waits_for_its_answer_keeps_its_turn(self) -> None:
        """Where the disk is slow, more nodes that ask would make it slower."""
        world = self.of(1000)
        one, other = world.node(), world.node()
        world.turns.asks(one)
        world.to(4000)
        self.assertEqual(other.woken, [])
        world.turns.acquired(one, False)
        world.to(4000 + WAIT)
        self.assertEqual(len(other.woken), 1)

    def test_no_turn_lasts_for_ever(self) -> None:
        """So a node that asks for misfires without an end keeps no trigger from others."""
        world = self.of(0)
        one, other = world.node(), world.node()
        for moment in range(0, 5000, 50):
            world.to(moment)
            world.turns.asks(one)
            world.turns.handled(one, True)
            world.turns.asks(one)
        self.assertEqual(other.woken, [])
        world.to(round(LASTS * 1000))
        self.assertEqual(len(other.woken), 1)

    def test_answers_to_what_was_asked_before_the_turn(self) -> None:
        """A connection needn't wait for answers: what it asked before it slept may be answered in its turn, which ends all the same."""
        world = self.of(0)
        one, other = world.node(), world.node()
        for _ in range(3):
            world.turns.handled(one, True)
        world.to(WAIT)
        self.assertEqual(len(other.woken), 1)

    def test_one_that_hangs_after_its_misfires(self) -> None:
        world = self.of(-70_000)
        one, other = world.node(), world.node()
        self.assertEqual(one.woken, [(0, -70_000, True)])
        world.to(50)
        world.turns.asks(one)
        world.to(2000)
        world.turns.handled(one, True)
        world.to(2000 + WAIT - 1)
        self.assertEqual(other.woken, [])
        world.to(2000 + WAIT)
        self.assertEqual(other.woken, [(2000 + WAIT, -70_000, True)])

    def test_it_may_be_misfired_past_the_threshold_alone(self) -> None:
        for late, word in ((60_000, False), (60_001, True)):
            self.assertEqual(self.of(-late).node().woken, [(0, -late, word)])

    def test_what_is_late_and_never_misfired(self) -> None:
        """Each of these would have cost a transaction that finds nothing."""
        world = self.of(*range(-70_000, -69_000, 100))
        one = world.node()
        for moment in range(0, 2000, 500):
            world.to(moment)
            world.turns.asks(one)
            if one.woken[-1][2]:
                world.turns.handled(one, False)
                world.turns.asks(one)
            world.takes(one)
            world.sleeps(one)
        self.assertEqual([it[2] for it in one.woken], [True, False, False, True, False])

    def test_what_nobody_can_acquire_is_tried_ten_times_a_second(self) -> None:
        world = self.of(0)
        nodes = [world.node() for _ in range(3)]
        tries = 0
        for moment in range(0, 1000, 10):
            world.to(moment)
            for one in nodes:
                if one.woken and one.woken[-1][0] == moment:
                    tries += 1
                    world.turns.asks(one)
                    world.turns.acquired(one, False)
                    world.sleeps(one)
        self.assertEqual(tries, 10)
        self.assertGreater(min(len(it.woken) for it in nodes), 2)

    def test_after_a_turn_in_vain_a_later_trigger_waits_for_nothing(self) -> None:
        world = self.of(100)
        one, other = world.node(), world.node()
        world.turns.asks(one)
        world.due = [START + 200]
        world.turns.acquired(one, False)
        world.answer()
        self.assertEqual(other.woken, [(0, 200, False)])

    def test_more_turns_where_more_is_overdue_and_one_again_later(self) -> None:
        world = self.of(*range(-20, 0))
        nodes = [world.node(ahead=0) for _ in range(8)]
        self.assertEqual(sum(len(it.woken) for it in nodes), 1)
        world.takes(nodes[0])
        self.assertEqual([len(it.woken) for it in nodes], [1, 1, 1, 0, 0, 0, 0, 0])
        world.takes(nodes[1])
        world.takes(nodes[2])
        self.assertEqual([len(it.woken) for it in nodes], [1] * 7 + [0])
        world.due.clear()
        for one in nodes[3:7]:
            world.takes(one)  # (in vain: so many at most, at the end of what was overdue)
            world.sleeps(one)
        for one in nodes:
            one.woken.clear()
        world.due = [START] * 3
        world.turns.look()
        world.answer()
        self.assertEqual(sum(len(it.woken) for it in nodes), 1)

    def test_a_sooner_trigger_and_one_that_is_deleted(self) -> None:
        world = self.of(50_000)
        one = world.node()
        world.due.insert(0, START + 20_000)
        world.turns.look()
        world.to(18_999)
        self.assertEqual(one.woken, [])
        world.due.pop(0)
        world.to(48_999)
        self.assertEqual(one.woken, [])
        world.to(49_000)
        self.assertEqual(one.woken, [(49_000, 50_000, False)])

    def test_the_longest_ahead_is_woken_first(self) -> None:
        world = self.of(10_000)
        late, early = world.node(ahead=0), world.node(ahead=4000)
        world.to(6000)
        self.assertEqual(early.woken, [(6000, 10_000, False)])
        world.to(9999)
        self.assertEqual(late.woken, [])  # (it would acquire nothing)
        world.to(10_000)
        self.assertEqual(late.woken, [(10_000, 10_000, False)])

    def test_a_clock_that_jumps_ahead(self) -> None:
        world = self.of(3_600_000)
        one = world.node()
        world.to(1000)
        world.jump = 3_600_000
        world.to(1000 + round(LOOKS_AGAIN * 1000))
        self.assertEqual(len(one.woken), 1)

    def test_an_answer_that_is_lost_is_asked_for_again(self) -> None:
        world = self.of(4000)
        one = world.node()
        world.fails = True
        world.to(8000)
        self.assertEqual(one.woken, [])
        world.fails = False
        world.to(8000 + WAIT)
        self.assertEqual(len(one.woken), 1)

    def test_who_looks_again_in_its_turn_keeps_it_as_long_as_others(self) -> None:
        world = self.of(500)
        one = world.node()
        for moment in range(0, 3 * WAIT, 10):
            world.to(moment)
            world.sleeps(one)
        self.assertEqual([it[0] for it in one.woken], [0, WAIT, 2 * WAIT])

    def test_the_only_node_is_woken_again(self) -> None:
        world = self.of(500)
        one = world.node()
        world.to(10)
        world.sleeps(one)
        world.to(10 + WAIT)
        self.assertEqual([it[0] for it in one.woken], [0, 10 + WAIT])

    def test_nothing_is_asked_where_nobody_sleeps_or_nothing_waits(self) -> None:
        world = self.of()
        one = world.node()
        world.to(100_000)
        self.assertEqual((world.count, one.woken), (0, []))
        world.turns.gone(one)
        world.due = [START + 100_000]
        self.assertFalse(world.turns.is_wanted)
        world.to(200_000)
        self.assertEqual(world.count, 0)

    def test_one_question_at_a_time(self) -> None:
        world = self.of(50_000)
        world.node()
        for _ in range(10):
            world.turns.look()
        world.answer()
        self.assertEqual(world.count, 1)

    def test_what_changes_right_after_an_answer_is_asked_for(self) -> None:
        """Before, it wasn't where both came in one read: whoever slept heard of it up to 30 seconds later."""
        world = self.of(50_000)
        one = world.node()
        world.turns.look()
        world.answer()
        world.due.insert(0, START)
        world.turns.look()
        world.to(0)
        self.assertEqual(one.woken, [(0, 0, False)])


class Thresholds(unittest.TestCase):
    def test_the_ledger_knows_the_threshold(self) -> None:
        self.assertEqual(Ledger().threshold, 60000)
        ledger = Ledger(["threshold 5000"])
        self.assertEqual(ledger.threshold, 5000)
        ledger.learn({"do": "threshold", "ms": 7000}, "fault")
        self.assertEqual(ledger.threshold, 5000)
        ledger.learn({"do": "threshold", "ms": 7000}, "ok")
        self.assertEqual(ledger.threshold, 7000)


if __name__ == "__main__":
    unittest.main()
