"""Nodes that sleep at a hub: who is woken when something is due, what a node asks then, and hubs and nodes of before."""
from __future__ import annotations

import os
import socket
import sys
import threading
import unittest
from collections.abc import Callable
from unittest import mock

from kemtrua import Connection, Context, Node, Store, Work
from kemtrua import node as nodes
from kemtrua.checking import Line
from kemtrua.journal import entries_of
from kemtrua.scheduler import Scheduler
from kemtrua.waking import Bell, Turn
from tests import helpers
from tests.helpers import PROGRAM, HubProcess, WithFolder, job, now, once, wait_until

# A hub that is another one in one thing.
OTHER = """
import sys
from kemtrua.hub import lines, turns
{change}
from kemtrua.cli import hub
sys.exit(hub.main())
"""
PATIENT = "turns.ASKS_WITHIN = turns.LASTS = 1e6"  # it wakes nobody because another one is slow, so that a slow machine makes no difference
OF_BEFORE = "lines.OWN_LINES['watch'] = frozenset()"


class WithHub(WithFolder):
    def other_hub(self, change: str) -> HubProcess:
        with mock.patch.object(helpers, "command", lambda module, ahead="": [sys.executable, "-c", OTHER.format(change=change)]):
            return self.hub()

    def node(self, name: str, connect: Callable[[], Scheduler], run: Callable[[Context], None], work: Work = Work()) -> Node:
        node = Node(name, connect, {"ok": run}, work=work)
        thread = threading.Thread(target=node.run, daemon=True)
        thread.start()
        self.addCleanup(lambda: (node.stop(), node.stop(), thread.join(20)))
        return node

    def words(self, *wanted: str) -> list[str]:
        """What nodes asked, as far as the store's history has it."""
        found = [entry.word for entry in entries_of(f"{self.folder}/current/qz-triggers.store")]
        return [word for word in found if word in wanted]


class Sleeping(Connection):
    """A connection of a node that sleeps, and takes turns."""

    def begin(self, node: str) -> Sleeping:
        self.turns: list[Turn] = []
        self.join(node, 15000)
        self.watch_in_turn(lambda: None, self.turns.append, 1000)
        self.show_next()
        return self


class Hubs(WithHub):
    def sleepers(self, hub: HubProcess, *names: str) -> list[Sleeping]:
        hub.connect().close()
        found = [Sleeping(hub.address).begin(name) for name in names]
        for one in found:
            self.addCleanup(one.close)
        return found

    def due(self, hub: HubProcess, start: int, **more: object) -> None:
        with Connection(hub.address) as client:
            client.add_job(job())
            client.add_trigger(once(start=start, **more))

    def test_a_due_trigger_wakes_one(self) -> None:
        """Before, it woke both."""
        hub, start = self.other_hub(PATIENT), now()
        one, other = self.sleepers(hub, "A", "B")
        self.due(hub, start)
        wait_until(lambda: one.turns)
        self.assertEqual(one.turns, [Turn(start, False)])
        self.assertEqual(len(one.acquire("A", start).triggers), 1)
        other.clock()  # (what was sent to it before is here then)
        self.assertEqual(other.turns, [])

    def test_another_one_where_that_breaks(self) -> None:
        hub, start = self.other_hub(PATIENT), now()
        one, other = self.sleepers(hub, "A", "B")
        self.due(hub, start)
        wait_until(lambda: one.turns)
        self.assertEqual(other.turns, [])
        one.close()
        wait_until(lambda: other.turns)

    def test_another_one_where_that_does_not_ask(self) -> None:
        hub, start = self.hub(), now()
        one, other = self.sleepers(hub, "A", "B")
        self.due(hub, start)
        wait_until(lambda: one.turns and other.turns)
        self.assertEqual(len(other.acquire("B", start).triggers), 1)

    def test_who_speaks_for_no_node_gets_no_turn(self) -> None:
        hub, start = self.other_hub(PATIENT), now()
        (one,) = self.sleepers(hub, "A")
        one.leave("A")
        one.show_next()
        (other,) = self.sleepers(hub, "B")
        self.due(hub, start)
        wait_until(lambda: one.turns or other.turns)
        self.assertEqual((one.turns, len(other.turns)), ([], 1))

    def test_who_has_left_gets_no_turn(self) -> None:
        hub, start = self.other_hub(PATIENT), now()
        one, other = self.sleepers(hub, "A", "B")
        one.leave("A")
        self.due(hub, start)
        wait_until(lambda: one.turns or other.turns)
        self.assertEqual((one.turns, len(other.turns)), ([], 1))

    def test_the_lines_as_they_are(self) -> None:
        """A connection that doesn't know of turns hears the word alone."""
        hub, late = self.hub(), now() - 70_000
        hub.connect().close()
        with socket.socket(socket.AF_UNIX) as plain, socket.socket(socket.AF_UNIX) as former:
            plain.connect(f"{self.folder}/hub.sock")
            former.connect(f"{self.folder}/hub.sock")
            lines, others = plain.makefile("rwb", buffering=0), former.makefile("rwb", buffering=0)
            for line in (b'{"do":"watch"}', b'{"do":"show_next"}'):
                others.write(line + b"\n")
                others.readline()
            for line, wanted in ((b'{"do":"watch","ahead":true}', b"hub bad-line ahead: "), (b'{"do":"watch","ahead":-1}', b"hub bad-line ahead: "),
                                 (b'{"do":"watch","ahead":0,"x":1}', b"hub bad-line watch has"),
                                 (b'{"do":"join","node":"A"}', b"joined 1 "), (b'{"do":"watch","ahead":1000}', b"ok\n"),
                                 (b'{"do":"show_next"}', b"next none\n")):
                lines.write(line + b"\n")
                said = lines.readline()
                self.assertTrue(said.startswith(wanted), (line, said))
            self.due(hub, late)
            self.assertEqual(lines.readline(), b"wake %d late\n" % late)
            self.assertEqual(others.readline(), b"wake\n")

    def test_a_turn_comes_before_the_answer(self) -> None:
        """So a node that is alone waits for nothing more than before."""
        hub, start = self.hub(), now()
        self.sleepers(hub, "B")[0].close()
        self.due(hub, start)
        with socket.socket(socket.AF_UNIX) as plain:
            plain.connect(f"{self.folder}/hub.sock")
            lines = plain.makefile("rwb", buffering=0)
            lines.write(b'{"do":"watch","ahead":0}\n{"do":"join","node":"A"}\n{"do":"show_next"}\n')
            self.assertEqual(lines.readline(), b"ok\n")
            self.assertTrue(lines.readline().startswith(b"joined"))
            self.assertEqual((lines.readline(), lines.readline()), (b"wake %d\n" % start, b"next %d\n" % start))


class Losing(Connection):
    """A connection on which turns get lost."""

    def watch_in_turn(self, call: Callable[[], None], given: Callable[[Turn], None], ahead: int) -> bool:
        return super().watch_in_turn(call, lambda turn: None, ahead)


class OfBefore(Connection):
    """One of a node of before, which knows no turns."""

    watch_in_turn = Scheduler.watch_in_turn


class Nodes(WithHub):
    def fired(self, hub: HubProcess, kinds: list[type[Connection]], count: int = 1, **more: object) -> list[str]:
        """Lets nodes with these connections make so many firings, 200 ms apart, and gives who made them."""
        seen: list[str] = []
        for number, kind in enumerate(kinds):
            self.node(f"N{number}", lambda kind=kind: kind(hub.address), lambda context: seen.append(context.node))  # type: ignore[misc]
        with hub.connect() as client:
            wait_until(lambda: len(client.peers()) == len(kinds))
            client.add_job(job())
            client.add_trigger(once(start=now() + 2000, interval=200, count=count - 1, **more))
            wait_until(lambda: len(seen) == count and client.show_next() is None)
        return seen

    def test_a_firing_is_three_transactions_whatever_the_number_of_nodes(self) -> None:
        """Before, each node that slept asked, too, for a trigger and for misfires."""
        with mock.patch.object(nodes, "ASK_AGAIN", 1e6):
            seen = self.fired(self.other_hub(PATIENT), [Connection] * 4, 12)
            wait_until(lambda: len(self.words("complete")) == 12)
        self.assertEqual(len(self.words("acquire", "misfires", "fire", "complete", "release")), 36)
        self.assertEqual(len(set(seen)), 4)  # (they take turns)

    def test_a_hub_of_before(self) -> None:
        with mock.patch.object(nodes, "ASK_AGAIN", 1e6):
            self.assertEqual(len(self.fired(self.other_hub(OF_BEFORE), [Connection] * 2, 3)), 3)

    def test_nodes_of_before(self) -> None:
        self.assertEqual(len(self.fired(self.hub(), [OfBefore] * 2, 3)), 3)

    def test_nodes_of_before_beside_others(self) -> None:
        self.assertEqual(len(self.fired(self.hub(), [OfBefore, Connection], 3)), 3)

    def test_a_turn_that_is_lost_delays_and_never_loses(self) -> None:
        with mock.patch.object(nodes, "ASK_AGAIN", 0.5), mock.patch.object(nodes, "SLICE", 0.1):
            self.assertEqual(self.fired(self.other_hub(PATIENT), [Losing]), ["N0"])


    def fires_at(self, again: Callable[[], HubProcess]) -> None:
        """A node that sleeps notices that its hub is gone, and neither by its next check-in nor by its next look. So it fires at the next one."""
        hub, seen = self.hub(), threading.Event()
        hub.connect().close()
        with mock.patch.object(nodes, "ASK_AGAIN", 1e6):
            node = Node("A", lambda: Connection(hub.address), {"ok": lambda context: seen.set()}, check_in=10_000_000)
            thread = threading.Thread(target=node.run, daemon=True)
            thread.start()
            self.addCleanup(lambda: (node.stop(), node.stop(), thread.join(20)))
            wait_until(lambda: node._in_line)
            hub.kill()
            with again().connect() as client:
                client.add_job(job())
                client.add_trigger(once())
                self.assertTrue(seen.wait(100))

    def test_a_hub_that_comes_again(self) -> None:
        self.fires_at(lambda: self.hub(make=False))

    def test_a_hub_of_another_team_in_its_place(self) -> None:
        self.fires_at(self.another)

    def another(self) -> HubProcess:
        os.mkdir(f"{self.folder}/other")
        hub = HubProcess(f"{self.folder}/other", f"unix:{self.folder}/hub.sock", "--make")
        self.addCleanup(hub.kill)
        return hub


class Turning(Store):
    """A store that gives turns by the test's hand, and keeps what it is asked. What is next is another's first, where the test says so."""

    def __init__(self, folder: str, others: int = 0, empty: int = 0):
        self.asked: list[Line] = []
        self.others, self.empty = others, empty
        super().__init__(folder, PROGRAM, make=True)

    def watch_in_turn(self, call: Callable[[], None], given: Callable[[Turn], None], ahead: int) -> bool:
        self.watch(call)
        self.given = given
        return True

    def answer(self, line: Line) -> str:
        self.asked.append(line)
        if line["do"] == "acquire" and self.others:
            self.others -= 1
            super().answer({**line, "node": "B"})
        if line["do"] == "acquire" and self.empty:
            self.empty -= 1
            return "acquired none"
        return super().answer(line)

    def words(self) -> list[str]:
        return [str(line["do"]) for line in self.asked if line["do"] in ("show_next", "acquire", "misfires", "fire")]


class Asks(WithHub):
    """What one node asks, line by line."""

    def store_(self, **more: int) -> Turning:
        store = Turning(self.folder, **more)
        self.addCleanup(store.close)
        store.add_job(job(durable=True))
        store.join("B", 15000)
        store.asked.clear()
        return store

    def works(self, store: Turning, run: Callable[[Context], None] = lambda context: None, work: Work = Work()) -> None:
        self.node("A", lambda: store, run, work)
        wait_until(lambda: store.words() == ["show_next"])

    def test_it_waits_for_its_turn(self) -> None:
        store, start = self.store_(), now() - 500
        store.add_trigger(once(start=start))
        self.works(store)
        store.given(Turn(start))
        wait_until(lambda: len(store.words()) == 4)
        self.assertEqual(store.words(), ["show_next", "acquire", "fire", "show_next"])

    def test_it_acquires_what_it_is_woken_for_though_its_clock_is_slow(self) -> None:
        store, start = self.store_(), now() + 100_000
        store.add_trigger(once(start=start))
        self.works(store, work=Work(ahead=0))
        store.given(Turn(start))
        wait_until(lambda: store.entries_of("A"))
        self.assertEqual([line["no_later"] for line in store.asked if line["do"] == "acquire"], [start])

    def test_misfires_come_first_where_the_hub_says_so(self) -> None:
        store, start = self.store_(), now() - 70_000
        store.add_trigger({**once(start=start), "misfire": 0})
        self.works(store)
        store.given(Turn(start, True))
        wait_until(lambda: "fire" in store.words())
        self.assertEqual(store.words()[:4], ["show_next", "misfires", "acquire", "fire"])

    def test_none_where_another_node_was_faster(self) -> None:
        """Before, each of them asked for misfires then."""
        store, start = self.store_(others=1), now()
        store.add_trigger(once(start=start))
        self.works(store)
        store.given(Turn(start))
        wait_until(lambda: len(store.words()) == 3)
        self.assertEqual(store.words(), ["show_next", "acquire", "show_next"])

    def test_where_nothing_can_be_acquired_though_it_is_due(self) -> None:
        store, start = self.store_(empty=1), now()
        store.add_trigger(once(start=start))
        self.works(store)
        store.given(Turn(start))
        wait_until(lambda: len(store.words()) == 5)
        self.assertEqual(store.words(), ["show_next", "acquire", "show_next", "misfires", "show_next"])

    def test_a_turn_without_a_free_worker_is_another_nodes(self) -> None:
        """The loop of the node is gone through by hand."""
        store, goes_on = self.store_(), threading.Event()
        store.add_trigger(once("first"))
        store.add_trigger(once("second"))
        node = Node("A", lambda: store, {"ok": lambda context: (goes_on.wait(60), None)[1]}, work=Work(workers=1))
        self.addCleanup(node._executions.wait, 20)
        node._members.join()
        store.asked.clear()
        with mock.patch.object(Bell, "sleep"):
            node._go_on()
            store.given(Turn(now()))
            node._go_on()
            node._fire_due()
            self.assertEqual(store.words(), ["show_next", "acquire", "fire"])
            store.given(Turn(now()))
            node._go_on()
            node._go_on()
            self.assertEqual(store.words(), ["show_next", "acquire", "fire"])
            goes_on.set()
            wait_until(lambda: node._free() == 1)
            node._go_on()
        self.assertEqual(store.words(), ["show_next", "acquire", "fire", "show_next"])

    def test_a_turn_while_it_rests_is_another_nodes(self) -> None:
        """It rests where nothing could begin. Afterwards it says that it has a free worker still."""
        store = self.store_()
        node = Node("A", lambda: store, {})
        self.addCleanup(node._executions.wait, 20)
        node._members.join()
        store.asked.clear()
        with mock.patch.object(Bell, "sleep"):
            node._go_on()
            node._rest(1000.0)
            store.given(Turn(now()))
            node._go_on()
            node._rest(0.0)
            node._go_on()
            node._go_on()
        self.assertEqual(store.words(), ["show_next", "show_next"])

    def asked_of_its_own(self, threshold: int) -> list[str]:
        """What a node asks that knows no turns, where a trigger is late by 30 seconds."""
        store = self.store_()
        store.threshold(threshold)
        store.add_trigger(once(start=now() - 30_000))
        with mock.patch.object(Turning, "watch_in_turn", Scheduler.watch_in_turn):
            self.node("A", lambda: store, lambda context: None)
            wait_until(lambda: "fire" in store.words())
        return [word for word in store.words() if word != "show_next"]

    def test_a_store_of_its_own_asks_for_misfires_past_the_threshold(self) -> None:
        self.assertEqual(self.asked_of_its_own(20_000)[:2], ["misfires", "acquire"])

    def test_and_not_before(self) -> None:
        """Before, what was a second late was preceded by a transaction that found nothing."""
        self.assertEqual(self.asked_of_its_own(60_000)[:2], ["acquire", "fire"])


class Bells(unittest.TestCase):
    def test_what_wakes_it_is_heard_once(self) -> None:
        bell = Bell()
        bell.ring()
        bell.sleep(1e6)  # (not at all)
        self.assertEqual((bell.was_rung(), bell.was_rung()), (True, False))
        bell.give(Turn(7))
        bell.sleep(1e6)
        self.assertEqual((bell.take_turn(), bell.take_turn()), (Turn(7), None))

    def test_the_words_of_a_turn(self) -> None:
        self.assertEqual(Turn.of_words(["wake", "7"]), Turn(7, False))
        self.assertEqual(Turn.of_words(["wake", "7", "late", "more"]), Turn(7, True))


if __name__ == "__main__":
    unittest.main()
