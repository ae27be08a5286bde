"""A hub that compacts its stores: what lines see of it, and what a kill in each step of it leaves."""
from __future__ import annotations

import json
import os
import re
import threading
import unittest
import unittest.mock

from kemtrua import Connection, compaction, errors, replies
from kemtrua.compaction import STEPS
from kemtrua.folder import Folder
from kemtrua.hub.room import Snapshot, compaction_is_due, share, snapshot_is_due, would_free
from kemtrua.names import Key
from kemtrua.program import call
from kemtrua.replies import Done, Fired, Room
from tests.helpers import IS_STAND_IN, PROGRAM, WithFolder, job, now, once, wait_until


class Compactions(WithFolder):
    def setUp(self) -> None:
        super().setUp()
        os.environ["KEMTRUA_TEST"] = f"{self.folder}/hook"
        self.addCleanup(os.environ.pop, "KEMTRUA_TEST")

    def hook(self, **asked: object) -> None:
        with open(f"{self.folder}/hook.new", "w") as file:
            json.dump(asked, file)
        os.replace(f"{self.folder}/hook.new", f"{self.folder}/hook")

    def begun(self, one: Connection, interval: int = 3_600_000) -> None:
        """A node with this interval, which executes entry 1."""
        one.add_job(job("j", durable=True))
        one.add_trigger(once())
        one.join("A", interval)
        one.acquire("A", now())
        self.assertIsInstance(one.ask("fire", node="A", entry=1), Fired)

    def test_nodes_see_a_pause_and_no_failure(self) -> None:
        """The connection stays, the epoch is held, the interval of an hour is kept, and what runs is completed."""
        with self.hub().connect() as one:
            self.begun(one)
            before = Folder(self.folder).current
            one.compact()
            after = Folder(self.folder).current
            self.assertNotEqual(before, after)
            self.assertIn(f"state A last {self.last_of('A')} interval 3600000", one.listed())
            self.assertEqual(one.entries_of("A"), [1])
            one.complete("A", 1)
            one.compact()
            self.assertIsNotNone(one.show_job(Key.of_user("j")))
            self.assertEqual(len(Folder(self.folder).all_stores()), 3)

    def last_of(self, node: str) -> int:
        """The moment of a node's check-in."""
        listed = call(PROGRAM, self.copied(), "list")
        found = re.search(rf"state {node} last (\d+)", listed)
        assert found is not None
        return int(found[1])

    def copied(self) -> str:
        to = f"{self.folder}/copy"
        os.makedirs(to, exist_ok=True)
        for name in ("qz-triggers.store", "qz-states.store"):
            with open(f"{Folder(self.folder).current}/{name}", "rb") as source, open(f"{to}/{name}", "wb") as target:
                target.write(source.read())
        return to

    def test_no_node_is_recovered_for_the_pause(self) -> None:
        hub = self.hub()
        with hub.connect() as one, Connection(hub.address) as other:
            one.join("A", 1000)
            other.join("B", 1000)
            one.compact()
            with self.assertRaises(errors.HubRefused) as raised:
                one.recover("A", "B")
            self.assertEqual(raised.exception.word, "wait")

    def test_many_lines_over_many_compactions(self) -> None:
        """No answer is lost, and none comes twice."""
        hub, done = self.hub(), []
        with hub.connect() as admin:

            def add(number: int) -> None:
                with Connection(hub.address) as one:
                    for count in range(60):
                        self.assertEqual(one.add_job(job(f"j{number}-{count}", durable=True)), Done())
                        done.append(number)

            threads = [threading.Thread(target=add, args=(number,)) for number in range(3)]
            for thread in threads:
                thread.start()
            while any(thread.is_alive() for thread in threads):
                admin.compact()
            self.assertEqual(len(done), 180)
            self.assertEqual(sum(line.startswith("job ") for line in admin.listed()), 180)

    def test_it_is_made_by_the_hub_itself(self) -> None:
        self.hook(compact_at=40, look=0.1)
        hub = self.hub()
        with hub.connect() as one:
            for number in range(60):
                one.add_job(job(f"j{number}", durable=True))
            wait_until(lambda: len(Folder(self.folder).all_stores()) > 1)
            self.assertEqual(sum(line.startswith("job ") for line in one.listed()), 60)
        self.assertIn("% of a store are used", hub.said())

    def test_a_kill_in_each_step(self) -> None:
        """The old stores count or the new ones, whole, and the node goes on by `resume`."""
        self.hook()
        first = self.hub()
        with first.connect() as one:
            self.begun(one)
        first.ended()
        for step in STEPS:
            with self.subTest(step):
                self.hook(die_at=step)
                hub = self.hub(make=False)
                with hub.connect() as one:
                    self.resume(one)
                    with self.assertRaises(errors.KemtruaError):
                        one.compact()
                        wait_until(lambda: hub.process.poll() is not None, 10.0)
                        one.show_next()
                self.assertEqual(hub.process.wait(20), -9, step)
                self.hook()
                again = self.hub(make=False)
                with again.connect() as one:
                    self.resume(one)
                    self.assertEqual(one.entries_of("A"), [1])
                    self.assertTrue(any(line.startswith("state A ") and line.endswith(" interval 3600000") for line in one.listed()))
                self.assertEqual([at for at in os.listdir(f"{self.folder}/stores") if "unfinished" in os.listdir(f"{self.folder}/stores/{at}")], [])
                self.assertEqual(again.ended()[0], 0)

    def resume(self, one: Connection) -> None:
        self.assertEqual(one.resume("A", 1), Done())

    @unittest.skipUnless(IS_STAND_IN, "the stand-in makes these faults")
    def test_one_that_fails_leaves_the_old_stores(self) -> None:
        hub = self.hub(fault="compact:9")
        with hub.connect() as one:
            self.begun(one)
            before = Folder(self.folder).current
            with self.assertRaises(errors.HubRefused) as raised:
                one.compact()
            self.assertEqual(raised.exception.word, "failed")
            self.assertIn("status 9", str(raised.exception))
            self.assertEqual(Folder(self.folder).current, before)
            self.assertEqual(os.listdir(f"{self.folder}/stores"), [os.path.basename(before)])
            one.complete("A", 1)

    def test_it_is_for_operators(self) -> None:
        hub = self.hub("--listen-nodes", f"unix:{self.folder}/nodes.sock")
        hub.connect().close()
        with hub.connect_at(f"unix:{self.folder}/nodes.sock") as node:
            for do in ("compact", "where", "show_room"):
                self.assertTrue(node.answer_raw(b'{"do":"%b"}' % do.encode()).startswith("hub no-right"), do)
            self.assertTrue(node.answer_raw(b'{"do":"checkpoint"}').startswith("hub not-here"))
        with hub.connect() as admin:
            self.assertEqual(admin.where(), self.folder)
            self.assertIsInstance(admin.ask("show_room"), Room)

    @unittest.skipUnless(IS_STAND_IN, "the stand-in is of another version")
    def test_a_program_that_is_too_old_or_too_new(self) -> None:
        for fault, words in (("version:0.1.0", "too old"), ("version:99.0.0", "too new"), ("version:x", "too old"), ("before", "too old")):
            status, said = self.hub(fault=fault).ended(None)
            self.assertEqual(status, 1, said)
            self.assertIn(words, said)


class Rooms(unittest.TestCase):
    """When a snapshot and a compaction are due."""

    def test_what_is_read(self) -> None:
        self.assertEqual(replies.read("room triggers 900 12 behind 7 states 300 4"), Room((900, 12), (300, 4), 7))
        self.assertEqual([replies.read(f"checkpoint {it}") for it in ("made", "no room")], [replies.Checkpointed(True), replies.Checkpointed(False)])
        for bad in ("room triggers 900", "room states 900 12 behind 7 triggers 300 4", "checkpoint", "checkpoint maybe"):
            with self.assertRaises(errors.BadReply):
                replies.read(bad)

    def test_snapshots_never_take_more_than_half(self) -> None:
        for behind, end, size, used, wanted in ((4095, 0, 0, 10**6, False), (4096, 0, 0, 10**6, True), (4096, 500_000, 400_000, 900_000, True),
                                                (4096, 500_000, 400_001, 900_000, False)):
            self.assertEqual(snapshot_is_due(Room((used, 9999), (0, 0), behind), Snapshot(end, size)), wanted)
        self.assertTrue(snapshot_is_due(Room((10**6, 9999), (0, 0), 4096), None))

    def test_a_compaction_is_due_at_half_of_any_limit_where_it_frees_something(self) -> None:
        small, large = Snapshot(0, 1000), Snapshot(0, 2**28)
        for triggers, states, snapshot, is_old, wanted in (
                ((2**28, 5), (0, 0), small, False, True), ((2**28 - 1, 5), (0, 0), small, False, False), ((5000, 2**22), (0, 0), small, False, True),
                ((5000, 2**22 - 1), (0, 0), small, False, False), ((5000, 5), (2**28, 5), small, False, True), ((5000, 5), (5000, 2**22), small, False, True),
                ((2**28 + 100, 5), (0, 0), large, False, False), ((5000, 5), (500, 5), small, True, True), ((1000, 5), (100, 5), small, True, False),
                ((int(0.85 * 2**29), 5), (0, 0), Snapshot(0, int(0.83 * 2**29)), False, True), ((int(0.85 * 2**29), 5), (0, 0), Snapshot(0, int(0.845 * 2**29)), False, False)):
            self.assertEqual(compaction_is_due(Room(triggers, states, 0), snapshot, is_old, 2**23), wanted, (triggers, states, is_old))
        self.assertEqual(share(Room((2**28, 5), (0, 2**21), 0)), 0.5)
        self.assertAlmostEqual(would_free(Room((900, 5), (100, 5), 0), Snapshot(0, 250)), 0.75)

    def test_the_disk_is_looked_at_first(self) -> None:
        with unittest.mock.patch.object(compaction.shutil, "disk_usage", return_value=unittest.mock.Mock(free=10)), \
                unittest.mock.patch.object(compaction, "size_of", return_value=5), self.assertRaisesRegex(compaction.NotCompacted, "free it"):
            compaction.look_at_room("/nowhere")


if __name__ == "__main__":
    unittest.main()
