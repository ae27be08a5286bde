"""A store of one's own: what its ends do to those who ask."""
import os
import signal
import subprocess
import threading
import unittest
from unittest import mock

from kemtrua import errors, store as stores
from kemtrua.journal import entries_of, snapshot_in
from kemtrua.replies import Completed, Done, Fired, Joined, Next
from tests.helpers import IS_STAND_IN, PROGRAM, WithFolder, job, now, once


class Stores(WithFolder):
    def begun(self, store: stores.Store) -> None:
        """Node A executes entry 1."""
        store.ask("add_job", job=job(data="x"))
        store.ask("add_trigger", trigger=once())
        store.ask("join", node="A")
        store.ask("acquire", node="A", no_later=now())
        self.assertIsInstance(store.ask("fire", node="A", entry=1), Fired)

    def test_one_firing(self) -> None:
        store = self.store()
        self.begun(store)
        self.assertEqual(store.entries_of("A"), [1])
        self.assertEqual(store.ask("complete", node="A", entry=1), Completed(1))
        self.assertEqual(store.entries_of("A"), [])
        self.assertEqual(store.ask("show_next"), Next(None))

    def test_a_program_that_is_killed_is_opened_again_and_the_node_goes_on(self) -> None:
        store = self.store()
        self.begun(store)
        assert store._running is not None
        os.kill(store._running.pid, signal.SIGKILL)
        with self.assertRaises(errors.Unanswered):
            store.ask("complete", node="A", entry=1)
        self.assertEqual(store.ask("complete", node="A", entry=1), Completed(1))

    def test_a_call_ends_before_its_lines_are_spent(self) -> None:
        store = self.store()
        self.begun(store)
        assert store._running is not None
        store._lines, first = stores.LINES_OF_A_CALL, store._running.pid
        self.assertEqual(store.ask("complete", node="A", entry=1), Completed(1))
        self.assertNotEqual(store._running.pid, first)

    def test_a_bad_line_is_not_sent(self) -> None:
        store = self.store()
        with self.assertRaises(errors.BadLine) as raised:
            store.ask("fire", node="A")
        self.assertIn("entry: it is missing", str(raised.exception))
        self.assertIsInstance(store.ask("join", node="A"), Joined)

    def test_refusals(self) -> None:
        store = self.store()
        with self.assertRaises(errors.NotJoined):
            store.ask("fire", node="A", entry=1)
        store.ask("join", node="A")
        with self.assertRaises(errors.Refused) as raised:
            store.ask("fire", node="A", entry=1)
        self.assertEqual(raised.exception.number, 15)

    def test_a_second_program_finds_the_store_locked(self) -> None:
        self.store()
        with self.assertRaises(errors.StoreLocked):
            stores.Store(self.folder, PROGRAM, wait_for_lock=0.1)

    def test_a_lock_that_goes_soon_is_waited_for(self) -> None:
        first = self.store()
        threading.Timer(0.3, first.close).start()
        stores.Store(self.folder, PROGRAM).close()

    def test_no_store_and_no_program(self) -> None:
        with self.assertRaises(errors.ProgramEnded) as raised:
            stores.Store(self.folder, PROGRAM)
        self.assertEqual(raised.exception.status, 6)
        for folder, program in ((self.folder, "/nowhere/qz_sched"), ("/nowhere", PROGRAM)):
            with self.assertRaises(errors.CannotRun):
                stores.Store(folder, program)

    def test_its_history(self) -> None:
        store = self.store()
        self.begun(store)
        store.ask("complete", node="A", entry=1)
        found = list(entries_of(os.path.join(self.folder, "qz-triggers.store")))
        self.assertEqual([it.word for it in found], ["add_job", "add_trigger", "join", "acquire", "fire", "complete"])
        self.assertEqual([(it.node, it.epoch, it.entry) for it in found[3:]], [("A", 1, None), ("A", 1, 1), ("A", 1, 1)])

    def test_the_snapshot_in_use(self) -> None:
        """Where it ends, and how many bytes it has: of two slots the one with the greater offset counts, and records behind the snapshot don't."""
        head, piece, record = b"\xf0" + bytes(52), b"\xf1" + bytes(99), b"\x01" + bytes(20)
        block = [b"\xa5" + len(it).to_bytes(4, "big") + it for it in (record, head, piece, piece, record, head, record)]
        first, second = 16 + len(block[0]), 16 + sum(map(len, block[:5]))
        path = f"{self.folder}/store"
        for slots, wanted in (((0, 0), None), ((first, 0), (first + 58 + 2 * 105, 58 + 2 * 105)), ((first, second), (second + 58, 58)), ((16, 0), None)):
            with open(path, "wb") as file:
                file.write(b"QZ23\x02T" + b"".join((b"\xa5" if slot else b"\0") + slot.to_bytes(4, "big") for slot in slots) + b"".join(block) + b"\0")
            self.assertEqual(snapshot_in(path), wanted)
        self.assertIsNone(snapshot_in("/nowhere"))

    def test_a_program_that_hangs_can_be_given_up(self) -> None:
        store = self.store()
        assert store._running is not None
        os.kill(store._running.pid, signal.SIGSTOP)
        store.cut()  # (nobody waits, so nothing is killed)
        self.addCleanup(lambda: store._running and os.kill(store._running.pid, signal.SIGCONT))
        with mock.patch.object(stores, "HANGS", 0.2):
            threading.Timer(0.6, store.cut).start()
            with self.assertRaises(errors.Unanswered):
                store.show_next()
        self.assertIsNone(store.show_next())

    def test_many_threads(self) -> None:
        store = self.store()
        threads = [threading.Thread(target=lambda n=n: [store.ask("add_job", job=job(f"j{n}-{k}")) for k in range(20)]) for n in range(4)]
        for thread in threads:
            thread.start()
        for thread in threads:
            thread.join()
        store.close()
        listed = subprocess.run([PROGRAM, "list"], cwd=self.folder, capture_output=True, text=True).stdout
        self.assertEqual(listed.count("\njob "), 80)

    def test_a_watcher_is_told(self) -> None:
        store, told = self.store(), []
        store.watch(lambda: told.append(1))
        store.ask("add_job", job=job())
        self.assertEqual(told, [])
        store.ask("add_trigger", trigger=once())
        self.assertEqual(told, [1])


@unittest.skipUnless(IS_STAND_IN, "the stand-in makes these faults")
class Faults(WithFolder):
    def test_a_disk_that_fails(self) -> None:
        store = self.store("fault:2")
        self.assertEqual(store.ask("add_job", job=job()), Done())
        with self.assertRaises(errors.StoreFault):
            store.ask("add_job", job=job("k"))
        with self.assertRaises(errors.StoreClosed):
            store.ask("add_job", job=job("k"))

    def test_a_full_journal_ends_it_for_good(self) -> None:
        store = self.store("full:2")
        store.ask("add_job", job=job())
        for _ in range(2):
            with self.assertRaises(errors.ProgramEnded) as raised:
                store.ask("add_job", job=job("k"))
            self.assertEqual(raised.exception.status, 7)
            self.assertIn("stores that fill", str(raised.exception))

    def test_a_program_that_dies_again_and_again_is_given_up(self) -> None:
        store = self.store("die:1")
        for number in range(stores.QUICK_ENDS):
            with self.assertRaises(errors.Unanswered if number < stores.QUICK_ENDS - 1 else errors.ProgramEnded):
                store.ask("add_job", job=job(f"k{number}"))


if __name__ == "__main__":
    unittest.main()
