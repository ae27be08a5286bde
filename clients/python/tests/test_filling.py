"""What is missing in the database is filled in from a copy of the store, whatever comes between the copy and its taking."""
import logging
import os
import threading
import unittest
from unittest import mock

from kemtrua import clock, journal
from kemtrua.checking import Line, bytes_of
from kemtrua.history import recorder as recorders
from kemtrua.history import writer as writers
from kemtrua.history.recorder import Recorder
from kemtrua.history.settings import HistorySettings
from kemtrua.history.writer import Task
from kemtrua.program import opened
from tests.helpers import IS_STAND_IN, PROGRAM, WithFolder, job
from tests.stand_in_files import HEAD
from tests.test_history import recorded


def setUpModule() -> None:
    logging.disable(logging.CRITICAL)


def tearDownModule() -> None:
    logging.disable(logging.NOTSET)


class Behind(WithFolder):
    """A recorder that is told what a program answers, as its process is."""

    def setUp(self) -> None:
        super().setUp()
        self.store().close()
        self.running = opened(PROGRAM, self.folder)
        self.addCleanup(self.running.end)
        self.recorder = Recorder(self.folder, PROGRAM, HistorySettings(), 1)
        self.addCleanup(self.recorder.end)
        self.recorder.opened(self.folder, 1).result(60)
        self.count = 0
        self.do({"do": "add_job", "job": job(durable=True)})
        self.do({"do": "join", "node": "A"})

    def do(self, line: Line, most: int = writers.MOST) -> str:
        """Has the program answer a line, and tells it to the recorder, which takes so many things at most."""
        reply, self.count = self.running.ask(bytes_of(line)), self.count + 1
        with mock.patch.object(writers, "MOST", most):
            self.recorder.tell((1, self.count, clock.now(), bytes_of(line), reply, 1))
        return reply

    def executed(self, most: int = writers.MOST) -> int:
        """The entry of an execution that begins and ends."""
        self.do({"do": "trigger_now", "name": "j"}, most)
        entry = int(self.do({"do": "acquire", "node": "A", "no_later": 2**53}, most).split()[1])
        self.do({"do": "fire", "node": "A", "entry": entry}, most)
        self.do({"do": "complete", "node": "A", "entry": entry}, most)
        return entry

    def catch_up(self) -> None:
        with mock.patch.object(recorders, "FILL_AGAIN", 0.0):
            self.recorder.catch_up()

    def test_what_is_passed_over_after_the_copy_was_made_stays_missing_until_it_is_filled_in(self) -> None:
        first, goes_on = self.executed(), threading.Event()
        self.recorder._writer.put(Task(lambda _: goes_on.wait()))
        done = self.recorder.settle()  # (the store is copied, and what the copy tells waits)
        second = self.executed(most=0)
        goes_on.set()
        self.assertTrue(done.result(60))  # (all that was answered before)
        self.assertTrue(self.recorder.lags)
        self.assertEqual(list(recorded(self.folder)), [first])
        self.catch_up()
        self.assertFalse(self.recorder.lags)
        self.assertEqual([one["state"] for one in recorded(self.folder).values()], ["ended", "ended"])
        self.assertEqual(max(recorded(self.folder)), second)

    def test_a_hole_that_the_copy_has_is_filled(self) -> None:
        goes_on = threading.Event()
        self.recorder._writer.put(Task(lambda _: goes_on.wait()))
        self.executed(most=0)
        self.executed()  # (so a hole is found while these are taken)
        done = self.recorder.settle()
        goes_on.set()
        self.assertTrue(done.result(60))
        self.assertFalse(self.recorder.lags)
        self.assertEqual(len(recorded(self.folder)), 2)

    def test_what_nobody_told_is_filled_in(self) -> None:
        self.executed(most=0)
        self.assertTrue(self.recorder.lags)
        self.catch_up()
        self.assertFalse(self.recorder.lags)
        self.assertEqual(len(recorded(self.folder)), 1)

    @unittest.skipUnless(IS_STAND_IN, "it puts a snapshot into the stand-in's journal")
    def test_much_that_a_snapshot_hid(self) -> None:
        """The first call has more to tell than it can write at once, and is ended before the copy is opened again."""
        for number in range(1400):
            self.do({"do": "threshold", "ms": 60_000 + number})
            if number == 600:
                self.assertEqual(self.running.ask(bytes_of({"do": "checkpoint"})), "checkpoint made")
        self.assertTrue(self.recorder.settle(closes=True).result(60))
        self.assertEqual((self.recorder.needed().result(60), self.recorder._writer.place.exact), ([], self.count))

    @unittest.skipUnless(IS_STAND_IN, "it has the stand-in's `history` fail")
    def test_a_store_that_could_not_be_read_is_not_done_with(self) -> None:
        self.executed(most=0)
        with mock.patch.dict(os.environ, STAND_IN="history:9"):
            self.assertFalse(self.recorder.settle(closes=True).result(60))
        self.assertTrue(self.recorder.lags)
        self.assertEqual(self.recorder.needed().result(60), [os.path.basename(self.folder)])
        self.assertTrue(self.recorder.settle(closes=True).result(60))
        self.assertEqual((self.recorder.lags, self.recorder.needed().result(60), len(recorded(self.folder))), (False, [], 1))


class SetBack(WithFolder):
    """Where the history of a copy begins."""

    def file(self, *payloads: bytes) -> str:
        """A trigger store's file, whose slots lead to the last two of its snapshots."""
        path, data, snapshots = os.path.join(self.folder, "store"), bytearray(b"QZ23\x02T" + bytes(10)), []
        for payload in payloads:
            snapshots += [len(data)] if payload[:1] == b"\xf0" else []
            data += b"\xa5" + len(payload).to_bytes(4, "big") + payload
        for number, at in enumerate(snapshots):
            gate = journal.SLOTS[number % 2]
            data[gate : gate + 5] = b"\xa5" + at.to_bytes(4, "big")
        with open(path, "wb") as file:
            file.write(data + b"\x00")
        return path

    def begins(self, path: str) -> list[int]:
        """At which payload an opening begins, then and after each step back; 0 where no slot is open."""
        found = []
        while True:
            with open(path, "rb") as file:
                header = file.read(16)
            begin = max((int.from_bytes(header[gate + 1 : gate + 5], "big") for gate in journal.SLOTS if header[gate] == 0xA5), default=0)
            offsets = [16]
            for payload in journal.payloads_of(path):
                offsets.append(offsets[-1] + 5 + len(payload))
            found.append(offsets.index(begin) + 1 if begin else 0)
            if not journal.set_back(path):
                return found

    def test_without_a_snapshot(self) -> None:
        self.assertEqual(self.begins(self.file()), [0])
        self.assertEqual(self.begins(self.file(b"\x01one")), [0])

    def test_with_snapshots(self) -> None:
        self.assertEqual(self.begins(self.file(b"\x01one", HEAD, b"\x01two")), [2, 0])
        self.assertEqual(self.begins(self.file(b"\x01one", HEAD, b"\x01two", HEAD)), [4, 2, 0])
        self.assertEqual(self.begins(self.file(b"\x01one", HEAD, b"\x01two", HEAD, HEAD, b"\x01three")), [5, 4, 0])

    def test_of_a_store_that_began_with_one(self) -> None:
        self.assertEqual(self.begins(self.file(HEAD, b"\x01one")), [1])
        self.assertEqual(self.begins(self.file(HEAD, b"\x01one", HEAD)), [3, 1])
        self.assertEqual(self.begins(self.file(HEAD, b"\x01one", HEAD, HEAD, b"\x01two")), [4, 3, 1])

    def test_both_slots_at_one_snapshot(self) -> None:
        path = self.file(b"\x01one", HEAD)
        with open(path, "r+b") as file:
            file.seek(6)
            slot = file.read(5)
            file.write(slot)
        self.assertEqual(self.begins(path), [2, 0])


if __name__ == "__main__":
    unittest.main()
