"""The process that keeps a hub's history: it may die, be passed over, or be missing, and nobody who wants an answer notices."""
import logging
import os
import signal
import socket
import time
import unittest
from unittest import mock

from kemtrua import Connection
from kemtrua.checking import Line, bytes_of
from kemtrua.history import apart
from kemtrua.history.apart import Apart
from kemtrua.history.process import LOCK, hold
from kemtrua.history.schema import NoHistory
from kemtrua.history.settings import HistorySettings
from kemtrua.program import opened
from tests.helpers import PROGRAM, HubProcess, job, wait_until
from tests.test_history import WithHistory, recorded


def setUpModule() -> None:
    logging.disable(logging.CRITICAL)


def tearDownModule() -> None:
    logging.disable(logging.NOTSET)


def process_of(hub: HubProcess) -> int:
    """The process that keeps the history of a hub."""
    for name in filter(str.isdigit, os.listdir("/proc")):
        try:
            with open(f"/proc/{name}/stat") as stat, open(f"/proc/{name}/cmdline") as words:
                if int(stat.read().rpartition(")")[2].split()[1]) == hub.process.pid and "history" in words.read():
                    return int(name)
        except OSError:
            continue  # (it has just ended)
    raise AssertionError("the hub has no such process")


class OfAHub(WithHistory):
    def test_where_it_is_killed_it_is_begun_again_and_fills_in_what_it_missed(self) -> None:
        hub = self.hub()
        with self.begun(hub) as one:
            self.work(one, "A", 2)
            first = process_of(hub)
            os.kill(first, signal.SIGKILL)
            self.work(one, "A", 3)  # (nobody waits for it)
            wait_until(lambda: len(recorded(self.folder)) == 5)
            self.assertNotEqual(process_of(hub), first)
            self.work(one, "A", 2, leaves_open=True)
            wait_until(lambda: len(recorded(self.folder)) == 7)
        self.assertIn("is begun again", hub.ended()[1])
        self.agrees()

    def test_whoever_asks_meanwhile_is_told(self) -> None:
        hub = self.hub()
        with self.begun(hub) as one:
            os.kill(process_of(hub), signal.SIGSTOP)
            os.kill(process_of(hub), signal.SIGKILL)
            try:
                one.rows("history")
                self.assertIn(self.stored(one), ("stored 0", "hub failed the process that keeps the history ended"))
            finally:
                wait_until(lambda: self.stored(one) == "stored 0")
        hub.ended()

    def stored(self, one: Connection) -> str:
        """What a piece of output is answered of which the store knows nothing."""
        return self.raw(one, {"do": "output", "node": "A", "generation": 1, "entry": 999, "from": 0, "data": ""})

    def raw(self, one: Connection, line: Line) -> str:
        assert one.address.path is not None
        with socket.socket(socket.AF_UNIX) as sock:
            sock.connect(one.address.path)
            sock.sendall(bytes_of(line))
            return sock.makefile().readline().rstrip("\n")


class Alone(WithHistory):
    def kept(self) -> Apart:
        it = Apart(self.folder, PROGRAM, HistorySettings(), 1)
        self.addCleanup(it.end)
        return it

    def test_one_at_a_time_has_a_history(self) -> None:
        it = self.kept()
        with mock.patch("kemtrua.history.process.FREE_WITHIN", 0.2), self.assertRaisesRegex(NoHistory, "another process"):
            hold(self.folder)
        it.end()
        os.close(hold(self.folder))
        self.assertTrue(os.path.exists(os.path.join(self.folder, LOCK)))

    def test_what_cannot_be_opened_is_said(self) -> None:
        with self.assertRaisesRegex(NoHistory, "No such file"):
            Apart(os.path.join(self.folder, "nowhere"), PROGRAM, HistorySettings(), 1)
        with mock.patch.object(apart, "MAIN", os.path.join(self.folder, "nowhere")), self.assertRaisesRegex(NoHistory, "ended at once"):
            Apart(self.folder, PROGRAM, HistorySettings(), 1)

    def test_what_is_passed_over_is_filled_in(self) -> None:
        self.store().close()
        running = opened(PROGRAM, self.folder)
        self.addCleanup(running.end)
        it = self.kept()
        it.opened(self.folder)

        def do(line: Line, most: int) -> str:
            reply = running.ask(bytes_of(line))
            with mock.patch.object(apart, "MOST", most):
                it.answered(line, bytes_of(line), reply, 1)
            return reply

        do({"do": "add_job", "job": job(durable=True)}, apart.MOST)
        do({"do": "join", "node": "A"}, apart.MOST)
        do({"do": "trigger_now", "name": "j"}, apart.MOST)
        entry = int(do({"do": "acquire", "node": "A", "no_later": 2**53}, apart.MOST).split()[1])
        self.assertTrue(do({"do": "fire", "node": "A", "entry": entry}, 0).startswith("fired"))
        wait_until(lambda: [one["state"] for one in recorded(self.folder).values()] == ["runs"])

    def test_the_end_waits_for_nobody_who_is_gone(self) -> None:
        it = self.kept()
        it._process.kill()
        begun = time.monotonic()
        with mock.patch.object(apart, "REST", 600.0):
            it.end()
        self.assertLess(time.monotonic() - begun, apart.ENDS_WITHIN)


if __name__ == "__main__":
    unittest.main()
