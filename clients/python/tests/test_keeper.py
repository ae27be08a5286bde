"""An execution is over only when nothing of it runs any more, and one that can't begin for the moment is no failed one."""
from __future__ import annotations

import gc
import logging
import os
import resource
import signal
import socket
import threading
import time
import unittest
import uuid
from unittest import mock

from kemtrua import Code, Context, Key, running
from kemtrua.commands import Command
from kemtrua.errors import NotBegun
from kemtrua.guard import Guard
from tests.helpers import wait_until

# Each is a command whose worker goes on when the command itself was ended by SIGTERM, in a way of its own.
STUBBORN = {
    "ignores SIGTERM": "(trap '' TERM; while :; do sleep 0.1; done) & wait",
    "in a session of its own": "setsid sh -c \"trap '' TERM; while :; do sleep 0.1; done\" & wait",
    "forked twice": "(setsid sh -c \"trap '' TERM; (while :; do sleep 0.1; done) & exit\" &) ; sleep 60",
    "forks on and on": "trap '' TERM; f() { (trap '' TERM; sleep 0.05; f) & }; f; sleep 60",
}


def context(entry: int = 12) -> Context:
    return Context("A", 7, entry, Key("g", "t"), Key("g", "j"), "ok", "", 5, 6)


def marked(mark: str) -> list[int]:
    """The processes that have this mark in their environment."""
    found = []
    for name in filter(str.isdigit, os.listdir("/proc")):
        try:
            with open(f"/proc/{name}/environ", "rb") as file:
                if f"MARK={mark}".encode() in file.read().split(b"\0"):
                    found.append(int(name))
        except OSError:
            continue
    return found


class Keeping(unittest.TestCase):
    def setUp(self) -> None:
        self.mark = uuid.uuid4().hex
        logging.disable(logging.CRITICAL)
        self.addCleanup(logging.disable, logging.NOTSET)
        self.addCleanup(lambda: [os.kill(process, signal.SIGKILL) for process in marked(self.mark)])
        grace = mock.patch.object(running, "GRACE", 0.5)
        grace.start()
        self.addCleanup(grace.stop)

    def command(self, script: str, **more: object) -> Command:
        return Command(["sh", "-c", script], environment={"MARK": self.mark}, **more)  # type: ignore[arg-type]

    def test_a_timeout_ends_workers_whatever_they_do(self) -> None:
        """Before, SIGKILL was dropped once the leader had ended, so an exclusive job was free while its workers wrote."""
        for what, script in STUBBORN.items():
            with self.subTest(what):
                self.command(script, timeout=0.5).execute(context())
                self.assertEqual(marked(self.mark), [])

    def test_nothing_stays_in_the_background(self) -> None:
        """Before, what a command left behind went on, and held a thread and a descriptor of the node."""
        descriptors, threads = len(os.listdir("/proc/self/fd")), threading.active_count()
        for _ in range(5):
            self.assertEqual(self.command("sleep 60 & setsid sleep 60 & exit 0").execute(context()), Code.NOOP)
            self.assertEqual(marked(self.mark), [])
        self.assertEqual((len(os.listdir("/proc/self/fd")), threading.active_count()), (descriptors, threads))

    @unittest.skipUnless(running.groups(), "no control group can be made here")
    def test_an_execution_has_a_control_group_of_its_own(self) -> None:
        logging.disable(logging.NOTSET)
        with self.assertLogs("kemtrua.job", "INFO") as logs:
            self.command("grep 0:: /proc/self/cgroup; setsid sleep 60 &").execute(context())
        name = next(text for text in logs.output if "kemtrua-" in text).rpartition("/")[2].strip()
        self.assertTrue(name.startswith("kemtrua-"))
        self.assertFalse(os.path.exists(f"{running.groups()}/{name}"))
        self.assertEqual(marked(self.mark), [])

    def test_the_status_is_that_of_the_command_itself(self) -> None:
        self.assertEqual(self.command("(sleep 60; exit 4) & exit 3", codes={3: Code.DELETE_TRIGGER}).execute(context()), Code.DELETE_TRIGGER)

    def test_workers_die_with_the_node(self) -> None:
        place = running.Place()
        place.wait()
        order = self.command(STUBBORN["in a session of its own"])
        place.control.sendall(running.Order(order.words, "/", {**os.environ, "MARK": self.mark}, None, 0).line())
        self.addCleanup(place.close)
        self.assertEqual(place.read_line(), b"begun")
        wait_until(lambda: len(marked(self.mark)) >= 3)
        place.control.close()  # (as where the node is killed)
        wait_until(lambda: not marked(self.mark))

    def test_workers_die_with_a_node_that_had_not_heard_of_the_end(self) -> None:
        """Before, a keeper that had just said `ended` failed when its node died, and what the command had left went on."""
        place = running.Place()
        place.wait()
        place.control.sendall(running.Order(["sh", "-c", STUBBORN["ignores SIGTERM"].replace("wait", "exit")], "/", {**os.environ, "MARK": self.mark}, None, 0).line())
        self.addCleanup(place.close)
        wait_until(lambda: b"ended 0" in place.control.recv(4096, socket.MSG_PEEK))
        place.control.close()
        wait_until(lambda: not marked(self.mark), 10)

    def test_a_place_of_which_nobody_heard_that_it_is_ready(self) -> None:
        """Before, its keeper failed, and left the folder of its control group."""
        place = running.Place()
        wait_until(lambda: b"ready" in place.control.recv(4096, socket.MSG_PEEK))
        place.close()
        self.assertEqual(place.process.returncode, 0)

    def test_a_keeper_that_is_killed(self) -> None:
        guard = Guard()
        self.addCleanup(guard.end)
        ended: list[Code] = []
        execution = threading.Thread(target=lambda: ended.append(self.command("setsid sleep 60 & sleep 60", codes={137: Code.DELETE_TRIGGER}).execute(context(), guard)))
        execution.start()
        wait_until(lambda: len(marked(self.mark)) == 3)
        with open(f"/proc/{min(marked(self.mark))}/stat") as file:
            keeper = int(file.read().rpartition(")")[2].split()[1])
        os.kill(keeper, signal.SIGKILL)
        execution.join(60)
        self.assertEqual((ended, marked(self.mark)), ([Code.DELETE_TRIGGER], []))
        self.assertFalse(os.path.exists(f"{running.groups()}/kemtrua-{keeper}"))

    def test_want_of_descriptors_is_no_failure(self) -> None:
        """Before, EMFILE and EAGAIN counted as SET_ALL_JOB_TRIGGERS_ERROR, for the whole team."""
        soft, hard = resource.getrlimit(resource.RLIMIT_NOFILE)
        resource.setrlimit(resource.RLIMIT_NOFILE, (max(map(int, os.listdir("/proc/self/fd"))) + 2, hard))
        filling: list[int] = []
        try:
            with self.assertRaises(OSError):
                while True:
                    filling.append(os.open("/dev/null", os.O_RDONLY))
            os.close(filling.pop())
            with self.assertRaises(NotBegun):
                self.command("exit 0").execute(context())
        finally:
            resource.setrlimit(resource.RLIMIT_NOFILE, (soft, hard))
            for descriptor in filling:
                os.close(descriptor)
        self.assertEqual(self.command("exit 0").execute(context()), Code.NOOP)

    def test_want_of_processes_is_no_failure(self) -> None:
        with mock.patch("subprocess.Popen", side_effect=BlockingIOError(11, "Resource temporarily unavailable")), self.assertRaises(NotBegun):
            self.command("exit 0").execute(context())

    def test_a_folder_that_is_not_mounted_is_no_failure(self) -> None:
        with self.assertRaises(NotBegun) as raised:
            self.command("exit 0", directory="/nowhere/nfs").execute(context())
        self.assertIn("/nowhere/nfs", str(raised.exception))

    def test_a_place_that_nothing_begins_in_is_given_back(self) -> None:
        gc.collect()
        before = len(os.listdir("/proc/self/fd"))
        place = running.Place()
        place.close()
        place.close()
        self.assertIsNotNone(place.process.returncode)
        self.assertEqual(len(os.listdir("/proc/self/fd")), before)

    def test_a_keeper_that_does_not_begin_is_no_failure(self) -> None:
        with mock.patch.object(running.keeper, "__file__", "/nowhere/keeper.py"), self.assertRaises(NotBegun) as raised:
            self.command("exit 0").execute(context())
        self.assertIn("can't open file", str(raised.exception))

    def test_what_cannot_be_ended_stays_open(self) -> None:
        """A keeper that says `stuck` has its execution go on, and the log says so."""
        ours, theirs = running.socket.socketpair()
        place = running.Place()
        place.wait()
        self.addCleanup(theirs.close)
        place.control.close()
        place.control = ours
        logging.disable(logging.NOTSET)
        with self.assertLogs("kemtrua.job", "ERROR") as logs:
            run = threading.Thread(target=running.Run(place, context(), running.Order(["true"], "/", {}, None, 0)).to_the_end)
            run.start()
            for said in (b"begun\n", b"ended -9\nstuck 77\n"):
                theirs.sendall(said)
            wait_until(lambda: logs.output)
            time.sleep(0.2)
            self.assertTrue(run.is_alive())
            theirs.sendall(b"empty\n")
            run.join(20)
        self.assertIn("the processes 77 can't be ended; it stays open", logs.output[0])


if __name__ == "__main__":
    unittest.main()
