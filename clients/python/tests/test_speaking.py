"""Connections that come back: half-open ones, programs that are killed, stores that stall."""
from __future__ import annotations

import os
import signal
import socket
import threading
import time
import unittest

from kemtrua import Connection, errors
from kemtrua.membership import Membership
from kemtrua.replies import Completed
from tests.helpers import WithFolder, job, now, once, wait_until


class Resuming(WithFolder):
    def test_a_right_resume_takes_the_place_of_a_half_open_connection(self) -> None:
        """Before, it was `name-taken` for up to 30 seconds, and others recovered the living node after 22.5."""
        hub = self.hub()
        with hub.connect() as old, hub.connect() as new:
            old.add_job(job())
            old.add_trigger(once())
            epoch = old.join("A", 1000).epoch
            entry = old.acquire("A", now()).triggers[0].entry
            old.fire("A", entry)
            new.resume("A", epoch)
            self.assertEqual(new.complete("A", entry), Completed(entry))
            with self.assertRaises(errors.KemtruaError):
                old.check_in("A", 1000)  # (it was closed)
            self.assertIn("hasn't been seen to break", hub.said())

    def test_another_epoch_takes_no_place(self) -> None:
        hub = self.hub()
        with hub.connect() as old, hub.connect() as new:
            epoch = old.join("A", 1000).epoch
            with self.assertRaises(errors.HubRefused) as raised:
                new.resume("A", epoch + 1)
            self.assertEqual(raised.exception.word, "name-taken")
            old.check_in("A", 1000)

    def test_a_resume_on_the_same_connection_is_right(self) -> None:
        with self.hub().connect() as one:
            epoch = one.join("A", 1000).epoch
            one.resume("A", epoch)
            one.check_in("A", 1000)

    def test_a_killed_program_that_the_hub_meets_first(self) -> None:
        """Before, the hub's own `stop` met it, the epoch was held by nobody, and each resume was refused: 794 turns in 3 s."""
        hub = self.hub()
        one, again = hub.connect(), hub.connect()
        self.addCleanup(again.close)
        epoch = one.join("A", 15000).epoch
        os.kill(hub.program, signal.SIGKILL)
        time.sleep(0.2)
        one.close()
        time.sleep(0.5)
        members = Membership("A", 15000, lambda: again, lambda: None)
        members._scheduler, members.epoch = again, epoch
        members.sure(lambda it: it.check_in("A", 15000))
        again.leave("A")

    def test_a_join_whose_answer_and_connection_are_lost_takes_no_name(self) -> None:
        hub = self.hub()
        hub.connect().close()
        program = hub.program
        os.kill(program, signal.SIGSTOP)
        with socket.socket(socket.AF_UNIX) as sock:
            sock.connect(hub.address.path)
            sock.sendall(b'{"do":"join","node":"A"}\n')
            time.sleep(0.5)
        time.sleep(0.2)
        os.kill(program, signal.SIGKILL)
        with hub.connect() as one:
            wait_until(lambda: self.joins(one))
            one.check_in("A", 1000)

    def joins(self, one: Connection) -> bool:
        try:
            one.join("A", 1000)
            return True
        except (errors.Unanswered, errors.HubRefused):
            return False  # (the program has just ended, or the hub hasn't seen yet that the connection has)

    def test_a_program_that_is_killed_while_others_ask(self) -> None:
        hub = self.hub()
        with hub.connect() as one, hub.connect() as other:
            one.join("A", 15000)
            other.join("B", 15000)
            os.kill(hub.program, signal.SIGKILL)
            for scheduler, node in ((one, "A"), (other, "B")):
                while True:
                    try:
                        scheduler.check_in(node, 15000)
                        break
                    except errors.Unanswered:
                        continue
                scheduler.leave(node)


class Stalling(WithFolder):
    def test_a_store_that_stalls_makes_nobody_late(self) -> None:
        """Before, a node whose check-in waited for the disk longer than its interval and 7.5 seconds was recovered."""
        hub = self.hub()
        with hub.connect() as one, hub.connect() as other:
            one.join("A", 1000)
            other.join("B", 1000)
            until = time.monotonic() + 9.5
            while time.monotonic() < until:  # (past the hub's own start)
                one.check_in("A", 1000)
                other.check_in("B", 1000)
                time.sleep(0.5)
            program = hub.program
            os.kill(program, signal.SIGSTOP)
            waiting = [threading.Thread(target=scheduler.check_in, args=(node, 1000)) for scheduler, node in ((one, "A"),)]
            for thread in waiting:
                thread.start()
            time.sleep(9.2)
            os.kill(program, signal.SIGCONT)
            for thread in waiting:
                thread.join()
            with self.assertRaises(errors.HubRefused) as raised:
                one.recover("A", "B")
            self.assertEqual(raised.exception.word, "wait")
            other.check_in("B", 1000)
            self.assertIn("the store gave no answer for", hub.said())


class Waking(WithFolder):
    def test_a_connection_that_breaks_is_told_of(self) -> None:
        hub = self.hub()
        one = hub.connect()
        one.join("A", 1000)
        one.close()
        wait_until(lambda: "the connection of A broke" in hub.said())


if __name__ == "__main__":
    unittest.main()
