"""A hub as a process: who may say what, and what it does when something ends."""
import os
import socket
import threading
import unittest

from kemtrua import Address, Connection, errors
from kemtrua.patience import MARGIN, Patience
from kemtrua.replies import Completed, Done, Fired, Joined, Next
from tests.helpers import IS_STAND_IN, HubProcess, WithFolder, job, now, once, wait_until


class Lines(WithFolder):
    def test_a_connection_speaks_for_its_own_node_alone(self) -> None:
        with self.hub().connect() as one, Connection(Address.parse(f"unix:{self.folder}/hub.sock")) as other:
            with self.assertRaises(errors.HubRefused) as raised:
                one.ask("acquire", node="A", no_later=now())
            self.assertEqual(raised.exception.word, "not-yours")
            self.assertIsInstance(one.ask("join", node="A"), Joined)
            for line, word in (({"do": "join", "node": "A"}, "name-taken"), ({"do": "resume", "node": "A", "epoch": 2}, "name-taken")):
                with self.assertRaises(errors.HubRefused) as raised:
                    other.ask(**line)
                self.assertEqual(raised.exception.word, word)
            other.ask("join", node="B")
            with self.assertRaises(errors.HubRefused) as raised:
                other.ask("leave", node="A")
            self.assertEqual(raised.exception.word, "not-yours")
            self.assertIn("'B'", str(raised.exception))
            one.ask("leave", node="A")
            self.assertEqual(one.peers(), ["A", "B"])

    def test_what_no_connection_may_do(self) -> None:
        hub = self.hub()
        with hub.connect() as one:
            one.ask("join", node="A")
            for line, word in (({"do": "restart"}, "not-here"), ({"do": "stop", "node": "A"}, "not-here"), ({"do": "check_in", "node": "A", "at": 5}, "bad-line")):
                with self.assertRaises(errors.HubRefused) as raised:
                    one.ask(**line)
                self.assertEqual(raised.exception.word, word)

    def test_any_language_will_do(self) -> None:
        self.hub().connect().close()
        with socket.socket(socket.AF_UNIX) as plain:
            plain.connect(f"{self.folder}/hub.sock")
            file = plain.makefile("rwb", buffering=0)
            for line, wanted in ((b'{"do":"join","node":"A"}', b"joined 1 executions 0 triggers 0\n"), (b'\n{"do":"show_next"}', b"next none\n"),
                                 (b'{"do":"members"}', b"members A\n"), (b'{"do":"held","node":"A"}', b"held\n"), (b'{"do":"fire"', b"hub bad-line not JSON"),
                                 (b'{"do":"fire","node":"A"}', b"hub bad-line entry: it is missing\n"), (b'{"do":"show_next","a\\nb":1}', b"hub bad-line a b: there is no such member"), (b'{"do":"held"}', b"hub bad-line held"),
                                 (b'"' + b"x" * 70000 + b'"', b"hub bad-line the line has more than 65536 bytes")):
                file.write(line + b"\n")
                self.assertTrue(file.readline().startswith(wanted), (line[:80], wanted))
            self.assertEqual(file.readline(), b"")

    def test_a_list(self) -> None:
        with self.hub().connect() as one:
            one.ask("add_job", job=job("a b"))
            self.assertIn("job DEFAULT/a%20b ok durable 0 no_concurrent 0 requests_recovery 0", one.listed())
            self.assertEqual(one.ask("show_next"), Next(None))

    def test_whoever_sleeps_is_woken(self) -> None:
        hub, woken = self.hub(), threading.Event()
        with hub.connect() as one, Connection(hub.address) as other:
            one.watch(woken.set)
            other.ask("add_job", job=job())
            soon = now() + 50000
            other.ask("add_trigger", trigger=once("soon", start=soon))
            self.assertFalse(woken.wait(0.3))  # (it doesn't sleep)
            self.assertEqual(one.ask("show_next"), Next(soon))
            other.ask("add_trigger", trigger=once("later", start=now() + 90000))
            self.assertFalse(woken.wait(0.3))
            other.ask("trigger_now", name="j")
            self.assertTrue(woken.wait(20))

    def test_a_node_that_may_live_is_not_recovered(self) -> None:
        hub = self.hub()
        with hub.connect() as one, Connection(hub.address) as other:
            one.ask("join", node="A", interval=1000)
            other.ask("join", node="B", interval=1000)
            with self.assertRaises(errors.HubRefused) as raised:
                one.ask("recover", node="A", failed="B")
            self.assertEqual(raised.exception.word, "wait")


class Ends(WithFolder):
    def begun(self, one: Connection) -> None:
        one.ask("add_job", job=job())
        one.ask("add_trigger", trigger=once())
        one.ask("join", node="A")
        one.ask("acquire", node="A", no_later=now())
        self.assertIsInstance(one.ask("fire", node="A", entry=1), Fired)

    def test_a_node_resumes_after_its_connection_broke(self) -> None:
        hub = self.hub()
        one = hub.connect()
        self.begun(one)
        one.close()
        with hub.connect() as again:
            wait_until(lambda: self.resumed(again))
            self.assertEqual(again.entries_of("A"), [1])
            self.assertEqual(again.ask("complete", node="A", entry=1), Completed(1))

    def resumed(self, one: Connection) -> bool:
        try:
            return one.ask("resume", node="A", epoch=1) == Done()
        except errors.HubRefused:
            return False  # (the hub hasn't seen that the former connection broke)

    def test_a_node_resumes_after_the_hub_was_killed(self) -> None:
        hub = self.hub()
        one = hub.connect()
        self.begun(one)
        hub.process.kill()
        hub.process.wait()
        with self.assertRaises(errors.KemtruaError):
            one.ask("complete", node="A", entry=1)
        one.close()
        with self.hub(make=False).connect() as again:
            self.assertEqual(again.ask("resume", node="A", epoch=1), Done())
            self.assertEqual(again.entries_of("A"), [1])
            self.assertEqual(again.ask("complete", node="A", entry=1), Completed(1))

    def test_a_new_self_of_a_node_recovers_the_former_one(self) -> None:
        hub = self.hub()
        one = hub.connect()
        self.begun(one)
        one.close()
        with hub.connect() as again:
            wait_until(lambda: not self.is_taken(again))

    def is_taken(self, one: Connection) -> bool:
        try:
            self.assertEqual(one.ask("join", node="A"), Joined(2, 1, 0))
            return False
        except errors.HubRefused:
            return True

    def test_sigterm(self) -> None:
        hub = self.hub()
        hub.connect().close()
        status, said = hub.ended()
        self.assertEqual(status, 0, said)
        self.assertFalse(os.path.exists(f"{self.folder}/hub.sock"))

    def test_a_second_hub_on_the_store(self) -> None:
        self.hub().connect().close()
        status, said = self.hub(listen=f"unix:{self.folder}/other.sock").ended(None)
        self.assertEqual(status, 75)
        self.assertIn("another program works on the store", said)

    def test_a_socket_that_is_there_already(self) -> None:
        os.mkdir(f"{self.folder}/other")
        first = self.hub()
        first.connect().close()
        listen = f"unix:{self.folder}/hub.sock"
        second = HubProcess(f"{self.folder}/other", listen, "--make")
        self.addCleanup(second.kill)
        status, said = second.ended(None)
        self.assertEqual(status, 1)
        self.assertIn("another hub listens at", said)
        first.process.kill()
        first.process.wait()
        self.hub(make=False).connect().close()  # (a killed hub's socket is in nobody's way)

    def test_a_file_where_the_socket_should_be(self) -> None:
        with open(f"{self.folder}/hub.sock", "w"):
            pass
        status, said = self.hub().ended(None)
        self.assertEqual(status, 1)
        self.assertIn("is no socket", said)

    def test_bad_words(self) -> None:
        for listen, word in (("hub.sock", "no address"), ("unix:" + "x" * 200, "107 bytes"), ("tls:localhost:0", "only with TLS"), ("unix:/nowhere/hub.sock", "can't be made")):
            status, said = self.hub(listen=listen).ended(None)
            self.assertEqual(status, 1, said)
            self.assertIn(word, said)

    @unittest.skipUnless(IS_STAND_IN, "the stand-in makes these faults")
    def test_a_store_that_fails_ends_the_hub(self) -> None:
        for fault, status, word in (("fault:1", 5, "a disk failed"), ("full:1", 7, "journal full")):
            with self.subTest(fault):
                hub = self.hub(fault=fault)
                with hub.connect() as one:
                    with self.assertRaises(errors.KemtruaError):
                        one.ask("add_job", job=job())
                ended, said = hub.ended(None)
                self.assertEqual(ended, status, said)
                self.assertIn(word, said)


class Patiently(unittest.TestCase):
    def test_each_node_has_time_to_come_back(self) -> None:
        patience = Patience()
        self.assertAlmostEqual(patience.left_for(1000), 1000 + MARGIN, delta=500)
        patience._since -= 9.0
        self.assertLess(patience.left_for(1000), 0)
        self.assertGreater(patience.left_for(15000), 0)

    def test_a_sleep_begins_it_anew(self) -> None:
        patience = Patience()
        patience._since -= 100.0
        self.assertFalse(patience.tick())
        patience._ticked -= 10.0  # (so long ago was the last tick)
        self.assertGreater(patience.left_for(1000), 0)

    def test_a_jump_of_the_clock_begins_it_anew(self) -> None:
        for jump in (3600.0, -3600.0):
            patience = Patience()
            patience._since -= 100.0
            patience._ahead += jump
            self.assertGreater(patience.left_for(1000), 0)


if __name__ == "__main__":
    unittest.main()
