"""What a node may do, what operators may, and how much of the hub a bad or greedy peer can take."""
from __future__ import annotations

import grp
import os
import socket
import threading
import time
import unittest

from kemtrua import BadSettings, Connection, errors
from kemtrua.hub.rights import OPERATORS_NODE, Door, Grant, Identity, Rights
from kemtrua.names import Key
from tests.helpers import HubProcess, WithFolder, job, now, once

BAD_MEMBERS = b'{"do":"add_trigger","trigger":{"kind":"interval",' + b",".join(b'"%x":0' % number for number in range(7200)) + b"}}"
BAD_ITEMS = b'{"do":"add_calendar","calendar":{"name":"x","kind":"weekly","days":[' + b",".join([b"9"] * 30000) + b"]}}"


class Grants(unittest.TestCase):
    def test_their_texts(self) -> None:
        self.assertEqual(Grant.parse("north"), Grant("north"))
        self.assertEqual(Grant.parse("north:12"), Grant("north", False, 12))
        self.assertEqual(Grant.parse("app.*:3"), Grant("app", True, 3))
        for text in ("", ":5", "north:", "north:0", "north:x", ".*"):
            with self.assertRaises(BadSettings):
                Grant.parse(text)

    def test_which_nodes_a_certificate_may_be(self) -> None:
        def may(grants: list[Grant], who: str, node: str) -> bool:
            try:
                Rights((), grants).may_be(Identity(Door.TLS, who), node)
                return True
            except errors.HubRefused:
                return False

        self.assertTrue(may([], "C", "C"))
        self.assertFalse(may([], "C", "C.x"))
        below = [Grant("C", below=True), Grant("D")]
        for who, node, right in (("C", "C", True), ("C", "C.x", True), ("C", "C.x.y", True), ("C", "Cx", False), ("C", "D", False), ("D", "D", True),
                                 ("D", "D.x", False), ("E", "E", False), ("D", "C.x", False)):
            self.assertEqual(may(below, who, node), right, (who, node))

    def test_an_operator_may_be_the_operators_node(self) -> None:
        rights = Rights(["admin"], [Grant("C")])
        rights.may_be(Identity(Door.TLS, "admin"), OPERATORS_NODE)
        for who, node in (("C", OPERATORS_NODE), ("admin", "C"), ("admin", "admin")):
            with self.assertRaises(errors.HubRefused):
                rights.may_be(Identity(Door.TLS, who), node)

    def test_how_much_a_node_takes(self) -> None:
        rights = Rights(["admin"], [Grant("C", True, 3), Grant("D", workers=9)])
        self.assertEqual([rights.most(Identity(Door.TLS, "C"), node) for node in ("C", "C.x", "D")], [3, 3, 9])
        self.assertIsNone(rights.most(Identity(Door.OPERATORS, "0"), "E"))
        self.assertEqual(rights.most(Identity(Door.NODES, "7"), "E"), 256)
        self.assertEqual(rights.most(Identity(Door.OPERATORS, "0"), "D"), 9)


class Nodes(WithFolder):
    """A hub with a socket for nodes alone."""

    def setUp(self) -> None:
        super().setUp()
        self.at = f"unix:{self.folder}/nodes.sock"

    def served(self, *words: str) -> tuple[HubProcess, Connection, Connection]:
        """A hub, an operator, and node A."""
        hub = self.hub("--listen-nodes", self.at, *words)
        admin = hub.connect()
        node = hub.connect_at(self.at)
        self.addCleanup(admin.close)
        self.addCleanup(node.close)
        node.join("A", 1000)
        return hub, admin, node

    def refused(self, ask: object, word: str = "no-right") -> None:
        with self.assertRaises(errors.HubRefused) as raised:
            ask()  # type: ignore[operator]
        self.assertEqual(raised.exception.word, word)

    def test_a_node_sees_and_ends_what_is_its_own(self) -> None:
        """Before, a node read other nodes' job data, by `held` and `show_entry`."""
        hub, admin, node = self.served()
        other = hub.connect_at(self.at)
        self.addCleanup(other.close)
        other.join("B", 1000)
        admin.add_job(job(data="password=hunter2"))
        admin.add_trigger(once())
        entry = node.acquire("A", now()).triggers[0].entry
        node.fire("A", entry)
        row = node.show_entry(entry)
        assert row is not None
        self.assertEqual((row.data, node.entries_of("A")), ("password=hunter2", [entry]))
        self.refused(lambda: other.show_entry(entry))
        self.refused(lambda: other.entries_of("A"))
        with self.assertRaises(errors.Refused):
            other.complete("B", entry)
        self.assertIsNone(other.show_entry(entry + 5))
        admin_row = admin.show_entry(entry)
        assert admin_row is not None
        self.assertEqual(admin_row.data, "password=hunter2")

    def test_a_node_does_not_operate(self) -> None:
        """Before, each connection without --operator did."""
        _, admin, node = self.served()
        admin.add_job(job(data="secret"))
        for ask in (lambda: node.add_job(job("k")), lambda: node.show_job(Key("DEFAULT", "j")), lambda: node.show_trigger(Key("DEFAULT", "t")), node.listed,
                    lambda: node.threshold(5), lambda: node.reset_trigger(Key("DEFAULT", "t")), lambda: node.pause_job_group("g")):
            self.refused(ask)
        self.assertEqual(node.peers(), ["A"])
        self.assertIsNone(node.show_next())

    def test_a_node_takes_no_more_than_it_may(self) -> None:
        """Before, one acquire took 64 entries, and further ones all that the store has."""
        hub, admin, node = self.served("--node", "A:3")
        admin.add_job(job())
        for number in range(8):
            admin.add_trigger(once(f"t{number}", start=now() + 3600000))
        self.assertEqual(len(node.acquire("A", 2**53, most=2).triggers), 2)
        self.assertEqual(len(node.acquire("A", 2**53, most=64).triggers), 1)
        self.refused(lambda: node.acquire("A", 2**53), "too-many")
        node.release("A", node.entries_of("A")[0])
        self.assertEqual(len(node.acquire("A", 2**53, most=64).triggers), 1)

    def test_a_node_checks_in_no_oftener_than_it_needs(self) -> None:
        """Before, a node filled the state store with check-ins, and a full journal ends the hub."""
        _, admin, node = self.served()
        done = refused = 0
        until = time.monotonic() + 1.5
        while time.monotonic() < until:
            try:
                node.check_in("A", 1)
                done += 1
            except errors.HubRefused as error:
                self.assertEqual(error.word, "too-often")
                refused += 1
        self.assertLessEqual(done, 7)
        self.assertGreater(refused, 10)

    @unittest.skipIf(os.getuid(), "another group can be given by root alone")
    def test_the_nodes_socket_belongs_to_their_group(self) -> None:
        self.served("--nodes-group", "daemon")
        for name, group in (("nodes.sock", grp.getgrnam("daemon").gr_gid), ("hub.sock", os.getgid())):
            found = os.stat(f"{self.folder}/{name}")
            self.assertEqual((found.st_gid, found.st_mode & 0o777), (group, 0o660))

    def test_a_group_that_is_not_there(self) -> None:
        status, said = self.hub("--listen-nodes", self.at, "--nodes-group", "nobody-at-all").ended(None)
        self.assertEqual(status, 1, said)
        self.assertIn("there is no group 'nobody-at-all'", said)

    def test_what_no_hub_knows(self) -> None:
        _, admin, node = self.served()
        self.assertEqual(admin.answer_raw(b'{"do":"dance"}'), "hub not-here 'dance' is no line that this hub knows")
        self.assertTrue(admin.answer_raw(b'{"do":"clock","x":1}').startswith("hub bad-line"))


class BadLines(WithFolder):
    def raw(self, hub: HubProcess) -> socket.socket:
        sock = socket.socket(socket.AF_UNIX)
        self.addCleanup(sock.close)
        sock.connect(hub.address.path)
        return sock

    def test_at_most_20_problems_are_told(self) -> None:
        """Before, 60 KB of a bad line were answered with 2.4 MB, and nobody else was for 300 ms."""
        hub = self.hub()
        hub.connect().close()
        for line, word in ((BAD_MEMBERS, b"there is no such member"), (BAD_ITEMS, b"out of range")):
            sock = self.raw(hub)
            sock.sendall(line + b"\n")
            answer = sock.makefile("rb").readline()
            self.assertEqual((answer[:13], answer.count(word)), (b"hub bad-line ", 20))
            self.assertTrue(answer.endswith(b"and more\n"))
            self.assertLess(len(answer), 16384)

    def test_rights_come_before_checks(self) -> None:
        hub = self.hub("--listen-nodes", f"unix:{self.folder}/nodes.sock")
        hub.connect().close()
        with hub.connect_at(f"unix:{self.folder}/nodes.sock") as one:
            for line in (BAD_MEMBERS, BAD_ITEMS):
                self.assertTrue(one.answer_raw(line).startswith("hub no-right"))

    def test_peers_that_do_not_read_take_little(self) -> None:
        """Before, 50 of them took 230 MiB, and an answer to another came after 7.8 seconds."""
        hub = self.hub()
        with hub.connect() as one:
            for _ in range(50):
                sock = self.raw(hub)
                sock.setblocking(False)
                with self.assertRaises(BlockingIOError):
                    while True:
                        sock.sendall(BAD_ITEMS + b"\n")
            slowest = 0.0
            for _ in range(20):
                begun = time.monotonic()
                one.show_next()
                slowest = max(slowest, time.monotonic() - begun)
            with open(f"/proc/{hub.process.pid}/status") as file:
                resident = next(int(line.split()[1]) for line in file if line.startswith("VmRSS"))
            self.assertLess(resident, 100 * 1024)
            self.assertLess(slowest, 60)


class Pipelining(WithFolder):
    def test_answers_come_in_order(self) -> None:
        """Lines are sent without waiting, those of the program and the hub's own."""
        hub = self.hub()
        hub.connect().close()
        sock = socket.socket(socket.AF_UNIX)
        self.addCleanup(sock.close)
        sock.connect(hub.address.path)
        lines, wanted = [b'{"do":"join","node":"A"}'], [b"joined 1 executions 0 triggers 0"]
        for number in range(300):
            lines += [b'{"do":"add_job","job":{"name":"j%d","class":"c","durable":true}}' % number, b'{"do":"show_job","name":"j%d"}' % number,
                      b'{"do":"members"}', b'{"do":"check_in","node":"A"}', b"nonsense"]
            wanted += [b"ok", b"job DEFAULT/j%d" % number, b"members A", b"ok", b"hub bad-line"]
        threading.Thread(target=sock.sendall, args=(b"\n".join(lines) + b"\n",), daemon=True).start()
        with sock.makefile("rb") as answers:
            for place, start in enumerate(wanted):
                answer = answers.readline()
                self.assertTrue(answer.startswith(start), (place, answer, start))

    def test_a_check_in_waits_behind_few(self) -> None:
        """However many lines of others wait, a check-in waits for those that the program has already."""
        hub = self.hub()
        with hub.connect() as one:
            one.join("A", 1000)
            ends = threading.Event()
            counts = []

            def hammer() -> None:
                sock = socket.socket(socket.AF_UNIX)
                sock.connect(hub.address.path)
                with sock, sock.makefile("rb") as answers:
                    count = 0
                    while not ends.is_set():
                        sock.sendall(b'{"do":"show_next"}\n' * 32)
                        for _ in range(32):
                            answers.readline()
                        count += 32
                    counts.append(count)

            threads = [threading.Thread(target=hammer) for _ in range(20)]
            for thread in threads:
                thread.start()
            begun, waits = time.monotonic(), []
            while time.monotonic() < begun + 4:
                at = time.monotonic()
                one.check_in("A", 1000)
                waits.append(time.monotonic() - at)
            ends.set()
            for thread in threads:
                thread.join()
            took = time.monotonic() - begun
            of_a_line = took / sum(counts)
            # (640 lines of others wait at each moment; it is to wait behind no more than 64 of them, and what the loop reads at once)
            self.assertLess(sorted(waits)[len(waits) // 2], 400 * of_a_line)

    def test_whoever_ends_a_half_gets_the_answers(self) -> None:
        hub = self.hub()
        hub.connect().close()
        with socket.socket(socket.AF_UNIX) as sock:
            sock.connect(hub.address.path)
            sock.sendall(b'{"do":"show_next"}\n{"do":"members"}\n{"do":"show')
            sock.shutdown(socket.SHUT_WR)
            self.assertEqual(sock.makefile("rb").read(), b"next none\nmembers\n")


if __name__ == "__main__":
    unittest.main()
