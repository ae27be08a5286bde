"""Hubs that hang, end or answer nonsense: nobody waits for ever, and what runs goes on."""
from __future__ import annotations

import os
import signal
import socket
import subprocess
import threading
import time
import unittest
from unittest import mock

from kemtrua import Address, Connection, Node, Store, errors
from kemtrua import node as nodes
from tests.helpers import ENVIRONMENT, IS_STAND_IN, WithFolder, command, job, now, once, wait_until


class Connections(WithFolder):
    def answers(self, reply: bytes, ends: bool = False) -> Address:
        """A socket that answers each line with this, or the first one and ends then."""
        path = f"{self.folder}/s.sock"
        server = socket.socket(socket.AF_UNIX)
        self.addCleanup(server.close)
        server.bind(path)
        server.listen(5)

        def serve() -> None:
            peer, _ = server.accept()
            with peer, peer.makefile("rb") as lines:
                for _ in lines:
                    peer.sendall(reply)
                    if ends:
                        return

        threading.Thread(target=serve, daemon=True).start()
        return Address.parse(f"unix:{path}")

    def test_a_hub_that_says_nothing(self) -> None:
        """Before, no question had a time-out, and whoever asked waited for ever."""
        connection = Connection(self.answers(b""), answer_within=0.5)
        self.addCleanup(connection.close)
        begun = time.monotonic()
        with self.assertRaises(errors.Unanswered) as raised:
            connection.show_next()
        self.assertLess(time.monotonic() - begun, 60)
        self.assertIn("within 0.5 seconds", str(raised.exception))
        with self.assertRaises(errors.Unreachable):
            connection.show_next()  # (a late reply would be taken for another line's)

    def test_a_reply_that_is_too_long(self) -> None:
        """Before, its asker waited for ever."""
        connection = Connection(self.answers(b"ok" + b"x" * (1 << 21) + b"\n"))
        self.addCleanup(connection.close)
        with self.assertRaises(errors.Unanswered) as raised:
            connection.show_next()
        self.assertIn("bytes", str(raised.exception))

    def test_a_list_in_whose_midst_the_hub_ends(self) -> None:
        """Before, its asker waited for the whole 300 seconds of a list."""
        connection = Connection(self.answers(b"list 3\njob DEFAULT/j ok\n", ends=True))
        self.addCleanup(connection.close)
        with mock.patch("kemtrua.connection.LIST_WITHIN", 20.0), self.assertRaises(errors.Unanswered) as raised:
            connection.listed()
        self.assertIn("the hub closed it", str(raised.exception))

    def test_nonsense(self) -> None:
        for reply in (b"next\n", b"hello there\n", b"next soon\n", b"ok\n"):
            with self.subTest(reply):
                connection = Connection(self.answers(reply))
                self.addCleanup(connection.close)
                with self.assertRaises(errors.BadReply):
                    connection.show_next()
                os.unlink(f"{self.folder}/s.sock")

    def test_whoever_gives_up_waits_no_longer(self) -> None:
        connection = Connection(self.answers(b""), answer_within=300.0)
        self.addCleanup(connection.close)
        threading.Timer(0.3, connection.cut).start()
        begun = time.monotonic()
        with self.assertRaises(errors.Unanswered):
            connection.show_next()
        self.assertLess(time.monotonic() - begun, 100)


class Processes(WithFolder):
    def node(self, more: str = "", script: str = "true") -> subprocess.Popen[bytes]:
        with open(f"{self.folder}/node.toml", "w") as file:
            file.write(f'format = 1\n[node]\nhub = "unix:{self.folder}/hub.sock"\ncheck_in = 1000\n{more}\n[class.ok]\ncommand = ["sh", "-c", {script!r}]\n'
                       f'environment = {{ FOLDER = "{self.folder}" }}\n')
        with open(f"{self.folder}/node.log", "w") as log:
            node = subprocess.Popen([*command("node"), f"{self.folder}/node.toml", "--name", "A"], env=ENVIRONMENT, stderr=log)
        self.addCleanup(lambda: (node.poll() is None and node.kill(), node.wait()))
        return node

    def test_a_node_obeys_sigterm_while_its_hub_hangs(self) -> None:
        """Before, it was alive after two SIGTERMs, as long as the hub hung."""
        hub = self.hub()
        with hub.connect() as one:
            node = self.node("finish_within = 1")
            wait_until(lambda: one.peers() == ["A"])
        hub.process.send_signal(signal.SIGSTOP)
        self.addCleanup(hub.process.send_signal, signal.SIGCONT)
        time.sleep(1.5)  # (now it waits for an answer)
        node.terminate()
        self.assertEqual(node.wait(100), 0)

    def test_the_command_line_ends_while_the_hub_hangs(self) -> None:
        hub = self.hub()
        hub.connect().close()
        hub.process.send_signal(signal.SIGSTOP)
        self.addCleanup(hub.process.send_signal, signal.SIGCONT)
        asked = subprocess.run([*command("client"), "--hub", hub.listen, "--within", "1s", "show", "next"], env=ENVIRONMENT, capture_output=True, text=True, timeout=60)
        self.assertEqual(asked.returncode, 1)
        self.assertIn("no answer from the hub", asked.stderr)

    def test_what_runs_goes_on_over_a_hub_that_hangs(self) -> None:
        hub = self.hub()
        with hub.connect() as one:
            one.add_job(job())
            one.add_trigger(once())
            node = self.node(script="echo > $FOLDER/begun; sleep 12; echo > $FOLDER/ended")
            wait_until(lambda: os.path.exists(f"{self.folder}/begun"))
        hub.process.send_signal(signal.SIGSTOP)
        time.sleep(10)  # (longer than a node with this interval waits for an answer)
        hub.process.send_signal(signal.SIGCONT)
        with hub.connect() as one:
            wait_until(lambda: os.path.exists(f"{self.folder}/ended"), 60)
            wait_until(lambda: one.entries_of("A") == [], 60)
            self.assertIn("member A 1", one.listed())
        self.assertIsNone(node.poll())

    @unittest.skipUnless(IS_STAND_IN, "the stand-in makes this fault")
    def test_what_runs_goes_on_where_the_store_ends(self) -> None:
        """Before, `hub ended` to a line that asks ended the node, and sent SIGTERM to its commands."""
        hub = self.hub(fault="full:40")
        with hub.connect() as one:
            one.add_job(job(durable=True))
            one.add_trigger(once())
            node = self.node(script="trap 'echo > $FOLDER/termed' TERM; echo > $FOLDER/begun; sleep 60 & wait")
            wait_until(lambda: os.path.exists(f"{self.folder}/begun"))
            with self.assertRaises(errors.KemtruaError):
                for number in range(60):
                    one.add_job(job(f"j{number}"))
        self.assertEqual(hub.process.wait(60), 7)
        time.sleep(2)
        self.assertIsNone(node.poll())
        self.assertFalse(os.path.exists(f"{self.folder}/termed"))


class Refusals(WithFolder):
    def test_a_refused_acquire_ends_nothing(self) -> None:
        """Before, a store with 65536 rows in the hands of nodes ended each node that asked for one more."""
        store, seen, refusing = self.store(), [], threading.Event()
        answer = store.answer
        goes_on = threading.Event()

        def refuse(line: dict[str, object]) -> str:
            return "refused 22 count 65536" if refusing.is_set() and line["do"] == "acquire" else answer(line)

        def long(context: object) -> None:
            seen.append(context)
            goes_on.wait(30)

        with mock.patch.object(Store, "answer", lambda _, line: refuse(line)), mock.patch.object(nodes, "REFUSED_REST", 0.3):
            node = Node("A", lambda: store, {"ok": long}, check_in=1000)  # type: ignore[dict-item]
            thread = threading.Thread(target=node.run, daemon=True)
            thread.start()
            store.add_job(job())
            store.add_trigger(once("a"))
            wait_until(lambda: seen)
            refusing.set()
            store.add_trigger(once("b", start=now()))
            time.sleep(1.0)
            self.assertTrue(thread.is_alive())
            self.assertFalse(seen[0].stop.is_set())
            refusing.clear()
            wait_until(lambda: len(seen) == 2)
            goes_on.set()
            node.stop()
            thread.join(20)
        self.assertFalse(thread.is_alive())


if __name__ == "__main__":
    unittest.main()
