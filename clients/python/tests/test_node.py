"""A node: what it fires and when, what becomes of codes, and how it ends."""
import os
import signal
import subprocess
import sys
import threading
import time
import unittest
from collections.abc import Callable
from unittest import mock

from kemtrua import Code, Connection, Context, Job, Node, Retry, Store, Work, errors, executions
from kemtrua import node as nodes
from kemtrua.journal import entries_of
from tests.helpers import ENVIRONMENT, WithFolder, job, now, once, wait_until


class NoPlace:
    def close(self) -> None:
        pass


class Running(WithFolder):
    def node(self, store: Store, jobs: dict[str, Job | Callable[[Context], Code | None]], **more: object) -> tuple[Node, threading.Thread]:
        """A node over a store of one's own, at work in a thread."""
        node = Node("A", lambda: store, jobs, check_in=1000, **more)  # type: ignore[arg-type]
        thread = threading.Thread(target=node.run, daemon=True)
        thread.start()
        self.addCleanup(lambda: (node.stop(), node.stop(), thread.join(20)))
        return node, thread

    def test_at_the_time_and_never_before(self) -> None:
        store, seen = self.store(), []
        start = now() + 1500
        store.ask("add_job", job=job(data="x"))
        store.ask("add_trigger", trigger=once(start=start, interval=400, count=2))
        self.node(store, {"ok": lambda context: seen.append((now(), context))})
        wait_until(lambda: len(seen) == 3)
        for number, (at, context) in enumerate(seen):
            self.assertEqual(context.scheduled, start + 400 * number)
            self.assertGreaterEqual(at, context.scheduled)
            self.assertEqual((context.node, context.data, context.klass, context.recovering, context.refires), ("A", "x", "ok", False, 0))

    def test_a_message_wakes_it(self) -> None:
        store, seen = self.store(), threading.Event()
        store.ask("add_job", job=job(durable=True))
        self.node(store, {"ok": lambda context: seen.set()})
        wait_until(lambda: store.peers() == ["A"])
        time.sleep(0.5)
        store.ask("trigger_now", name="j")
        self.assertTrue(seen.wait(10))

    def test_codes(self) -> None:
        store, seen = self.store(), []

        def flaky(context: Context) -> Code:
            seen.append(context.refires)
            return Code.RE_EXECUTE_JOB

        def fails(context: Context) -> Code:
            raise ValueError("on purpose")

        for name in ("flaky", "fails", "nobody", "error"):
            store.ask("add_job", job=job(name, name, durable=True))
            store.ask("add_trigger", trigger=once(name, name, interval=10**9, count=5))
        self.node(store, {"flaky": Job(flaky, Retry(2, 0.05, Code.SET_TRIGGER_ERROR)), "fails": fails,
                          "error": lambda context: Code.SET_TRIGGER_ERROR})

        def states() -> dict[str, str]:
            return {name: store.ask("show_trigger", name=name).state for name in ("flaky", "fails", "nobody", "error")}

        wait_until(lambda: states() == {"flaky": "ERROR", "fails": "WAITING", "nobody": "ERROR", "error": "ERROR"})
        self.assertEqual(seen, [0, 1, 2])
        self.assertEqual(store.ask("show_trigger", name="fails").times, 1)

    def test_no_more_at_once_than_it_has_workers(self) -> None:
        store, lock, counts = self.store(), threading.Lock(), [0, 0, 0]  # (at once, the most at once, all)

        def count(context: Context) -> None:
            with lock:
                counts[0] += 1
                counts[1] = max(counts[:2])
            time.sleep(0.1)
            with lock:
                counts[0] -= 1
                counts[2] += 1

        store.ask("add_job", job=job())
        for number in range(8):
            store.ask("add_trigger", trigger=once(f"t{number}"))
        self.node(store, {"ok": count}, work=Work(workers=2, batch=5))
        wait_until(lambda: counts[2] == 8)
        self.assertEqual(counts[1], 2)

    def test_a_stop_finishes_what_runs_and_gives_back_the_rest(self) -> None:
        store, begun, goes_on = self.store(), threading.Event(), threading.Event()
        store.ask("add_job", job=job())
        store.ask("add_trigger", trigger=once("now"))
        node, thread = self.node(store, {"ok": lambda context: (begun.set(), goes_on.wait(20))[0]}, work=Work(ahead=60000))
        self.assertTrue(begun.wait(10))
        store.ask("add_trigger", trigger=once("later", start=now() + 50000))
        wait_until(lambda: store.ask("show_trigger", name="later").state == "ACQUIRED")
        node.stop()
        wait_until(lambda: store.ask("show_trigger", name="later").state == "WAITING")
        self.assertEqual(store.entries_of("A"), [1])
        goes_on.set()
        wait_until(lambda: store.entries_of("A") == [] and "A" not in store.ledger.members)

    def test_a_second_stop_leaves_what_runs_to_others(self) -> None:
        store, begun = self.store(), threading.Event()
        store.ask("add_job", job=job())
        store.ask("add_trigger", trigger=once())
        node, thread = self.node(store, {"ok": lambda context: (begun.set(), context.stop.wait(20))[0]})
        self.assertTrue(begun.wait(10))
        node.stop()
        node.stop()
        thread.join(10)
        self.assertFalse(thread.is_alive())

    def test_what_cannot_begin_is_given_back_before_it_fires(self) -> None:
        """Before, a node without a free descriptor fired, and set all triggers of the job to ERROR."""
        store, seen, tries = self.store(), [], []

        def prepare() -> NoPlace:
            tries.append(store.entries_of("A"))
            if len(tries) == 1:
                raise errors.NotBegun("no execution can begin: Too many open files")
            return NoPlace()

        store.ask("add_job", job=job())
        store.ask("add_trigger", trigger=once())
        with mock.patch.object(nodes, "WANT_REST", 0.5):
            self.node(store, {"ok": lambda context: seen.append(context.entry)}, prepare=prepare)
            wait_until(lambda: seen)
        self.assertEqual(seen, [2])  # (entry 1 was released)
        words = [entry.word for entry in entries_of(f"{self.folder}/qz-triggers.store")]
        self.assertEqual([word for word in words if word in ("acquire", "release", "fire")], ["acquire", "release", "acquire", "fire"])

    def test_what_cannot_begin_after_it_fired_is_tried_again(self) -> None:
        """It never counts as a failed execution, nor as one of its retries."""
        store, seen = self.store(), []

        def begins_late(context: Context) -> Code:
            seen.append(context.refires)
            if len(seen) < 4:
                raise errors.NotBegun("a new process: Resource temporarily unavailable")
            return Code.NOOP

        store.ask("add_job", job=job(durable=True))
        store.ask("add_trigger", trigger=once(interval=10**9, count=5))
        with mock.patch.object(executions, "FIRST_REST", 0.05):
            self.node(store, {"ok": Job(begins_late, Retry(1, 0.0, Code.SET_TRIGGER_ERROR))})
            wait_until(lambda: len(seen) == 4 and store.entries_of("A") == [])
        self.assertEqual(seen, [0, 0, 0, 0])
        self.assertEqual(store.ask("show_trigger", name="t").state, "WAITING")

    def test_what_never_begins_is_left_for_others_where_the_node_ends(self) -> None:
        store, tried = self.store(), threading.Event()

        def never(context: Context) -> None:
            tried.set()
            raise errors.NotBegun("/mnt/nfs: No such file or directory")

        store.ask("add_job", job=job(requests_recovery=True))
        store.ask("add_trigger", trigger=once())
        node, thread = self.node(store, {"ok": never})
        self.assertTrue(tried.wait(10))
        node.stop()
        thread.join(20)
        self.assertFalse(thread.is_alive())
        self.assertEqual(store.entries_of("A"), [1])  # (it stays open, so another node recovers it)
        self.assertIn("A", store.ledger.members)

    def test_misfired_triggers_are_moved(self) -> None:
        store, seen = self.store(), []
        store.ask("add_job", job=job())
        store.ask("add_trigger", trigger={**once(start=now() - 200000), "misfire": 0})
        self.node(store, {"ok": lambda context: seen.append(context.scheduled)})
        wait_until(lambda: seen)
        self.assertGreater(seen[0], now() - 60000)


class Processes(WithFolder):
    """Nodes as processes, over a hub."""

    def settings(self, command: str, more: str = "") -> str:
        path = f"{self.folder}/node.toml"
        with open(path, "w") as file:
            file.write(f'[node]\nhub = "unix:{self.folder}/hub.sock"\ncheck_in = 1000\n[class.ok]\ncommand = ["sh", "-c", {command!r}]\n'
                       f'environment = {{ FOLDER = "{self.folder}" }}\n{more}')
        return path

    def text(self, name: str) -> str:
        with open(f"{self.folder}/{name}") as file:
            return file.read()

    def start(self, name: str, path: str) -> subprocess.Popen[str]:
        node = subprocess.Popen([sys.executable, "-m", "kemtrua.cli.node", path, "--name", name], env=ENVIRONMENT, stderr=subprocess.PIPE, text=True)
        self.addCleanup(lambda: (node.poll() is None and node.kill(), node.wait(), node.stderr.close()))
        return node

    def ended(self, node: subprocess.Popen[str]) -> tuple[int, str]:
        _, said = node.communicate(timeout=100)
        return node.returncode, said

    def fire(self, one: Connection, **more: object) -> None:
        one.ask("add_job", job=job(data="the data", **more))
        one.ask("add_trigger", trigger=once())

    def test_a_killed_node_takes_its_commands_along_and_is_recovered(self) -> None:
        path = self.settings("echo $KEMTRUA_NODE $KEMTRUA_RECOVERING >> $FOLDER/begun; [ $KEMTRUA_RECOVERING = 1 ] || (sleep 60; echo $KEMTRUA_NODE >> $FOLDER/ended)")
        with self.hub().connect() as one:
            self.fire(one, requests_recovery=True)
            first = self.start("A", path)
            wait_until(lambda: os.path.exists(f"{self.folder}/begun"))
            self.start("B", path)
            first.kill()
            wait_until(lambda: "B 1" in self.text("begun"))
            wait_until(lambda: one.peers() == ["B"])
            self.assertFalse(os.path.exists(f"{self.folder}/ended"))
            found = subprocess.run(["pgrep", "-f", f"sleep 60; echo .* {self.folder}"], capture_output=True, text=True).stdout
            self.assertEqual(found, "")

    def test_a_stopped_node_finds_that_it_was_recovered_and_joins_again(self) -> None:
        path = self.settings("echo $KEMTRUA_NODE $KEMTRUA_RECOVERING >> $FOLDER/begun; [ $KEMTRUA_RECOVERING = 1 ] || exec sleep 60")
        with self.hub().connect() as one:
            self.fire(one, requests_recovery=True)
            first = self.start("A", path)
            wait_until(lambda: os.path.exists(f"{self.folder}/begun"))
            self.start("B", path)
            wait_until(lambda: "B" in one.peers())
            first.send_signal(signal.SIGSTOP)
            wait_until(lambda: "1" in self.text("begun"))
            first.send_signal(signal.SIGCONT)
            wait_until(lambda: "member A 3" in one.listed())
            first.terminate()
            status, said = self.ended(first)
            self.assertEqual(status, 0, said)
            self.assertIn("was taken for failed", said)

    def test_a_name_that_is_taken(self) -> None:
        path = self.settings("true")
        with self.hub().connect() as one:
            one.ask("join", node="A")
            status, said = self.ended(self.start("A", path))
            self.assertEqual(status, 1)
            self.assertIn("another connection speaks for 'A'", said)

    def test_a_hub_that_comes_later(self) -> None:
        node = self.start("A", self.settings("true"))
        time.sleep(1.0)
        with self.hub().connect() as one:
            wait_until(lambda: one.peers() == ["A"])
        node.terminate()
        self.assertEqual(self.ended(node)[0], 0)

    def test_a_stop_while_no_hub_is_there(self) -> None:
        node = self.start("A", self.settings("true"))
        wait_until(lambda: node.stderr is not None and "no hub answers" in node.stderr.readline())
        node.terminate()
        self.assertEqual(self.ended(node)[0], 0)

    def test_what_runs_goes_on_while_the_hub_is_away(self) -> None:
        path = self.settings("echo > $FOLDER/begun; while [ ! -e $FOLDER/go ]; do sleep 0.1; done; cat > $FOLDER/ended")
        hub = self.hub()
        with hub.connect() as one:
            self.fire(one)
            node = self.start("A", path)
            wait_until(lambda: os.path.exists(f"{self.folder}/begun"))
        hub.process.kill()
        hub.process.wait()
        with open(f"{self.folder}/go", "w"):
            pass
        wait_until(lambda: os.path.exists(f"{self.folder}/ended"))
        with self.hub(make=False).connect() as one:
            wait_until(lambda: not [line for line in one.listed() if line.startswith(("fired", "trigger"))])
            self.assertIn("member A 1", one.listed())
        self.assertEqual(self.text("ended"), "the data")
        node.terminate()
        self.assertEqual(self.ended(node)[0], 0)


if __name__ == "__main__":
    unittest.main()
