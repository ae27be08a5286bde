"""What a node tells of its executions: kept until a hub has it, bounded, and believed for the node's own alone."""
import logging
import os
import resource
import tempfile
import threading
import time
import unittest
from unittest import mock

from kemtrua import Address, Code, Command, Connection, Context, Node, clock, spool
from kemtrua import reporting as reports_module
from kemtrua.errors import BadLine, HubRefused, Unreachable
from kemtrua.guard import Guard
from kemtrua.history.outputs import text_of
from kemtrua.history.reports import OUTPUT, Report
from kemtrua.jobs import Job, Retry
from kemtrua.record import Tail
from kemtrua.reporting import Reporting
from kemtrua.spool import Kept, Spool
from tests.helpers import HubProcess, WithFolder, job, now, once, wait_until


def setUpModule() -> None:
    logging.disable(logging.CRITICAL)


def tearDownModule() -> None:
    logging.disable(logging.NOTSET)


def report(entry: int = 1, **more: object) -> Report:
    given: dict[str, object] = {"generation": 1, "entry": entry, "epoch": 1, "trigger": "DEFAULT/t", "job": "DEFAULT/j", "klass": "ok", "scheduled": 1, "fired": 2,
                                "ended": 3, "refires": 0, "ok": 1, "code": "NOOP"}
    return Report.of({**given, **more})


class Hearing(Connection):
    """A hub that only keeps what it is told."""

    def __init__(self, path: str):
        self.address, self._why, self.heard = Address.parse(f"unix:{path}"), None, list[int]()

    def stored(self, do: str, **members: object) -> int:
        told = members["told"] if do == "report" else []
        assert isinstance(told, list)
        self.heard += [one["report"]["entry"] for one in told]
        return len(told)

    def close(self) -> None:
        self._why = Unreachable("it is gone")


class Again(unittest.TestCase):
    def test_another_hub_is_told_what_the_one_before_was_told_lately(self) -> None:
        first, second, third = Hearing("/a"), Hearing("/b"), Hearing("/b")
        hubs = [first, second, third]
        reporting = Reporting("A", lambda: hubs.pop(0), Spool(None), lambda: (), lambda: 1)
        for entry, hub in ((1, first), (2, second), (3, third)):
            reporting._spool.add(Kept(report(entry), 0, b"out"))
            if entry == 3:  # (too long ago for whoever would lead next)
                reporting._lately.appendleft((clock.uptime() - 2 * reports_module.TOLD_AGAIN, Kept(report(9), 0, b"")))
            reporting._tell()
            reporting._tell()
            hub.close()
        self.assertEqual((first.heard, sorted(second.heard), third.heard), ([1], [1, 2], [3]))  # (the same hub again knows it all)
        self.assertNotIn(9, [kept.report.entry for _, kept in reporting._lately])


class Outputs(unittest.TestCase):
    def test_the_end_is_kept(self) -> None:
        tail = Tail()
        tail.feed(b"a" * 10)
        self.assertEqual((tail.behind(0), tail.behind(4), tail.behind(10), tail.behind(99)), ((0, b"a" * 10), (4, b"a" * 6), (10, b""), (10, b"")))
        tail.feed(b"b" * OUTPUT)
        self.assertEqual(tail.behind(0), (10, b"b" * OUTPUT))

    def test_however_much_it_is(self) -> None:
        tail, piece = Tail(), bytes(range(256)) * 4096
        before = resource.getrusage(resource.RUSAGE_SELF).ru_maxrss
        for _ in range(512):
            tail.feed(piece)
        self.assertEqual(tail.behind(0), (512 * len(piece) - OUTPUT, piece[-OUTPUT:]))
        self.assertLess(resource.getrusage(resource.RUSAGE_SELF).ru_maxrss - before, 32 * 1024)


class Spools(unittest.TestCase):
    def setUp(self) -> None:
        self.folder = tempfile.mkdtemp()
        self.addCleanup(lambda: __import__("shutil").rmtree(self.folder))

    def test_it_outlives_its_node(self) -> None:
        Spool(self.folder).add(Kept(report(7, why="é\n"), 5, b"\x00out"))
        again = Spool(self.folder)
        self.assertEqual((again.keys(), again.get((1, 7))), ([(1, 7)], Kept(report(7, why="é\n"), 5, b"\x00out")))

    def test_only_what_was_stored_is_dropped(self) -> None:
        kept = Spool(self.folder)
        first, later = Kept(report(refires=0), 0, b""), Kept(report(refires=1, ended=9), 0, b"")
        kept.add(first)
        kept.add(later)
        kept.drop(first)
        self.assertEqual(kept.get((1, 1)), later)
        kept.drop(later)
        self.assertEqual(kept.keys(), [])

    def test_a_full_disk(self) -> None:
        kept, limits = Spool(self.folder), resource.getrlimit(resource.RLIMIT_FSIZE)
        kept.add(Kept(report(1), 0, b"on the disk"))
        resource.setrlimit(resource.RLIMIT_FSIZE, (100, limits[1]))  # (no file may be longer)
        try:
            for entry in range(2, spool.IN_MEMORY + 20):
                kept.add(Kept(report(entry), 0, b"x" * 1000))
        finally:
            resource.setrlimit(resource.RLIMIT_FSIZE, limits)
        self.assertEqual(os.listdir(self.folder), ["1-1.json"])
        self.assertEqual(len(kept.keys()), spool.IN_MEMORY + 1)
        last, first = kept.get((1, spool.IN_MEMORY + 19)), kept.get((1, 20))
        assert last is not None and first is not None
        self.assertEqual((last.output, first.output, first.begin), (b"x" * 1000, b"", 1000))
        kept.drop(last)
        self.assertEqual(len(kept.keys()), spool.IN_MEMORY)

    def test_what_is_too_old_or_too_much_is_given_up(self) -> None:
        kept = Spool(self.folder)
        for entry in range(1, 5):
            kept.add(Kept(report(entry), 0, b"x" * 1000))
        past = time.time() - 8 * 86400
        os.utime(f"{self.folder}/1-1.json", (past, past))
        os.utime(f"{self.folder}/1-2.json", (past + 7 * 86400, past + 7 * 86400))
        size = os.path.getsize(f"{self.folder}/1-3.json")
        with mock.patch.object(spool, "BYTES", 2 * size):
            self.assertEqual(Spool(self.folder).keys(), [(1, 3), (1, 4)])

    def test_files_that_are_none(self) -> None:
        for name, text in (("1-1.json", "{"), ("1-2.json", "[]"), ("1-3.json", '{"report":{"entry":3},"from":0,"output":""}'), ("1-4.json.new", "x"), ("note", "x")):
            with open(os.path.join(self.folder, name), "w", encoding="utf-8") as file:
                file.write(text)
        kept = Spool(self.folder)
        self.assertEqual(kept.keys(), [(1, 1), (1, 2), (1, 3)])
        self.assertEqual([kept.get(key) for key in kept.keys()], [None] * 3)
        self.assertEqual(os.listdir(self.folder), ["note"])

    def test_reports_that_are_none(self) -> None:
        for more in ({"entry": "1"}, {"entry": 2**70}, {"job": 5}, {"why": "x" * 5000}, {"more": 1}, {"ok": None}):
            with self.assertRaises(BadLine, msg=str(more)):
                report(**{"entry": 1, **more})  # type: ignore[arg-type]


class Nodes(WithFolder):
    def setUp(self) -> None:
        super().setUp()
        self.guard = Guard()
        self.addCleanup(self.guard.end)

    def node(self, hub: HubProcess, jobs: dict[str, Job], name: str = "A") -> tuple[Node, threading.Thread]:
        made = Node(name, lambda: Connection(hub.address), jobs, spool=os.path.join(self.folder, "spool"), check_in=1000)
        thread = threading.Thread(target=made.run, daemon=True)
        thread.start()
        self.addCleanup(thread.join, 30)
        self.addCleanup(made.stop)
        return made, thread

    def command(self, script: str, **more: object) -> Job:
        return Command(["/bin/sh", "-c", script], **more).job(self.guard, Retry(times=1))  # type: ignore[arg-type]

    def add(self, one: Connection, *classes: str) -> None:
        for klass in classes:
            one.ask("add_job", job=job(klass, klass, durable=True))
            one.ask("add_trigger", trigger=once(klass, klass))

    def test_how_executions_end(self) -> None:
        def raises(_: Context) -> Code:
            raise ValueError("no luck")

        hub = self.hub()
        with hub.connect() as one:
            self.add(one, "good", "bad", "killed", "slow", "again", "raises", "function", "nowhere")
            self.node(hub, {"good": self.command("echo fine"), "bad": self.command("seq 1 30000; exit 3"), "killed": self.command("kill -9 $$"),
                            "slow": self.command("sleep 60", timeout=1.0), "again": self.command("exit 75"), "raises": Job(raises), "function": Job(lambda _: None)})
            wait_until(lambda: len(one.rows("history")) == 8 and all(row["state"] in ("done", "failed") for row in one.rows("history")))
            found = {str(row["job"]).partition("/")[2]: row for row in one.rows("history")}
            self.assertEqual({name: row["state"] for name, row in found.items()},
                             {"good": "done", "function": "done", **dict.fromkeys(("bad", "killed", "slow", "again", "raises", "nowhere"), "failed")})
            self.assertEqual((found["bad"]["status"], found["killed"]["signal"], found["again"]["refires"], found["again"]["code"]), (3, 9, 1, "SET_TRIGGER_ERROR"))
            self.assertEqual((found["slow"]["why"], found["slow"]["most"], found["raises"]["why"]), ("it ran for 1 seconds", 1000, "ValueError: no luck"))
            self.assertIn("no job of the class 'nowhere'", str(found["nowhere"]["why"]))
            self.assertTrue(all(isinstance(found["bad"][name], int) for name in ("ms", "cpu", "peak")))
            text = "".join(f"{number}\n" for number in range(1, 30001)).encode()
            wait_until(lambda: one.rows("log", entry=found["bad"]["entry"])[0]["end"] == len(text))
            (log,) = one.rows("log", entry=found["bad"]["entry"])
            self.assertEqual((log["end"], log["from"], log["data"]), (len(text), len(text) - OUTPUT, text_of(text[-OUTPUT:])))
            wait_until(lambda: not os.listdir(os.path.join(self.folder, "spool")))
            wait_until(lambda: one.rows("loads"))
            self.assertEqual([(row["node"], row["workers"]) for row in one.rows("loads")], [("A", 10)])

    def test_output_while_it_runs(self) -> None:
        hub = self.hub()
        with hub.connect() as one, mock.patch("kemtrua.reporting.EACH", 0.2):
            self.add(one, "slow")
            self.node(hub, {"slow": self.command("echo begun; while [ ! -e go ]; do sleep 0.05; done; echo end", directory=self.folder, timeout=60.0)})
            wait_until(lambda: one.rows("log", entry=1) and one.rows("log", entry=1)[0]["data"] == text_of(b"begun\n"))
            row = one.rows("log", entry=1)[0]
            self.assertEqual((row["state"], row["most"]), ("runs", 60000))
            with open(os.path.join(self.folder, "go"), "w", encoding="utf-8"):
                pass
            wait_until(lambda: one.rows("log", entry=1)[0]["state"] == "done")
            self.assertEqual(one.rows("log", entry=1, **{"from": 6})[0]["data"], text_of(b"end\n"))

    def test_no_report_is_lost_with_its_hub(self) -> None:
        hub = self.hub()
        with hub.connect() as one:
            self.add(one, "slow")
            self.node(hub, {"slow": self.command("while [ ! -e go ]; do sleep 0.05; done; echo end; exit 5", directory=self.folder)})
            wait_until(lambda: one.rows("history"))
        hub.kill()
        with open(os.path.join(self.folder, "go"), "w", encoding="utf-8"):
            pass
        wait_until(lambda: os.listdir(os.path.join(self.folder, "spool")))
        with self.hub(make=False).connect() as one:
            wait_until(lambda: one.rows("history")[0]["state"] == "failed")
            self.assertEqual((one.rows("history")[0]["status"], one.rows("log", entry=1)[0]["data"]), (5, text_of(b"end\n")))
            wait_until(lambda: not os.listdir(os.path.join(self.folder, "spool")))


class Believed(WithFolder):
    def fired(self, one: Connection) -> None:
        one.ask("add_job", job=job())
        one.ask("add_trigger", trigger=once())
        one.ask("join", node="A")
        one.ask("acquire", node="A", no_later=now())
        one.ask("fire", node="A", entry=1)

    def test_a_node_tells_of_its_own_alone(self) -> None:
        with self.hub().connect() as one:
            self.fired(one)
            wait_until(lambda: one.rows("history"))
            told = [{"report": report(1).members()}, {"report": report(2).members()}]
            self.assertEqual(one.stored("report", node="B", told=told), 0)  # (the one is another node's, and the other was never given)
            self.assertEqual(one.stored("output", node="B", generation=1, entry=1, **{"from": 0}, data=text_of(b"x")), 0)
            self.assertEqual(one.rows("log", entry=1)[0]["end"], 0)
            one.ask("complete", node="A", entry=1)
            self.assertEqual(one.stored("report", node="A", told=[{"report": report(1).members(), "from": 0, "data": text_of(b"hello")}]), 1)
            self.assertEqual(one.rows("history")[0]["state"], "done")

    def test_pieces_of_output_in_any_order(self) -> None:
        with self.hub().connect() as one:
            self.fired(one)
            wait_until(lambda: one.rows("history"))

            def tell(begin: int, data: bytes) -> tuple[object, object, object]:
                one.stored("output", node="A", generation=1, entry=1, **{"from": begin}, data=text_of(data))
                (row,) = one.rows("log", entry=1)
                return row["from"], row["end"], row["data"]

            self.assertEqual(tell(0, b"abcd"), (0, 4, text_of(b"abcd")))
            self.assertEqual(tell(2, b"cdef"), (0, 6, text_of(b"abcdef")))
            self.assertEqual(tell(0, b"abcd"), (0, 6, text_of(b"abcdef")))
            self.assertEqual(tell(10, b"xy"), (10, 12, text_of(b"xy")))  # (what comes behind a gap takes the place of what stood before it)
            for number in range(4):
                found = tell(12 + number * 32768, bytes([number]) * 32768)
            self.assertEqual(found, (12 + 2 * 32768, 12 + 4 * 32768, text_of(b"\x02" * 32768 + b"\x03" * 32768)))
            with self.assertRaises(HubRefused):
                tell(0, b"x" * 32769)


if __name__ == "__main__":
    unittest.main()
