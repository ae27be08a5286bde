"""The commands that say what ran: for people, for scripts, and with what somebody put into names and outputs."""
import contextlib
import io
import json
import os
import pty
import subprocess
import sys
import unittest

from kemtrua import Connection, Key, Refused
from kemtrua.cli import client, screen
from kemtrua.history.outputs import text_of
from kemtrua.history.reports import Report
from tests.helpers import ENVIRONMENT, PROGRAM, WithFolder, job, now, once, wait_until

CLEAR, TURN = "\x1b[2J\x1b]0;owned\x07", "\u202e"


class Harmless(unittest.TestCase):
    def test_texts(self) -> None:
        for text, wanted in (("plain text", "plain text"), ("größe 日本", "größe 日本"), (CLEAR, "\\x1b[2J\\x1b]0;owned\\x07"), (f"a{TURN}b", "a\\u202eb"), ("a\nb\r", "a\\nb\\r"),
                             ("\x9b31m", "\\x9b31m"), ("\u200b\ufeff", "\\u200b\\ufeff"), ("\u2028", "\\u2028")):
            self.assertEqual(screen.harmless(text), wanted)
        self.assertEqual(screen.output(b"a\tb\r\nc\x1b[1m\rd\xff\n"), "a\tb\nc\\x1b[1m\\rd\\xff\n")

    def test_spans(self) -> None:
        self.assertEqual([screen.span(ms) for ms in (0, 1234, 59_999, 60_000, 3_725_000, 200_000_000, None)], ["0.0s", "1.2s", "60.0s", "1m00s", "1h02m", "2d7h", "-"])


class Commands(WithFolder):
    def setUp(self) -> None:
        super().setUp()
        self.running = self.hub()
        with self.running.connect() as one:
            one.ask("add_job", job=job("night", durable=True))
            one.ask("add_job", job=job(f"evil{CLEAR}", durable=True))
            one.ask("add_job", job=job("idle", durable=True))
            one.ask("add_trigger", trigger=once("night", "night"))
            one.ask("add_trigger", trigger=once("evil", f"evil{CLEAR}"))
            one.ask("add_trigger", trigger=once("due", "idle", start=now() - 100_000))
            one.ask("pause_trigger", name="due")
            one.ask("join", node="A")
            one.ask("acquire", node="A", no_later=now(), max=10)
            for entry, ok, why, data in ((1, 0, None, b"one\ntwo\n"), (2, 1, f"because{CLEAR}", CLEAR.encode() + b"\n")):
                one.ask("fire", node="A", entry=entry)
                wait_until(lambda: one.rows("log", entry=entry))
                report = Report(1, entry, 1, "", "", "ok", 1, 2, now(), 0, ok, "NOOP", status=1 - ok, ms=5, cpu=3, peak=9000, why=why)
                one.stored("report", node="A", told=[{"report": report.members(), "from": 0, "data": text_of(data)}])
                one.ask("complete", node="A", entry=entry)
            one.ask("resume_trigger", name="due")
            wait_until(lambda: all(row["ended"] for row in one.rows("history")))

    def fired(self, one: Connection) -> int:
        """The entry of a new execution of `night`."""
        with contextlib.suppress(Refused):
            one.resume("A", 1)
        one.pause_trigger(Key("DEFAULT", "due"))
        one.trigger_now(Key("DEFAULT", "night"))
        entry = one.acquire("A", now()).triggers[0].entry
        one.fire("A", entry)
        return entry

    def words(self, *words: str) -> list[str]:
        return ["--hub", self.running.listen, *words]

    def says(self, *words: str, status: int = 0) -> str:
        with contextlib.redirect_stdout(io.StringIO()) as out, contextlib.redirect_stderr(io.StringIO()) as said:
            self.assertEqual(client.main(self.words(*words)), status, said.getvalue())
        self.assertTrue(all(one.isprintable() or one == "\n" for one in out.getvalue() + said.getvalue()), out.getvalue())
        return out.getvalue() + said.getvalue()

    def jsons(self, *words: str) -> list[dict[str, object]]:
        found: list[dict[str, object]] = json.loads(self.says(*words, "--json"))
        return found

    def test_what_failed_last_night_and_why(self) -> None:
        lines = self.says("history", "--failed").splitlines()
        self.assertEqual(len(lines), 2)
        self.assertRegex(lines[1], r"^1 +night +failed +\d{4}-.* A +exit status 1$")
        self.assertEqual([row["entry"] for row in self.jsons("history")], [2, 1])
        self.assertEqual([row["entry"] for row in self.jsons("history", "--job", "night", "--node", "A", "--since", "2h")], [1])
        self.assertEqual(self.says("history", "--node", "B"), "nothing ran\n")
        self.assertEqual(self.jsons("history", "--until", "1h"), [])
        self.assertEqual(len(self.jsons("history", "--limit", "1")), 1)

    def test_its_log(self) -> None:
        said = self.says("log", "1")
        self.assertTrue(said.startswith("one\ntwo\n-- entry 1, night on A: failed, exit status 1, began "), said)
        self.assertEqual(self.jsons("log", "1")[0]["data"], text_of(b"one\ntwo\n"))
        self.assertIn("\\x1b[2J", self.says("log", "2"))
        self.assertIn("because\\x1b[2J", self.says("log", "2"))
        self.assertIn("no entry 99 is known", self.says("log", "99", status=1))
        self.assertIn("is no entry number", self.says("log", "x", status=1))
        raw = subprocess.run([sys.executable, "-m", "kemtrua.cli.client", *self.words("log", "2", "--raw")], env=ENVIRONMENT, capture_output=True, check=True)
        self.assertEqual(raw.stdout, CLEAR.encode() + b"\n")

    def test_follow(self) -> None:
        with self.running.connect() as one:
            entry = self.fired(one)
            wait_until(lambda: one.rows("log", entry=entry))
            one.stored("output", node="A", generation=1, entry=entry, **{"from": 0}, data=text_of(b"first\n"))
            command = subprocess.Popen([sys.executable, "-m", "kemtrua.cli.client", *self.words("log", str(entry), "--follow")], env=ENVIRONMENT,
                                       stdout=subprocess.PIPE, stderr=subprocess.PIPE, text=True)
            assert command.stdout is not None
            self.assertEqual(command.stdout.readline(), "first\n")
            one.stored("output", node="A", generation=1, entry=entry, **{"from": 6}, data=text_of(b"second\n"))
            one.complete("A", entry)
            out, said = command.communicate(timeout=30)
            self.assertEqual((out, command.returncode), ("second\n", 0))
            self.assertIn("ended, its node didn't tell how", said)

    def test_last(self) -> None:
        found = {row["job"]: row for row in self.jsons("last")}
        self.assertEqual({str(name): row["last"] and row["last"]["state"] for name, row in found.items()},  # type: ignore[index]
                         {"DEFAULT/night": "failed", "DEFAULT/evil%1B[2J%1B]0;owned%07": "done", "DEFAULT/idle": None})
        self.assertIn("due has been due since", str(found["DEFAULT/idle"]["notes"]))
        self.assertIn("never ran, as far as is known", self.says("last"))

    def test_nodes_and_lists(self) -> None:
        with self.running.connect() as one:
            one.load("A", 7, 1, -30)
            wait_until(lambda: one.rows("loads"))
        self.assertRegex(self.says("nodes"), r"A +1 +lives +.* +0 +7 +-30 ms")
        self.assertEqual([(row["node"], row["workers"], row["skew"]) for row in self.jsons("nodes")], [("A", 7, -30)])
        with self.running.connect() as one:
            one.ask("add_job", job=job("shown", f"class{CLEAR}", durable=True, data=CLEAR))
        self.assertIn("class\\x1b[2J", self.says("list", "jobs"))
        self.assertIn("\\x1b[2J", self.says("show", "job", "shown"))

    def test_audit(self) -> None:
        rows = self.jsons("audit")
        self.assertEqual((len(rows), rows[0]["reply"], json.loads(str(rows[0]["line"]))["do"]), (8, "ok", "resume_trigger"))
        self.assertIn("WHO", self.says("audit", "--by", str(rows[0]["who"]).removeprefix("user ")))
        self.assertEqual(self.says("audit", "--by", "nobody"), "nobody did anything\n")

    def test_long_lines_of_an_audit(self) -> None:
        with self.running.connect() as one:
            one.ask("add_job", job=job("long", data="x" * 3000, durable=True))
        wait_until(lambda: len(str(self.jsons("audit")[0]["line"])) > 3000)
        shown = self.says("audit")
        self.assertIn("more characters", shown)
        self.assertLess(max(map(len, shown.splitlines())), 300)

    def test_without_the_hub(self) -> None:
        self.running.ended()
        words = ["--folder", self.folder, "--program", PROGRAM]
        with contextlib.redirect_stdout(io.StringIO()) as out:
            for command in (["history"], ["last"], ["audit"], ["log", "1"], ["history", "--vacuum"]):
                self.assertEqual(client.main([*words, *command]), 0)
        self.assertIn("exit status 1", out.getvalue())
        self.assertRegex(out.getvalue(), r"the history had \d+ bytes and has \d+")

    def test_a_vacuum(self) -> None:
        self.assertRegex(self.says("history", "--vacuum"), r"^the history had \d+ bytes and has \d+$")
        self.assertEqual(len(self.jsons("history")), 2)

    def test_a_terminal_gets_colours_and_one_screen(self) -> None:
        with self.running.connect() as one:
            for _ in range(20):
                one.complete("A", self.fired(one))
            wait_until(lambda: len(one.rows("history")) == 22)
        shown = self.on_terminal("history")
        self.assertEqual((shown.count("ended"), shown.count("\x1b[33m")), (9, 9))
        self.assertIn("the latest 9; all of them with --all", shown)
        self.assertNotIn("\x1b[2J", self.on_terminal("history", "--all"))
        self.assertNotIn("\x1b", self.on_terminal("history", NO_COLOR="1"))

    def on_terminal(self, *words: str, **more: str) -> str:
        """What a terminal of 12 lines gets."""
        ours, theirs = pty.openpty()
        environment = {**ENVIRONMENT, "TERM": "xterm", "LINES": "12", "COLUMNS": "200", **more}
        process = subprocess.Popen([sys.executable, "-m", "kemtrua.cli.client", *self.words(*words)], env=environment, stdout=theirs)
        os.close(theirs)
        data = b""
        with contextlib.suppress(OSError):
            while more_data := os.read(ours, 65536):
                data += more_data
        os.close(ours)
        self.assertEqual(process.wait(30), 0)
        return data.decode()


if __name__ == "__main__":
    unittest.main()
