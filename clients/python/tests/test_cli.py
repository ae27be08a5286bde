"""The command `kemtrua`, over a store of one's own."""
import contextlib
import io
import json
import os
import time
import unittest

from kemtrua import Store
from kemtrua.cli import client
from tests.helpers import IS_STAND_IN, PROGRAM, WithFolder, now, once


class Client(WithFolder):
    def setUp(self) -> None:
        super().setUp()
        self.store().close()

    def call(self, *words: str, status: int = 0) -> str:
        """What a call prints, on either output."""
        said = io.StringIO()
        with contextlib.redirect_stdout(said), contextlib.redirect_stderr(said):
            ended = client.main(["--folder", self.folder, "--program", PROGRAM, *words])
        self.assertEqual(ended, status, said.getvalue())
        return said.getvalue()

    def file(self, name: str, text: str) -> str:
        path = f"{self.folder}/{name}"
        with open(path, "w") as file:
            file.write(text)
        return path

    def test_a_trigger_from_its_adding_to_its_end(self) -> None:
        self.assertEqual(self.call("add-job", "backup", "command", "--data", "x y", "--durable", "--recover"), "ok\n")
        self.assertIn("ok, next 2030-", self.call("add-trigger", "g/nightly", "backup", "--at", "2030-01-01T02:00"))
        self.assertIn("refused 8: a trigger of that key is stored; use another key, or --replace", self.call("add-trigger", "g/nightly", "backup", "--at", "now", status=1))
        shown = self.call("show", "job", "backup")
        self.assertIn("class              command", shown)
        self.assertIn("data               x y", shown)
        self.assertIn("2030-", self.call("show", "next"))
        self.call("pause", "trigger", "g/nightly")
        self.assertRegex(self.call("list", "triggers"), r"g/nightly +backup +PAUSED +2030-01-01 02:00:00 \S+ +- +0 +simple")
        self.assertIn("ok, as trigger MANUAL_TRIGGERS/now_", self.call("now", "backup"))
        self.call("delete", "trigger", "g/nightly")
        self.assertIn("no such trigger", self.call("show", "trigger", "g/nightly", status=1))
        self.assertIn("job DEFAULT/backup command durable 1", self.call("list", "--raw"))

    def test_files(self) -> None:
        document = self.file("team.json", '{"jobs":[{"name":"j","class":"c"}],"triggers":[{"name":"t","job":"j","kind":"simple","start":4000000000000}]}')
        self.assertIn("document of 2 lines, all right", self.call("check", document))
        self.assertIn("2 lines were done, 0 were refused", self.call("add", document))
        self.assertIn("0 lines were done, 2 were refused", self.call("add", document, status=1))
        self.assertIn("2 lines were done, 0 were refused", self.call("add", "--replace", document))

    def test_bad_files(self) -> None:
        for name, text, said in (
            ("a", '{"do":"fire","node":"A"}\n\n{"do":"join","node":5}\n{"do"', ["line 1: entry: it is missing", "line 3: node: 5 is no text", "line 4: not JSON"]),
            ("b", '{"triggers":[{"name":"poll","job":"j","start":0,"kind":"simple","count":2}]}', ["triggers[0] ('poll').interval: with the count 2"]),
            ("c", '{"jobs":\n[{"name":"j"}]}', ["jobs[0] ('j').class: it is missing"]), ("d", "{", ["not JSON"]), ("e", "[]", ["no object"]),
        ):
            path = self.file(name, text)
            found = self.call("check", path, status=1)
            for word in said:
                self.assertIn(word, found)
            self.assertIn("nothing was added", self.call("add", path, status=1))
        self.assertIn("can't be read", self.call("check", "/nowhere", status=1))

    def test_words_that_cannot_be(self) -> None:
        for words, said in ((["add-trigger", "t", "j", "--cron", "0 2 * * *"], "put the seconds first"), (["add-trigger", "t", "j", "--every", "5"], "no span"),
                            (["add-trigger", "t", "j", "--at", "soon"], "no moment"), (["show", "entry", "x"], "no entry number"), (["show", "next", "x"], "show next"),
                            (["add-zone", "Nowhere"], "no zone"), (["now", "nobody"], "refused 3")):
            self.assertIn(said, self.call(*words, status=1))

    @unittest.skipIf(IS_STAND_IN, "the stand-in has no zones")
    def test_a_zone_of_this_machine(self) -> None:
        self.call("add-zone", "Europe/Berlin")
        self.call("add-job", "j", "c")
        self.assertIn("ok, next", self.call("add-trigger", "t", "j", "--cron", "0 0 2 * * ?", "--zone", "Europe/Berlin"))
        self.assertIn("zone Europe%2FBerlin", self.call("list"))

    def test_rows_as_json(self) -> None:
        self.call("add-job", "g/backup", "command", "--data", "x y", "--durable")
        self.call("add-trigger", "nightly", "g/backup", "--at", "4000000000000")
        (job,) = json.loads(self.call("list", "jobs", "--json"))
        self.assertEqual((job["row"], job["name"], job["group"], job["class"], job["durable"]), ("job", "backup", "g", "command", True))
        (trigger,) = json.loads(self.call("list", "triggers", "--json"))
        self.assertEqual((trigger["name"], trigger["group"], trigger["job"], trigger["job_group"], trigger["next"], trigger["prev"]),
                         ("nightly", "DEFAULT", "backup", "g", 4000000000000, None))
        self.assertEqual(json.loads(self.call("nodes", "--json")), [])
        self.assertEqual({it["row"] for it in json.loads(self.call("list", "--json"))}, {"job", "trigger", "threshold"})
        (shown,) = json.loads(self.call("show", "job", "g/backup", "--json"))
        self.assertEqual(shown["data"], "x y")
        self.assertEqual(json.loads(self.call("show", "trigger", "none", "--json", status=1)), [])
        self.assertEqual(json.loads(self.call("show", "next", "--json")), [{"row": "next", "next": 4000000000000}])

    def test_groups_of_jobs(self) -> None:
        self.call("add-job", "g/backup", "command")
        self.call("add-trigger", "nightly", "g/backup", "--at", "4000000000000")
        self.call("pause", "job-group", "g")
        self.assertIn("PAUSED", self.call("list", "triggers"))
        self.call("resume", "job-group", "g")
        self.assertIn("WAITING", self.call("list", "triggers"))

    def test_calendars(self) -> None:
        for words in (["weekends", "weekly", "SAT", "sun"], ["ends", "monthly", "1", "31"], ["feasts", "annual", "12-25", "1-1"], ["days", "holiday", "2026-12-25"],
                      ["office", "daily", "08:00", "18:00:30", "--inverted"]):
            self.assertEqual(self.call("add-calendar", *words), "ok\n", words)
        self.assertIn("refused 9", self.call("add-calendar", "weekends", "weekly", status=1))
        self.call("add-calendar", "weekends", "weekly", "--replace")
        for words, said in ((["x", "weekly", "someday"], "days of the week"), (["x", "daily", "8"], "two times of day"), (["x", "monthly", "32"], "31"),
                            (["x", "annual", "1"], "is no day"), (["x", "cron", "a", "b"], "one cron text"), (["x", "weekly", "--inverted"], "daily")):
            self.assertIn(said, self.call("add-calendar", *words, status=1), words)

    def test_thresholds_and_resets(self) -> None:
        self.assertEqual(self.call("threshold", "5m"), "ok\n")
        self.assertIn("threshold 300000", self.call("list"))
        self.call("add-job", "j", "c", "--durable")
        self.call("add-trigger", "t", "j", "--at", "now", "--misfire", "-1")
        self.assertIn("refused 29", self.call("reset", "t", status=1))
        with Store(self.folder, PROGRAM) as store:
            store.join("A", 1000)
            entry = store.acquire("A", now()).triggers[0].entry
            store.fire("A", entry)
            store.add_trigger(once("u", start=4000000000000))
            store.complete("A", entry, "SET_ALL_JOB_TRIGGERS_ERROR")
        self.assertIn("ERROR", self.call("list", "triggers"))
        self.assertEqual(self.call("reset", "u"), "ok\n")
        self.assertRegex(self.call("list", "triggers"), r"u +j +WAITING")

    def test_nodes_that_are_gone(self) -> None:
        with Store(self.folder, PROGRAM) as store:
            store.join("A", 1)
        time.sleep(0.1)
        self.assertIn("refused 21", self.call("recover", "A", status=1))
        time.sleep(8)
        self.assertRegex(self.call("nodes"), r"A +1 +late")
        self.assertIn("0 executions were lost", self.call("recover", "A"))
        self.assertEqual(self.call("forget", "A"), "ok\n")
        self.assertNotIn("A ", self.call("nodes"))

    def test_help(self) -> None:
        for words in (["--help"], ["add-trigger", "--help"], ["--version"]):
            with self.assertRaises(SystemExit) as raised, contextlib.redirect_stdout(io.StringIO()):
                client.main(words)
            self.assertEqual(raised.exception.code, 0)

    def test_a_hub_that_is_not_there(self) -> None:
        said = io.StringIO()
        with contextlib.redirect_stderr(said):
            self.assertEqual(client.main(["--hub", f"unix:{self.folder}/none", "list"]), 1)
        self.assertIn("no hub answers", said.getvalue())
        self.assertFalse(os.path.exists(f"{self.folder}/none"))


if __name__ == "__main__":
    unittest.main()
