"""What is expected of jobs, and who is alerted of what: bounded, tried again, and in nobody's way."""
import json
import logging
import os
import tempfile
import time
import unittest
from unittest import mock
from zoneinfo import ZoneInfo

from kemtrua import clock
from kemtrua.checking import Line
from kemtrua.errors import BadSettings
from kemtrua.history import alerts, expecting
from kemtrua.history.expecting import Expecting, deadlines
from kemtrua.history.questions import Object, Questions
from kemtrua.history.recorder import Recorder
from kemtrua.history.reports import Report
from kemtrua.history.settings import Alert, Expectation, HistorySettings, read_hub
from tests.helpers import PROGRAM, WithFolder, job, now, wait_until

DAY, HOUR = 86_400_000, 3_600_000
JANUARY = 1_767_225_600_000  # 2026-01-01T00:00:00Z, a Thursday
BERLIN = "Europe/Berlin"


def setUpModule() -> None:
    logging.disable(logging.CRITICAL)


def tearDownModule() -> None:
    logging.disable(logging.NOTSET)


def settings(text: str) -> HistorySettings:
    with tempfile.NamedTemporaryFile("w", suffix=".toml") as file:
        file.write(text)
        file.flush()
        return read_hub(file.name)


class Settings(unittest.TestCase):
    def test_all_of_them(self) -> None:
        found = settings('format = 1\n[history]\ndays = 30\ngigabytes = 0.5\n[expect.backup]\nby = "06:00"\nzone = "Europe/Berlin"\ndays = ["MON", "FRI"]\n'
                         '[expect."g/x y"]\nwithin = 7200\n[on.failure]\ncommand = ["/bin/true", "x"]\nevery = 300\nretries = 2\ntimeout = 5\n')
        self.assertEqual((found.days, found.bytes), (30, 2**29))
        self.assertEqual([(one.job, one.by and one.by.hour, one.days, one.within) for one in found.expects],
                         [("DEFAULT/backup", 6, frozenset({0, 4}), None), ("g/x%20y", None, frozenset(range(7)), 7200)])
        self.assertEqual(found.alerts, {"failure": Alert("failure", ("/bin/true", "x"), 300, 5, 2)})

    def test_what_is_wrong(self) -> None:
        for text, said in (("format = 9", "format = 9"), ("x = 1", "there is no such setting"), ("[on.fire]\ncommand = ['x']", "there is no such setting"),
                           ("[on.lost]\ncommand = []", "command is missing"), ("[on.lost]\ncommand = ['x']\nevery = 0", "every = 0"), ("[expect.j]", "write by"),
                           ("[expect.j]\nby = '6:00'\nzone = 'UTC'", "by = '6:00'"), ("[expect.j]\nby = '06:00'", "wants a zone"),
                           ("[expect.j]\nby = '06:00'\nzone = 'Europe/Nowhere'", "no such zone"), ("[expect.j]\nby = '06:00'\nzone = 'UTC'\ndays = ['Monday']", "days has"),
                           ("[history]\ndays = -1", "days = -1"), ("[expect.j]\nwithin = -1", "within = -1"), ("on = 1", "allowed is a table"), ("[history]\ngigabytes = inf", "finite"), ("= 1", "Invalid")):
            with self.assertRaisesRegex(BadSettings, said, msg=text):
                settings(text)


class Deadlines(unittest.TestCase):
    def ends(self, by: str, begin: int, end: int, days: frozenset[int] = frozenset(range(7)), zone: str = BERLIN) -> list[int]:
        given = Expectation("DEFAULT/j", __import__("datetime").time.fromisoformat(by), ZoneInfo(zone), days, None)
        return [last for _, last in deadlines(given, begin, end)]

    def test_by_local_time(self) -> None:
        self.assertEqual(self.ends("06:00", JANUARY, JANUARY + 2 * DAY), [JANUARY + 5 * HOUR, JANUARY + DAY + 5 * HOUR])
        summer = JANUARY + 180 * DAY
        self.assertEqual(self.ends("06:00", summer, summer + DAY), [summer + 4 * HOUR])
        self.assertEqual(self.ends("00:30", JANUARY, JANUARY + DAY), [JANUARY + DAY - HOUR // 2])
        self.assertEqual(self.ends("06:00", JANUARY + 5 * HOUR, JANUARY + DAY), [])  # (the one at which it begins was judged before)

    def test_on_days_of_the_week(self) -> None:
        self.assertEqual(self.ends("06:00", JANUARY, JANUARY + 7 * DAY, frozenset({0})), [JANUARY + 4 * DAY + 5 * HOUR])

    def test_after_a_long_time_only_the_last_days(self) -> None:
        self.assertEqual(len(self.ends("06:00", JANUARY, JANUARY + 100 * DAY)), 7)


class WithRecorder(WithFolder):
    def setUp(self) -> None:
        super().setUp()
        with self.store() as store:
            store.ask("add_job", job=job())
        self.recorder = Recorder(self.folder, PROGRAM, HistorySettings(), 1)
        self.recorder.opened(self.folder, 1)
        self.addCleanup(self.recorder.end)
        self.entry = self.transactions = 0

    def answered(self, line: Line, reply: str, epoch: int | None) -> None:
        self.transactions += 1
        self.recorder.tell((1, self.transactions, clock.now(), json.dumps(line).encode(), reply, epoch))

    def execution(self, fired: int, ended: int | None, ok: bool = True, output: bytes = b"") -> int:
        """An execution of DEFAULT/j, as the store and its node tell of it."""
        self.entry += 1
        for line, reply in (({"do": "acquire", "node": "A", "no_later": fired}, f"acquired {self.entry} DEFAULT/t {fired}"),
                            ({"do": "fire", "node": "A", "entry": self.entry}, f"fired {self.entry} scheduled {fired} at {fired} next {fired}")):
            self.answered(line, reply, 1)
        report = Report(1, self.entry, 1, "DEFAULT/t", "DEFAULT/j", "ok", fired, fired, ended or 0, 0, int(ok), "NOOP", status=int(not ok))
        if ended is not None:
            with mock.patch("kemtrua.clock.now", return_value=ended):
                self.answered({"do": "complete", "node": "A", "entry": self.entry}, f"completed {self.entry}", 1)
            self.recorder.report("A", report)
            if output:
                self.recorder.piece("A", (1, self.entry), 0, output, None)
        return self.entry

    def trigger(self) -> None:
        self.answered({"do": "add_trigger", "trigger": {"name": "t", "job": "j"}}, "ok next 0", None)

    def settle(self) -> None:
        self.recorder.do(lambda it: None).result(20)

    def events(self, kind: str) -> list[Object]:
        self.settle()
        with Questions(self.folder) as asked:
            return asked.events((kind,), 0)


class Expects(WithRecorder):
    def look(self, expecting_: Expecting, present: int) -> None:
        with mock.patch("kemtrua.clock.now", return_value=present), mock.patch.object(expecting, "LOOK_AGAIN", 0.0):
            expecting_.look()
        self.settle()

    def test_by_a_time(self) -> None:
        self.trigger()
        given = Expecting(self.recorder, settings('[expect.j]\nby = "06:00"\nzone = "Europe/Berlin"\n').expects)
        by = JANUARY + 5 * HOUR
        self.look(given, by - 10 * HOUR)  # (from here on it is judged)
        self.execution(by - HOUR, by - 1000)
        self.look(given, by + 10_000)
        self.assertEqual(self.events("expect"), [])
        self.execution(by + DAY - HOUR, by + DAY + 1)  # (too late)
        self.execution(by + DAY - HOUR, by + DAY - 1000, ok=False)  # (and this one failed)
        self.look(given, by + DAY + 10_000)
        self.look(given, by + DAY + 20_000)
        (event,) = self.events("expect")
        self.assertEqual((event["at"], event["job"]), (by + DAY, "DEFAULT/j"))

    def test_within_a_span(self) -> None:
        self.trigger()
        given = Expecting(self.recorder, settings("[expect.j]\nwithin = 60\n").expects)
        present = now()
        self.execution(present - 200_000, present - 141_000)
        late, runs = self.execution(present - 200_000, present - 100_000), self.execution(present - 50_000, None)
        self.look(given, present)
        self.assertEqual([event["entry"] for event in self.events("expect")], [late])
        self.look(given, present + 20_000)
        self.look(given, present + 40_000)
        self.assertEqual(sorted(int(str(event["entry"])) for event in self.events("expect")), [late, runs])


class Told(WithRecorder):
    def told(self) -> list[dict[str, str]]:
        path = os.path.join(self.folder, "told")
        if not os.path.exists(path):
            return []
        with open(path, encoding="utf-8") as file:
            return [json.loads(line) for line in file]

    def alert(self, script: str = "", **more: float) -> alerts.Alerts:
        code = (f"import json,os,sys; f=open({os.path.join(self.folder, 'told')!r},'a'); "
                "f.write(json.dumps(dict({k:v for k,v in os.environ.items() if k.startswith('KEMTRUA_')}, given=sys.stdin.read()))+chr(10)); f.close(); " + script)
        made = alerts.Alerts(self.recorder, {"failure": Alert("failure", (__import__("sys").executable, "-c", code), **more)})  # type: ignore[arg-type]
        made.start()
        self.addCleanup(made.end)
        return made

    def test_the_facts(self) -> None:
        self.trigger()
        entry = self.execution(now() - 5000, now(), ok=False, output=b"it broke\n")
        self.alert()
        wait_until(self.told)
        (told,) = self.told()
        self.assertEqual({name: told[f"KEMTRUA_{name}"] for name in ("EVENT", "COUNT", "JOB", "JOB_GROUP", "NODE", "ENTRY", "STATE", "STATUS", "TEXT")},
                         {"EVENT": "failure", "COUNT": "1", "JOB": "j", "JOB_GROUP": "DEFAULT", "NODE": "A", "ENTRY": str(entry), "STATE": "failed", "STATUS": "1",
                          "TEXT": "exit status 1"})
        self.assertEqual(told["given"], "it broke\n")

    def test_a_storm(self) -> None:
        self.trigger()
        self.alert(every=2.0)
        begun = time.monotonic()
        for _ in range(10_000):
            self.execution(now() - 5000, now(), ok=False)
        self.settle()
        wait_until(lambda: sum(int(told["KEMTRUA_COUNT"]) for told in self.told()) == 10_000)
        self.assertLessEqual(len(self.told()), 2 + (time.monotonic() - begun) / 2.0)

    def test_one_that_fails_is_tried_again(self) -> None:
        self.trigger()
        self.execution(now() - 5000, now(), ok=False)
        with mock.patch.object(alerts, "FIRST_REST", 0.1):
            self.alert("sys.exit(len(open(f.name).readlines()) < 3)", every=1.0)
            wait_until(lambda: len(self.told()) == 3)
            time.sleep(1.0)
        self.assertEqual(len(self.told()), 3)

    def test_one_that_always_fails_is_given_up(self) -> None:
        self.trigger()
        self.execution(now() - 5000, now(), ok=False)
        with mock.patch.object(alerts, "FIRST_REST", 0.05):
            self.alert("sys.exit(1)", every=1.0, retries=2)
            wait_until(lambda: len(self.told()) == 3)
            time.sleep(1.5)
            self.assertEqual(len(self.told()), 3)
            self.execution(now() - 5000, now(), ok=False)
            wait_until(lambda: len(self.told()) > 3)

    def test_one_that_hangs(self) -> None:
        self.trigger()
        self.execution(now() - 5000, now(), ok=False)
        with mock.patch.object(alerts, "FIRST_REST", 0.1):
            self.alert("import time; time.sleep(0 if len(open(f.name).readlines()) > 1 else 99)", timeout=5.0)
            wait_until(lambda: len(self.told()) == 2)

    def test_news_of_yesterday_is_told_to_nobody(self) -> None:
        self.trigger()
        self.execution(now() - DAY, now() - DAY + 5000, ok=False)
        self.alert()
        self.settle()
        time.sleep(2.0)
        self.assertEqual((len(self.events("failure")), self.told()), (1, []))


if __name__ == "__main__":
    unittest.main()
