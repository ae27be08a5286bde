"""What the page in the browser reads: the history, the rows, what needs a look, and when triggers fire."""
from __future__ import annotations

import json
import os
import sqlite3
import sys
import threading
import unittest.mock
from typing import Any

from kemtrua.history.executions import Execution, put
from kemtrua.history.schema import opened
from kemtrua_web import definitions
from kemtrua_web.asking import Hub
from kemtrua_web.definitions import Definitions
from kemtrua_web.digest import BIN, Keeping, digest_of
from kemtrua_web.moments import DAY, HOUR, MINUTE, Clock
from kemtrua_web.plots import Axis, bar_of, durations_of, put_in_rows, strip_of
from kemtrua_web.queries import History, Wanted, usual_of
from kemtrua_web.rows import Rows, Store
from kemtrua_web.standing import Looking, Standing
from kemtrua_web.states import shown
from zoneinfo import ZoneInfo

from .helpers import WithFolder

BERLIN = ZoneInfo("Europe/Berlin")
PRESENT = 1_792_910_412_000  # Sunday, 2026-10-25, 07:40:12 in Berlin, some hours after the clock was turned back
TIMES = """#!{python}
import sys, json
for line in sys.stdin:
    found = json.loads(line)
    if found["do"] == "add_trigger":
        key = found["trigger"].get("group", "DEFAULT") + "/" + found["trigger"]["name"]
        print("times", key, *[int(sys.argv[2]) + 1000 * (place + 1) for place in range(int(sys.argv[3]))])
    else:
        print("ok")
"""


class Listed(Hub):
    """A hub that lists these lines."""

    def __init__(self, *lines: str):
        self.lines = list(lines)
        self.why = None

    def listed(self) -> list[str]:
        return self.lines


def job(name: str, more: str = "") -> str:
    return f"job g/{name} work durable 1 no_concurrent 0 requests_recovery 1{more}"


def trigger(name: str, state: str, next_: object) -> str:
    return f"trigger g/{name} job g/{name} {state} next {next_} prev none times 1 priority 5 start 0 cron"


class Facts(WithFolder):
    def setUp(self) -> None:
        super().setUp()
        self.connection = opened(self.folder)
        self.addCleanup(self.connection.close)
        self.connection.execute("INSERT INTO stores VALUES (1, 's', 1, 1, '', 0)")
        self.entry = 0

    def put(self, name: str, before: int, took: int | None, state: str = "done", **more: Any) -> int:
        """An execution that fired so long before the present."""
        self.entry += 1
        fired = PRESENT - before
        it = Execution(1, self.entry, f"g/{name}", more.pop("node", "north"), f"g/{name}", "work", 1, fired - 5, fired, None if took is None else fired + took, state=state,
                       code=None if took is None else "NOOP")
        for key, value in more.items():
            setattr(it, key, value)
        put(self.connection, [it])
        return self.entry

    def standing(self, *lines: str) -> Standing:
        rows = Rows(Listed(*lines))
        self.addCleanup(rows.close)
        rows.look()
        with History(self.folder) as history, Store(rows) as store:
            return Looking(history, store if lines else None, Clock(BERLIN, PRESENT), PRESENT - DAY).look()


class Looks(Facts):
    def test_a_job_whose_last_execution_failed_needs_a_look(self) -> None:
        self.put("a", 5 * HOUR, 1000, "failed", status=3)
        self.put("b", 5 * HOUR, 1000, "failed", status=1)
        self.put("b", 4 * HOUR, 1000)
        found = self.standing()
        self.assertEqual([(it.job, it.what) for it in found.open], [("g/a", "Failed: exit status 3")])
        self.assertEqual([(it.job, it.what) for it in found.settled], [("g/b", "Failed: exit status 1; done 03:40")])

    def test_a_lost_execution_is_settled_once_another_makes_up_for_it(self) -> None:
        lost = self.put("a", 5 * HOUR, 1000, "lost", node="west")
        self.assertEqual([it.state for it in self.standing().open], ["lost"])
        self.put("a", 4 * HOUR, None, "runs", recovers=lost, trigger="RECOVERING_JOBS/recover_west_1")
        found = self.standing()
        self.assertEqual(([it.state for it in found.open], [it.state for it in found.settled]), ([], ["lost"]))

    def test_an_execution_that_takes_far_longer_than_usual_is_long(self) -> None:
        for place in range(5):
            self.put("a", (place + 2) * DAY, 2 * MINUTE)
        entry = self.put("a", 150 * MINUTE, None, "runs", most=4 * HOUR)
        self.put("new", 150 * MINUTE, None, "runs")  # (with nothing to compare it is none)
        (found,) = self.standing().open
        self.assertEqual((found.state, found.run and found.run.entry, found.what), ("long", entry, "Executing for 2 h 30 min; usually 2 min"))
        self.assertIn("Its limit of 4 h ends it at 09:10.", found.more)

    def test_what_is_a_little_longer_is_not_long(self) -> None:
        for place in range(5):
            self.put("a", (place + 2) * DAY, 10_000)
        self.put("a", 60_000, None, "runs")
        self.assertEqual(self.standing().open, [])

    def test_triggers_tell_what_did_not_fire(self) -> None:
        self.put("e", 5 * HOUR, 1000, "failed", status=127, code="SET_TRIGGER_ERROR")
        found = self.standing(job("e"), trigger("e", "ERROR", PRESENT - HOUR), job("p"), trigger("p", "PAUSED", PRESENT - HOUR), job("q"), trigger("q", "PAUSED", PRESENT + HOUR),
                              job("w"), trigger("w", "WAITING", PRESENT - 10 * MINUTE), job("x"), trigger("x", "WAITING", PRESENT - 30_000))
        self.assertEqual([(it.state, it.job) for it in found.open], [("error", "g/e"), ("late", "g/w")])  # (and not failed as well)
        self.assertEqual([(it.state, it.job) for it in found.asked], [("paused", "g/p")])
        self.assertEqual(sum(it.passed for it in found.open + found.asked), 2)

    def test_a_job_that_is_not_stored_any_more_needs_no_look(self) -> None:
        self.put("gone", 5 * HOUR, 1000, "failed", status=3)
        self.assertEqual(self.standing(job("other")).open, [])

    def test_troubles_of_one_cause_are_gathered(self) -> None:
        for place in range(9):
            self.put(f"job{place}", HOUR, 1000, "failed", status=75)
        self.put("other", HOUR, 1000, "failed", status=1)
        gathered, left = self.standing().gathered()
        self.assertEqual(([count for _, count in gathered], [it.job for it in left]), ([9], ["g/other"]))


class Reads(Facts):
    def test_pages_of_a_list_are_the_list(self) -> None:
        for place in range(7):
            self.put("a", place * MINUTE, 1000, "failed" if place % 3 == 0 else "done")
        with History(self.folder) as history:
            every = [run.entry for run in history.listed(Wanted(limit=50))]
            first = history.listed(Wanted(limit=3))
            last = first[-1]
            second = history.listed(Wanted(limit=50, before=(last.fired or 0, last.generation, last.entry)))
            self.assertEqual([run.entry for run in first + second], every)
            self.assertEqual(history.count(Wanted(result="failed"), 100), 3)
            self.assertEqual(history.count(Wanted(), 5), 5)
            self.assertEqual(history.listed(Wanted(job="g/b")), [])
            done = history.listed(Wanted(result="done", limit=2))
            more = history.listed(Wanted(result="done", before=(done[1].fired or 0, 1, done[1].entry)))
            self.assertEqual([run.entry for run in done + more], [2, 3, 5, 6])
            self.assertEqual((history.count(Wanted(result="done"), 100), history.count(Wanted(result="ended"), 100)), (4, 0))

    def test_the_usual_is_of_what_is_done(self) -> None:
        for place, took in enumerate((100, 200, 300)):
            self.put("a", place * HOUR, took)
        self.put("a", 9 * HOUR, 99_999, "failed")
        self.put("few", HOUR, 5)
        with History(self.folder) as history:
            usual = usual_of(history.recent("g/a"))
            assert usual is not None
            self.assertEqual((usual.middle, usual.low, usual.high), (200, 120, 280))
            self.assertIsNone(usual_of(history.recent("g/few")))
            self.assertEqual(strip_of(history.recent("g/a"), PRESENT).marks, ["failed", "done", "done", "done"])
            self.assertEqual(strip_of(history.recent("g/a"), PRESENT).say, "last 4: 3 done, 1 failed")
            plot = durations_of(history.recent("g/a"), usual, Clock(BERLIN, PRESENT))
            assert plot is not None
            self.assertEqual([bool(column["over"]) for column in plot["columns"]], [True, False, False, False])

    def test_counts_of_a_span(self) -> None:
        self.put("a", 2 * HOUR, 1000)
        self.put("a", HOUR, 1000, "failed")
        self.put("b", HOUR, None, "runs")
        self.put("b", 2 * DAY, 1000)
        found = digest_of(self.folder, PRESENT - DAY, PRESENT + 1)
        self.assertEqual({name: count for name, count in found.counts.items() if count}, {"done": 1, "failed": 1, "runs": 1})
        self.assertEqual([(it.job, it.count, it.bad, it.open) for it in found.jobs], [("g/a", 2, 1, 0), ("g/b", 1, 0, 1)])
        self.assertEqual(found.bins[(PRESENT - HOUR) // BIN * BIN], (2, 1))

    def test_a_run_and_those_beside_it(self) -> None:
        first, second, third = (self.put("a", (3 - place) * HOUR, 10) for place in range(3))
        with History(self.folder) as history:
            run = history.run(second)
            assert run is not None
            before, after = history.beside(run)
            self.assertEqual((before and before.entry, after and after.entry), (first, third))
            self.assertEqual(shown(run, None, PRESENT), "done")
            self.assertIsNone(history.run(99))
            self.assertIsNone(history.run(second, 7))

    def test_the_database_is_only_read(self) -> None:
        with History(self.folder) as history, self.assertRaises(sqlite3.OperationalError):
            history.connection.execute("DELETE FROM executions")


class RowsOf(Facts):
    def test_what_changed_is_put(self) -> None:
        hub = Listed(job("a"), trigger("a", "WAITING", 50), job("b"), "member north 4", "state north last 10 interval 1000", "paused g")
        rows = Rows(hub)
        self.addCleanup(rows.close)
        rows.look()
        with Store(rows) as store:
            self.assertEqual((store.count("jobs"), store.count("triggers"), store.count_others("paused")), (2, 1, 1))
            self.assertEqual([(row["node"], row["epoch"], row["last"]) for row in store.nodes()], [("north", 4, 10)])
            (row,) = store.next_to_fire(0, 5)
            self.assertEqual((row["key"], row["next"]), ("g/a", 50))
        hub.lines = [job("a"), trigger("a", "PAUSED", 50), "member north 4", "state north last 20 interval 1000", "fired 9 north 4 g/a EXECUTING scheduled 1 at 2"]
        rows.forget_age()
        rows.look()
        with Store(rows) as store:
            self.assertEqual((store.count("jobs"), store.paused_jobs(), store.next_to_fire(0, 5), store.count_others("paused")), (1, ["g/a"], [], 0))
            self.assertEqual([(row["last"], row["executes"]) for row in store.nodes()], [(20, 1)])

    def test_jobs_are_found_by_a_part_of_their_name(self) -> None:
        rows = Rows(Listed(job("Backup-A"), job("backup-b"), job("other"), "job h/x work durable 1 no_concurrent 0 requests_recovery 0"))
        self.addCleanup(rows.close)
        rows.look()
        with Store(rows) as store:
            self.assertEqual([row["key"] for row in store.find("BACKUP", "", None, "", 9)], ["g/Backup-A", "g/backup-b"])
            self.assertEqual([row["key"] for row in store.find("", "", None, "g/backup-b", 9)], ["g/other", "h/x"])
            self.assertEqual([row["key"] for row in store.find("", "h", None, "", 9)], ["h/x"])
            self.assertEqual([row["key"] for row in store.find("", "", ["g/other"], "", 9)], ["g/other"])
            self.assertEqual((store.count_found("%", "", None), store.count_found("'", "", None), store.count_found("", "", [])), (0, 0, 0))

    def test_a_hub_that_is_away_leaves_the_rows_as_they_were(self) -> None:
        from kemtrua.errors import Unreachable
        hub = Listed(job("a"))
        rows = Rows(hub)
        self.addCleanup(rows.close)
        rows.look()

        def away() -> list[str]:
            raise Unreachable("away")

        hub.listed = away  # type: ignore[method-assign]
        rows.forget_age()
        rows.look()
        with Store(rows) as store:
            self.assertEqual(store.count("jobs"), 1)


class DefinitionsOf(Facts):
    def setUp(self) -> None:
        super().setUp()
        patient = unittest.mock.patch.object(definitions, "TIMES_WITHIN", 3600.0)  # (beside proofs a process may take long to begin)
        patient.start()
        self.addCleanup(patient.stop)

    def audit(self, line: dict[str, object], reply: str = "ok") -> None:
        self.connection.execute("INSERT INTO audit (at, who, line, reply) VALUES (0, 'user root', ?, ?)", (json.dumps(line), reply))

    def program(self) -> str:
        path = os.path.join(self.folder, "times")
        with open(path, "w") as file:
            file.write(TIMES.format(python=sys.executable))
        os.chmod(path, 0o755)
        return path

    def test_the_program_says_when_triggers_fire(self) -> None:
        self.audit({"do": "add_trigger", "trigger": {"name": "t", "group": "g", "job": "j", "kind": "cron", "cron": "0 0 2 * * ?"}}, "ok next 5")
        self.audit({"do": "add_trigger", "trigger": {"name": "refused", "group": "g", "job": "j", "kind": "cron", "cron": "0 0 3 * * ?"}}, "refused 2")
        self.audit({"do": "add_zone", "name": "Z", "stretches": [[0, 3600]]})
        known = Definitions(self.folder, self.program())
        known.learn()
        self.assertEqual(known.times(["g/t", "g/refused", "g/unknown"], 5000, 3), {"g/t": [6000, 7000, 8000]})
        self.audit({"do": "delete_trigger", "name": "t", "group": "g"})
        known.learn()
        self.assertEqual(known.times(["g/t"], 5000, 3), {})

    def test_lines_that_were_cut_are_passed_over(self) -> None:
        self.connection.execute("""INSERT INTO audit (at, who, line, reply) VALUES (0, NULL, '{"do":"add_trigger","trig', 'ok')""")
        self.audit({"do": "add_trigger", "trigger": {"name": "t", "group": "g"}})
        known = Definitions(self.folder, self.program())
        known.learn()
        self.assertIsNotNone(known.trigger("g/t"))

    def test_a_program_that_is_not_there(self) -> None:
        self.audit({"do": "add_trigger", "trigger": {"name": "t", "group": "g"}})
        known = Definitions(self.folder, os.path.join(self.folder, "nothing"))
        known.learn()
        self.assertEqual(known.times(["g/t"], 0, 1), {})
        self.assertIn("can't be asked", known.why or "")


class Plots(Facts):
    def test_a_day_of_a_turn_has_an_hour_more(self) -> None:
        clock = Clock(BERLIN, PRESENT)
        axis = Axis(clock.last_night(), PRESENT, clock)
        (turn,) = axis.turns()
        self.assertEqual(turn["say"], "02:00 to 03:00 comes twice")
        self.assertAlmostEqual(turn["w"], 100 * 2 * HOUR / (PRESENT - clock.last_night()), places=2)
        labels = [mark["label"] for mark in axis.hours(1)]
        self.assertEqual((labels.count("02:00"), labels.count("03:00"), labels[6]), (2, 1, "Sun 25"))

    def test_bars_that_meet_have_rows_of_their_own(self) -> None:
        clock = Clock(BERLIN, PRESENT)
        axis = Axis(PRESENT - DAY, PRESENT, clock)
        self.put("a", 10 * HOUR, 2 * HOUR)
        self.put("a", 9 * HOUR, HOUR)
        self.put("a", 5 * HOUR, HOUR)
        with History(self.folder) as history:
            bars = [bar_of(run, axis, None) for run in reversed(history.recent("g/a"))]
        self.assertEqual((put_in_rows(bars, False), [bar.row for bar in bars]), (2, [0, 1, 0]))


class Keeps(Facts):
    def test_what_takes_long_is_served_as_it_was_and_made_again_beside(self) -> None:
        kept: Keeping[int] = Keeping()
        made, lets = [0], threading.Event()

        def make() -> int:
            made[0] += 1
            if made[0] > 1:
                lets.wait()
            return made[0]

        kept._kept["x"] = (0, float("-inf"), 1.0)  # (it took a second, long ago)
        self.assertEqual(kept.get("x", make), 0)
        lets.set()


if __name__ == "__main__":
    unittest.main()
