"""Tables of a job store in CSV, and the document that is made of them. The rows are as Quartz 2.3.2 writes them."""
import base64
import contextlib
import csv
import io
import json
import os
import tempfile
import tomllib
import unittest
from collections.abc import Mapping

from kemtrua.cli import client
from kemtrua.from_quartz.postgres import without_password
from kemtrua.from_quartz.table_forms import TABLES

DAY = 86400000
T0 = 1893456000000  # 2030-01-01T00:00:00Z, a Tuesday
Rows = Mapping[str, list[dict[str, object]]]

with open(os.path.join(os.path.dirname(__file__), "quartz_blobs.txt")) as file:
    BLOBS = {name: "\\x" + base64.b64decode(text).hex() for name, text in map(str.split, file)}


def job(name: str = "j", **more: object) -> dict[str, object]:
    return {"JOB_NAME": name, "JOB_GROUP": "DEFAULT", "JOB_CLASS_NAME": "com.acme.Report", "IS_DURABLE": "t", "IS_NONCONCURRENT": "f", "IS_UPDATE_DATA": "f",
            "REQUESTS_RECOVERY": "f", **more}


def trigger(type_: str, name: str = "t", **more: object) -> dict[str, object]:
    return {"TRIGGER_NAME": name, "TRIGGER_GROUP": "DEFAULT", "JOB_NAME": "j", "JOB_GROUP": "DEFAULT", "TRIGGER_STATE": "WAITING", "TRIGGER_TYPE": type_, "PRIORITY": 5,
            "START_TIME": T0, "NEXT_FIRE_TIME": T0, "END_TIME": 0, "MISFIRE_INSTR": 0, **more}


def part(name: str = "t", **values: object) -> dict[str, object]:
    return {"TRIGGER_NAME": name, "TRIGGER_GROUP": "DEFAULT", **values}


def simple(interval: int, count: int, **more: object) -> Rows:
    return {"TRIGGERS": [trigger("SIMPLE", **more)], "SIMPLE_TRIGGERS": [part(REPEAT_INTERVAL=interval, REPEAT_COUNT=count, TIMES_TRIGGERED=0)]}


def interval(unit: str, preserves: str, skips: str, zone: str = "America/New_York", **more: object) -> Rows:
    return {"TRIGGERS": [trigger("CAL_INT", **more)],
            "SIMPROP_TRIGGERS": [part(STR_PROP_1=unit, STR_PROP_2=zone, INT_PROP_1=1, BOOL_PROP_1=preserves, BOOL_PROP_2=skips)]}


class WithTables(unittest.TestCase):
    def setUp(self) -> None:
        made = tempfile.TemporaryDirectory(prefix="kemtrua-")
        self.addCleanup(made.cleanup)
        self.folder, self.said = made.name, ""

    def put(self, rows: Rows, scheduler: str = "one") -> None:
        os.makedirs(f"{self.folder}/csv", exist_ok=True)
        for table, columns in TABLES.items():
            with open(f"{self.folder}/csv/qrtz_{table.lower()}.csv", "w", newline="") as file:
                out = csv.DictWriter(file, [name.lower() for name in columns])
                out.writeheader()
                out.writerows({**{key.lower(): value for key, value in row.items()}, "sched_name": row.get("SCHED_NAME", scheduler)} for row in rows.get(table, []))

    def call(self, *words: str, status: int = 0) -> str:
        said = io.StringIO()
        with contextlib.redirect_stdout(said), contextlib.redirect_stderr(said):
            ended = client.main(["from-quartz", "tables", "--csv", f"{self.folder}/csv", "--into", f"{self.folder}/out", "--overwrite", *words])
        self.assertEqual(ended, status, said.getvalue())
        return said.getvalue()

    def document(self, rows: Rows, *words: str, status: int = 0) -> dict[str, list[dict[str, object]]]:
        self.put({"JOB_DETAILS": [job()], **rows})
        self.said = self.call("--zone", "Europe/Berlin", *words, status=status)
        with open(f"{self.folder}/out/quartz.json") as file:
            found: dict[str, list[dict[str, object]]] = json.load(file)
        return found

    def trigger(self, rows: Rows) -> dict[str, object]:
        return self.document(rows)["triggers"][0]

    def report(self) -> str:
        with open(f"{self.folder}/out/quartz-report.txt") as file:
            return file.read()


class Triggers(WithTables):
    def test_a_simple_one_goes_on_with_what_is_left_of_its_count(self) -> None:
        self.assertEqual(self.trigger(simple(DAY, 9, NEXT_FIRE_TIME=T0 + 4 * DAY)),
                         {"name": "t", "job": "j", "start": T0 + 4 * DAY, "kind": "simple", "interval": DAY, "count": 5})
        self.assertEqual(self.trigger(simple(DAY, 4, NEXT_FIRE_TIME=T0 + 4 * DAY)), {"name": "t", "job": "j", "start": T0 + 4 * DAY, "kind": "simple"})
        self.assertEqual(self.trigger(simple(DAY, -1, NEXT_FIRE_TIME=T0 + DAY))["count"], -1)
        self.assertEqual(self.trigger(simple(DAY, 9, NEXT_FIRE_TIME=T0 + DAY + 5))["start"], T0 + 2 * DAY)
        self.assertIn("kemtrua now DEFAULT/j", self.report().partition("Wanted")[2])

    def test_ends(self) -> None:
        self.assertEqual(self.trigger(simple(DAY, -1, END_TIME=T0))["end"], T0 + 1)  # (Quartz fires it once)
        self.assertEqual(self.trigger(simple(DAY, -1, END_TIME=T0 + DAY))["end"], T0 + DAY)
        self.assertNotIn("end", self.trigger(simple(DAY, -1)))

    def test_an_instruction_that_fires_after_the_end_in_quartz_alone(self) -> None:
        for rows, is_told in ((simple(0, 0, END_TIME=T0 + DAY), True), (simple(0, 0, END_TIME=T0 + DAY, MISFIRE_INSTR=5), False), (simple(DAY, -1, END_TIME=T0 + DAY), False),
                              (interval("DAY", "f", "f", END_TIME=T0 + DAY), True), (interval("DAY", "f", "f", END_TIME=T0 + DAY, MISFIRE_INSTR=2), False),
                              (interval("DAY", "f", "f"), False)):
            self.trigger(rows)
            self.assertEqual("missed until after its end" in self.report(), is_told)

    def test_the_four_flags_of_an_interval(self) -> None:
        for preserves, skips, wanted in (("f", "f", False), ("f", "t", False), ("t", "f", False), ("t", "t", None)):
            found = self.trigger(interval("DAY", preserves, skips))
            self.assertEqual((found.get("preserveHourOfDay"), found.get("skipDayIfHourDoesNotExist")), (None, wanted))
        self.assertEqual(self.trigger(interval("HOUR", "f", "f")), {"name": "t", "job": "j", "start": T0, "kind": "interval", "unit": "HOUR", "every": 1})

    def test_a_misfire_that_was_not_fired_yet_moves_no_schedule(self) -> None:
        # Quartz sets NEXT_FIRE_TIME to the moment at which it handles a misfire, and goes on from START_TIME after that
        missed = T0 + 40 * DAY + 12345678
        for unit, wanted in (("HOUR", T0 + 40 * DAY + 4 * 3600000), ("DAY", T0 + 41 * DAY), ("WEEK", T0 + 42 * DAY), ("MONTH", T0 + 59 * DAY), ("YEAR", T0 + 365 * DAY)):
            self.assertEqual(self.trigger(interval(unit, "f", "f", "UTC", NEXT_FIRE_TIME=missed))["start"], wanted, unit)
            self.assertIn(f"its next fire time, {missed}, is none of its schedule", self.report())
        for unit, on_time in (("HOUR", T0 + 3600000), ("DAY", T0 + DAY), ("WEEK", T0 + 7 * DAY), ("MONTH", T0 + 31 * DAY), ("YEAR", T0 + 365 * DAY)):
            self.assertEqual(self.trigger(interval(unit, "f", "f", "UTC", NEXT_FIRE_TIME=on_time))["start"], on_time, unit)
            self.assertNotIn("none of its schedule", self.report())

    def test_a_changed_clock_and_a_short_month_are_no_misfires(self) -> None:
        # each day at 02:30 in New York, an hour early since 10 March 2030; each month from the 31st, on the 28th since February
        for start, next_, unit in ((1896334200000, 1899437400000, "DAY"), (1896102000000, 1900936800000, "MONTH")):
            self.assertEqual(self.trigger(interval(unit, "f", "f", START_TIME=start, NEXT_FIRE_TIME=next_))["start"], next_)
            self.assertNotIn("none of its schedule", self.report())

    def test_what_an_interval_does_otherwise(self) -> None:
        # 02:30 in New York: left out on 10 March 2030
        self.trigger(interval("DAY", "f", "f", START_TIME=T0 + 27000000, NEXT_FIRE_TIME=T0 + 27000000))
        self.assertIn("its local time, 02:30:00, may be left out, as on 2030-03-10", self.report())
        self.trigger(interval("DAY", "f", "f", START_TIME=T0 + 36000000, NEXT_FIRE_TIME=T0 + 36000000))
        self.assertNotIn("may be left out", self.report())
        self.trigger(interval("MONTH", "f", "f", START_TIME=T0 + 29 * DAY + 36000000, NEXT_FIRE_TIME=T0 + 29 * DAY + 36000000))
        self.assertIn("it goes on from 2030-01-30", self.report())

    def test_a_daily_one_has_the_jvms_zone(self) -> None:
        rows: Rows = {"TRIGGERS": [trigger("DAILY_I", END_TIME=T0 + DAY)],
                      "SIMPROP_TRIGGERS": [part(STR_PROP_1="MINUTE", STR_PROP_2="2,3,4,5,6", STR_PROP_3="8,0,0,17,30,15", INT_PROP_1=72, LONG_PROP_1=-1)]}
        self.assertEqual(self.trigger(rows), {"name": "t", "job": "j", "start": T0, "kind": "daily", "unit": "MINUTE", "every": 72, "zone": "Europe/Berlin",
                                              "from": "08:00:00", "to": "17:30:15", "days": [2, 3, 4, 5, 6], "end": T0 + DAY + 1})
        self.call(status=1)  # (without --zone)
        rows["SIMPROP_TRIGGERS"][0]["LONG_PROP_1"] = 7
        self.assertNotIn("triggers", self.document(rows, status=1))
        self.assertIn("fires 8 times and no more", self.report())

    def test_crons(self) -> None:
        rows: Rows = {"TRIGGERS": [trigger("CRON", name) for name in "abc"],
                      "CRON_TRIGGERS": [part("a", CRON_EXPRESSION="0 0 12 ? * MON-FRI/2", TIME_ZONE_ID="UTC"), part("b", CRON_EXPRESSION="0 0 12 29W * ?", TIME_ZONE_ID="GMT+01:00"),
                                        part("c", CRON_EXPRESSION="0 0 12 15W,20 * ?", TIME_ZONE_ID="UTC")]}
        found = self.document(rows, status=1)
        self.assertEqual([(row["cron"], row.get("zone")) for row in found["triggers"]], [("0 0 12 ? * MON-FRI", None), ("0 0 12 29W * ?", "GMT+01:00")])
        self.assertEqual(found["zones"], [{"name": "GMT+01:00", "stretches": [[0, 3600]]}])
        self.assertIn("DEFAULT/c", self.report().partition("\nLoaded, and fires")[0])

    def test_what_is_left_out(self) -> None:
        rows: Rows = {"TRIGGERS": [trigger("BLOB", "blob"), trigger("OWN", "own"), trigger("SIMPLE", "done", TRIGGER_STATE="COMPLETE"), trigger("SIMPLE", "never", NEXT_FIRE_TIME=-1),
                                   trigger("SIMPLE", "recover", TRIGGER_GROUP="RECOVERING_JOBS"), trigger("SIMPLE", "ü" * 101), trigger("SIMPLE", "free", CALENDAR_NAME="none"),
                                   trigger("CRON", "zone"), trigger("SIMPLE", "long", JOB_NAME="big")],
                      "JOB_DETAILS": [job(), job("big", JOB_DATA="\\x" + ("k=" + "x" * 4096).encode().hex())],
                      "CRON_TRIGGERS": [part("zone", CRON_EXPRESSION="0 0 12 * * ?", TIME_ZONE_ID="Mars/Olympus")]}
        names = [str(row["TRIGGER_NAME"]) for row in rows["TRIGGERS"] if row["TRIGGER_TYPE"] == "SIMPLE"]
        parts = [part(name, REPEAT_INTERVAL=0, REPEAT_COUNT=0, TIMES_TRIGGERED=0) for name in names]
        parts[2]["TRIGGER_GROUP"] = "RECOVERING_JOBS"
        found = self.document({**rows, "SIMPLE_TRIGGERS": parts}, status=1)
        self.assertEqual((list(found), len(found["jobs"])), (["jobs"], 1))
        told = self.report()
        for words in ("blob (", "a Java object (BLOB)", "its type OWN", "it is COMPLETE", "no next fire time", "the scheduler's own", "202 bytes", "its calendar 'none'",
                      "'Mars/Olympus'", "job DEFAULT/big", "data: it has 4104 bytes", "its job DEFAULT/big is left out"):
            self.assertIn(words, told)
        self.assertIn("left out: 10", self.said)

    def test_an_instruction_that_is_none_of_its_kind(self) -> None:
        self.assertNotIn("triggers", self.document(interval("DAY", "f", "f", MISFIRE_INSTR=4), status=1))
        self.assertIn("misfire: 4 is out of range", self.report())
        self.assertEqual(self.trigger(simple(DAY, -1, MISFIRE_INSTR=-1))["misfire"], -1)


class Others(WithTables):
    def test_jobs(self) -> None:
        rows: Rows = {"JOB_DETAILS": [job(JOB_DATA=BLOBS["data"], IS_NONCONCURRENT="1", IS_UPDATE_DATA="true", REQUESTS_RECOVERY="Y", DESCRIPTION="what it is"),
                                      job("p", JOB_GROUP="g", IS_DURABLE="0", JOB_DATA="0x" + b"to=a\n".hex()), job("broken", JOB_DATA="\\xACED0005")]}
        found = self.document(rows, status=1)["jobs"]
        self.assertEqual(json.loads(str(found[0].pop("data"))), {"to": "Grüße \U0001F600", "n": 42, "c": "x", "list": ["a", 1, False], "set": ["a", "b"], "map": {"k": 3}})
        self.assertEqual(found, [{"name": "j", "class": "com.acme.Report", "durable": True, "no_concurrent": True, "requests_recovery": True},
                                 {"name": "p", "group": "g", "class": "com.acme.Report", "data": '{"to":"a"}'}])
        for words in ("'when'", "java.util.Date", "its description", "@PersistJobDataAfterExecution", "job DEFAULT/broken", "cut off", "isn't durable"):
            self.assertIn(words, self.report())

    def test_a_stub_of_settings(self) -> None:
        self.document({"JOB_DETAILS": [job(JOB_DATA=BLOBS["data"]), job("k", JOB_CLASS_NAME='com.acme.Odd"$Job')]})
        with open(f"{self.folder}/out/quartz-node.toml", "rb") as file:
            found = tomllib.load(file)
        self.assertEqual({name: table["command"] for name, table in found["class"].items()},
                         {"com.acme.Report": ["/usr/local/lib/kemtrua/jobs/com.acme.Report"], 'com.acme.Odd"$Job': ["/usr/local/lib/kemtrua/jobs/com.acme.Odd_$Job"]})

    def test_calendars(self) -> None:
        found = self.document({"CALENDARS": [{"CALENDAR_NAME": "h", "CALENDAR": BLOBS["holiday"]}, {"CALENDAR_NAME": "d", "CALENDAR": BLOBS["daily"]},
                                             {"CALENDAR_NAME": "own", "CALENDAR": BLOBS["data"]}]}, status=1)
        self.assertEqual(found["calendars"], [
            {"name": "h (base)", "zone": "Europe/Berlin", "kind": "annual", "days": [[1, 1], [12, 25]]},
            {"name": "h", "base": "h (base)", "zone": "Europe/Berlin", "kind": "holiday", "dates": ["2031-05-01"]},
            {"name": "d", "zone": "Europe/Berlin", "kind": "daily", "from": 34200250, "to": 61200000}])
        self.assertIn("calendar 'own'", self.report())

    def test_what_is_paused(self) -> None:
        parts = [part(name, REPEAT_INTERVAL=0, REPEAT_COUNT=0, TIMES_TRIGGERED=0) for name in "tuv"]
        rows: Rows = {"TRIGGERS": [trigger("SIMPLE", "t", TRIGGER_STATE="PAUSED_BLOCKED"), trigger("SIMPLE", "u"), trigger("SIMPLE", "v", TRIGGER_STATE="ERROR")],
                      "SIMPLE_TRIGGERS": parts, "PAUSED_TRIGGER_GRPS": [{"TRIGGER_GROUP": "g"}]}
        self.document(rows)
        with open(f"{self.folder}/out/quartz-pauses.jsonl") as file:
            self.assertEqual([json.loads(line) for line in file], [{"do": "pause_group", "group": "g"}, {"do": "pause_trigger", "name": "t"}, {"do": "pause_trigger", "name": "v"}])
        self.document({**rows, "PAUSED_TRIGGER_GRPS": [{"TRIGGER_GROUP": "_$_ALL_GROUPS_PAUSED_$_"}]})
        with open(f"{self.folder}/out/quartz-pauses.jsonl") as file:
            self.assertEqual([json.loads(line) for line in file], [{"do": "pause_group", "group": "DEFAULT"}])

    def test_several_schedulers(self) -> None:
        self.put({"JOB_DETAILS": [job(), job("k", SCHED_NAME="two")]})
        self.assertIn("one, two: say which one by --scheduler", self.call(status=1))
        self.assertIn("'three' is none of them", self.call("--scheduler", "three", status=1))
        self.assertIn("1 jobs", self.call("--scheduler", "two"))


class Wrong(WithTables):
    def file(self, table: str, text: str) -> None:
        self.put({"JOB_DETAILS": [job()]})
        with open(f"{self.folder}/csv/qrtz_{table.lower()}.csv", "w") as file:
            file.write(text)

    def test_tables_of_other_versions(self) -> None:
        for table, columns, words in (
            ("JOB_DETAILS", "job_name,job_group,description,job_class_name,is_durable,is_volatile,is_stateful,requests_recovery,job_data", "IS_STATEFUL: the tables are of Quartz 1.x"),
            ("CALENDARS", "calendar_name,calendar", "no column SCHED_NAME: the tables are of Quartz 1.x"),
            ("SIMPROP_TRIGGERS", ",".join([*TABLES["SIMPROP_TRIGGERS"], "TIME_ZONE_ID"]), "of Quartz.NET"),
            ("CALENDARS", "sched_name,calendar_name", "no column CALENDAR"), ("CALENDARS", "sched_name,calendar_name,calendar,colour", "COLOUR, which is none"), ("CALENDARS", "", "it is empty"),
        ):
            self.file(table, columns + "\n" if columns else "")
            self.assertIn(words, self.call(status=1))

    def test_rows_that_are_none(self) -> None:
        for changed, words in (({"IS_DURABLE": "maybe"}, "qrtz_job_details.csv: line 2: IS_DURABLE: 'maybe'"), ({"JOB_NAME": ""}, "line 2: JOB_NAME: it is empty"),
                               ({"JOB_DATA": "xyz"}, "line 2: JOB_DATA: it isn't in hexadecimal")):
            self.put({"JOB_DETAILS": [{**job(), **changed}]})
            self.assertIn(words, self.call(status=1))
        for changed, words in (({"TRIGGER_STATE": "ODD"}, "line 2: TRIGGER_STATE: 'ODD'"), ({"START_TIME": "soon"}, "line 2: START_TIME: 'soon' is no whole number")):
            self.put({"JOB_DETAILS": [job()], **simple(DAY, -1, **changed)})
            self.assertIn(words, self.call(status=1))
        self.put({"JOB_DETAILS": [job()], "TRIGGERS": [trigger("CRON")]})
        self.assertIn("CRON_TRIGGERS has no row of the trigger DEFAULT/t", self.call(status=1))
        self.file("CALENDARS", "sched_name,calendar_name,calendar\none,c\n")
        self.assertIn("line 2: it has 2 values, and there are 3 columns", self.call(status=1))

    def test_files_that_are_not_there(self) -> None:
        self.put({})
        os.remove(f"{self.folder}/csv/qrtz_triggers.csv")
        self.assertIn("there is no QRTZ_TRIGGERS.csv", self.call(status=1))
        self.put({})
        self.assertIn("the tables are empty", self.call(status=1))

    def test_nothing_is_overwritten(self) -> None:
        self.put({"JOB_DETAILS": [job()]})
        self.call()
        said = io.StringIO()
        with contextlib.redirect_stderr(said):
            self.assertEqual(client.main(["from-quartz", "tables", "--csv", f"{self.folder}/csv", "--into", f"{self.folder}/out"]), 1)
        self.assertIn("it is there already", said.getvalue())

    def test_a_password_is_not_shown(self) -> None:
        self.assertEqual(without_password("postgresql://u:p%40x@h:5432/d?sslmode=require"), ("postgresql://u@h:5432/d?sslmode=require", {"PGPASSWORD": "p@x"}))
        self.assertEqual(without_password("postgresql://u@h/d"), ("postgresql://u@h/d", {}))
        self.assertEqual(without_password("dbname=d"), ("dbname=d", {}))

    def test_no_psql_and_a_bad_prefix(self) -> None:
        for words, said in ((["--psql", "/nowhere/psql"], "postgresql-client"), (["--prefix", "x; drop table y"], "no beginning of a table's name")):
            with contextlib.redirect_stderr(io.StringIO()) as told:
                self.assertEqual(client.main(["from-quartz", "tables", "--postgres", "postgresql://h/d", "--into", f"{self.folder}/out", *words]), 1)
            self.assertIn(said, told.getvalue())


if __name__ == "__main__":
    unittest.main()
