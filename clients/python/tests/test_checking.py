"""Lines, documents, cron texts and zones are looked at before they are sent."""
import json
import unittest

from kemtrua import checking, cron, zones
from kemtrua.errors import BadLine, BadSettings

TRIGGER = {"name": "t", "job": "j", "start": 0, "kind": "simple"}


def wrong(line: object) -> list[str]:
    return [str(problem) for problem in checking.problems_of(line)]


def trigger(**more: object) -> dict[str, object]:
    return {"do": "add_trigger", "trigger": {**TRIGGER, **more}}


def calendar(**more: object) -> dict[str, object]:
    return {"do": "add_calendar", "calendar": {"name": "c", **more}}


class Lines(unittest.TestCase):
    def test_right_ones(self) -> None:
        for line in (
            {"do": "add_job", "job": {"name": "j", "class": "ok", "data": "", "durable": True}, "replace": True, "at": -5},
            trigger(), trigger(interval=1, count=-1, misfire=5, end=5, priority=-(2**31)),
            trigger(kind="cron", cron="0 0 12 ? * MON-FRI", zone="CET", misfire=2),
            trigger(kind="interval", unit="YEAR", every=1), trigger(kind="daily", unit="HOUR", every=24, days=[1, 1, 7], **{"from": "00:00:00", "to": "00:00:00"}),
            calendar(kind="annual", days=[[12, 25], [4, 31]]), calendar(kind="holiday", dates=["2024-02-29"], base="b"), calendar(kind="weekly"),
            calendar(kind="weekly", days=[]), calendar(kind="monthly", days=[31]), calendar(kind="daily", **{"from": 5, "to": 5}, inverted=True),
            calendar(kind="cron", cron="* * * * * ?"),
            {"do": "add_zone", "name": "z", "stretches": [[0, 0], [172800000, -64800]]},
            {"do": "add_zone", "name": "z", "rule": "CET-1CEST,M3.5.0,M10.5.0/3"},
            {"do": "add_zone", "name": "z", "rule": "<+0330>-3:30"},
            {"do": "join", "node": "A", "interval": 86400000}, {"do": "acquire", "node": "A", "no_later": 2**53, "max": 64},
            {"do": "complete", "node": "A", "entry": 2**64 - 1, "code": "DELETE_TRIGGER"}, {"do": "restart"}, {"do": "show_next"},
            {"do": "show_job", "name": "j", "group": "g"}, {"do": "resume", "node": "A", "epoch": 1}, {"do": "threshold", "ms": 1},
        ):
            self.assertEqual(wrong(line), [], line)

    def test_wrong_ones_say_where_and_what_is_allowed(self) -> None:
        for line, place, word in (
            ([], "", "object"), ({}, "do", "missing"), ({"do": "firr"}, "do", "show_next"), ({"do": "fire", "node": "A"}, "entry", "missing"),
            ({"do": "fire", "node": "A", "entry": 1, "code": "NOOP"}, "code", "no such member"), ({"do": "show_next", "at": 1}, "at", "no such member"),
            ({"do": "fire", "node": "A", "entry": True}, "entry", "whole"), ({"do": "fire", "node": "A", "entry": -1}, "entry", "18446744073709551615"),
            ({"do": "join", "node": "x" * 121}, "node", "120"), ({"do": "join", "node": "é" * 61}, "node", "122 bytes"), ({"do": "join", "node": ""}, "node", "0 bytes"),
            ({"do": "join", "node": "A", "interval": 0}, "interval", "86400000"), ({"do": "acquire", "node": "A", "no_later": 0, "max": 65}, "max", "64"),
            ({"do": "complete", "node": "A", "entry": 1, "code": "DONE"}, "code", "RE_EXECUTE_JOB"),
            ({"do": "add_job", "job": {"name": "j", "class": None}}, "job.class", "null"), ({"do": "add_job", "job": {"name": "j", "class": "c", "data": "x" * 4097}}, "job.data", "4096"),
            ({"do": "add_job", "job": {"name": "j", "class": "c", "durable": 1}}, "job.durable", "true nor false"), ({"do": "add_job", "job": 5}, "job", "no object"),
            (trigger(start=1.0), "trigger.start", "point"), (trigger(count=3), "trigger.interval", "count 3"), (trigger(kind="often"), "trigger.kind", "daily"),
            (trigger(misfire=6), "trigger.misfire", "5"), (trigger(kind="cron", cron="0 0 12 ? * MON", misfire=3), "trigger.misfire", "2"),
            (trigger(kind="cron", cron="x"), "trigger.cron", "bad cron 1"), (trigger(kind="cron"), "trigger.cron", "missing"), (trigger(zone="Z"), "trigger.zone", "no such member"),
            (trigger(kind="daily", unit="HOUR", every=25), "trigger.every", "24 hours"), (trigger(kind="daily", unit="DAY", every=1), "trigger.unit", "HOUR"),
            (trigger(kind="daily", unit="HOUR", every=1, days=[]), "trigger.days", "1 to 7"), (trigger(kind="daily", unit="HOUR", every=1, days=[8]), "trigger.days[0]", "7"),
            (trigger(kind="daily", unit="HOUR", every=1, **{"from": "24:00:00"}), "trigger.from", "23:59:59"),
            (trigger(kind="daily", unit="HOUR", every=1, **{"from": "09:00:00", "to": "08:00:00"}), "trigger.to", "before"),
            (calendar(kind="holiday", dates=["2023-02-29"]), "calendar.dates[0]", "real date"), (calendar(kind="annual", days=[[13, 1]]), "calendar.days[0]", "month"),
            (calendar(kind="daily", **{"from": 6, "to": 5}), "calendar.to", "before"), (calendar(), "calendar.kind", "missing"),
            ({"do": "add_zone", "name": "z", "stretches": []}, "stretches", "512"), ({"do": "add_zone", "name": "z", "stretches": [[0, 0], [172799999, 0]]}, "stretches[1]", "48 hours"),
            ({"do": "add_zone", "name": "z", "stretches": [[0, 64801]]}, "stretches[0]", "64800"),
            ({"do": "add_zone", "name": "z"}, "rule", "either"), ({"do": "add_zone", "name": "z", "rule": "EST5", "stretches": [[0, 0]]}, "rule", "either"),
            ({"do": "add_zone", "name": "z", "rule": "Europe/Berlin"}, "rule", "POSIX"), ({"do": "add_zone", "name": "z", "rule": 5}, "rule", "POSIX"),
        ):
            found = wrong(line)
            self.assertEqual(len(found), 1, (line, found))
            self.assertTrue(found[0].startswith(f"{place}: " if place else ""), (place, found))
            self.assertIn(word, found[0])

    def test_json(self) -> None:
        for data, word in ((b"{", "not JSON"), (b'{"a":1e999}', "too great"), (b'{"a":NaN}', "NaN"), (b'"\xff"', "UTF-8"), (b'"\\ud800"', "surrogate"),
                           (b"[" * 128 + b"]" * 128, "127"), (b"[" * 100000, "127"), (b'{"a":1} x', "not JSON"), ("\ufeff{}".encode(), "not JSON")):
            with self.assertRaises(BadLine) as raised:
                checking.value_of(data)
            self.assertIn(word, str(raised.exception))
        self.assertEqual(checking.value_of(b'{"a":1,"a":2}'), {"a": 2})
        for number in (b"-0", b"1.0", b"1e3"):
            with self.assertRaises(BadLine):
                checking.read_line(b'{"do":"fire","node":"A","entry":' + number + b"}")

    def test_what_is_sent(self) -> None:
        self.assertEqual(checking.check_line({"do": "join", "node": "é"}), b'{"do":"join","node":"\\u00e9"}\n')
        with self.assertRaises(BadLine):
            checking.read_line(b'{"do":"show_next"' + b" " * 65536 + b"}")


class Documents(unittest.TestCase):
    def test_places_have_names(self) -> None:
        found = [str(it) for it in checking.check_document({"triggers": [TRIGGER, {**TRIGGER, "name": "poll", "count": 2}, 5], "job": [], "jobs": {}})]
        self.assertEqual([it.split(": ")[0] for it in found], ["job", "jobs", "triggers[1] ('poll').interval", "triggers[2]"])

    def test_order_of_lines(self) -> None:
        document = {"triggers": [TRIGGER], "jobs": [{"name": "j", "class": "c"}], "zones": [{"name": "z", "stretches": [[0, 0]]}], "threshold": 5,
                    "calendars": [{"name": "c", "kind": "weekly"}]}
        self.assertEqual([line["do"] for line in checking.lines_of(document)], ["threshold", "add_zone", "add_calendar", "add_job", "add_trigger"])
        for line in checking.lines_of(document):
            self.assertEqual(wrong(line), [])


class CronTexts(unittest.TestCase):
    def test_faults(self) -> None:
        for text, number in (
            ("0 30 8 ? * MON-FRI", None), ("0 0 18 L-3 * ?", None), ("0 0 9 ? * FRIL", None), ("0 0 9 ? * TUE#2", None), ("0 0 22-2 L-0 NOV-FEB ?", None),
            ("0/20 /5 * * * ?", None), (" 0\t0 0 1 JAN-3 ? 1970-2099 ", None), ("0 0 9 15W * ?", None), ("0 0 0 ? * MON/2", None),
            ("0 0 0 1 *", 1), ("x 60 0/0", 1), ("0 0, 12 ? * 1", 2), ("0 0 0 L,x * 1", 2), ("0 0 0 L-3W * ?", 2), ("0 0 0 1 JANUARY ?", 2), ("0 0 0 ? * JAN-3", 2),
            ("0 60 12 ? * 1", 3), ("0 60,x 12 ? * 1", 3), ("0 99/0 12 ? * 1", 3), ("0 0 0 1 * 1 1969", 3), ("0 0 0 1 * ? 2030-1960", 3), ("0 0 0 ? * 2#6", 3),
            ("0 0 0 L-31 * ?", 3), ("0 0 0 1 * 1", 4), ("0 0 0 ? * ?", 5), ("*/60 0 12 ? * 1", 6), ("0 0 12 15W,20 * ?", 7), ("0 0 0 L,3 13 1", 7),
        ):
            found = cron.fault_of(text)
            self.assertEqual(found.number if found else None, number, (text, str(found)))


class Zones(unittest.TestCase):
    def test_the_machines_table(self) -> None:
        found = zones.stretches_of("Europe/Berlin")
        self.assertIn([1711846800000, 7200], found)
        self.assertIn([1729990800000, 3600], found)
        self.assertEqual(wrong({"do": "add_zone", "name": "Europe/Berlin", "stretches": found}), [])
        self.assertEqual(zones.stretches_of("UTC"), [[0, 0]])
        with self.assertRaises(BadSettings):
            zones.stretches_of("Europe/Nowhere")


if __name__ == "__main__":
    unittest.main()
