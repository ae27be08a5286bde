"""What serialized Java objects and texts of properties say. The objects are a real Quartz's (tools/quartz/Blobs.java)."""
import base64
import os
import unittest

from kemtrua.from_quartz import java_stream, java_values
from kemtrua.from_quartz.java_stream import BadStream, Instance
from kemtrua.from_quartz.java_zones import JavaZones, NoZone
from kemtrua.from_quartz.model import BadSource
from kemtrua.from_quartz.report import Outcome

with open(os.path.join(os.path.dirname(__file__), "quartz_blobs.txt")) as file:
    BLOBS = {name: base64.b64decode(text) for name, text in map(str.split, file)}


class Streams(unittest.TestCase):
    def test_a_date(self) -> None:
        found = java_stream.read(BLOBS["date"])
        assert isinstance(found, Instance)
        self.assertEqual(found.kind.name, "java.util.Date")
        self.assertEqual(java_values.date_of(found), 5)

    def test_each_cut_is_refused(self) -> None:
        blob = BLOBS["weekly"]
        for length in range(len(blob) - 1):
            with self.assertRaises(BadStream):
                java_stream.read(blob[:length])

    def test_streams_that_are_none(self) -> None:
        head = java_stream.MAGIC
        for data, word in ((b"", "begin"), (b"\xac\xed\x00\x04p", "begin"), (head + b"\x01", "byte 4 is 01"), (head + b"q\x00\x7e\x00\x05", "isn't there"),
                           (head + b"ur\x00\x02[I" + bytes(8) + b"\x02\x00\x00xp\x7f\xff\xff\xff", "cut off"),
                           (head + b"sr\x00\x01A" + bytes(8) + b"\x04\x00\x00xp", "only the class A itself"), (BLOBS["deep"], "deeper than 100")):
            with self.assertRaises(BadStream) as raised:
                java_stream.read(data)
            self.assertIn(word, str(raised.exception))

    def test_any_changed_byte_ends_in_an_answer(self) -> None:
        blob = BLOBS["data"]
        for place in range(4, len(blob)):
            changed = blob[:place] + bytes([blob[place] ^ 0x55]) + blob[place + 1:]
            try:
                java_values.job_data(changed)
            except BadStream:
                pass


class Data(unittest.TestCase):
    def test_a_map(self) -> None:
        found = java_values.job_data(BLOBS["data"])
        self.assertEqual(found.values, {"to": "Grüße \U0001F600", "n": 42, "c": "x", "list": ["a", 1, False], "set": ["a", "b"], "map": {"k": 3}})
        self.assertEqual(found.lost, {"when": "an object of the class java.util.Date", "nan": "the number nan", "mine": "an object of the class Blobs$Mine"})

    def test_a_map_that_stands_for_millions_of_values(self) -> None:
        found = java_values.job_data(BLOBS["bomb"])
        self.assertEqual(found.values, {"ok": 1})
        self.assertEqual(found.lost, {"bomb": "it has too many values"})

    def test_no_map(self) -> None:
        self.assertEqual(java_values.job_data(b"").values, {})
        with self.assertRaises(BadStream):
            java_values.job_data(java_stream.MAGIC + b"t\x00\x01a")

    def test_properties(self) -> None:
        text = ("#a comment\n! and one\n\nto=a@b\\=c\nname : Gr\\u00fc\\u00dfe\\ttab\nlong=one \\\n   line\nempty=\nbare\nback=\\\\\nkey\\ with\\ blanks=\\ blank\n"
                "face=\\ud83d\\ude00\r\nlast=\\n")
        self.assertEqual(dict(java_values.properties(text)), {
            "to": "a@b=c", "name": "Grüße\ttab", "long": "one line", "empty": "", "bare": "", "back": "\\", "key with blanks": " blank", "face": "\U0001F600",
            "last": "\n"})
        self.assertEqual(java_values.job_data(b"#Tue\nn=1\n").values, {"n": "1"})


class Calendars(unittest.TestCase):
    def test_the_six_kinds(self) -> None:
        zones = JavaZones("Europe/Berlin")
        for name, kind, members, zone in (
            ("annual", "annual", {"days": [[1, 1], [12, 25]]}, "Europe/Berlin"), ("holiday", "holiday", {"dates": ["2031-05-01"]}, "Europe/Berlin"),
            ("weekly", "weekly", {"days": [1, 7]}, None), ("monthly", "monthly", {"days": [1, 31]}, "Europe/Berlin"),
            ("daily", "daily", {"from": 34200250, "to": 61200000}, "Europe/Berlin"), ("cron", "cron", {"cron": "0 0 12 ? * MON-FRI"}, "GMT+05:30"),
        ):
            found = java_values.calendar(BLOBS[name], zones)
            self.assertEqual((found.kind, found.members, found.zone), (kind, members, zone))
        base = java_values.calendar(BLOBS["holiday"], zones).base
        assert base is not None
        self.assertEqual(base.kind, "annual")
        self.assertEqual([outcome for outcome, _ in java_values.calendar(BLOBS["daily"], zones).remarks], [Outcome.CHANGED])
        self.assertEqual([outcome for outcome, _ in java_values.calendar(BLOBS["cron"], zones).remarks], [Outcome.REWRITTEN])

    def test_what_is_no_calendar(self) -> None:
        for blob, word in ((BLOBS["data"], "org.quartz.JobDataMap"), (java_stream.MAGIC + b"p", "NoneType"), (b"x", "begin")):
            with self.assertRaises(BadStream) as raised:
                java_values.calendar(blob, JavaZones(None))
            self.assertIn(word, str(raised.exception))


class Zones(unittest.TestCase):
    def test_names(self) -> None:
        zones = JavaZones("Asia/Tokyo")
        self.assertEqual(zones.stretches("GMT-05:30"), [[0, -19800]])
        self.assertEqual(zones.stretches("GMT+3"), [[0, 10800]])
        self.assertEqual(zones.stretches("EST"), [[0, -18000]])  # (fixed in Java)
        self.assertEqual(zones.stretches("PST"), zones.stretches("America/Los_Angeles"))
        self.assertEqual(zones.name(None), "Asia/Tokyo")
        self.assertTrue(zones.is_utc("GMT") and zones.is_utc("UTC") and not zones.is_utc("Europe/London"))
        for name in ("Nowhere/At_All", "GMT+25", "../../etc/passwd"):
            with self.assertRaises(NoZone):
                zones.stretches(name)
        with self.assertRaises(BadSource) as raised:
            JavaZones(None).stretches(None)
        self.assertIn("--zone", str(raised.exception))

    def test_dates_and_times(self) -> None:
        zones = JavaZones("Europe/Berlin")
        for text, moment in (("2030-01-01T00:00:00Z", 1893456000000), ("2030-01-01T00:00:00", 1893452400000), ("2030-07-01T12:00:00.25+02:00", 1909130400250),
                             ("2030-01-01T00:00:00-05:30", 1893475800000)):
            self.assertEqual(zones.moment(text), moment, text)
        for text in ("2030-01-01", "2030-02-30T00:00:00", "2030-01-01 00:00:00", "2030-01-01T24:01:00Z", ""):
            with self.assertRaises(ValueError):
                zones.moment(text)


if __name__ == "__main__":
    unittest.main()
