"""Names, replies, rows and moments as text."""
import os
import time
import unittest

from kemtrua import clock, replies, rows
from kemtrua.errors import HubRefused, NotJoined, Refused, StoreClosed, StoreFault, Unanswered
from kemtrua.names import Key, escape, unescape
from kemtrua.replies import AcquiredTrigger

BACKUP = Key("DEFAULT", "backup")


class Names(unittest.TestCase):
    def test_escapes(self) -> None:
        for name, word in (("backup", "backup"), ("50% é", "50%25%20%C3%A9"), ("a/b", "a%2Fb"), ("", "%"), ("~!", "~!")):
            self.assertEqual(escape(name), word)
            self.assertEqual(unescape(word), name)

    def test_keys(self) -> None:
        self.assertEqual(str(Key("a/b", "50% é")), "a%2Fb/50%25%20%C3%A9")
        self.assertEqual(Key.of_word("a%2Fb/50%25%20%C3%A9"), Key("a/b", "50% é"))
        self.assertEqual(Key.of_user("backup"), BACKUP)
        self.assertEqual(Key.of_user("g/backup"), Key("g", "backup"))


class Replies(unittest.TestCase):
    def test_each(self) -> None:
        for text, wanted in (
            ("ok", replies.Done()),
            ("ok next 1704067200000", replies.Done(1704067200000)),
            ("deleted 3", replies.Deleted(3)),
            ("triggered MANUAL_TRIGGERS/now_2 5", replies.Triggered(Key("MANUAL_TRIGGERS", "now_2"), 5)),
            ("joined 7 executions 1 triggers 0", replies.Joined(7, 1, 0)),
            ("acquired none", replies.Acquired(())),
            ("acquired 1 DEFAULT/backup 5 2 g/t 6", replies.Acquired((AcquiredTrigger(1, BACKUP, 5), AcquiredTrigger(2, Key("g", "t"), 6)))),
            ("fired 1 scheduled 5 at 6 next none", replies.Fired(1, 5, 6, None)),
            ("fired 1 scheduled 5 at 6 next 7", replies.Fired(1, 5, 6, 7)),
            ("completed 1", replies.Completed(1)),
            ("again 1", replies.Again(1)),
            ("misfired none", replies.Misfired(())),
            ("misfired DEFAULT/backup 5 g/t none", replies.Misfired(((BACKUP, 5), (Key("g", "t"), None)))),
            ("recovered executions 1 triggers 2", replies.Recovered(1, 2)),
            ("restarted", replies.Restarted()),
            ("next none", replies.Next(None)),
            ("next 5", replies.Next(5)),
            ("job none", replies.Nothing("job")),
            ("trigger none", replies.Nothing("trigger")),
            ("entry none", replies.Nothing("entry")),
            ("job DEFAULT/backup ok durable 0 no_concurrent 1 requests_recovery 0 data %", rows.JobRow(BACKUP, "ok", False, True, False, "")),
            ("entry 1 A 2 DEFAULT/backup EXECUTING scheduled 5 at 6 job DEFAULT/backup ok data x%20y",
             rows.EntryRow(1, "A", 2, BACKUP, "EXECUTING", 5, 6, BACKUP, "ok", "x y")),
            ("entry 1 A 2 DEFAULT/backup ACQUIRED scheduled 5 at none job DEFAULT/backup none",
             rows.EntryRow(1, "A", 2, BACKUP, "ACQUIRED", 5, None, BACKUP)),
            ("trigger g/t job DEFAULT/backup WAITING next 6 prev none times 0 priority -5 start 5 simple -1 misfire -1 calendar w zone none",
             rows.TriggerRow(Key("g", "t"), BACKUP, "WAITING", 6, None, 0, -5, 5, "simple", -1, -1, "w", None)),
            ("trigger g/t job DEFAULT/backup ERROR next none prev 4 times 1 priority 5 start 5 cron misfire 0 calendar none zone UTC",
             rows.TriggerRow(Key("g", "t"), BACKUP, "ERROR", None, 4, 1, 5, 5, "cron", None, 0, None, "UTC")),
        ):
            self.assertEqual(replies.read(text), wanted, text)

    def test_what_was_not_asked(self) -> None:
        for text, wanted in (("stopped", NotJoined), ("fault", StoreFault), ("closed", StoreClosed), ("hub wait until 5", HubRefused),
                             ("hub unanswered it died", Unanswered)):
            with self.assertRaises(wanted):
                replies.read(text)
        with self.assertRaises(Refused) as raised:
            replies.read("refused 16 owner A%20B 5")
        self.assertEqual((raised.exception.number, raised.exception.fields), (16, ["owner", "A%20B", "5"]))
        self.assertIn("another node's", str(raised.exception))

    def test_rows_of_a_list(self) -> None:
        self.assertEqual(rows.row_of("member A 7"), rows.MemberRow("A", 7))
        self.assertEqual(rows.row_of("state A last 5001 interval 15000"), rows.CheckInRow("A", 5001, 15000))
        self.assertEqual(rows.row_of("fired 3 A 7 g/t EXECUTING scheduled 5000 at 5001"), rows.EntryRow(3, "A", 7, Key("g", "t"), "EXECUTING", 5000, 5001))
        self.assertEqual(rows.row_of("paused g%25"), rows.OtherRow("paused", ("g%25",)))


class Moments(unittest.TestCase):
    def setUp(self) -> None:
        before = os.environ.get("TZ")
        os.environ["TZ"] = "CET-1"
        time.tzset()
        self.addCleanup(lambda: (os.environ.__setitem__("TZ", before) if before else os.environ.pop("TZ"), time.tzset()))

    def test_read(self) -> None:
        self.assertEqual(clock.moment_of("2024-01-01T02:00"), 1704070800000)
        self.assertEqual(clock.moment_of("2024-01-01 02:00:00.250"), 1704070800250)
        self.assertEqual(clock.moment_of("2024-01-01T01:00+00:00"), 1704070800000)
        self.assertEqual(clock.moment_of("1704070800000"), 1704070800000)
        self.assertAlmostEqual(clock.moment_of("+5m"), clock.now() + 300000, delta=1000)
        for text in ("soon", "+5", "2024-13-01"):
            with self.assertRaises(ValueError):
                clock.moment_of(text)

    def test_spans(self) -> None:
        for text, wanted in (("90s", 90000), ("1h30m", 5400000), ("2d", 172800000), ("250ms", 250)):
            self.assertEqual(clock.span_of(text), wanted)
        for text in ("", "5", "m", "1h 30m"):
            with self.assertRaises(ValueError):
                clock.span_of(text)

    def test_written(self) -> None:
        self.assertEqual(clock.local(1704070800999), "2024-01-01 02:00:00 CET")
        self.assertEqual(clock.local(None), "-")


if __name__ == "__main__":
    unittest.main()
