"""Words of the page in the browser: moments, spans, cron texts, and the lines of a status board."""
from __future__ import annotations

import io
import unittest
from datetime import date, datetime
from zoneinfo import ZoneInfo

from kemtrua_web import board
from kemtrua_web.cron_words import words_of
from kemtrua_web.moments import DAY, HOUR, MINUTE, Clock, number, size, span, turn_of_day, turns_between

BERLIN = ZoneInfo("Europe/Berlin")


def at(*parts: int, fold: int = 0) -> int:
    return round(datetime(*parts, tzinfo=BERLIN, fold=fold).timestamp() * 1000)  # type: ignore[arg-type,misc]


class Moments(unittest.TestCase):
    def test_a_day_is_told_by_how_far_it_is(self) -> None:
        clock = Clock(BERLIN, at(2026, 12, 1, 7, 40))
        for moment, said in ((at(2026, 12, 1, 2, 0), "02:00"), (at(2026, 11, 30, 23, 5), "Mon 23:05"), (at(2026, 12, 7, 1, 0), "Mon 01:00"),
                             (at(2026, 12, 8, 1, 0), "8 Dec 01:00"), (at(2025, 1, 2, 3, 4), "2 Jan 2025 03:04")):
            self.assertEqual(clock.when(moment), said)
        self.assertEqual(clock.when(None), "–")

    def test_a_night_on_which_the_clock_goes_back(self) -> None:
        first, second = at(2026, 10, 25, 2, 12), at(2026, 10, 25, 2, 12, fold=1)
        self.assertEqual(second - first, HOUR)
        clock = Clock(BERLIN, at(2026, 10, 25, 7, 40))
        self.assertEqual((clock.when(first), clock.when(second), clock.when(at(2026, 10, 25, 3, 0))), ("02:12 CEST", "02:12 CET", "03:00"))
        turn = turn_of_day(BERLIN, date(2026, 10, 25))
        assert turn is not None
        self.assertEqual((turn.at, turn.ends), (at(2026, 10, 25, 2, 0, fold=1), at(2026, 10, 25, 3, 0)))

    def test_a_night_on_which_the_clock_goes_ahead(self) -> None:
        (turn,) = turns_between(BERLIN, at(2026, 3, 28, 0, 0), at(2026, 3, 30, 0, 0))
        self.assertEqual((turn.at, turn.after - turn.before), (at(2026, 3, 29, 3, 0), HOUR))
        clock = Clock(BERLIN, at(2026, 3, 29, 12, 0))
        self.assertEqual((clock.when(turn.at - MINUTE), clock.when(turn.at)), ("01:59 CET", "03:00"))

    def test_last_night_is_since_18_of_the_day_before(self) -> None:
        self.assertEqual(Clock(BERLIN, at(2026, 10, 25, 7, 40)).last_night(), at(2026, 10, 24, 18, 0))
        self.assertEqual(at(2026, 10, 25, 7, 40) - at(2026, 10, 24, 18, 0), 14 * HOUR + 40 * MINUTE)  # (that night has an hour more)

    def test_spans_have_two_units_at_most(self) -> None:
        for ms, said in ((3, "3 ms"), (1234, "1.2 s"), (59_600, "1 min"), (132_000, "2 min 12 s"), (45 * MINUTE, "45 min"), (150 * MINUTE, "2 h 30 min"), (3 * HOUR, "3 h"),
                         (DAY + 3 * HOUR, "1 day 3 h"), (30 * DAY, "30 days"), (None, "–")):
            self.assertEqual(span(ms), said)

    def test_ago(self) -> None:
        clock = Clock(BERLIN, at(2026, 12, 1, 7, 40))
        self.assertEqual((clock.ago(clock.present - 4000), clock.ago(clock.present + 2 * HOUR)), ("4.0 s ago", "in 2 h"))

    def test_numbers_and_sizes(self) -> None:
        self.assertEqual((number(1234567), size(10), size(2 << 20), size(512 << 20)), ("1\u202f234\u202f567", "10 B", "2.0 MiB", "512 MiB"))


class CronTexts(unittest.TestCase):
    def test_in_words(self) -> None:
        for text, said in (("0 0 2 * * ?", "at 02:00 each day"), ("0 30 2 ? * MON-FRI", "at 02:30 Monday to Friday"), ("0 0/15 * * * ?", "each 15 minutes"),
                           ("0 0 6,18 * * ?", "at 06:00 and 18:00 each day"), ("0 0 12 ? * 6L", "at 12:00 on the last Friday of the month"),
                           ("0 0 2 L * ?", "at 02:00 on the last day of the month"), ("0 5 * * * ?", "each hour at 5 past"),
                           ("0 0 2 ? * TUE#2", "at 02:00 on the second Tuesday of the month"), ("30 0 2 1,15 1 ? 2027", "at 02:00:30 on the 1st and 15th of the month in January in 2027"),
                           ("*/5 * * * * ?", "each 5 seconds")):
            self.assertEqual(words_of(text), said, text)

    def test_what_has_no_plain_words_is_left_as_it_is(self) -> None:
        for text in ("0 0/7 * * * ?", "0 0 2 1 * MON", "0 0-30 2 * * ?", "1,2 0 2 * * ?", "0 0 2 * *", "nonsense", "0 0 2 ? * 9", "0 0/15 0/5 * * ?"):
            self.assertIsNone(words_of(text), text)


class Boards(unittest.TestCase):
    LINES = ("something else\n", "board 6 executing 1 jobs 2 triggers 3 next 1704067200123 at 1704067200000\n", "board 7 executing 0 jobs 2 triggers 3 next none at 1704067201000\n")

    def test_metrics_of_a_line(self) -> None:
        first, last = board.boards(self.LINES)
        self.assertIn("kemtrua_next_fire_time_seconds 1704067200.123\n", board.metrics(first))
        self.assertIn("kemtrua_entries_total 7\n", board.metrics(last))
        self.assertNotIn("\nkemtrua_next_fire_time_seconds ", board.metrics(last))

    def test_lines_are_drawn(self) -> None:
        out = io.StringIO()
        self.assertEqual(board.draw(self.LINES, out), 2)
        self.assertEqual(out.getvalue().splitlines()[1], "7 entries · 0 executing · 2 jobs · 3 triggers · next none · last 2024-01-01 00:00:01")


if __name__ == "__main__":
    unittest.main()
