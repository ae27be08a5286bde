"""What jobs are expected to do: to have ended by a time of day, or to take no longer than so long."""
from __future__ import annotations

import sqlite3
from collections.abc import Iterable, Iterator
from datetime import datetime, timedelta

from .. import clock, logs
from .recorder import Recorder
from .schema import NoHistory
from .settings import Expectation
from .writer import Writer

log = logs.logger("kemtrua.history")

LOOK_AGAIN = 10.0  # seconds
BACK = 7  # days: deadlines of before are passed over
OVER = 5000  # ms that a deadline has passed before it is judged: what ended in time is in the database by then


class Expecting:
    """Looks at what is expected. What was missed is an event, once."""

    def __init__(self, recorder: Recorder, expects: Iterable[Expectation]):
        self._recorder, self._expects = recorder, tuple(expects)
        self._looked = -LOOK_AGAIN

    def look(self) -> None:
        if not self._expects or clock.uptime() - self._looked < LOOK_AGAIN or self._recorder.lags:
            return
        self._looked = clock.uptime()
        try:
            self._recorder.do(self._judge_all).result()
        except (sqlite3.Error, NoHistory) as error:
            log.warning("what is expected couldn't be looked at: %s", error)

    def _judge_all(self, writer: Writer) -> None:
        for one in self._expects:
            self._judge(writer, one)

    def _judge(self, writer: Writer, expected: Expectation) -> None:
        present = clock.now()
        writer.story.write_now()
        if expected.by is not None:
            row = writer.connection.execute("SELECT looked FROM expected WHERE name = ?", (expected.job,)).fetchone()
            if row is not None:
                for begin, end in deadlines(expected, row["looked"], present - OVER):
                    self._judge_deadline(writer, expected, begin, end)
            writer.connection.execute("INSERT OR REPLACE INTO expected VALUES (?, ?)", (expected.job, present - OVER))
        if expected.within is not None:
            self._judge_spans(writer, expected, present)

    def _judge_deadline(self, writer: Writer, expected: Expectation, begin: int, end: int) -> None:
        row = writer.connection.execute("SELECT 1 FROM executions WHERE job = ? AND fired >= ? AND fired < ? AND ended <= ? AND state IN ('done', 'ended') LIMIT 1",
                                        (expected.job, begin, end, end)).fetchone()
        if row is None:
            writer.story.take_event(end, "expect", f"{expected.job} was to have ended by {clock.local(end)}, and no execution of it had", expected.job)

    def _judge_spans(self, writer: Writer, expected: Expectation, present: int) -> None:
        assert expected.within is not None
        most = round(1000 * expected.within)
        rows = writer.connection.execute("SELECT generation, entry, fired, ended FROM executions WHERE job = ? AND fired >= ? AND coalesce(ended, ?) - fired > ? "
                                         "AND state != 'missing'", (expected.job, present - most - BACK * 86_400_000, present, most)).fetchall()
        for row in rows:
            known = writer.connection.execute("SELECT 1 FROM expected WHERE name = ?", (mark := f"{expected.job} {row['generation']} {row['entry']}",)).fetchone()
            if known is None:
                writer.connection.execute("INSERT INTO expected VALUES (?, ?)", (mark, present))
                text = f"{expected.job} was to take {expected.within:g} s at most, and entry {row['entry']} {'took' if row['ended'] else 'has run for'} longer"
                writer.story.take_event(present, "expect", text, expected.job, row["entry"], row["generation"])


def deadlines(expected: Expectation, after: int, until: int) -> Iterator[tuple[int, int]]:
    """The deadlines of this span of time, each with the moment from which on an execution counts for it: a day before."""
    assert expected.by is not None
    after = max(after, until - BACK * 86_400_000)
    day = datetime.fromtimestamp(after / 1000, expected.zone).date() - timedelta(days=1)
    last = datetime.fromtimestamp(until / 1000, expected.zone).date()
    while day <= last:
        end = _moment(expected, day.toordinal())
        if day.weekday() in expected.days and after < end <= until:
            yield _moment(expected, day.toordinal() - 1), end
        day += timedelta(days=1)


def _moment(expected: Expectation, ordinal: int) -> int:
    assert expected.by is not None
    return round(datetime.combine(datetime.fromordinal(ordinal), expected.by, expected.zone).timestamp() * 1000)
