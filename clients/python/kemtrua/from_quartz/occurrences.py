"""The occurrences of a simple or calendar-interval trigger of Quartz's, counted from its start."""
from __future__ import annotations

import calendar
from datetime import datetime, timedelta

from ..zones import EPOCH
from .java_zones import JavaZones
from .model import Interval

TIME_UNITS = {"SECOND": 1000, "MINUTE": 60000, "HOUR": 3600000}
DAYS = {"DAY": 1, "WEEK": 7}
MONTHS = {"MONTH": 1, "YEAR": 12}
SHIFT, MOST_SHIFT = timedelta(minutes=30), timedelta(hours=1)  # clocks are set by whole half hours, and by an hour at most but for rare cases


class Occurrences:
    """Those of an interval trigger from a start on, by the clock of its zone."""

    def __init__(self, schedule: Interval, start: int, zones: JavaZones):
        self._schedule, self._start, self._zones = schedule, start, zones
        self._step = schedule.every * TIME_UNITS.get(schedule.unit, 0)
        self._local = datetime.min if self._step else self._clock(start)

    def has(self, moment: int) -> bool:
        """Whether a moment is one of them. One that a change of the clock moved counts, and so does one that stays on a short month's last day."""
        if self._step:
            return (moment - self._start) % self._step == 0
        local = self._clock(moment)
        return any(self._fits(local, self._occurrence(number)) for number in self._near(local))

    def after(self, moment: int) -> int:
        """The first one after a moment that doesn't come before the start."""
        if self._step:
            return moment + self._step - (moment - self._start) % self._step
        number = self._near(self._clock(moment))[0]
        while self._moment(self._occurrence(number)) <= moment:
            number += 1
        return self._moment(self._occurrence(number))

    def _clock(self, moment: int) -> datetime:
        return self._zones.local(moment, self._schedule.zone).replace(tzinfo=None)

    def _moment(self, local: datetime) -> int:
        return (local.replace(tzinfo=self._zones.of(self._schedule.zone)) - EPOCH) // timedelta(milliseconds=1)

    def _near(self, local: datetime) -> range:
        """The numbers of the occurrences about a local time."""
        unit, every = self._schedule.unit, self._schedule.every
        if unit in DAYS:
            number = (local.date() - self._local.date()).days // (DAYS[unit] * every)
        else:
            number = ((local.year - self._local.year) * 12 + local.month - self._local.month) // (MONTHS[unit] * every)
        return range(max(0, number - 1), max(0, number) + 2)

    def _occurrence(self, number: int) -> datetime:
        unit, steps = self._schedule.unit, number * self._schedule.every
        if unit in DAYS:
            return self._local + timedelta(days=steps * DAYS[unit])
        year, month = divmod(self._local.year * 12 + self._local.month - 1 + steps * MONTHS[unit], 12)
        return self._local.replace(year=year, month=month + 1, day=min(self._local.day, calendar.monthrange(year, month + 1)[1]))

    def _fits(self, local: datetime, occurrence: datetime) -> bool:
        stays_early = self._schedule.unit in MONTHS and (local.year, local.month) == (occurrence.year, occurrence.month) and 28 <= local.day <= occurrence.day
        shift = local - occurrence.replace(day=local.day if stays_early else occurrence.day)
        return abs(shift) <= MOST_SHIFT and shift % SHIFT == timedelta(0)
