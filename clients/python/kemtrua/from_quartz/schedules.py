"""The members of a trigger of ours that fires as one of Quartz's goes on."""
from __future__ import annotations

from collections.abc import Iterator
from dataclasses import dataclass
from datetime import datetime, timedelta

from ..values import DAY_MS
from ..zones import EPOCH
from .cron_texts import as_here
from .java_zones import UTC, JavaZones
from .model import Cron, Daily, Interval, Simple, Trigger
from .occurrences import Occurrences
from .report import Outcome, Told

CALENDAR_UNITS = ("DAY", "WEEK", "MONTH", "YEAR")
FIRST_SHORT_DAY = 29  # months may not have this day and those after it


class NoCounterpart(ValueError):
    """Why a trigger has none."""


@dataclass(frozen=True)
class Mapped:
    """The members that a trigger's schedule gives, and what differs."""

    members: dict[str, object]
    remarks: tuple[Told, ...] = ()


def mapped(trigger: Trigger, zones: JavaZones) -> Mapped:
    """Raises NoCounterpart, and NoZone where the trigger's zone isn't known."""
    start = _start(trigger)
    schedule = trigger.schedule
    if isinstance(schedule, Simple):
        found = _simple(schedule, trigger, start)
    elif isinstance(schedule, Cron):
        found = _cron(schedule, zones)
    elif isinstance(schedule, Interval):
        found = _interval(schedule, trigger, start, zones)
    else:
        found = _daily(schedule, zones)
    members: dict[str, object] = {"start": start, **found.members}
    return Mapped({**members, **_end(trigger, int(str(members["start"])))}, (*found.remarks, *_missed(trigger, start, zones), *_instruction(trigger)))


def _instruction(trigger: Trigger) -> Iterator[Told]:
    """Where the effect of a misfire instruction differs: one that fires at once does so in Quartz also after the trigger's end."""
    fires_now = trigger.misfire in (0, 1) and not (isinstance(trigger.schedule, Simple) and trigger.schedule.count)
    if fires_now and trigger.end is not None:
        yield Outcome.CHANGED, "where it is missed until after its end, Quartz fires it once at once, by its misfire instruction; here it doesn't fire"


def _missed(trigger: Trigger, start: int, zones: JavaZones) -> Iterator[Told]:
    """What is said of a trigger whose next fire time isn't of its schedule: Quartz handled a misfire, and hadn't fired it yet."""
    schedule = trigger.schedule
    if not trigger.goes_on:
        return
    if isinstance(schedule, Interval):
        is_of_schedule = Occurrences(schedule, trigger.start, zones).has(start)
    elif isinstance(schedule, Simple):
        is_of_schedule = schedule.interval <= 0 or not schedule.count or (start - trigger.start) % schedule.interval == 0
    else:
        is_of_schedule = start % 1000 == 0
    if not is_of_schedule:
        yield Outcome.WANTED, (f"its next fire time, {start}, is none of its schedule: Quartz was about to make up for a misfire. That firing is left out; "
                               f"let it run by `kemtrua now {trigger.job}`, if it is wanted")


def _start(trigger: Trigger) -> int:
    if not trigger.goes_on:
        return trigger.start
    if trigger.next is None:
        raise NoCounterpart("it has no next fire time, so it fires no more")
    return trigger.next


def _end(trigger: Trigger, start: int) -> dict[str, object]:
    """Quartz fires a simple or interval trigger that ends at its start once, and a daily one at its end. An end is no fire time of these here."""
    if trigger.end is None:
        return {}
    if isinstance(trigger.schedule, Daily) or (trigger.end == start and isinstance(trigger.schedule, (Simple, Interval))):
        return {"end": trigger.end + 1}
    if trigger.end < start:
        raise NoCounterpart("its end is before its start, so it never fires")
    return {"end": trigger.end}


def _simple(schedule: Simple, trigger: Trigger, start: int) -> Mapped:
    if not trigger.goes_on or schedule.count == 0 or schedule.interval <= 0:
        # (an interval without a repetition has no meaning, and may be negative or 0 in Quartz)
        return Mapped({"kind": "simple", **({"interval": schedule.interval, "count": schedule.count} if schedule.count else {})})
    steps, rest = divmod(start - trigger.start, schedule.interval)
    members: dict[str, object] = {"kind": "simple"}
    if rest:
        # (a misfire set the next fire time, and the ones after it are counted from the start all the same)
        steps, members["start"] = steps + 1, start + schedule.interval - rest
    left = -1 if schedule.count == -1 else schedule.count - steps
    if left < -1 or (left == -1 and schedule.count != -1):
        raise NoCounterpart("all its repetitions were before its next fire time, so it fires no more")
    return Mapped({**members, **({"interval": schedule.interval, "count": left} if left else {})})


def _zone(name: str | None, zones: JavaZones) -> dict[str, object]:
    return {} if zones.is_utc(name) else {"zone": zones.name(name)}


def _cron(schedule: Cron, zones: JavaZones) -> Mapped:
    found = as_here(schedule.text)
    return Mapped({"kind": "cron", "cron": found.text, **_zone(schedule.zone, zones)}, found.remarks)


def _interval(schedule: Interval, trigger: Trigger, start: int, zones: JavaZones) -> Mapped:
    members: dict[str, object] = {"kind": "interval", "unit": schedule.unit, "every": schedule.every}
    if trigger.goes_on and not (occurrences := Occurrences(schedule, trigger.start, zones)).has(start):
        start = members["start"] = occurrences.after(start)
    if schedule.unit not in CALENDAR_UNITS:
        return Mapped(members)
    members |= _zone(schedule.zone, zones)
    if not (schedule.preserves_hour and schedule.skips_day):
        members["skipDayIfHourDoesNotExist"] = False
    return Mapped(members, tuple((Outcome.CHANGED, why) for why in _interval_remarks(schedule, start, zones)))


def _interval_remarks(schedule: Interval, start: int, zones: JavaZones) -> Iterator[str]:
    local = zones.local(start, schedule.zone)
    if schedule.unit in ("MONTH", "YEAR") and local.day >= FIRST_SHORT_DAY:
        yield f"it goes on from {local:%Y-%m-%d}: a month without that day has its last one here, and Quartz keeps that earlier day from then on"
    gap = first_gap(zones.stretches(schedule.zone), start, local)
    if gap is None or (schedule.preserves_hour and schedule.skips_day):
        return
    does = "fires an hour later on that day" if schedule.preserves_hour else "fires an hour early from then on, and later twice on one day"
    yield f"its local time, {local:%H:%M:%S}, may be left out, as on {gap:%Y-%m-%d}: Quartz {does}; here it fires when the gap ends, and at its own time later"


def first_gap(stretches: list[list[int]], start: int, local: datetime) -> datetime | None:
    """The first day after a moment on which the clock passes over this local time of day."""
    of_day = (local.hour * 3600 + local.minute * 60 + local.second) * 1000
    for before, after in zip(stretches, stretches[1:]):
        begins, ends = after[0] + before[1] * 1000, after[0] + after[1] * 1000
        if after[0] > start and begins < ends and (of_day - begins) % DAY_MS < ends - begins:
            return EPOCH.replace(tzinfo=None) + timedelta(milliseconds=begins)
    return None


def _daily(schedule: Daily, zones: JavaZones) -> Mapped:
    if schedule.count != -1:
        raise NoCounterpart(f"it fires {schedule.count + 1} times and no more, and a daily trigger has no count here: give it an end")
    members: dict[str, object] = {"kind": "daily", "unit": schedule.unit, "every": schedule.every, **_zone(None, zones)}
    if (schedule.first, schedule.last) != ("00:00:00", "23:59:59"):
        members |= {"from": schedule.first, "to": schedule.last}
    if set(schedule.days) != set(range(1, 8)):
        members["days"] = list(schedule.days)
    return Mapped(members)


def zones_of(trigger: Trigger, zones: JavaZones) -> str:
    """The name of the zone whose row a trigger needs; that of UTC needs none."""
    schedule = trigger.schedule
    if isinstance(schedule, Simple) or (isinstance(schedule, Interval) and schedule.unit not in CALENDAR_UNITS):
        return UTC
    name = None if isinstance(schedule, Daily) else schedule.zone
    return UTC if zones.is_utc(name) else zones.name(name)
