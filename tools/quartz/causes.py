"""Why a trigger that came over from Quartz fires at other times here: each cause is a row of "Where fire times differ" in docs/FROM-QUARTZ.md."""
import calendar as months
import collections
import re
from datetime import datetime, timedelta, timezone
from zoneinfo import ZoneInfo

EPOCH = datetime(1970, 1, 1, tzinfo=timezone.utc)
MOST = 100  # fire times that are compared of each trigger
FAR = 100  # years from now on, from which Quartz computes no fire times
HOUR_MS = 3600000


def tzinfo_of(name):
    """The zone of a name as the import writes it: a name of the system's, or a fixed offset of Java's."""
    fixed = re.fullmatch(r"GMT([+-])(\d\d):(\d\d)", name)
    if fixed:
        return timezone((1 if fixed[1] == "+" else -1) * timedelta(hours=int(fixed[2]), minutes=int(fixed[3])))
    return ZoneInfo({"PST": "America/Los_Angeles"}.get(name, name))


def local(moment, zone):
    return (EPOCH + timedelta(milliseconds=moment)).astimezone(tzinfo_of(zone))


class Pair:
    """A trigger of the document, its calendars, and its fire times on both sides, up to where both were asked for them."""

    def __init__(self, trigger, calendars, quartz, ours, now):
        self.trigger, self.calendars = trigger, calendars
        last_year = datetime(now.year + FAR - 1, 1, 1, tzinfo=timezone.utc)
        horizon = (last_year - EPOCH) // timedelta(milliseconds=1)
        self.is_far = any(time >= horizon for time in (*quartz, *ours))
        ends = [times[-1] for times in (quartz, ours) if len(times) == MOST]
        until = min([*ends, horizon])
        self.quartz, self.ours = [[time for time in times if time <= until] for times in (quartz, ours)]
        # (where each time has its counterpart, one after the other)
        self.side_by_side = [(one, other) for one, other in zip(quartz, ours) if max(one, other) < horizon]
        self.is_paired = len(quartz) == len(ours) or len(self.side_by_side) < min(len(quartz), len(ours))

    @property
    def zone(self):
        return self.trigger.get("zone", "UTC")

    @property
    def only_quartz(self):
        return sorted(set(self.quartz) - set(self.ours))

    @property
    def only_ours(self):
        return sorted(set(self.ours) - set(self.quartz))

    def local(self, moment):
        return local(moment, self.zone)


def is_left_out(clock, zone):
    """Whether a zone's clock passes over this local time."""
    moment = clock.replace(tzinfo=tzinfo_of(zone)).astimezone(timezone.utc)
    return moment.astimezone(tzinfo_of(zone)).replace(tzinfo=None) != clock


def by_fold(pair):
    """A cron text's local time comes twice: Quartz has the second time alone."""
    def is_first_pass(moment):
        at = pair.local(moment)
        return at.fold == 0 and at.replace(fold=1).utcoffset() != at.utcoffset()

    return pair.trigger["kind"] == "cron" and not pair.only_quartz and all(map(is_first_pass, pair.only_ours))


def by_nearest(pair):
    """29W, 30W and 31W: Quartz fires in some months without that day."""
    found = re.match(r"\S+ \S+ \S+ (29|30|31)W ", pair.trigger.get("cron", ""))
    return bool(found) and not pair.only_ours and all(
        months.monthrange(pair.local(time).year, pair.local(time).month)[1] < int(found[1]) for time in pair.only_quartz)


def by_month_end(pair):
    """Months from the 29th, 30th or 31st on: Quartz stays on the earlier day to which a short month brought it."""
    if pair.trigger.get("unit") not in ("MONTH", "YEAR") or pair.local(pair.trigger["start"]).day < 29 or not pair.is_paired:
        return False
    for quartz, ours in (map(pair.local, times) for times in pair.side_by_side):
        if (quartz.year, quartz.month, quartz.time()) != (ours.year, ours.month, ours.time()) or not 28 <= quartz.day <= ours.day:
            return False
    return True


def by_misfire(pair):
    """Quartz was about to make up for a misfire: its next fire time is none of its schedule, and is left out here."""
    return pair.quartz[:1] == pair.only_quartz and not pair.only_ours and pair.quartz[0] not in pair.ours


def by_gap(pair):
    """A calendar interval's local time is left out on a day. Quartz is up to an hour off on that day, and without `preserve` on days after it, too, until it
    fires twice on one day and is on time again. Here the trigger fires when the gap ends, and is on time on later days."""
    if pair.trigger.get("unit") not in ("DAY", "WEEK", "MONTH", "YEAR"):
        return False
    quartz, wanted = collections.defaultdict(list), pair.local(pair.trigger["start"]).time()
    for time in pair.quartz:
        quartz[pair.local(time).date()].append(time)
    was_left_out = False
    for time in pair.ours:
        at = pair.local(time)
        was_left_out = was_left_out or is_left_out(datetime.combine(at.date(), wanted), pair.zone)
        others = quartz.pop(at.date(), [])
        if others != [time] and not (was_left_out and 1 <= len(others) <= 2 and all(abs(other - time) <= HOUR_MS for other in others)):
            return False
    return all(pair.ours and day >= pair.local(pair.ours[-1]).date() for day in quartz)  # (the last day that is compared may have begun in Quartz alone)


def by_daily_end(pair):
    """A daily trigger with an end: Quartz fires once past it."""
    return pair.trigger["kind"] == "daily" and "end" in pair.trigger and not pair.only_ours and len(pair.only_quartz) == 1 and pair.only_quartz[0] >= pair.trigger["end"]


def by_daily_clock(pair):
    """A daily trigger on a day on which the clock changes: Quartz counts the steps of that day by the time that passes, and here the local clock counts."""
    def is_on_such_a_day(moment):
        day = pair.local(moment).replace(hour=0, minute=0, second=0, microsecond=0, fold=0)
        return day.utcoffset() != (day + timedelta(days=1)).utcoffset()

    return pair.trigger["kind"] == "daily" and all(map(is_on_such_a_day, (*pair.only_quartz, *pair.only_ours)))


def by_daily_calendar(pair):
    """A daily calendar that isn't inverted: Quartz excludes the first and the last millisecond of each day, too."""
    zones = [row.get("zone", "UTC") for row in pair.calendars if row["kind"] == "daily" and not row.get("inverted")]

    def is_edge(moment):
        return any(local(moment, zone).strftime("%H:%M:%S.%f")[:12] in ("00:00:00.000", "23:59:59.999") for zone in zones)

    return bool(zones) and not pair.only_quartz and all(map(is_edge, pair.only_ours))


CAUSES = {"fold": by_fold, "nearest weekday": by_nearest, "month end": by_month_end, "misfire": by_misfire, "gap": by_gap, "daily end": by_daily_end, "daily clock": by_daily_clock,
          "daily calendar": by_daily_calendar}


def cause_of(pair):
    """The cause of a difference; `alike` where there is none, and None where no cause explains it."""
    if pair.quartz == pair.ours:
        return "alike"
    return next((name for name, explains in CAUSES.items() if explains(pair)), None)
