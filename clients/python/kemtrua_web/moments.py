"""Moments and spans in words, by the clock of one zone. Moments are in ms since 1970, spans in ms."""
from __future__ import annotations

from collections.abc import Iterator
from dataclasses import dataclass
from datetime import date, datetime, timedelta, tzinfo
from functools import lru_cache

SECOND, MINUTE, HOUR, DAY = 1000, 60_000, 3_600_000, 86_400_000


@dataclass(frozen=True)
class Turn:
    """A turn of the clock: when, and by how many ms the clock is ahead of UTC before and after."""

    at: int
    before: int
    after: int

    @property
    def ends(self) -> int:
        """When the last time that came twice, or is left out, is over."""
        return self.at + max(0, self.before - self.after)


def offset(zone: tzinfo, at: int) -> int:
    ahead = datetime.fromtimestamp(at / 1000, zone).utcoffset()
    return 0 if ahead is None else round(ahead.total_seconds() * 1000)


@lru_cache(maxsize=2048)
def turns_between(zone: tzinfo, since: int, until: int) -> tuple[Turn, ...]:
    """The turns of the clock in a span, to the minute."""
    found, low = [], since
    while low < until:
        high = min(low + DAY // 2, until)
        before, after = offset(zone, low), offset(zone, high)
        if before != after:
            first, last = low, high
            while last - first > MINUTE:
                middle = (first + last) // 2
                first, last = (middle, last) if offset(zone, middle) == before else (first, middle)
            found.append(Turn(last // MINUTE * MINUTE, before, after))
        low = high
    return tuple(found)


def of_day(zone: tzinfo, day: date, hour: int = 0) -> int:
    """The moment at which a local day has this hour."""
    return round(datetime(day.year, day.month, day.day, hour, tzinfo=zone).timestamp() * 1000)


@lru_cache(maxsize=512)
def turn_of_day(zone: tzinfo, day: date) -> Turn | None:
    found = turns_between(zone, of_day(zone, day), of_day(zone, day + timedelta(days=1)))
    return found[0] if found else None


class Clock:
    """What moments are in words at one moment, in one zone."""

    def __init__(self, zone: tzinfo, present: int):
        self.zone, self.present = zone, present
        self.today = self.local(present).date()

    def local(self, at: int) -> datetime:
        return datetime.fromtimestamp(at / 1000, self.zone)

    def short_zone(self, at: int) -> str:
        return self.local(at).tzname() or ""

    def clock(self, at: int, seconds: bool = False) -> str:
        """The time of day. On the day of a turn it has the zone's short name, up to the end of the turned hour."""
        local = self.local(at)
        said = local.strftime("%H:%M:%S" if seconds else "%H:%M")
        turn = turn_of_day(self.zone, local.date())
        return f"{said} {local.tzname()}" if turn is not None and at < turn.ends else said

    def day(self, at: int) -> str:
        """The day: nothing today, a weekday up to six days back or ahead, else the date."""
        local = self.local(at).date()
        gap = (local - self.today).days
        if gap == 0:
            return ""
        if -7 < gap < 7:
            return local.strftime("%a")
        return f"{local.day} {local:%b}" + ("" if local.year == self.today.year else f" {local.year}")

    def when(self, at: int | None, seconds: bool = False) -> str:
        if at is None:
            return "–"
        return f"{self.day(at)} {self.clock(at, seconds)}".strip()

    def ago(self, at: int) -> str:
        """How long before or after the present it is."""
        gap = self.present - at
        said = span(max(abs(gap), 1) // SECOND * SECOND) if abs(gap) >= SECOND else "0 s"
        return f"{said} ago" if gap >= 0 else f"in {said}"

    def last_night(self) -> int:
        """18:00 of the day before."""
        return of_day(self.zone, self.today - timedelta(days=1), 18)

    def whole_hours(self, since: int, until: int) -> Iterator[int]:
        at = -(-since // HOUR) * HOUR
        while at <= until:
            yield at
            at += HOUR


def iso(at: int | None) -> str:
    return "" if at is None else datetime.fromtimestamp(at / 1000).astimezone().isoformat(timespec="seconds")


def span(ms: int | float | None) -> str:
    """A span in two units at most."""
    if ms is None:
        return "–"
    seconds = max(ms, 0) / 1000
    if seconds < 0.95:
        return f"{seconds * 1000:.0f} ms"
    if seconds < 9.95:
        return f"{seconds:.1f} s"
    whole = round(seconds)
    if whole < 60:
        return f"{whole} s"
    minutes, rest = divmod(whole, 60)
    if minutes < 10:
        return f"{minutes} min {rest} s" if rest else f"{minutes} min"
    minutes = round(whole / 60)
    if minutes < 60:
        return f"{minutes} min"
    hours, rest = divmod(minutes, 60)
    if hours < 24:
        return f"{hours} h {rest} min" if rest else f"{hours} h"
    days, rest = divmod(round(whole / 3600), 24)
    if days < 7 and rest:
        return f"{days} day{'s' if days > 1 else ''} {rest} h"
    return f"{round(whole / 86400)} day{'s' if round(whole / 86400) > 1 else ''}"


def number(value: int) -> str:
    return f"{value:,}".replace(",", "\u202f")


def size(count: float) -> str:
    for unit in ("B", "KiB", "MiB", "GiB"):
        if count < 1000:
            return f"{count:.0f} {unit}" if count >= 100 or unit == "B" else f"{count:.1f} {unit}"
        count /= 1024
    return f"{count:.1f} TiB"


def plural(count: int, one: str, many: str | None = None) -> str:
    return f"{number(count)} {one if count == 1 else many or one + 's'}"
