"""Zones by the names that Java has for them."""
from __future__ import annotations

import re
from dataclasses import dataclass
from datetime import datetime, timedelta, timezone, tzinfo
from functools import lru_cache
from zoneinfo import ZoneInfo, ZoneInfoNotFoundError

from ..errors import BadSettings
from ..zones import EPOCH, stretches_of
from .model import BadSource

# What java.util.TimeZone means by names of three letters (the table of java.time.ZoneId.SHORT_IDS).
SHORT_NAMES = {
    "ACT": "Australia/Darwin", "AET": "Australia/Sydney", "AGT": "America/Argentina/Buenos_Aires", "ART": "Africa/Cairo", "AST": "America/Anchorage",
    "BET": "America/Sao_Paulo", "BST": "Asia/Dhaka", "CAT": "Africa/Harare", "CNT": "America/St_Johns", "CST": "America/Chicago", "CTT": "Asia/Shanghai",
    "EAT": "Africa/Addis_Ababa", "ECT": "Europe/Paris", "IET": "America/Indiana/Indianapolis", "IST": "Asia/Kolkata", "JST": "Asia/Tokyo",
    "MIT": "Pacific/Apia", "NET": "Asia/Yerevan", "NST": "Pacific/Auckland", "PLT": "Asia/Karachi", "PNT": "America/Phoenix",
    "PRT": "America/Puerto_Rico", "PST": "America/Los_Angeles", "SST": "Pacific/Guadalcanal", "VST": "Asia/Ho_Chi_Minh",
    "EST": "GMT-05:00", "HST": "GMT-10:00", "MST": "GMT-07:00",
}
UTC = "UTC"


class NoZone(ValueError):
    """A name that isn't known, or a zone that no table here can hold."""


@dataclass
class JavaZones:
    """Zones by name. `default` is the JVM's, which no file and few tables of Quartz's name."""

    default: str | None

    def name(self, name: str | None) -> str:
        """The name, or that of the JVM's zone where there is none."""
        if name is not None and name.strip():
            return name.strip()
        if self.default is None:
            raise BadSource("it has no zone of its own, and in Quartz it is then the JVM's: name that by --zone, as --zone Europe/Berlin")
        return self.default

    def of(self, name: str | None) -> tzinfo:
        found = self.name(name)
        found = SHORT_NAMES.get(found, found)
        offset = _fixed(found)
        if offset is not None:
            return timezone(timedelta(seconds=offset))
        try:
            return ZoneInfo(found)
        except (ZoneInfoNotFoundError, ValueError, OSError):
            raise NoZone(f"this machine knows no zone {found!r}, and Java may take UTC for it") from None

    def local(self, moment: int, name: str | None) -> datetime:
        """The local time of a moment in ms."""
        return (EPOCH + timedelta(milliseconds=moment)).astimezone(self.of(name))

    def stretches(self, name: str | None) -> list[list[int]]:
        """The zone's table. Raises NoZone where there is none."""
        found = self.name(name)
        self.of(found)  # (is it known?)
        try:
            return _table(SHORT_NAMES.get(found, found))
        except BadSettings as error:
            raise NoZone(str(error)) from None

    def is_utc(self, name: str | None) -> bool:
        return self.stretches(name) == [[0, 0]]

    def moment(self, text: str) -> int:
        """The moment of an xs:dateTime; where it names no zone, it is of the JVM's."""
        found = re.fullmatch(r"(-?\d{4,}-\d\d-\d\dT\d\d:\d\d:\d\d)(\.\d+)?(Z|[+-]\d\d:\d\d)?", text)
        if not found:
            raise ValueError(f"{text!r} is no date and time, as 2026-12-01T02:00:00 or 2026-12-01T02:00:00+01:00")
        millis = int(float(found[2] or "0") * 1000 + 0.5) if found[2] else 0
        try:
            local = datetime.fromisoformat(found[1])
        except ValueError as error:
            raise ValueError(f"{text!r} is no date and time: {error}") from None
        zone = self.of(None) if found[3] is None else timezone.utc if found[3] == "Z" else datetime.fromisoformat(f"2000-01-01T00:00:00{found[3]}").tzinfo
        return (local.replace(tzinfo=zone) - EPOCH) // timedelta(milliseconds=1) + millis


@lru_cache
def _table(name: str) -> list[list[int]]:
    offset = _fixed(name)
    return [[0, offset]] if offset is not None else stretches_of(name)


def _fixed(name: str) -> int | None:
    """The offset, in seconds, of a name as GMT+01:00 or GMT-5."""
    found = re.fullmatch(r"GMT([+-])(\d{1,2})(?::?([0-5]\d))?", name)
    if not found or int(found[2]) > 23:
        return None
    return (int(found[2]) * 3600 + int(found[3] or 0) * 60) * (-1 if found[1] == "-" else 1)
