"""Tables of time zones, from the machine's own (`/usr/share/zoneinfo`)."""
from __future__ import annotations

from datetime import datetime, timedelta, timezone
from zoneinfo import ZoneInfo, ZoneInfoNotFoundError

from .errors import BadSettings
from .values import DAY_MS, END_OF_TIME

DAY = 86400  # seconds
EPOCH = datetime(1970, 1, 1, tzinfo=timezone.utc)
MOST = 512


def stretches_of(name: str) -> list[list[int]]:
    """The zone's stretches up to the end of 2199: from when on, in ms since 1970, how many seconds local time is ahead of UTC."""
    try:
        zone = ZoneInfo(name)
    except (ZoneInfoNotFoundError, ValueError, OSError):
        raise BadSettings(f"this machine knows no zone {name!r}; zones are named as Europe/Berlin") from None

    def offset(second: int) -> int:
        ahead = (EPOCH + timedelta(seconds=second)).astimezone(zone).utcoffset()
        assert ahead is not None
        return round(ahead.total_seconds())

    found, second = [[0, offset(0)]], 0
    while second < END_OF_TIME // 1000:
        after = min(second + DAY, END_OF_TIME // 1000)
        if offset(after) != found[-1][1]:
            low, high = second, after
            while high - low > 1:
                middle = (low + high) // 2
                low, high = (middle, high) if offset(middle) == found[-1][1] else (low, middle)
            if high * 1000 - found[-1][0] < 2 * DAY_MS:
                raise BadSettings(f"{name} changes its offset twice within 48 hours, which no table of a zone may")
            found.append([high * 1000, offset(high)])
        second = after
    if len(found) > MOST:
        raise BadSettings(f"{name} has {len(found)} stretches, and a zone at most {MOST}")
    return found
