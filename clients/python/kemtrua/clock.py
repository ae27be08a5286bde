"""Moments in ms since 1970-01-01T00:00:00Z, as the system's clock has them and as people read them."""
from __future__ import annotations

import re
import time
from datetime import datetime, timedelta

END_OF_TIME = 7258118399999  # 2199-12-31T23:59:59.999Z

_SPAN = re.compile(r"(\d+)(ms|s|m|h|d)")
_UNITS = {"ms": 1, "s": 1000, "m": 60000, "h": 3600000, "d": 86400000}


def now() -> int:
    """The system's clock, in ms."""
    return time.time_ns() // 1_000_000


def ahead_of_uptime() -> float:
    """By how many seconds the system's clock is ahead of the boot clock. It changes only where somebody sets the system's clock."""
    return now() / 1000 - uptime()


def uptime() -> float:
    """Seconds since the machine started, sleep included. It never jumps, whatever is done to the system's clock."""
    return time.clock_gettime(time.CLOCK_BOOTTIME)


def local(moment: int | None) -> str:
    """The moment by the local clock, to the second, with its zone; `-` for none."""
    if moment is None:
        return "-"
    try:
        return datetime.fromtimestamp(moment // 1000).astimezone().strftime("%Y-%m-%d %H:%M:%S %Z")
    except (OverflowError, ValueError, OSError):
        return str(moment)


def span_of(text: str) -> int:
    """A span as `90s`, `5m`, `1h30m` or `2d`, in ms."""
    if not re.fullmatch(r"(\d+(ms|s|m|h|d))+", text):
        raise ValueError(f"{text!r} is no span of time: write it as 90s, 5m, 1h30m or 2d")
    return sum(int(count) * _UNITS[unit] for count, unit in _SPAN.findall(text))


def moment_of(text: str) -> int:
    """A moment as `now`, `+5m`, ms since 1970, or a date and time by the local clock, as `2026-12-01 02:00`."""
    if text == "now":
        return now()
    if text.startswith("+"):
        return now() + span_of(text[1:])
    if re.fullmatch(r"\d{9,16}", text):
        return int(text)
    try:
        read = datetime.fromisoformat(text)
    except ValueError:
        raise ValueError(f"{text!r} is no moment: write now, +5m, 2026-12-01T02:00 (local time), or ms since 1970") from None
    return round((read.astimezone() - datetime.fromtimestamp(0).astimezone()) / timedelta(milliseconds=1))
