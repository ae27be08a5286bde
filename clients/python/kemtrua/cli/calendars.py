"""Calendars from words of the command line."""
from __future__ import annotations

import re
from collections.abc import Callable, Sequence

from ..checking import Line
from ..cron import WEEKDAYS
from ..errors import BadSettings

KINDS = {"weekly": "days of the week, as SAT SUN", "monthly": "days of the month, as 1 15 31", "annual": "days of the year, as 12-25",
         "holiday": "dates, as 2026-12-25", "daily": "two times of day, as 08:00 18:00", "cron": "one cron text"}


def _numbers(words: Sequence[str]) -> list[int]:
    if not all(word.isdigit() for word in words):
        raise ValueError
    return [int(word) for word in words]


def _annual(words: Sequence[str]) -> list[list[int]]:
    return [_numbers(re.split("-", word, maxsplit=1)) for word in words]


def _ms(word: str) -> int:
    if not re.fullmatch(r"([01][0-9]|2[0-3]):[0-5][0-9](:[0-5][0-9])?", word):
        raise ValueError
    hours, minutes, *seconds = map(int, word.split(":"))
    return 1000 * (3600 * hours + 60 * minutes + sum(seconds))


def _daily(words: Sequence[str]) -> Line:
    first, last = words
    return {"from": _ms(first), "to": _ms(last)}


def _cron(words: Sequence[str]) -> Line:
    (text,) = words
    return {"cron": text}


_READERS: dict[str, Callable[[Sequence[str]], Line]] = {
    "weekly": lambda words: {"days": [WEEKDAYS.index(word.upper()) + 1 for word in words]},
    "monthly": lambda words: {"days": _numbers(words)},
    "annual": lambda words: {"days": _annual(words)},
    "holiday": lambda words: {"dates": list(words)},
    "daily": _daily,
    "cron": _cron,
}


def calendar_of(kind: str, words: Sequence[str], inverted: bool) -> Line:
    """The members of a calendar of this kind. Raises BadSettings where the words are none of its own."""
    if inverted and kind != "daily":
        raise BadSettings("--inverted goes with a daily calendar")
    try:
        return {"kind": kind, **_READERS[kind](words), **({"inverted": True} if inverted else {})}
    except ValueError:
        raise BadSettings(f"{' '.join(words) or 'nothing'}: a {kind} calendar has {KINDS[kind]}") from None
