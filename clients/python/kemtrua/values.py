"""Values of lines: which type and range each has, and what to say of one that is wrong."""
from __future__ import annotations

import re
from collections.abc import Callable, Iterator
from dataclasses import dataclass, field
from datetime import date

from . import cron

MOST_TIME = 2**53
END_OF_TIME = 7258118399999
DAY_MS = 86400000
LONGEST_PLACE = 300  # characters of a place that are told


@dataclass(frozen=True)
class Problem:
    """What is wrong at a place, as `trigger.interval`."""

    place: str
    text: str

    def __str__(self) -> str:
        place = self.place if len(self.place) <= LONGEST_PLACE else self.place[:LONGEST_PLACE] + ".."
        return f"{place}: {self.text}" if place else self.text


Check = Callable[[object, str], Iterator[Problem]]


def shown(value: object) -> str:
    text = str(value).lower() if isinstance(value, bool) else "null" if value is None else repr(value)
    return text if len(text) <= 60 else text[:57] + ".."


def text(low: int, high: int, what: str) -> Check:
    """A text of so many bytes of UTF-8."""

    def check(value: object, place: str) -> Iterator[Problem]:
        if not isinstance(value, str):
            yield Problem(place, f"{shown(value)} is no text; allowed is {what} of {low} to {high} bytes")
            return
        try:
            count = len(value.encode())
        except UnicodeEncodeError:  # (as of a word of the command line that is written otherwise)
            yield Problem(place, f"{shown(value)} isn't UTF-8; allowed is {what} of {low} to {high} bytes of that")
            return
        if not low <= count <= high:
            yield Problem(place, f"it has {count} bytes of UTF-8; allowed is {what} of {low} to {high}")

    return check


name = text(1, 200, "a name")
node = text(1, 120, "a node's name")
data = text(0, 4096, "a text")


def flag(value: object, place: str) -> Iterator[Problem]:
    if not isinstance(value, bool):
        yield Problem(place, f"{shown(value)} is neither true nor false")


def is_whole(value: object) -> bool:
    return isinstance(value, int) and not isinstance(value, bool)


def whole(low: int, high: int, unit: str = "") -> Check:
    """A whole number of this range."""
    allowed = f"allowed is a whole number from {low} to {high}{unit}"

    def check(value: object, place: str) -> Iterator[Problem]:
        if not is_whole(value):
            hint = ", and none with a point or an exponent" if isinstance(value, float) else ""
            yield Problem(place, f"{shown(value)} is no whole number; {allowed}{hint}")
        elif not low <= value <= high:  # type: ignore[operator]
            yield Problem(place, f"{value} is out of range; {allowed}")

    return check


time = whole(0, MOST_TIME, " (ms since 1970)")
span = whole(0, MOST_TIME, " (ms)")
day_span = whole(1, DAY_MS, " (ms; a day at most)")
reading = whole(-(2**63), 2**63 - 1)
entry = whole(0, 2**64 - 1)


def one_of(*words: str) -> Check:
    def check(value: object, place: str) -> Iterator[Problem]:
        if value not in words:
            yield Problem(place, f"{shown(value)} isn't allowed; allowed are {', '.join(words)}")

    return check


def cron_text(value: object, place: str) -> Iterator[Problem]:
    if not isinstance(value, str):
        yield Problem(place, f"{shown(value)} is no text; allowed is a cron text, as \"0 30 8 ? * MON-FRI\"")
    elif wrong := cron.fault_of(value):
        yield Problem(place, str(wrong))


def time_of_day(value: object, place: str) -> Iterator[Problem]:
    if not isinstance(value, str) or not re.fullmatch(r"([01][0-9]|2[0-3]):[0-5][0-9]:[0-5][0-9]", value):
        yield Problem(place, f"{shown(value)} is no time of day; allowed is HH:MM:SS from 00:00:00 to 23:59:59")


def items(item: Check, low: int, high: int, what: str) -> Check:
    """A list whose items are right, with so many different ones."""

    def check(value: object, place: str) -> Iterator[Problem]:
        if not isinstance(value, list):
            yield Problem(place, f"{shown(value)} is no list; allowed is a list of {what}")
            return
        wrong = False
        for number, one in enumerate(value):
            for problem in item(one, f"{place}[{number}]"):
                wrong = True
                yield problem
        if not wrong and not low <= len({repr(one) for one in value}) <= high:
            yield Problem(place, f"it has {len(value)} items; allowed are {low} to {high} {what}")

    return check


def annual_day(value: object, place: str) -> Iterator[Problem]:
    if not (isinstance(value, list) and len(value) == 2 and all(map(is_whole, value)) and 1 <= value[0] <= 12 and 1 <= value[1] <= 31):
        yield Problem(place, f"{shown(value)} is no day; allowed is [month, day], as [12, 25]")


def holiday(value: object, place: str) -> Iterator[Problem]:
    try:
        right = isinstance(value, str) and bool(re.fullmatch(r"[0-9]{4}-[0-9]{2}-[0-9]{2}", value)) and 1970 <= date.fromisoformat(value).year <= 2199
    except ValueError:
        right = False
    if not right:
        yield Problem(place, f"{shown(value)} is no date; allowed is YYYY-MM-DD, a real date of 1970 to 2199")


def zone_rule(value: object, place: str) -> Iterator[Problem]:
    """The rule of a zone, as POSIX writes TZ. Whether its dates and times are right is for the program to say."""
    if not isinstance(value, str) or not re.fullmatch(r"(<[A-Za-z0-9+-]{3,}>|[A-Za-z]{3,})[+-]?[0-9][!-~]*", value):
        yield Problem(place, f"{shown(value)} is no rule of a zone; allowed is a POSIX text, as CET-1CEST,M3.5.0,M10.5.0/3")


def stretches(value: object, place: str) -> Iterator[Problem]:
    """The table of a zone."""
    if not isinstance(value, list) or not 1 <= len(value) <= 512:
        yield Problem(place, "allowed is a list of 1 to 512 pairs [from in ms, offset in seconds]")
        return
    before: int | None = None
    for number, pair in enumerate(value):
        at = f"{place}[{number}]"
        if not (isinstance(pair, list) and len(pair) == 2 and all(map(is_whole, pair))):
            yield Problem(at, f"{shown(pair)} is no pair [from in ms, offset in seconds] of whole numbers")
            continue
        if not 0 <= pair[0] <= END_OF_TIME:
            yield Problem(at, f"it begins at {pair[0]}; allowed is 0 to {END_OF_TIME}")
        if not -64800 <= pair[1] <= 64800:
            yield Problem(at, f"its offset is {pair[1]}; allowed is -64800 to 64800 seconds")
        if before is not None and pair[0] < before + 2 * DAY_MS:
            yield Problem(at, "it must begin at least 48 hours (172800000 ms) after the one before")
        before = pair[0]


def nothing_more(value: dict[str, object], place: str) -> Iterator[Problem]:
    return iter(())


@dataclass(frozen=True)
class Form:
    """The members of an object: those that must be there, those that may be, and what they have to keep together."""

    needed: dict[str, Check]
    free: dict[str, Check] = field(default_factory=dict)
    together: Callable[[dict[str, object], str], Iterator[Problem]] = nothing_more

    def __call__(self, value: object, place: str) -> Iterator[Problem]:
        if not isinstance(value, dict):
            yield Problem(place, f"{shown(value)} is no object; it has the members {self.members()}")
            return
        dot, wrong = f"{place}." if place else "", False
        for problem in self._problems(value, dot):
            wrong = True
            yield problem
        if not wrong:
            yield from self.together(value, dot)

    def _problems(self, value: dict[str, object], dot: str) -> Iterator[Problem]:
        for key in value:
            if key not in self.needed and key not in self.free:
                yield Problem(dot + key, f"there is no such member; allowed are {self.members()}")
        for key, check in self.needed.items():
            if key in value:
                yield from check(value[key], dot + key)
            else:
                yield Problem(dot + key, "it is missing")
        for key, check in self.free.items():
            if key in value:
                yield from check(value[key], dot + key)

    def members(self) -> str:
        return ", ".join([*self.needed, *(f"{key} (may be absent)" for key in self.free)]) or "none"

    def with_more(self, **free: Check) -> Form:
        return Form(self.needed, {**self.free, **free}, self.together)
