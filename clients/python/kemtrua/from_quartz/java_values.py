"""What serialized Java objects, and texts of properties, say: job data maps and calendars."""
from __future__ import annotations

import math
import re
from collections.abc import Callable, Iterator, Mapping

from .cron_texts import as_here
from .java_stream import MAGIC, Array, BadStream, Instance, read
from .java_zones import JavaZones
from .model import Calendar, JobData
from .report import Outcome, Told

MOST_VALUES = 5000  # of one member: more can't be in a text of 4096 bytes
DEEPEST = 50
QUARTZ_CALENDARS = "org.quartz.impl.calendar."
BOXES = {f"java.lang.{name}" for name in ("Integer", "Long", "Short", "Byte", "Boolean", "Double", "Float")}
LISTS = {"java.util.ArrayList", "java.util.LinkedList", "java.util.HashSet", "java.util.LinkedHashSet", "java.util.TreeSet"}
MAPS = {"java.util.HashMap", "java.util.LinkedHashMap", "java.util.TreeMap", "java.util.Hashtable", "java.util.Properties"}
COMPARED = {"java.util.TreeSet"}  # a comparator stands before their members


class NotJson(ValueError):
    """A value that JSON can't hold. The text is its class, or what is wrong with it."""


def job_data(blob: bytes) -> JobData:
    """The map in a column JOB_DATA. Raises BadStream where it can't be read."""
    if not blob:
        return JobData()
    if blob[:len(MAGIC)] != MAGIC:
        return JobData(dict(properties(blob.decode("latin-1"))))
    found = read(blob)
    if found is None:
        return JobData()
    if not isinstance(found, Instance) or not isinstance(inner := found.fields.get("map", found), Instance):
        raise BadStream("it is no map")
    values: dict[str, object] = {}
    lost: dict[str, str] = {}
    try:
        pairs = list(_pairs(inner))
    except NotJson as error:
        raise BadStream(f"it is no map: {error}") from None
    for key, value in pairs:
        try:
            values[_text(key)] = _Budget().json(value)
        except NotJson as error:
            lost[str(key)] = str(error)
    return JobData(values, lost)


class _Budget:
    """How many values a member may still have. References can stand for one object many times."""

    def __init__(self) -> None:
        self._left = MOST_VALUES

    def json(self, value: object, depth: int = 0) -> object:
        self._left -= 1
        if self._left < 0 or depth > DEEPEST:
            raise NotJson("it has too many values")
        if value is None or isinstance(value, (bool, int)):
            return value
        if isinstance(value, str):
            return _text(value)
        if isinstance(value, float):
            return _finite(value)
        if isinstance(value, Array):
            if value.kind[1:2] in "CB":
                raise NotJson(f"an array of {'characters' if value.kind[1:2] == 'C' else 'bytes'}")
            return [self.json(item, depth + 1) for item in value.items]
        if isinstance(value, Instance):
            return self._instance(value, depth)
        raise NotJson(type(value).__name__)

    def _instance(self, value: Instance, depth: int) -> object:
        name = value.kind.name
        if name in BOXES:
            return self.json(value.fields.get("value"), depth + 1)
        if name == "java.lang.Character" and isinstance(code := value.fields.get("value"), int):
            return _text(chr(code))
        if name in LISTS:
            return [self.json(item, depth + 1) for item in members(value)]
        if name in MAPS:
            return {_text(key): self.json(item, depth + 1) for key, item in _pairs(value)}
        raise NotJson(f"an object of the class {name}")


def _finite(value: float) -> float:
    if not math.isfinite(value):
        raise NotJson(f"the number {value}")
    return value


def _text(value: object) -> str:
    if not isinstance(value, str):
        raise NotJson("a key that is no text")
    try:
        value.encode()
    except UnicodeEncodeError:
        raise NotJson("a text with half of a surrogate pair") from None
    return value


def members(value: Instance) -> list[object]:
    """The members of a list or a set."""
    for kind in value.kind.line():
        if kind.name in value.more:
            written = [one for one in value.more[kind.name] if not isinstance(one, bytes)]
            return written[1:] if kind.name in COMPARED else written
    return []


def _pairs(value: Instance) -> Iterator[tuple[object, object]]:
    for kind in value.kind.line():
        if kind.name in value.more:
            written = [one for one in value.more[kind.name] if not isinstance(one, bytes)]
            return zip(written[::2], written[1::2], strict=False)
    raise NotJson(f"an object of the class {value.kind.name}")


def properties(text: str) -> Iterator[tuple[str, str]]:
    """The pairs of a text in the form of java.util.Properties."""
    lines = iter(re.split(r"\r\n|\r|\n", text))
    for line in lines:
        line = line.lstrip(" \t\f")
        if not line or line[0] in "#!":
            continue
        while re.search(r"(?<!\\)(\\\\)*\\$", line):
            line = line[:-1] + next(lines, "").lstrip(" \t\f")
        found = re.match(r"((?:\\.|[^\\=: \t\f])*)[ \t\f]*[=:]?[ \t\f]*(.*)", line, re.DOTALL)
        assert found is not None
        yield _unescaped(found[1]), _unescaped(found[2])


def _unescaped(text: str) -> str:
    def one(found: re.Match[str]) -> str:
        if found[1] and len(found[1]) == 5:
            return chr(int(found[1][1:], 16))
        return {"t": "\t", "n": "\n", "r": "\r", "f": "\f"}.get(found[1], found[1])

    return re.sub(r"\\(u[0-9A-Fa-f]{4}|.)", one, text, flags=re.DOTALL).encode("utf-16-le", "surrogatepass").decode("utf-16-le", "replace")


def calendar(blob: bytes, zones: JavaZones) -> Calendar:
    """The calendar in a column CALENDAR. Raises BadStream where it is none of Quartz's own six, and NoZone where a zone of it isn't known."""
    return _calendar(read(blob), zones, 0)


def _calendar(value: object, zones: JavaZones, depth: int) -> Calendar:
    if not isinstance(value, Instance) or not value.kind.name.startswith(QUARTZ_CALENDARS):
        raise BadStream(f"it is {_called(value)}, and none of Quartz's own calendars")
    if depth > DEEPEST:
        raise BadStream("its chain of calendars has no end")
    name = value.kind.name[len(QUARTZ_CALENDARS):]
    reads = _CALENDARS.get(name)
    if reads is None:
        raise BadStream(f"it is {_called(value)}, and none of Quartz's own calendars")
    zone = zone_id((value if name != "CronCalendar" else _expression(value)).fields.get("timeZone"))
    kind, found, remarks = reads(value, zone, zones)
    base = value.fields.get("baseCalendar")
    return Calendar(kind, found, zone, _calendar(base, zones, depth + 1) if base is not None else None, remarks)


def _called(value: object) -> str:
    return f"an object of the class {value.kind.name}" if isinstance(value, Instance) else f"{type(value).__name__}"


def zone_id(value: object) -> str | None:
    """The name of a java.util.TimeZone."""
    name = value.fields.get("ID") if isinstance(value, Instance) else None
    return name if isinstance(name, str) else None


_Members = tuple[str, Mapping[str, object], tuple[Told, ...]]


def _excluded(value: Instance, first: int) -> list[int]:
    days = value.fields.get("excludeDays")
    if not isinstance(days, Array):
        raise BadStream("it has no list of days")
    return [number for number, is_excluded in enumerate(days.items) if is_excluded and number >= first]


def _weekly(value: Instance, zone: str | None, zones: JavaZones) -> _Members:
    return "weekly", {"days": [day for day in _excluded(value, 1) if day <= 7]}, ()


def _monthly(value: Instance, zone: str | None, zones: JavaZones) -> _Members:
    return "monthly", {"days": [day + 1 for day in _excluded(value, 0) if day < 31]}, ()


def _daily(value: Instance, zone: str | None, zones: JavaZones) -> _Members:
    def moment(edge: str) -> int:
        parts = [value.fields.get(f"range{edge}{part}") for part in ("HourOfDay", "Minute", "Second", "Millis")]
        if not all(isinstance(part, int) for part in parts):
            raise BadStream("it has no range of times")
        hour, minute, second, milli = (int(str(part)) for part in parts)
        return ((hour * 60 + minute) * 60 + second) * 1000 + milli

    inverted = bool(value.fields.get("invertTimeRange"))
    members_ = {"from": moment("Starting"), "to": moment("Ending"), **({"inverted": True} if inverted else {})}
    remark = "Quartz excludes 00:00:00.000 and 23:59:59.999 of each day, too; here the range alone is excluded"
    return "daily", members_, () if inverted else ((Outcome.CHANGED, remark),)


def _cron(value: Instance, zone: str | None, zones: JavaZones) -> _Members:
    text = _expression(value).fields.get("cronExpression")
    if not isinstance(text, str):
        raise BadStream("it has no cron text")
    found = as_here(text)
    return "cron", {"cron": found.text}, found.remarks


def _expression(value: Instance) -> Instance:
    """A cron calendar's text, which has the calendar's zone."""
    found = value.fields.get("cronExpression")
    if not isinstance(found, Instance):
        raise BadStream("it has no cron text")
    return found


def _annual(value: Instance, zone: str | None, zones: JavaZones) -> _Members:
    found = value.fields.get("excludeDays")
    days = sorted({_month_and_day(day, zones) for day in (members(found) if isinstance(found, Instance) else [])})
    return "annual", {"days": [list(day) for day in days]}, ()


def _month_and_day(value: object, zones: JavaZones) -> tuple[int, int]:
    """The month and the day of a java.util.GregorianCalendar, by its own zone."""
    if not isinstance(value, Instance) or not isinstance(moment := value.fields.get("time"), int):
        raise BadStream("one of its days is no java.util.Calendar")
    local = zones.local(moment, zone_id(value.fields.get("zone")))
    return local.month, local.day


def _holiday(value: Instance, zone: str | None, zones: JavaZones) -> _Members:
    found = value.fields.get("dates")
    moments = [date_of(one) for one in (members(found) if isinstance(found, Instance) else [])]
    dates: set[str] = set()
    remarks: list[Told] = []
    for moment in moments:
        local = zones.local(moment, zone)
        is_midnight = zones.local(moment - 1, zone).date() != local.date()
        if not is_midnight:
            remarks.append((Outcome.REWRITTEN, f"{local:%Y-%m-%d %H:%M:%S} begins no day of its zone, so it excludes nothing in Quartz; it is left out"))
        elif not 1970 <= local.year <= 2199:
            remarks.append((Outcome.CHANGED, f"{local:%Y-%m-%d} isn't of 1970 to 2199; it is left out"))
        else:
            dates.add(f"{local:%Y-%m-%d}")
    return "holiday", {"dates": sorted(dates)}, tuple(remarks)


def date_of(value: object) -> int:
    """The moment of a java.util.Date, in ms."""
    written = value.more.get("java.util.Date", []) if isinstance(value, Instance) else []
    if len(written) != 1 or not isinstance(written[0], bytes) or len(written[0]) != 8:
        raise BadStream("one of its dates is no java.util.Date")
    return int.from_bytes(written[0], "big", signed=True)


def _nothing(value: Instance, zone: str | None, zones: JavaZones) -> _Members:
    return "weekly", {"days": []}, ()


_CALENDARS: Mapping[str, Callable[[Instance, str | None, JavaZones], _Members]] = {
    "AnnualCalendar": _annual, "HolidayCalendar": _holiday, "WeeklyCalendar": _weekly, "MonthlyCalendar": _monthly, "DailyCalendar": _daily,
    "CronCalendar": _cron, "BaseCalendar": _nothing,
}
