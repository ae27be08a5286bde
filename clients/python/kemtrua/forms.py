"""The forms of script lines and documents: the members of each, with their values."""
from __future__ import annotations

from collections.abc import Iterator

from . import values
from .values import Check, Form, Problem

CODES = ("NOOP", "RE_EXECUTE_JOB", "SET_TRIGGER_COMPLETE", "DELETE_TRIGGER", "SET_ALL_JOB_TRIGGERS_COMPLETE",
         "SET_TRIGGER_ERROR", "SET_ALL_JOB_TRIGGERS_ERROR")
UNIT_SECONDS = {"SECOND": 1, "MINUTE": 60, "HOUR": 3600}

JOB = Form(
    {"name": values.name, "class": values.name},
    {"group": values.name, "durable": values.flag, "no_concurrent": values.flag, "requests_recovery": values.flag, "data": values.data},
)


def _by_kind(common: Form, kinds: dict[str, Form]) -> Check:
    """An object whose member `kind` says which further members it has."""

    def check(value: object, place: str) -> Iterator[Problem]:
        kind = value.get("kind") if isinstance(value, dict) else None
        dot = f"{place}." if place else ""
        if not isinstance(value, dict):
            yield from common(value, place)
        elif "kind" not in value:
            yield Problem(f"{dot}kind", f"it is missing; allowed are {', '.join(kinds)}")
        elif not isinstance(kind, str) or kind not in kinds:
            yield Problem(f"{dot}kind", f"{values.shown(kind)} isn't allowed; allowed are {', '.join(kinds)}")
        else:
            own = kinds[kind]
            yield from Form({**common.needed, **own.needed}, {**common.free, **own.free}, own.together)(value, place)

    return check


def _simple(value: dict[str, object], dot: str) -> Iterator[Problem]:
    if value.get("interval", 0) == 0 and value.get("count", 0) != 0:
        yield Problem(f"{dot}interval", f"with the count {value['count']} it must be 1 to {values.MOST_TIME} ms; 0 goes with the count 0 alone")


def _daily(value: dict[str, object], dot: str) -> Iterator[Problem]:
    step = value["every"] * UNIT_SECONDS[str(value["unit"])]  # type: ignore[operator]
    if step > 86400:
        yield Problem(f"{dot}every", f"the step is {step} seconds; allowed is 1 second to 24 hours")
    if str(value.get("from", "00:00:00")) > str(value.get("to", "23:59:59")):
        yield Problem(f"{dot}to", "it lies before `from`")


def _daily_calendar(value: dict[str, object], dot: str) -> Iterator[Problem]:
    if value["from"] > value["to"]:  # type: ignore[operator]
        yield Problem(f"{dot}to", "it lies before `from`")


_EVERY = values.whole(1, 2147483647)
_WEEKDAYS = values.whole(1, 7)
_DAY_MS = values.whole(0, values.DAY_MS - 1, " (ms of the day)")
_OTHER_MISFIRES: dict[str, Check] = {"misfire": values.whole(-1, 2)}

TRIGGER = _by_kind(
    Form(
        {"name": values.name, "job": values.name, "start": values.time, "kind": values.one_of("simple", "cron", "interval", "daily")},
        {"group": values.name, "job_group": values.name, "priority": values.whole(-(2**31), 2**31 - 1), "calendar": values.name, "end": values.time},
    ),
    {
        "simple": Form({}, {"interval": values.span, "count": values.whole(-1, 2147483647), "misfire": values.whole(-1, 5)}, _simple),
        "cron": Form({"cron": values.cron_text}, {"zone": values.name, **_OTHER_MISFIRES}),
        "interval": Form(
            {"unit": values.one_of("SECOND", "MINUTE", "HOUR", "DAY", "WEEK", "MONTH", "YEAR"), "every": _EVERY},
            {"zone": values.name, "preserveHourOfDay": values.flag, "skipDayIfHourDoesNotExist": values.flag, **_OTHER_MISFIRES},
        ),
        "daily": Form(
            {"unit": values.one_of(*UNIT_SECONDS), "every": _EVERY},
            {"from": values.time_of_day, "to": values.time_of_day, "days": values.items(_WEEKDAYS, 1, 7, "weekdays (1 is Sunday)"), "zone": values.name, **_OTHER_MISFIRES},
            _daily,
        ),
    },
)

CALENDAR = _by_kind(
    Form({"name": values.name, "kind": values.one_of("annual", "holiday", "weekly", "monthly", "daily", "cron")}, {"base": values.name, "zone": values.name}),
    {
        "annual": Form({"days": values.items(values.annual_day, 0, 366, "days")}),
        "holiday": Form({"dates": values.items(values.holiday, 0, 4096, "dates")}),
        "weekly": Form({}, {"days": values.items(_WEEKDAYS, 0, 7, "weekdays (1 is Sunday)")}),
        "monthly": Form({"days": values.items(values.whole(1, 31), 0, 31, "days of the month")}),
        "daily": Form({"from": _DAY_MS, "to": _DAY_MS}, {"inverted": values.flag}, _daily_calendar),
        "cron": Form({"cron": values.cron_text}),
    },
)


def _zone(value: dict[str, object], dot: str) -> Iterator[Problem]:
    if ("rule" in value) == ("stretches" in value):
        yield Problem(f"{dot}rule", "a zone has either `rule` or `stretches`")


ZONE = Form({"name": values.name}, {"stretches": values.stretches, "rule": values.zone_rule}, _zone)

_KEY = Form({"name": values.name}, {"group": values.name})
_NAME = Form({"name": values.name})
_GROUP = Form({"group": values.name})
_NODE = Form({"node": values.node})
_ENTRY = Form({"node": values.node, "entry": values.entry})
_FAILED = Form({"node": values.node, "failed": values.node})
_CHECK_IN = Form({"node": values.node}, {"interval": values.day_span})
_REPLACE: dict[str, Check] = {"replace": values.flag}

CLIENT_LINES: dict[str, Form] = {
    "add_job": Form({"job": JOB}, _REPLACE),
    "add_trigger": Form({"trigger": TRIGGER}, _REPLACE),
    "add_calendar": Form({"calendar": CALENDAR}, _REPLACE),
    "add_zone": ZONE,
    **{word: _KEY for word in ("delete_job", "delete_trigger", "pause_trigger", "resume_trigger", "reset_trigger", "trigger_now")},
    **{word: _GROUP for word in ("pause_group", "resume_group", "pause_job_group", "resume_job_group")},
    **{word: _NAME for word in ("delete_calendar", "delete_zone")},
    "threshold": Form({"ms": values.day_span}),
}

NODE_LINES: dict[str, Form] = {
    "join": _CHECK_IN,
    "check_in": _CHECK_IN,
    "acquire": Form({"node": values.node, "no_later": values.time}, {"window": values.span, "max": values.whole(1, 64)}),
    "release": _ENTRY,
    "fire": _ENTRY,
    "complete": Form({"node": values.node, "entry": values.entry}, {"code": values.one_of(*CODES)}),
    "misfires": _NODE,
    "leave": _NODE,
    "recover": _FAILED,
    "forget": _FAILED,
    "stop": _NODE,
}

# Lines that take no reading of the clock, and so have no `at`.
TIMELESS_LINES: dict[str, Form] = {
    "show_job": _KEY,
    "show_trigger": _KEY,
    "show_entry": Form({"entry": values.entry}),
    "show_next": Form({}),
    "show_room": Form({}),
    "checkpoint": Form({}),
    "resume": Form({"node": values.node, "epoch": values.entry}),
}

LINES: dict[str, Form] = {
    **{word: form.with_more(at=values.reading) for word, form in {**CLIENT_LINES, **NODE_LINES, "restart": Form({})}.items()},
    **TIMELESS_LINES,
}

_MANY = 2**62
DOCUMENT = Form(
    {},
    {
        "at": values.reading,
        "threshold": values.day_span,
        "zones": values.items(ZONE, 0, _MANY, "zones"),
        "calendars": values.items(CALENDAR, 0, _MANY, "calendars"),
        "jobs": values.items(JOB, 0, _MANY, "jobs"),
        "triggers": values.items(TRIGGER, 0, _MANY, "triggers"),
    },
)
