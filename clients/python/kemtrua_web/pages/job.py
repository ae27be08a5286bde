"""A job: when it fires, how long it takes, and what it did."""
from __future__ import annotations

from typing import Any

from kemtrua.errors import KemtruaError
from kemtrua.names import Key
from kemtrua.rows import JobRow
from zoneinfo import ZoneInfo, ZoneInfoNotFoundError

from .. import actions
from ..cron_words import words_of
from ..definitions import Definition
from ..moments import DAY, Clock, plural, span, turn_of_day
from ..plots import durations_of
from ..queries import usual_of
from ..rows import key_of
from ..safety import Refused
from ..site import Looked
from ..standing import look_jobs
from ..states import TRIGGER_STATES, shown
from .jobs import state_of

TEN, SHOWN = 10, 15
MISFIRES = {"simple": {0: "by how often it fires", -1: "never is misfired", 1: "fires now", 2: "now, with its count as it is",
                       3: "now, with what is left of its count",
                       4: "next, with what is left of its count", 5: "next, with its count as it is"},
            "other": {0: "fires once, at once", -1: "never is misfired", 1: "fires once, at once", 2: "waits for its next time"}}


def page(looked: Looked) -> tuple[str, dict[str, Any]]:
    group, name = looked.query.get("group", ""), looked.query.get("name", "")
    key = key_of(group, name)
    row, runs = looked.store.job(key), looked.history.recent(key)
    if row is None and not runs:
        raise Refused(404, "There is no such job", f"{group}/{name}", "Neither the store nor the history has it.")
    usual, present = usual_of(runs), looked.clock.present
    triggers = [trigger_of(looked, one) for one in looked.store.triggers_of(key)]
    ended = next((run for run in runs if run.state != "runs"), None)
    last_state = shown(runs[0], usual, present) if runs else ""
    standing = looked.site.standing(looked, looked.clock.last_night(), "night")
    bad = ended is not None and any(it.job == key and it.state in ("failed", "lost", "missing") for it in standing.open)
    state, word = state_of([one["row"] for one in triggers], ended.state if bad and ended is not None and last_state != "long"
                           else last_state, bad)
    span_runs = looked.history.of_job_in_span(key, present - 15 * DAY, present + 1, 2000)
    return "job", {
        "tab": "jobs", "live": any(run.state == "runs" for run in runs), "key": key, "job": Key(group, name), "row": row, "runs": runs,
        "usual": usual, "state": state,
        "word": word if row is not None else "not stored any more", "last": ended, "open": [run for run in runs if run.state == "runs"],
        "triggers": triggers,
        "count": len(span_runs), "count_bad": sum(run.state in ("failed", "lost", "missing") for run in span_runs),
        "plot": durations_of(runs, usual, looked.clock), "recent": [(run, shown(run, usual, present)) for run in runs[:SHOWN]],
        "ten": next_ten(looked, triggers), "why_no_times": looked.site.definitions.why, "data": _data(looked, Key(group, name)),
        "was": actions.words_after(looked.get("was")) if looked.viewer.operates else "", "count_open": len(look_jobs(standing)),
        "is_paused": state == "paused",
        "troubles": [it for it in standing.open if it.job == key]}


def _data(looked: Looked, key: Key) -> str | None:
    """The job's data; None where it isn't known."""
    try:
        found = looked.site.hub.show(key)
    except KemtruaError:
        return None
    return found.data if isinstance(found, JobRow) else None


def trigger_of(looked: Looked, row: Any) -> dict[str, Any]:
    """A trigger with its definition in words, where that is known."""
    found = looked.site.definitions.trigger(row["key"])
    say, given = words_for(row, found)
    zone = str(found["zone"]) if found and found.get("zone") else "UTC"
    misfire = found.get("misfire", 0) if found else None
    table = MISFIRES["simple" if row["kind"] == "simple" else "other"]
    return {"row": row, "key": Key.of_word(row["key"]), "say": say, "given": given, "zone": zone,
            "state": TRIGGER_STATES.get(row["state"], "waiting"),
            "calendar": found.get("calendar") if found else None, "misfire": table.get(misfire, "") if isinstance(misfire, int) else "",
            "definition": found}


def words_for(row: Any, found: Definition | None) -> tuple[str, str]:
    """When a trigger fires in words, and as it was given."""
    if found is None:
        if row["kind"] == "simple" and row["count"] == 0:
            return "Once", ""
        return {"simple": "Again and again", "cron": "By a cron text", "interval": "By a calendar's units",
                "daily": "At times of a day"}.get(row["kind"], ""), ""
    if row["kind"] == "cron":
        text = str(found.get("cron", ""))
        words = words_of(text)
        zone = found.get("zone") or "UTC"
        return (f"{words[0].upper()}{words[1:]}, {zone}" if words else f"By its cron text, {zone}"), text
    interval, count = found.get("interval", 0), found.get("count", 0)
    if row["kind"] == "simple":
        if not isinstance(interval, int) or not interval:
            return "Once", ""
        more = "" if count == -1 else f", {plural(int(str(count)) + 1, 'time')}"
        return f"Each {span(interval)}{more}", ""
    unit = str(found.get("unit", "")).lower()
    return f"Each {interval} {unit}", ""


def next_ten(looked: Looked, triggers: list[dict[str, Any]]) -> list[dict[str, Any]]:
    """The next ten times of a job, each by its trigger's own clock; where the clock turns between two, that is said."""
    live = {str(one["row"]["key"]): one for one in triggers if one["row"]["state"] in ("WAITING", "ACQUIRED", "BLOCKED")
            and one["row"]["next"] is not None}
    told = looked.site.definitions.times(live, looked.clock.present, TEN)
    times = [(at, live[key]) for key, found in told.items() if key in live for at in found]
    times += [(one["row"]["next"], one) for key, one in live.items() if key not in told]
    times.sort(key=lambda it: it[0])
    found: list[dict[str, Any]] = []
    for at, one in times[:TEN]:
        found.append(_time(looked.clock, at, one, found[-1]["at"] if found else looked.clock.present))
    return found


def _time(page_clock: Clock, at: int, one: dict[str, Any], before: int) -> dict[str, Any]:
    try:
        zone = ZoneInfo(one["zone"])
    except (OSError, ValueError, KeyError, ZoneInfoNotFoundError):
        zone = ZoneInfo("UTC")
    clock = Clock(zone, page_clock.present)
    local = clock.local(at)
    turned = clock.local(before).utcoffset() != local.utcoffset()
    turn = turn_of_day(zone, local.date())
    twice = ""
    if turn is not None and turn.before > turn.after and turn.at - (turn.before - turn.after) <= at < turn.ends:
        twice = f"This time comes twice that day; this is the {'first' if at < turn.at else 'second'}."
    said = f"The clock turns before this: from {clock.short_zone(before)} to {clock.short_zone(at)}" if turned else ""
    return {"at": at, "day": f"{local:%a} {local.day} {local:%b}", "clock": local.strftime("%H:%M" if local.second == 0 else "%H:%M:%S"),
            "zone": local.tzname() or "",
            "utc": Clock(ZoneInfo("UTC"), page_clock.present).local(at).strftime("%H:%M UTC"), "turn": said, "twice": twice,
            "trigger": one["key"].name}
