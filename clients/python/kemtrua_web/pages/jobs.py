"""Which jobs there are, and how each one stands."""
from __future__ import annotations

from typing import Any

from kemtrua.names import Key

from .. import addresses
from ..moments import number
from ..plots import strip_of
from ..queries import usual_of
from ..safety import Refused
from ..site import Looked
from ..standing import Standing, look_jobs
from ..states import TRIGGER_STATES, shown

ROWS = 50
MOST_KEYS = 5000
STATES = {"": "All", "look": "To look at", "executing": "Executing", "paused": "Paused"}
SORTS = {"name": "by name", "next": "next to fire"}


def page(looked: Looked) -> tuple[str, dict[str, Any]]:
    text, group, state, sort = looked.get("q"), looked.get("group"), looked.get("state"), looked.get("sort") or "name"
    if state not in STATES or sort not in SORTS:
        raise Refused(404, "There is no such list", "States and orders are those that the page offers.")
    if text.isascii() and text.isdigit() and len(text) < 19 and (run := looked.history.run(int(text))) is not None:
        return addresses.run(run), {}
    total = looked.store.count("jobs")
    if not total and looked.store.as_of is not None and looked.history.oldest() is None:
        return "empty", {"tab": "jobs", "count_open": 0, "live": True, "nodes": looked.store.count("members")}
    standing = looked.site.standing(looked, looked.clock.last_night(), "night")
    keys = _keys(looked, standing, state)
    rows, older = _page_of(looked, text, group, keys, sort, state)
    counts = {"": total, "look": len(look_jobs(standing)), "executing": len(_executing(standing)),
              "paused": looked.store.count_paused_jobs()}
    found = total if not text and not group and keys is None else looked.store.count_found(text, group, keys)
    return "jobs", {"tab": "jobs", "live": False, "q": text, "group": group, "state": state, "sort": sort, "groups": looked.store.groups(),
                    "states": STATES, "sorts": SORTS,
                    "counts": counts, "total": total, "found": found, "rows": [_row(looked, row, standing) for row in rows], "older": older,
                    "count_open": counts["look"], "number": number}


def _executing(standing: Standing) -> list[str]:
    return list(dict.fromkeys(run.job for run, _, _ in standing.executing if run.job is not None))


def _keys(looked: Looked, standing: Standing, state: str) -> list[str] | None:
    if state == "look":
        return look_jobs(standing)[:MOST_KEYS]
    if state == "executing":
        return _executing(standing)[:MOST_KEYS]
    return looked.store.paused_jobs(MOST_KEYS) if state == "paused" else None


def _page_of(looked: Looked, text: str, group: str, keys: list[str] | None, sort: str, state: str) -> tuple[list[Any], str]:
    """A page of rows, and the address of the next one."""
    after = looked.get("after", 2000)
    if sort == "next":
        at, _, key = after.partition(" ")
        if after and not (at.isascii() and at.isdigit() and len(at) < 19):
            raise Refused(404, "There is no such page of the list")
        rows = looked.store.find_by_next(text, group, keys, (int(at) if at else 0, key), ROWS + 1)
        mark = f"{rows[ROWS - 1]['next']} {rows[ROWS - 1]['key']}" if len(rows) > ROWS else ""
    else:
        rows = looked.store.find(text, group, keys, after, ROWS + 1)
        mark = rows[ROWS - 1]["key"] if len(rows) > ROWS else ""
    older = addresses.query("/jobs", q=text, group=group, state=state, sort=sort if sort != "name" else "", after=mark) if mark else ""
    return rows[:ROWS], older


def state_of(triggers: list[Any], last_state: str, is_bad: bool) -> tuple[str, str]:
    """The state of a job, and the word for it."""
    states = {TRIGGER_STATES.get(row["state"], "waiting") for row in triggers}
    if "error" in states:
        return "error", "ERROR"
    if last_state == "long":
        return "long", "executing, long"
    if is_bad:
        return last_state, f"{last_state} last"
    if "paused" in states:
        return "paused", "paused"
    if last_state == "executing":
        return "executing", "executing"
    if states == {"blocked"}:
        return "blocked", "blocked"
    return "waiting", "waiting" if states - {"complete"} else "no time to come"


def _row(looked: Looked, row: Any, standing: Standing) -> dict[str, Any]:
    runs = looked.history.recent(row["key"])
    usual = usual_of(runs)
    last = runs[0] if runs else None
    state = shown(last, usual, looked.clock.present) if last is not None else ""
    ended = next((run for run in runs if run.state != "runs"), None)
    is_bad = ended is not None and any(it.job == row["key"] and it.state in ("failed", "lost", "missing") for it in standing.open)
    triggers = looked.store.triggers_of(row["key"])
    name, word = state_of(triggers, ended.state if is_bad and ended is not None and state != "long" else state, is_bad)
    return {"key": row["key"], "job": Key(row["grp"], row["name"]), "state": name, "word": word,
            "strip": strip_of(runs, looked.clock.present), "last": last,
            "last_state": state, "lasted": last.lasted(looked.clock.present) if last is not None else None, "usual": usual,
            "next": row["next"]}
