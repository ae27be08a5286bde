"""Executions, the latest first: the same as `kemtrua history`."""
from __future__ import annotations

from typing import Any

from kemtrua.names import Key

from .. import addresses
from ..moments import DAY
from ..queries import LOOKED_AT, UNINDEXED, Wanted
from ..safety import Refused
from ..site import Looked
from ..states import BAD, shown
from .now import since_of

ROWS = 50
MOST = 10_000  # that are counted
SPANS = {"night": "last night", "24h": "24 hours", "7d": "7 days", "90d": "90 days"}
RESULTS = {"": "All", "failed": "Failed", "lost": "Lost", "missing": "Missing", "missed": "Didn't fire", "misfired": "Misfired",
           "executing": "Executing",
           "recovery": "Recoveries", "ended": "Ended, untold", "done": "Done"}


def before_of(text: str) -> tuple[int, int, int] | None:
    """Where a page of the list goes on: the moment, generation and entry of the row that came last."""
    if not text:
        return None
    parts = text.split(".")
    if len(parts) != 3 or not all(part.isascii() and part.isdigit() and len(part) < 19 for part in parts):
        raise Refused(404, "There is no such page of the list")
    fired, generation, entry = map(int, parts)
    return fired, generation, entry


def page(looked: Looked) -> tuple[str, dict[str, Any]]:
    result, since = looked.get("result"), looked.get("since") or "24h"
    if result not in RESULTS or since not in SPANS:
        raise Refused(404, "There is no such list", "Results and spans are those that the page offers.")
    text, node = looked.get("job"), looked.get("node")
    jobs = _jobs(looked, text)
    moment = looked.clock.present - 90 * DAY if since == "90d" else since_of(since, looked.clock)
    common = {"tab": "executions", "live": not looked.get("before"), "result": result, "since": since, "spans": SPANS, "results": RESULTS,
              "job": text, "node": node,
              "nodes": sorted({row["node"] for row in looked.store.nodes()} | set(looked.history.loads())), "jobs_found": jobs,
              "looked_at": LOOKED_AT if result in UNINDEXED else None}
    if result in ("missed", "misfired"):
        return "executions", common | _not_fired(looked, result, moment)
    wanted = Wanted(result, jobs[0] if jobs else None if not text else "", node, moment, before_of(looked.get("before")), ROWS + 1)
    runs = looked.history.listed(wanted)
    more = len(runs) > ROWS
    runs = runs[:ROWS]
    count = looked.history.count(wanted, MOST)
    rows = [{"run": run, "state": shown(run, None, looked.clock.present), "is_bad": run.state in BAD} for run in runs]
    older = addresses.query("/executions", result=result, since=since, job=text, node=node,
                            before=f"{runs[-1].fired}.{runs[-1].generation}.{runs[-1].entry}") \
        if more else ""
    return "executions", common | {"rows": rows, "count": count, "is_counted": count < MOST, "older": older, "missed": [], "misfired": []}


def _jobs(looked: Looked, text: str) -> list[str]:
    """The job that a text means: its key, or else the first whose name has it."""
    if not text:
        return []
    key = str(Key.of_user(text))
    if looked.store.job(key) is not None or looked.history.recent(key, 1):
        return [key]
    found = looked.store.find(text, "", None, "", 2)
    return [row["key"] for row in found]


def _not_fired(looked: Looked, result: str, since: int) -> dict[str, Any]:
    """What didn't run: triggers that are paused or in ERROR past their time, and what was misfired."""
    missed: list[dict[str, Any]] = []
    misfired: list[Any] = []
    if result == "missed":
        for row in looked.store.in_state(["ERROR", "PAUSED", "PAUSED_BLOCKED"]):
            if row["next"] is not None and row["next"] < looked.clock.present:
                times = looked.site.definitions.times([row["key"]], row["next"] - 1, 200) if len(missed) < ROWS else {}
                passed = sum(1 for at in times.get(row["key"], [row["next"]]) if at < looked.clock.present)
                why = "its trigger is in ERROR" if row["state"] == "ERROR" else "its trigger is paused"
                missed.append({"job": row["job"], "trigger": row["key"], "at": row["next"], "count": max(passed, 1), "why": why})
    else:
        misfired = looked.history.events(["misfired"], since, ROWS)
    return {"rows": [], "count": len(missed) or len(misfired), "is_counted": True, "older": "", "missed": missed, "misfired": misfired}
