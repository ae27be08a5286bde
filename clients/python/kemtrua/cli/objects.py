"""Rows as JSON objects, for scripts. Members are only ever added to them."""
from __future__ import annotations

import json
from collections.abc import Iterable, Sequence

from .. import clock, rows
from ..ledger import DEFAULT_INTERVAL
from ..names import Key
from ..patience import MARGIN

Object = dict[str, object]


def _key(key: Key, before: str = "") -> Object:
    return {before or "name": key.name, f"{before}_group" if before else "group": key.group}


def job(row: rows.JobRow) -> Object:
    more: Object = {} if row.data is None else {"data": row.data}
    return {"row": "job", **_key(row.key), "class": row.klass, "durable": row.durable, "no_concurrent": row.no_concurrent,
            "requests_recovery": row.requests_recovery, **more}


def trigger(row: rows.TriggerRow) -> Object:
    found: Object = {"row": "trigger", **_key(row.key), **_key(row.job, "job"), "state": row.state, "next": row.next, "prev": row.prev, "times": row.times,
                     "priority": row.priority, "start": row.start, "kind": row.kind}
    if row.count is not None:
        found["count"] = row.count
    if row.misfire is not None:
        found |= {"misfire": row.misfire}
        found |= {"calendar": row.calendar, "zone": row.zone}
    return found


def entry(row: rows.EntryRow) -> Object:
    found: Object = {"row": "entry", "entry": row.entry, "node": row.node, "epoch": row.epoch, **_key(row.trigger, "trigger"), "state": row.state,
                     "scheduled": row.scheduled, "at": row.at}
    if row.job is not None:
        found |= _key(row.job, "job")
        found |= {"class": row.klass, "data": row.data}
    return found


def nodes(found: Sequence[rows.Row], loads: Iterable[Object] = ()) -> list[Object]:
    """All members, and all nodes with a check-in: `lives`, `late`, or `gone` where it is no member; with what the living told of their workers and clock."""
    told = {load["node"]: {"workers": load["workers"], "skew": load["skew"]} for load in loads}
    members = {row.node: row.epoch for row in found if isinstance(row, rows.MemberRow)}
    seen = {row.node: row for row in found if isinstance(row, rows.CheckInRow)}
    busy = [row.node for row in found if isinstance(row, rows.EntryRow) and row.executes]
    objects: list[Object] = []
    for node in sorted({*members, *seen}):
        row = seen.get(node)
        late = row is not None and row.last + row.interval + MARGIN < clock.now()
        objects.append({"row": "node", "node": node, "epoch": members.get(node), "state": ("late" if late else "lives") if node in members else "gone",
                        "last": row.last if row else None, "interval": row.interval if row else DEFAULT_INTERVAL, "runs": busy.count(node),
                        **(told.get(node, {}) if node in members else {})})
    return objects


def other(row: rows.OtherRow) -> Object:
    return {"row": row.word, "words": list(row.rest)}


def of_row(row: rows.JobRow | rows.TriggerRow | rows.EntryRow | rows.OtherRow) -> Object:
    if isinstance(row, rows.JobRow):
        return job(row)
    if isinstance(row, rows.TriggerRow):
        return trigger(row)
    return entry(row) if isinstance(row, rows.EntryRow) else other(row)


def text(found: Iterable[Object]) -> str:
    """A list of objects, one on a line."""
    return "[" + ",\n ".join(json.dumps(one) for one in found) + "]"
