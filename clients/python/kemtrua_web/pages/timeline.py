"""What met what, and what is to come: a lane for each job or node."""
from __future__ import annotations

from dataclasses import dataclass, field
from itertools import islice
from typing import Any

from kemtrua.names import escape

from .. import addresses
from ..moments import DAY, HOUR, span
from ..plots import Axis, Bar, bar_of, merged, put_in_rows
from ..queries import Usual, usual_of
from ..safety import Refused
from ..site import Looked
from ..standing import look_jobs
from ..states import BAD, Run

HALF = {"day": DAY, "week": 3.5 * DAY}
LANES, DENSE = 40, 60
BARS = 400  # of all nodes' lanes together
DRAWN = 2000  # executions up to which the load is drawn
FAR = 90 * DAY  # ms that one may go back
PLANNED = 200  # fire times of a trigger
STEPS = 400  # of the load


@dataclass
class Lane:
    """One job, or one node."""

    key: str
    name: str
    group: str = ""
    url: str = ""
    bars: list[Bar] = field(default_factory=list)
    planned: list[Bar] = field(default_factory=list)
    meets: list[tuple[float, float, bool]] = field(default_factory=list)
    missed: list[tuple[float, str]] = field(default_factory=list)  # where a fire time didn't fire, and that in words
    rows: int = 1
    count: int = 0
    bad: int = 0
    is_heavy: bool = False
    is_dense: bool = False
    is_first: bool = False
    remark: str = ""
    spans: list[tuple[int, int, str, bool]] = field(default_factory=list)  # begin, end, node, planned


def page(looked: Looked) -> tuple[str, dict[str, Any]]:
    by, name, group = looked.get("by") or "job", looked.get("span") or "day", looked.get("group")
    if by not in ("job", "node") or name not in HALF:
        raise Refused(404, "There is no such timeline", "Lanes are by job or node, spans are day or week.")
    present, half = looked.clock.present, int(HALF[name])
    middle = _middle(looked.get("at"), present)
    axis = Axis(middle - half, middle + half, looked.clock)
    digest = looked.site.digest(axis.since, min(axis.until, present + 1), f"timeline {name} {middle // HOUR if middle != present else ''}")
    lanes, usuals = _by_job(looked, axis, digest, group) if by == "job" else _by_node(looked, axis)
    meets = _meet(lanes) if by == "job" else []
    for lane in lanes:
        lane.meets = meets_of(lane, meets, axis)
        lane.rows = put_in_rows(sorted(lane.bars + lane.planned, key=lambda bar: bar.x), False) or 1
    load, top = _load(looked, axis, lanes, digest.total)
    standing = looked.site.standing(looked, looked.clock.last_night(), "night")
    return "timeline", {
        "tab": "timeline", "live": middle == present, "by": by, "span_name": name, "group": group, "axis": axis, "lanes": lanes,
        "all": len(digest.jobs),
        "marks": axis.days() if name == "week" else axis.hours(3), "turns": axis.turns(), "nights": axis.nights(),
        "now": axis.inside(present),
        "is_now_in": axis.since <= present <= axis.until, "load": load, "top": top, "meets": meets, "first": looked.clock.when(axis.since),
        "last": looked.clock.when(axis.until),
        "earlier": middle - half if middle - half > present - FAR else None, "later": middle + half if middle + half < present + FAR
        else None, "present": middle == present,
        "groups": looked.store.groups(), "count_open": len(look_jobs(standing)), "usuals": usuals, "most": LANES}


def _middle(text: str, present: int) -> int:
    if not text:
        return present
    if not (text.isascii() and text.isdigit() and len(text) < 16):
        raise Refused(404, "There is no such moment", "A moment is ms since 1970.")
    return min(max(int(text), present - int(FAR)), present + int(FAR))


# -- lanes

def _by_job(looked: Looked, axis: Axis, digest: Any, group: str) -> tuple[list[Lane], dict[str, Usual | None]]:
    present = looked.clock.present
    prefix = f"{escape(group)}/" if group else ""
    ranked = list(islice((it for it in digest.ranked if it.job.startswith(prefix)), LANES))
    ran = {it.job: it for it in ranked}
    stuck = _stuck(looked, axis, group)
    wanted = list(dict.fromkeys([*list(stuck)[:LANES // 2], *(it.job for it in ranked)]))[:LANES]
    if axis.until > present:
        soon = looked.store.find_by_next("", group, None, (max(present, axis.since), ""), LANES) if len(wanted) < LANES else []
        wanted += [row["key"] for row in soon if row["key"] not in ran and row["key"] not in stuck
                   and row["next"] <= axis.until][:LANES - len(wanted)]
    usuals, lanes = {}, []
    times = _planned_times(looked, axis, wanted)
    for job in sorted(wanted, key=lambda key: (addresses.group_of(key).casefold(), addresses.name_of(key).casefold())):
        lane = Lane(job, addresses.name_of(job), addresses.group_of(job), addresses.job(job))
        recent = looked.history.recent(job)
        usuals[job] = usual_of(recent)
        lane.is_heavy = _is_heavy(recent)
        lane.is_first = not lanes or lanes[-1].group != lane.group
        count = ran[job].count if job in ran else 0
        lane.count, lane.bad = count, ran[job].bad if job in ran else 0
        lane.is_dense = max(count, len(times.get(job, []))) > DENSE
        _fill(looked, axis, lane, usuals[job], times.get(job, []))
        lane.missed = [(axis.inside(at), f"{lane.name}: didn't fire {looked.clock.when(at)}") for at in stuck.get(job, [])]
        lanes.append(lane)
    return lanes, usuals


def _stuck(looked: Looked, axis: Axis, group: str) -> dict[str, list[int]]:
    """Jobs with a trigger that is paused or in ERROR, and whose fire time in this span passed."""
    found: dict[str, list[int]] = {}
    for row in looked.store.in_state(["ERROR", "PAUSED", "PAUSED_BLOCKED"], 200):
        is_here = not group or addresses.group_of(row["job"]) == group
        if is_here and row["next"] is not None and axis.since <= row["next"] < looked.clock.present:
            found.setdefault(row["job"], []).append(row["next"])
    return found


def _fill(looked: Looked, axis: Axis, lane: Lane, usual: Usual | None, times: list[int]) -> None:
    if lane.is_dense:
        runs = looked.history.troubles_of(lane.key, axis.since, DENSE)
    else:
        runs = looked.history.of_job_in_span(lane.key, axis.since - DAY, axis.until, 2 * DENSE)
    for run in runs:
        if run.fired is not None and run.fired + run.lasted(looked.clock.present) >= axis.since and run.fired < axis.until:
            lane.bars.append(bar_of(run, axis, usual))
            lane.spans.append((run.fired, run.fired + run.lasted(looked.clock.present), run.node, False))
    for at in times if not lane.is_dense else ():
        lane.planned.append(_planned(axis, lane, at, usual))
        lane.spans.append((at, at + int(usual.middle if usual else 0), "", True))
    if not times and axis.until > looked.clock.present:
        lane.remark = _remark(looked, lane.key)


def _planned(axis: Axis, lane: Lane, at: int, usual: Usual | None) -> Bar:
    begin, end = axis.inside(at), axis.inside(at + int(usual.middle if usual else 0))
    as_usual = f", usually {span(usual.middle)}" if usual else ""
    return Bar(None, "planned", begin, round(max(end - begin, 0.12), 3), f"{lane.name}: planned {axis.clock.when(at)}{as_usual}", until=end)


def _remark(looked: Looked, job: str) -> str:
    """Why nothing is planned in this span."""
    triggers = looked.store.triggers_of(job)
    states = {row["state"] for row in triggers}
    if "ERROR" in states:
        return "none: in ERROR"
    if states & {"PAUSED", "PAUSED_BLOCKED"}:
        return "none: paused"
    row = looked.store.job(job)
    if row is None or row["next"] is None or row["next"] <= looked.clock.present:
        return ""
    return f"next {looked.clock.when(row['next'])} →"


def _planned_times(looked: Looked, axis: Axis, jobs: list[str]) -> dict[str, list[int]]:
    """The fire times to come of each job in the span, by the program's own calculation; where that isn't had, the next one that the
    store has."""
    present = looked.clock.present
    if axis.until <= present:
        return {}
    of_job = {row["key"]: (job, row["next"]) for job in jobs for row in looked.store.triggers_of(job)
              if row["state"] in ("WAITING", "ACQUIRED", "BLOCKED") and row["next"] is not None and row["next"] <= axis.until}
    told = looked.site.definitions.times(of_job, max(present, axis.since), PLANNED)
    found: dict[str, list[int]] = {}
    for key, (job, next_) in of_job.items():
        times = [at for at in told[key] if at <= axis.until] if key in told else [next_] if next_ >= axis.since else []
        found.setdefault(job, []).extend(times)
    return found


def _by_node(looked: Looked, axis: Axis) -> tuple[list[Lane], dict[str, Usual | None]]:
    names = sorted({row["node"] for row in looked.store.nodes()} | set(looked.history.loads()))[:LANES]
    usuals: dict[str, Usual | None] = {}
    lanes, most = [], max(BARS // max(len(names), 1), 10)
    for name in names:
        lane = Lane(name, name)
        runs = looked.history.of_node_in_span(name, axis.since, axis.until, 2 * most + 1)
        lane.is_dense, lane.count = len(runs) > most, len(runs)
        for run in _drawn(runs, most):
            job = run.job or ""
            if job not in usuals:
                usuals[job] = usual_of(looked.history.recent(job)) if run.state == "runs" else None
            bar = bar_of(run, axis, usuals[job])
            lane.bars.append(bar)
            lane.spans.append((run.fired or 0, (run.fired or 0) + run.lasted(looked.clock.present), name, False))
        lane.bad = sum(bar.state in BAD for bar in lane.bars)
        lane.remark = f"{most} of the last ones" if lane.is_dense else ""
        lanes.append(lane)
    return lanes, usuals


def _drawn(runs: list[Run], most: int) -> list[Run]:
    """Those that a node's lane draws, so many at most: the wrong, the open, and the longest."""
    return sorted(runs, key=lambda run: (run.state not in BAD, run.state != "runs", -(run.took or 0)))[:most]


def _is_heavy(recent: list[Run]) -> bool:
    """Whether the middle one of a job's executions takes two processors or more for ten minutes or more."""
    known = [run for run in recent if run.took is not None and run.cpu is not None]
    return bool(known) and 2 * sum(run.is_heavy for run in known) >= len(known)


# -- what meets, and how much goes on at once

def _meet(lanes: list[Lane]) -> list[dict[str, Any]]:
    """Pairs of heavy jobs that go on at the same time, those that do so longest first."""
    heavy, found = [lane for lane in lanes if lane.is_heavy], []
    for place, one in enumerate(heavy):
        for two in heavy[place + 1:]:
            meets = [(max(a[0], b[0]), min(a[1], b[1]), a[2] == b[2] and bool(a[2]), a[3] or b[3], a[2]) for a in one.spans
                     for b in two.spans
                     if max(a[0], b[0]) < min(a[1], b[1])]
            if meets:
                past, plans = [it for it in meets if not it[3]], [it for it in meets if it[3]]
                found.append({"one": one.key, "two": two.key, "longest": max(end - begin for begin, end, *_ in meets), "count": len(past),
                              "same": [it[4] for it in past if it[2]], "last": max((it[0] for it in past), default=None),
                              "next": min(((it[0], it[1]) for it in plans), default=None), "at": [(it[0], it[1], it[3]) for it in meets]})
    return sorted(found, key=lambda it: -it["longest"])


def _load(looked: Looked, axis: Axis, lanes: list[Lane], total: int) -> tuple[list[dict[str, Any]], int]:
    """How many executions go on at once, in steps; and how many of them are heavy."""
    if total > DRAWN:
        return [], 0
    present, heavy = looked.clock.present, {lane.key for lane in lanes if lane.is_heavy}
    spans = [(run.fired or 0, (run.fired or 0) + run.lasted(present), run.job in heavy)
             for run in looked.history.in_span(axis.since - DAY, axis.until, DRAWN)]
    spans += [(begin, end, lane.is_heavy) for lane in lanes for begin, end, _, planned in lane.spans if planned]
    counts, heavies = at_once(spans, axis.since, axis.until)
    top, step = max(counts) or 1, (axis.until - axis.since) / STEPS
    return [{"x": round(100 * place / STEPS, 2), "count": count, "heavy": heavies[place], "plan": axis.since + place * step > present,
             "height": round(34 * count / top, 1),
             "tall": round(34 * heavies[place] / top, 1)} for place, count in enumerate(counts) if count], top


def at_once(spans: list[tuple[int, int, bool]], since: int, until: int) -> tuple[list[int], list[int]]:
    """How many go on at the same moment, at most, in each step of a span; and how many heavy ones."""
    changes = sorted([(begin, 1, heavy) for begin, end, heavy in spans] + [(max(end, begin + 1), -1, heavy) for begin, end, heavy in spans])
    most, most_heavy = [0] * STEPS, [0] * STEPS
    count = heavies = place = 0
    for at, change, is_heavy in changes:
        now = min(max((at - since) * STEPS // max(until - since, 1), -1), STEPS - 1)
        for between in range(max(place, 0), now + 1):
            most[between], most_heavy[between] = max(most[between], count), max(most_heavy[between], heavies)
        count, heavies, place = count + change, heavies + change * is_heavy, now
        if 0 <= now < STEPS and at < until:
            most[now], most_heavy[now] = max(most[now], count), max(most_heavy[now], heavies)
    return most, most_heavy


def meets_of(lane: Lane, meets: list[dict[str, Any]], axis: Axis) -> list[tuple[float, float, bool]]:
    """Where this lane's job meets another heavy one: from, how wide, and whether that is planned."""
    found = []
    for planned in (False, True):
        spans = merged((begin, end) for it in meets if lane.key in (it["one"], it["two"]) for begin, end, plan in it["at"]
                       if plan is planned)
        found += [(axis.inside(begin), round(max(axis.inside(end) - axis.inside(begin), 0.2), 3), planned) for begin, end in spans]
    return found
