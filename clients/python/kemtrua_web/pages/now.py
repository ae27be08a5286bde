"""What ran since last night, what didn't, and what needs somebody."""
from __future__ import annotations

from typing import Any

from kemtrua.patience import MARGIN

from ..digest import BIN, Digest, OfJob
from ..moments import DAY, HOUR, Clock, span
from ..plots import Axis, Bar, bar_of, put_in_rows, strip_of
from ..queries import usual_of
from ..rows import Store
from ..safety import Refused
from ..site import Looked
from ..standing import Standing, Trouble, look_jobs
from ..states import shown

SPANS = ("night", "24h", "7d")
WORDS = {"night": "Last night", "24h": "24 h", "7d": "7 days"}
BARS, RAN, LISTED = 60, 50, 8  # bars of a night, rows of what ran, and rows of a rail


def since_of(name: str, clock: Clock) -> int:
    return {"night": clock.last_night(), "24h": clock.present - DAY, "7d": clock.present - 7 * DAY}[name]


def count_open(looked: Looked) -> int:
    return len(look_jobs(looked.site.standing(looked, looked.clock.last_night(), "night")))


def page(looked: Looked) -> tuple[str, dict[str, Any]]:
    name = looked.get("since") or "night"
    if name not in SPANS:
        raise Refused(404, "There is no such span", "Since when: night, 24h or 7d.")
    if looked.store.as_of is not None and not looked.store.count("jobs") and looked.history.oldest() is None:
        return "empty", {"tab": "now", "count_open": 0, "live": True, "nodes": looked.store.count("members")}
    since = since_of(name, looked.clock)
    standing, digest = looked.site.standing(looked, since, name), looked.site.digest(since, looked.clock.present + 1, name)
    gathered, open_ = standing.gathered()
    return "now", {
        "tab": "now", "live": True, "name": name, "spans": WORDS, "since": since, "standing": standing, "gathered": gathered,
        "open": open_[:RAN],
        "count_open": len(look_jobs(standing)), "rows_open": _with_strips(looked, open_[:RAN]),
        "rows_quiet": _with_strips(looked, standing.settled + standing.asked),
        "tally": _tally(looked, standing, digest, since), "digest": digest, "night": _night(looked, digest, since),
        "ran": [_ran(looked, it, it.job in digest.frequent) for it in digest.first[:RAN]], "count_ran": len(digest.jobs),
        "nodes": nodes_of(looked.store, looked.clock),
        "soon": looked.store.next_to_fire(looked.clock.present, 5), "executing": standing.executing[:LISTED],
        "expects": looked.history.events(["expect"], looked.clock.present - DAY, LISTED), "room": looked.site.room()}


def _tally(looked: Looked, standing: Standing, digest: Digest, since: int) -> list[tuple[str, int, str, str]]:
    """Counts: state, number, word, and the list that has them."""
    misfired = looked.history.count_events(["misfired"], since)
    missed = sum(it.passed for it in standing.asked + standing.open)
    rows = [("failed", digest.counts["failed"], "failed"), ("lost", digest.counts["lost"], "lost"), ("missed", missed, "didn't fire"),
            ("misfired", misfired, "misfired"),
            ("executing", looked.history.count_open(), "executing"), ("done", digest.counts["done"], "done")]
    return [(state, count, word, f"/executions?result={state}&since={looked.get('since') or 'night'}") for state, count, word in rows]


def _with_strips(looked: Looked, troubles: list[Trouble]) -> list[tuple[Trouble, Any]]:
    return [(it, strip_of(looked.history.recent(it.job), looked.clock.present)) for it in troubles]


def _ran(looked: Looked, it: OfJob, is_frequent: bool) -> dict[str, Any]:
    """A row of what ran: a job's last execution in the span, beside its usual."""
    runs = looked.history.recent(it.job)
    usual = usual_of(runs)
    last = runs[0]
    state = shown(last, usual, looked.clock.present)
    lasted = last.lasted(looked.clock.present)
    part = None if usual is None or usual.middle <= 0 else lasted / usual.middle
    return {"job": it.job, "count": it.count, "done": it.done, "bad": it.bad, "is_frequent": is_frequent, "last": last, "state": state,
            "lasted": lasted, "usual": usual,
            "part": part}


def _night(looked: Looked, digest: Digest, since: int) -> dict[str, Any]:
    """The plot: bars where there are few executions, else counts for each quarter of an hour."""
    clock = looked.clock
    axis = Axis(since, clock.present + max((clock.present - since) // 45, 1), clock)
    long_span = clock.present - since > 2 * DAY
    marks = axis.days() if long_span else axis.hours(1 if clock.present - since <= 18 * HOUR else 3)
    common = {"marks": marks, "turns": axis.turns(), "now": axis.x(clock.present)}
    if digest.rare <= BARS and not long_span:
        return common | _bars(looked, axis, digest)
    return common | _counts(axis, digest)


def _bars(looked: Looked, axis: Axis, digest: Digest) -> dict[str, Any]:
    frequent = digest.frequent
    bars: list[Bar] = []
    bad: list[Bar] = []
    for it in digest.jobs:
        runs = looked.history.of_job_in_span(it.job, axis.since, axis.until, BARS) if it.job not in frequent else \
            looked.history.troubles_of(it.job, axis.since, BARS)
        usual = usual_of(looked.history.recent(it.job)) if runs else None
        for run in runs:
            bar = bar_of(run, axis, usual)
            name = run.key.name
            bar.label = name if len(name) < 26 else f"{name[:24]}…"
            (bad if it.job in frequent else bars).append(bar)
    bars.sort(key=lambda bar: bar.x)
    many = [it for it in digest.jobs if it.job in frequent]
    return {"kind": "bars", "bars": bars, "rows": put_in_rows(bars, True), "bad": bad, "count_frequent": sum(it.count for it in many),
            "frequent": len(many)}


def _counts(axis: Axis, digest: Digest) -> dict[str, Any]:
    step = BIN if axis.until - axis.since <= 2 * DAY else 4 * HOUR
    bins: dict[int, tuple[int, int]] = {}
    for at, (count, bad) in digest.bins.items():
        before = bins.get(at // step * step, (0, 0))
        bins[at // step * step] = (before[0] + count, before[1] + bad)
    top, worst = max((count for count, _ in bins.values()), default=1), max((bad for _, bad in bins.values()), default=0)
    found = [{"x": axis.inside(at), "count": count, "bad": bad, "at": axis.clock.when(at), "height": round(78 * count / top, 1),
              "low": round(26 * (bad / worst) ** 0.5, 1) if worst else 0} for at, (count, bad) in sorted(bins.items())]
    return {"kind": "counts", "bins": found, "top": top, "worst": worst,
            "width": round(max(100 * step / (axis.until - axis.since) - 0.2, 0.3), 3),
            "step": span(step)}


def nodes_of(store: Store, clock: Clock) -> list[dict[str, Any]]:
    """Members and nodes with a check-in: alive, late, or gone where it is no member, as of when the rows were listed."""
    found, listed = [], store.as_of if store.as_of is not None else clock.present
    for row in store.nodes():
        late = row["last"] is not None and row["last"] + (row["interval"] or 0) + MARGIN < listed
        state = "gone" if row["epoch"] is None else "late" if late else "alive"
        found.append({"node": row["node"], "state": state, "last": row["last"], "interval": row["interval"], "epoch": row["epoch"],
                      "executes": row["executes"]})
    return found

