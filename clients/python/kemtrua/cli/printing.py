"""Prints rows and replies for people, with times by the local clock."""
from __future__ import annotations

from collections.abc import Iterable, Sequence

from .. import clock, replies, rows
from . import screen
from .objects import Object


def table(head: Sequence[str], body: Iterable[Sequence[object]]) -> str:
    """Columns, each as wide as its widest cell."""
    return screen.table(head, body)


def plain(key: object) -> str:
    """A key without the group that is meant where none is named."""
    return str(key).removeprefix("DEFAULT/")


def jobs(found: Iterable[rows.JobRow]) -> str:
    return table(["JOB", "CLASS", "DURABLE", "EXCLUSIVE", "RECOVERS"],
                 [[plain(row.key), row.klass, *("yes" if flag else "no" for flag in (row.durable, row.no_concurrent, row.requests_recovery))] for row in found])


def triggers(found: Iterable[rows.TriggerRow]) -> str:
    return table(["TRIGGER", "JOB", "STATE", "NEXT", "LAST", "FIRED", "KIND"],
                 [[plain(row.key), plain(row.job), row.state, clock.local(row.next), clock.local(row.prev), row.times, row.kind] for row in found])


def nodes(found: Iterable[Object]) -> str:
    lines = [[it["node"], "-" if it["epoch"] is None else it["epoch"], it["state"], local_of(it["last"]), f"{span_of(it['interval'])} s", it["runs"],
              it.get("workers", "-"), f"{it['skew']} ms" if "skew" in it else "-"] for it in found]
    return table(["NODE", "EPOCH", "STATE", "LAST CHECK-IN", "EACH", "RUNS", "OF", "CLOCK AHEAD"], lines)


def team(told: Object, hubs: Sequence[Object]) -> str:
    """Who leads, and a line for each hub."""
    leads = f"{told['leader']} leads, in term {told['term']}" if "leader" in told else "no hub leads at this moment"
    alarms = told.get("alarms")
    alarm = f"; ALARM {' '.join(map(str, alarms))}" if isinstance(alarms, list) and alarms else ""
    size, used = mebibytes(told["etcd_bytes"]), mebibytes(told["etcd_used"])
    lines = [f"team {told['team']}: {leads}",
             f"etcd has {told['places']} blocks of the stores {told.get('stores', '-')}; "
             f"its database has {size} MiB, of which {used} are in use{alarm}"]
    body = [[it["hub"], "leads" if it["leads"] else "stands by", it["behind"], it["version"], local_of(it["said"]), it["address"]]
            for it in hubs]
    return "\n".join([*lines, table(["HUB", "PART", "BLOCKS BEHIND", "VERSION", "SAID SO", "ADDRESS"], body)])


def mebibytes(count: object) -> str:
    return f"{count / 2**20:.1f}" if isinstance(count, int) else "-"


def local_of(moment: object) -> str:
    return clock.local(moment if isinstance(moment, int) else None)


def span_of(ms: object) -> int:
    return ms // 1000 if isinstance(ms, int) else 0


def entries(found: Iterable[rows.EntryRow]) -> str:
    return table(["ENTRY", "NODE", "TRIGGER", "STATE", "FOR", "BEGAN"],
                 [[row.entry, row.node, plain(row.trigger), row.state, clock.local(row.scheduled), clock.local(row.at)] for row in found])


def others(found: Iterable[rows.OtherRow]) -> str:
    return "\n".join(" ".join([row.word, *row.rest]) for row in found)


def next_(time: int | None) -> str:
    return f"next {clock.local(time)} ({time})" if time is not None else "nothing waits"


def shown(row: rows.JobRow | rows.TriggerRow | rows.EntryRow) -> str:
    """A row that was asked for, member by member."""
    times = {"next", "prev", "start", "scheduled", "at"}
    lines = []
    for name, value in vars(row).items():
        if value is not None:
            text = f"{clock.local(value)} ({value})" if name in times else screen.harmless(str(value))
            lines.append(f"{'class' if name == 'klass' else name:18} {text}")
    return "\n".join(lines)


def answer(reply: replies.Reply) -> str:
    """What came of a step."""
    if isinstance(reply, replies.Done):
        return "ok" if reply.next is None else f"ok, next {clock.local(reply.next)}"
    if isinstance(reply, replies.Triggered):
        return f"ok, as trigger {reply.trigger}"
    if isinstance(reply, replies.Deleted):
        return f"ok, with {reply.triggers} triggers"
    return str(reply)
