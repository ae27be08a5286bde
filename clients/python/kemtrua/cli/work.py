"""What the commands of `kemtrua` do."""
from __future__ import annotations

import argparse
import sys
import time
from collections.abc import Callable, Iterator
from contextlib import contextmanager

from .. import clock, files, rows
from ..checking import Line
from ..connection import Connection
from ..errors import BadLine, BadSettings, HubRefused, KemtruaError, Refused
from ..folder import held_stores
from ..hub.rights import OPERATORS_NODE
from ..hubs import Hubs, addresses_of
from ..names import Key
from ..program import call, wait_until_free
from ..replies import Reply, read
from ..scheduler import Scheduler
from ..settings import read_node
from ..store import Store
from ..zones import stretches_of
from . import calendars, common, objects, printing

Words = argparse.Namespace


def scheduler_of(given: Words) -> Connection | Store:
    return Store(given.folder, given.program, wait_for_lock=1.0) if given.folder is not None else hub_of(given)


def hub_of(given: Words) -> Connection:
    return Hubs(addresses_of(given.hub), common.tls_of(given), span(given.within) / 1000).connect()


def any_hub_of(given: Words) -> Connection:
    """The hub that leads, or where none does another one."""
    return Hubs(addresses_of(given.hub), common.tls_of(given), span(given.within) / 1000).connect_to_any()


def said(reply: Reply) -> int:
    print(printing.answer(reply))
    return 0


def add(given: Words) -> int:
    found = [files.read(path) for path in given.files]
    wrong = [text for one in found for text in one.wrong]
    if wrong:
        print("\n".join(wrong), file=sys.stderr)
        print(f"kemtrua: {len(wrong)} places are wrong; nothing was added", file=sys.stderr)
        return 1
    lines = [pair for one in found for pair in one.lines]
    with scheduler_of(given) as scheduler:
        refused = _send(scheduler, lines, given.replace)
    print(f"{len(lines) - refused} lines were done, {refused} were refused")
    return 1 if refused else 0


def _send(scheduler: Scheduler, lines: list[tuple[str, Line]], replaces: bool) -> int:
    """How many lines were refused. Says how far it is, where somebody looks."""
    refused, told, looks = 0, time.monotonic(), sys.stderr.isatty()
    for number, (place, line) in enumerate(lines, 1):
        if replaces and line["do"] in ("add_job", "add_trigger", "add_calendar"):
            line = {**line, "replace": True}
        try:
            read(scheduler.answer(line))
        except Refused as error:
            refused += 1
            print(f"{place}: {error}", file=sys.stderr)
        except KemtruaError:
            print(f"{place}: {number - 1 - refused} lines before it were done, {refused} were refused; this one was done or not", file=sys.stderr)
            raise
        if looks and time.monotonic() - told >= 0.5:
            told = time.monotonic()
            print(f"\r{number} of {len(lines)} lines ", end="", file=sys.stderr, flush=True)
    if looks:
        print("\r" + " " * 40 + "\r", end="", file=sys.stderr, flush=True)
    return refused


def add_job(given: Words) -> int:
    job: Line = {**Key.of_user(given.name).members(), "class": given.klass, "data": given.data, "durable": given.durable,
                 "no_concurrent": given.exclusive, "requests_recovery": given.recover}
    with scheduler_of(given) as scheduler:
        return said(scheduler.add_job(job, given.replace))


def add_trigger(given: Words) -> int:
    job = Key.of_user(given.job)
    trigger: Line = {**Key.of_user(given.name).members(), "job": job.name, "job_group": job.group, "priority": given.priority,
                     "misfire": given.misfire, "start": moment(given.start)}
    if given.cron is not None:
        trigger |= {"kind": "cron", "cron": given.cron, "zone": given.zone or "UTC"}
    elif given.every is not None:
        trigger |= {"kind": "simple", "interval": span(given.every), "count": given.count}
    else:
        trigger |= {"kind": "simple", "start": moment(given.at)}
    trigger |= {"end": moment(given.end)} if given.end else {}
    trigger |= {"calendar": given.calendar} if given.calendar else {}
    with scheduler_of(given) as scheduler:
        return said(scheduler.add_trigger(trigger, given.replace))


def add_calendar(given: Words) -> int:
    calendar: Line = {"name": given.name, **calendars.calendar_of(given.kind, given.values, given.inverted)}
    calendar |= {name: value for name, value in (("base", given.base), ("zone", given.zone)) if value is not None}
    with scheduler_of(given) as scheduler:
        return said(scheduler.add_calendar(calendar, given.replace))


def add_zone(given: Words) -> int:
    with scheduler_of(given) as scheduler:
        return said(scheduler.add_zone(given.name, stretches_of(given.name)))


def check(given: Words) -> int:
    bad = 0
    for path in given.files:
        if path.endswith(".toml"):
            print(f"{path}: settings of the node {read_node(path).name}, all right")
            continue
        found = files.read(path)
        print("\n".join(found.wrong) or f"{path}: {found.kind} of {len(found.lines)} lines, all right")
        bad += bool(found.wrong)
    return 1 if bad else 0


def list_(given: Words) -> int:
    lines = _listed(given)
    if given.raw:
        print("\n".join(lines))
        return 0
    found = [rows.row_of(line) for line in lines]
    jobs = [row for row in found if isinstance(row, rows.JobRow)]
    triggers = [row for row in found if isinstance(row, rows.TriggerRow)]
    entries = [row for row in found if isinstance(row, rows.EntryRow)]
    others = [row for row in found if isinstance(row, rows.OtherRow)]
    nodes = objects.nodes(found, _loads(given) if given.what in ("nodes", "all") else ())
    parts: dict[str, tuple[list[objects.Object], Callable[[], str]]] = {
        "jobs": ([objects.job(row) for row in jobs], lambda: printing.jobs(jobs)),
        "triggers": ([objects.trigger(row) for row in triggers], lambda: printing.triggers(triggers)),
        "nodes": (nodes, lambda: printing.nodes(nodes)),
        "running": ([objects.entry(row) for row in entries], lambda: printing.entries(entries)),
        "others": ([objects.other(row) for row in others], lambda: printing.others(others)),
    }
    wanted = [part for name, part in parts.items() if given.what in (name, "all")]
    print(objects.text(one for part, _ in wanted for one in part) if given.json else "\n\n".join(shown() for _, shown in wanted))
    return 0


def _loads(given: Words) -> list[objects.Object]:
    """What nodes told of their workers and clocks, where a hub keeps that."""
    if given.folder is not None:
        return []
    with hub_of(given) as hub:
        try:
            return hub.rows("loads")
        except HubRefused:
            return []


def _listed(given: Words) -> list[str]:
    if given.folder is not None:
        with held_stores(given.folder, 1.0) as stores:
            wait_until_free(stores, 1.0)
            return call(given.program, stores, "list").splitlines()
    with hub_of(given) as hub:
        return hub.listed()


def show(given: Words) -> int:
    if (given.what == "next") != (given.name is None):
        raise BadSettings("show job NAME, show trigger NAME, show entry NUMBER, or show next")
    with scheduler_of(given) as scheduler:
        if given.what == "next":
            time_ = scheduler.show_next()
            print(objects.text([{"row": "next", "next": time_}]) if given.json else printing.next_(time_))
            return 0
        row = _row(scheduler, given.what, given.name)
    if given.json:
        print(objects.text([] if row is None else [objects.of_row(row)]))
    else:
        print(f"no such {given.what}" if row is None else printing.shown(row))
    return 1 if row is None else 0


def _row(scheduler: Scheduler, what: str, name: str) -> rows.JobRow | rows.TriggerRow | rows.EntryRow | None:
    if what == "entry":
        if not name.isdecimal():
            raise BadSettings(f"{name!r} is no entry number")
        return scheduler.show_entry(int(name))
    return scheduler.show_job(Key.of_user(name)) if what == "job" else scheduler.show_trigger(Key.of_user(name))


def pause(given: Words) -> int:
    pauses = given.word == "pause"
    with scheduler_of(given) as scheduler:
        if given.what == "trigger":
            key = Key.of_user(given.name)
            return said(scheduler.pause_trigger(key) if pauses else scheduler.resume_trigger(key))
        if given.what == "group":
            return said(scheduler.pause_group(given.name) if pauses else scheduler.resume_group(given.name))
        return said(scheduler.pause_job_group(given.name) if pauses else scheduler.resume_job_group(given.name))


def reset(given: Words) -> int:
    with scheduler_of(given) as scheduler:
        return said(scheduler.reset_trigger(Key.of_user(given.name)))


def now(given: Words) -> int:
    with scheduler_of(given) as scheduler:
        return said(scheduler.trigger_now(Key.of_user(given.name)))


def delete(given: Words) -> int:
    with scheduler_of(given) as scheduler:
        if given.what == "job":
            return said(scheduler.delete_job(Key.of_user(given.name)))
        if given.what == "trigger":
            return said(scheduler.delete_trigger(Key.of_user(given.name)))
        return said(scheduler.delete_calendar(given.name) if given.what == "calendar" else scheduler.delete_zone(given.name))


def threshold(given: Words) -> int:
    with scheduler_of(given) as scheduler:
        return said(scheduler.threshold(span(given.span)))


@contextmanager
def _as_node(given: Words) -> Iterator[Scheduler]:
    """A scheduler at which the operator is a node for a moment: a node is recovered by another node."""
    with scheduler_of(given) as scheduler:
        scheduler.join(OPERATORS_NODE, 15000)
        try:
            yield scheduler
        finally:
            scheduler.leave(OPERATORS_NODE)


def recover(given: Words) -> int:
    with _as_node(given) as scheduler:
        found = scheduler.recover(OPERATORS_NODE, given.node)
    print(f"{given.node} is recovered: {found.executions} executions were lost, {found.triggers} of them come again")
    return 0


def forget(given: Words) -> int:
    with _as_node(given) as scheduler:
        return said(scheduler.forget(OPERATORS_NODE, given.node))


def clock_(given: Words) -> int:
    if given.folder is not None:
        raise BadSettings("clock asks a hub: a store has no clock of its own")
    with hub_of(given) as hub:
        if given.word == "accept":
            print(f"accepted: {clock.local(hub.accept_clock())}")
            return 0
        try:
            before = clock.now()
            shown = hub.clock()
        except HubRefused as refused:
            raise BadSettings(str(refused)) from None
        skew = (before + clock.now()) // 2 - shown
    print(f"the hub's clock shows {clock.local(shown)}; this machine's is {abs(skew) / 1000:.1f} s {'ahead' if skew > 0 else 'behind'}")
    return 0


def moment(text: str) -> int:
    try:
        return clock.moment_of(text)
    except ValueError as error:
        raise BadLine([error]) from None


def span(text: str) -> int:
    try:
        return clock.span_of(text)
    except ValueError as error:
        raise BadLine([error]) from None
