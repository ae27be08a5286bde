#!/usr/bin/env python3
"""A small stand-in for `qz_sched`, for tests of the client without the proved program: `init`, `list`, `script`, `history` and `compact`.

It knows jobs, simple triggers, members, executions, check-ins and the lines that ask, each in its plain case. Of calendars it knows the names, and of groups
those of jobs. Zones, cron texts and groups of triggers it doesn't know. It keeps the trigger store's journal in its real form as far as `kemtrua.journal` reads it, and its
tables past the end of the state store's; with STAND_IN_STATES=journal that file grows, as the program's does. The variable STAND_IN names faults to make: `fault:N` answers `fault` to the Nth transaction and `closed`
then, `full:N` ends with status 7 there, and `die:N` ends without an answer, once the transaction is done. `version:V` is a program of that version, `before` one that
doesn't know `show_room`, and `compact:S` and `history:S` one whose word of that name ends with that status.
"""
from __future__ import annotations

import fcntl
import json
import os
import sys
import time
from dataclasses import dataclass, field

# (the module alone: the whole package takes longer to load than most tests take)
sys.path.insert(0, os.path.join(os.path.dirname(os.path.abspath(__file__)), "..", "kemtrua"))

from names import Key, escape  # noqa: E402
from stand_in_files import COMMANDS, STATES, TRIGGERS, Journal, history, load, make_compacted, record, save, told  # noqa: E402

with open(os.path.join(sys.path[0], "__init__.py")) as package:
    VERSION = next(line.split('"')[1] for line in package if line.startswith("__version__"))


class Refusal(Exception):
    pass


@dataclass
class Job:
    klass: str
    durable: bool
    exclusive: bool
    asks: bool
    data: str


@dataclass
class Trigger:
    job: Key
    start: int
    interval: int
    count: int
    misfire: int
    priority: int
    next: int | None
    prev: int | None = None
    times: int = 0
    state: str = "WAITING"


@dataclass
class Row:
    node: str
    epoch: int
    trigger: Key
    job: Key
    scheduled: int
    exclusive: bool
    asks: bool
    at: int | None = None


@dataclass
class Tables:
    jobs: dict[Key, Job] = field(default_factory=dict)
    triggers: dict[Key, Trigger] = field(default_factory=dict)
    threshold: int = 60000
    calendars: set[str] = field(default_factory=set)
    members: dict[str, int] = field(default_factory=dict)
    rows: dict[int, Row] = field(default_factory=dict)
    states: dict[str, tuple[int, int]] = field(default_factory=dict)
    next_entry: int = 1
    next_epoch: int = 1
    last: int = 0
    check_ins: int = 0


def text(value):
    return "none" if value is None else str(value)


class Script:
    def __init__(self, tables: Tables):
        self.tables, self.held, self.changed = tables, {}, False

    def member(self, line):
        node = line["node"]
        live = self.tables.members.get(node)
        if live != self.held[node]:
            raise Refusal(f"1 live {text(live)}")
        return node

    def row(self, line):
        node, row = self.member(line), self.tables.rows.get(line["entry"])
        if row is None:
            raise Refusal("15")
        if row.node != node:
            raise Refusal(f"16 owner {escape(row.node)} {row.epoch}")
        return row

    def free(self, key):
        self.tables.rows = {entry: row for entry, row in self.tables.rows.items() if row.trigger != key or row.at is not None}

    def add_job(self, line, now):
        job = line["job"]
        key = Key(job.get("group", "DEFAULT"), job["name"])
        if key in self.tables.jobs and not line.get("replace"):
            raise Refusal("7")
        self.tables.jobs[key] = Job(job["class"], job.get("durable", False), job.get("no_concurrent", False), job.get("requests_recovery", False), job.get("data", ""))
        return "ok"

    def delete_job(self, line, now):
        key = Key(line.get("group", "DEFAULT"), line["name"])
        if self.tables.jobs.pop(key, None) is None:
            raise Refusal("3")
        gone = [one for one, trigger in self.tables.triggers.items() if trigger.job == key]
        for one in gone:
            self.free(one)
            del self.tables.triggers[one]
        return f"deleted {len(gone)}"

    def add_trigger(self, line, now):
        given = line["trigger"]
        key, job = Key(given.get("group", "DEFAULT"), given["name"]), Key(given.get("job_group", "DEFAULT"), given["job"])
        if job not in self.tables.jobs:
            raise Refusal("3")
        if key in self.tables.triggers and not line.get("replace"):
            raise Refusal("8")
        self.free(key)
        self.put(key, Trigger(job, given["start"], given.get("interval", 0), given.get("count", 0), given.get("misfire", 0), given.get("priority", 5), given["start"]))
        return f"ok next {given['start']}"

    def put(self, key, trigger):
        if any(row.job == trigger.job and row.exclusive and row.at is not None for row in self.tables.rows.values()):
            trigger.state = "BLOCKED"
        self.tables.triggers[key] = trigger

    def trigger_of(self, line):
        key = Key(line.get("group", "DEFAULT"), line["name"])
        if key not in self.tables.triggers:
            raise Refusal("4")
        return key, self.tables.triggers[key]

    def delete_trigger(self, line, now):
        key, trigger = self.trigger_of(line)
        self.free(key)
        del self.tables.triggers[key]
        self.orphan(trigger.job)
        return "ok"

    def pause_trigger(self, line, now):
        key, trigger = self.trigger_of(line)
        self.free(key)
        trigger.state = {"WAITING": "PAUSED", "ACQUIRED": "PAUSED", "BLOCKED": "PAUSED_BLOCKED"}.get(trigger.state, trigger.state)
        return "ok"

    def resume_trigger(self, line, now):
        _, trigger = self.trigger_of(line)
        trigger.state = {"PAUSED": "WAITING", "PAUSED_BLOCKED": "BLOCKED"}.get(trigger.state, trigger.state)
        return "ok"

    def reset_trigger(self, line, now):
        _, trigger = self.trigger_of(line)
        if trigger.state != "ERROR":
            raise Refusal("29")
        trigger.state = "WAITING"
        return "ok"

    def pause_job_group(self, line, now, states=("WAITING", "PAUSED")):
        for trigger in self.tables.triggers.values():
            if trigger.job.group == line["group"] and trigger.state == states[0]:
                trigger.state = states[1]
        return "ok"

    def resume_job_group(self, line, now):
        return self.pause_job_group(line, now, ("PAUSED", "WAITING"))

    def threshold(self, line, now):
        self.tables.threshold = line["ms"]
        return "ok"

    def add_calendar(self, line, now):
        if line["calendar"]["name"] in self.tables.calendars and not line.get("replace"):
            raise Refusal("9")
        self.tables.calendars.add(line["calendar"]["name"])
        return "ok"

    def trigger_now(self, line, now):
        job = Key(line.get("group", "DEFAULT"), line["name"])
        if job not in self.tables.jobs:
            raise Refusal("3")
        key = Key("MANUAL_TRIGGERS", f"now_{self.tables.next_entry}")
        self.tables.next_entry += 1
        self.put(key, Trigger(job, now, 0, 0, 0, 5, now))
        return f"triggered {key} {now}"

    def join(self, line, now):
        self.check_in(line, now)
        node, lost = line["node"], (0, 0)
        if node in self.tables.members:
            lost = self.lose(node)
        self.tables.members[node] = self.held[node] = self.tables.next_epoch
        self.tables.next_epoch += 1
        return f"joined {self.held[node]} executions {lost[0]} triggers {lost[1]}"

    def check_in(self, line, now):
        self.tables.states[line["node"]] = (now, line.get("interval", 15000))
        self.tables.check_ins += 1
        return "ok"

    def resume(self, line, now):
        live = self.tables.members.get(line["node"])
        if live != line["epoch"] or line["node"] in self.held:
            raise Refusal(f"1 live {text(live)}")
        self.held[line["node"]] = live
        return "ok"

    def stop(self, line, now):
        del self.held[line["node"]]
        return "ok"

    def leave(self, line, now):
        node = self.member(line)
        open_ = sum(row.node == node and row.at is not None for row in self.tables.rows.values())
        if open_:
            raise Refusal(f"11 by {open_}")
        self.lose(node)
        del self.held[node]
        return "ok"

    def misfires(self, line, now):
        self.member(line)
        moved = []
        for key, trigger in sorted(self.tables.triggers.items(), key=lambda it: (it[1].next or 0, it[0])):
            if trigger.state == "WAITING" and trigger.misfire != -1 and trigger.next < now - 60000:
                trigger.next = now
                moved.append(f" {key} {now}")
        return "misfired" + ("".join(moved[:20]) or " none")

    def acquire(self, line, now):
        node, limit, taken, jobs = self.member(line), line["no_later"] + line.get("window", 0), [], set()
        due = [(trigger.next, -trigger.priority, key) for key, trigger in self.tables.triggers.items()
               if trigger.state == "WAITING" and trigger.next <= limit and (trigger.misfire == -1 or trigger.next >= now - 60000)]
        for time_, _, key in sorted(due):
            trigger = self.tables.triggers[key]
            job = self.tables.jobs[trigger.job]
            if len(taken) < line.get("max", 1) and not (job.exclusive and trigger.job in jobs):
                jobs.add(trigger.job)
                trigger.state = "ACQUIRED"
                entry, self.tables.next_entry = self.tables.next_entry, self.tables.next_entry + 1
                self.tables.rows[entry] = Row(node, self.held[node], key, trigger.job, time_, job.exclusive, job.asks)
                taken.append(f" {entry} {key} {time_}")
        return "acquired" + ("".join(taken) or " none")

    def release(self, line, now):
        row = self.row(line)
        if row.at is not None:
            raise Refusal("17")
        self.tables.triggers[row.trigger].state = "WAITING"
        del self.tables.rows[line["entry"]]
        return "ok"

    def fire(self, line, now):
        row = self.row(line)
        trigger, job = self.tables.triggers[row.trigger], self.tables.jobs[row.job]
        if row.at is not None:
            raise Refusal("17")
        if now < trigger.next:
            raise Refusal(f"19 next {trigger.next}")
        row.at, row.exclusive, row.asks = now, job.exclusive, job.asks
        trigger.prev, trigger.times = trigger.next, trigger.times + 1
        more = trigger.interval and (trigger.count == -1 or trigger.times <= trigger.count)
        trigger.next = trigger.prev + trigger.interval if more else None
        trigger.state = "WAITING" if more else "COMPLETE"
        if row.exclusive:
            for key, other in self.tables.triggers.items():
                if other.job == row.job and other.state in ("WAITING", "ACQUIRED"):
                    self.free(key)
                    other.state = "BLOCKED"
        return f"fired {line['entry']} scheduled {row.scheduled} at {now} next {text(trigger.next)}"

    def finish(self, entry):
        row = self.tables.rows.pop(entry)
        if row.exclusive and row.at is not None:
            for trigger in self.tables.triggers.values():
                if trigger.job == row.job:
                    trigger.state = {"BLOCKED": "WAITING", "PAUSED_BLOCKED": "PAUSED"}.get(trigger.state, trigger.state)
        trigger = self.tables.triggers.get(row.trigger)
        if trigger and trigger.state == "COMPLETE" and trigger.next is None and all(other.trigger != row.trigger for other in self.tables.rows.values()):
            del self.tables.triggers[row.trigger]
        self.orphan(row.job)

    def orphan(self, job):
        if job in self.tables.jobs and not self.tables.jobs[job].durable and all(trigger.job != job for trigger in self.tables.triggers.values()):
            del self.tables.jobs[job]

    def complete(self, line, now):
        row, code = self.row(line), line.get("code", "NOOP")
        if row.at is None:
            raise Refusal("18")
        if code == "RE_EXECUTE_JOB":
            return f"again {line['entry']}"
        for key, trigger in self.tables.triggers.items():
            if code == "SET_TRIGGER_ERROR" and key == row.trigger or code == "SET_ALL_JOB_TRIGGERS_ERROR" and trigger.job == row.job:
                trigger.state = "ERROR"
        self.finish(line["entry"])
        return f"completed {line['entry']}"

    def lose(self, node):
        executions = triggers = 0
        for entry, row in [it for it in self.tables.rows.items() if it[1].node == node]:
            if row.at is None:
                self.tables.triggers[row.trigger].state = "WAITING"
                del self.tables.rows[entry]
                continue
            executions += 1
            if row.asks:
                triggers += 1
                self.tables.triggers[Key("RECOVERING_JOBS", f"recover_{node}_{entry}")] = Trigger(row.job, row.scheduled, 0, 0, -1, 5, row.scheduled)
            self.finish(entry)
        del self.tables.members[node]
        return executions, triggers

    def recover(self, line, now):
        failed, states = line["failed"], self.tables.states
        if failed not in states:
            raise Refusal("23")
        last, interval = states[failed]
        own = states.get(line["node"], (0, 0))[0]
        until = last + max(interval, now - own) + 7500
        if until >= now:
            raise Refusal(f"21 until {until}")
        self.member(line)
        if failed not in self.tables.members:
            raise Refusal("20")
        executions, triggers = self.lose(failed)
        return f"recovered executions {executions} triggers {triggers}"

    def forget(self, line, now):
        if line["failed"] in self.tables.members:
            raise Refusal("25")
        if self.tables.states.pop(line["failed"], None) is None:
            raise Refusal("23")
        return "ok"

    def show_job(self, line, now):
        key = Key(line.get("group", "DEFAULT"), line["name"])
        job = self.tables.jobs.get(key)
        return f"{job_line(key, job)} data {escape(job.data)}" if job else "job none"

    def show_trigger(self, line, now):
        key = Key(line.get("group", "DEFAULT"), line["name"])
        trigger = self.tables.triggers.get(key)
        return f"{trigger_line(key, trigger)} misfire {trigger.misfire} calendar none zone none" if trigger else "trigger none"

    def show_entry(self, line, now):
        row = self.tables.rows.get(line["entry"])
        if row is None:
            return "entry none"
        job = self.tables.jobs.get(row.job)
        rest = f"{escape(job.klass)} data {escape(job.data)}" if job else "none"
        return f"entry {entry_words(line['entry'], row)} job {row.job} {rest}"

    def show_next(self, line, now):
        return f"next {text(min((trigger.next for trigger in self.tables.triggers.values() if trigger.state == 'WAITING'), default=None))}"


def job_line(key, job):
    return f"job {key} {escape(job.klass)} durable {job.durable:d} no_concurrent {job.exclusive:d} requests_recovery {job.asks:d}"


def trigger_line(key, trigger):
    return (f"trigger {key} job {trigger.job} {trigger.state} next {text(trigger.next)} prev {text(trigger.prev)} times {trigger.times} "
            f"priority {trigger.priority} start {trigger.start} simple {trigger.count}")


def entry_words(entry, row):
    state = "ACQUIRED" if row.at is None else "EXECUTING"
    return f"{entry} {escape(row.node)} {row.epoch} {row.trigger} {state} scheduled {row.scheduled} at {text(row.at)}"


def listed(tables):
    yield f"threshold {tables.threshold}"
    yield from (f"calendar {escape(name)}" for name in sorted(tables.calendars))
    yield from (job_line(key, job) for key, job in sorted(tables.jobs.items()))
    yield from (trigger_line(key, trigger) for key, trigger in sorted(tables.triggers.items()))
    yield from (f"member {escape(node)} {epoch}" for node, epoch in sorted(tables.members.items()))
    yield from (f"fired {entry_words(entry, row)}" for entry, row in sorted(tables.rows.items()))
    yield from (f"state {escape(node)} last {last} interval {interval}" for node, (last, interval) in sorted(tables.states.items()))


def faults():
    word, _, number = os.environ.get("STAND_IN", "").partition(":")
    return word, int(number) if number.isdigit() else 0


def script(tables, journal):
    run, (fault, place), done, closed = Script(tables), faults(), 0, False
    for data in sys.stdin.buffer:
        line = json.loads(data)
        do = line["do"]
        if do == "show_room" and fault == "before":
            sys.stderr.write("qz: line 1: not a step\n")
            return 2
        now = max(line.get("at", time.time_ns() // 1000000), tables.last)
        needs_epoch = "node" in line and do not in ("join", "resume")
        try:
            if closed and do != "check_in":
                reply = "closed"
            elif needs_epoch and line["node"] not in run.held:
                reply = "stopped"
            else:
                done += do in COMMANDS
                if do in COMMANDS and done == place and fault == "full":
                    sys.stderr.write("qz: journal full need 63 room 0\n")
                    return 7
                if do in COMMANDS and done == place and fault == "fault":
                    closed, reply = True, "fault"
                elif do in ("show_room", "checkpoint"):
                    reply = journal.show_room(tables) if do == "show_room" else journal.checkpoint()
                else:
                    epoch = run.held.get(line.get("node"), 0)
                    reply = getattr(run, do)(line, now)
                    if do in COMMANDS:
                        tables.last = now
                        journal.append(record(line, now, epoch) + told(line, now, epoch, reply))
                    if not do.startswith("show") and do not in ("resume", "stop"):
                        save(tables)
        except Refusal as refusal:
            reply = f"refused {refusal}"
        if do in COMMANDS and done == place and fault == "die":
            os.kill(os.getpid(), 9)
        sys.stdout.write(reply + "\n")
        sys.stdout.flush()
    return 5 if closed else 0


def compact():
    """Reads a trigger store, which has no tables here: these are in the file of states beside it."""
    if os.path.exists(TRIGGERS) or os.path.exists(STATES):
        sys.stderr.write("qz: store exists\n")
        return 10
    tables = load(os.path.join(os.path.dirname(os.readlink("/proc/self/fd/0")), STATES))
    count = len(sys.stdin.buffer.read())
    if (asked := faults())[0] == "compact":
        sys.stderr.write("qz: no luck\n")
        return asked[1]
    make_compacted()
    tables.states, tables.check_ins = {node: (tables.last, 15000) for node in tables.members}, len(tables.members)
    save(tables)
    print(f"compacted {count}")
    return 0


def main(word, *more):
    if word == "history" and os.environ.get("STAND_IN") == "no-history":
        sys.stderr.write("qz: bad words\n")
        return 1
    if word == "--version":
        asked = os.environ.get("STAND_IN", "")
        print("qz_sched", asked.partition(":")[2] if asked.startswith("version:") else VERSION)
        return 0
    if word == "compact":
        return compact()
    if word == "init":
        if os.path.exists(TRIGGERS):
            sys.stderr.write("qz: store exists\n")
            return 10
        with open(TRIGGERS, "wb") as file:
            file.write(b"QZ23\x01T" + bytes(11))
        save(Tables())
        print("created")
        return 0
    try:
        journal = open(TRIGGERS, "r+b")
    except FileNotFoundError:
        sys.stderr.write("qz: triggers not a store\n")
        return 6
    try:
        fcntl.flock(journal, fcntl.LOCK_EX | fcntl.LOCK_NB)
    except BlockingIOError:
        sys.stderr.write("qz: disk fault\n")
        return 5
    tables = load()
    if word == "list":
        print("\n".join(listed(tables)))
        return 0
    if word == "history" and faults()[0] == "history":
        sys.stderr.write("qz: no luck\n")
        return faults()[1]
    if word == "history":
        return history(int(more[0]))
    return script(tables, Journal(journal))


if __name__ == "__main__":
    sys.exit(main(*sys.argv[1:]))
