"""Folds transactions into executions and events. What changed is kept until it is written, so a group that can't be written isn't lost."""
from __future__ import annotations

import sqlite3
from collections.abc import Callable, Iterable

from ..checking import Line
from ..names import RECOVERIES, Key, unescape
from ..rows import EntryRow, JobRow, Row, TriggerRow
from .executions import Execution, load, load_open, put
from .reports import Report
from .transactions import OF_CLIENTS, Transaction

LATE = 60_000  # ms past its time at which a firing is an event
TELLS_WITHIN = 3_600_000  # ms that an event may be past when it is learnt, so that somebody is alerted
ERRORS = ("SET_TRIGGER_ERROR", "SET_ALL_JOB_TRIGGERS_ERROR")
Event = tuple[int, str, int | None, int | None, str | None, str | None, str | None, str]


class Story:
    """What is known of one generation's stores. It is of one thread."""

    def __init__(self, connection: sqlite3.Connection, generation: int, now: Callable[[], int]):
        self._connection, self.generation, self._now = connection, generation, now
        self.open = load_open(connection, generation)
        self._triggers: dict[str, str] = dict(connection.execute("SELECT key, job FROM triggers").fetchall())
        self._jobs: dict[str, str] = dict(connection.execute("SELECT key, class FROM jobs").fetchall())
        (self._highest,) = connection.execute("SELECT coalesce(max(entry), 0) FROM executions WHERE generation = ?", (generation,)).fetchone()
        (self._group,) = connection.execute("SELECT coalesce(max(changed), 0) + 1 FROM executions").fetchone()
        self._forget_changes()

    def _forget_changes(self) -> None:
        self._changed: dict[tuple[int, int], Execution | None] = {}
        self._new_triggers: dict[str, str | None] = {}
        self._new_jobs: dict[str, str | None] = {}
        self._events: list[Event] = []
        self._audit: list[tuple[int, str | None, str, str]] = []

    @property
    def size(self) -> int:
        """How much waits to be written."""
        return len(self._changed) + len(self._new_triggers) + len(self._new_jobs) + len(self._events) + len(self._audit)

    # -- transactions

    def apply(self, it: Transaction) -> None:
        """Learns a transaction that follows on the last one."""
        learner = self._LEARNERS.get(it.do)
        if learner is not None:
            learner(self, it)

    def correct(self, it: Transaction) -> bool:
        """Puts the store's own moment in place of the hub's clock's, where a transaction that is known already ended executions.

        False where the database has something else under its number, which was counted wrongly then.
        """
        ended: list[Execution] = []
        if it.do == "complete":
            row = self._row(self.generation, _entry_of(it.line))
            if it.reply.startswith("completed") and row is not None and row.state != "missing":
                if row.ended_by != it.number:
                    return False
                ended = [row]
        elif it.do in ("join", "recover") and _lost_any(it.reply):
            self.write_now()
            found = self._connection.execute("SELECT entry FROM executions WHERE node = ? AND generation = ? AND ended_by = ? AND state = 'lost'",
                                             (str(it.line["failed" if it.do == "recover" else "node"]), self.generation, it.number)).fetchall()
            ended = [row for (entry,) in found if (row := self._row(self.generation, entry)) is not None]
        elif it.do == "fire":
            row = self._row(self.generation, _entry_of(it.line))
            return row is not None and row.fired == int(it.reply.split()[5])
        for row in ended:
            if row.ended != it.at:
                row.ended = it.at
                self._changed[row.key] = row
        return True

    def _add_job(self, it: Transaction) -> None:
        job = _part(it.line, "job")
        self._learn_job(str(_key_of(job)), str(job["class"]))

    def _delete_job(self, it: Transaction) -> None:
        key = str(_key_of(it.line))
        self._new_jobs[key] = None
        self._jobs.pop(key, None)
        for trigger in [trigger for trigger, job in self._triggers.items() if job == key]:
            self._drop_trigger(trigger)

    def _add_trigger(self, it: Transaction) -> None:
        trigger = _part(it.line, "trigger")
        self._learn_trigger(str(_key_of(trigger)), str(Key(str(trigger.get("job_group", "DEFAULT")), str(trigger["job"]))))

    def _delete_trigger(self, it: Transaction) -> None:
        self._drop_trigger(str(_key_of(it.line)))

    def _trigger_now(self, it: Transaction) -> None:
        self._learn_trigger(it.reply.split()[1], str(_key_of(it.line)))

    def _learn_trigger(self, key: str, job: str) -> None:
        if self._triggers.get(key) != job:
            self._triggers[key] = self._new_triggers[key] = job

    def _learn_job(self, key: str, klass: str) -> None:
        if self._jobs.get(key) != klass:
            self._jobs[key] = self._new_jobs[key] = klass

    def _drop_trigger(self, key: str) -> None:
        if self._triggers.pop(key, None) is not None:
            self._new_triggers[key] = None

    def _join(self, it: Transaction) -> None:
        self._lose(str(it.line["node"]), it)

    def _recover(self, it: Transaction) -> None:
        self._lose(str(it.line["failed"]), it)

    def _leave(self, it: Transaction) -> None:
        for row in [row for row in self.open.values() if row.node == it.line["node"] and row.fired is None]:
            self._remove(row)

    def _acquire(self, it: Transaction) -> None:
        words = it.reply.split()[1:]
        for entry, trigger in zip(map(int, words[0::3]), words[1::3]) if words != ["none"] else ():
            row = (load(self._connection, self.generation, entry) if entry <= self._highest else None) or Execution(self.generation, entry, trigger, "")
            self._highest = max(self._highest, entry)
            row.trigger, row.node, row.epoch, row.state, row.fired, row.ended = trigger, str(it.line["node"]), it.epoch, "acquired", None, None
            self.open[entry] = row
            self._changed[row.key] = row

    def _release(self, it: Transaction) -> None:
        row = self.open.get(_entry_of(it.line))
        if row is not None and row.fired is None:
            self._remove(row)

    def _fire(self, it: Transaction) -> None:
        words = it.reply.split()
        entry, scheduled, at, next_ = int(words[1]), int(words[3]), int(words[5]), words[7]
        row = self.open.get(entry) or self._row(self.generation, entry) or Execution(self.generation, entry, "", "")
        row.node, row.epoch, row.scheduled, row.fired, row.refires = str(it.line["node"]), it.epoch, scheduled, at, 0
        row.ended = row.ended_by = row.code = None
        row.state = "runs"
        row.job = self._triggers.get(row.trigger, row.job)
        row.klass = self._jobs.get(row.job or "", row.klass)
        if row.trigger.startswith(f"{RECOVERIES}/"):
            row.recovers = _recovered_entry(row.trigger)
        elif at - scheduled > LATE:
            self._event(at, "late", row, f"{row.trigger} fired {(at - scheduled) // 1000} s late")
        if next_ == "none":
            self._drop_trigger(row.trigger)
        self.open[entry] = self._changed[row.key] = row
        self._highest = max(self._highest, entry)

    def _complete(self, it: Transaction) -> None:
        entry = _entry_of(it.line)
        row = self.open.get(entry) or self._row(self.generation, entry) or Execution(self.generation, entry, "", str(it.line["node"]), epoch=it.epoch)
        if it.reply.startswith("again"):
            row.refires += 1
        else:
            row.ended, row.ended_by, row.code = it.at, it.number, str(it.line.get("code", "NOOP"))
            self.open.pop(entry, None)
            if row.code in ERRORS:
                what = "its trigger" if row.code == ERRORS[0] else "each trigger of the job"
                self._event(it.at, "error", row, f"{what} got the state ERROR, and fires no more until somebody says `kemtrua reset`")
        self._settle(row)

    def _misfires(self, it: Transaction) -> None:
        words = it.reply.split()[1:]
        for trigger, next_ in zip(words[0::2], words[1::2]) if words != ["none"] else ():
            then = "it fires no more" if next_ == "none" else f"its next time is {next_}"
            self._events.append((it.at, "misfired", self.generation, None, trigger, self._triggers.get(trigger), None, f"{trigger} was misfired; {then}"))
            if next_ == "none":
                self._drop_trigger(trigger)

    def _lose(self, node: str, it: Transaction) -> None:
        """A member's rows are others' now: what it executed is lost, what it had acquired waits again."""
        if it.do == "join" and not _lost_any(it.reply) and not any(row.node == node for row in self.open.values()):
            return
        for row in [row for row in self.open.values() if row.node == node]:
            if row.fired is None:
                self._remove(row)
                continue
            del self.open[row.entry]
            row.state, row.ended, row.ended_by = "lost", it.at, it.number
            if row.job is not None:
                self._learn_trigger(str(Key(RECOVERIES, f"recover_{node}_{row.entry}")), row.job)
            self._changed[row.key] = row
            self._event(it.at, "lost", row, f"it was lost with its node {node}")

    def _remove(self, row: Execution) -> None:
        del self.open[row.entry]
        self._changed[row.key] = None

    def _row(self, generation: int, entry: int) -> Execution | None:
        known = self._changed.get((generation, entry)) or (self.open.get(entry) if generation == self.generation else None)
        return known or load(self._connection, generation, entry)

    def _settle(self, row: Execution) -> None:
        """Takes a row that changed, and tells of it where that failed."""
        before, row.state = row.state, row.state_now()
        self._changed[row.key] = row
        if row.state == "failed" and before != "failed":
            self._event(row.ended or self._now(), "failure", row, row.why or how(row))

    _LEARNERS = {"add_job": _add_job, "delete_job": _delete_job, "add_trigger": _add_trigger, "delete_trigger": _delete_trigger, "trigger_now": _trigger_now,
                 "join": _join, "recover": _recover, "leave": _leave, "acquire": _acquire, "release": _release, "fire": _fire, "complete": _complete,
                 "misfires": _misfires}

    # -- what is learnt otherwise

    def take_report(self, node: str, it: Report) -> bool:
        """What a node tells of its own execution. False where the store has it as another node's."""
        row = self._row(it.generation, it.entry)
        if row is None and it.generation == self.generation and it.entry > self._highest:
            return False  # (the store gave no such number)
        if row is None:
            row = Execution(it.generation, it.entry, it.trigger, node, it.job, it.klass, it.epoch, it.scheduled, it.fired)
            row.state = "missing"
        if row.node != node:
            return False
        if row.told is not None and it.refires < row.refires and row.ok is not None:
            return True  # (an older one, whose answer was lost)
        row.job, row.klass, row.trigger = row.job or it.job, row.klass or it.klass, row.trigger or it.trigger
        # (one that is executed again hasn't ended yet)
        row.ok = None if it.code == "RE_EXECUTE_JOB" else int(bool(it.ok))
        row.status, row.signal, row.ms, row.cpu, row.peak, row.why = it.status, it.signal, it.ms, it.cpu, it.peak, it.why
        row.most, row.told = it.most, self._now()
        if row.state == "missing":
            row.ended, row.code = it.ended, row.code or it.code
        self._settle(row)
        return True

    def take_limit(self, node: str, generation: int, entry: int, most: int | None) -> bool:
        """That a node still runs an execution, and the limit of its class. False where the store has it as another node's, or doesn't have it."""
        row = self._row(generation, entry)
        if row is None or row.node != node:
            return False
        row.most, row.told = most, self._now()
        self._changed[row.key] = row
        return True

    def take_said(self, at: int, who: str | None, line: str, reply: str) -> None:
        self._audit.append((at, who, line, reply))

    def take_refused(self, at: int, job: str, text: str) -> None:
        self._events.append((at, "refused", self.generation, None, None, job, None, text))

    def take_event(self, at: int, kind: str, text: str, job: str | None = None, entry: int | None = None, generation: int | None = None) -> None:
        self._events.append((at, kind, generation, entry, None, job, None, text))

    def take_listed(self, found: Iterable[Row], is_whole: bool) -> None:
        """The rows of the store as they are now. With `is_whole` no end is known of what runs in the database alone: it is missing."""
        listed = list(found)
        for row in listed:
            if isinstance(row, JobRow):
                self._learn_job(str(row.key), row.klass)
            elif isinstance(row, TriggerRow):
                self._learn_trigger(str(row.key), str(row.job))
        if is_whole:
            entries = {row.entry: row for row in listed if isinstance(row, EntryRow)}
            for mine in [it for entry, it in self.open.items() if entry not in entries]:
                self._miss(mine)
            for row in [row for entry, row in entries.items() if entry not in self.open]:
                self._begin(row)

    def take_restored(self) -> None:
        """The store was restored from a backup as another generation: how what ran before ended isn't known."""
        self._connection.execute("UPDATE executions SET state = 'missing', changed = ? WHERE state = 'runs' AND generation < ?", (self._group, self.generation))
        self._connection.execute("DELETE FROM executions WHERE state = 'acquired' AND generation < ?", (self.generation,))

    def _miss(self, row: Execution) -> None:
        if row.fired is None:
            self._remove(row)
            return
        del self.open[row.entry]
        row.state = "missing"
        self._changed[row.key] = row

    def _begin(self, found: EntryRow) -> None:
        """An entry that the store has, and whose beginning wasn't told."""
        trigger = str(found.trigger)
        row = self._row(self.generation, found.entry) or Execution(self.generation, found.entry, trigger, found.node)
        row.node, row.epoch, row.scheduled, row.fired, row.ended = found.node, found.epoch, found.scheduled, found.at, None
        row.job = self._triggers.get(trigger, row.job)
        row.klass = self._jobs.get(row.job or "", row.klass)
        row.recovers = _recovered_entry(trigger) if found.trigger.group == RECOVERIES else None
        row.state = "runs" if found.executes else "acquired"
        self.open[row.entry] = self._changed[row.key] = row
        self._highest = max(self._highest, row.entry)

    def _event(self, at: int, kind: str, row: Execution, text: str) -> None:
        self._events.append((at, kind, row.generation, row.entry, row.trigger, row.job, row.node, text))

    # -- what is written

    def write(self) -> None:
        """Writes what changed, within the database's open transaction. `written` is to be called once that is committed."""
        many, present = self._connection.executemany, self._now()
        self.write_now()
        many("DELETE FROM executions WHERE generation = ? AND entry = ?", [key for key, row in self._changed.items() if row is None])
        for table, found in (("triggers", self._new_triggers), ("jobs", self._new_jobs)):
            many(f"INSERT OR REPLACE INTO {table} VALUES (?, ?)", [(key, value) for key, value in found.items() if value is not None])
            many(f"DELETE FROM {table} WHERE key = ?", [(key,) for key, value in found.items() if value is None])
        many("INSERT INTO events (at, kind, generation, entry, trigger, job, node, text, waits) VALUES (?, ?, ?, ?, ?, ?, ?, ?, ?)",
             [(*event, int(present - event[0] <= TELLS_WITHIN)) for event in self._events])
        many("INSERT INTO audit (at, who, line, reply) VALUES (?, ?, ?, ?)", self._audit)

    def write_now(self) -> None:
        """Writes the executions that changed, so that a question within the same transaction finds them."""
        put(self._connection, (row for row in self._changed.values() if row is not None), self._group)

    def written(self) -> None:
        self._group += 1
        self._forget_changes()


def how(row: Execution) -> str:
    """How an execution ended that didn't end as its class expects."""
    return f"signal {row.signal}" if row.signal is not None else f"exit status {row.status}" if row.status is not None else f"it answered {row.code}"


def _part(line: Line, name: str) -> Line:
    found = line[name]
    assert isinstance(found, dict)
    return found


def _key_of(named: Line) -> Key:
    return Key(str(named.get("group", "DEFAULT")), str(named["name"]))


def _entry_of(line: Line) -> int:
    return int(line["entry"])  # type: ignore[call-overload,no-any-return]


def _lost_any(reply: str) -> bool:
    words = reply.split()
    return words[0] == "recovered" and words[2] != "0" or words[0] == "joined" and words[3] != "0"


def _recovered_entry(trigger: str) -> int | None:
    number = unescape(trigger).rpartition("_")[2]
    return int(number) if number.isdigit() else None


def is_of_client(it: Transaction) -> bool:
    return it.do in OF_CLIENTS
