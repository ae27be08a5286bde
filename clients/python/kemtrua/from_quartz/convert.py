"""Makes a document of what Quartz has, the lines that pause what was paused, and a report."""
from __future__ import annotations

import json
from collections import Counter
from collections.abc import Iterable, Iterator, Set
from dataclasses import dataclass, field, replace

from .. import forms, values
from ..names import DEFAULT_GROUP, RECOVERIES, Key
from . import schedules
from .java_zones import UTC, JavaZones, NoZone
from .model import BadSource, Calendar, Cron, Job, NamedCalendar, Source, State, Trigger
from .report import Outcome, Report, Told

RESERVED_GROUPS = (RECOVERIES, "MANUAL_TRIGGERS")
LONGEST_CHAIN = 8
Row = dict[str, object]


@dataclass
class Converted:
    """`pauses` are lines of a script. `jobs` are those that are in the document, by which classes are wanted."""

    document: dict[str, list[Row]]
    pauses: list[Row]
    report: Report
    jobs: list[Job] = field(default_factory=list)


def convert(source: Source, zones: JavaZones, exclusive: Set[str]) -> Converted:
    """`exclusive` are the classes that forbid concurrent executions, where the source doesn't say so."""
    return _Converter(source, zones, exclusive).convert()


class _Converter:
    def __init__(self, source: Source, zones: JavaZones, exclusive: Set[str]):
        self.source, self.zones, self.exclusive, self.report = source, zones, exclusive, Report()
        self.zone_rows: dict[str, Row] = {}
        self.calendars: list[Row] = []
        self.known_calendars: set[str] = set()
        self.job_keys = {job.key for job in source.jobs}  # of all that were read
        self.jobs: dict[Key, Job] = {}
        self.job_rows: list[Row] = []
        self.triggers: dict[Key, Trigger] = {}
        self.trigger_rows: list[Row] = []

    def convert(self) -> Converted:
        for remark in self.source.remarks:
            self.report.add(Outcome.WANTED, remark.what, remark.place, remark.why)
        for left in self.source.left_out:
            self.report.add(Outcome.LEFT_OUT, left.what, left.place, left.why)
        for calendar in self.source.calendars:
            self._calendar(calendar)
        self._jobs()
        self._triggers()
        self._jobs_without_triggers()
        self._notes()
        found = {"zones": list(self.zone_rows.values()), "calendars": self.calendars, "jobs": self.job_rows, "triggers": self.trigger_rows}
        return Converted({name: rows for name, rows in found.items() if rows}, list(self._pauses()), self.report, list(self.jobs.values()))

    def _left_out(self, what: str, place: str, why: str) -> None:
        self.report.add(Outcome.LEFT_OUT, what, place, why)

    def _tell(self, what: str, place: str, told: Iterable[Told]) -> None:
        for outcome, why in told:
            self.report.add(outcome, what, place, why)

    def _keeps_limits(self, what: str, place: str, form: values.Check, row: Row) -> bool:
        """Whether a row is right as a line's. If not, it is left out, with what is wrong."""
        wrong = [str(problem) for problem in form(row, "")]
        if wrong:
            self._left_out(what, place, "; ".join(wrong))
        return not wrong

    def _zone(self, name: str) -> None:
        """Adds the row of a zone. Raises NoZone where there is none."""
        if name == UTC or name in self.zone_rows:
            return
        row: Row = {"name": name, "stretches": self.zones.stretches(name)}
        wrong = list(forms.ZONE(row, ""))
        if wrong:
            raise NoZone(f"the zone {name}: {wrong[0]}")
        self.zone_rows[name] = row

    # Calendars

    def _calendar(self, named: NamedCalendar) -> None:
        what = f"calendar {named.name!r}"
        chain = list(_chain(named))
        if len(chain) > LONGEST_CHAIN:
            self._left_out(what, named.place, f"its chain has {len(chain)} calendars, of at most {LONGEST_CHAIN}")
            return
        try:
            rows = [self._calendar_row(name, calendar, base) for name, calendar, base in chain]
        except NoZone as error:
            self._left_out(what, named.place, str(error))
            return
        except BadSource as error:
            raise BadSource(f"{named.place}: {what}: {error}") from None
        if all([self._keeps_limits(f"calendar {name!r}", named.place, forms.CALENDAR, row) for (name, _, _), row in zip(chain, rows)]):
            for name, calendar, _ in chain:
                self._tell(f"calendar {name!r}", named.place, calendar.remarks)
            self.calendars += rows[::-1]
            self.known_calendars.add(named.name)

    def _calendar_row(self, name: str, calendar: Calendar, base: str | None) -> Row:
        row: Row = {"name": name, **({"base": base} if base is not None else {})}
        if not self.zones.is_utc(calendar.zone) and calendar.members.get("days") != []:
            zone = self.zones.name(calendar.zone)
            self._zone(zone)
            row["zone"] = zone
        return {**row, "kind": calendar.kind, **calendar.members}

    # Jobs

    def _jobs(self) -> None:
        last = {job.key: job for job in self.source.jobs}
        for job in self.source.jobs:
            what = f"job {job.key}"
            if last[job.key] is not job:
                self._left_out(what, job.place, f"a later one of the same key replaces it ({last[job.key].place})")
            elif job.unreadable:
                self._left_out(what, job.place, f"its data can't be read: {job.unreadable}")
            elif self._keeps_limits(what, job.place, forms.JOB, row := self._job_row(job)):
                self.jobs[job.key] = job
                self.job_rows.append(row)
                self._tell(what, job.place, _job_remarks(job))

    def _job_row(self, job: Job) -> Row:
        flags = {"durable": job.durable, "no_concurrent": bool(job.no_concurrent) or job.klass in self.exclusive, "requests_recovery": job.requests_recovery}
        row: Row = {**_key_members(job.key), "class": job.klass, **{name: True for name, is_set in flags.items() if is_set}}
        if job.data.values:
            row["data"] = json.dumps(job.data.values, ensure_ascii=False, separators=(",", ":"), sort_keys=True)
        return row

    def _jobs_without_triggers(self) -> None:
        used = {trigger.job for trigger in self.triggers.values()}
        for job in self.jobs.values():
            if not job.durable and job.key not in used:
                self.report.add(Outcome.CHANGED, f"job {job.key}", job.place, "it isn't durable, and none of its triggers is loaded; it stays stored until it is deleted")

    # Triggers

    def _triggers(self) -> None:
        last = {trigger.key: trigger for trigger in self.source.triggers}
        for trigger in self.source.triggers:
            what = f"trigger {trigger.key}"
            if last[trigger.key] is not trigger:
                self._left_out(what, trigger.place, f"a later one of the same key replaces it ({last[trigger.key].place})")
                continue
            try:
                row, remarks = self._trigger_row(trigger)
            except (schedules.NoCounterpart, NoZone) as error:
                self._left_out(what, trigger.place, str(error))
                continue
            except BadSource as error:
                raise BadSource(f"{trigger.place}: {what}: {error}") from None
            if self._keeps_limits(what, trigger.place, forms.TRIGGER, row):
                self.triggers[trigger.key] = trigger
                self.trigger_rows.append(row)
                self._remark_trigger(trigger, remarks)

    def _trigger_row(self, trigger: Trigger) -> tuple[Row, tuple[Told, ...]]:
        if trigger.key.group in RESERVED_GROUPS:
            raise schedules.NoCounterpart(f"the group {trigger.key.group} is the scheduler's own")
        if trigger.state is State.COMPLETE:
            raise schedules.NoCounterpart("it is COMPLETE, so it fires no more")
        self._refuse_what_is_missing(trigger)
        found = schedules.mapped(trigger, self.zones)
        self._zone(schedules.zones_of(trigger, self.zones))
        row: Row = {**_key_members(trigger.key), "job": trigger.job.name}
        if trigger.job.group != DEFAULT_GROUP:
            row["job_group"] = trigger.job.group
        for name, value, default in (("priority", trigger.priority, 5), ("calendar", trigger.calendar, None), ("misfire", trigger.misfire, 0)):
            if value != default:
                row[name] = value
        return {**row, **found.members}, found.remarks

    def _refuse_what_is_missing(self, trigger: Trigger) -> None:
        if trigger.job in self.job_keys and trigger.job not in self.jobs:
            raise schedules.NoCounterpart(f"its job {trigger.job} is left out")
        if trigger.calendar is not None and self.source.has_calendars and trigger.calendar not in self.known_calendars:
            raise schedules.NoCounterpart(f"its calendar {trigger.calendar!r} is left out, or isn't there")

    def _remark_trigger(self, trigger: Trigger, remarks: tuple[Told, ...]) -> None:
        what = f"trigger {trigger.key}"
        self._tell(what, trigger.place, (*remarks, *trigger.remarks))
        if trigger.has_data:
            self.report.add(Outcome.LESSENED, what, trigger.place, "it has data of its own, and a trigger has none here: its job finds the job's data alone")
        if trigger.state is State.ERROR:
            self.report.add(Outcome.CHANGED, what, trigger.place, "it is in the state ERROR; here it is paused, by a line of quartz-pauses.jsonl")
        if trigger.calendar is not None and not self.source.has_calendars:
            self.report.add(Outcome.WANTED, what, trigger.place, f"the calendar {trigger.calendar!r}, which no file has: add it before, or the trigger is refused (5)")
        if trigger.job not in self.jobs:
            self.report.add(Outcome.WANTED, what, trigger.place, f"the job {trigger.job}, which no file has: add it before, or the trigger is refused (3)")

    # What is said once

    def _pauses(self) -> Iterator[Row]:
        groups = set(self.source.paused_groups)
        if self.source.all_paused:
            groups |= {trigger.key.group for trigger in self.triggers.values()}
        for group in sorted(groups - set(RESERVED_GROUPS)):
            yield {"do": "pause_group", "group": group}
        for trigger in self.triggers.values():
            if trigger.state in (State.PAUSED, State.ERROR) and trigger.key.group not in groups:
                yield {"do": "pause_trigger", **_key_members(trigger.key)}

    def _notes(self) -> None:
        notes = self.report.notes
        folding = [trigger.key for trigger in self.triggers.values() if isinstance(trigger.schedule, Cron) and self._folds(trigger.schedule.zone)]
        if folding:
            notes.append(f"{len(folding)} cron triggers have a zone that sets its clocks back: where a local time comes twice, Quartz fires the second time alone, "
                         "and here both times")
        if self.source.all_paused:
            notes.append("all was paused in Quartz (pauseAll): the groups that are loaded are paused here, and groups that come later aren't")
        unknown = [job for job in self.jobs.values() if job.no_concurrent is None]
        if unknown:
            notes.append("no file says which classes have @DisallowConcurrentExecution or @PersistJobDataAfterExecution: name the former by --exclusive")
        shared = Counter(job.klass for job in self.jobs.values() if job.keeps_data)
        if shared:
            notes.append(f"classes whose executions change their job's data: {', '.join(sorted(shared))}. What they change isn't kept here")

    def _folds(self, zone: str | None) -> bool:
        table = self.zones.stretches(zone)
        return any(after[1] < before[1] for before, after in zip(table, table[1:]))


def _key_members(key: Key) -> Row:
    return {"name": key.name} if key.group == DEFAULT_GROUP else {"name": key.name, "group": key.group}


def _job_remarks(job: Job) -> Iterator[Told]:
    yield from job.remarks
    for name, klass in job.data.lost.items():
        yield Outcome.LESSENED, f"the member {name!r} of its data is left out: it is {klass}, which JSON can't hold"
    if job.keeps_data:
        yield Outcome.LESSENED, "what an execution changes in its data isn't kept (@PersistJobDataAfterExecution)"


def _chain(named: NamedCalendar) -> Iterator[tuple[str, Calendar, str | None]]:
    """The calendars of a chain from the top, each with its name and that of its base. Quartz stores bases without names."""
    name, calendar = named.name, named.calendar
    while calendar.base is not None:
        below = f"{name} (base)"
        yield name, replace(calendar, base=None), below
        name, calendar = below, calendar.base
    yield name, calendar, None
