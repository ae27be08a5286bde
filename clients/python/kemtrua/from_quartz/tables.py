"""Reads the tables of a job store (JobStoreTX, JobStoreCMT), each in a CSV file with a line of column names."""
from __future__ import annotations

import csv
import os
from collections.abc import Callable, Iterator

from ..names import Key
from . import java_values
from .java_stream import BadStream
from .java_zones import JavaZones, NoZone
from .model import BadSource, Cron, Daily, Interval, Job, JobData, LeftOut, NamedCalendar, Schedule, Simple, Source, State, Trigger
from .report import Outcome, Told
from .table_forms import TABLES, Row, check_columns

PREFIX = "QRTZ_"
ALL_PAUSED = "_$_ALL_GROUPS_PAUSED_$_"
STATES = {"WAITING": State.WAITING, "ACQUIRED": State.WAITING, "EXECUTING": State.WAITING, "BLOCKED": State.WAITING, "PAUSED": State.PAUSED,
          "PAUSED_BLOCKED": State.PAUSED, "COMPLETE": State.COMPLETE, "ERROR": State.ERROR}
UNITS = ("SECOND", "MINUTE", "HOUR", "DAY", "WEEK", "MONTH", "YEAR")


def read(folder: str, prefix: str, scheduler: str | None, zones: JavaZones, database: str = "") -> Source:
    """What the tables in a folder say of a scheduler. `database` names the one from which they were copied, if they were."""
    what = database or folder
    tables = {table: list(_rows(folder, prefix, table, bool(database))) for table in TABLES}
    name = _scheduler(tables, scheduler, what)
    own = {table: [row for row in rows if row.text("SCHED_NAME") == name] for table, rows in tables.items()}
    source = Source(f"{what}, scheduler {name}", has_calendars=True)
    source.jobs = [_job(row) for row in own["JOB_DETAILS"]]
    _add_triggers(source, own)
    _add_calendars(source, own["CALENDARS"], zones)
    groups = [row.text("TRIGGER_GROUP") for row in own["PAUSED_TRIGGER_GRPS"]]
    source.all_paused = ALL_PAUSED in groups
    source.paused_groups = [group for group in groups if group != ALL_PAUSED]
    return source


def _path(folder: str, name: str) -> str:
    try:
        names = os.listdir(folder)
    except OSError as error:
        raise BadSource(f"{folder} can't be read: {error.strerror}") from None
    found = [one for one in names if one.lower() == f"{name}.csv".lower()]
    if not found:
        raise BadSource(f"{folder}: there is no {name}.csv, the table {name}")
    return os.path.join(folder, found[0])


def _rows(folder: str, prefix: str, table: str, is_copy: bool) -> Iterator[Row]:
    path = _path(folder, prefix.rpartition(".")[2] + table)
    csv.field_size_limit(1 << 28)
    try:
        with open(path, newline="", encoding="utf-8-sig") as file:
            lines = csv.reader(file)
            head = [name.strip().upper() for name in next(lines, [])]
            if not head:
                raise BadSource(f"{path}: it is empty; the first line has the names of the columns")
            shown = prefix + table if is_copy else path
            check_columns(shown, table, head)
            for values in lines:
                where = shown if is_copy else f"{path}: line {lines.line_num}"
                if len(values) != len(head):
                    raise BadSource(f"{where}: it has {len(values)} values, and there are {len(head)} columns")
                yield Row(where, dict(zip(head, values)))
    except OSError as error:
        raise BadSource(f"{path} can't be read: {error.strerror}") from None
    except (UnicodeDecodeError, csv.Error) as error:
        raise BadSource(f"{path}: it is no CSV in UTF-8: {error}") from None


def _scheduler(tables: dict[str, list[Row]], wanted: str | None, what: str) -> str:
    names = sorted({row.text("SCHED_NAME") for rows in tables.values() for row in rows})
    if wanted is None and len(names) == 1:
        return names[0]
    if wanted in names:
        assert wanted is not None
        return wanted
    if not names:
        raise BadSource(f"{what}: the tables are empty")
    raise BadSource(f"{what}: the tables are of the schedulers {', '.join(names)}: " + ("say which one by --scheduler" if wanted is None else f"{wanted!r} is none of them"))


def _job(row: Row) -> Job:
    data, fault = JobData(), ""
    try:
        data = java_values.job_data(row.blob("JOB_DATA"))
    except BadStream as error:
        fault = str(error)
    return Job(Key(row.text("JOB_GROUP"), row.text("JOB_NAME")), row.where, row.text("JOB_CLASS_NAME"), row.flag("IS_DURABLE"),
               row.flag("IS_NONCONCURRENT"), row.flag("REQUESTS_RECOVERY"), row.flag("IS_UPDATE_DATA"), data, fault, _description(row))


def _description(row: Row) -> tuple[Told, ...]:
    return ((Outcome.LESSENED, "its description isn't kept"),) if row.optional("DESCRIPTION") else ()


def _key(row: Row) -> Key:
    return Key(row.text("TRIGGER_GROUP"), row.text("TRIGGER_NAME"))


def _add_triggers(source: Source, tables: dict[str, list[Row]]) -> None:
    kinds: dict[str, tuple[str, Callable[[Row], Schedule]]] = {
        "SIMPLE": ("SIMPLE_TRIGGERS", _simple), "CRON": ("CRON_TRIGGERS", _cron), "CAL_INT": ("SIMPROP_TRIGGERS", _interval),
        "DAILY_I": ("SIMPROP_TRIGGERS", _daily)}
    parts = {table: {_key(row): row for row in tables[table]} for table, _ in kinds.values()}
    for row in tables["TRIGGERS"]:
        key, type_ = _key(row), row.text("TRIGGER_TYPE")
        if type_ not in kinds:
            why = "it is a Java object (BLOB) of a class of your own" if type_ == "BLOB" else f"its type {type_} is none of Quartz's own"
            source.left_out.append(LeftOut(f"trigger {key}", row.where, why, key))
            continue
        table, schedule_of = kinds[type_]
        part = parts[table].get(key)
        if part is None:
            raise row.fault("TRIGGER_TYPE", f"{PREFIX}{table} has no row of the trigger {key}")
        source.triggers.append(_trigger(row, schedule_of(part)))


def _trigger(row: Row, schedule: Schedule) -> Trigger:
    state, next_ = row.text("TRIGGER_STATE"), row.optional_whole("NEXT_FIRE_TIME")
    if state not in STATES:
        raise row.fault("TRIGGER_STATE", f"{state!r} is none of {', '.join(STATES)}")
    end = row.optional_whole("END_TIME")
    return Trigger(_key(row), row.where, Key(row.text("JOB_GROUP"), row.text("JOB_NAME")), schedule, row.whole("START_TIME"), end or None,
                   next_ if next_ is not None and next_ > 0 else None, True, row.whole("PRIORITY", 5), row.optional("CALENDAR_NAME"),
                   row.whole("MISFIRE_INSTR", 0), STATES[state], _has_data(row), _description(row))


def _has_data(row: Row) -> bool:
    try:
        data = java_values.job_data(row.blob("JOB_DATA"))
    except BadStream:
        return True
    return bool(data.values or data.lost)


def _simple(row: Row) -> Simple:
    return Simple(row.whole("REPEAT_INTERVAL"), row.whole("REPEAT_COUNT"))


def _cron(row: Row) -> Cron:
    return Cron(row.text("CRON_EXPRESSION"), row.optional("TIME_ZONE_ID"))


def _unit(row: Row) -> str:
    unit = row.text("STR_PROP_1")
    if unit not in UNITS:
        raise row.fault("STR_PROP_1", f"{unit!r} is none of {', '.join(UNITS)}")
    return unit


def _interval(row: Row) -> Interval:
    return Interval(_unit(row), row.whole("INT_PROP_1"), row.optional("STR_PROP_2"), row.flag("BOOL_PROP_1"), row.flag("BOOL_PROP_2"))


def _daily(row: Row) -> Daily:
    """Its times of the day are six numbers with commas, its days are numbers from 1 for Sunday on."""
    try:
        days = tuple(sorted(int(day) for day in (row.optional("STR_PROP_2") or "1,2,3,4,5,6,7").split(",")))
        times = [int(part) for part in (row.optional("STR_PROP_3") or "0,0,0,23,59,59").split(",")]
        first, last = ("{:02}:{:02}:{:02}".format(*times[at:at + 3]) for at in (0, 3))
    except (ValueError, IndexError):
        raise row.fault("STR_PROP_2", "it and STR_PROP_3 aren't the days and the times of the day of a daily trigger") from None
    return Daily(_unit(row), row.whole("INT_PROP_1"), first, last, days, row.whole("LONG_PROP_1", -1))


def _add_calendars(source: Source, rows: list[Row], zones: JavaZones) -> None:
    for row in rows:
        name = row.text("CALENDAR_NAME")
        try:
            source.calendars.append(NamedCalendar(name, row.where, java_values.calendar(row.blob("CALENDAR"), zones)))
        except (BadStream, NoZone) as error:
            source.left_out.append(LeftOut(f"calendar {name!r}", row.where, str(error), name))
        except BadSource as error:
            raise row.fault("CALENDAR", str(error)) from None
