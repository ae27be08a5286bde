"""Jobs, triggers and calendars as Quartz has them, whatever they were read from."""
from __future__ import annotations

from collections.abc import Mapping
from dataclasses import dataclass, field
from enum import Enum

from ..errors import KemtruaError
from ..names import Key
from .report import Told


class BadSource(KemtruaError):
    """What was to be read is no file or table of Quartz's, or not of a version that is known. The text says where and why."""


@dataclass(frozen=True)
class JobData:
    """A job data map: what JSON can hold of it, and of which members it can't, with the class of each."""

    values: Mapping[str, object] = field(default_factory=dict)
    lost: Mapping[str, str] = field(default_factory=dict)


@dataclass(frozen=True)
class Job:
    """A job. `place` says where it was read. What the source doesn't say is None."""

    key: Key
    place: str
    klass: str
    durable: bool = False
    no_concurrent: bool | None = None
    requests_recovery: bool = False
    keeps_data: bool | None = None
    data: JobData = JobData()
    unreadable: str = ""  # why its data can't be read
    remarks: tuple[Told, ...] = ()  # what else the source says of it that has no counterpart


@dataclass(frozen=True)
class Simple:
    """Each `interval` ms, `count` times after the first; -1 is without end."""

    interval: int
    count: int


@dataclass(frozen=True)
class Cron:
    """`zone` None is the zone of the JVM."""

    text: str
    zone: str | None


@dataclass(frozen=True)
class Interval:
    """Quartz's calendar-interval trigger, with its two flags on daylight saving."""

    unit: str
    every: int
    zone: str | None
    preserves_hour: bool = False
    skips_day: bool = False


@dataclass(frozen=True)
class Daily:
    """Quartz's daily-time-interval trigger. Its zone is always that of the JVM."""

    unit: str
    every: int
    first: str
    last: str
    days: tuple[int, ...]
    count: int


Schedule = Simple | Cron | Interval | Daily


class State(Enum):
    """What a trigger's row says of it."""

    WAITING = "WAITING"
    PAUSED = "PAUSED"
    COMPLETE = "COMPLETE"
    ERROR = "ERROR"


@dataclass(frozen=True)
class Trigger:
    """A trigger. `next` is its next fire time where the source knows it; then `goes_on` is true, and None is that it fires no more."""

    key: Key
    place: str
    job: Key
    schedule: Schedule
    start: int
    end: int | None = None
    next: int | None = None
    goes_on: bool = False
    priority: int = 5
    calendar: str | None = None
    misfire: int = 0
    state: State = State.WAITING
    has_data: bool = False
    remarks: tuple[Told, ...] = ()


@dataclass(frozen=True)
class Calendar:
    """A calendar: what it excludes, as members of a calendar of ours, its zone (None: that of the JVM), and the one below it."""

    kind: str
    members: Mapping[str, object]
    zone: str | None = None
    base: Calendar | None = None
    remarks: tuple[Told, ...] = ()


@dataclass(frozen=True)
class NamedCalendar:
    name: str
    place: str
    calendar: Calendar


@dataclass(frozen=True)
class LeftOut:
    """A row that could be read and has no counterpart. `of` is its key or name, by which others name it."""

    what: str
    place: str
    why: str
    of: Key | str | None = None


@dataclass(frozen=True)
class Remark:
    """What a source says that is none of its rows, as commands and directives of an XML file."""

    what: str
    place: str
    why: str


@dataclass
class Source:
    """All that was read."""

    what: str
    jobs: list[Job] = field(default_factory=list)
    triggers: list[Trigger] = field(default_factory=list)
    calendars: list[NamedCalendar] = field(default_factory=list)
    paused_groups: list[str] = field(default_factory=list)
    all_paused: bool = False
    left_out: list[LeftOut] = field(default_factory=list)
    remarks: list[Remark] = field(default_factory=list)
    has_calendars: bool = False  # whether calendars are in it at all; an XML file has none
