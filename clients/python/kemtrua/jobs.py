"""What a node runs: jobs, what they learn, and what they answer."""
from __future__ import annotations

import threading
from collections.abc import Callable, Mapping
from dataclasses import dataclass, field
from enum import Enum
from typing import Protocol

from .names import RECOVERIES, Key
from .record import Record
from .rows import EntryRow


class Code(str, Enum):
    """What an execution answers, with Quartz's names."""

    NOOP = "NOOP"
    RE_EXECUTE_JOB = "RE_EXECUTE_JOB"
    SET_TRIGGER_COMPLETE = "SET_TRIGGER_COMPLETE"
    DELETE_TRIGGER = "DELETE_TRIGGER"
    SET_ALL_JOB_TRIGGERS_COMPLETE = "SET_ALL_JOB_TRIGGERS_COMPLETE"
    SET_TRIGGER_ERROR = "SET_TRIGGER_ERROR"
    SET_ALL_JOB_TRIGGERS_ERROR = "SET_ALL_JOB_TRIGGERS_ERROR"


FAILS = frozenset({Code.RE_EXECUTE_JOB, Code.SET_TRIGGER_ERROR, Code.SET_ALL_JOB_TRIGGERS_ERROR})  # no execution is expected to answer these


class Stop:
    """Says to a job that it is to end. What is given to `call` is called once, at the latest at once."""

    def __init__(self) -> None:
        self._event, self._lock = threading.Event(), threading.Lock()
        self._calls: list[Callable[[], None]] = []

    def set(self) -> None:
        with self._lock:
            self._event.set()
            calls, self._calls = self._calls, []
        for call in calls:
            call()

    def is_set(self) -> bool:
        return self._event.is_set()

    def wait(self, seconds: float | None = None) -> bool:
        return self._event.wait(seconds)

    def call(self, call: Callable[[], None]) -> None:
        with self._lock:
            if not self._event.is_set():
                self._calls.append(call)
                return
        call()


class Place(Protocol):
    """What a node has ready for one execution, so that want of it shows before the execution has begun."""

    def close(self) -> None:
        """Gives it back, where nothing began in it."""


@dataclass(frozen=True)
class Context:
    """What a job learns of its execution. Moments are in ms since 1970-01-01T00:00:00Z."""

    node: str
    epoch: int
    entry: int
    trigger: Key
    job: Key
    klass: str
    data: str
    scheduled: int
    fired: int
    refires: int = 0
    stop: Stop = field(default_factory=Stop, compare=False)
    places: list[Place] = field(default_factory=list, compare=False, repr=False)  # what the node has ready for a command, once
    record: Record = field(default_factory=Record, compare=False, repr=False)  # what is told of it

    @property
    def recovering(self) -> bool:
        """Whether this makes up for an execution that was lost with its node."""
        return self.trigger.group == RECOVERIES

    def take_place(self) -> Place | None:
        """What the node prepared for this execution, if nobody took it."""
        return self.places.pop() if self.places else None

    @classmethod
    def of_row(cls, row: EntryRow) -> Context:
        """The context of an execution that has begun, of a job that is stored."""
        assert row.job is not None and row.klass is not None and row.at is not None
        return cls(row.node, row.epoch, row.entry, row.trigger, row.job, row.klass, row.data, row.scheduled, row.at)


@dataclass(frozen=True)
class Retry:
    """What is done where a job answers RE_EXECUTE_JOB: how often it is executed again, after how many seconds, and what counts then."""

    times: int = 8
    after: float = 0.0
    then: Code = Code.SET_TRIGGER_ERROR


@dataclass(frozen=True)
class Job:
    """A class of jobs. `run` gets the context, and answers a code; None is NOOP. An exception is logged and counts as `fails`."""

    run: Callable[[Context], Code | None]
    retry: Retry = Retry()
    fails: Code = Code.NOOP
    ends_when_cut_off: bool = False


Jobs = Mapping[str, Job]


def jobs_of(given: Mapping[str, Job | Callable[[Context], Code | None]]) -> dict[str, Job]:
    return {klass: job if isinstance(job, Job) else Job(job) for klass, job in given.items()}
