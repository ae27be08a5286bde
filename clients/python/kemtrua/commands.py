"""Jobs that are commands: a class of jobs is a command line, the job's data goes in, and the exit status says how it went."""
from __future__ import annotations

import os
from collections.abc import Mapping, Sequence
from dataclasses import dataclass, field

from . import logs
from .guard import VARIABLE, Guard
from .jobs import FAILS, Code, Context, Job, Retry
from .running import NotThere, Order, Place, Run

log = logs.logger("kemtrua.job")


@dataclass(frozen=True)
class Command:
    """A command line, and how its exit status counts. Times are in seconds; `output` is how many bytes are logged of an execution."""

    words: Sequence[str]
    codes: Mapping[int, Code] = field(default_factory=lambda: {0: Code.NOOP, 75: Code.RE_EXECUTE_JOB})
    otherwise: Code = Code.NOOP
    not_there: Code = Code.SET_ALL_JOB_TRIGGERS_ERROR
    timeout: float | None = None
    directory: str = "/"
    environment: Mapping[str, str] = field(default_factory=dict)
    output: int = 1 << 20

    def job(self, guard: Guard | None, retry: Retry = Retry(), ends_when_cut_off: bool = False) -> Job:
        return Job(lambda context: self.execute(context, guard), retry, ends_when_cut_off=ends_when_cut_off)

    def execute(self, context: Context, guard: Guard | None = None) -> Code:
        """Runs the command until nothing of it is left, and gives the code that its exit status counts as. It ended as expected where `codes` has that
        status, with a code that is no retry and no error, and nobody had to end it.

        Raises NotBegun where it couldn't begin for a reason that may pass.
        """
        environment = {**os.environ, **self.environment, **variables_of(context)}
        environment.pop("NOTIFY_SOCKET", None)  # (that is the node's own)
        if guard is not None:
            environment[VARIABLE] = guard.token
        order = Order(self.words, self.directory, environment, self.timeout, self.output)
        place, record = context.take_place(), context.record
        record.most = None if self.timeout is None else round(1000 * self.timeout)
        try:
            place = place if isinstance(place, Place) else Place()
            status = Run(place, context, order).to_the_end()
        except NotThere as error:
            log.error("entry %d %s: %s", context.entry, context.job, error)
            record.ended(error.status)
            record.ok, record.why = False, str(error)
            return self.codes.get(error.status, self.not_there)
        code = self.codes.get(status, self.otherwise)
        record.ended(status)
        record.ok = record.why is None and status in self.codes and code not in FAILS
        (log.info if status == 0 else log.warning)("entry %d %s: exit status %d, which counts as %s", context.entry, context.job, status, code.value)
        return code


def variables_of(context: Context) -> dict[str, str]:
    """What a command finds of its execution in its environment."""
    found = {
        "KEMTRUA_NODE": context.node,
        "KEMTRUA_EPOCH": str(context.epoch),
        "KEMTRUA_ENTRY": str(context.entry),
        "KEMTRUA_JOB": context.job.name,
        "KEMTRUA_JOB_GROUP": context.job.group,
        "KEMTRUA_TRIGGER": context.trigger.name,
        "KEMTRUA_TRIGGER_GROUP": context.trigger.group,
        "KEMTRUA_CLASS": context.klass,
        "KEMTRUA_SCHEDULED": str(context.scheduled),
        "KEMTRUA_FIRED": str(context.fired),
        "KEMTRUA_RECOVERING": str(int(context.recovering)),
        "KEMTRUA_REFIRES": str(context.refires),
        "KEMTRUA_DATA": context.data,
    }
    # (a variable can't hold the character 0; standard input has the data as it is)
    return {name: value for name, value in found.items() if "\0" not in value}
