"""What runs on a node: each execution in a thread of its own, until its completion is answered."""
from __future__ import annotations

import queue
import threading
from collections.abc import Callable, Mapping
from dataclasses import replace

from . import clock, logs
from .errors import HubRefused, NotBegun, Refused, Unanswered
from .jobs import FAILS, Code, Context, Job, Place
from .membership import Fenced, GivenUp, Membership
from .replies import Again, Completed
from .rows import EntryRow

log = logs.logger("kemtrua.node")

FIRST_REST, LONGEST_REST = 1.0, 30.0  # seconds until what couldn't begin is tried again
NO_JOB = Code.SET_ALL_JOB_TRIGGERS_ERROR  # what counts where the node has no job of a class


class Execution:
    """One of them, in one of the node's lives. It is lost once others make up for it: then its result is dropped. It is left where it stays open at the store."""

    def __init__(self, context: Context, job: Job | None, life: int):
        self.context, self.job, self.life = context, job, life
        self.lost = self.left = False


class Workers:
    """So many threads, begun at once, so that no work fails for want of one."""

    def __init__(self, count: int, name: str):
        self._work: queue.SimpleQueue[Callable[[], None] | None] = queue.SimpleQueue()
        self._threads = [threading.Thread(target=self._run, name=f"{name}-{number}", daemon=True) for number in range(count)]
        for thread in self._threads:
            thread.start()

    def do(self, work: Callable[[], None]) -> None:
        self._work.put(work)

    def end(self, seconds: float | None = None) -> bool:
        """Ends them once all work is done. Says whether that came within so many seconds."""
        for _ in self._threads:
            self._work.put(None)
        until = None if seconds is None else clock.uptime() + seconds
        for thread in self._threads:
            thread.join(None if until is None else max(0.0, until - clock.uptime()))
        return not any(thread.is_alive() for thread in self._threads)

    def _run(self) -> None:
        while (work := self._work.get()) is not None:
            work()


class Executions:
    """Begins executions, and completes them. `changed` is called when one has ended, and `failed` with what nobody foresaw. `told` is told of each that
    has ended here, before the store is."""

    def __init__(self, jobs: Mapping[str, Job], members: Membership, workers: int, changed: Callable[[], None], failed: Callable[[BaseException], None],
                 told: Callable[[Context, Code], None] = lambda context, code: None):
        self._jobs, self._members, self._told = jobs, members, told
        self._changed, self._failed = changed, failed
        self._workers = Workers(workers, "job")
        self._running: dict[int, Execution] = {}
        self._lost: set[Execution] = set()  # they still end, and take a thread till then
        self._lock = threading.Lock()  # of these two
        self._finishing, self._abandoned = threading.Event(), threading.Event()

    def __len__(self) -> int:
        return len(self._running) + len(self._lost)

    def __contains__(self, entry: int) -> bool:
        return entry in self._running

    @property
    def left_open(self) -> int:
        """How many stay open at the store, since they were ended or couldn't begin: others recover them."""
        return sum(execution.left for execution in list(self._running.values()))

    def begin(self, row: EntryRow, place: Place | None = None) -> None:
        """Runs the job of an execution that has begun at the store, in a place that was prepared for it."""
        if row.klass is None:
            log.warning("entry %d: its job isn't stored any more, so there is nothing to run", row.entry)
            context = Context(row.node, row.epoch, row.entry, row.trigger, row.job or row.trigger, "", "", row.scheduled, row.at or 0)
            job: Job | None = Job(lambda _: Code.NOOP)
        else:
            context = Context.of_row(row)
            job = self._jobs.get(row.klass)
        log.info("entry %d fired %s of job %s, class %s, for %d, %d ms late", row.entry, row.trigger, context.job, context.klass, row.scheduled,
                 context.fired - row.scheduled)
        context.places.extend([place] if place is not None else [])
        execution = self._running[row.entry] = Execution(context, job, self._members.lives)
        self._workers.do(lambda: self._execute(execution))

    def contexts(self) -> list[Context]:
        """Those of what runs."""
        return [execution.context for execution in list(self._running.values())]

    def finish(self) -> None:
        """From now on nobody waits for a retry: a job that asks for one runs at once, and once more at most."""
        self._finishing.set()

    def drop(self) -> None:
        """Others make up for what runs here: it is ended, and its results are dropped."""
        with self._lock:
            lost = list(self._running.values())
            self._running.clear()
            self._lost.update(lost)
            for execution in lost:
                execution.lost = True
        for execution in lost:
            execution.context.stop.set()
        log.warning("%d executions are ended here: they aren't this node's any more", len(lost))

    def abandon(self) -> None:
        """Ends what runs, and completes none of it: others will recover it."""
        self._finishing.set()
        self._abandoned.set()
        for execution in list(self._running.values()):
            execution.context.stop.set()

    def end_cut_off(self) -> None:
        """Ends what wants to be where others may take this node for failed."""
        for execution in list(self._running.values()):
            if execution.job is not None and execution.job.ends_when_cut_off:
                log.warning("entry %d is ended: this node can't say that it lives", execution.context.entry)
                execution.context.stop.set()

    def wait(self, seconds: float | None = None) -> None:
        """Waits until all have ended, or for so many seconds."""
        if not self._workers.end(seconds):
            log.error("something of %d executions still runs; its keepers go on with ending it", len(self))

    def _execute(self, execution: Execution) -> None:
        again = 0
        try:
            while not execution.lost:
                code = self._answered(execution, again)
                if code is not None:
                    self._told(execution.context, code)
                if execution.lost or self._abandoned.is_set() or code is None or not isinstance(self._complete(execution, code), Again):
                    break
                again += 1
                self._wait_for_retry(execution)
                execution.context = replace(execution.context, refires=again)
        except (Fenced, GivenUp):
            pass  # (the scheduler loop meets it, too)
        except BaseException as error:
            self._failed(error)
        finally:
            for place in execution.context.places:
                place.close()
            self._leave(execution)
            self._changed()

    def _answered(self, execution: Execution, again: int) -> Code | None:
        """What the job's answer counts as. One that can't begin is tried again, until the node ends: then it is None, and others recover it."""
        rest = FIRST_REST
        while True:
            try:
                return self._counted(execution, again)
            except NotBegun as error:
                log.error("entry %d hasn't begun, and is tried again in %g seconds: %s", execution.context.entry, rest, error)
            if self._finishing.wait(rest):
                log.error("entry %d couldn't begin; it stays open at the store, and others recover it", execution.context.entry)
                execution.left = True
            if execution.left or execution.lost:
                return None
            rest = min(2 * rest, LONGEST_REST)

    def _leave(self, execution: Execution) -> None:
        """An execution has ended. One that was abandoned or left stays counted, since it is open at the store."""
        with self._lock:
            execution.left = execution.left or self._abandoned.is_set()
            if execution.lost:
                self._lost.discard(execution)
                log.warning("entry %d ended, and its result is dropped", execution.context.entry)
            elif not execution.left:
                self._running.pop(execution.context.entry, None)

    def _counted(self, execution: Execution, again: int) -> Code:
        """Runs the job once, and gives what its answer counts as."""
        context, job = execution.context, execution.job
        record, begun = context.record, clock.uptime()
        record.begin()
        if job is None:
            record.ok, record.why = False, f"no job of the class {context.klass!r} is on this node"
            log.error("entry %d: no job of the class %r here; all triggers of %s get the state ERROR", context.entry, context.klass, context.job)
            return NO_JOB
        try:
            code = job.run(context) or Code.NOOP
        except NotBegun:
            raise
        except Exception as error:
            log.exception("entry %d: the job failed", context.entry)
            code, record.ok, record.why = job.fails, False, f"{type(error).__name__}: {error}"
        record.ms = round((clock.uptime() - begun) * 1000)
        if record.ok is None:
            record.ok = code not in FAILS
        if code is Code.RE_EXECUTE_JOB and (again >= job.retry.times or again and self._finishing.is_set()):
            log.error("entry %d: it was executed %d times, and isn't again; it counts as %s", context.entry, again + 1, job.retry.then.value)
            return job.retry.then
        return code

    def _wait_for_retry(self, execution: Execution) -> None:
        seconds = execution.job.retry.after if execution.job is not None else 0.0
        log.info("entry %d is executed again in %g seconds", execution.context.entry, seconds)
        until = clock.uptime() + seconds
        while (left := until - clock.uptime()) > 0 and not self._finishing.is_set() and not execution.context.stop.is_set():
            self._finishing.wait(min(left, 1.0))

    def _is_mine(self, context: Context) -> bool:
        """Whether the store still has the execution as this node's."""
        try:
            row = self._members.look(lambda it: it.show_entry(context.entry))
        except HubRefused:
            return False
        return row is not None and (row.node, row.epoch) == (context.node, context.epoch)

    def _complete(self, execution: Execution, code: Code) -> Again | Completed | None:
        """The reply to the completion; None where it was done and the reply was lost, or where the store refuses it."""
        context, entry = execution.context, execution.context.entry
        while not execution.lost:
            try:
                reply = self._members.ask(lambda it: it.complete(context.node, entry, code.value), execution.life)
                log.info("entry %d completed with %s: %s", entry, code.value, type(reply).__name__)
                return reply
            except Refused as refused:
                log.warning("entry %d isn't completed: %s", entry, refused)
                return None
            except Unanswered:
                if not self._is_mine(context):
                    log.info("entry %d completed with %s, whose answer was lost", entry, code.value)
                    return None
        return None
