"""A node: it acquires what is due, and begins it at its time."""
from __future__ import annotations

import random
import threading
from collections.abc import Callable, Mapping
from dataclasses import dataclass

from . import clock, logs
from .checkins import CheckIns
from .connection import Connection
from .deadlines import Deadlines
from .errors import HubRefused, NotBegun, Refused, Unanswered
from .executions import Executions
from .jobs import Code, Context, Job, Place, jobs_of
from .membership import Fenced, GivenUp, Membership
from .names import Key
from .reporting import Reporting
from .rows import EntryRow
from .scheduler import Scheduler
from .spool import Spool
from .waking import Bell

log = logs.logger("kemtrua.node")

AT_ONCE = 20  # misfired triggers that one line moves at most
SLICE = 5.0  # seconds: the clock is read again at least this often, since it may jump
ASK_AGAIN = 30.0  # seconds: show_next is asked again at least this often, so that a wake which is lost delays and never loses
REST = 0.25  # seconds until the next acquire, where nothing could be acquired though something is due
WANT_REST = 5.0  # seconds until the next acquire, where nothing could begin for want of descriptors, memory or processes
ENDS_WITHIN = 15.0  # seconds that what is ended has: SIGKILL comes after 10 of them
REFUSED_REST = 5.0  # seconds until the next acquire, where the store or the hub refused one
LEAVE_WITHIN = 10.0  # seconds that the hub has to answer a node that leaves, once nothing runs any more
LEAVE_AT_LEAST = 2.0  # seconds of them, where finish_within is shorter
REPORTS_WITHIN = 2.0  # seconds for what isn't told yet of executions
LOOK_AT_END = 0.25  # seconds between two looks at how far the end is


@dataclass(frozen=True)
class Work:
    """How much a node takes on. `ahead` and `window` are in ms.

    It acquires what is due within `ahead`, so that it can begin in time. With it, it takes what is due up to `window` later, up to `batch` in all.
    """

    workers: int = 10
    batch: int = 1
    window: int = 0
    ahead: int = 1000


class Node:
    """One scheduler loop and one check-in loop, by the system's clock.

    `connect` gives who is asked: a new `Connection` to a hub at each call, or a `Store`. `jobs` has a job, or a function of a `Context`, for each
    class. `check_in` and `clock_limit` are in ms: where this machine's clock is further from the hub's, the node isn't let in. `finish_within` is
    in seconds: what still runs so long after a stop is ended, and left for others to recover.
    `spool` is a folder for what isn't told yet of executions; without one that is kept in memory.
    `prepare` makes ready what an execution needs, before it begins; where it raises NotBegun, the node gives back what it acquired.
    """

    def __init__(self, name: str, connect: Callable[[], Scheduler], jobs: Mapping[str, Job | Callable[[Context], Code | None]], *,
                 check_in: int = 15000, work: Work = Work(), finish_within: float | None = None, clock_limit: int = 5000,
                 prepare: Callable[[], Place] | None = None, spool: str | None = None):
        self.name, self.work = name, work
        self._prepare = prepare
        self._finish_within = finish_within
        self._stopped = self._idle = 0.0  # the uptimes of the stop, and since when nothing runs
        self._bell = Bell()
        self._stopping, self._hurried = threading.Event(), threading.Event()
        self._members = Membership(name, check_in, connect, self.wake, clock_limit, self._bell.give, work.ahead)
        self._clock = self._members.clock
        self._deadlines = Deadlines(self._fail)
        self._executions = Executions(jobs_of(jobs), self._members, work.workers, self.wake, self._fail, self._tell)
        self._reporting = Reporting(name, connect, Spool(spool), self._executions.contexts, lambda: self._members.team_generation)
        self._check_ins = CheckIns(self._members, check_in, self._deadlines, self.wake, self._executions.end_cut_off, self._tell_load)
        self._acquired: dict[int, tuple[int, Key]] = {}  # by entry number: when to fire it, and its trigger
        self._rests_until = 0.0  # nothing is acquired before this uptime
        self._due: int | None = None  # what show_next said last, and the uptime of that
        self._asked, self._looks = 0.0, True  # (and whether it is to be asked again)
        self._in_line = False  # whether the hub knows, where it gives turns, that this node sleeps and has a free worker
        self._has_joined, self._seen = False, 0  # (the generation of the membership that was looked at last)
        self._failure: BaseException | None = None

    def run(self) -> None:
        """Works until `stop`. Raises what made it end before."""
        try:
            joined = self._members.join()
        except GivenUp:
            return  # (it was stopped before a hub was there)
        self._has_joined, self._seen = True, self._members.generation
        log.info("%s joined under epoch %d; %d executions of its former self were lost, %d of them come again",
                 self.name, joined.epoch, joined.executions, joined.triggers)
        looking = threading.Thread(target=self._guarded, args=(self._check_ins.run,), name="check-in", daemon=True)
        looking.start()
        if isinstance(self._members.scheduler, Connection):
            self._reporting.start()
        self._guarded(self._schedule)
        self._guarded(self._finish)
        self._guarded(lambda: self._leave(looking))
        if self._failure is not None:
            raise self._failure

    def stop(self) -> None:
        """Has the node finish what runs, and leave. At the second call it ends what runs, and leaves that for others to recover."""
        if self._stopping.is_set() or not self._has_joined:
            self._hurried.set()
            self._members.give_up()
        else:
            self._stopped = self._idle = clock.uptime()
            self._deadlines.set("end", 0.0, self._look_at_end)
        self._stopping.set()
        self._executions.finish()
        self.wake()

    def wake(self) -> None:
        """Has the scheduler loop look again."""
        self._bell.ring()

    # -- what is told

    def _tell(self, context: Context, code: Code) -> None:
        """Has a report kept. Whatever becomes of that, the execution goes on to its completion."""
        try:
            if isinstance(self._members.scheduler, Connection):
                self._reporting.ended(context, code, self._clock.now())
        except Exception:
            log.exception("entry %d: how it ended can't be told", context.entry)

    def _tell_load(self) -> None:
        self._reporting.loaded(self.work.workers, self._runs(), self._clock.skew)

    # -- where something fails

    def _guarded(self, part: Callable[[], None]) -> None:
        """Runs a part of the node. Where it fails, the whole node ends."""
        try:
            part()
        except GivenUp:
            log.error("the hub isn't there; %d executions are left for others to recover", len(self._executions))
            self._end_all()
        except BaseException as error:
            self._fail(error)

    def _fail(self, error: BaseException) -> None:
        if self._failure is None:
            self._failure = error
        self._end_all()

    def _end_all(self) -> None:
        self._stopping.set()
        self._hurried.set()
        self._members.give_up()
        self._executions.abandon()
        self.wake()

    def _look_at_end(self) -> None:
        """After a stop: ends what runs too long, and a wait for a hub that doesn't answer."""
        present = clock.uptime()
        if self._runs():
            self._idle = present
        most = LEAVE_WITHIN if self._finish_within is None else max(LEAVE_AT_LEAST, min(self._finish_within, LEAVE_WITHIN))
        if self._runs() and self._finish_within is not None and present >= self._stopped + self._finish_within:
            log.error("%d executions are ended, and left for others to recover", self._runs())
            self._end_all()
        elif present >= self._idle + most:
            self._members.give_up()
        else:
            self._deadlines.set("end", LOOK_AT_END, self._look_at_end)

    # -- the scheduler loop

    def _schedule(self) -> None:
        while not self._stopping.is_set():
            try:
                self._settle()
                self._fire_due()
                self._go_on()
            except Unanswered as error:
                log.warning("an answer was lost: %s", error)
                self._seen = -1
            except Fenced:
                pass  # (the next turn joins again)

    def _go_on(self) -> None:
        """Takes its turn, looks what is due, or sleeps."""
        self._looks, turn = self._bell.was_rung() or self._looks, self._bell.take_turn()
        if turn is not None and self._may_acquire():
            self._take(turn.moment, turn.is_late)
        elif self._may_acquire() and self._is_to_look():
            self._look()
        else:
            self._in_line = self._in_line and turn is None  # (a turn that it can't take is another node's)
            self._sleep()

    def _is_to_look(self) -> bool:
        if self._members.is_cut_off or clock.uptime() - self._asked >= ASK_AGAIN:
            return True
        return not self._in_line if self._members.takes_turns else self._looks or self._is_near(self._due)

    def _look(self) -> None:
        """Hears what is due, and takes it where it is near. Where the hub gives turns this node waits for its own: only where it did so
        before, and something is overdue, a turn may have been lost."""
        waited = self._in_line and not self._members.is_cut_off
        due = self._next()
        if due is not None and (due < self._clock.now() and waited if self._members.takes_turns else self._is_near(due)):
            self._take(due, self._clock.now() - due > self._members.scheduler.late_after)

    def _settle(self) -> None:
        """Joins again where the node was recovered, and compares what is here with the store where an answer may have been lost."""
        if self._members.is_fenced:
            log.warning("%s %s", self.name, "begins anew there" if self._members.is_elsewhere else "was taken for failed")
            self._acquired.clear()
            self._executions.drop()
            log.info("%s joined under epoch %d", self.name, self._members.join().epoch)
            self._seen, self._in_line = self._members.generation, False
        if self._seen != self._members.generation:
            self._reconcile()

    def _reconcile(self) -> None:
        self._seen, self._in_line = self._members.generation, False
        for entry in self._members.entries():
            row = self._row_of(entry) if entry not in self._executions else None
            if row is None or entry in self._executions:
                continue
            if row.executes:
                self._acquired.pop(entry, None)
                self._executions.begin(row)
            elif entry not in self._acquired:
                log.info("entry %d acquired %s for %s, whose answer was lost", entry, row.trigger, row.scheduled)
                self._acquired[entry] = (row.scheduled, row.trigger)

    def _row_of(self, entry: int) -> EntryRow | None:
        """What the store has under this entry number, if it is this node's."""
        try:
            row = self._members.look(lambda it: it.show_entry(entry))
        except HubRefused:
            return None  # (it is another node's by now)
        return row if row is not None and (row.node, row.epoch) == (self.name, self._members.epoch) else None

    def _free(self) -> int:
        return self.work.workers - len(self._acquired) - len(self._executions)

    def _may_acquire(self) -> bool:
        return self._free() > 0 and clock.uptime() >= self._rests_until

    def _is_near(self, due: int | None) -> bool:
        return due is not None and due <= self._clock.now() + self.work.ahead

    def _next(self) -> int | None:
        self._due, self._looks, self._in_line = self._members.look(lambda it: it.show_next()), False, True
        self._asked = clock.uptime()
        return self._due

    def _sleep(self) -> None:
        """Sleeps until something is to be fired or acquired, or a message comes."""
        present, rests = self._clock.now(), self._rests_until - clock.uptime()
        lefts = [SLICE, *((time - present) / 1000 for time, _ in self._acquired.values())]
        if self._free() > 0 and self._members.takes_turns:
            lefts.append(SLICE if self._in_line else rests)
        elif self._free() > 0 and self._due is not None:
            # (not all nodes at one moment, so that the later ones find it taken)
            begins = self._due - self.work.ahead + random.randrange(self.work.ahead // 4 + 1)
            lefts.append(max(rests, (begins - present) / 1000))
        self._bell.sleep(min(lefts))

    def _take(self, due: int, is_late: bool) -> None:
        """Acquires what is due. Misfires come first where it may be misfired, or where nothing can be acquired though it is due."""
        try:
            if is_late:
                self._handle_misfires()
            if not self._acquire(due) and self._next() == due and not self._handle_misfires():
                self._rest(REST)
        except Refused as refused:
            log.error("nothing is acquired for %g seconds: %s", REFUSED_REST, refused)
            self._rest(REFUSED_REST)
        except HubRefused as error:
            if error.word != "too-many":
                raise
            log.warning("nothing is acquired for %g seconds: %s", REFUSED_REST, error)
            self._rest(REFUSED_REST)

    def _rest(self, seconds: float) -> None:
        """Nothing is acquired for so long."""
        self._rests_until = clock.uptime() + seconds

    def _acquire(self, due: int) -> bool:
        """Acquires what is due by then, or soon. (The hub may see that sooner than this node's clock.)"""
        limit, most = max(self._clock.now() + self.work.ahead, due, 0), min(self.work.batch, self._free(), 64)
        self._in_line = False
        reply = self._members.ask(lambda it: it.acquire(self.name, limit, self.work.window, most))
        for one in reply.triggers:
            log.info("entry %d acquired %s for %s", one.entry, one.trigger, one.time)
            self._acquired[one.entry] = (one.time, one.trigger)
        return bool(reply.triggers)

    def _handle_misfires(self) -> bool:
        """Whether something was misfired."""
        found = self._in_line = False
        while True:
            reply = self._members.sure(lambda it: it.misfires(self.name))
            for key, time in reply.triggers:
                log.warning("%s was misfired; its next time is %s", key, time)
            found = found or bool(reply.triggers)
            if len(reply.triggers) < AT_ONCE:
                return found  # (there are no more)

    def _fire_due(self) -> None:
        for entry, (time, trigger) in sorted(self._acquired.items(), key=lambda it: it[1][0]):
            if time > self._clock.now():
                return
            self._fire(entry, trigger)

    def _fire(self, entry: int, trigger: Key) -> None:
        try:
            place = self._prepare() if self._prepare is not None else None
        except NotBegun as error:
            log.error("entry %d is given back: %s", entry, error)
            self._release(entry)
            self._rest(WANT_REST)
            return
        try:
            place = self._fire_in(entry, trigger, place)
        finally:
            if place is not None:
                place.close()

    def _fire_in(self, entry: int, trigger: Key, place: Place | None) -> Place | None:
        """Fires, and begins the execution in this place, which it gives back where nothing began in it."""
        try:
            self._members.ask(lambda it: it.fire(self.name, entry))
        except Refused as refused:
            if refused.number == 19:
                # (the store's clock is late against this one)
                self._acquired[entry] = (max(int(refused.fields[1]), self._clock.now() + 50), trigger)
                return place
            log.info("entry %d isn't fired: %s", entry, refused)
            self._acquired.pop(entry, None)
            if refused.number == 17:
                self._seen = -1  # (it has begun: the answer to that was lost)
            return place
        self._acquired.pop(entry, None)
        row = self._row_of(entry)
        if row is None:
            return place
        self._executions.begin(row, place)
        return None

    def _release(self, entry: int) -> None:
        self._acquired.pop(entry, None)
        try:
            self._members.sure(lambda it: it.release(self.name, entry))
        except Refused as refused:
            log.info("entry %d isn't released: %s", entry, refused)

    # -- the end

    def _finish(self) -> None:
        """Gives back what hasn't begun, and waits for what runs."""
        for entry in list(self._acquired) if not self._members.is_cut_off else ():
            try:
                self._release(entry)
            except Fenced:
                pass  # (it waits again already)
        if self._runs():
            log.info("waiting for %d executions", self._runs())
        while self._runs() and not self._hurried.is_set():
            if self._members.is_fenced:
                self._executions.drop()
            self._bell.pause(0.2)

    def _runs(self) -> int:
        return len(self._executions) - self._executions.left_open

    def _leave(self, looking: threading.Thread) -> None:
        """Ends the check-ins, and leaves."""
        if self._runs():
            log.error("%d executions are ended, and left for others to recover", self._runs())
            self._end_all()
        self._executions.wait(ENDS_WITHIN)
        self._check_ins.end()
        self._reporting.end(REPORTS_WITHIN)
        looking.join(LEAVE_WITHIN)
        try:
            if not self._executions:
                self._members.sure(lambda it: it.leave(self.name))
                log.info("%s left", self.name)
        except (Refused, Fenced, GivenUp) as error:
            log.warning("%s couldn't leave: %s", self.name, error or "the hub isn't there, or it was taken for failed")
        self._deadlines.cancel("end")
        self._members.scheduler.close()
