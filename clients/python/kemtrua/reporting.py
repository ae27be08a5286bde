"""A node's third loop: it tells the hub how executions ended, what they write meanwhile, and how much the node has to do.

It has a connection of its own, so that no fire and no completion waits for it.
"""
from __future__ import annotations

import threading
from collections import deque
from collections.abc import Callable, Iterable, Mapping

from . import clock, logs
from .address import Address
from .connection import Connection
from .errors import BadLine, BadReply, HubRefused, KemtruaError, Unanswered, Unreachable
from .history.outputs import text_of
from .history.reports import OUTPUT, PIECE, Report
from .jobs import Code, Context
from .scheduler import Scheduler
from .spool import Kept, Key, Spool, object_of

log = logs.logger("kemtrua.node")

EACH = 10.0  # seconds between two pieces of output of what runs
IN_A_REPORT = 4096  # bytes of output that go with a report; one that is longer goes in lines of its own
OF_A_LINE = 40_000  # bytes of reports that go in one line
AT_ONCE = 64  # reports of one line
REST, LONGEST_REST, REFUSED_REST = 1.0, 30.0, 60.0  # seconds until the hub is tried again
LONGEST_WHY = 1000  # characters
TOLD_AGAIN = 120.0  # seconds for which a report that a hub has is told to another one, too, that leads then: it may not know it yet
MOST_AGAIN = 500  # of them at most, each with so much of its output as goes with a report


class Reporting:
    """`running` gives the executions that go on, `generation` that of the team that was joined, `connect` a connection of its own."""

    def __init__(self, node: str, connect: Callable[[], Scheduler], spool: Spool, running: Callable[[], Iterable[Context]], generation: Callable[[], int]):
        self._node, self._connect, self._spool, self._running, self._generation = node, connect, spool, running, generation
        self._lock = threading.Lock()  # of the spool and of what follows
        self._sent: dict[Key, int] = {}  # up to which offset the hub has the output of what runs
        self._load: tuple[int, int, int] | None = None
        self._connection: Connection | None = None
        self._woken, self._ending = threading.Event(), threading.Event()
        self._ends_at = float("inf")
        self._thread = threading.Thread(target=self._run, name="reports", daemon=True)
        self._told = 0.0
        self._lately: deque[tuple[float, Kept]] = deque()  # what was told, and the uptime of that
        self._at: Address | None = None  # the hub that was told last

    def start(self) -> None:
        self._thread.start()

    def end(self, seconds: float) -> None:
        """Tells what there is within so many seconds. What is left is told after the next start."""
        self._ends_at = clock.uptime() + seconds
        self._ending.set()
        self._woken.set()
        if self._thread.ident is not None:
            self._thread.join(seconds)
        if (connection := self._connection) is not None:
            connection.close()

    def ended(self, context: Context, code: Code, ended: int) -> None:
        """Keeps a report of an execution that has ended here, before the store hears of it."""
        record = context.record
        report = Report(self._generation(), context.entry, context.epoch, str(context.trigger), str(context.job), context.klass, context.scheduled, context.fired,
                        ended, context.refires, int(bool(record.ok)), code.value, record.status, record.signal, record.ms, record.cpu, record.peak,
                        None if record.why is None else record.why[:LONGEST_WHY], record.most)
        begin, output = record.tail.behind(0)
        with self._lock:
            self._spool.add(Kept(report, begin, output))
        self._woken.set()

    def loaded(self, workers: int, runs: int, skew: int) -> None:
        """How much this node can take and runs, and by how many ms its clock is ahead of the hub's."""
        self._load = (workers, runs, skew)
        self._woken.set()

    # -- the thread

    def _run(self) -> None:
        rest = 0.0
        while clock.uptime() < self._ends_at:
            if self._ending.is_set() and (rest or not self._keys()):
                return
            if rest:
                self._ending.wait(rest)
            else:
                self._woken.wait(EACH)
            self._woken.clear()
            try:
                self._tell()
                rest = 0.0
            except HubRefused as error:
                log.info("what ran isn't told for %g seconds: %s", REFUSED_REST, error)
                rest = REFUSED_REST
            except (Unreachable, Unanswered, BadReply) as error:
                log.debug("what ran isn't told yet: %s", error)
                rest = min(max(REST, 2 * rest), LONGEST_REST)
            except KemtruaError as error:
                log.warning("what ran isn't told: %s", error)
                rest = REFUSED_REST

    def _keys(self) -> list[Key]:
        with self._lock:
            return self._spool.keys()

    def _hub(self) -> Connection:
        if self._connection is None or self._connection.is_broken:
            if self._connection is not None:
                self._connection.close()
                self._connection = None
            made = self._connect()
            assert isinstance(made, Connection)
            self._connection = made
            if self._at not in (None, made.address):
                self._begin_anew()
            self._at = made.address
        return self._connection

    def _begin_anew(self) -> None:
        """Another hub leads: what the one before was told lately is told once more, and all output of what runs."""
        self._sent.clear()
        with self._lock:
            for at, kept in self._lately:
                if clock.uptime() - at <= TOLD_AGAIN and self._spool.get(kept.key) is None:
                    self._spool.add(kept)
        self._lately.clear()

    def _keep_for_another(self, kept: Kept) -> None:
        rest = max(0, len(kept.output) - IN_A_REPORT)
        self._lately.append((clock.uptime(), Kept(kept.report, kept.begin + rest, kept.output[rest:])))
        while len(self._lately) > MOST_AGAIN or clock.uptime() - self._lately[0][0] > TOLD_AGAIN:
            self._lately.popleft()

    def _tell(self) -> None:
        """Tells all that there is."""
        self._tell_load()
        while keys := self._keys():
            self._tell_reports(keys[: AT_ONCE])
        if clock.uptime() - self._told >= EACH / 2:
            self._told = clock.uptime()
            self._tell_running()

    def _tell_load(self) -> None:
        load, self._load = self._load, None
        if load is not None:
            self._hub().load(self._node, *load)

    def _tell_reports(self, keys: list[Key]) -> None:
        """Tells as many of these as go in one line. What the hub has on its disk then isn't kept any more."""
        told: list[Kept] = []
        objects: list[Mapping[str, object]] = []
        size = 0
        for key in keys:
            with self._lock:
                kept = self._spool.get(key)
            if kept is None:
                continue
            one = object_of(kept, IN_A_REPORT)
            size += sum(len(str(value)) for value in kept.report.members().values()) * 2 + 400 + len(str(one.get("data", "")))
            if told and size > OF_A_LINE:
                break
            told.append(kept)
            objects.append(one)
        if not told:
            return
        try:
            self._hub().stored("report", node=self._node, told=objects)
            for kept in told:
                if len(kept.output) > IN_A_REPORT:
                    self._tell_output(kept.key, max(kept.begin, self._sent.get(kept.key, 0)), kept.begin, kept.output, kept.report.most)
        except (BadLine, HubRefused) as error:
            if isinstance(error, HubRefused) and error.word != "bad-line" or len(told) > 1 and self._each(told):
                raise
            log.error("the report of entry %d is given up: %s", told[0].report.entry, error)
        with self._lock:
            for kept in told:
                self._spool.drop(kept)
                self._sent.pop(kept.key, None)
                self._keep_for_another(kept)

    def _each(self, told: list[Kept]) -> bool:
        """Tells these one by one, since one of them is refused."""
        for kept in told:
            self._tell_reports([kept.key])
        return False

    def _tell_output(self, key: Key, after: int, begin: int, output: bytes, most: int | None) -> None:
        """Tells what comes behind an offset of an output that begins at another one, in pieces."""
        limit = {} if most is None else {"most": most}
        for at in range(max(after, begin), begin + len(output), PIECE):
            piece = output[at - begin : at - begin + PIECE]
            self._hub().stored("output", node=self._node, generation=key[0], entry=key[1], **{"from": at}, data=text_of(piece), **limit)

    def _tell_running(self) -> None:
        """Tells what is new of the output of what runs, and that it runs."""
        for context in list(self._running()):
            key = (self._generation(), context.entry)
            begin, output = context.record.tail.behind(self._sent.get(key, 0))
            if output:
                self._tell_output(key, begin, begin, output[-OUTPUT:], context.record.most)
            elif key not in self._sent:
                limit = {} if context.record.most is None else {"most": context.record.most}
                self._hub().stored("output", node=self._node, generation=key[0], entry=key[1], **{"from": 0}, data="", **limit)
            self._sent[key] = begin + len(output)
