"""Metrics in Prometheus' text form. Labels are classes, nodes, states and codes, so many at most; never jobs."""
from __future__ import annotations

import sqlite3
import threading
import time
from collections import deque
from collections.abc import Iterator
from typing import TYPE_CHECKING, Any

from kemtrua import __version__, clock, logs
from kemtrua.errors import KemtruaError
from kemtrua.history.schema import NoHistory
from prometheus_client import CONTENT_TYPE_LATEST, CollectorRegistry, Counter, Histogram, generate_latest
from prometheus_client.core import CounterMetricFamily, GaugeMetricFamily, HistogramMetricFamily

from . import board
from .queries import History
from .rows import Store
from .states import Run

if TYPE_CHECKING:
    from .site import Site

log = logs.logger("kemtrua.web")

EACH = 5.0  # seconds between two looks
BACK = 600_000  # ms that a look goes back: executions come late into the history where the hub fills it in
UNTOLD = 60_000  # ms after its end that an execution's node has to tell how it went
MOST_CLASSES, MOST_NODES = 50, 100
OTHER = "other"
LATE = (0.1, 0.25, 0.5, 1, 2.5, 5, 10, 30, 60, 300, 1800)  # seconds
TOOK = (1, 5, 15, 60, 300, 900, 3600, 4 * 3600, 12 * 3600)


class Counting:
    """Counts what the history gets from the moment on at which this process began, each execution once."""

    def __init__(self, registry: CollectorRegistry):
        self.firings = Counter("kemtrua_firings", "Executions that began.", ["class"], registry=registry)
        self.late = Histogram("kemtrua_firing_late_seconds", "How late executions began after the time for which they fired.",
                              buckets=LATE, registry=registry)
        self.ended = Counter("kemtrua_executions", "Executions that ended, by class, state and completion code.",
                             ["class", "state", "code"], registry=registry)
        self.took = Histogram("kemtrua_execution_seconds", "How long executions took that ended.", ["class"], buckets=TOOK,
                              registry=registry)
        self.recovered = Counter("kemtrua_recovered", "Executions that began to make up for a lost one.", registry=registry)
        self.lost = Counter("kemtrua_lost", "Executions that were lost with their node.", registry=registry)
        self.misfired = Counter("kemtrua_misfired", "Fire times that were misfired.", registry=registry)
        self.missed = Counter("kemtrua_expected_missed", "Times that what was expected of a job was missed.", registry=registry)
        self._seen: dict[tuple[int, int], int] = {}
        self._order: deque[tuple[int, int]] = deque()
        self._open: dict[tuple[int, int], str] = {}
        self._classes: set[str] = set()
        self._since: int | None = None
        self._event = 0

    def class_of(self, run: Run) -> str:
        """The label of a class; those beyond the bound are one."""
        klass = run.klass or OTHER
        if klass not in self._classes and len(self._classes) < MOST_CLASSES:
            self._classes.add(klass)
        return klass if klass in self._classes else OTHER

    def look(self, history: History, present: int) -> None:
        if self._since is None:
            self._begin(history, present)
            return
        for run in history._runs("WHERE fired >= ? ORDER BY fired", (self._since - BACK,)):
            if (run.generation, run.entry) not in self._seen:
                self._count_firing(run)
        for key in list(self._open):
            run = history.run(key[1], key[0])
            if run is None:
                self._open.pop(key)
            elif run.ended is not None and (run.told is not None or run.state == "lost" or run.ended < present - UNTOLD):
                self._count_end(run)
        self._count_events(history)
        self._since = present
        while self._order and self._seen[self._order[0]] < present - 2 * BACK:
            del self._seen[self._order.popleft()]

    def _begin(self, history: History, present: int) -> None:
        """What was before isn't counted; what executes now is, once it ends."""
        for run in history._runs("WHERE fired >= ?", (present - BACK,)):
            self._remember(run)
        self._open = {(run.generation, run.entry): self.class_of(run) for run in history.open(10_000)}
        self._event = history._number("SELECT max(id) FROM events")
        self._since = present

    def _remember(self, run: Run) -> None:
        key = (run.generation, run.entry)
        self._seen[key] = run.fired or 0
        self._order.append(key)

    def _count_firing(self, run: Run) -> None:
        self._remember(run)
        klass = self.class_of(run)
        self.firings.labels(klass).inc()
        if run.recovers is None:
            self.late.observe(run.late / 1000)
        else:
            self.recovered.inc()
        self._open[(run.generation, run.entry)] = klass

    def _count_end(self, run: Run) -> None:
        klass = self._open.pop((run.generation, run.entry))
        self.ended.labels(klass, run.state, run.code or "none").inc()
        if run.state == "lost":
            self.lost.inc()
        elif run.took is not None:
            self.took.labels(klass).observe(run.took / 1000)

    def _count_events(self, history: History) -> None:
        if history._number("SELECT max(id) FROM events") < self._event:
            self._event = 0  # (the database was made anew, or all were too old: numbers begin anew)
        rows = history.connection.execute("SELECT id, kind FROM events WHERE id > ? ORDER BY id LIMIT 100000", (self._event,)).fetchall()
        for row in rows:
            self._event = row["id"]
            if row["kind"] == "misfired":
                self.misfired.inc()
            elif row["kind"] == "expect":
                self.missed.inc()


class Collector:
    """What `/metrics` answers: what was counted, and what the store, the hub and its nodes say now."""

    def __init__(self, site: Site):
        self._site = site
        self._registry = CollectorRegistry()
        self._lock = threading.Lock()
        self._ended = threading.Event()
        self._problem = ""  # what kept the last look from counting
        self.counting = Counting(self._registry)
        self._registry.register(self)  # type: ignore[arg-type]

    def begin(self) -> None:
        """Looks from now on, in a thread of its own."""
        self.look()
        threading.Thread(target=self._run, name="metrics", daemon=True).start()

    def close(self) -> None:
        self._ended.set()

    def _run(self) -> None:
        while not self._ended.wait(EACH):
            self.look()

    def look(self) -> None:
        with self._lock:
            problem = ""
            try:
                with History(self._site.settings.folder) as history:
                    self.counting.look(history, clock.now())
            except (NoHistory, OSError, sqlite3.Error) as error:
                problem = str(error)
            if problem and problem != self._problem:  # (once, and not at each look)
                log.warning("nothing is counted meanwhile: %s", problem)
            self._problem = problem

    def written(self) -> tuple[bytes, str]:
        self.look()
        return generate_latest(self._registry), CONTENT_TYPE_LATEST

    # -- what is now, for prometheus_client

    def describe(self) -> list[Any]:
        return []

    def collect(self) -> Iterator[Any]:
        self._site.rows.refresh()
        yield _info()
        try:
            with History(self._site.settings.folder) as history:
                yield _gauge(board.EXECUTING.name, board.EXECUTING.text, history.count_open())
                yield _gauge("kemtrua_history_bytes", "Bytes of the history.", history.bytes_used())
                loads = history.loads()
        except NoHistory:
            loads = {}
        with Store(self._site.rows) as store:
            if store.as_of is not None:
                yield from _of_rows(store)
                yield from _of_nodes(store, loads)
        yield from self._of_hub()

    def _of_hub(self) -> Iterator[Any]:
        hub = self._site.hub
        try:
            begun = time.monotonic()
            room, figures = hub.room(), hub.figures()
            seconds = time.monotonic() - begun
        except KemtruaError:
            yield _gauge("kemtrua_hub_up", "Whether the hub answers.", 0)
            return
        yield _gauge("kemtrua_hub_up", "Whether the hub answers.", 1)
        yield _gauge("kemtrua_hub_answer_seconds", "How long the hub took to answer two questions of this process.", seconds)
        used = GaugeMetricFamily("kemtrua_room_used_bytes", "Bytes of a store.", labels=["store"])
        payloads = GaugeMetricFamily("kemtrua_room_used_payloads", "Payloads of a store.", labels=["store"])
        for name, (size, count) in (("triggers", room.triggers), ("states", room.states)):
            used.add_metric([name], size)
            payloads.add_metric([name], count)
        yield used
        yield payloads
        yield _gauge("kemtrua_behind_snapshot", "Transactions that came after the last snapshot.", room.behind)
        if figures is not None:
            yield _gauge("kemtrua_connections", "Connections to the hub.", float(str(figures["connections"])))
            yield _transactions(figures)
            yield from _of_several(figures, hub)


def _info() -> Any:
    found = GaugeMetricFamily("kemtrua_web_info", "The version of kemtrua-web.", labels=["version"])
    found.add_metric([__version__], 1)
    return found


def _gauge(name: str, text: str, value: float) -> Any:
    return GaugeMetricFamily(name, text, value=value)


def _of_several(figures: dict[str, Any], hub: Any) -> Iterator[Any]:
    """What the leader of several hubs says of etcd, and how far the others are."""
    if "term" not in figures:
        return
    yield _gauge("kemtrua_hub_term", "The term of the hub that leads.", figures["term"])
    yield _gauge("kemtrua_hub_held", "Groups of answers that wait until etcd has what came of them.", figures["held"])
    for name, text, member in (("puts", "Puts in etcd since this hub leads.", "puts"), ("put_bytes", "Bytes of them.", "put_bytes"),
                               ("put_seconds", "Seconds that they took.", "put_seconds")):
        yield CounterMetricFamily(f"kemtrua_hub_{name}", text, value=figures[member])
    behind = GaugeMetricFamily("kemtrua_hub_blocks_behind", "Blocks in etcd that a hub doesn't have yet.", labels=["hub"])
    for row in hub.hubs():
        behind.add_metric([str(row["hub"])], float(str(row["behind"])))
    yield behind


def _transactions(figures: dict[str, Any]) -> Any:
    """Lines that the program answered to the hub, by how long each took: a line that changes the store is a transaction."""
    buckets, seen = [], 0
    for bound, count in zip(figures["bounds"], figures["within"]):
        seen += count
        buckets.append((repr(float(bound)), seen))
    buckets.append(("+Inf", sum(figures["within"])))
    return HistogramMetricFamily("kemtrua_store_answer_seconds", "How long the store took to answer each line of the hub.",
                                 buckets=buckets, sum_value=figures["seconds"])


def _of_rows(store: Store) -> Iterator[Any]:
    yield _gauge(board.JOBS.name, board.JOBS.text, store.count("jobs"))
    yield _gauge(board.TRIGGERS.name, board.TRIGGERS.text, store.count("triggers"))
    states = GaugeMetricFamily("kemtrua_triggers_by_state", "Triggers that are stored, by their state.", labels=["state"])
    for row in store.connection.execute("SELECT state, count(*) FROM triggers GROUP BY state"):
        states.add_metric([row[0]], row[1])
    yield states
    (next_,) = store.connection.execute("SELECT min(next) FROM triggers WHERE state = 'WAITING'").fetchone()
    if next_ is not None:
        yield _gauge(board.NEXT.name, board.NEXT.text, next_ / 1000)
    yield _gauge("kemtrua_rows_as_of_seconds", "When the rows were listed, in seconds since 1970 in UTC.", (store.as_of or 0) / 1000)


def _of_nodes(store: Store, loads: dict[str, Any]) -> Iterator[Any]:
    member = GaugeMetricFamily("kemtrua_node_member", "Whether the node is a member.", labels=["node"])
    last = GaugeMetricFamily("kemtrua_node_check_in_seconds", "When the node checked in last, in seconds since 1970 in UTC.",
                             labels=["node"])
    interval = GaugeMetricFamily("kemtrua_node_interval_seconds", "How often the node means to check in.", labels=["node"])
    executing = GaugeMetricFamily("kemtrua_node_executing", "Executions that the node has in its hands.", labels=["node"])
    workers = GaugeMetricFamily("kemtrua_node_workers", "Executions that the node takes at once, at most.", labels=["node"])
    skew = GaugeMetricFamily("kemtrua_node_skew_seconds", "By how much the node's clock is ahead of the hub's.", labels=["node"])
    for row in store.nodes()[:MOST_NODES]:
        labels = [row["node"]]
        member.add_metric(labels, int(row["epoch"] is not None))
        executing.add_metric(labels, row["executes"])
        if row["last"] is not None:
            last.add_metric(labels, row["last"] / 1000)
            interval.add_metric(labels, row["interval"] / 1000)
        load = loads.get(row["node"])
        if load is not None:
            workers.add_metric(labels, load["workers"] or 0)
            skew.add_metric(labels, (load["skew"] or 0) / 1000)
    yield from (member, last, interval, executing, workers, skew)

