"""Counts over a span of the history, which are made beside the pages where a span has many executions."""
from __future__ import annotations

import heapq
import threading
import time
from collections.abc import Callable
from dataclasses import dataclass
from typing import Generic, TypeVar

from .moments import HOUR, MINUTE
from .queries import History

BIN = 15 * MINUTE
OFTEN, FIRST = 0.7, 60  # of the hours of a span, in which a frequent job fires; and jobs of which Now tells
QUICK = 0.05  # seconds that something may take so that it is made for each page
REST = 20.0  # what took long is made again after so many times as long
Kept = TypeVar("Kept")


@dataclass(frozen=True)
class OfJob:
    """What a job did in a span."""

    job: str
    count: int
    done: int
    bad: int
    open: int
    longest: int
    last: int
    processor: int


@dataclass(frozen=True)
class Digest:
    """What ran in a span: by job, and by quarters of an hour (executions, and those that weren't done)."""

    since: int
    until: int
    jobs: tuple[OfJob, ...]
    bins: dict[int, tuple[int, int]]
    counts: dict[str, int]  # by state
    frequent: frozenset[str]  # jobs that fire each hour or more often
    rare: int  # executions of the others
    first: tuple[OfJob, ...]  # the first of them, rare ones first
    ranked: tuple[OfJob, ...]  # all of them: those in trouble, then those that take most processor time, then the longest

    @property
    def total(self) -> int:
        return sum(self.counts.values())


def digest_of(folder: str, since: int, until: int) -> Digest:
    with History(folder) as history:
        rows = history.connection.execute(
            "SELECT job, count(*), sum(state = 'done'), sum(state IN ('failed', 'lost', 'missing')), sum(state = 'runs'), "
            "max(coalesce(ended, ?) - fired), max(fired), max(coalesce(cpu, 0)) FROM executions "
            "WHERE fired >= ? AND fired < ? AND job IS NOT NULL GROUP BY job",
            (until, since, until)).fetchall()
        bins = history.connection.execute(
            "SELECT fired / ?, count(*), sum(state IN ('failed', 'lost', 'missing')), sum(state = 'done'), sum(state = 'ended'), "
            "sum(state = 'failed'), sum(state = 'lost'), sum(state = 'runs') FROM executions WHERE fired >= ? AND fired < ? GROUP BY 1",
            (BIN, since, until)).fetchall()
    names = ("done", "ended", "failed", "lost", "runs")
    counts = {name: sum(row[place] for row in bins) for place, name in enumerate(names, 3)}
    counts["missing"] = sum(row[2] for row in bins) - counts["failed"] - counts["lost"]
    jobs = tuple(OfJob(*row) for row in rows)
    often = max(4, (until - since) / HOUR * OFTEN)
    frequent = frozenset(it.job for it in jobs if it.count >= often)
    first = heapq.nsmallest(FIRST, jobs, key=lambda it: (it.job in frequent, it.count if it.job in frequent else 0, -it.last))
    ranked = sorted(jobs, key=lambda it: (-(it.bad > 0), -it.processor, -it.longest))
    return Digest(since, until, jobs, {row[0] * BIN: (row[1], row[2]) for row in bins}, counts, frequent,
                  sum(it.count for it in jobs if it.job not in frequent), tuple(first), tuple(ranked))


class Keeping(Generic[Kept]):
    """Keeps what takes long to be made. What is made quickly is made anew for each page; what isn't is served as it was, and made
    again beside it."""

    def __init__(self) -> None:
        self._lock = threading.Lock()
        self._kept: dict[object, tuple[Kept, float, float]] = {}
        self._making: set[object] = set()

    def get(self, key: object, make: Callable[[], Kept]) -> Kept:
        with self._lock:
            found = self._kept.get(key)
        if found is None or found[2] <= QUICK:
            return self._make(key, make)
        value, made, took = found
        if time.monotonic() - made > REST * took:
            with self._lock:
                begins = key not in self._making
                self._making.add(key)
            if begins:
                threading.Thread(target=self._make, args=(key, make), name="digest", daemon=True).start()
        return value

    def _make(self, key: object, make: Callable[[], Kept]) -> Kept:
        begun = time.monotonic()
        try:
            value = make()
        finally:
            with self._lock:
                self._making.discard(key)
        with self._lock:
            while len(self._kept) > 50:
                del self._kept[next(iter(self._kept))]
            self._kept.pop(key, None)
            self._kept[key] = (value, time.monotonic(), time.monotonic() - begun)
        return value
